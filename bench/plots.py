#!/usr/bin/env python3
"""bench/plots.py: draws the plots of docs/FIGURES.md from bench/figures.json into docs/pictures.

`styles` has how long `tables` takes for a feed of each style, as a part of the time that the fold takes. `screens` has
processor time a screen and commit, in microseconds, of `live` and of a loop that only hands bytes on, by how many
screens there are; `last` has after how many milliseconds the last screen has a commit. No other program is needed. The
plots have no background, and middle greys: they read on white and on black."""
import argparse
import json
from pathlib import Path

HERE = Path(__file__).resolve().parent
PICTURES = HERE.parent / "docs/pictures"
GREY, FAINT, OURS, OTHER = "#747c86", "#9aa1aa", "#3d7edb", "#c98a1b"
FONT = "system-ui, -apple-system, 'Segoe UI', 'DejaVu Sans', Helvetica, Arial, sans-serif"
WIDTH = 760


def svg(height, title, parts):
    head = (
        f'<svg xmlns="http://www.w3.org/2000/svg" viewBox="0 0 {WIDTH} {height}" width="{WIDTH}" height="{height}" '
        f'role="img"\n     font-family="{FONT}" font-size="14">\n  <title>{title}</title>\n'
    )
    return head + "".join(f"  {it}\n" for it in parts) + "</svg>\n"


def text(x, y, words, anchor="start", fill=GREY, weight=400):
    return f'<text x="{x:g}" y="{y:g}" text-anchor="{anchor}" fill="{fill}" font-weight="{weight}">{words}</text>'


def line(x, y, to_x, to_y, color=FAINT, dashes=""):
    more = f' stroke-dasharray="{dashes}"' if dashes else ""
    return f'<path d="M{x:g} {y:g} L{to_x:g} {to_y:g}" stroke="{color}" stroke-width="1.5" fill="none"{more}/>'


def bar(x, y, width, height, color):
    return f'<rect x="{x:g}" y="{y:g}" width="{width:.1f}" height="{height}" rx="3" fill="{color}"/>'


def styles(rows):
    """A bar a style, and a line where the fold is."""
    left, top, step = 300, 34, 30
    scale = (WIDTH - left - 60) / max(1.1, *(it[1] for it in rows))
    bottom = top + step * len(rows)
    parts = [text(left + scale, top - 12, "the fold", "middle", weight=600)]
    for at, (name, share) in enumerate(rows):
        y = top + step * at
        color = OURS if share <= 1 else OTHER
        parts.append(text(left - 10, y + 19, name, "end"))
        parts.append(bar(left, y + 4, scale * share, step - 8, color))
        # A number doesn't stand on the line of the fold.
        place = left + scale * (1 if 0.9 <= share < 1 else share) + 6
        parts.append(text(place, y + 19, f"{share:.2f}"))
    parts.append(line(left + scale, top, left + scale, bottom, GREY, "5 4"))
    return svg(bottom + 12, "Time of tables by the style of a feed, as a part of the time of the fold", parts)


def bars(rows, top, label, unit):
    """Two bars for each number of screens."""
    left, step, most = 120, 46, max(max(it[1:]) for it in rows)
    scale = (WIDTH - left - 150) / most
    parts = [text(left, top - 14, label, weight=600)]
    for at, (count, ours, bare) in enumerate(rows):
        y = top + step * at
        parts.append(text(left - 10, y + 24, f"{count:,}", "end"))
        for shift, value, color, name in ((0, ours, OURS, "live"), (18, bare, OTHER, "bare")):
            width = scale * value
            parts.append(bar(left, y + shift + 2, width, 15, color))
            parts.append(text(left + width + 6, y + shift + 15, f"{value:g} {unit}, {name}"))
    return parts, top + step * len(rows)


def screens(processor, last):
    parts, bottom = bars(processor, 40, "Processor time a screen and commit, by screens", "µs")
    more, bottom = bars(last, bottom + 50, "The last screen has a commit after", "ms")
    title = "What live takes by the number of screens, beside a loop that only hands bytes on"
    return svg(bottom + 10, title, parts + more)


def main():
    argparse.ArgumentParser(
        description=__doc__, formatter_class=argparse.RawDescriptionHelpFormatter
    ).parse_args()
    data = json.loads((HERE / "figures.json").read_text())
    (PICTURES / "styles.svg").write_text(styles(data["styles"]))
    (PICTURES / "screens.svg").write_text(screens(data["screens"], data["last"]))


main()

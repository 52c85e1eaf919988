#!/usr/bin/env python3
"""Times what reads the lines of a feed, `survey`, and a `Splitter` that is fed in pieces: bench/lines.py [MEGABYTES]

Needs the toolchain (rt). The program bench/lines/main.rattle is proved and built in a temporary copy of the crates
below it, with what earlier runs kept of their proofs (without any, this takes some minutes). It reads the feed before
it looks at the clock; `wc -l`, and `tunygarop check` where the built program has it, are timed as whole processes.
The best of three counts."""
import argparse
import os
import shutil
import subprocess
import sys
import tempfile
import time
from functools import partial
from pathlib import Path

TOP = Path(__file__).resolve().parent.parent
PROGRAM = TOP / "crates/tunygarop/out/tunygarop"
# About as many notifications of the generated feed are a megabyte.
NOTIFICATIONS = 4750
TURNS = 3


def number_asked(name, text, word, usual):
    """The number that a script was called with, where the toolchain is there."""
    shape = argparse.RawDescriptionHelpFormatter
    words = argparse.ArgumentParser(prog=f"bench/{name}", description=text, formatter_class=shape)
    words.add_argument("number", metavar=word, type=int, nargs="?", default=usual)
    number = words.parse_args().number
    if not shutil.which("rt"):
        sys.exit(f"bench/{name}: missing: the toolchain (rt)")
    return number


def below(crate):
    """The lines of crates.txt for a crate of the repository and those below it."""
    uses = {}
    for line in (TOP / "crates.txt").read_text().splitlines():
        name, _, rest = line.partition(":")
        if not line.startswith("#"):
            uses[name.split()[0]] = (line, rest.split())
    found, waiting = {}, [crate]
    while waiting:
        name = waiting.pop()
        if name in uses and name not in found:
            found[name], more = uses[name]
            waiting += more
    return found


def built(folder, program="lines", above="feed_note"):
    """The program of bench/PROGRAM, built in this folder."""
    crates = below(above)
    for name in crates:
        shutil.copytree(TOP / "crates" / name, folder / "crates" / name, symlinks=True)
    crate = folder / "crates" / program
    (crate / "src").mkdir(parents=True)
    shutil.copyfile(TOP / "bench" / program / "main.rattle", crate / "src/main.rt")
    own = f"{program}: {' '.join(crates)}\n"
    (folder / "crates.txt").write_text("".join(f"{line}\n" for line in crates.values()) + own)
    words = ["rt", "run", "--", "1"]
    done = subprocess.run(words, cwd=crate, stdin=subprocess.DEVNULL, capture_output=True, text=True)
    if done.returncode != 0:
        sys.exit(f"{done.stdout}{done.stderr}\n{program}: the program was not built")
    return crate / "out" / program


def generated(size, folder):
    """A feed of about this many megabytes."""
    feed = folder / f"feed-{size}.ndjson"
    with open(feed, "wb") as sink:
        subprocess.run([sys.executable, TOP / "bench/feed.py", str(size * NOTIFICATIONS)], stdout=sink, check=True)
    return feed


def answered(program, word, feed):
    """The count and the seconds that the program tells."""
    with open(feed, "rb") as source:
        text = subprocess.run([program, word], stdin=source, capture_output=True, text=True, check=True).stdout
    count, microseconds = text.split()
    return int(count), int(microseconds) / 1e6


def told(program, word, feed, lines):
    """The seconds that the program tells."""
    count, seconds = answered(program, word, feed)
    if count != lines:
        sys.exit(f"lines.py: {word} found {count} lines of {lines}")
    return seconds


def process(words, feed):
    """The seconds of a whole process, or none where it fails."""
    with open(feed, "rb") as source:
        start = time.perf_counter()
        done = subprocess.run(words, stdin=source, stdout=subprocess.DEVNULL, stderr=subprocess.DEVNULL)
        return time.perf_counter() - start if done.returncode == 0 else None


def best(rows):
    """The least seconds of each row, of turns in which all run one after the other."""
    seconds = [{name: run() for name, run in rows.items()} for _ in range(TURNS)]
    return {name: min(turn[name] for turn in seconds) for name in rows}


def main():
    size = number_asked("lines.py", __doc__, "MEGABYTES", 60)
    with tempfile.TemporaryDirectory(prefix="tunygarop-lines-") as name:
        folder = Path(name)
        program, feed = built(folder), generated(size, folder)
        text = feed.read_bytes()
        lines = text.count(b"\n")
        rows = {"`survey`": partial(told, program, "survey", feed, lines)}
        for length in (4096, 64, 1):
            rows[f"`Splitter`, pieces of {length:,}"] = partial(told, program, str(length), feed, lines)
        if PROGRAM.exists() and process([PROGRAM, "check"], feed):
            rows["`tunygarop check`"] = partial(process, [PROGRAM, "check"], feed)
        rows["`wc -l`"] = partial(process, ["wc", "-l"], feed)
        found = best(rows)
        megabytes = len(text) / 1e6
        print(f"{megabytes:.0f} MB, {lines:,} lines; load {os.getloadavg()[0]:.1f} on {os.cpu_count()} processors\n")
        print("| | seconds | MB/s |\n|---|---|---|")
        for row, seconds in found.items():
            print(f"| {row} | {seconds:.3f} | {megabytes / seconds:,.0f} |")
        print("\n| MB in pieces of 1 | seconds | ns a byte |\n|---|---|---|")
        for part in (size // 6, size // 3, 2 * size // 3):
            front = folder / f"front-{part}.ndjson"
            front.write_bytes(text[: part * 1_000_000])
            whole = text.count(b"\n", 0, part * 1_000_000)
            seconds = min(told(program, "1", front, whole) for _ in range(TURNS))
            print(f"| {part} | {seconds:.3f} | {1000 * seconds / part:.1f} |")


if __name__ == "__main__":
    main()

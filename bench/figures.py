#!/usr/bin/env python3
"""Measures one build, and writes the tables of docs/FIGURES.md: bench/figures.py [--only PART,..] [--runs N] [PROGRAM]

PROGRAM is a built program, that of tools/run if it is left out. All is measured in one run on one machine, and goes to
standard output as Markdown, below a line with the date, the machine and the program's sum. What the plots show goes to
bench/figures.json, which is kept for parts that were not measured: call bench/plots.py then. The parts:

- commands: `tables`, `check` and others on the generated feed, beside the fold and jq
- styles: `tables` beside the fold by how servers write, in time and in instructions
- grows: the same by the shape of a feed (bench/shapes.py)
- pulling: `pull` from `serve` and from nginx (bench/pulling.py)
- screens: many screens of `live`, beside a loop that only hands bytes on (bench/screens)
- attacks: how soon a screen has a commit while others take all that they can (tools/live)
- replays: a World Finals that a server replays (tools/live)

--only names parts, with commas between. --runs says how often each command runs, 11 times by default: they run in
turns, and the median counts. Seconds are those of a processor. It needs cargo, librust-serde-json-dev, jq, valgrind,
nginx, curl and cc, Debian's packages, and says which of them a part lacks. All takes some 25 minutes, of which
`screens` is half. How long each part took goes to standard error. The status is 1 if a part could not be measured;
the others are, all the same."""
import argparse
import hashlib
import json
import os
import resource
import shutil
import statistics
import subprocess
import sys
import time
from datetime import datetime, timezone
from pathlib import Path

from measuring import BUILT, HERE, TOP, fold, generated, instructions, lacks_fold, own, scratch, timed
from shapes import SHAPES

from common import free_port

NOTIFICATIONS, OF_A_STYLE, COUNTED = 200_000, 60_000, 30_000
HUGE = {"GLIBC_TUNABLES": "glibc.malloc.hugetlb=1:glibc.malloc.mmap_threshold=262144"}
STYLES = {
    "plain": "as this program writes",
    "tokens": "a token on each line",
    "token-first": "token first",
    "spaces": "spaces after colons and commas",
    "time-last": "a member `time` last",
    "op": "a member `op` within",
    "domjudge": "as DOMjudge, it is believed",
}
# How many screens there are, and the milliseconds between two commits then. How many further ones never read, and how
# many commits are sent.
SCREENS, SLOW, COMMITS = {500: 40, 1_000: 40, 9_000: 400, 10_000: 500}, 20, 100
# The programs that a part needs besides the fold; those in Debian's packages of the same names, but for cc.
NEEDS = {"commands": ("jq", "valgrind"), "styles": ("valgrind",), "grows": (), "pulling": ("nginx", "curl"), "screens": ("cc",)}
FOLDED = ("commands", "styles", "grows")
ATTACKS = (
    "slow_readers_hold_up_nobody_who_has_a_token",
    "those_who_catch_up_hold_up_nobody",
    "visitors_that_close_hold_up_nobody",
    "those_who_are_refused_hold_up_nobody",
)


class Failed(Exception):
    """Why a part could not be measured."""


def table(heads, rows):
    print("| " + " | ".join(heads) + " |")
    print("|" + "---|" * len(heads))
    for row in rows:
        print("| " + " | ".join(str(it) for it in row) + " |")
    print(flush=True)


def in_turns(commands, feed, runs):
    """Of each command its processor seconds, run by run, and the most megabytes that it held."""
    found = {name: [] for name in commands}
    for _ in range(runs):
        for name, (words, more) in commands.items():
            found[name].append(timed(words, feed, more=more))
    return {name: ([it[0] for it in times], max(it[1] for it in times)) for name, times in found.items()}


def ratio(ours, theirs):
    """The median of the ratios, run by run."""
    return statistics.median(a / b for a, b in zip(ours, theirs))


def print_same(program, feed):
    """The program and the fold have to print the same."""
    ours, theirs = scratch() / "ours", scratch() / "theirs"
    timed([program, "tables"], feed, ours)
    timed([fold()], feed, theirs)
    # In a process of its own: what this one has held counts as held by those that it starts.
    if subprocess.run(["cmp", "-s", ours, theirs], check=False).returncode != 0:
        raise Failed(f"the snapshots of {feed.name} differ")


def commands(program, runs):
    feed, small = generated(NOTIFICATIONS), generated(COUNTED)
    print_same(program, feed)
    rows = {
        "`tunygarop tables`": ([program, "tables"], None),
        "the same, with what the units set": ([program, "tables"], HUGE),
        "the same, with `--history 1`": ([program, "tables", "--history", "1"], None),
        "`tunygarop check`": ([program, "check"], None),
        "`tunygarop check --stream`": ([program, "check", "--stream"], None),
        "the fold": ([fold()], None),
    }
    found = in_turns(rows, feed, runs)
    found["`jq`"] = in_turns({"jq": (["jq", "-c", "-n", "-f", HERE / "fold.jq"], None)}, feed, 1)["jq"]
    size, lines, plain = feed.stat().st_size / 1e6, small.read_bytes().count(b"\n"), found["the fold"][0]
    print(f"{NOTIFICATIONS:,} notifications, {size:.0f} MB; instructions of {COUNTED:,}.\n")
    made = []
    for name, (times, held) in found.items():
        seconds = statistics.median(times)
        of_the_fold = f"{ratio(times, plain):.2f}" if len(times) == runs else ""
        counted = f"{instructions(rows[name][0], small) / lines:,.0f}" if name in rows else ""
        made.append((name, f"{seconds:.3f}", f"{size / seconds:,.0f}", of_the_fold, f"{held:.0f}", counted))
    table(("", "seconds", "MB/s", "of the fold", "MB resident", "instructions a line"), made)


def styles(program, runs):
    made, shares = [], []
    for style, name in STYLES.items():
        feed, small = generated(OF_A_STYLE, style), generated(COUNTED, style)
        print_same(program, feed)
        words = {"ours": ([program, "tables"], None), "huge": ([program, "tables"], HUGE), "fold": ([fold()], None)}
        found = in_turns(words, feed, runs)
        shown = [ratio(found[it][0], found["fold"][0]) for it in ("ours", "huge")]
        lines = small.read_bytes().count(b"\n")
        counted = [instructions(words[it][0], small) / lines for it in ("ours", "fold")]
        made.append((name, *(f"{it:.2f}" for it in shown), *(f"{it:,.0f}" for it in counted)))
        shares.append([name.replace("`", ""), round(shown[0], 2)])
    print(f"Time of {OF_A_STYLE:,} notifications as a part of that of the fold; instructions a line, of {COUNTED:,}.\n")
    table(("Style", "`tables`", "with what the units set", "instructions", "the fold's"), made)
    keep(styles=shares)


def grows(program, runs):
    made, plain = [], [fold()]
    for shape, (name, _, _, history) in SHAPES.items():
        feed = scratch() / "shape.ndjson"
        with open(feed, "wb") as sink:
            subprocess.run([sys.executable, HERE / "shapes.py", shape], stdout=sink, check=True)
        words = [program, "tables", *(["--history", history] if history else [])]
        found = in_turns({"ours": (words, None), "fold": (plain, None)}, feed, min(runs, 3))
        seconds, held = ([f"{min(found[it][0]):.3f}" for it in found], [f"{found[it][1]:.0f}" for it in found])
        made.append((name, f"{feed.stat().st_size / 1e6:.1f}", *seconds, *held))
        feed.unlink()
    print(f"The least of {min(runs, 3)} runs. A process counts as its own at least the {own():.0f} MB of this script.\n")
    table(("Feed", "MB", "seconds", "the fold", "MB resident", "the fold"), made)


def pulling(program, runs):
    call = [sys.executable, HERE / "pulling.py", "--runs", str(runs), program]
    done = subprocess.run(call, stdout=subprocess.PIPE, text=True, check=False)
    if done.returncode != 0:
        raise Failed("bench/pulling.py failed")
    print(done.stdout)


def compiled(name):
    """A program of bench/screens, compiled."""
    made = scratch() / name
    subprocess.run(["cc", "-O2", "-o", made, HERE / "screens" / f"{name}.c"], check=True)
    return made


def relayed(words, count, every, slow=0):
    """What a relay took for so many screens: what bench/screens/screens.c prints."""
    server, listen = free_port(), free_port()
    values = {"SERVER": str(server), "LISTEN": str(listen), "SEATS": str(max(1_000, count + slow))}
    words = [values.get(it, it) for it in words]
    ends = {"stdin": subprocess.DEVNULL, "stdout": subprocess.DEVNULL, "stderr": subprocess.DEVNULL}
    relay = subprocess.Popen(words, **ends)
    try:
        asked = (server, listen, "finals", count, slow, COMMITS, every, relay.pid)
        call = [compiled("screens"), *(str(it) for it in asked)]
        done = subprocess.run(call, stdout=subprocess.PIPE, text=True, check=False, timeout=600)
    finally:
        relay.kill()
        relay.wait()
    if done.returncode != 0:
        raise Failed(f"{count} screens: status {done.returncode}")
    return json.loads(done.stdout)


def screens(program, runs):
    # Each screen takes a file.
    most = resource.getrlimit(resource.RLIMIT_NOFILE)[1]
    resource.setrlimit(resource.RLIMIT_NOFILE, (most, most))
    # A feed that comes without an end is shown at once.
    ours = [program, "live", "--host", "127.0.0.1", "--port", "SERVER", "--contest", "finals", "--listen", "LISTEN"]
    ours += ["--screens", "SEATS", "--settle", "0"]
    bare = [compiled("bare"), "SERVER", "LISTEN", "finals"]
    made, used, last = [], [], []
    cases = [(f"{count:,}", count, every, 0) for count, every in SCREENS.items()]
    for name, count, every, slow in [*cases, (f"1,000, and {SLOW} that never read", 1_000, SCREENS[1_000], SLOW)]:
        pairs = [[relayed(words, count, every, slow) for words in (ours, bare)] for _ in range(min(runs, 3))]
        median = {
            it: [statistics.median(pair[who][it] for pair in pairs) for who in (0, 1)] for it in ("used", "late", "resident")
        }
        made.append((name, *(f"{it:.1f}" for it in median["used"] + median["late"]), *(f"{it:.0f}" for it in median["resident"])))
        if not slow:
            used.append([count, *(round(it, 1) for it in median["used"])])
            last.append([count, *(round(it, 1) for it in median["late"])])
    print("Microseconds of a processor a screen and commit; milliseconds until the last screen has a commit.\n")
    table(("Screens", "µs, `live`", "bare", "last, ms", "bare", "MB resident", "bare"), made)
    keep(screens=used, last=last)


def checks_of_live(program, checks):
    """What some checks of tools/live print, a line each."""
    call = [sys.executable, TOP / "tools" / "live", program, *checks]
    done = subprocess.run(call, stdout=subprocess.PIPE, text=True, check=False)
    for line in done.stdout.splitlines():
        print(f"    {line}")
    print(flush=True)
    if done.returncode != 0:
        raise Failed("a check of tools/live failed")


def attacks(program, runs):
    checks_of_live(program, ATTACKS)


def replays(program, runs):
    checks_of_live(program, ("a_world_finals",))


PARTS = {it.__name__: it for it in (commands, styles, grows, pulling, screens, attacks, replays)}


def keep(**measured):
    """Puts what the plots show into bench/figures.json."""
    file = HERE / "figures.json"
    data = {**json.loads(file.read_text()), **measured}
    rows = (f'  "{name}": [\n' + ",\n".join(f"    {json.dumps(it)}" for it in of) + "\n  ]" for name, of in data.items())
    file.write_text("{\n" + ",\n".join(rows) + "\n}\n")


def missing(part):
    """What a part needs and isn't there, and how to have it."""
    if part in FOLDED:
        yield from lacks_fold()
    for name in NEEDS.get(part, ()):
        if not shutil.which(name):
            yield f"{name} (apt-get install {'gcc' if name == 'cc' else name})"


def measured(part, program, runs):
    """Whether a part could be measured. Its table goes to standard output."""
    print(f"## {part}\n", flush=True)
    began = time.monotonic()
    try:
        if lacks := list(missing(part)):
            raise Failed("missing: " + ", ".join(lacks))
        PARTS[part](program, runs)
    except (Failed, subprocess.SubprocessError) as fault:
        print(f"bench/figures.py: {part}: {fault}", file=sys.stderr)
        return False
    print(f"bench/figures.py: {part}: {time.monotonic() - began:.0f} s", file=sys.stderr)
    return True


def machine():
    for line in Path("/proc/cpuinfo").read_text().splitlines():
        if line.startswith("model name"):
            return line.partition(":")[2].strip()
    return "an unknown processor"


def headed(program):
    """What was measured, where and when."""
    commit = subprocess.run(["git", "rev-parse", "--short", "HEAD"], cwd=TOP, capture_output=True, text=True, check=False)
    digest = hashlib.sha256(program.read_bytes()).hexdigest()[:16]
    today = datetime.now(timezone.utc).strftime("%Y-%m-%d %H:%M UTC")
    print(f"Measured on {today}, at commit {commit.stdout.strip() or 'unknown'}, with the program {digest}, ", end="")
    print(f"on {os.cpu_count()} processors ({machine()}), at a load of {os.getloadavg()[0]:.1f}.\n", flush=True)


def main():
    words = argparse.ArgumentParser(
        prog="bench/figures.py", description=__doc__, formatter_class=argparse.RawDescriptionHelpFormatter
    )
    words.add_argument("--only", metavar="PART,..", default=",".join(PARTS))
    words.add_argument("--runs", metavar="N", type=int, default=11)
    words.add_argument("program", metavar="PROGRAM", nargs="?", type=Path, default=BUILT)
    asked = words.parse_args()
    program, wanted = asked.program.resolve(), asked.only.split(",")
    if unknown := [it for it in wanted if it not in PARTS]:
        words.error(f"no such part: {', '.join(unknown)}")
    if not program.exists():
        sys.exit(f"bench/figures.py: no program {program} (tools/run --help builds it)")
    headed(program)
    done = [measured(part, program, asked.runs) for part in wanted]
    sys.exit(0 if all(done) else 1)


if __name__ == "__main__":
    main()

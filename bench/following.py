#!/usr/bin/env python3
"""Times a `Follower` on a generated feed, beside a mirror that is fed the same bytes: bench/following.py [NOTIFICATIONS]

Needs the toolchain (rt). The program bench/following/main.rattle is proved and built in a temporary copy of the
crates below it, as bench/lines.py builds its own. It reads the feed and makes the response before it looks at the
clock. The best of three counts."""
import subprocess
import sys
import tempfile
from functools import partial
from pathlib import Path

from lines import TOP, answered, best, built, number_asked

ROWS = {
    "`Mirror::feed`": "mirror",
    "to the end of the connection": "end",
    "by length": "length",
    "chunks of 65,536": "65536",
    "chunks of 200": "200",
    "a head of 8,192 bytes, one by one": "head",
}


def told(program, word, feed):
    """The seconds that the program tells."""
    return answered(program, word, feed)[1]


def main():
    count = number_asked("following.py", __doc__, "NOTIFICATIONS", 200_000)
    with tempfile.TemporaryDirectory(prefix="tunygarop-following-") as name:
        folder = Path(name)
        program, feed = built(folder, "following", "feed_follow"), folder / "feed.ndjson"
        with open(feed, "wb") as sink:
            subprocess.run([sys.executable, TOP / "bench/feed.py", str(count)], stdout=sink, check=True)
        found = best({row: partial(told, program, word, feed) for row, word in ROWS.items()})
        print(f"{feed.stat().st_size / 1e6:.0f} MB\n\n| | seconds |\n|---|---|")
        for row, seconds in found.items():
            print(f"| {row} | {seconds:.3f} |")


if __name__ == "__main__":
    main()

"""What earlier runs on this machine found, by a sum of all that they read: of edits those that were refused.

It is kept in the folder tunygarop of the user's caches: $XDG_CACHE_HOME, or ~/.cache. Whoever can write there can have an
edit taken for a refused one."""
import os
import sys
import tempfile
from contextlib import suppress
from functools import cache
from hashlib import sha256
from pathlib import Path

from common import TOP

FOLDER = Path(os.environ.get("XDG_CACHE_HOME") or Path.home() / ".cache") / "tunygarop/edits"
# As many findings are kept, those that were used last, each of so many characters.
MOST, LONGEST = 4_000, 1_000


def found(name):
    """What was found before, as a word and a text, or nothing."""
    with suppress(OSError, ValueError):
        kind, text = (FOLDER / name).read_text().split("\n", 1)
        os.utime(FOLDER / name)
        return kind, text
    return None


def keep(name, kind, text):
    """Keeps what was found; without room, nothing."""
    with suppress(OSError):
        FOLDER.mkdir(mode=0o700, parents=True, exist_ok=True)
        with tempfile.NamedTemporaryFile("w", dir=FOLDER, prefix=".", delete=False) as it:
            it.write(f"{kind}\n{text[:LONGEST]}")
        os.replace(it.name, FOLDER / name)


def shrink():
    """Removes what was used longest ago, until no more is kept than may be."""
    with suppress(OSError):
        files = sorted((it.stat().st_mtime, it) for it in FOLDER.iterdir())
        for _, file in files[: max(0, len(files) - MOST)]:
            file.unlink(missing_ok=True)


@cache
def tools_sum():
    """A sum of the tools that this process has loaded."""
    files = {Path(it.__file__).resolve() for it in sys.modules.values() if getattr(it, "__file__", None)}
    files = sorted(it for it in files if it.is_relative_to(TOP / "tools"))
    return sha256("".join(f"{it.name} {sha256(it.read_bytes()).hexdigest()}\n" for it in files).encode()).hexdigest()

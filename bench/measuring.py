"""What the scripts of bench/ share: generated feeds, the fold in plain Rust, processor time and instructions."""
import os
import re
import resource
import shutil
import subprocess
import sys
import tempfile
from pathlib import Path

TOP = Path(__file__).resolve().parent.parent
HERE = TOP / "bench"
BUILT = TOP / "crates/tunygarop/out/tunygarop"
REGISTRY = Path("/usr/share/cargo/registry")
CONFIG = f"""[source.crates-io]
replace-with = "debian"
[source.debian]
directory = "{REGISTRY}"
"""

sys.path.insert(0, str(TOP / "tools"))
sys.dont_write_bytecode = True


def scratch():
    """A folder for feeds and for the fold, which the next run uses again."""
    folder = Path(tempfile.gettempdir()) / "tunygarop-bench"
    folder.mkdir(exist_ok=True)
    return folder


def generated(count, style="plain"):
    """The generated feed of so many notifications in a style."""
    feed = scratch() / f"feed-{count}-{style}.ndjson"
    with open(feed, "wb") as sink:
        subprocess.run([sys.executable, HERE / "feed.py", str(count), "1", style], stdout=sink, check=True)
    return feed


def lacks_fold():
    """What the fold needs and isn't there, and how to have it."""
    if not any(REGISTRY.glob("serde_json-*")):
        yield "serde_json (apt-get install librust-serde-json-dev)"
    if not shutil.which("cargo"):
        yield "cargo (apt-get install cargo)"


def fold():
    """The fold, built from Debian's crates outside the repository."""
    folder = scratch() / "rust"
    (folder / "src").mkdir(parents=True, exist_ok=True)
    (folder / ".cargo").mkdir(exist_ok=True)
    (folder / ".cargo/config.toml").write_text(CONFIG)
    for name in ("Cargo.toml", "src/main.rs"):
        (folder / name).write_text((HERE / "rust" / name).read_text())
    subprocess.run(["cargo", "build", "--release", "--offline", "--quiet"], cwd=folder, check=True)
    return folder / "target/release/fold"


def timed(words, feed, out=os.devnull, more=None):
    """The seconds of a processor that a command took, and the greatest resident size in MB. `more` is added to its
    environment. A process counts as its own at least what this one held when it was started."""
    with open(feed, "rb") as source, open(out, "wb") as sink:
        process = subprocess.Popen(words, stdin=source, stdout=sink, env={**os.environ, **(more or {})})
        _, status, usage = os.wait4(process.pid, 0)
    process.returncode = os.waitstatus_to_exitcode(status)
    if process.returncode != 0:
        sys.exit(f"{' '.join(str(it) for it in words)}: status {process.returncode}")
    return usage.ru_utime + usage.ru_stime, usage.ru_maxrss / 1024


def own():
    """What this process has held at most, in MB."""
    return resource.getrusage(resource.RUSAGE_SELF).ru_maxrss / 1024


def instructions(words, feed):
    """How many instructions a command takes on a feed, as callgrind counts them."""
    with open(feed, "rb") as source:
        done = subprocess.run(
            ["valgrind", "--tool=callgrind", "--callgrind-out-file=/dev/null", *words],
            stdin=source, stdout=subprocess.DEVNULL, stderr=subprocess.PIPE, text=True, check=True,
        )
    return int(re.search(r"Collected : (\d+)", done.stderr)[1])

#!/usr/bin/env python3
"""How commands share the machine: tools/sharing.py COMMAND.. runs one beside others, at the lowest priority

The toolchain's gate proves one crate after another, so it decides how long tools/check takes, and must not be slowed
by what runs beside it. Two things see to that. What runs beside it has the lowest priority; and heavy commands, such
as builds and proofs, take a slot each, of which there are half as many as processors, or as many as memory bears.
Without the gate there is one a processor."""
import errno
import fcntl
import os
import re
import signal
import subprocess
import sys
import tempfile
import time
from contextlib import contextmanager, suppress
from pathlib import Path

# The variable of the environment with the folder of slots, a file for each, that the parts of one run share.
SLOTS = "TUNYGAROP_SLOTS"

# As much memory as is left to the toolchain's gate, as a heavy command takes beside it, and as the proof of a crate
# takes, in bytes.
OF_GATE, OF_ONE, OF_PROOF = 8_000_000_000, 2_500_000_000, 3_500_000_000

# As much memory, in bytes, as lets the toolchain's gate plan by itself: by its own reckoning its two largest crates, of
# 11.7 and 10.4 GB, fit side by side.
AMPLE = 30_000_000_000


def processors():
    return len(os.sched_getaffinity(0))


# ---- slots


def workers():
    """How many commands to run at one time: as many as there are slots, or one a processor where none are shared."""
    folder = os.environ.get(SLOTS)
    return len(os.listdir(folder)) if folder else processors()


@contextmanager
def slot():
    """Waits for a slot, and has it until its end; where no slots are shared, at once. A slot is a lock on a file, so
    that the kernel frees it however its holder ends."""
    folder = os.environ.get(SLOTS)
    held = None
    while folder and held is None:
        held = free_slot(Path(folder))
        if held is None:
            time.sleep(0.1)
    try:
        yield
    finally:
        if held is not None:
            os.close(held)


def free_slot(folder):
    """A slot that nobody holds, or nothing."""
    for file in folder.iterdir():
        held = os.open(file, os.O_RDWR | os.O_CLOEXEC)
        try:
            fcntl.flock(held, fcntl.LOCK_EX | fcntl.LOCK_NB)
            return held
        except BlockingIOError:
            os.close(held)
    return None


@contextmanager
def shared_slots(is_beside):
    """Slots that are shared by what is started from now on, beside the toolchain's gate or without it."""
    with tempfile.TemporaryDirectory(prefix="slots-") as room:
        folder = Path(room) / "slots"
        folder.mkdir()
        for number in range(slots(is_beside)):
            (folder / str(number)).touch()
        if is_beside:
            gate_of(folder).touch()
        os.environ[SLOTS] = str(folder)
        try:
            yield
        finally:
            del os.environ[SLOTS]


def slots(is_beside):
    """As many as there are processors, but at least one and no more than there is memory for. Beside the gate half as many:
    two processors mostly share a core, so even what has the lowest priority slows it."""
    if not is_beside:
        return max(1, min(processors(), memory() // OF_ONE))
    return max(1, min(processors() // 2, (memory() - OF_GATE) // OF_ONE))


def lanes():
    """How many crates the toolchain's gate may prove at one time: as many as there are processors, but at least one and
    no more than there is memory for beside the heavy commands."""
    return max(1, min(processors(), (memory() - OF_ONE * workers()) // OF_PROOF))


def memory():
    """The memory of the machine, in bytes."""
    return int(re.search(r"^MemTotal: +(\d+) kB$", Path("/proc/meminfo").read_text(), re.M)[1]) * 1024


# ---- limits


# How long a command is waited for by the clock, in seconds, and after how many it is looked at. The clock stands still while
# the gate runs: what has the lowest priority may wait for a processor until then.
FAR, OFTEN = 3_600, 5


def gate_of(folder):
    """The file that is there while the toolchain's gate runs beside who shares these slots."""
    return folder.with_name("gate")


def gate_has_ended():
    """From now on the clock of those that share the slots goes on."""
    gate_of(Path(os.environ[SLOTS])).unlink(missing_ok=True)


def waits():
    """Yields again and again, for who then waits a little, until that has been too long."""
    folder, waited, then = os.environ.get(SLOTS), 0.0, time.monotonic()
    while waited < FAR:
        yield
        now = time.monotonic()
        waited += 0 if folder and gate_of(Path(folder)).exists() else now - then
        then = now


def within(seconds, words):
    """The words of a command that is stopped after so many seconds of a processor, as is each that it starts."""
    return ["/bin/sh", "-c", 'ulimit -S -t "$0"; exec "$@"', str(seconds), *map(str, words)]


def limited(words, seconds, *, given="", **how):
    """As subprocess.run, for a command that is given a text and may take so many seconds of a processor: a limit by the clock
    would say how much else runs. TimeoutExpired says that it took more, or far too long by the clock."""
    with tempfile.TemporaryFile("w+") as file:
        file.write(given)
        file.seek(0)
        with subprocess.Popen(within(seconds, words), stdin=file, **how) as ran:
            try:
                told = communicated(ran)
            finally:
                ran.kill()
    if told is None or ran.returncode == -signal.SIGXCPU:
        raise subprocess.TimeoutExpired(words, seconds)
    return subprocess.CompletedProcess(words, ran.returncode, *told)


def communicated(ran):
    """What a command prints until its end, or nothing if that is waited for too long."""
    for _ in waits():
        with suppress(subprocess.TimeoutExpired):
            return ran.communicate(timeout=OFTEN)
    return None


# ---- priority


def is_grouped():
    """Whether the kernel shares processors among sessions first, and only then among the commands of each."""
    try:
        return Path("/proc/sys/kernel/sched_autogroup_enabled").read_text().strip() == "1"
    except OSError:
        return False


def lower_priority():
    """Gives this process, and what it starts, the lowest priority. Where processors are shared among sessions, its session
    gets the lowest one, too, so it should be the session's first process."""
    os.nice(19)
    for _ in range(30 if is_grouped() else 0):
        try:
            Path("/proc/self/autogroup").write_text("19")
            return
        except OSError as error:
            # The kernel takes such a wish ten times a second, from all processes together.
            if error.errno != errno.EAGAIN:
                return
            time.sleep(0.1)


if __name__ == "__main__":
    if sys.argv[1:] in ([], ["-h"], ["--help"]):
        sys.exit(print(__doc__))
    with suppress(PermissionError):
        os.setsid()
    lower_priority()
    os.execvp(sys.argv[1], sys.argv[1:])

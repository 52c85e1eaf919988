"""How a crate of the repository is proved: the words of the prover's call, and the libraries below the crate.

The toolchain's gate leaves the library of a crate in crates/NAME/out/rlib, and tools/prove makes one in
crates/NAME/out/dev. A library is current if it was made of the crate's sources as they are now, over the libraries that
now stand below it, by this toolchain. A file `made_of` beside it has the sum of these. The gate writes none: what it left
is current, and gets one, if no source was written since the gate began."""
import fcntl
import os
import shutil
import sys
from contextlib import contextmanager, suppress
from functools import cache
from hashlib import sha256
from pathlib import Path

from building import KIT, TOP, lower

# The folders with what a crate is proved from.
PARTS = "src", "specs", "proofs"
# The file beside a library that says what it was made of.
MADE_OF = "made_of"
# The file of git's folder that the toolchain's gate writes when it begins.
GATE = "rt-ci.lock"


class Crate:
    """A crate, the crates below it, and where what is made of it stands."""

    def __init__(self, name, uses):
        self.name, self.folder, self.uses, self.lower = name, TOP / "crates" / name, uses[name], lower(name, uses)
        self.of_gate, self.own, self.kept = (self.folder / "out" / it for it in ("rlib", "dev", "incremental"))
        self.root = "src/main.rt" if (self.folder / "src/main.rt").is_file() else "src/lib.rt"

    def is_program(self):
        return self.root == "src/main.rt"

    def sources(self):
        found = [it for part in PARTS for it in (self.folder / part).rglob("*")]
        return sorted(it for it in found if it.is_file())

    def sum(self):
        """The sum of what the crate itself is made of."""
        found = sha256(f"{self.name} {self.uses}\n".encode())
        for file in self.sources():
            found.update(f"{file.relative_to(self.folder)} {sha256(file.read_bytes()).hexdigest()}\n".encode())
        return found.hexdigest()

    def changed(self):
        """When a source was last written, or came, or went."""
        folders = [it for part in PARTS for it in [self.folder / part, *(self.folder / part).rglob("*/")]]
        files = [it.stat() for it in [*self.sources(), *folders] if it.exists()]
        return max(time for it in files for time in (it.st_mtime, it.st_ctime))

    def call(self, verb, libraries, jobs=1):
        """The prover's call for the crate: its name, its sources, the libraries that it stands on, and the logic."""
        at = {it: libraries.folder(it) for it in self.lower}
        words = [f"{KIT}/bin/rattle", verb, "--crate-name", self.name, self.root, "-L", f"dependency={KIT}/rlibs"]
        for it in dict.fromkeys(["std", *self.uses]):
            words += ["--extern", f"{it}={at.get(it, f'{KIT}/rlibs')}/{it}.rlib"]
        words += [word for it in at.values() for word in ("-L", f"dependency={it}")]
        words += ["--antt-project", f"{KIT}/rattle/logic/antt-project.json", "--logic-built", f"{KIT}/logic_built"]
        return [*words, "--jobs", str(jobs)]


class Libraries:
    """The libraries of all crates, and which of them are current, as it was when each was first asked for."""

    def __init__(self, uses):
        self.crates, self.found = {name: Crate(name, uses) for name in uses}, {}

    def current(self, name):
        """The folder that has the current library of a crate, or nothing."""
        if name not in self.found:
            crate = self.crates[name]
            made_of = self.made_of(crate)
            noted = [it for it in (crate.own, crate.of_gate) if made_of and text_of(it / MADE_OF) == made_of]
            self.found[name] = next(iter(noted), None)
            if made_of and not noted and self.is_as_left(crate):
                self.take(name, crate.of_gate, made_of)
        return self.found[name]

    def folder(self, name):
        """The folder that has the library of a crate: the current one, or else the one that was left."""
        crate = self.crates[name]
        return self.current(name) or (crate.of_gate if is_there(crate, crate.of_gate) else crate.own)

    def made_of(self, crate):
        """The sum of what a library of the crate is made of now, or nothing if one below is not current."""
        found = sha256(f"{kit_sum()} {crate.sum()}\n".encode())
        for it in crate.lower:
            at = self.current(it)
            if not at:
                return None
            found.update(f"{it} {sha256((at / f'{it}.rlib/format').read_bytes()).hexdigest()}\n".encode())
        return found.hexdigest()

    def is_as_left(self, crate):
        """Whether the gate made the library, as no file says, of what is there now."""
        if (crate.of_gate / MADE_OF).exists() or not is_there(crate, crate.of_gate):
            return False
        began = min([(crate.of_gate / f"{crate.name}.rlib").stat().st_mtime, *gate_began()])
        is_over = all(self.current(it) == self.crates[it].of_gate for it in crate.lower)
        return is_over and max(crate.changed(), (KIT / "KIT-ID").stat().st_ctime) < began

    def take(self, name, folder, made_of):
        """Notes what the library was made of that now stands in a folder."""
        (folder / MADE_OF).write_text(made_of)
        self.found[name] = folder

    def missing(self, names):
        """Those of these crates that have no library at all."""
        crates = [self.crates[it] for it in names]
        return [it.name for it in crates if not any(is_there(it, at) for at in (it.own, it.of_gate))]

    def needed(self, names, tool):
        """Ends the tool if a library below these crates is missing, or is not current."""
        below = [it for it in self.crates if any(it in self.crates[name].lower for name in names)]
        lacking = self.missing(below)
        if lacking:
            sys.exit(f"{tool}: {lacks(lacking)}")
        stale = [it for it in below if not self.current(it)]
        if stale:
            sys.exit(f"{tool}: older than what they are made of: {' '.join(stale)}; tools/prove {' '.join(names)} makes them")


def lacks(names):
    return f"no library of {' '.join(names)}; tools/check and 'rt ci' leave it in crates/NAME/out, which may be copied"


def is_there(crate, folder):
    return (folder / f"{crate.name}.rlib/format").is_file()


def text_of(file):
    with suppress(OSError):
        return file.read_text()
    return ""


def gate_began():
    """When the last gate of this tree began, if that is known."""
    git = TOP / ".git"
    if git.is_file():
        git = Path(git.read_text().strip().removeprefix("gitdir: "))
    with suppress(OSError):
        return [(git / GATE).stat().st_mtime]
    return []


@cache
def kit_sum():
    """A sum of the toolchain: of the texts that name it, of its libraries, and the size and time of each file of the prover
    and of the logic."""
    found = sha256()
    for file in [KIT / "KIT-ID", KIT / "WHAT", *sorted(KIT.glob("rlibs/*/format"))]:
        found.update(f"{file} {sha256(file.read_bytes()).hexdigest()}\n".encode())
    for file in [KIT / "bin/rattle", *sorted(KIT.glob("logic_built/**/*")), *sorted(KIT.glob("rattle/logic/**/*"))]:
        stat = file.stat()
        found.update(f"{file} {stat.st_size} {stat.st_mtime_ns}\n".encode())
    return found.hexdigest()


@contextmanager
def alone(crates):
    """Waits until no command of the toolchain, and no other tools/prove, works in the folders of these crates."""
    folders = sorted(it.folder for it in crates)
    held = [os.open(it, os.O_RDONLY) for it in folders]
    try:
        for folder, it in zip(folders, held):
            try:
                fcntl.flock(it, fcntl.LOCK_EX | fcntl.LOCK_NB)
            except BlockingIOError:
                print(f"waiting for what works in {folder}", file=sys.stderr, flush=True)
                fcntl.flock(it, fcntl.LOCK_EX)
        yield
    finally:
        for it in held:
            os.close(it)


def forget_libraries(uses):
    """Removes the libraries of out/rlib before a gate: the toolchain's gate puts back what it finds there, in the place of
    what it makes. 'rt check' makes its own again, of what it kept."""
    crates = [Crate(name, uses) for name in uses]
    with alone(crates):
        for it in crates:
            shutil.rmtree(it.of_gate, ignore_errors=True)

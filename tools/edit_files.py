"""The edits of the crates, wrong bodies that contracts have to refuse: what each file says, and whether it fits the
sources, as far as that can be seen with no proof."""
import re
import sys
from functools import cache
from hashlib import sha256

from building import listed, lower
from common import TOP
from contracts import FUNCTION, QUOTED, contract_at, function_at, function_with, head_of, is_of_trait

# The set of the edits that tools/check doesn't try.
FURTHER = "further"


class Edit:
    """One wrong body: the function that it makes wrong, the clause that refuses it, and the texts that it changes."""

    def __init__(self, path):
        self.crate, self.name, self.pairs = path.parent.parent.name, path.stem, []
        self.function = self.clause = self.set = file = old = None
        self.unknown = []
        for line in path.read_text().split("\n"):
            word, _, text = line.partition(": ")
            if word == "function":
                self.function = text.strip()
            elif word == "clause":
                self.clause = text.strip()
            elif word == "set":
                self.set = text.strip()
            elif word == "file":
                file = text.strip()
            elif word == "old":
                old = text
            elif word == "new":
                self.pairs.append((file, old, text))
            elif line.strip():
                self.unknown.append(line)
        if not all([self.function, self.clause, self.pairs, *[it for pair in self.pairs for it in pair[:2]]]):
            sys.exit(f"edits: {path} lacks a function, a clause, a file or a text")
        # The function that is tried for it, and whether that keeps all its clauses.
        self.tried, self.keeps_all = self.function, False

    def __str__(self):
        return f"{self.crate}/{self.name}"

    def is_further(self):
        """Whether it is of the set that tools/check leaves to tools/edits."""
        return self.set == FURTHER

    def applied(self, folder):
        """The files that it changes, as they are after it, by their path; or None if a text isn't there exactly once."""
        texts = {}
        for file, old, new in self.pairs:
            text = texts.get(file) or (folder / file).read_text()
            if text.count(old) != 1:
                return None
            texts[file] = text.replace(old, new)
        return texts


def every_edit():
    return [Edit(path) for path in sorted(TOP.glob("crates/*/edits/*.edit"))]


# ---- on which sources all edits of a crate were refused


def record_of(crate):
    """The file that says on which sources all edits of a crate were refused last; it may be missing."""
    return TOP / "crates" / crate / "edits" / "TRIED"


def recorded(crate, edits):
    """What that file says if all edits of the crate, which are these, were refused on its sources as they are now. The
    sources are its code and its definitions, without comments. Proofs don't count, since they change no contract."""
    folder, found = TOP / "crates" / crate, sha256()
    for file in sorted([*folder.glob("src/**/*.rt"), *folder.glob("specs/**/*.antt")]):
        found.update(f"{file.relative_to(folder)}\n{without_comments(file)}\n".encode())
    for it in edits:
        found.update(f"{it.name} {it.function} {it.clause} {it.pairs}\n".encode())
    return f"edits: {len(edits)}, each refused on the sources with the sum {found.hexdigest()[:16]}\n"


def recorded_below(crate):
    """What the second line of that file says of the crates below: what they state, which is their definitions and their
    code without bodies of functions. A contract there may be what refuses an edit."""
    return f"below: stated with the sum {sum_below(crate)}\n"


@cache
def sum_below(crate):
    found = sha256()
    for it in sorted(lower(crate, listed(TOP / "crates.txt"))):
        found.update(stated_by(it))
    return found.hexdigest()[:16]


@cache
def stated_by(crate):
    """A sum of what a crate states."""
    folder, found = TOP / "crates" / crate, sha256()
    for file in sorted([*folder.glob("src/**/*.rt"), *folder.glob("specs/**/*.antt")]):
        text = without_comments(file, without_bodies)
        found.update(f"{crate}/{file.relative_to(folder)}\n{text}\n".encode())
    return found.digest()


def without_bodies(text):
    """A Rattle text without the bodies of its functions."""
    plain = QUOTED.sub(lambda found: re.sub(r"[^\n]", " ", found[0]), text)
    bodies, end = [], 0
    for it in FUNCTION.finditer(plain):
        made = function_at(plain, it) if it.start() >= end else None
        if made:
            bodies.append(made.body)
            end = made.body.stop
    for body in reversed(bodies):
        text = f"{text[: body.start]}{{}}{text[body.stop :]}"
    return text


def without_comments(file, first=lambda text: text):
    """The lines of a file of sources that are no comments, and not empty; of a Rattle file after what comes first."""
    text = file.read_text()
    if file.suffix == ".rt":
        text = first(text)
        text = QUOTED.sub(lambda found: "" if found[0].startswith("//") else found[0], text)
    lines = [line.rstrip() for line in text.split("\n")]
    return "\n".join(line for line in lines if line and not line.lstrip().startswith("--"))


# ---- whether an edit fits the sources


def faults(edit):
    """What of an edit doesn't fit the sources."""
    folder = TOP / "crates" / edit.crate
    found = [f"has a line that says nothing: {line}" for line in edit.unknown]
    if edit.set not in (None, FURTHER):
        found.append(f"is of the set {edit.set}, which nobody tries")
    lacks = [file for file, _, _ in edit.pairs if not (folder / file).is_file()]
    if lacks:
        return [*found, f"there is no file {', '.join(lacks)}"]
    if any(old == new for _, old, new in edit.pairs):
        found.append("changes nothing")
    edited = edit.applied(folder)
    if edited is None:
        return [*found, "an old text is not in its file exactly once"]
    file, old, new = edit.pairs[0]
    text, edited, name = (folder / file).read_text(), edited[file], edit.function.rpartition("::")[2]
    function, wrong = function_with(text, name, old), function_with(edited, name, new)
    if not function or not wrong:
        return [*found, f"its first text is not in the body of a function {name}"]
    if not has_path(edit.function, folder / "src", text, folder / file, function):
        found.append(f"{edit.function} is not the function of {file} that it changes")
    code = edited[wrong.start : wrong.body.stop]
    if not has_clause(edit.clause, function, text, code, folder / "src"):
        found.append(f"{edit.function} has no clause {edit.clause}, as the prover names it")
    return found


def module_of(sources, file):
    parts = file.relative_to(sources).with_suffix("").parts
    return "::".join(it for it in parts if it not in ("lib", "main"))


def files_of(sources, module):
    """The files that may be those of a module, its root among them."""
    path = sources / module.replace("::", "/")
    return [it for it in ([path.with_suffix(".rt")] if module else [sources / "lib.rt", sources / "main.rt"]) if it.is_file()]


def owner(text, function):
    """The type whose function it is, and the trait that asks for it, each a name or nothing."""
    head = head_of(text, function)
    if head is None:
        return None, None
    while "<" in head and head != (head := re.sub(r"<[^<>]*>", "", head)):
        pass
    trait, _, kind = head.partition(" ")[2].rpartition(" for ")
    return [found[0] if (found := re.search(r"\w+", it)) else None for it in (kind, trait)]


def has_path(path, sources, text, file, function):
    """Whether the prover names a function so: by the module that declares its type, or has the function if it has none."""
    place = path.split("::")[:-1]
    kind, trait = owner(text, function)
    if kind is None:
        return "::".join(place) == module_of(sources, file)
    module, named = "::".join(place[:-1]), place[-1] if place else ""
    # Of a generic type that is given one, the name has what it is given, as `Tree+ObjectText`.
    named, _, given = named.partition("+")
    if named != kind + (trait or "") or given and given not in head_of(text, function):
        return False
    declared = re.compile(rf"^(?:pub(?:\([^)]*\))? )?(?:struct|enum|trait) {kind}\b", re.M)
    is_declared = any(declared.search(it.read_text()) for it in files_of(sources, module))
    return is_declared or bool(trait or given) and module == module_of(sources, file)


def clauses_of(text, function):
    """The clauses that a function has; of one that a trait asks for, and that has none of its own, those of the trait."""
    if function.clauses or not is_of_trait(text, function):
        return function.clauses
    return asked_of(owner(text, function)[1]).get(function.name, [])


@cache
def asked_of(trait):
    """The clauses of each function that a trait of the repository asks for."""
    found = {}
    for file in TOP.glob("crates/*/src/**/*.rt"):
        text = file.read_text()
        begin = re.search(rf"^(?:pub )?trait {trait}\b", text, re.M)
        if begin:
            end = text.find("\n}", begin.end())
            for name in FUNCTION.finditer(text, begin.end(), end):
                found[name[1]] = contract_at(text, name)[0]
    return found


@cache
def asking():
    """For the name of each function of the repository whether one of that name asks something of its callers."""
    found = {}
    for file in TOP.glob("crates/*/src/**/*.rt"):
        text = file.read_text()
        for it in FUNCTION.finditer(text):
            found[it[1]] = found.get(it[1], False) or asks(text, it)
    return found


def asks(text, found):
    return any(it.kind == "requires" for it in contract_at(text, found)[0])


def has_clause(clause, function, text, code, sources):
    """Whether the prover may name a goal of a function by this clause. The code is that of the function as the edit makes
    it."""
    labels = [it.label for it in clauses_of(text, function) if it.kind == "ensures" and not it.is_starred]
    if clause == "returns":
        return len(labels) == 1 or "" in labels
    callee, is_asked, _ = clause.rpartition("-requires")
    if is_asked:
        return asking().get(callee, True) and re.search(rf"\b{callee}\b", code) is not None
    if clause.startswith("invariant_of-"):
        value = clause.removeprefix("invariant_of-")
        of_self = value != "self" or has_invariant(owner(text, function)[0], sources)
        return of_self and re.search(rf"\b{value}\b", code) is not None
    if clause.startswith("loop-"):
        over = re.escape(clause.removeprefix("loop-"))
        return re.search(rf"\bfor [^{{}}]*\b{over}\b[^{{}}]* in\b|'{over}: ", code) is not None
    return len(labels) > 1 and clause in labels


def has_invariant(kind, sources):
    """Whether a type of a crate has an invariant."""
    head = re.compile(rf"^(?:(?:pub(?:\([^)]*\))? )?(?:struct|enum)|impl[^\n]* for) {kind}\b.*?^\}}", re.M | re.S)
    found = [it for file in sources.rglob("*.rt") for it in head.findall(file.read_text())]
    return any(re.search(r"^ +ghost (invariant =|\w+: )", it, re.M) for it in found)

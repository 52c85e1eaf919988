"""What the command line declares: each command with its options, as the sources of crates/feed_arguments/src/words have
them. Help prints these texts, and tools/docs makes of them the completions and the lists of options."""
import functools
import re
from dataclasses import dataclass, field, replace

from common import TOP

WORDS = TOP / "crates/feed_arguments/src/words"
LIMITS = TOP / "crates/feed_settings/src"

# A text of Rust, whose lines may end in a backslash, and a row of a table: a struct, or a constant by its name.
TEXT = r'"((?:[^"\\]|\\.|\\\n)*)"'
ROW = re.compile(r"Declared \{((?:[^{}\"]|" + TEXT + r")*?)\.\.([A-Z_]+),?\s*\}|^ *([A-Z_]+),$", re.M)
TABLE = re.compile(r"(?:const|static) ([A-Z_]+): (\[)?Declared\b[^=]*=(.*?);$", re.M | re.S)


@dataclass(frozen=True)
class Option:
    """An option: its name; the word for its value, if it has one, and whether that stands without the name; the least
    and the most of a number; what help says; and the value without it."""

    name: str = ""
    word: str = ""
    is_alone: bool = False
    least: int | None = None
    most: int | None = None
    help: str = ""
    default: str | None = None
    is_required: bool = False

    @property
    def range(self):
        return "" if self.most is None else f"{self.least} to {self.most}"


@dataclass
class Command:
    """A command: what it does, and its options by the titles of their sections, of which the first may be empty."""

    name: str
    about: str = ""
    sections: dict[str, list[Option]] = field(default_factory=dict)

    @property
    def options(self):
        return [option for options in self.sections.values() for option in options]


def text_in(literal):
    """The text of a literal: a backslash at the end of a line takes the space after it away."""
    return re.sub(r"\\(.)", r"\1", re.sub(r"\\\n\s*", "", literal))


@functools.cache
def sources():
    return {it.name: it.read_text() for it in sorted(WORDS.glob("*.rt"))}


@functools.cache
def numbers():
    """The constants that are numbers."""
    texts = [*sources().values(), *(it.read_text() for it in sorted(LIMITS.glob("*.rt")))]
    found = re.findall(r"const ([A-Z_]+): \w+ = ([\d_]+);", "\n".join(texts))
    return {name: int(number.replace("_", "")) for name, number in found}


def number_of(text):
    word = text.strip().removesuffix(" as u64")
    return numbers()[word] if word in numbers() else int(word.replace("_", ""))


def changed(option, fields):
    """The option with what a row says of it."""
    new = {}
    for name in ("name", "help"):
        if found := re.search(rf"\b{name}: {TEXT}", fields):
            new[name] = text_in(found[1])
    if found := re.search(rf"\bdefault: Some\({TEXT}\)", fields):
        new["default"] = text_in(found[1])
    if found := re.search(r"\brequired: (true|false)", fields):
        new["is_required"] = found[1] == "true"
    if found := re.search(rf"\bvalue: Value::(\w+)\({TEXT}(?:, ([^,()]+), ([^,()]+))?\)", fields):
        new.update(word=found[2], is_alone=found[1] == "Alone", least=None, most=None)
        if found[3]:
            new.update(least=number_of(found[3]), most=number_of(found[4]))
    return replace(option, **new)


@functools.cache
def tables():
    """The tables of options, and the options that tables share, as tables of one."""
    waiting = {name: (bool(many), body) for it in sources().values() for name, many, body in TABLE.findall(it)}
    found = {"PLAIN": [Option()]}
    waiting.pop("PLAIN", None)
    while waiting:
        ready = {name: rows for name, (_, body) in waiting.items() if (rows := rows_in(body, found)) is not None}
        if not ready:
            raise SystemExit(f"declared: tables that name what isn't there: {', '.join(waiting)}")
        found.update(ready)
        waiting = {name: it for name, it in waiting.items() if name not in ready}
    return found


def rows_in(body, known):
    """The options of a table; None while it names one that isn't known."""
    rows = []
    for fields, _, base, alone in ROW.findall(body):
        if (base or alone) not in known:
            return None
        rows += [changed(it, fields) for it in known[base or alone]]
    return rows


@functools.cache
def functions():
    """The functions, each with its body."""
    found = {}
    for text in sources().values():
        parts = re.split(r"^(?:pub(?:\([a-z]+\))? )?fn (\w+)", text, flags=re.M)
        found.update(zip(parts[1::2], parts[2::2]))
    return found


def rows_of(name):
    """The options of what is given to a call: a table, none, or what a function answers."""
    if name.startswith("&"):
        return tables().get(name[1:], [])
    return tables()[re.search(r"&([A-Z_]+)", functions()[name.removesuffix("()")])[1]]


def command_in(body):
    """The command that a function declares."""
    texts = {name: text_in(text) for name, text in re.findall(rf"let (\w+) =\s*{TEXT};", body)}
    name, about, table = re.search(r'\bcommand\(alloc, "([\w-]+)", (\w+), (&\[\]|[&\w()]+)\)', body).groups()
    sections = {"": rows_of(table)}
    for further in re.findall(r"\badd_options\(.*, (&[A-Z_]+)\)", body):
        sections[""] = sections[""] + rows_of(further)
    for title, table in re.findall(r'\badd_section\([^"]*"([^"]+)", ([&\w()]+?)\);?$', body, re.M):
        sections[title] = rows_of(table)
    return Command(name, texts[about], {title: rows for title, rows in sections.items() if rows})


def commands_from(function):
    """The commands that are declared by a function, or by those that it calls, in the order of help."""
    body = functions()[function]
    found = []
    for called, name in re.findall(r'\b(\w+)\(alloc(?:, "([\w-]+)")?', body):
        if called == "command" and name:
            found.append(command_in(body))
        elif called in functions() and called not in ("command", function):
            found += commands_from(called)
    return found


@functools.cache
def commands():
    """Each command of the program by its name, in the order of help."""
    return {it.name: it for it in commands_from("command_line")}

"""The functions of a Rattle file, each with its clauses and its body: enough to take clauses out of a copy."""
import re

# What says nothing of where a function ends: a comment, a text, a character.
QUOTED = re.compile(r"""//[^\n]*|b?"(?:\\.|[^"\\])*"|b?'(?:\\.|[^'\\\n])'""", re.S)
FUNCTION = re.compile(r"\bfn (\w+)")
CLAUSE = re.compile(r"\b(requires|ensures|ghost)(\*?)\s*(\w*)\s*:?\s*$")
PAIRS = {"(": ")", "{": "}", "<": ">"}


class Clause:
    """A clause of a contract: its kind, its label, and where it stands in the text."""

    def __init__(self, found, start, end):
        self.kind, self.is_starred, self.label = found[1], bool(found[2]), found[3]
        self.start, self.end = start, end


class Function:
    """A function: its name, its clauses, and where its body stands in the text."""

    def __init__(self, name, start, clauses, body):
        self.name, self.start, self.clauses, self.body = name, start, clauses, body


def closed(text, at):
    """The place behind the bracket that closes the one at a place."""
    opens, depth = text[at], 0
    for place in range(at, len(text)):
        # The arrow of a function's type closes nothing.
        if text[place] == PAIRS[opens] and text[place - 1 : place + 1] != "->":
            depth -= 1
            if depth == 0:
                return place + 1
        elif text[place] == opens:
            depth += 1
    return len(text)


def contract_at(text, found):
    """The clauses of the function whose name was found, and the place of its body, or nothing if it has none."""
    at, clauses = found.end(), []
    if text[at] == "<":
        at = closed(text, at)
    at = closed(text, text.index("(", at))
    while True:
        brace, end = text.find("{", at), text.find(";", at)
        if brace < 0 or 0 <= end < brace:
            return clauses, None
        clause = CLAUSE.search(text, at, brace)
        if not clause:
            return clauses, brace
        at = closed(text, brace)
        clauses.append(Clause(clause, clause.start(), at))


def function_at(text, found):
    """The function whose name was found; nothing if it has no body."""
    clauses, brace = contract_at(text, found)
    return None if brace is None else Function(found[1], found.start(), clauses, slice(brace, closed(text, brace)))


def functions_of(text, name):
    """The functions of this name, in their order, each of which has a body."""
    plain = QUOTED.sub(lambda found: re.sub(r"[^\n]", " ", found[0]), text)
    return [made for it in FUNCTION.finditer(plain) if it[1] == name and (made := function_at(plain, it))]


def function_with(text, name, part):
    """The function of this name whose body has a text, or nothing."""
    return next((it for it in functions_of(text, name) if part in text[it.body]), None)


def head_of(text, function):
    """The line that begins the impl or the trait that a function is of; nothing if it is of none."""
    heads = re.findall(r"^(?:unsafe |pub )?(?:impl|trait)\b.*|^\}", text[: function.start], re.M)
    return heads[-1] if heads and heads[-1] != "}" else None


def is_of_trait(text, function):
    """Whether a function is one that a trait asks for."""
    head = head_of(text, function) or ""
    return " for " in head or "trait" in head


def without(text, clauses):
    """The text without these clauses."""
    for it in sorted(clauses, key=lambda it: -it.start):
        text = text[: it.start] + text[it.end :]
    return text

#!/usr/bin/env python3
"""Writes a feed of one shape, to see what grows with it: bench/shapes.py SHAPE

The shapes are those of the table "What grows" of docs/FIGURES.md. A shape is one of the keys of SHAPES here, such as
`commits-20` for 20,000 commits over 20 types. Each is the same at each call."""
import random
import sys

TIME = "2026-11-22T12:00:00.000+01:00"
COMMITS = 20_000

draw = random.Random(7)


def line(kind, key, token=None):
    """A line with one object."""
    data = f'{{"id":"{key}","name":"Object {key}","value":{draw.randint(0, 9999)},"ok":true,"time":"{TIME}"}}'
    end = f',"token":"{token}"' if token else ""
    return f'{{"type":"{kind}","id":"{key}","data":{data}{end}}}\n'


def collection(count):
    """So many objects of one type, with a token on the last line."""
    for i in range(count):
        yield line("runs", i, "base" if i == count - 1 else None)


def changed(count):
    """The same, and then commits of one change each."""
    yield from collection(count)
    for i in range(COMMITS):
        yield line("runs", draw.randrange(count), f"t{i}")


def over_types(count):
    """Commits of one change each, over so many types."""
    for i in range(count):
        yield line(f"type-{i}", 0, "base" if i == count - 1 else None)
    for i in range(COMMITS):
        yield line(f"type-{draw.randrange(count)}", i % 50, f"t{i}")


def new_types(count):
    """A new type in each line, each with a token."""
    for i in range(count):
        yield line(f"type-{i}", 0, f"t{i}")


def wide(count):
    """An array of so many objects in one line."""
    objects = ",".join(f'{{"id":"{i}"}}' for i in range(count))
    yield f'{{"type":"runs","id":null,"data":[{objects}],"token":"a"}}\n'


def other_order(count):
    """Lines whose members are in another order, with one that isn't known."""
    for i in range(count):
        yield f'{{"token":"t{i}","data":{{"id":"{i}","x":1}},"op":"u","id":"{i}","type":"runs"}}\n'


def tokens(count):
    """Lines with a token each."""
    for i in range(count):
        yield line("runs", i, f"t{i}")


def alike(count):
    """The same with tokens of 32 letters, in pairs that a polynomial in 31 can't tell apart."""
    for i in range(count):
        yield line("runs", i, "".join("Aa" if i >> bit & 1 else "BB" for bit in range(16)))


# Each shape, with what the document calls it, what makes it, and the options of `tables` for it.
SHAPES = {
    "objects-10000": ("10,000 objects of one type", collection, 10_000, ""),
    "objects-100000": ("100,000", collection, 100_000, ""),
    "objects-900000": ("900,000", collection, 900_000, ""),
    "changed-10000": ("10,000 objects, and 20,000 commits of one change", changed, 10_000, ""),
    "changed-100000": ("100,000, and as many commits", changed, 100_000, ""),
    "changed-900000": ("900,000, and as many", changed, 900_000, ""),
    "commits-20": ("20,000 commits over 20 types", over_types, 20, ""),
    "commits-1000": ("over 1,000 types", over_types, 1_000, ""),
    "commits-10000": ("over 10,000 types", over_types, 10_000, ""),
    "types-10000": ("a new type in each of 10,000 lines", new_types, 10_000, ""),
    "types-20000": ("of 20,000 lines", new_types, 20_000, ""),
    "types-40000": ("of 40,000 lines", new_types, 40_000, ""),
    "wide": ("an array of 100,000 objects in one line", wide, 100_000, ""),
    "order": ("100,000 lines whose members stand in another order", other_order, 100_000, ""),
    "tokens-1": ("100,000 lines with a token each, `--history 1`", tokens, 100_000, "1"),
    "tokens-1000": ("the same, `--history 1000`", tokens, 100_000, "1000"),
    "tokens-65536": ("the same, `--history 65536`", tokens, 100_000, "65536"),
    "alike": ("20,000 tokens that a polynomial can't tell apart, `--history 65536`", alike, 20_000, "65536"),
}


def main():
    if len(sys.argv) != 2 or sys.argv[1] not in SHAPES:
        print(f"{__doc__}\n\nThe shapes: {', '.join(SHAPES)}")
        sys.exit(0 if "--help" in sys.argv or "-h" in sys.argv else 1)
    _, make, count, _ = SHAPES[sys.argv[1]]
    sys.stdout.writelines(make(count))


if __name__ == "__main__":
    main()

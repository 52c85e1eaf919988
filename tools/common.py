"""What the tools share: a free port, the program that they run, other tools as modules, what they count, and how each
answers --help."""
import argparse
import importlib.machinery
import importlib.util
import os
import random
import socket
import sys
from collections import deque
from contextlib import suppress
from pathlib import Path

TOP = Path(__file__).resolve().parent.parent

# An unproved build stops by default where memory is refused.
ENVIRONMENT = {**os.environ, "ASAN_OPTIONS": "allocator_may_return_null=1"}


def loaded(name):
    """Another tool, such as `sockets` or `completions/check`, as a module."""
    path = TOP / "tools" / name
    loader = importlib.machinery.SourceFileLoader(name.replace("/", "_"), str(path))
    module = importlib.util.module_from_spec(importlib.util.spec_from_loader(loader.name, loader))
    loader.exec_module(module)
    return module


# What holds the latest ports that this process was given: a name each, which nobody else can have meanwhile.
HELD = deque(maxlen=256)


def free_port():
    """A port of 127.0.0.1 where nobody listens, of those that the system gives to no connection by itself. Tools run side
    by side: none is given it again, in any process, until this one ends or was given many more."""
    while True:
        with socket.socket() as it, suppress(OSError):
            it.setsockopt(socket.SOL_SOCKET, socket.SO_REUSEADDR, 1)
            port = random.SystemRandom().randrange(20_000, 32_000)
            held = socket.socket(socket.AF_UNIX)
            held.bind(f"\0tunygarop-port-{port}")
            it.bind(("127.0.0.1", port))
            HELD.append(held)
            return port


def program_of(path, folder):
    """The path of the program that a tool was given, or of an unproved build, which is made in the folder."""
    if path:
        return os.path.abspath(path)
    # It asks the toolchain where it is, which a tool that was given a program doesn't need.
    import building

    return building.program(Path(folder))


class Counts:
    """How many things were compared, and what is wrong with some."""

    def __init__(self):
        self.passed, self.broken = 0, []

    def see(self, is_well, text):
        if is_well:
            self.passed += 1
        else:
            self.broken.append(text)


def parser_of(text):
    """The reader of a tool's arguments. What the tool says of itself, `text`, is what it answers to --help."""
    shape = argparse.RawDescriptionHelpFormatter
    return argparse.ArgumentParser(prog=f"tools/{tool_name()}", description=text, formatter_class=shape)


def tool_name():
    """The name of the tool that runs, below tools/."""
    path = Path(sys.argv[0]).resolve()
    return str(path.relative_to(TOP / "tools")) if path.is_relative_to(TOP / "tools") else path.name

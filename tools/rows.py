"""What the tools of rows share: the programs, runs side by side, files and libraries that last as long as a tool works, and how cases are
told.

A case is what is tried, what was found and what must be found. Where it stands for more than one run it says for how many; where the
program itself settles how many these are, it counts as one, and the tool has a least count of its own.
"""
import concurrent.futures
import contextlib
import os
import tempfile
from typing import Any, NamedTuple

import preload
from workspace import TOP

# What the name of a program ends in that each of the two compilers builds: LLVM, and Rattle's own
BY_RATTLE = ".by-rattle"
COMPILERS = ("", BY_RATTLE)
# So much is told of what was found and of what was wanted.
MOST_TOLD = 2000


def built(name):
    """Where the toolchain builds the program of a crate."""
    return os.path.join(TOP, "crates", name, "out", name)


SERVER = built("abnf_ls")
# The server on one thread, whose output is known to the last byte
PLAIN = built("served_plainly")
FINDINGS = built("abnf_findings")


class Case(NamedTuple):
    what: str
    found: Any
    wanted: Any
    count: int = 1

    def is_good(self):
        return self.found == self.wanted

    def line(self):
        """The line that says what the case came to."""
        if self.is_good():
            return f"{self.what}: as it must be"
        return f"{self.what}: FAILED: {str(self.found)[:MOST_TOLD]}, and not {str(self.wanted)[:MOST_TOLD]}"


def report(cases):
    """Prints what each case came to, and at last how many passed and failed. Gives the status of the tool."""
    passed = failed = 0
    for case in (Case(*it) for it in cases):
        print(case.line(), flush=True)
        passed, failed = passed + case.is_good(), failed + (not case.is_good())
    print(f"{passed} passed, {failed} failed")
    return 1 if failed or not passed else 0


def report_faults(tool, faults, good):
    """Prints what a tool has found to be wrong, and at last that nothing is, in the tool's words. Gives its status."""
    found = [*faults]
    for line in found:
        print(f"{tool}: {line}")
    print(f"{tool}: {'FAILED' if found else good}")
    return 1 if found else 0


def programs_of(words, *others):
    """The programs that are named, with these others in place of those that aren't; and whether --all stands among the words."""
    named = [word for word in words if word != "--all"]
    return [*named, *others[len(named) :]], "--all" in words


def side_by_side(function, items):
    """What a function gives of each item, in their order; as many work at a time as there are processors."""
    with concurrent.futures.ThreadPoolExecutor(len(os.sched_getaffinity(0))) as pool:
        return list(pool.map(function, items))


class Files:
    """Files with the bytes that they are made of, in a folder of their own."""

    def __init__(self, folder):
        self.folder = folder

    def path(self, name):
        return os.path.join(self.folder, name)

    def written(self, name, text):
        with open(self.path(name), "wb") as file:
            file.write(text if isinstance(text, bytes) else text.encode())
        return self.path(name)

    def sparse(self, name, size):
        os.truncate(self.written(name, b""), size)
        return self.path(name)


@contextlib.contextmanager
def files():
    with tempfile.TemporaryDirectory() as folder:
        yield Files(folder)


@contextlib.contextmanager
def library(text):
    """The path of a library of this text in C, which can stand in front of the C library's."""
    with tempfile.TemporaryDirectory() as folder:
        yield preload.library(folder, "in_front", text)


def in_front(made, **numbers):
    """The environment of a run with that library in front, which is told these numbers."""
    return {"LD_PRELOAD": made, **{name.upper(): str(number) for name, number in numbers.items()}}

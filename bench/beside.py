#!/usr/bin/env python3
"""Drives the server on one thread and other servers side by side and prints what each request, opening and keystroke costs them.

    bench/beside.py [--instructions] [PROGRAM ['SERVER ..' ..]]

PROGRAM is that of the crate served_plainly, which is built if it is left out and isn't there; each SERVER is a command that answers the same
requests over its standard streams. Without one the server in plain Rust of the folder plain is built by rustc and stands there: it says the same
bytes (same_bytes.py), by std alone and without proofs.

All are asked the same, by turns. A figure is the least of some rounds, less that of no request: microseconds of processor time, of a request to
its reply, of an opening or a keystroke to its findings. Behind it stand the most memory that the server has had once it opened the text and was
asked once, and that for each byte of the text, which with a small text is that of the program alone. Behind another server's figure stands how
often it goes into the program's. Such ratios hold on a busy machine too, where the figures don't.

With --instructions valgrind, where it is installed, counts the instructions of each instead, which are the same on every run of one build: by
how many more a session has that is asked three times than one that is asked once.
"""
import os
import re
import shlex
import subprocess
import sys
import tempfile
import time

from bench import END, INITIALIZE, PROGRAM, SYMBOLS, TOP, Server, about, grammar, notice, opened, request, typed

SOURCE = os.path.join(TOP, "bench", "plain", "main.rs")
FLAGS = ("--edition", "2024", "-C", "opt-level=3", "-C", "target-cpu=x86-64-v2")
CLOSED = notice("textDocument/didClose", textDocument={"uri": "file:///g"})


def passed_by(uri, text):
    """A document that is opened and closed."""
    return opened(text, uri) + notice("textDocument/didClose", textDocument={"uri": uri})


# The program keeps what it knows of the last two texts that it diagnosed. Once these two have passed by, a text is as new to it as at first.
OTHERS = passed_by("file:///one", 'one = "1"\n') + passed_by("file:///two", 'two = "2"\n')


class Timed(Server):
    """A server whose processor time is read."""

    def __init__(self, command):
        self.process = subprocess.Popen(command, stdin=subprocess.PIPE, stdout=subprocess.PIPE)

    def seconds(self):
        """The processor time that it has taken, once it waits for its input."""
        for _ in range(2000):
            with open(f"/proc/{self.process.pid}/stat", encoding="ascii") as file:
                if file.read().rpartition(")")[2].split()[0] == "S":
                    break
            time.sleep(0.0002)
        with open(f"/proc/{self.process.pid}/schedstat", encoding="ascii") as file:
            return int(file.read().split()[0]) / 1e9

    def took(self, given):
        before = self.seconds()
        self.until_answered(given)
        return self.seconds() - before


def compared(name, text, once, asked, count, rounds, commands, initialize=INITIALIZE):
    """One line: what each server takes for what is asked about a text, of which there are so many, and the memory after it was asked once; the
    program first."""
    servers = [Timed(command) for command in commands]
    memories = []
    for server in servers:
        server.until_answered(initialize + opened(text) + once)
        memories.append(server.memory() * 1024)
        server.until_answered(asked)
    idle = [min(server.took(b"") for _ in range(20)) for server in servers]
    best = [float("inf")] * len(servers)
    for _ in range(rounds):
        best = [min(least, server.took(asked)) for least, server in zip(best, servers)]
    costs = [(least - none) / count for least, none in zip(best, idle)]
    said = [f"{name:<40}"]
    for cost, memory, server in zip(costs, memories, servers):
        ratio = "" if server is servers[0] else f" ({costs[0] / cost:.1f})"
        said.append(f"{cost * 1e6:9.1f} us {memory / 1e6:6.1f} MB {memory / len(text.encode()):8.1f} B/B{ratio:<7}")
        server.end()
    print("  ".join(said), flush=True)


def erased(line, character):
    """One character erased behind a place."""
    start, end = ({"line": line, "character": at} for at in (character, character + 1))
    return notice("textDocument/didChange", textDocument={"uri": "file:///g", "version": 3},
                  contentChanges=[{"range": {"start": start, "end": end}, "text": ""}])


def questions(text, end=None, line=0):
    """What is asked about a text, each by its name, and how many of that it is: about the last name of its first line, which ends the line or
    at this place in it or in another, and a character typed behind it and erased again."""
    at = {"line": line, "character": len(text.split("\n", 1)[0]) if end is None else end}
    return {
        "opening": (CLOSED + OTHERS + opened(text), 1),
        "keystroke": (typed(**at) + erased(**at), 2),
        "hover": (about(3, "hover", position=at), 1),
        "references": (about(4, "references", position=at, context={"includeDeclaration": True}), 1),
        "definition": (about(5, "definition", position=at), 1),
        "outline": (SYMBOLS, 1),
    }


ALL = ("opening", "keystroke", "hover", "references", "definition", "outline")
GRAMMARS = (
    # How many rules, the names in each, how often one of them is asked at once, in how many rounds, and what.
    (100, 1, 20, 30, ALL),
    (100, 5, 10, 30, ALL),
    (1_000, 1, 3, 30, ALL),
    (1_000, 5, 2, 30, ALL),
    (100_000, 1, 1, 7, ALL),
    (40_000, 5, 1, 7, ("opening", "hover")),  # A text of more rules would be too large.
)


# What positions count, and the units of a text
ENCODINGS = {"utf-8": lambda text: len(text.encode()), "utf-16": lambda text: len(text.encode("utf-16-le")) // 2, "utf-32": len}


def wide(text):
    """A grammar each of whose lines has prose before its names and a comment behind them, none of which is ASCII."""
    return "".join(line.replace(" = ", " = <\u00e9\u4e2d\U0001f600> / ") + " ; \u00e9\u4e2d\U0001f600 \u00e9\n" for line in text.splitlines())


def compare_encodings(rules, each, count, rounds, commands):
    """What is asked about a grammar whose lines aren't ASCII, by each of the three encodings."""
    text = wide(grammar(rules, each))
    first = text.split("\n", 1)[0].partition(" ; ")[0]
    for encoding, units in ENCODINGS.items():
        initialize = request(0, "initialize", capabilities={"general": {"positionEncodings": [encoding]}})
        for name, (given, steps) in questions(text, units(first)).items():
            once = b"" if name == "opening" else given
            compared(f"{name}, {rules:,} wide rules, {encoding}", text, once, given * count, steps * count, rounds, commands, initialize)


def compare(names, commands):
    print(f"{'':<40}" + "".join(f"  {name:<42}" for name in names))
    for rules, each, count, rounds, asked in GRAMMARS:
        text = grammar(rules, each)
        for name in asked:
            given, steps = questions(text)[name]
            once = b"" if name == "opening" else given
            line = f"{name}, {rules:,} rules of {each} name{'s' * (each > 1)}"
            compared(line, text, once, given * count, steps * count, rounds, commands)
    for rules, each, count, rounds in ((1_000, 1, 3, 30), (20_000, 1, 1, 7)):
        compare_encodings(rules, each, count, rounds, commands)
    compared("outline of one rule", 'a = "x"', SYMBOLS, SYMBOLS * 200, 200, 30, commands)


def instructions(command, given):
    """How many instructions a server takes for its whole input."""
    counting = ["valgrind", "--tool=callgrind", "--callgrind-out-file=/dev/null", *command]
    ran = subprocess.run(counting, input=given, stdout=subprocess.DEVNULL, stderr=subprocess.PIPE, check=True)
    return int(re.search(rb"Collected : (\d+)", ran.stderr)[1])


def count_one(command, begin, asked, count):
    """How many instructions a server takes for one of what is asked, of which there are so many."""
    return (instructions(command, begin + asked * 3 + END) - instructions(command, begin + asked + END)) / 2 / count


def count_asked(name, begin, asked, count, commands):
    """One line: how many instructions each server takes for what is asked, of which there are so many; the program first."""
    costs = [count_one(it, begin, asked, count) for it in commands]
    said = [f"{name:<40}"] + [f"{cost:13,.0f}" + ("" if cost is costs[0] else f" ({costs[0] / cost:.2f})") for cost in costs]
    print("  ".join(said), flush=True)


def compare_instructions(names, commands):
    print(f"{'instructions':<40}" + "".join(f"  {os.path.basename(name):>13}" for name in names))
    for rules, each in ((1_000, 1), (1_000, 5)):
        text = grammar(rules, each)
        for name, (given, steps) in questions(text).items():
            count_asked(f"{name}, {rules:,} rules of {each} name{'s' * (each > 1)}", INITIALIZE + opened(text), given, steps, commands)
    count_asked("outline of one rule", INITIALIZE + opened('a = "x"'), SYMBOLS * 100, 100, commands)
    count_asked("a request that is refused", INITIALIZE, request(9, "barrier") * 100, 100, commands)


def compiled(source, program):
    """A program that rustc makes of this source."""
    subprocess.run(["rustc", *FLAGS, source, "-o", program], check=True)
    return program


def built_plain(folder):
    """The server in plain Rust, built into a folder."""
    return compiled(SOURCE, os.path.join(folder, "plain"))


def main():
    how = compare_instructions if "--instructions" in sys.argv[1:2] else compare
    others = sys.argv[3 if how is compare_instructions else 2:]
    if others:
        return how([PROGRAM, *others], [[PROGRAM], *map(shlex.split, others)])
    with tempfile.TemporaryDirectory() as folder:
        return how([PROGRAM, "plain Rust"], [[PROGRAM], [built_plain(folder)]])


if __name__ == "__main__":
    main()

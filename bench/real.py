#!/usr/bin/env python3
"""Drives the server on one thread and another one with the grammars of standards, and prints what each question and each kind of typing costs.

    bench/real.py [--time] [PROGRAM ['SERVER ..']]

PROGRAM and SERVER are those of beside.py: what is left out is the crate served_plainly, and the server in plain Rust. The texts are the grammars of
../examples and ../grammars, each by itself; all of them as one text, in which each name that a grammar defines ends in that grammar's own; and
generated shapes of 1,000 rules. Questions and keystrokes are about names at random places, the same ones on each run; typing is that of
keystrokes.py, where a figure is that of one edit to its findings, on average.

There is a line for each question and text: the program, the other server, and how often the other goes into the program, for each question the
text first where that is the most. The figures are instructions, counted by valgrind on as many processors as this is let run on.

With --time they are milliseconds of processor time (the least of some rounds, less that of no request), page faults, and the most memory for each
byte of the text. The faults and the memory are those of the first round, once the text was opened and a character typed and erased; with a small
text the memory is that of the program alone. Then the shapes are asked with 100,000 rules too, with 40,000 where each has five names.
"""
import concurrent.futures
import glob
import os
import random
import shlex
import sys
import tempfile

from bench import ARGUMENTS, END, INITIALIZE, PROGRAM, TOP, grammar, notice, opened
from beside import ALL, CLOSED, Timed, built_plain, count_one, instructions, questions
from keystrokes import KINDS, NAME, TOKEN, applied, place, some_part, some_rule

SEED = 1
PLACES = 8
LARGE = 1_000_000
LEAST = 1e-6
ONCE = ("opening", "outline")


def edits_at_most(text):
    return 24 if len(text) < LARGE else 8


def rounds(text):
    return 9 if len(text) < LARGE else 2


def made_own(name, text):
    """A grammar in which each name that it defines ends in the grammar's own name."""
    tokens = [it for it in TOKEN.finditer(text) if it.lastgroup != "comment"]
    own = {one[0].lower() for one, behind in zip(tokens, tokens[1:]) if one.lastgroup == "name" and behind.lastgroup == "defines"}
    return TOKEN.sub(lambda it: f"{it[0]}-{name}" if it.lastgroup == "name" and it[0].lower() in own else it[0], text)


def grammars():
    """The grammars of standards by their names."""
    files = [*glob.glob(os.path.join(TOP, "examples", "*.abnf")), *glob.glob(os.path.join(TOP, "grammars", "*.abnf"))]
    texts = {}
    for path in sorted(files, key=os.path.basename):
        with open(path, encoding="utf-8", newline="") as file:
            texts[os.path.splitext(os.path.basename(path))[0]] = file.read()
    return texts


def joined(texts):
    """Grammars as one text."""
    return "\n".join(made_own(name, text) for name, text in texts.items())


def short_rules(count):
    return "".join(f'a{number} = "x"\n' for number in range(count))


def findings_everywhere(count):
    """So many rules, each of which names another one that isn't there."""
    return "".join(f"rule-{number} = %x20-7E / missing-{number}\n" for number in range(count))


def shapes(count, of_five):
    """Generated texts by their names: so many rules, or so many where each has five names."""
    return {
        f"{count:,} of one name": grammar(count),
        f"{of_five:,} of five names": grammar(of_five, 5),
        f"{count:,} short rules": short_rules(count),
        f"{count:,} with findings": findings_everywhere(count),
    }


def some_place(text, dice):
    """The line of a name and where it ends there: one in a body, or a head where there is none."""
    part = some_part(text, dice, "name") or NAME.match(text, some_rule(text, dice)[0]).span()
    return place(text, part[1])


def asked(text):
    """What is asked about a text, by its name: the messages, and how many questions that are."""
    dice = random.Random(SEED)
    each = [questions(text, end, line) for line, end in (some_place(text, dice) for _ in range(PLACES))]
    several = {name: ([one[name][0] for one in each], sum(one[name][1] for one in each)) for name in ALL if name not in ONCE}
    return {name: several.get(name) or ([each[0][name][0]], each[0][name][1]) for name in ALL}


def changed(*edits, uri="file:///g"):
    """The message of edits that are made at once."""
    ends = [[{"line": line, "character": character} for line, character in edit[:2]] for edit in edits]
    changes = [{"range": dict(zip(("start", "end"), both)), "text": new} for both, (*_, new) in zip(ends, edits)]
    return notice("textDocument/didChange", textDocument={"uri": uri, "version": 4}, contentChanges=changes)


def replayed(kind, text):
    """The messages of a kind of typing, again and again at other places, and how many they are."""
    dice, most = random.Random(f"{SEED} {kind}"), edits_at_most(text)
    edits = []
    while len(edits) < most:
        more = KINDS[kind](text, dice)
        if not more:
            break
        edits += more
        text = applied(text, more)
    return [changed(it) for it in edits[:most]], len(edits[:most])


def warmed(text):
    """What comes before typing: the text is opened, and a character typed and erased."""
    return INITIALIZE + opened(text) + asked(text)["keystroke"][0][0]


def counted(pool, texts, commands):
    """What counts the instructions of a question: from it and what is sent of each text, the figures of each server."""
    pairs = [(name, command) for name in texts for command in commands]
    bases = dict(zip(pairs, pool.map(lambda it: instructions(it[1], warmed(texts[it[0]]) + END), pairs)))

    def one(question, name, command, messages, count):
        given = b"".join(messages)
        if question in ALL:
            return (count_one(command, INITIALIZE + opened(texts[name]), given, count),)
        return ((instructions(command, warmed(texts[name]) + given + END) - bases[name, command]) / count,)

    def figures(question, given):
        waits = {name: [pool.submit(one, question, name, it, *sent) for it in commands] for name, sent in given.items()}
        return {name: [it.result() for it in each] for name, each in waits.items()}

    return figures


def begun(command, text):
    """A server with a text, and what it takes for no request."""
    server = Timed(command)
    server.until_answered(warmed(text))
    return server, min(server.took(b"") for _ in range(20))


def first_round(server, text, messages, count):
    """The page faults for one of the messages, which are sent, and the most memory so far for each byte of the text."""
    before = server.faults()
    for message in messages:
        server.until_answered(message)
    return (server.faults() - before) / count, server.memory() * 1024 / len(text.encode())


def measured(text, messages, count, commands):
    """The milliseconds, the page faults and the bytes of memory for each of the text that servers take for messages, by turns."""
    servers = [begun(command, text) for command in commands]
    said = [first_round(server, text, messages, count) for server, _ in servers]
    least = [float("inf")] * len(servers)
    for _ in range(rounds(text)):
        for at, (server, idle) in enumerate(servers):
            server.until_answered(CLOSED + opened(text))
            least[at] = min(least[at], sum(server.took(it) - idle for it in messages))
    for server, _ in servers:
        server.end()
    return [(max(seconds * 1e3 / count, LEAST), *rest) for seconds, rest in zip(least, said)]


def table(texts, figures):
    """The rows of the table, for each question the text first where the ratio is the greatest: both names, the figures of each server, the ratio."""
    all_asked = {name: asked(text) for name, text in texts.items()}
    for question in (*ALL, *KINDS):
        given = {name: all_asked[name][question] if question in ALL else replayed(question, text) for name, text in texts.items()}
        found = figures(question, {name: sent for name, sent in given.items() if sent[0]})
        rows = [(question, name, ours, other, ours[0] / max(other[0], LEAST)) for name, (ours, other) in found.items()]
        yield from sorted(rows, key=lambda it: -it[4])


def printed(texts, commands, form, figures):
    names = [os.path.basename(command[0]) for command in commands]
    width = len(form.format(0, 0, 0))
    print(f"{'':<28} {'':<22} {names[0]:>{width}}   {names[1]:>{width}}    ratio")
    for question, name, ours, other, ratio in table(texts, figures):
        print(f"{question:<28} {name:<22} {form.format(*ours)}   {form.format(*other)} {ratio:8.2f}", flush=True)


def both_servers(folder):
    """The commands of the program and of the other server; where none is named it is built into this folder."""
    return [(PROGRAM,), tuple(shlex.split(ARGUMENTS[1])) if ARGUMENTS[1:] else (built_plain(folder),)]


def main():
    texts = grammars()
    texts = {**texts, "all joined": joined(texts), **shapes(1_000, 1_000)}
    with tempfile.TemporaryDirectory() as folder:
        commands = both_servers(folder)
        if "--time" in sys.argv[1:]:
            texts.update(shapes(100_000, 40_000))
            form = "{:9.3f} ms {:8.1f} faults {:8.1f} B/B"
            return printed(texts, commands, form, lambda _, given: {name: measured(texts[name], *sent, commands) for name, sent in given.items()})
        with concurrent.futures.ThreadPoolExecutor(len(os.sched_getaffinity(0))) as pool:
            return printed(texts, commands, "{:15,.0f}", counted(pool, texts, commands))


if __name__ == "__main__":
    main()

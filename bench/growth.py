#!/usr/bin/env python3
"""Looks for texts that cost more than in proportion to their size, or much more than the server in plain Rust takes.

    bench/growth.py [--times] [--instructions] [--questions] [--only=NAME] [--share=N] [PROGRAM ['SERVER ..']]

PROGRAM and SERVER are those of beside.py: what is left out is the crate served_plainly, and the server in plain Rust. Each text has a form that
strains one part of the server (forms.py), and is made in two sizes, one a quarter of the other. There are three tables, of which the words choose
some. With --only the forms alone are measured whose name has that. With --share the larger size is that part of a form's own: with 5 a fifth.

--times: the dearest of the edits that are typed into each form, to its findings. The figures are the milliseconds of processor time at the smaller
size and at the larger one, the least of some rounds, and how often the one goes into the other; behind it stand the most bytes of memory that the
server took for a byte of the texts; and then the same of the other server. The last figure is how often the other's time goes into the program's,
for the edit and at the size where that is most.

--instructions: the millions of instructions that the program takes for these edits, on average, at both sizes. They are counted by valgrind where it
is installed, on as many processors as this is let run on; else their milliseconds of processor time stand there, one after the other. Some 4 times at
the larger size says that the work is in proportion, 16 that it goes with the square.

--questions: the milliseconds of each question at the larger size, and how often that of the smaller goes into them. Times are the lesser of two runs,
which end with the answer; the opening ends with its findings. Behind them stand the most bytes of memory that the server took for a byte of the text.

It ends nonzero where an edit takes more than GROWTH times the instructions at the larger size (twice as often the time, where they can't be counted),
or more than BESIDE times the processor time of the other server.
"""
import concurrent.futures
import os
import shutil
import statistics
import sys
import tempfile

from bench import INITIALIZE, PROGRAM, SYMBOLS, Server, about, opened, typed
from beside import Timed, count_one
from forms import FORMS, in_turn, most_bytes
from real import both_servers, changed

RUNS = 2
ROUNDS = 5
QUARTER = 4
GROWTH, BESIDE = 5, 3
# Fewer seconds are those of a message, whatever the text is.
LEAST = 1e-4
TABLES = ("--times", "--instructions", "--questions")
ONLY = "--only="
SHARE = "--share="


def words_behind(option):
    """What stands behind an option, as often as it is given."""
    return [word.removeprefix(option) for word in sys.argv[1:] if word.startswith(option)]


def chosen_forms():
    """The forms that are measured."""
    share = int([*words_behind(SHARE), "1"][0])
    return [it._replace(count=it.count // share) for it in FORMS if all(word in it.name for word in words_behind(ONLY))]


def made(form):
    """The texts of a form in both sizes, and what is typed into them."""
    for count in (form.count // QUARTER, form.count):
        texts = form.texts(count)
        yield texts, form.typed(*texts)


def uri(document):
    return f"file:///{document}"


def begun(texts):
    """The messages that open texts."""
    return [opened(text, uri(at)) for at, text in enumerate(texts)]


def messages(notices):
    return [changed(*it.edits, uri=uri(it.document)) for it in notices]


def cost(command, texts, notices):
    """The seconds of processor time that a server takes for each notice, and the most bytes of memory for a byte of the texts."""
    server, given = Timed(command), messages(notices)
    server.until_answered(INITIALIZE)
    for message in begun(texts) + given:
        server.until_answered(message)
    memory = server.memory() * 1024 / most_bytes(texts, notices)
    idle = min(server.took(b"") for _ in range(20))
    times = [[server.took(it) - idle for it in given] for _ in range(ROUNDS)]
    server.end()
    return [max(min(column), LEAST) for column in zip(*times)], memory


def compare_times():
    """Prints what is typed into each form beside the other server. Gives what is beyond a bound."""
    beyond = []
    print(f"{'milliseconds of an edit':<36} {'the program':>38}   {'the other server':>38}    ratio")
    with tempfile.TemporaryDirectory() as folder:
        commands = both_servers(folder)
        for form in chosen_forms():
            sizes = [*made(form)]
            ours, others = ([cost(command, *size) for size in sizes] for command in commands)
            ratio = max(one / other for (mine, _), (theirs, _) in zip(ours, others) for one, other in zip(mine, theirs))
            print(f"{form.name:<36} {said(ours)}   {said(others)} {ratio:8.2f}", flush=True)
            if ratio > BESIDE:
                beyond.append(f"{form.name}: {ratio:.1f} times the processor time of the other server")
    return beyond


def grown(costs):
    """How often the time of the dearest notice at the smaller size goes into that at the larger one."""
    (small, _), (large, _) = costs
    return max(large) / max(small)


def said(costs):
    """The times of the dearest notice at both sizes, and the memory at the larger one."""
    (small, _), (large, memory) = costs
    return f"{max(small) * 1e3:9.3f} {max(large) * 1e3:10.3f} ({grown(costs):4.1f}) {memory:6.1f} B/B"


def counted(form):
    """The millions of instructions of a notice, on average, at both sizes."""
    sizes = [(b"".join([INITIALIZE, *begun(texts)]), messages(notices)) for texts, notices in made(form)]
    return [count_one([PROGRAM], begin, b"".join(given), len(given)) / 1e6 for begin, given in sizes]


def timed(form):
    """The milliseconds of processor time of a notice, on average, at both sizes."""
    return [1e3 * statistics.mean(cost([PROGRAM], *size)[0]) for size in made(form)]


def compare_instructions():
    """Prints the instructions of what is typed into each form, or the time where they can't be counted. Gives what is beyond a bound."""
    beyond, forms = [], chosen_forms()
    are_counted = bool(shutil.which("valgrind"))
    what, bound, of = ("millions of instructions", GROWTH, counted) if are_counted else ("milliseconds", 2 * GROWTH, timed)
    print(f"{f'{what} of an edit':<36} {'smaller':>10} {'larger':>10}")
    with concurrent.futures.ThreadPoolExecutor(len(os.sched_getaffinity(0)) if are_counted else 1) as pool:
        for form, (small, large) in zip(forms, pool.map(of, forms)):
            print(f"{form.name:<36} {small:10.3f} {large:10.3f} ({large / small:4.1f})", flush=True)
            if large > bound * small:
                beyond.append(f"{form.name}: {large / small:.1f} times the {what}")
    return beyond


def questions(text):
    """What is asked, each by its name: about the first name of the text, and a character typed behind it."""
    at = {"line": 0, "character": 0}
    end = {"line": 0, "character": len(text.split("\n", 1)[0])}
    return {
        "outline": SYMBOLS,
        "definition": about(3, "definition", position=at),
        "references": about(4, "references", position=at, context={"includeDeclaration": True}),
        "tokens": about(5, "semanticTokens/full"),
        "hover": about(6, "hover", position=at),
        "action": about(7, "codeAction", range={"start": end, "end": end}, context={"diagnostics": []}),
        "keystroke": typed(0, end["character"]),
    }


def taken(text):
    """The least seconds of the opening and of each question, and the most memory in bytes."""
    asked = questions(text)
    times, most = [], 0
    for _ in range(RUNS):
        server = Server()
        server.until_answered(INITIALIZE)
        steps = (opened(text), *asked.values())
        times.append([server.until_answered(given) for given in steps])
        most = max(most, server.memory() * 1024)
        server.end()
    return dict(zip(("opening", *asked), (min(column) for column in zip(*times)))), most


def asked_forms():
    """The forms whose questions are asked: of those with the same text the first, and none with several documents."""
    first = {}
    for form in chosen_forms():
        if form.typed is not in_turn:
            first.setdefault(form.text, form)
    return first.values()


def ask_all():
    """Prints what each question takes about the text of each form. Nothing is bounded."""
    worst = 0.0
    for form in asked_forms():
        small, large = (form.text(count) for count in (form.count // QUARTER, form.count))
        before, _ = taken(small)
        after, memory = taken(large)
        size = len(large.encode())
        more = size / len(small.encode())
        said_of = []
        for question, seconds in after.items():
            times = seconds / before[question]
            # Below a millisecond a time is that of a message, whatever the text is.
            if seconds > 0.001:
                worst = max(worst, times / more)
            said_of.append(f"{question} {seconds * 1e3:.1f} ({times:.1f})")
        print(f"{form.name:<36} {size:>8} bytes   {'   '.join(said_of)}   {memory / size:.0f} bytes a byte", flush=True)
    print(f"the worst is {worst:.1f} times what is in proportion")
    return []


def main():
    tables = [word for word in TABLES if word in sys.argv[1:]] or TABLES
    ways = dict(zip(TABLES, (compare_times, compare_instructions, ask_all)))
    beyond = [line for word in tables for line in ways[word]()]
    for line in beyond:
        print(f"beyond a bound: {line}")
    return 1 if beyond else 0


if __name__ == "__main__":
    sys.exit(main())

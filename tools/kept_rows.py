#!/usr/bin/env python3
"""Tells that what is kept of a text is used, and that it goes with its document: by what keystrokes cost beside openings.

    tools/kept_rows.py [PROGRAM [PLAIN]]

No clause speaks of cost. PLAIN serves on one thread, and PROGRAM has four workers, of which in some runs all but one are held back by the
library of replayed_typing. The client waits for the findings of each version. Valgrind counts the instructions of each run where it is
installed. Where it isn't, processor times are compared in a larger text, the least of some rounds.
"""
import functools
import itertools
import os
import re
import resource
import shutil
import sys

import replayed_typing
import rows
import runs
import session_rows

# So many keystrokes must cost less than so many openings of a grammar, or of a draft, which each of them reads. (With nothing kept each costs
# one; with what is kept a fortieth, or a quarter.)
KEYS, OPENINGS, OF_DRAFTS = 20, 6, 8
# A document that is closed and opened again costs more than such a part of its first opening. (With what was kept it costs a third.)
PART = 0.5
IN_TURN = 4
# How many rules a text has where instructions are counted, and where times are measured, and how often these are
RULES, RULES_TIMED, ROUNDS = 2000, 20000, 5
COUNTS = ("valgrind", "--tool=callgrind", "--callgrind-out-file=/dev/null")
COUNTED = re.compile(rb"Collected : (\d+)")
SMALL = 'small = "s"\n'
# What a draft is written in, and what stands around its grammar, which begins at a line
DRAFTS = (("markdown", "~~~ abnf", "~~~"), ("xml", '<sourcecode type="abnf"><![CDATA[', "]]></sourcecode>"))
PROSE, IN_DRAFT = "What follows is the grammar of this draft.\n" * 20, 22
WITH_DRAFTS = session_rows.INITIALIZE.replace('"capabilities":{}', '"capabilities":{},"initializationOptions":{"drafts":true}')
# How many workers work of the four that there are, beside one thread that writes
WORKING, OTHERS = (1, 4), 1


def uri(at):
    return f"file:///{at}"


def text_of(at, count):
    """A text in which nothing is found: each rule has one of the text's own names, and none of its lines stands in another one."""
    return "".join(f't{at}-{it} = "value {it}" [t{at}-{(it + 7) % count}]\n' for it in range(count))


def opened(at, text):
    """A turn: a document is opened, and its findings come."""
    return replayed_typing.opened(uri(at), 1, text), 1


def draft_opened(at, text):
    """A turn: a draft is opened, in Markdown or in RFCXML by turns, which has some prose and the text as its grammar."""
    language, begin, end = DRAFTS[at % len(DRAFTS)]
    draft = f"{PROSE}\n{begin}\n{text}{end}\n"
    return replayed_typing.notice("didOpen", {"uri": uri(at), "languageId": language, "version": 1, "text": draft}), 1


def closed(at):
    """A turn: a document is closed, and nothing comes."""
    return session_rows.closed(uri(at)).encode(), 0


def typed(at, count, key, line=0):
    """A turn: a key is typed into a value in the middle of a text of so many rules, which begins at a line, and findings come."""
    line, character = line + count // 2 + key // IN_TURN, len(f't{at}-{count // 2} = "')
    place = {"line": line, "character": character}
    change = {"range": {"start": place, "end": place}, "text": "k"}
    return replayed_typing.notice("didChange", {"uri": uri(at), "version": key + 2}, contentChanges=[change]), 1


def sessions(count):
    """The turns of each session, by what it is for."""
    texts = [text_of(at, count) for at in range(IN_TURN)]
    one, four = [opened(0, texts[0])], [opened(at, text) for at, text in enumerate(texts)]
    return {
        "nothing": [],
        "one": one,
        "four": four,
        "keys in one": one + [typed(0, count, key) for key in range(KEYS)],
        "keys in four": four + [typed(key % IN_TURN, count, key) for key in range(KEYS)],
        "keys beside": one + [it for key in range(KEYS) for it in (opened("small", SMALL), closed("small"), typed(0, count, key))],
        "again": one + [closed(0), *one],
    }


def draft_sessions(count):
    """The turns of each session with drafts."""
    texts = [text_of(at, count) for at in range(IN_TURN)]
    one, four = [draft_opened(0, texts[0])], [draft_opened(at, text) for at, text in enumerate(texts)]
    return {
        "nothing": [],
        "one": one,
        "four": four,
        "keys in one": one + [typed(0, count, key, IN_DRAFT) for key in range(KEYS)],
        "keys in four": four + [typed(key % IN_TURN, count, key, IN_DRAFT) for key in range(KEYS)],
        "keys beside": one + [it for key in range(KEYS) for it in (opened("small", SMALL), closed("small"), typed(0, count, key, IN_DRAFT))],
        "again": one + [closed(0), *one],
    }


def served(program, turns, env, in_front=()):
    """Serves these turns, where drafts are read, and gives what stands on standard error. The words in front begin the command line."""
    status, said, wrote = runs.by_turns(program, [(WITH_DRAFTS, 1), *turns], env=env, in_front=in_front)
    wanted = 1 + sum(more for _, more in turns)
    if status != 1 or len(runs.bodies_of(wrote)[0]) != wanted:
        raise RuntimeError(f"status {status}, {len(runs.bodies_of(wrote)[0])} bodies, and {wanted} must come: {said[-300:]}")
    return said


def counted(program, env, turns):
    """How many instructions a program takes for these turns."""
    return int(COUNTED.search(served(program, turns, env, COUNTS))[1])


def timed(program, env, turns):
    """How many seconds of processor time it takes for them, the least of some rounds."""
    def spent():
        usage = resource.getrusage(resource.RUSAGE_CHILDREN)
        return usage.ru_utime + usage.ru_stime

    took = []
    for _ in range(ROUNDS):
        before = spent()
        served(program, turns, env)
        took.append(spent() - before)
    return min(took)


def costs(program, env, of, counts):
    """What each of these sessions costs, in instructions or in seconds."""
    turns = of(RULES if counts else RULES_TIMED)
    each = rows.side_by_side(functools.partial(counted, program, env), turns.values()) if counts else [timed(program, env, it) for it in turns.values()]
    return dict(zip(turns, each))


def compared(what, cost, bound, is_less):
    """A row: a cost in openings, which must be less than a bound, or more."""
    wanted = f"{'less' if is_less else 'more'} than {bound} openings"
    is_good = cost < bound if is_less else cost > bound
    return what, wanted if is_good else f"{cost:.2f} openings", wanted


def cases_on(how, program, env):
    """What keystrokes and openings cost on so many workers."""
    for noun, of, most in (("document", sessions, OPENINGS), ("draft", draft_sessions, OF_DRAFTS)):
        found = costs(program, env, of, shutil.which("valgrind") is not None)
        opening = found["one"] - found["nothing"]
        for what, session, begun in ((f"one {noun}", "keys in one", "one"), (f"four {noun}s by turns", "keys in four", "four"),
                                     (f"a {noun} while another is closed", "keys beside", "one")):
            yield compared(f"{KEYS} keystrokes in {what}, {how}", (found[session] - found[begun]) / opening, most, True)
        yield compared(f"a {noun} opened again, {how}", (found["again"] - found["one"]) / opening, PART, False)


def plain_cases(program):
    """The cases of the program on one thread."""
    yield from cases_on("on one thread", program, None)


def cases(program):
    """The cases of the program with its workers."""
    with rows.library(replayed_typing.LIBRARY) as held:
        for working in WORKING:
            env = os.environ | rows.in_front(held, working_threads=OTHERS + working)
            yield from cases_on(f"workers: {working}", program, env)


def main(words):
    (program, plain), _ = rows.programs_of(words, rows.SERVER, rows.PLAIN)
    return rows.report(itertools.chain(plain_cases(plain), cases(program)))


if __name__ == "__main__":
    sys.exit(main(sys.argv[1:]))

#!/usr/bin/env python3
"""Runs a session of every kind of request with memory refused to the program and its threads.

    tools/refused_sessions.py [PROGRAM] [--all]

A small library in front of the C library's refuses one allocation, or it and all that come behind it. The session must end by itself: with
`out of memory` and status 6, or as it does where nothing is refused. Each body that is written is one of the session's, or the error -32603 of
a request; each request has one reply, and each version of a document its findings at most once. The gate tries a sample of the allocations, and
--all tries each.

Of a small session whose messages come one at a time each allocation is refused. There a worker brings back each job before the next message comes,
so that what it needs memory for then is refused in some runs: such a run must end for all its threads.
"""
import collections
import json
import random
import re
import sys

import rows
import runs
from session_rows import EXIT, INITIALIZE, INITIALIZED, at, cancelled, edit, named, opened, ranged

RULES = 200
SAMPLE, SEED = 800, 1
# The first allocations make the board and the threads: each of them is tried.
FIRST = 60
OUT_OF_MEMORY = b"out of memory\n"
# The requests of the session by turns, and how many seconds a turn of it lasts at most: where memory was refused, what it waits for may never come.
HOVERS, PATIENCE = 8, 0.2
# What the library says in a run in which nothing is refused
COUNTED = re.compile(rb"(\d+) allocations\n")

# The threads of the program ask for memory at the same time, so the count is one that all of them step. The program ends by _exit, and one that
# has no threads by exit.
LIBRARY = r"""
extern void *__libc_malloc(unsigned long size);
extern void *__libc_calloc(unsigned long count, unsigned long size);
extern void *__libc_realloc(void *block, unsigned long size);
extern char *getenv(const char *name);
extern int *__errno_location(void);
extern int dprintf(int file, const char *form, ...);
extern long syscall(long number, ...);

static long made, first = -1, last;

static long number(const char *name) {
  long told = 0;
  for (char *digit = getenv(name); digit && *digit; digit++) told = told * 10 + (*digit - '0');
  return told;
}

static int is_refused(void) {
  if (first < 0) {
    last = number("LAST_REFUSED");
    first = number("FIRST_REFUSED");
  }
  long at = __atomic_add_fetch(&made, 1, __ATOMIC_SEQ_CST);
  if (first == 0 || at < first || last < at) return 0;
  *__errno_location() = 12;
  return 1;
}

void *malloc(unsigned long size) { return is_refused() ? 0 : __libc_malloc(size); }
void *calloc(unsigned long count, unsigned long size) { return is_refused() ? 0 : __libc_calloc(count, size); }
void *realloc(void *block, unsigned long size) { return is_refused() ? 0 : __libc_realloc(block, size); }

static void __attribute__((destructor)) ends(void) {
  if (first == 0) dprintf(2, "%ld allocations\n", made);
}

void _exit(int status) {
  ends();
  for (;;) syscall(231, status);
}
"""


def grammar():
    """A text of some hundred rules, with names that stand for nothing and a faulty block."""
    lines = ['rule-0 = "x" / <prose> ; \u00e9']
    for number in range(1, RULES):
        lines.append(f"rule-{number} = 1*2rule-{number // 2} / %x{number:x}-{number + 9:x} [rule-{number - 1}] ; of {number}")
    return "\n".join([*lines, "faulty = (nothing", "rule-3 =/ nowhere DIGIT"])


def asks(number, method, beside="", uri="file:///g"):
    document = f'"textDocument":{{"uri":"{uri}"}}'
    return f'{{"jsonrpc":"2.0","id":{number},"method":"textDocument/{method}","params":{{{document}{beside}}}}}'


def changes(label, changes_made):
    document = f'"textDocument":{{"uri":"file:///h","version":{label}}}'
    return f'{{"jsonrpc":"2.0","method":"textDocument/didChange","params":{{{document},"contentChanges":[{changes_made}]}}}}'


SMALL = 'a = b "x"\nb = "yy" / nope\n'
CONTEXT = ',"context":{"includeDeclaration":true}'
CANCELLED = 30
# What is asked about the second document is answered by the text as it was, whatever comes behind: renames and code actions are asked about the
# first one alone, which never changes.
SESSION = (
    INITIALIZE,
    INITIALIZED,
    opened(grammar()),
    opened(SMALL, "file:///h"),
    asks(2, "hover", at(5, 0)),
    asks(3, "definition", at(9, 14)),
    asks(4, "references", at(3, 0) + CONTEXT),
    asks(5, "rename", at(3, 0) + named('"new-name"')),
    asks(6, "rename", at(3, 0) + named('"rule-4"')),
    asks(7, "documentSymbol"),
    asks(8, "semanticTokens/full"),
    asks(9, "codeAction", ranged((1, 0), (1, 0))),
    asks(10, "hover", at(1, 0), "file:///h"),
    changes(2, edit((0, 4), (0, 5), "bb")),
    asks(11, "hover", at(0, 0), "file:///h"),
    changes(3, edit((0, 4), (0, 6), "b") + "," + edit((1, 10), (1, 14), "a")),
    asks(12, "documentSymbol", uri="file:///h"),
    asks(CANCELLED, "hover", at(120, 0)),
    cancelled(CANCELLED),
    cancelled('"none"'),
    '{"id":"text","method":"$/unknown"}',
    asks(13, "hover"),
    '{"method":5}',
    asks(14, "semanticTokens/full", uri="file:///h"),
    '{"jsonrpc":"2.0","method":"textDocument/didClose","params":{"textDocument":{"uri":"file:///h"}}}',
    asks(15, "hover", at(0, 0), "file:///h"),
    '{"jsonrpc":"2.0","id":16,"method":"shutdown"}',
    EXIT,
)
GIVEN = runs.frames(SESSION)
TURNS = (
    (INITIALIZE, 1),
    (INITIALIZED, 0),
    (opened(SMALL, "file:///h"), 1),
    *((asks(number, "hover", at(0, 0), "file:///h"), 1) for number in range(2, 2 + HOVERS)),
)
LAST_TURN = runs.frames(['{"jsonrpc":"2.0","id":16,"method":"shutdown"}', EXIT])
REQUESTS = [json.loads(message)["id"] for message in SESSION if '"id":' in message.partition('"params"')[0]]


def error(code, message, number):
    return f'{{"error":{{"code":{code},"message":"{message}"}},"id":{json.dumps(number)},"jsonrpc":"2.0"}}'.encode()


def key_of(body):
    """What a body is about: the id of its request, or the document and its version."""
    told = json.loads(body)
    return (told["params"]["uri"], told["params"]["version"]) if "method" in told else json.dumps(told["id"])


class Wanted:
    """The bodies that the session may write, by what they are about, and what must be among them where it ends as it should."""

    def __init__(self, program):
        client = runs.Client(program)
        for message in SESSION:
            said = json.loads(message)
            count = len(runs.bodies_of(client.wrote)[0])
            leads = "id" in said or said.get("method", 5) in (5, "textDocument/didOpen", "textDocument/didChange")
            client.turn(runs.frames([message]), lambda wrote, many=count + leads: len(runs.bodies_of(wrote)[0]) >= many)
        status, said, wrote = client.outcome()
        bodies, rest = runs.bodies_of(wrote)
        self.is_whole = (status, said, rest, len(bodies)) == (0, b"", b"", len(REQUESTS) + 1 + 4)
        self.bodies = {key_of(body): {body} for body in bodies}
        for number in REQUESTS:
            self.bodies.setdefault(json.dumps(number), set()).add(error(-32603, "internal error", number))
        self.bodies.setdefault(json.dumps(CANCELLED), set()).add(error(-32800, "request cancelled", CANCELLED))
        # the answer to what has no id
        self.asked = {*map(json.dumps, REQUESTS), "null"}

    def fault(self, run):
        """What is wrong with a run; None where nothing is."""
        status, said, wrote = run
        bodies, rest = runs.bodies_of(wrote)
        try:
            keys = collections.Counter(map(key_of, bodies))
        except (ValueError, KeyError, TypeError):
            return "a body that is none"
        if rest or [body for body in bodies if body not in self.bodies.get(key_of(body), ())]:
            return "a body that is none of the session's"
        if [key for key, count in keys.items() if count > 1]:
            return "two bodies about the same"
        if (status, said) == (6, OUT_OF_MEMORY):
            return None
        if (status, said) != (0, b""):
            return f"another end: {status} {said[:100]}"
        return None if self.asked <= set(keys) else "a request without a reply"


def limits(numbers, most):
    """Each of these allocations alone, and with all behind it."""
    return [(first, last) for first in numbers for last in (first, most)]


def refused(program, made, first, last):
    """A run in which these allocations are refused."""
    return runs.outcome(program, GIVEN, env=rows.in_front(made, first_refused=first, last_refused=last))


def counted(run):
    """How many allocations a run made in which none was refused, by what the library says."""
    status, said, _ = run
    count = COUNTED.fullmatch(said)
    return int(count[1]) if count and status == 0 else 0


def refused_by_turns(program, made, number):
    """A session by turns in which this allocation is refused; with the number 0 none is, and each turn has the time that it takes."""
    patience = PATIENCE if number else float("inf")
    return runs.by_turns(program, TURNS, LAST_TURN, rows.in_front(made, first_refused=number, last_refused=number), patience)


def cases_by_turns(program, made):
    """The same, of a session by turns: how the run ended in which each of its allocations is refused alone."""
    whole = refused_by_turns(program, made, 0)
    count = counted(whole)
    yield f"a session by turns of {count} allocations", (count > 500, len(runs.bodies_of(whole[2])[0])), (True, HOVERS + 3)
    ran = rows.side_by_side(lambda number: refused_by_turns(program, made, number), range(1, count + 1))
    faults = [(number, *run[:2]) for number, run in enumerate(ran, 1) if run[:2] not in ((0, b""), (6, OUT_OF_MEMORY))]
    yield f"{count} sessions by turns with memory refused", faults, []


def cases(program, sample=SAMPLE, seed=SEED):
    """What was tried, what was wrong with it, and what must be wrong: nothing. Where there is no sample each allocation is refused."""
    wanted = Wanted(program)
    yield "the session that memory is refused to", wanted.is_whole, True
    with rows.library(LIBRARY) as made:
        count = counted(refused(program, made, 0, 0))
        yield f"a session of {count} allocations", count > 1000, True
        behind = range(FIRST + 1, count + 1)
        some = behind if sample is None else random.Random(seed).sample(behind, min(sample, len(behind)))
        tries = limits([*range(1, FIRST + 1), *some], 2**62)
        ran = rows.side_by_side(lambda it: refused(program, made, *it), tries)
        yield from cases_by_turns(program, made)
    faults = [(*it, fault) for it, run in zip(tries, ran) if (fault := wanted.fault(run))]
    yield f"{len(tries)} sessions with memory refused", faults, [], len(tries)
    # that the library is there: the first allocation ends the run, and some are of requests that are told so
    ends = collections.Counter(status for status, _, _ in ran)
    yield "how these end", (ran[1][0], min(ends[0], ends[6]) > 0, any(b"-32603" in wrote for _, _, wrote in ran)), (6, True, True)


def main(words):
    (program,), tries_all = rows.programs_of(words, rows.SERVER)
    return rows.report(cases(program, None if tries_all else SAMPLE))


if __name__ == "__main__":
    sys.exit(main(sys.argv[1:]))

#!/usr/bin/env python3
"""Runs the commands, and a session on one thread, with memory refused to them.

    tools/refused_commands.py [PROGRAM [PLAIN_PROGRAM]]

Each allocation is refused in turn, alone and with all that come behind it. A command ends with `out of memory` and nothing printed, or as it does
with memory. The session is served in order: it ends with `out of memory`, and then what was written is a front of what must be, or as it does
with memory. In either case a reply may be the error -32603, and findings may be left out: where one allocation is refused, just one of these.
"""
import itertools
import json
import sys

import refused_sessions
import rows
import runs
from command_rows import TWO, TWO_LINES, lines, shown
from session_rows import CAPABILITIES, CLEAN, DOWN, EXIT, INITIALIZE, INITIALIZED, OPEN, OUTLINE, SHUTDOWN, SYMBOLS, at, named

OUT_OF_MEMORY = (6, refused_sessions.OUT_OF_MEMORY)

CERT = lines(*TWO_LINES)
EXAMPLE = f"{shown(1, 'x')}\n\n{CERT}".encode()

RANGE = '"range":{"end":{"character":1,"line":0},"start":{"character":0,"line":0}}'
HOVERED = '{"id":4,"jsonrpc":"2.0","result":{"contents":{"kind":"plaintext","value":"shortest length 1\\nexample x"},' + RANGE + "}}"
RENAMED = '{"id":5,"jsonrpc":"2.0","result":{"changes":{"file:///g":[{"newText":"b",' + RANGE + "}]}}}"
SESSION = (
    *(INITIALIZE, INITIALIZED, OPEN, SYMBOLS),
    refused_sessions.asks(4, "hover", at(0, 0)),
    refused_sessions.asks(5, "rename", at(0, 0) + named('"b"')),
    *(SHUTDOWN, EXIT),
)
ANSWERS = (CAPABILITIES, CLEAN, OUTLINE, HOVERED, RENAMED, DOWN)


def refused(program, made, arguments, given, first, last):
    """A run in which these allocations are refused."""
    return runs.outcome(program, given, arguments, env=rows.in_front(made, first_refused=first, last_refused=last))


def all_refused(program, made, arguments, given):
    """How many allocations a run makes, and each pair of limits with the run in which what lies between them is refused."""
    _, said, _ = refused(program, made, arguments, given, 0, 0)
    count = refused_sessions.COUNTED.search(said)
    limits = refused_sessions.limits(range(1, int(count[1]) + 1), 2**62) if count else []
    return len(limits) // 2, list(zip(limits, rows.side_by_side(lambda it: refused(program, made, arguments, given, *it), limits)))


def is_command_wrong(run, printed):
    """Whether a command that is refused memory ended otherwise than it must."""
    return run not in ((*OUT_OF_MEMORY, b""), (0, b"", printed))


def differences(bodies):
    """How many of the session's answers aren't there or are errors, up to the last body; None where the bodies aren't its answers in order."""
    wanted, count = [it.encode() for it in ANSWERS], 0
    for body in bodies:
        while wanted and body != wanted[0]:
            told = json.loads(wanted.pop(0))
            count += 1
            if "id" in told:
                if body != refused_sessions.error(-32603, "internal error", told["id"]):
                    return None
                wanted.insert(0, body)
        if not wanted:
            return None
        wanted.pop(0)
    # at the end of the session nothing is left, or findings
    return count, len(wanted)


def is_session_wrong(limits, run):
    """Whether the session, refused memory, ended otherwise than it must."""
    status, said, wrote = run
    bodies, rest = runs.bodies_of(wrote)
    found = differences(bodies)
    if found is None or rest:
        return True
    count, left = found
    if (status, said) == OUT_OF_MEMORY:
        return limits[0] == limits[1] and count > 0
    return (status, said, left) != (0, b"", 0) or (limits[0] == limits[1] and count > 1)


def command_cases(program):
    with rows.library(refused_sessions.LIBRARY) as made, rows.files() as files:
        text, cert = files.written("g.abnf", TWO), files.written("c", CERT)
        for arguments, printed in ((["example", text, "a"], EXAMPLE), (["check", text, cert], b"yes\n")):
            count, found = all_refused(program, made, arguments, None)
            bad = [it for it in found if is_command_wrong(it[1], printed)]
            ends = {run[0] for _, run in found}
            yield f"{arguments[0]} with each of {count} allocations refused", (count > 20, bad[:3], 6 in ends), (True, [], True)


def session_cases(program):
    with rows.library(refused_sessions.LIBRARY) as made:
        count, found = all_refused(program, made, [], runs.frames(SESSION))
    bad = [it for it in found if is_session_wrong(*it)]
    errors = {number for number in (2, 4, 5) for _, run in found if refused_sessions.error(-32603, "internal error", number) in run[2]}
    yield f"a session on one thread with each of {count} allocations refused", (count > 100, bad[:3], errors), (True, [], {2, 4, 5})


def main(words):
    (program, plain), _ = rows.programs_of(words, rows.SERVER, rows.PLAIN)
    return rows.report(itertools.chain(command_cases(program), session_cases(plain)))


if __name__ == "__main__":
    sys.exit(main(sys.argv[1:]))

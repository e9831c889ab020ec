#!/usr/bin/env python3
"""Runs the program between pipes that are cut.

    tools/cut_pipes.py [PROGRAM] [--all]

The input is cut after each byte of the first session, once what came before it has been answered: all of that has been written then, and the
status and the line are those of a cut frame, of a client that leaves, or of an exit. And the reader of the output goes away after some of its
bytes: the next reply finds nobody, and the run ends as a failed write; where none comes, as if nothing had happened. --all tries each byte.
"""
import sys

import broken_input
import rows
import runs
from broken_input import ANSWERS, FIRST

# Of the bytes of the output each so many-th is tried, and those about the ends of frames.
STEP = 7
TURNS = [(message, int(body is not None)) for message, body in zip(FIRST, ANSWERS)]


def cut_input(program, front):
    """A run whose input is cut behind so many bytes, and how it must end."""
    count, left = broken_input.whole_frames(front)
    rest = runs.frames(FIRST)[front - left : front]
    found = runs.by_turns(program, TURNS[:count], rest)
    return found, (*broken_input.ends_at(front), runs.frames(broken_input.answers_to(count)))


def left_output(program, front):
    """A run whose reader goes away behind so many bytes of its output, and how it must end."""
    client, given, wrote = runs.Client(program), 0, b""
    # the messages up to the one that leads to the last of these bytes
    while len(wrote) < front and given < len(FIRST):
        body = ANSWERS[given]
        wrote += runs.frames([body]) if body else b""
        client.turn(runs.frames([FIRST[given]]), lambda read, size=min(front, len(wrote)): len(read) >= size, front)
        given += 1
    client.stops_reading()
    client.turn(runs.frames(FIRST[given:]), lambda read: True)
    ends = (2, b"write failed\n") if any(ANSWERS[given:]) else (0, b"")
    return client.outcome(), (*ends, runs.frames(broken_input.answers_to(len(FIRST)))[:front])


def output_fronts(step):
    """Places in the output: each so many-th, and those about the ends of frames."""
    ends = [len(runs.frames(broken_input.answers_to(count))) for count in range(len(FIRST) + 1)]
    near = {end + more for end in ends for more in (-1, 0, 1)}
    return [it for it in range(ends[-1] + 1) if it % step == 0 or it in near]


def wrong_ends(ran):
    """Some of the runs that ended otherwise than they must: the place, the end, and that which it must have."""
    return [(front, found, wanted) for front, (found, wanted) in ran if found != wanted][:3]


def cases(program, step=STEP):
    """What was tried, what was wrong with it, and what must be wrong: nothing."""
    ran = rows.side_by_side(lambda front: (front, cut_input(program, front)), range(len(runs.frames(FIRST)) + 1))
    yield f"{len(ran)} inputs that are cut", wrong_ends(ran), [], len(ran)
    # one after the other: another run that is just being started would hold the end of the pipe that is closed
    ran = [(front, left_output(program, front)) for front in output_fronts(step)]
    yield f"{len(ran)} readers that go away", wrong_ends(ran), [], len(ran)


def main(words):
    (program,), tries_all = rows.programs_of(words, rows.SERVER)
    return rows.report(cases(program, 1 if tries_all else STEP))


if __name__ == "__main__":
    sys.exit(main(sys.argv[1:]))

#!/usr/bin/env python3
"""Runs the calls and sessions of the crate refused_memory with one allocation refused, for each allocation that they make.

    tools/refused_memory.py [PROGRAM]

It must print the same in each run, and end by itself: a call that is refused memory leaves what it was given as it was, and
goes through when it is made once more. A job that is refused memory is handed in: then its request is told of an internal error in place of
its answer, and of findings nothing is told. Each job of the two sessions must have come to that. A small library in front of the C library's
refuses the allocation with the number that it is told.
"""
import json
import os
import sys

import rows
import runs

# What the program prints
PRINTED = os.path.join(rows.TOP, "crates", "refused_memory", "stdout")
# More than it makes, and how many of these are tried at a time.
MOST = 100_000
TOGETHER = 64
REFUSED = b"an allocation is refused\n"

# An event by which a call begins, whether it is a client's, and what the desk does not count
CLIENT = (b"did_open", b"did_change", b"did_close", b"request", b"cancel", b"say")
NO_EVENTS = (b"Refused", b"Nothing")
MOST_JOURNAL = 4
# What replies tell of the jobs that run, in the order in which these are handed in
REPLIES = (b"Findings(1)", b"Replied(1)", b"Findings(3)", b"Replied(3)")
# How many bodies the session by steps writes, and which of them are what a job gave: findings, a hover, findings twice and a rename.
BODIES = 7
ANSWERS = (1, 2, 3, 5, 6)

# It writes a line where it refuses one, since the program writes none to the standard error.
LIBRARY = r"""
extern void *__libc_malloc(unsigned long size);
extern void *__libc_realloc(void *block, unsigned long size);
extern char *getenv(const char *name);
extern long write(int file, const void *bytes, unsigned long count);

static long left = -1;

static int is_refused(void) {
  if (left < 0) {
    left = 0;
    for (char *digit = getenv("REFUSED_ALLOCATION"); digit && *digit; digit++) left = left * 10 + (*digit - '0');
  }
  if (left == 0 || --left != 0) return 0;
  write(2, "an allocation is refused\n", 25);
  return 1;
}

void *malloc(unsigned long size) { return is_refused() ? 0 : __libc_malloc(size); }
void *realloc(void *block, unsigned long size) { return is_refused() ? 0 : __libc_realloc(block, size); }
"""


def all_runs(program, made):
    """The status, the output and the standard error of a run with each allocation refused, and at last with none."""

    def run(number):
        status, said, wrote = runs.outcome(program, b"", env=rows.in_front(made, refused_allocation=number))
        return status, wrote, said

    for first in range(1, MOST, TOGETHER):
        for ended in rows.side_by_side(run, range(first, first + TOGETHER)):
            yield ended
            if not ended[2] or ended[0] == runs.HUNG:
                return


def counted(calls):
    """The last line of a session at the desk with these lines: a client's event begins the journal anew where it is as long as it may be."""
    events = checkpoints = 0
    for call, _, answer in (line.partition(b": ") for line in calls):
        if answer.startswith(NO_EVENTS):
            continue
        if call in CLIENT and events >= MOST_JOURNAL:
            events, checkpoints = 0, checkpoints + 1
        events += 1
    return b"%d events after %d checkpoints, 0 unsent" % (events, checkpoints)


def calls_where_a_job_fails(calls, number):
    """The lines of that session where the job with this number, of those that are handed in, is refused memory."""
    calls, is_asked = list(calls), REPLIES[number].startswith(b"Replied")
    handed_in = [at for at, line in enumerate(calls) if line == b"finish: Held(Reply)"]
    calls[handed_in[number]] = b"finish: Held(Failure)" if is_asked else b"finish: Held(Nothing)"
    at = calls.index(b"next_out: " + REPLIES[number])
    if is_asked:
        calls[at] = b"next_out: Failed(-32603)"
        return calls
    # nothing is told: the replies behind it that are asked for in a row come one call earlier
    end = next((it for it in range(at, len(calls)) if not calls[it].startswith(b"next_out")), len(calls))
    return calls[:at] + calls[at + 1 : end] + [b"next_out: Nothing"] + calls[end:]


def bodies_where_a_job_fails(bodies, at):
    """The bodies of the session by steps where a job is refused memory, whose answer stands at this place."""
    told = json.loads(bodies[at])
    error = '{"error":{"code":-32603,"message":"internal error"},"id":%d,"jsonrpc":"2.0"}'
    return [*bodies[:at], *([(error % told["id"]).encode()] if "id" in told else []), *bodies[at + 1 :]]


def outputs_where_a_job_fails(wanted):
    """The outputs in which one job is refused memory. The whole output must have the desk's last line by the same count, and as many bodies."""
    desk, last, others = wanted.partition(b" unsent\n")
    *calls, count = (desk + last).splitlines()
    lines, frames = others[: others.index(b"Content-Length")], others[others.index(b"Content-Length") :]
    bodies, rest = runs.bodies_of(frames)
    if counted(calls) != count or (len(bodies), rest) != (BODIES, b"\n"):
        return []
    failing = [calls_where_a_job_fails(calls, number) for number in range(len(REPLIES))]
    at_desk = [b"\n".join([*it, counted(it), others]) for it in failing]
    return at_desk + [desk + last + lines + runs.frames(bodies_where_a_job_fails(bodies, at)) + b"\n" for at in ANSWERS]


def cases(program):
    """What was tried, what the program ended with, and what it must end with: the last run is the one in which nothing was refused."""
    with open(PRINTED, "rb") as file:
        wanted = file.read()
    with rows.library(LIBRARY) as made:
        found = list(all_runs(program, made))
    refused, failures = len(found) - 1, outputs_where_a_job_fails(wanted)
    others = sorted({it for it in found[:-1] if it[1] not in failures})
    yield f"{refused} allocations refused in turn", (refused > 100, others), (True, [(0, wanted, REFUSED)])
    failed = sorted({it for it in found[:-1] if it[1] in failures})
    yield f"each of {len(failures)} jobs refused memory", failed, sorted((0, it, REFUSED) for it in failures), len(failures)
    yield "no allocation refused", found[-1], (0, wanted, b"")


def main(words):
    return rows.report(cases(*words or [rows.built("refused_memory")]))


if __name__ == "__main__":
    sys.exit(main(sys.argv[1:]))

#!/usr/bin/env python3
"""Runs a session of every kind of request with reads and writes that fail, are interrupted, or take a few bytes.

    tools/failing_devices.py [PROGRAM [PLAIN]] [--all]

A small library in front of the C library's answers the calls of the standard input and output. A read that fails ends the run by `read failed`,
and of what was heard before it the replies may have been written: each whole and once. A write that fails ends it by `write failed`, and what was
written is as many bytes as were taken: whole frames of such replies, and a front of one more. A read that is interrupted is made again, and a
write that takes one byte is followed by others: nothing else is seen of these. On one thread, by PLAIN, the bytes are known to the last. --all reads
the input byte by byte, and lets each write of one byte fail.

At last there are rows by value, on one thread: a short session whose devices fail, and worked streams that come byte by byte.
"""
import collections
import itertools
import json
import sys

import rows
import runs
from refused_sessions import CONTEXT, asks, changes, key_of
from session_rows import CAPABILITIES, DOWN, EXIT, INITIALIZE, INITIALIZED, LIST, SHUTDOWN, STREAMS, at, edit, ends_of, named, opened, ranged

# The input comes in pieces of so many bytes.
PIECE = 8
# Where a write takes one byte, each so many-th of them fails.
STEP = 5
# A run with nothing to wait for that takes longer hangs.
SECONDS = 20
READ_FAILED, WRITE_FAILED, CLEAN = (2, b"read failed\n"), (2, b"write failed\n"), (0, b"")

# FAILED_READ, INTERRUPTED_READ, FAILED_WRITE and NO_WRITE are numbers of calls, from 1; a read with the number 0 is each other one. MOST_READ and
# MOST_WRITE are how many bytes a call takes. NO_LINE is 1 where no line can be told.
LIBRARY = r"""
extern char *getenv(const char *name);
extern int *__errno_location(void);
extern long syscall(long number, ...);

static long reads, writes;

static long number(const char *name) {
  char *digit = getenv(name);
  if (!digit) return -1;
  long told = 0;
  for (; *digit; digit++) told = told * 10 + (*digit - '0');
  return told;
}

static long fails(int error) {
  *__errno_location() = error;
  return -1;
}

static unsigned long least(unsigned long count, long most) { return most > 0 && (unsigned long)most < count ? (unsigned long)most : count; }

long read(int file, void *bytes, unsigned long count) {
  if (file == 0) {
    long call = __atomic_add_fetch(&reads, 1, __ATOMIC_SEQ_CST), interrupted = number("INTERRUPTED_READ");
    if (call == number("FAILED_READ")) return fails(5);
    if (call == interrupted || (interrupted == 0 && call % 2)) return fails(4);
    count = least(count, number("MOST_READ"));
  }
  return syscall(0, file, bytes, count);
}

long write(int file, const void *bytes, unsigned long count) {
  if (file == 1) {
    long call = __atomic_add_fetch(&writes, 1, __ATOMIC_SEQ_CST);
    if (call == number("FAILED_WRITE")) return fails(5);
    if (call == number("NO_WRITE")) return 0;
    count = least(count, number("MOST_WRITE"));
  }
  if (file == 2 && number("NO_LINE") == 1) return fails(5);
  return syscall(1, file, bytes, count);
}
"""

SMALL = 'a = b "x"\nb = "yy" / nope\n'
# What is asked about the second document is answered by the text as it was; renames and code actions are asked about the first one, which never
# changes.
SESSION = (
    INITIALIZE,
    INITIALIZED,
    opened(LIST),
    opened(SMALL, "file:///h"),
    asks(2, "hover", at(1, 9)),
    asks(3, "definition", at(1, 9)),
    asks(4, "references", at(0, 0) + CONTEXT),
    asks(5, "rename", at(0, 0) + named('"new-name"')),
    asks(6, "documentSymbol"),
    asks(7, "semanticTokens/full"),
    asks(8, "codeAction", ranged((1, 0), (1, 0))),
    asks(9, "hover", at(1, 0), "file:///h"),
    changes(2, edit((0, 4), (0, 5), "bb")),
    asks(10, "hover", at(0, 0), "file:///h"),
    '{"id":"text","method":"$/unknown"}',
    '{"method":5}',
    '{"jsonrpc":"2.0","id":11,"method":"shutdown"}',
    EXIT,
)
GIVEN = runs.frames(SESSION)
# The findings of a version that a change follows may be left out.
PASSED_OVER = ("file:///h", 1)


def leads_on(message):
    """Whether a message leads to a body: to one."""
    said = json.loads(message)
    return "id" in said or said["method"] in (5, "textDocument/didOpen", "textDocument/didChange")


class Wanted:
    """What each message leads to, where each is sent once what the one before leads to has come."""

    def __init__(self, program):
        self.ends = runs.by_turns(program, [(message, int(leads_on(message))) for message in SESSION])
        bodies, rest = runs.bodies_of(self.ends[2])
        self.is_whole = self.ends[:2] == CLEAN and (len(bodies), rest) == (sum(map(leads_on, SESSION)), b"")
        each = iter(bodies)
        self.leads = [next(each, b"") if leads_on(message) else None for message in SESSION]

    def bodies(self, heard):
        """What the messages lead to that are whole in so many bytes of the input."""
        count = len(runs.bodies_of(GIVEN[:heard])[0])
        return [body for body in self.leads[:count] if body is not None]

    def must(self):
        """What is written in each run that nothing ends early."""
        return {body for body in self.bodies(len(GIVEN)) if key_of(body) != PASSED_OVER}

    def fault_of(self, wrote, heard):
        """What is wrong with bytes that were written after so many bytes were heard."""
        bodies, rest = runs.bodies_of(wrote)
        left = collections.Counter(self.bodies(heard))
        left.subtract(bodies)
        if min(left.values(), default=0) < 0:
            return "a frame that is none, or is there twice"
        if rest and not any(runs.frame(body).startswith(rest) for body in left.elements()):
            return "a cut frame that is a front of none"
        return None


class Fault:
    """One way in which the devices go wrong, and what must be so of a run then."""

    def __init__(self, said, ends, heard=len(GIVEN), **at_calls):
        self.said, self.ends, self.heard = said, ends, heard
        self.at_calls = at_calls
        # what counts the calls of writes: each takes a byte, or else a whole frame
        self.takes_bytes = "most_write" in at_calls

    def fault_on_threads(self, wanted, run):
        """What is wrong with a run on several threads."""
        status, said, wrote = run
        if (fault := wanted.fault_of(wrote, self.heard)) is not None:
            return fault
        bodies, rest = runs.bodies_of(wrote)
        if (status, said) == CLEAN and (self.ends == CLEAN or self.never_came(wanted, bodies, wrote)):
            return None if not rest and wanted.must() <= set(bodies) else "a reply is missing"
        if (status, said) != self.ends:
            return f"another end: {status} {said[:100]}"
        if self.ends == READ_FAILED and rest:
            return "a cut frame after a read that failed"
        return None if self.ends != WRITE_FAILED or self.has_taken(wrote) else "another count of bytes than writes took"

    def never_came(self, wanted, bodies, wrote):
        """Whether the write that fails may never have come: only where the findings that may be left out are."""
        calls = len(wrote) if self.takes_bytes else len(bodies)
        return self.ends == WRITE_FAILED and calls < self.call() and len(bodies) < len(wanted.bodies(len(GIVEN)))

    def call(self):
        """The write that fails or takes nothing."""
        return self.at_calls.get("failed_write") or self.at_calls["no_write"]

    def has_taken(self, wrote):
        """Whether as much was written as the writes took before the one that fails."""
        count = len(wrote) if self.takes_bytes else len(runs.bodies_of(wrote)[0])
        return count == self.call() - 1

    def fault_on_one_thread(self, wanted, run):
        """What is wrong with a run on one thread, whose bytes are known."""
        whole = runs.frames(wanted.bodies(self.heard))
        if self.ends == WRITE_FAILED:
            count = self.call() - 1
            whole = whole[:count] if self.takes_bytes else runs.frames(wanted.bodies(self.heard)[:count])
        return None if run == (*self.ends, whole) else f"it ended with {run[:2]} and {len(run[2])} bytes, and not with {self.ends} and {len(whole)}"


def faults(wanted, piece, step):
    """The ways in which the devices go wrong, where the input comes in pieces of so many bytes."""
    reads = range(1, -(-len(GIVEN) // piece) + 1)
    count, size = len(wanted.bodies(len(GIVEN))), len(runs.frames(wanted.bodies(len(GIVEN))))
    for call in reads:
        yield Fault("reads that fail", READ_FAILED, heard=piece * (call - 1), failed_read=call, most_read=piece)
        yield Fault("reads that are interrupted", CLEAN, interrupted_read=call, most_read=piece)
    yield Fault("reads that are interrupted", CLEAN, interrupted_read=0, most_read=piece)
    yield Fault("writes of one byte", CLEAN, most_write=1)
    for call in range(1, count + 1):
        yield Fault("writes that fail", WRITE_FAILED, failed_write=call)
        yield Fault("writes that take nothing", WRITE_FAILED, no_write=call)
    for call in range(1, size + 1, step):
        yield Fault("writes of one byte, of which one fails", WRITE_FAILED, failed_write=call, most_write=1)
    for call in ("failed_read", "failed_write"):
        yield Fault("lines that can't be told", (2, b""), heard=0, no_line=1, **{call: 1})
    yield Fault("devices at which nothing is wrong", CLEAN, failed_write=size + 1, most_write=1)


def all_cases(program, piece, step, fault_in):
    """What was tried, what was wrong with it, and what must be wrong: nothing."""
    wanted = Wanted(program)
    yield "the session whose devices fail", wanted.is_whole, True
    with rows.library(LIBRARY) as made, rows.files() as files:
        path = files.written("given", GIVEN)

        def ran(fault):
            with open(path, "rb") as given:
                run = runs.outcome(program, None, stdin=given, env=rows.in_front(made, **fault.at_calls), seconds=SECONDS)
            return fault, fault_in(fault, wanted, run)

        found = rows.side_by_side(ran, faults(wanted, piece, step))
    for said in dict.fromkeys(fault.said for fault, _ in found):
        some = [(fault.at_calls, wrong) for fault, wrong in found if fault.said == said]
        yield f"{len(some)} runs with {said}", [it for it in some if it[1]][:3], [], len(some)


# A short session: frames of 80, 66 and 55 bytes, answered by frames of 503 and 60
SHORT = runs.frames(('{"jsonrpc":"2.0","id":1,"method":"initialize","params":{}}', SHUTDOWN, EXIT))
FIRST, BOTH = runs.frames([CAPABILITIES]), runs.frames([CAPABILITIES, DOWN])
assert (len(SHORT), len(FIRST), len(BOTH)) == (201, 503, 563)
# What is written of it, and how it ends. Where a read of ten bytes fails, what was whole in those before it has been answered.
WORKED = (
    *(((*READ_FAILED, b""), {"failed_read": call, "most_read": 10}) for call in range(1, 9)),
    *(((*READ_FAILED, FIRST), {"failed_read": call, "most_read": 10}) for call in range(9, 16)),
    *(((*READ_FAILED, BOTH), {"failed_read": call, "most_read": 10}) for call in range(16, 22)),
    # each other read is interrupted
    ((*CLEAN, BOTH), {"interrupted_read": 0, "most_read": 7, "most_write": 5}),
    # a write takes a hundred bytes
    *(
        ((*WRITE_FAILED, BOTH[:taken]), {"failed_write": call, "most_write": 100})
        for call, taken in enumerate((0, 100, 200, 300, 400, 500, 503), 1)
    ),
)


def worked_cases(program):
    """The rows by value."""
    with rows.library(LIBRARY) as made:
        for wanted, at_calls in WORKED:
            yield f"a short session with {at_calls}", runs.outcome(program, SHORT, env=rows.in_front(made, **at_calls)), wanted
        for stream, bodies, fault in STREAMS:
            found = runs.outcome(program, stream, env=rows.in_front(made, most_read=1))
            yield f"the stream {stream[:60]}, byte by byte", found, ends_of(bodies, fault)


def cases(program, piece=PIECE, step=STEP):
    """On several threads, where replies may come in any order."""
    yield from all_cases(program, piece, step, Fault.fault_on_threads)


def plain_cases(program, piece=PIECE, step=STEP):
    """On one thread."""
    yield from all_cases(program, piece, step, Fault.fault_on_one_thread)
    yield from worked_cases(program)


def main(words):
    (program, plain), tries_all = rows.programs_of(words, rows.SERVER, rows.PLAIN)
    sizes = (1, 1) if tries_all else (PIECE, STEP)
    return rows.report(itertools.chain(cases(program, *sizes), plain_cases(plain, *sizes)))


if __name__ == "__main__":
    sys.exit(main(sys.argv[1:]))

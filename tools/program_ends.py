#!/usr/bin/env python3
"""Runs the programs that `rt ci` has built as a user would, and checks how they end: status, line and what they wrote. The worked sessions
run on one thread and on several, and so does what is typed; the program with its threads is refused memory, given broken input, cut off
from its pipes, has devices that fail and threads that are shaken, by seeded samples.

    tools/program_ends.py ['[NAME: ]N passed, M failed[, status S]' ..]

No contract speaks of arguments, files and devices. Each of the two compilers' programs is run. How many rows each tool has had for each
program is compared with counts.txt, so that none goes without a word. The last line has the form of that of `rt ci`, and counts what is
handed in too. What is handed in and isn't of that form counts as a failure, as does a status that no failure stands for, and fewer crates,
edits or tests than counts.txt has.
"""
import collections
import functools
import os
import re
import sys
import traceback

import broken_input
import command_rows
import counts
import cut_pipes
import dist_rows
import draft_sessions
import edited_texts
import encoding_rows
import failing_devices
import findings_rows
import grown_edits
import install_rows
import kept_rows
import published_rows
import random_drafts
import random_texts
import refused_commands
import refused_memory
import refused_sessions
import refused_threads
import replayed_typing
import rows
import session_rows
import shaken_threads
import text_rows
import threaded_sessions
from runs import outcome, frame, frames

USAGE = b"usage: abnf_ls [example FILE RULE | check FILE CERT]\n"


INITIALIZE = frame(b'{"jsonrpc":"2.0","id":1,"method":"initialize","params":{"capabilities":{}}}')
SHUTDOWN = frame(b'{"jsonrpc":"2.0","id":2,"method":"shutdown"}')
EXIT = frame(b'{"jsonrpc":"2.0","method":"exit"}')
IS_SHUT_DOWN = frame(b'{"id":2,"jsonrpc":"2.0","result":null}')
NO_REQUEST = frame(b"{}")
IS_NO_REQUEST = frame(b'{"error":{"code":-32600,"message":"invalid request"},"id":null,"jsonrpc":"2.0"}')


def with_device(program, given, path, flags, arguments=(), **at):
    device = os.open(path, flags)
    try:
        return outcome(program, given, arguments, **{name: device for name in at})
    finally:
        os.close(device)


def long_cases(program):
    """Each of these messages is an event when it is answered, and one more when the answer is written."""
    status, said, wrote = outcome(program, NO_REQUEST * 500_001)
    yield "more events than a journal has", (status, said, wrote == IS_NO_REQUEST * 500_001), (1, b"", True)


def end_cases(program):
    """What each case is, how the program ended in it, and how it must end."""
    for argument in ("--stdio", b"\xff"):
        yield f"the argument {argument}", outcome(program, NO_REQUEST, [argument]), (5, USAGE, b"")
    yield "no input", outcome(program, b""), (1, b"", b"")
    yield "no exit", outcome(program, NO_REQUEST), (1, b"", IS_NO_REQUEST)
    yield "exit alone", outcome(program, EXIT), (1, b"", b"")
    yield "a cut frame", outcome(program, NO_REQUEST[:-1]), (2, b"framing fault 7 Truncated\n", b"")
    bad = b"Content-Length: -1\r\n\r\n"
    yield "a bad length behind a frame", outcome(program, NO_REQUEST + bad), (2, b"framing fault 5 BadLength\n", IS_NO_REQUEST)
    full = os.open("/dev/full", os.O_WRONLY)
    yield "an output that is full", outcome(program, NO_REQUEST, stdout=full), (2, b"write failed\n", b"")
    os.close(full)
    read_end, write_end = os.pipe()
    os.close(read_end)
    yield "an output that nobody reads", outcome(program, NO_REQUEST, stdout=write_end), (2, b"write failed\n", b"")
    os.close(write_end)
    folder = os.open("/", os.O_RDONLY)
    yield "an input that can't be read", outcome(program, None, stdin=folder), (2, b"read failed\n", b"")
    os.close(folder)
    status, said, wrote = outcome(program, INITIALIZE + SHUTDOWN + EXIT)
    yield "shutdown and exit", (status, said, wrote[-len(IS_SHUT_DOWN):]), (0, b"", IS_SHUT_DOWN)
    for arguments in (["example", "x"], ["example", "x", "a", "a"], ["Example", "x", "a"], ["example", "x", b"\xff"]):
        yield f"the arguments {arguments}", outcome(program, None, arguments), (5, USAGE, b"")


def session_cases(worked, program):
    """What is written in each of the worked sessions, and how it ends."""
    for what, said, answered, status in worked.SESSIONS:
        yield what, outcome(program, frames(said)), (status, b"", frames(answered))
    for what, said, answered, versions in worked.REPLIES:
        status, line, wrote = outcome(program, frames(said))
        yield what, (status, line, *threaded_sessions.split(wrote)), (1, b"", frames(answered), versions, b"")


def frame_cases(program):
    """Streams whose frames are broken behind a whole one, a header part of another form, and streams from the first byte on."""
    before, answered = frames([session_rows.INITIALIZE]), frames([session_rows.CAPABILITIES])
    for stream, fault in session_rows.FRAMES:
        line = f"framing fault {fault}\n".encode()
        yield f"{fault}: {stream[:60]}", outcome(program, before + stream), (2, line, answered)
    other_form = outcome(program, b"content-length:  002 \r\n\r\n{}")
    yield "a header part of another form", other_form, (1, b"", frames([session_rows.INVALID_REQUEST]))
    for stream, bodies, fault in session_rows.STREAMS:
        yield f"the stream {stream[:60]}", outcome(program, stream), session_rows.ends_of(bodies, fault)


def file_cases(program):
    """Files that can't be read, and files that are no texts: the grammar's come first."""
    with rows.files() as files:
        yield from file_rows(program, files)
    with rows.files() as files:
        yield from name_rows(program, files)


def name_rows(program, files):
    """A file in the folder where the program works: one that isn't there, and one that isn't UTF-8."""
    arguments, folder = ["example", "g.abnf", "a"], files.folder
    yield "no file, by its name alone", outcome(program, None, arguments, folder=folder), (2, b"cannot read g.abnf\n", b"")
    files.written("g.abnf", b"\xff")
    yield "a file that isn't UTF-8, by its name alone", outcome(program, None, arguments, folder=folder), (2, b"not a text: g.abnf\n", b"")


def file_rows(program, files):
    good, cert = files.written("g.abnf", 'a = "x"'), files.written("c", "0 1 0 0\n1 1 0 0\n")
    bad, no_cert = files.written("bad.abnf", b'a = "\xff"'), files.written("bad", b"\xff\n")
    large, large_cert = files.sparse("large.abnf", 4_194_305), files.sparse("large", 268_435_457)
    widest = files.written("widest.abnf", b" " * 4_194_304)
    none, folder = files.path("none"), files.folder
    yield "a text of the greatest size", outcome(program, None, ["example", widest, "a"]), (0, b"", b"undefined\n\n")
    for what, arguments, line in (
        ("no file", ["example", none, "a"], f"cannot read {none}"),
        ("a folder", ["example", folder, "a"], f"cannot read {folder}"),
        ("a file that isn't UTF-8", ["example", bad, "a"], f"not a text: {bad}"),
        ("a file that is too large", ["example", large, "a"], f"not a text: {large}"),
        ("a file without an end", ["example", "/dev/zero", "a"], "not a text: /dev/zero"),
        ("no certificate", ["check", good, none], f"cannot read {none}"),
        ("a certificate that isn't UTF-8", ["check", good, no_cert], "certificate fault 1 BadLine"),
        ("a certificate that is too large", ["check", good, large_cert], f"not a text: {large_cert}"),
        ("no file, and no certificate", ["check", none, files.path("no")], f"cannot read {none}"),
        ("a file that isn't UTF-8, and no certificate", ["check", bad, none], f"not a text: {bad}"),
        ("a file that is too large, and a bad certificate", ["check", large, no_cert], f"not a text: {large}"),
    ):
        yield what, outcome(program, None, arguments), (2, f"{line}\n".encode(), b"")
    for arguments in (["example", good, "a"], ["check", good, cert]):
        full = with_device(program, None, "/dev/full", os.O_WRONLY, arguments=arguments, stdout=True)
        yield f"{arguments[0]} with an output that is full", full, (2, b"write failed\n", b"")


# Each program, and the tools that have cases for it, with what gives these.
TOOLS = {
    "abnf_ls": (
        ("program_ends", end_cases),
        ("program_ends", long_cases),
        ("program_ends", file_cases),
        ("command_rows", command_rows.cases),
        ("threaded_sessions", threaded_sessions.cases),
        # hostile runs
        ("refused_threads", refused_threads.cases),
        ("refused_commands", refused_commands.command_cases),
        ("refused_sessions", refused_sessions.cases),
        ("broken_input", broken_input.cases),
        ("cut_pipes", cut_pipes.cases),
        ("failing_devices", failing_devices.cases),
        ("shaken_threads", shaken_threads.cases),
        ("replayed_typing", replayed_typing.cases),
        ("draft_sessions", draft_sessions.cases),
        ("kept_rows", kept_rows.cases),
    ),
    "served_plainly": (
        ("session_rows", functools.partial(session_cases, session_rows)),
        ("encoding_rows", functools.partial(session_cases, encoding_rows)),
        ("text_rows", functools.partial(session_cases, text_rows)),
        ("program_ends", frame_cases),
        ("program_ends", long_cases),
        ("refused_commands", refused_commands.session_cases),
        ("failing_devices", failing_devices.plain_cases),
        ("random_texts", random_texts.cases),
        ("edited_texts", edited_texts.cases),
        ("replayed_typing", replayed_typing.plain_cases),
        ("kept_rows", kept_rows.plain_cases),
    ),
    "refused_memory": (("refused_memory", refused_memory.cases),),
    "abnf_findings": (
        ("findings_rows", findings_rows.cases),
        ("published_rows", published_rows.cases),
        ("random_drafts", random_drafts.cases),
    ),
}


def cases_of(some, *programs):
    """The cases that a tool has for programs. One more has failed where the tool itself does."""
    try:
        yield from (rows.Case(*it) for it in some(*programs))
    except Exception as error:
        traceback.print_exc()
        yield rows.Case("all its cases", f"it ended at {error!r}", "as many as there are", 0)


def all_cases():
    """The name of each program, that of the tool, and each case."""
    for name, tools in TOOLS.items():
        for path in (rows.built(name) + end for end in rows.COMPILERS):
            program = os.path.basename(path)
            if not os.path.isfile(path):
                yield program, "program_ends", rows.Case("the program", f"there is none at {path}", "one", 0)
                continue
            for tool, some in tools:
                yield from ((program, tool, case) for case in cases_of(some, path))
    if os.path.isfile(rows.PLAIN):
        yield from (("served_plainly", "grown_edits", case) for case in cases_of(grown_edits.cases, rows.PLAIN))
    if os.path.isfile(rows.SERVER) and os.path.isfile(rows.FINDINGS):
        for what, tool in (("install", install_rows), ("dist", dist_rows)):
            yield from ((what, tool.__name__, case) for case in cases_of(tool.cases, rows.SERVER, rows.FINDINGS))


class Tally:
    """How many passed and failed; each failure has a line."""

    def __init__(self):
        self.passed = self.failed = 0

    def fails(self, line):
        print(f"program_ends: {line}")
        self.failed += 1

    def take(self, word, listed):
        """Takes in what is handed in."""
        found = re.fullmatch(r"(?:(\w+): )?(\d+) passed, (\d+) failed(?:, status (\d+))?", word)
        if not found:
            self.fails(f"no counts are handed in, but {word!r}")
            return
        name, (passed, failed, status) = found[1], (int(it or 0) for it in found.groups()[1:])
        self.passed, self.failed = self.passed + passed, self.failed + failed
        if status and not failed:
            self.fails(f"{name} ended with the status {status}")
        if passed + failed < least(name, listed):
            self.fails(f"{name}: {passed + failed} were tried, and counts.txt has {least(name, listed)}")

    def run(self):
        """Takes in all cases, and gives how many rows each tool has had for each program."""
        found = collections.Counter()
        for program, tool, case in all_cases():
            print(f"{program}, {case.line()}", flush=True)
            self.passed, self.failed = self.passed + case.is_good(), self.failed + (not case.is_good())
            found[f"{counts.ROWS} {program} {tool}"] += case.count
        return found


def least(name, listed):
    """How many a tool of this name must at least tell of, by counts.txt."""
    kinds = {"crates": ("crates",), "edits": ("edits", "same-meaning"), "tests": ("tests",)}.get(name, ())
    return sum(count for it, count in listed.items() if it.partition(" ")[0] in kinds)


def main(words):
    listed, tally = counts.parsed(counts.text_of(counts.COUNTS)), Tally()
    for word in words:
        tally.take(word, listed)
    found = tally.run()
    counts.keep_rows(found)
    for line in counts.differences(counts.of_kind(listed, True), found):
        tally.fails(line)
    print(f"{tally.passed} passed, {tally.failed} failed")
    return 1 if tally.failed else 0


if __name__ == "__main__":
    sys.exit(main(sys.argv[1:]))

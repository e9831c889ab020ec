#!/usr/bin/env python3
"""Drives the server through long sessions and prints what a request and an edit cost, and what a session keeps.

Run it from anywhere: bench/desk.py [PROGRAM [THREADED]], where PROGRAM is that of the crate served_plainly and THREADED out/abnf_ls where they are
left out. Times are wall-clock, from the first byte sent to the last reply, with all messages sent as fast as they are read: the least of three
sessions on PROGRAM. Memory is the most that a program has had (peak resident set), in units of 1,000,000 bytes.

A journal begins anew once it has 1,000,000 events. A request costs four (asked, taken, finished, sent), and so does an edit, whose findings are a
job: these sessions have 400,000, 400,000, 40,000 and 900,000, and a dozen for their start and end, so none of them comes to that.

At last a client types into a small text and waits for the findings of each character, on both programs, for 3,000,000 events. It is told what memory
there is after each 500,000 of them, and how long the client waited for findings: in the middle, and the three longest waits with the events after
which they came, where the journal begins anew among them.
"""
import os
import statistics
import subprocess
import sys
import threading
import time

import bench

RUNS = 3
REQUESTS = 100_000
EDITS = 100_000
MIXED = 112_500
TYPED = 3_000_000


def pumped(process, given):
    """Sends the bytes and one request that is refused at once, and answers the seconds until that is refused, and all that was said."""
    start = time.perf_counter()

    def feed():
        process.stdin.write(given + bench.BARRIER)
        process.stdin.flush()

    writer = threading.Thread(target=feed)
    writer.start()
    chunks, tail = [], b""
    while b'"id":9,' not in tail:
        chunk = os.read(process.stdout.fileno(), 1 << 20)
        if not chunk:
            raise SystemExit("the session ended too soon")
        chunks.append(chunk)
        tail = (tail + chunk)[-200:]
    seconds = time.perf_counter() - start
    writer.join()
    return seconds, b"".join(chunks)


def session(text, given, count):
    """Opens a text and sends messages that have one reply each: the seconds that these take, and the kilobytes of memory before and after."""
    server = bench.Server()
    server.until_answered(bench.INITIALIZE + bench.opened(text))
    before = server.memory()
    seconds, output = pumped(server.process, given)
    after = server.memory()
    server.end()
    frames, errors = output.count(b"Content-Length: "), output.count(b'{"error":')
    if (frames, errors) != (count + 1, 1):
        raise SystemExit(f"{frames} replies to {count} messages, {errors} of them errors")
    return seconds, before, after


def row(name, text, given, count):
    runs = [session(text, given, count) for _ in range(RUNS)]
    seconds = min(run[0] for run in runs)
    before, after = (max(run[at] for run in runs) * 1024 / 1e6 for at in (1, 2))
    print(f"{name:<46} {seconds * 1e3:10.1f} ms   {seconds * 1e6 / count:8.2f} us each   {after:7.1f} MB, {before:.1f} MB before", flush=True)


def hover(number):
    # The numbers below 10 are taken by the messages of the start and the end.
    return bench.about(number + 10, "hover", position={"line": 0, "character": 0})


def edit(line, character, end, text):
    places = {"start": {"line": line, "character": character}, "end": {"line": line, "character": end}}
    return bench.notice("textDocument/didChange", textDocument={"uri": "file:///g", "version": 2},
                        contentChanges=[{"range": places, "text": text}])


def edits(line, character, count):
    """One character typed at a place and taken away again, and so on: the text keeps its size."""
    pair = edit(line, character, character, "x") + edit(line, character, character + 1, "")
    return pair * (count // 2)


class Typist(bench.Server):
    """A client that waits for what is said to each of its messages."""

    def __init__(self, program):
        self.process = subprocess.Popen([program], stdin=subprocess.PIPE, stdout=subprocess.PIPE)

    def waits(self, given, bodies=1):
        """Sends the bytes and waits for so many bodies: the seconds that they took."""
        start = time.perf_counter()
        self.process.stdin.write(given)
        self.process.stdin.flush()
        for _ in range(bodies):
            length = int(self.process.stdout.readline()[16:])
            self.process.stdout.read(length + 2)
        return time.perf_counter() - start


def typed_on(name, program, text, events):
    """So many events of typing into a text: the memory on the way, and the waits."""
    typist = Typist(program)
    typist.waits(bench.INITIALIZE + bench.opened(text), 2)
    pair = edit(0, 5, 5, "x"), edit(0, 5, 6, "")
    waits, memories = [], []
    for number in range(1, events // 4 + 1):
        waits.append((typist.waits(pair[number % 2 == 0]), 4 * number))
        if number % 125_000 == 0:
            memories.append(f"{typist.memory() * 1024 / 1e6:.0f}")
    typist.end()
    longest = ", ".join(f"{seconds * 1e3:.1f} ms after {after:,}" for seconds, after in sorted(waits)[:-4:-1])
    middle = statistics.median(seconds for seconds, _ in waits)
    print(f"{name:<46} {' '.join(memories)} MB after each 500,000 events; waits {middle * 1e6:.0f} us, {longest}", flush=True)


def main():
    small = 'a = "x"\n'
    row(f"{REQUESTS:,} hovers on a small text", small, b"".join(hover(number) for number in range(REQUESTS)), REQUESTS)
    notes = small + "; a comment of forty characters, no more\n" * 750
    row(f"{EDITS:,} edits of 30 kB of comments", notes, edits(375, 10, EDITS), EDITS)
    rules = "".join(f'rule-{number:06d} = "some text" / "y"   ; c\n' for number in range(750))
    row(f"{EDITS // 10:,} edits of 30 kB of rules", rules, edits(375, 20, EDITS // 10), EDITS // 10)
    both = b"".join(hover(number) + edit(0, 5, 6, "yx"[number % 2]) for number in range(MIXED))
    row(f"{MIXED:,} hovers and as many edits, a small text", small, both, 2 * MIXED)
    threaded = sys.argv[2] if len(sys.argv) > 2 else os.path.join(bench.TOP, "out", "abnf_ls")
    for program in filter(os.path.isfile, (bench.PROGRAM, threaded)):
        typed_on(f"{TYPED:,} events of typing, {os.path.basename(program)}", program, small, TYPED)


if __name__ == "__main__":
    main()

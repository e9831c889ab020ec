#!/usr/bin/env python3
"""Times the server on several threads.

The first part is the program threads.rt.txt: the same session with 1, 2 and 4 workers, and the calls at a desk with a text of 100,000 rules,
each of which is as long as a board's lock is held for it. The second part drives out/abnf_ls, or the program that is the first argument: how
long the findings of a keystroke in a small text take, alone and while hovers on 100,000 rules run on one worker to four.
"""
import os
import statistics
import subprocess
import sys
import time

import scratch
from messages import notice, opened, request

PROGRAM = sys.argv[1] if len(sys.argv) > 1 else os.path.join(scratch.TOP, "out", "abnf_ls")
RUNS = 5


def typed(uri, version):
    at = {"line": 0, "character": 5}
    change = {"range": {"start": at, "end": at}, "text": "x"}
    return notice("textDocument/didChange", textDocument={"uri": uri, "version": version}, contentChanges=[change])


def hover(number, uri):
    params = {"textDocument": {"uri": uri}, "position": {"line": 0, "character": 0}}
    return request(number, "textDocument/hover", **params)


def grammar(count):
    return "".join(f"rule-{number} = %x20-7E / rule-{(number + 1) % count}\n" for number in range(count))


class Server:
    """The program, by whole messages."""

    def __init__(self):
        self.process = subprocess.Popen([PROGRAM], stdin=subprocess.PIPE, stdout=subprocess.PIPE)

    def send(self, given):
        self.process.stdin.write(given)
        self.process.stdin.flush()

    def body(self):
        length = int(self.process.stdout.readline().split(b":")[1])
        self.process.stdout.readline()
        return self.process.stdout.read(length)

    def until(self, *parts):
        """Reads up to the body that has all these parts, and answers how many bodies came before it."""
        before = 0
        while True:
            body = self.body()
            if all(part in body for part in parts):
                return before
            before += 1

    def end(self):
        self.process.stdin.close()
        self.process.stdout.read()
        self.process.wait()


def keystroke(hovers):
    """The milliseconds from a keystroke to its findings, while so many hovers run."""
    server = Server()
    server.send(request(0, "initialize", capabilities={}))
    server.send(opened(grammar(100_000), "file:///large") + opened(grammar(100), "file:///small"))
    for _ in range(2):
        server.until(b"publishDiagnostics")
    server.send(b"".join(hover(number + 1, "file:///large") for number in range(hovers)))
    time.sleep(0.01)
    start = time.perf_counter()
    server.send(typed("file:///small", 2))
    server.until(b"publishDiagnostics", b"file:///small", b'"version":2')
    seconds = time.perf_counter() - start
    server.end()
    return seconds * 1e3


def main():
    for hovers in range(5):
        times = [keystroke(hovers) for _ in range(RUNS)]
        print(f"a keystroke's findings in 100 rules while {hovers} hovers on 100,000 run: {min(times):.2f} ms at the least, "
              f"{statistics.median(times):.2f} ms in the middle, {max(times):.2f} ms at the most", flush=True)


if __name__ == "__main__":
    status = scratch.run("threads.rt.txt", "ls_threads ls_server ls_desk ls_answers ls_frame ls_text ls_lists anyhow")
    main()
    sys.exit(status)

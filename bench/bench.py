#!/usr/bin/env python3
"""Drives the server on one thread over pipes and prints how long it takes.

Run it from anywhere: bench/bench.py [PROGRAM], where PROGRAM is that of the crate served_plainly if left out, which is built where it isn't: on
one thread a reply stands behind those of all requests before it, so the last one tells the end. (bench/threads.py times the program with its
workers.) Times are wall-clock milliseconds, the best of five runs; sizes are bytes. Beside each time stands that of a plain measure of the same
bytes: `cat` through the same pipes, or one copy in memory.
"""
import os
import subprocess
import sys
import threading
import time

from messages import frame, notice, opened, request

TOP = os.path.dirname(os.path.dirname(os.path.abspath(__file__)))
PLAIN = os.path.join(TOP, "crates", "served_plainly")
RUNS = 5


def built(folder):
    """The program of a crate, which is built where it isn't: on no input it ends at once."""
    program = os.path.join(folder, "out", os.path.basename(folder))
    if not os.path.isfile(program):
        subprocess.run(["rt", "run"], cwd=folder, stdin=subprocess.DEVNULL, check=False)
    return program


ARGUMENTS = [it for it in sys.argv[1:] if not it.startswith("--")]
PROGRAM = ARGUMENTS[0] if ARGUMENTS else built(PLAIN)


INITIALIZE = request(0, "initialize", capabilities={})
SYMBOLS = request(1, "textDocument/documentSymbol", textDocument={"uri": "file:///g"})
END = request(2, "shutdown") + notice("exit")


def through(command, given):
    """Writes the bytes, reads all that comes back, and answers the seconds and the bytes read."""
    start = time.perf_counter()
    process = subprocess.Popen(command, stdin=subprocess.PIPE, stdout=subprocess.PIPE)

    def feed():
        with process.stdin as pipe:
            pipe.write(given)

    writer = threading.Thread(target=feed)
    writer.start()
    output = process.stdout.read()
    writer.join()
    process.wait()
    return time.perf_counter() - start, output


def best(command, given):
    return min((through(command, given) for _ in range(RUNS)), key=lambda it: it[0])


def copied(data):
    """The seconds of one copy of the bytes in memory."""
    times = []
    for _ in range(RUNS):
        start = time.perf_counter()
        bytearray(data)
        times.append(time.perf_counter() - start)
    return min(times)


def row(name, given):
    ours, output = best([PROGRAM], given)
    plain, _ = best(["cat"], given)
    print(f"{name:<46} {ours * 1e3:9.1f} ms   {ours / plain:6.1f} x cat ({plain * 1e3:.1f} ms)"
          f"   in {len(given):>10} bytes, out {len(output):>10} bytes")
    return ours


def first_reply():
    times = []
    for _ in range(RUNS):
        start = time.perf_counter()
        process = subprocess.Popen([PROGRAM], stdin=subprocess.PIPE, stdout=subprocess.PIPE)
        process.stdin.write(INITIALIZE)
        process.stdin.flush()
        process.stdout.read(1)
        times.append(time.perf_counter() - start)
        process.stdin.close()
        process.stdout.read()
        process.wait()
    print(f"{'start to the first reply':<46} {min(times) * 1e3:9.1f} ms")


BARRIER = request(9, "barrier")


class Server:
    """The program, talked to message by message."""

    def __init__(self):
        self.process = subprocess.Popen([PROGRAM], stdin=subprocess.PIPE, stdout=subprocess.PIPE)

    def until_answered(self, given):
        """Sends the bytes and one request that is refused at once, and answers the seconds until that is refused."""
        start = time.perf_counter()
        self.process.stdin.write(given + BARRIER)
        self.process.stdin.flush()
        left = 0
        while True:
            line = self.process.stdout.readline()
            if line.startswith(b"Content-Length: "):
                left = int(line[16:])
            elif line == b"\r\n":
                body = self.process.stdout.read(left)
                if b'"id":9,' in body:
                    return time.perf_counter() - start
                if body.startswith(b'{"error":'):
                    sys.exit(f"refused: {body.decode()}")

    def memory(self, field="VmHWM"):
        """The most kibibytes of memory that the program has had, or what another line of its status says."""
        with open(f"/proc/{self.process.pid}/status", encoding="ascii") as status:
            return next(int(line.split()[1]) for line in status if line.startswith(field))

    def faults(self):
        """How many pages the program has been given so far (its minor page faults)."""
        with open(f"/proc/{self.process.pid}/stat", encoding="ascii") as stat:
            return int(stat.read().rpartition(")")[2].split()[7])

    def end(self):
        self.process.stdin.write(END)
        self.process.stdin.close()
        self.process.stdout.read()
        self.process.wait()


def typed(line, character):
    """One character typed at a place."""
    at = {"line": line, "character": character}
    return notice("textDocument/didChange", textDocument={"uri": "file:///g", "version": 2},
                  contentChanges=[{"range": {"start": at, "end": at}, "text": "x"}])


def edited(text, name, line, character, count):
    """So many characters typed at a place of a text, each a message of its own; the findings come after each."""
    server = Server()
    server.until_answered(INITIALIZE + opened(text))
    before = server.memory()
    seconds = server.until_answered(typed(line, character) * count)
    more = server.memory() - before
    server.end()
    print(f"{f'{count} edits {name}':<46} {seconds * 1e3:9.1f} ms   {seconds * 1e3 / count:9.2f} ms an edit   {more} KiB more memory in all")


def pages(name, text):
    """Opens a grammar, types 5 characters, then 20 more, each a message of its own, and closes it: how many pages each of the 20 keystrokes asks
    the system for, and what the program keeps at the end."""
    server = Server()
    server.until_answered(INITIALIZE)
    before = server.memory("VmRSS")
    server.until_answered(opened(text) + typed(0, 0) * 5)
    faults = server.faults()
    server.until_answered(typed(0, 0) * 20)
    faults = server.faults() - faults
    most = server.memory() - before
    server.until_answered(notice("textDocument/didClose", textDocument={"uri": "file:///g"}))
    kept = server.memory("VmRSS") - before
    server.end()
    print(f"{f'pages at {name}':<46} {faults / 20:9.1f} a keystroke   most {most} KiB, {kept} KiB once the text is closed")


def about(number, method, **params):
    """A request about the document."""
    return request(number, f"textDocument/{method}", textDocument={"uri": "file:///g"}, **params)


def timed(text, *steps):
    """Opens a text and sends these steps one after the other: the least milliseconds of each, those of the opening first."""
    times = []
    for _ in range(RUNS):
        server = Server()
        server.until_answered(INITIALIZE)
        times.append([server.until_answered(given) for given in (opened(text), *steps)])
        server.end()
    return [min(column) * 1e3 for column in zip(*times)]


def asked(name, text):
    """Opens a grammar, asks for its outline, for the definition of the last name in its first line and for what is shown of it,
    and types one character behind it. Opening and typing end with the findings."""
    at = {"line": 0, "character": len(text.split("\n", 1)[0])}
    definition, hover = (about(number, method, position=at) for number, method in ((3, "definition"), (4, "hover")))
    opening, outline, jump, shown, key = timed(text, SYMBOLS, definition, hover, typed(**at))
    print(f"{name:<46} {opening:9.2f} ms   outline {outline:8.2f} ms   definition {jump:8.2f} ms"
          f"   hover {shown:8.2f} ms   keystroke {key:8.2f} ms   {len(text):>10} bytes")


def written_anew(name, text):
    """Opens a grammar, asks for all places of the last name in its first line, for the edits that rename it, for the code action there, and
    for the tokens of the whole text."""
    at = {"line": 0, "character": len(text.split("\n", 1)[0])}
    _, places, edits, action, tokens = timed(
        text,
        about(3, "references", position=at, context={"includeDeclaration": True}),
        about(4, "rename", position=at, newName="another-name"),
        about(5, "codeAction", range={"start": at, "end": at}, context={"diagnostics": []}),
        about(6, "semanticTokens/full"),
    )
    print(f"{name:<46} references {places:8.2f} ms   rename {edits:8.2f} ms   code action {action:8.2f} ms"
          f"   semantic tokens {tokens:8.2f} ms   {len(text):>10} bytes")


def grammar(count, alternatives=1):
    """So many rules, each of which names the ones after it."""
    def rule(number):
        names = " / ".join(f"rule-{(number + next) % count}" for next in range(1, alternatives + 1))
        return f"rule-{number} = %x20-7E / {names}\n"
    return "".join(rule(number) for number in range(count))


def naming_one(count):
    """So many rules, all of which name the last one."""
    return "".join(f"rule-{number} = %x20-7E / rule-{count - 1}\n" for number in range(count))


def main():
    first_reply()
    asked("open of 100 rules", grammar(100))
    asked("open of 1,000 rules", grammar(1_000))
    asked("open of 10,000 rules", grammar(10_000))
    asked("open of 100,000 rules", grammar(100_000))
    asked("open of 4 MB, 4,000 rules with 85 names each", grammar(4_000, 85))
    for count in (1_000, 10_000, 50_000, 100_000):
        pages(f"{count:,} rules", grammar(count))
    written_anew("a name with 2 places in 1,000 rules", grammar(1_000))
    written_anew("a name with 2 places in 100,000 rules", grammar(100_000))
    written_anew("a name with a place in each of 1,000 rules", naming_one(1_000))
    written_anew("a name with a place in each of 100,000 rules", naming_one(100_000))
    big = b'{"jsonrpc":"2.0","method":"$/nothing","params":"' + b"x" * (16777216 - 60) + b'"}'
    seconds = row("one frame of 16 MB, an unknown notice", INITIALIZE + frame(big) + END)
    print(f"{'':<46} {seconds / copied(big):9.1f} x one copy of its bytes in memory")
    rest = INITIALIZE + opened('a = "x"') + SYMBOLS * 100_000 + END
    seconds = row("100,000 requests for a small outline", rest)
    print(f"{'':<46} {seconds * 1e6 / 100_000:9.1f} us a request")
    line = 'rule-{:06d} = "some text" / other    ; c\n'
    text = "".join(line.format(number) for number in range(100_000))
    text += ";" + "x" * (4_192_000 - len(text))
    seconds = row("open of 4 MB with 100,000 lines", INITIALIZE + opened(text) + END)
    print(f"{'':<46} {seconds / copied(text.encode()):9.1f} x one copy of its bytes in memory")
    row("the same and its outline", INITIALIZE + opened(text) + SYMBOLS + END)
    short = "".join(line.format(number) for number in range(100_000))
    edited(short, "at the start of 4 MB", 0, 0, 5)
    edited(short, "in the middle", 50_000, 10, 5)
    edited(short, "at the end", 100_000, 0, 5)
    small = "".join(line.format(number) for number in range(750))
    edited(small, "in the middle of 30 kB", 375, 10, 200)


if __name__ == "__main__":
    main()

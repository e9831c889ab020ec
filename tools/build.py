#!/usr/bin/env python3
"""Proves and links a program where it isn't built. ./build calls this with the program's name, or with none for the server; ./run with
--and-run and the server's arguments.

Standard output stays free, since under ./run it is the client's. The crates are proved side by side in a copy of them
(tools/side_by_side.py), and what passed there the gate needn't prove again. A build that is ended ends what it has started, however it is
ended.
"""
import ctypes
import fcntl
import hashlib
import os
import re
import shutil
import signal
import subprocess
import sys
import tempfile
import time

from workspace import EDITS, LIST, NO_COMPILE, TOP, copy_crates, crates_below, sum_of, text_of

OUT = os.path.join(TOP, "out")
SERVER = "abnf_ls"
PROGRAMS = (SERVER, "abnf_findings", "served_plainly", "refused_memory")
LOG = os.path.join(OUT, "build.log")
# What of a crate's folder is proved, and what proofs and runs don't read.
PARTS = ("proofs", "specs", "src")
NOT_COPIED = ("out", EDITS, NO_COMPILE)
# A crate's line in the gate's figures, which begin with the minutes of its proof, and by a guess how many lines take as long as one minute.
TIMED = re.compile(r"(?m)^\| `(\w+)` \| ([0-9.]+) \|")
LINES_A_MINUTE = 1900
# The lines that tell of a crate that its proof begins, and how it has ended.
BEGINS = re.compile(r"begins: (\w+)")
ENDED = re.compile(r"rt: (\w+) (proved|is kept|NOT PROVED)")
SET_DEATH_SIGNAL = 1
LIBC = ctypes.CDLL(None)


def say(text):
    print(f"{SERVER}: {text}", file=sys.stderr, flush=True)


def stop(status, text):
    say(text)
    sys.exit(status)


def lines_of(crate):
    """How many lines the proofs of a crate have to do with."""
    total = 0
    for part in PARTS:
        for folder, _, files in os.walk(os.path.join(TOP, "crates", crate, part)):
            for name in files:
                with open(os.path.join(folder, name), "rb") as file:
                    total += file.read().count(b"\n")
    return total


def work_of(names):
    """How much there is to prove of each of these crates: the minutes that its proof took in the gate's last timed run, and where that had no
    such crate, about as many as its lines take."""
    page = os.path.join(TOP, "docs", "GATE.md")
    minutes = {name: float(it) for name, it in TIMED.findall(text_of(page))} if os.path.exists(page) else {}
    return {it: minutes.get(it) or lines_of(it) / LINES_A_MINUTE for it in names}


class Program:
    """A program: where it is to lie, and where the sum of the sources lies that it was built from."""

    def __init__(self, name):
        self.name, self.path = name, os.path.join(OUT, name)
        self.built_from = f"{self.path}.sources"

    def sources(self):
        yield os.path.join(TOP, LIST)
        for name in sorted(crates_below(self.name)):
            for part in PARTS:
                for folder, folders, files in os.walk(os.path.join(TOP, "crates", name, part)):
                    folders.sort()
                    yield from (os.path.join(folder, it) for it in sorted(files))

    def source_sum(self):
        """A sum over all sources of the program: an edit changes it, and so does a file that is new, deleted or renamed."""
        total = hashlib.sha256()
        for path in self.sources():
            with open(path, "rb") as file:
                total.update(hashlib.sha256(file.read()).digest())
            total.update(os.fsencode(os.path.relpath(path, TOP)) + b"\0")
        return total.hexdigest()

    def is_built(self):
        try:
            with open(self.built_from, encoding="utf-8") as file:
                return os.access(self.path, os.X_OK) and file.read() == self.source_sum()
        except OSError:
            return False

    def build(self, built_from):
        """Proves and links it in a copy of its crates, and moves it in place."""
        say(f"proving and building {self.name}, which takes some minutes the first time; the toolchain's words go to {LOG}")
        with tempfile.TemporaryDirectory(prefix="abnf_ls-build-") as folder, open(LOG, "wb") as log:
            copy_crates(TOP, folder, crates_below(self.name), NOT_COPIED)
            self.install(Proofs(self.name, log).run(folder), built_from)
        say(f"{self.path} is built; its SHA-256 sum is {sum_of(self.path)}")

    def install(self, linked, built_from):
        """Moves the program in place. The sum of its sources goes first and comes last, so that it never stands beside another program."""
        if os.path.lexists(self.built_from):
            os.remove(self.built_from)
        shutil.copy(linked, self.path + ".new")
        os.replace(self.path + ".new", self.path)
        with open(self.built_from + ".new", "w", encoding="utf-8") as file:
            file.write(built_from)
        os.replace(self.built_from + ".new", self.built_from)


def end_with_parent():
    """Has the system end a child with this build, also where that is killed and can't end it."""
    LIBC.prctl(SET_DEATH_SIGNAL, signal.SIGTERM)


class Proofs:
    """The proofs of a program's crates: which are being made, which are done, and which have failed."""

    def __init__(self, program, log):
        self.program, self.below, self.log = program, crates_below(program), log
        work = work_of(self.below)
        # The work of the longest chain of crates that begins with each, which tells how much is left.
        self.chains = dict(work)
        for name in reversed([*self.below]):
            for it in self.below[name]:
                self.chains[it] = max(self.chains[it], work[it] + self.chains[name])
        self.begun, self.done, self.failed = [], set(), []
        self.start_time = time.monotonic()

    def run(self, folder):
        """Makes them in a folder that has the crates alone, and gives the program's path there."""
        command = [sys.executable, os.path.join(TOP, "tools", "side_by_side.py")]
        process = subprocess.Popen(
            command, cwd=folder, stdin=subprocess.DEVNULL, stdout=subprocess.PIPE, stderr=subprocess.STDOUT, preexec_fn=end_with_parent)
        with process:
            try:
                for line in process.stdout:
                    self.log.write(line)
                    self.log.flush()
                    self.read(line.decode(errors="replace"))
            except BaseException:
                process.terminate()
                raise
        linked = os.path.join(folder, "crates", self.program, "out", self.program)
        if process.returncode or not os.path.isfile(linked):
            stop(126, f"the build failed{f' at the crate {self.failed[0]}' if self.failed else ''}: see {LOG}")
        return linked

    def read(self, line):
        """Takes in what the toolchain says of a crate."""
        begins, ended = BEGINS.match(line), ENDED.match(line)
        if begins:
            self.begun.append(begins[1])
        elif ended and ended[2].startswith("NOT"):
            self.failed.append(ended[1])
        elif ended and ended[1] in self.below:
            self.done.add(ended[1])
            self.report()

    def report(self):
        passed, whole = time.monotonic() - self.start_time, max(self.chains.values())
        left = max((self.chains[it] for it in self.below if it not in self.done), default=0)
        minutes, seconds = divmod(int(passed), 60)
        rest = round(left * passed / (whole - left) / 60) if left < whole else 0
        rest = f", about {rest} minutes left" if rest > 1 else ", a minute or less left" if left else ""
        now = ", ".join(it for it in self.begun if it not in self.done)
        say(f"{len(self.done)} of {len(self.below)} crates after {minutes}:{seconds:02}{rest}{now and f', now {now}'}")


def end(number, _frame):
    sys.exit(128 + number)


def build(program):
    """Builds until the program is that of the sources as they are: an edit that comes while it works is built too."""
    if program.is_built():
        return
    if not shutil.which("rt"):
        stop(127, "the Rattle toolchain is missing: no command 'rt' on the PATH")
    for it in (signal.SIGTERM, signal.SIGINT, signal.SIGHUP):
        if signal.getsignal(it) != signal.SIG_IGN:
            signal.signal(it, end)
    os.makedirs(OUT, exist_ok=True)
    with open(os.path.join(OUT, "build.lock"), "w", encoding="utf-8") as lock:
        try:
            fcntl.flock(lock, fcntl.LOCK_EX | fcntl.LOCK_NB)
        except BlockingIOError:
            say("waiting for another build to end")
            fcntl.flock(lock, fcntl.LOCK_EX)
        while not program.is_built():
            # (taken first: what is edited from here on makes another sum)
            built_from = program.source_sum()
            program.build(built_from)


def main(words):
    if words[:1] == ["--and-run"]:
        server = Program(SERVER)
        build(server)
        # Python ignores this signal, and the program would inherit that.
        signal.signal(signal.SIGPIPE, signal.SIG_DFL)
        os.execv(server.path, [server.path, *words[1:]])
    name, *more = words or [SERVER]
    if more or name not in PROGRAMS:
        stop(5, f"usage: ./build [{' | '.join(PROGRAMS)}]")
    build(Program(name))


if __name__ == "__main__":
    main(sys.argv[1:])

"""Checks of a folder by rattle, each in bounded time, and as many at once as memory has room for."""
import collections
import contextlib
import os
import signal
import subprocess
import tempfile
import threading
import time
from typing import NamedTuple

from edits.kit import RT, RTLIB
from edits.verdict import TIMED_OUT

# A check that takes longer is killed, and there is no verdict. The longest take some twenty minutes of a processor, and beside proofs, which have
# more priority, they have only a part of one.
MINUTES = 90
ONE_JOB = ("--jobs", "1")


class Ended(NamedTuple):
    """How a check ended, under the names that `rt` reads."""

    returncode: object
    stdout: str


def started_by(pid):
    """A process and all that it started, by their numbers."""
    children = collections.defaultdict(list)
    for name in filter(str.isdigit, os.listdir("/proc")):
        with contextlib.suppress(OSError), open(f"/proc/{name}/stat", encoding="utf-8", errors="replace") as file:
            children[int(file.read().rpartition(")")[2].split()[1])].append(int(name))
    found = [pid]
    for it in found:
        found += children[it]
    return found


class Processes:
    """The checks that run."""

    def __init__(self):
        self.lock, self.running = threading.Lock(), set()

    def kill(self, process):
        # (each is stopped first, so that none starts another meanwhile)
        for sent in (signal.SIGSTOP, signal.SIGKILL):
            for pid in started_by(process.pid):
                with contextlib.suppress(OSError):
                    os.kill(pid, sent)

    def kill_all(self):
        for it in [*self.running]:
            self.kill(it)

    def run(self, words, folder, seconds):
        """Runs a command in a folder, and kills it when it has taken so many seconds."""
        with tempfile.TemporaryFile("w+", encoding="utf-8", errors="replace") as out:
            process = subprocess.Popen(words, cwd=folder, stdin=subprocess.DEVNULL, stdout=out, stderr=subprocess.STDOUT)
            with self.lock:
                self.running.add(process)
            try:
                status = process.wait(seconds)
            except subprocess.TimeoutExpired:
                self.kill(process)
                process.wait()
                status = TIMED_OUT
            finally:
                with self.lock:
                    self.running.discard(process)
            out.seek(0)
            return Ended(status, out.read())


PROCESSES = Processes()


def run(crate, folder, flags, kept=None):
    """Checks what stands in a folder as this crate, over what an earlier check kept where that is given."""
    over = ("--incremental", kept) if kept else ()
    words = [RTLIB.RATTLE, "check", *crate.words([*ONE_JOB, *flags], keeps=False), *over]
    return PROCESSES.run([*RTLIB.guarded(), *words], folder, 60 * MINUTES)


class Begun(NamedTuple):
    """A check that runs: since when, and how much memory it needs once it has grown."""

    since: float
    needed: int


class Memory:
    """Lets checks begin that the machine's memory has room for, and one at least."""

    def __init__(self):
        self.lock, self.running = threading.Lock(), []

    def begin(self, needed):
        """Begins a check that needs so much, if there is room, or gives None."""
        with self.lock:
            # (a check takes a minute to grow to what it needs, so what is free says nothing yet of what younger ones need)
            grown = time.monotonic() - 60
            growing = sum(it.needed for it in self.running if it.since > grown)
            if self.running and RT.free() - growing < needed:
                return None
            self.running.append(Begun(time.monotonic(), needed))
            return self.running[-1]

    @contextlib.contextmanager
    def of(self, crate):
        while not (begun := self.begin(RT.need(crate))):
            time.sleep(1)
        try:
            yield
        finally:
            with self.lock:
                self.running.remove(begun)


MEMORY = Memory()

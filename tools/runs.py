"""Runs of a program, each in bounded time, and the frames that it reads and writes."""
import os
import re
import select
import subprocess
import time

# A run that takes longer hangs. Each run that hangs leaves half of it to those after it, so that a program of which all hang ends soon.
SECONDS = 60
LEAST_SECONDS = 0.1
HUNG = "it hung"
HEAD = re.compile(rb"Content-Length: (0|[1-9][0-9]*)\r\n\r\n")
_hung = []


def frame(body):
    return b"Content-Length: %d\r\n\r\n%b" % (len(body), body)


def as_bytes(text):
    return text if isinstance(text, bytes) else text.encode()


def frames(bodies):
    return b"".join(frame(as_bytes(body)) for body in bodies)


def bodies_of(wrote):
    """The bodies of the whole frames at the front, and the bytes behind these."""
    bodies, at = [], 0
    while (head := HEAD.match(wrote, at)) and head.end() + int(head[1]) <= len(wrote):
        at = head.end() + int(head[1])
        bodies.append(wrote[head.end() : at])
    return bodies, wrote[at:]


def seconds_left(most=SECONDS):
    return max(LEAST_SECONDS, most / 2 ** len(_hung))


def stopped(process):
    """Ends a run that hangs."""
    process.kill()
    _hung.append(process.pid)
    return HUNG


def outcome(program, given, arguments=(), stdin=subprocess.PIPE, stdout=subprocess.PIPE, env=None, seconds=SECONDS, folder=None):
    """The status of a run, its standard error and its standard output."""
    ran = subprocess.Popen([program, *arguments], stdin=stdin, stdout=stdout, stderr=subprocess.PIPE, env=env, cwd=folder)
    try:
        wrote, said = ran.communicate(given, timeout=seconds_left(seconds))
        return ran.returncode, said, wrote or b""
    except subprocess.TimeoutExpired:
        status = stopped(ran)
        wrote, said = ran.communicate()
        return status, said, wrote or b""


class Client:
    """A client that writes and reads by turns. No turn waits longer than until the run's time is up."""

    def __init__(self, program, env=None, in_front=()):
        self.process = subprocess.Popen([*in_front, program], stdin=subprocess.PIPE, stdout=subprocess.PIPE, stderr=subprocess.PIPE, bufsize=0, env=env)
        self.time_up = time.monotonic() + seconds_left()
        self.wrote, self.is_open = b"", True
        for pipe in (self.process.stdin, self.process.stdout):
            os.set_blocking(pipe.fileno(), False)

    def turn(self, given, is_enough, most=1 << 30, patience=float("inf")):
        """Writes these bytes and reads until it is enough, at most so many bytes of the whole output, and no longer than so many seconds. Tells
        whether it was enough."""
        given, time_up = memoryview(given), min(self.time_up, time.monotonic() + patience)
        while given or not is_enough(self.wrote):
            left = time_up - time.monotonic()
            readers, writers = [self.process.stdout] if self.is_open else [], [self.process.stdin] if given else []
            if left <= 0 or not readers + writers:
                return False
            can_read, can_write, _ = select.select(readers, writers, [], left)
            if can_write:
                given = given[self.written(given) :]
            if can_read:
                piece = self.process.stdout.read(min(1 << 20, most - len(self.wrote)))
                self.is_open = bool(piece)
                self.wrote += piece
        return True

    def written(self, given):
        """How many of these bytes are written; all are let go where nobody reads them."""
        try:
            return os.write(self.process.stdin.fileno(), given)
        except BrokenPipeError:
            return len(given)

    def stops_reading(self):
        """Reads nothing more: what the program writes from here on finds no reader."""
        self.process.stdout.close()
        self.is_open = False

    def outcome(self):
        """Closes the input, reads what still comes, and answers as `outcome` does."""
        self.process.stdin.close()
        self.turn(b"", lambda wrote: not self.is_open)
        try:
            status = self.process.wait(max(0.0, self.time_up - time.monotonic()))
        except subprocess.TimeoutExpired:
            status = stopped(self.process)
            self.process.wait()
        said = self.process.stderr.read()
        for pipe in (self.process.stdout, self.process.stderr):
            pipe.close()
        return status, said, self.wrote


def by_turns(program, turns, rest=b"", env=None, patience=float("inf"), in_front=()):
    """A run in which each message is sent once what the one before it leads to has come, and at last these bytes. A turn is a message and
    how many bodies it leads to. Where they don't come in so many seconds, the other turns are left out. The words in front begin the command
    line."""
    client, count = Client(program, env, in_front), 0
    for message, more in turns:
        count += more
        if not client.turn(frame(as_bytes(message)), lambda wrote: len(bodies_of(wrote)[0]) >= count, patience=patience):
            break
    client.turn(rest, lambda wrote: True)
    return client.outcome()

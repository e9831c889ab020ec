#!/usr/bin/env python3
"""Runs random sessions while the program's threads are shaken.

    tools/shaken_threads.py [PROGRAM [COUNT [SEED [PLAIN]]]]

A small library in front of the C library's lets a thread yield or sleep where it waits, wakes others, asks for memory, reads or writes. It
lets waits return early and wake-ups come late, and reads and writes take fewer bytes. All of this is drawn from a seed, and each thread has
a pace of its own. A client sends everything at once, in pieces, or waits for what is due: now and then, or after each message.

Each request must have one reply: that of the server on one thread (PLAIN), or an error for which a later cancel or change is the cause. The
findings of a version are those of PLAIN, come at most once and in the order of the versions, and must come where nothing ends the version.
Frames are whole, and the run ends by itself, with the status of PLAIN, once its threads have ended. COUNT sessions are made from SEED.
"""
import collections
import concurrent.futures
import json
import os
import random
import re
import subprocess
import sys
import time

import rows
import runs
from random_texts import FRAGMENTS, NEW_NAMES, random_text
from refused_sessions import error, grammar, key_of
from refused_threads import THREADS

COUNT, SEED = 1000, 1
# A session that takes longer hangs.
SECONDS = 20
# Sessions sleep more than they work, so there are more at once than processors.
AT_ONCE = 3
# What the library counts, in the order in which it tells it
KINDS = (
    *("pauses at futex calls", "pauses at allocations", "pauses at reads", "pauses at writes"),
    *("waits that return early", "wake-ups that come late", "short reads", "short writes", "threads begun", "threads ended"),
)
AT_WAITS = ("pauses at futex calls", "waits that return early", "wake-ups that come late")
COUNTED = re.compile(rb"shaken((?: [0-9]+)*)\n")

# The program ends by _exit. A wait that returns early says that it was woken, or interrupted, at once or after a little while.
LIBRARY = r"""
extern void *__libc_malloc(unsigned long size);
extern void *__libc_calloc(unsigned long count, unsigned long size);
extern void *__libc_realloc(void *block, unsigned long size);
extern void free(void *block);
extern void *dlsym(void *handle, const char *name);
extern char *getenv(const char *name);
extern int *__errno_location(void);
extern int dprintf(int file, const char *form, ...);

enum { READ = 0, WRITE = 1, YIELD = 24, SLEEP = 35, FUTEX = 202, EXIT = 231 };
enum { WAIT = 0, WAKE = 1, WAIT_BITSET = 9, WAKE_BITSET = 10, COMMAND = 127 };
enum { AT_FUTEX, AT_ALLOCATION, AT_READ, AT_WRITE, EARLY, LATE, SHORT_READ, SHORT_WRITE, BEGUN, ENDED, KINDS };
enum { INTERRUPTED = 4, TIMED_OUT = 110 };

struct task { void *(*start)(void *); void *argument; unsigned long number; };
struct time { long seconds, nanoseconds; };

static unsigned long seed, threads;
static long counts[KINDS];
static __thread unsigned long state;
/* Of 256 calls that may be paused so many are. */
static __thread unsigned long pace;

static long kernel(long number, long a, long b, long c, long d, long e, long f) {
  register long fourth __asm__("r10") = d, fifth __asm__("r8") = e, sixth __asm__("r9") = f;
  long result;
  __asm__ volatile("syscall"
                   : "=a"(result)
                   : "a"(number), "D"(a), "S"(b), "d"(c), "r"(fourth), "r"(fifth), "r"(sixth)
                   : "rcx", "r11", "memory");
  return result;
}

static long told(long result) {
  if (result >= 0 || result < -4095) return result;
  *__errno_location() = (int)-result;
  return -1;
}

static void count(int kind) { __atomic_add_fetch(&counts[kind], 1, __ATOMIC_SEQ_CST); }

static unsigned long dice(unsigned long sides) {
  unsigned long mixed = state += 0x9E3779B97F4A7C15;
  mixed = (mixed ^ mixed >> 30) * 0xBF58476D1CE4E5B9;
  mixed = (mixed ^ mixed >> 27) * 0x94D049BB133111EB;
  return (mixed ^ mixed >> 31) % sides;
}

static void begin(unsigned long number) {
  state = (seed + number) * 0xD1342543DE82EF95 | 1;
  dice(2);
  pace = (unsigned long[]){16, 64, 128, 224}[dice(4)];
}

static int is_shaken(void) {
  if (seed && !pace) begin(0);
  return seed != 0;
}

static void nap(unsigned long microseconds) {
  struct time span = {0, (long)microseconds * 1000};
  kernel(SLEEP, (long)&span, 0, 0, 0, 0, 0);
}

static void pause_at(int kind) {
  if (dice(256) >= pace) return;
  count(kind);
  if (dice(2)) kernel(YIELD, 0, 0, 0, 0, 0, 0);
  else nap(dice(dice(32) ? 200 : 3000));
}

static void pause_at_allocation(void) {
  if (is_shaken() && dice(8) == 0) pause_at(AT_ALLOCATION);
}

void *malloc(unsigned long size) {
  pause_at_allocation();
  return __libc_malloc(size);
}

void *calloc(unsigned long many, unsigned long size) {
  pause_at_allocation();
  return __libc_calloc(many, size);
}

void *realloc(void *block, unsigned long size) {
  pause_at_allocation();
  return __libc_realloc(block, size);
}

static unsigned long fewer(unsigned long bytes, int kind) {
  if (bytes < 2 || dice(3)) return bytes;
  count(kind);
  unsigned long most = dice(2) ? 16 : 1024;
  return 1 + dice(bytes - 1 < most ? bytes - 1 : most);
}

long read(int file, void *bytes, unsigned long size) {
  if (is_shaken() && file == 0) {
    pause_at(AT_READ);
    size = fewer(size, SHORT_READ);
  }
  return told(kernel(READ, file, (long)bytes, (long)size, 0, 0, 0));
}

long write(int file, const void *bytes, unsigned long size) {
  if (is_shaken() && file == 1) {
    pause_at(AT_WRITE);
    size = fewer(size, SHORT_WRITE);
  }
  return told(kernel(WRITE, file, (long)bytes, (long)size, 0, 0, 0));
}

static long early(long word, long command, long value) {
  count(EARLY);
  if (dice(2)) {
    struct time span = {0, (long)dice(300) * 1000};
    long result = kernel(FUTEX, word, (command & ~COMMAND) | WAIT, value, (long)&span, 0, 0);
    return result == -TIMED_OUT ? 0 : result;
  }
  return dice(2) ? 0 : -INTERRUPTED;
}

static void late(void) {
  if (dice(4)) return;
  count(LATE);
  nap(dice(300));
}

static long futex(long word, long command, long value, long span, long other, long bits) {
  long asked = command & COMMAND, waits = asked == WAIT || asked == WAIT_BITSET;
  pause_at(AT_FUTEX);
  if (waits && dice(6) == 0) return early(word, command, value);
  if (asked == WAKE || asked == WAKE_BITSET) late();
  long result = kernel(FUTEX, word, command, value, span, other, bits);
  if (waits) late();
  pause_at(AT_FUTEX);
  return result;
}

long syscall(long number, ...) {
  __builtin_va_list list;
  long given[6];
  __builtin_va_start(list, number);
  for (int at = 0; at < 6; at++) given[at] = __builtin_va_arg(list, long);
  __builtin_va_end(list);
  if (number == FUTEX && is_shaken()) return told(futex(given[0], given[1], given[2], given[3], given[4], given[5]));
  return told(kernel(number, given[0], given[1], given[2], given[3], given[4], given[5]));
}

static void *run(void *given) {
  struct task task = *(struct task *)given;
  free(given);
  begin(task.number);
  count(BEGUN);
  nap(dice(300));
  void *result = task.start(task.argument);
  nap(dice(300));
  count(ENDED);
  return result;
}

int pthread_create(void *thread, const void *attributes, void *(*start)(void *), void *argument) {
  int (*create)(void *, const void *, void *(*)(void *), void *) = dlsym((void *)-1, "pthread_create");
  struct task *task = __libc_malloc(sizeof *task);
  if (!task) return 11;
  *task = (struct task){start, argument, ++threads};
  return create(thread, attributes, run, task);
}

static void __attribute__((constructor)) begins(void) {
  char *digit = getenv("SHAKEN_SEED");
  for (; digit && *digit; digit++) seed = seed * 10 + (unsigned long)(*digit - '0');
}

static void __attribute__((destructor)) ends(void) {
  dprintf(2, "shaken");
  for (int kind = 0; kind < KINDS; kind++) dprintf(2, " %ld", counts[kind]);
  dprintf(2, "\n");
}

void _exit(int status) {
  ends();
  for (;;) kernel(EXIT, status, 0, 0, 0, 0, 0);
}
"""

URIS = tuple(f"file:///{letter}" for letter in "ghij")
METHODS = ("hover", "definition", "references", "documentSymbol", "semanticTokens/full", "rename", "codeAction")
# A change or a close of the document ends these while they wait (LSP 3.17, "ContentModified" in "Response Message").
FOR_EDITS = ("rename", "codeAction")
CANCELLED, MODIFIED = (-32800, "request cancelled"), (-32801, "content modified")
CAPABILITIES = (
    {},
    {"workspace": {"workspaceEdit": {"documentChanges": True}}},
    *({"general": {"positionEncodings": [encoding]}} for encoding in ("utf-8", "utf-32")),
)
ENDS = ((), ("exit",), ("shutdown",), *((("shutdown", "exit"),) * 5))


class Talk:
    """What a client says in a random session: its messages, and what may become of each request and each version."""

    def __init__(self, dice):
        self.dice, self.messages, self.number, self.label = dice, [], 0, 0
        # the open documents, each with the number of its last version
        self.open = {}
        # the document whose change ends a request, and the errors that a request about an open document may be answered with
        self.ended_by, self.errors = {}, {}
        # after each message: how many requests there are, and the versions whose findings must come
        self.due = []
        self.request("initialize", capabilities=dice.choice(CAPABILITIES))
        self.notice("initialized")
        for _ in range(dice.choice((8, 20, 40, 80))):
            self.at_random()
        for method in dice.choice(ENDS):
            if method == "exit":
                self.notice(method)
            else:
                self.request(method)
                self.after_shutdown()

    def say(self, message):
        self.messages.append(json.dumps({"jsonrpc": "2.0", **message}, ensure_ascii=False).encode())
        self.due.append((self.number, set(self.open.items())))

    def notice(self, method, **params):
        self.say({"method": method, "params": params})

    def request(self, method, **params):
        """A request, and its id."""
        self.number += 1
        identity = self.dice.choice((self.number, self.number, f"text {self.number}"))
        self.say({"id": identity, "method": method, "params": params})
        return identity

    def at_random(self):
        """A message of a kind that is drawn."""
        kind, uri = self.dice.random(), self.dice.choice(URIS)
        if kind < 0.6:
            self.ask(self.dice.choice([*self.open, *self.open, uri]))
        elif kind < 0.78:
            self.change(self.dice.choice([*self.open, *self.open, uri]))
        elif kind < 0.86:
            self.cancel()
        elif kind < 0.95:
            self.open_one(uri)
        elif kind < 0.98:
            self.ends_text(uri)
            self.open.pop(uri, None)
            self.notice("textDocument/didClose", textDocument={"uri": uri})
        else:
            self.request("$/unknown")

    def after_shutdown(self):
        """A few messages that are refused then, and cancels, which aren't."""
        for _ in range(self.dice.choice((0, 0, 3))):
            self.dice.choice((self.cancel, lambda: self.request("textDocument/hover")))()

    def position(self):
        return {"line": self.dice.choice((0, 0, 1, 1, 2, 3, 5, 9, 70)), "character": self.dice.choice((0, 0, 0, 1, 2, 4, 7, 11))}

    def text(self):
        return grammar() if self.dice.random() < 0.15 else random_text(self.dice)

    def ask(self, uri):
        """A request with all that one of its methods reads."""
        method, at = self.dice.choice(METHODS), self.position()
        beside = {"position": at, "range": {"start": at, "end": at}, "newName": self.dice.choice(NEW_NAMES)}
        context = {"includeDeclaration": self.dice.choice((True, False))}
        identity = self.request(f"textDocument/{method}", textDocument={"uri": uri}, context=context, **beside)
        if uri in self.open:
            self.errors[identity] = set()
            if method in FOR_EDITS:
                self.ended_by[identity] = uri

    def ends_text(self, uri):
        """The text that a document has ends, if it is open."""
        for identity, document in self.ended_by.items():
            if document == uri and uri in self.open:
                self.errors[identity].add(MODIFIED)

    def change(self, uri):
        self.ends_text(uri)
        self.label += 1
        if uri in self.open:
            self.open[uri] = self.label
        edits = [self.edit() for _ in range(self.dice.choice((1, 1, 1, 2, 3)))]
        self.notice("textDocument/didChange", textDocument={"uri": uri, "version": self.label}, contentChanges=edits)

    def edit(self):
        if self.dice.random() < 0.2:
            return {"text": self.text()}
        return {"range": {"start": self.position(), "end": self.position()}, "text": self.dice.choice(FRAGMENTS)}

    def open_one(self, uri):
        """Opens a document. One that is open stays as it is."""
        self.label += 1
        self.open.setdefault(uri, self.label)
        document = {"uri": uri, "languageId": "abnf", "version": self.label, "text": self.text()}
        self.notice("textDocument/didOpen", textDocument=document)

    def cancel(self):
        """Cancels one of the last requests, or one that isn't there."""
        last = list(self.errors)[-4:]
        identity = self.dice.choice([*last, "none"])
        if identity in self.errors:
            self.errors[identity].add(CANCELLED)
        self.notice("$/cancelRequest", id=identity)


def keys_of(wrote):
    """What the whole frames are about, in their order; None where a body is none."""
    try:
        return [key_of(body) for body in runs.bodies_of(wrote)[0]]
    except (ValueError, KeyError, TypeError):
        return None


def is_reply(key):
    return isinstance(key, str)


class Client(runs.Client):
    """A client of a run in an environment."""

    def __init__(self, program, environment):
        pipes = dict.fromkeys(("stdin", "stdout", "stderr"), subprocess.PIPE)
        self.process = subprocess.Popen([program], env=environment, bufsize=0, **pipes)
        self.time_up = time.monotonic() + runs.seconds_left(SECONDS)
        self.wrote, self.is_open = b"", True
        for pipe in (self.process.stdin, self.process.stdout):
            os.set_blocking(pipe.fileno(), False)

    def say(self, given, due):
        """Writes these bytes. Where something is due it waits for so many replies and these findings; tells whether they came."""

        def is_enough(wrote):
            keys = keys_of(wrote) if due else None
            return keys is None or (sum(map(is_reply, keys)) >= due[0] and due[1] <= set(keys))

        return self.turn(given, is_enough)


def at_once(dice, talk):
    yield runs.frames(talk.messages), None


def in_pieces(dice, talk):
    """Pieces that aren't whole frames."""
    stream = runs.frames(talk.messages)
    cuts = sorted(dice.sample(range(1, len(stream)), dice.choice((1, 5, 30))))
    for start, end in zip([0, *cuts], [*cuts, len(stream)]):
        yield stream[start:end], None


def with_waits(dice, talk):
    """Some messages at once, with a wait behind about a half of these groups."""
    start = 0
    while start < len(talk.messages):
        end = min(len(talk.messages), start + dice.choice((1, 2, 5, 10)))
        yield runs.frames(talk.messages[start:end]), dice.choice((None, talk.due[end - 1]))
        start = end


def by_turns(dice, talk):
    """Each message by itself, and a wait for what it leads to."""
    for message, due in zip(talk.messages, talk.due):
        yield runs.frame(message), due


WAYS = (at_once, in_pieces, with_waits, by_turns)


class Wanted:
    """What a talk may lead to: the bodies of the server on one thread, and errors in their place."""

    def __init__(self, plain, talk):
        self.talk = talk
        self.status, said, self.wrote = runs.outcome(plain, runs.frames(talk.messages), seconds=SECONDS)
        bodies, rest = runs.bodies_of(self.wrote)
        self.keys = keys_of(self.wrote) or []
        self.replies = set(filter(is_reply, self.keys))
        self.is_whole = (said, rest, len(set(self.keys)), len(self.replies)) == (b"", b"", len(bodies), talk.number)
        self.bodies = {key: {body} for key, body in zip(self.keys, bodies)}
        for identity, errors in talk.errors.items():
            self.bodies.setdefault(json.dumps(identity), set()).update(error(*it, identity) for it in errors)

    def fault(self, status, said, wrote):
        """What is wrong with a run; None where nothing is."""
        bodies, rest = runs.bodies_of(wrote)
        keys = keys_of(wrote)
        if not self.is_whole:
            return "the server on one thread doesn't answer all of it"
        if (status, said, rest) != (self.status, b"", b""):
            return f"another end: {status} {said[:80]} {rest[:80]}, and not {self.status}"
        if keys is None or any(body not in self.bodies.get(key, ()) for key, body in zip(keys, bodies)):
            return "a body that is none of the session's"
        if len(set(keys)) < len(keys):
            return "two bodies about the same"
        if not self.replies | self.talk.due[-1][1] <= set(keys):
            return "a reply or findings are missing"
        versions = [key for key in keys if not is_reply(key)]
        if sorted(versions, key=lambda it: it[0]) != sorted(versions):
            return "findings in another order than the versions"
        return None


# A session that was run: the text that it is made from, how it was sent, what was wrong, what the library counted, the codes of errors for
# a later message, and whether bodies came in another order than on one thread
Tried = collections.namedtuple("Tried", "number way fault counts codes is_reordered")


def ran(program, made, dice, talk, way):
    """The status, the standard error and the output of a run that is shaken."""
    client = Client(program, {"LD_PRELOAD": made, "SHAKEN_SEED": str(dice.randrange(1, 2**60))})
    for given, due in way(dice, talk):
        if not client.say(given, due):
            break
        time.sleep(dice.choice((0, 0, 0.002)) * dice.random())
    return client.outcome()


def counted(said):
    """What the library says that it did: none of it where it says nothing."""
    told = COUNTED.search(said)
    return [*map(int, told[1].split())] if told else [0] * len(KINDS)


def fault_of(wanted, way, counts, status, said, wrote):
    """What is wrong with a run that was sent so; None where nothing is."""
    begun, ended = counts[-2:]
    if fault := wanted.fault(status, said, wrote):
        return fault
    if (begun, ended) != (THREADS, THREADS):
        return f"{begun} threads have begun and {ended} ended"
    if way is by_turns and wrote != wanted.wrote:
        return "other bytes than on one thread, though each message was answered before the next"
    return None


def tried(program, plain, made, number):
    dice = random.Random(number)
    talk, way = Talk(dice), dice.choice(WAYS)
    wanted = Wanted(plain, talk)
    status, said, wrote = ran(program, made, dice, talk, way)
    counts = counted(said)
    fault = fault_of(wanted, way, counts, status, COUNTED.sub(b"", said), wrote)
    codes = {code: wrote.count(b'"code":%d,' % code) for code, _ in (CANCELLED, MODIFIED)}
    common = set(keys := keys_of(wrote) or [])
    return Tried(number, way.__name__, fault, counts, codes, keys != [key for key in wanted.keys if key in common])


def told(sessions):
    """What the sessions were shaken by, and what it led to."""
    counts = dict(zip(KINDS, map(sum, zip(*(it.counts for it in sessions)))))
    counts["requests ended by a cancel"] = sum(it.codes[CANCELLED[0]] for it in sessions)
    counts["requests ended by a change"] = sum(it.codes[MODIFIED[0]] for it in sessions)
    counts["sessions in another order than on one thread"] = sum(it.is_reordered for it in sessions)
    return counts


def out_of_reach(program):
    """The kinds that there can't be: a program of Rattle's own compiler waits by system calls of its own, before which no library stands."""
    return [*AT_WAITS] if program.endswith(rows.BY_RATTLE) else []


def cases(program, count=COUNT, seed=SEED, plain=rows.PLAIN):
    """What was tried, what was wrong with it, and what must be wrong: nothing."""
    with rows.library(LIBRARY) as made, concurrent.futures.ThreadPoolExecutor(AT_ONCE * len(os.sched_getaffinity(0))) as pool:
        sessions = list(pool.map(lambda number: tried(program, plain, made, f"{seed} {number}"), range(count)))
    faults = [(it.number, it.way, it.fault) for it in sessions if it.fault]
    yield f"{count} sessions with shaken threads", faults[:3], [], count
    counts = told(sessions)
    listed = ", ".join(f"{number} {kind}" for kind, number in counts.items())
    yield f"what there was in these: {listed}", [kind for kind, number in counts.items() if number == 0], out_of_reach(program)


def main(program=rows.SERVER, count=COUNT, seed=SEED, plain=rows.PLAIN):
    return rows.report(cases(program, int(count), seed, plain))


if __name__ == "__main__":
    sys.exit(main(*sys.argv[1:]))

#!/usr/bin/env python3
"""Replays typing in several documents at a time, and compares what is published of each version with what a new session has for its text.

    tools/replayed_typing.py [PROGRAM [PLAIN]]

The documents are the grammars of examples/, small ones and random ones, and in some sessions both are the same. The edits are those of
typed_edits, some in one document and some in the other. Now and then a document is closed, opened with the text of the other one, closed,
and opened again. Or there are four documents, with an edit in each by turns, and some are closed for a turn. What must be published of a
version is what the plain reading of random_texts and plain_findings has for its text, byte for byte, and beside some versions a hover is
answered by it too. So is a rename that is asked for, whose edits are made next where it is granted. Of a sample of the versions a process
of its own, which opens just that text, must publish the same.

PLAIN serves on one thread. PROGRAM has four workers, and no setting for that: a small library in front of the C library's holds workers
back, so that one works, or two, or all four; and all four are shaken by the library of shaken_threads. Each version is waited for, or some
messages come at once, up to a rename, whose answer is waited for: then one that the next overtakes may have no findings. At last memory
is refused: then as many findings may be missing, or hovers have the error -32603, as allocations were refused, and none may be wrong.

It counts of each code how often a finding came or went in a line that no edit had touched, and fails where one that depends on other
blocks did so too seldom.
"""
import collections
import concurrent.futures
import contextlib
import functools
import itertools
import json
import os
import random
import re
import sys
import time
from typing import Any, NamedTuple

import encoding_rows
import refused_sessions
import rows
import runs
import shaken_threads
import typed_edits
from random_texts import UNITS, random_text
from refused_sessions import key_of
from session_rows import closed
from typed_edits import KINDS, SMALL_GRAMMARS, Document, Rename, findings_of, reading_of

SEED = 1
# At least so many edits are typed
EDITS = 3000
# How many versions are opened by a process of their own
SAMPLE = 100
# How many allocations of each short session are refused alone, and how many of these also with all behind
REFUSED, ALL_BEHIND = 80, 8
RANDOM_GRAMMARS = 12
# So many of the small grammars are also both documents of a session.
TWINS = 5
# In a grammar of so many characters edits of all kinds are made, and in one with fewer or more so many kinds
MIDDLING, SOME_KINDS = range(700, 2500), 9
# In so many documents it is typed by turns, edits of so many kinds in each, and behind its turn a document is closed so often
IN_TURN, KINDS_IN_TURN, CLOSED = 4, 5, 0.06
# One of so many versions has a hover beside it.
HOVERS = 5
# The findings that depend on other blocks, and how often each must have come or gone where no edit was made
FAR, LEAST_FAR = ("undefined", "duplicate", "no-base", "unproductive", "syntax"), 20
# A worker that is refused memory can end the run while the reader waits for input. Then no reply comes: after so many seconds the client
# leaves. Since some sessions wait so, many are run at once.
PATIENCE, AT_ONCE = 1, 12
# The kinds of edits of the sessions in which memory is refused
FOR_REFUSALS = ("adds_or_defines", "generates_nothing", "prose", "duplicate", "bracket", "base_indent", "enter_in_a_rule", "reached_prose")
INTERNAL = (-32603, "internal error")
# The code of a rename's error (LSP 3.17, "RequestFailed" in "Response Message")
REFUSED_RENAME = -32803
# Where a line begins behind another
LINE_START = re.compile("(?<=\n)|(?<=\r)(?!\n)")

# Holds back the threads behind the first ones, as many as WORKING_THREADS says, until one is joined or the client has closed the input.
LIBRARY = r"""
extern char *getenv(const char *name);
extern void *dlsym(void *handle, const char *name);
extern int poll(void *inputs, unsigned long count, int milliseconds);

struct task { void *(*start)(void *); void *argument; };
struct input { int file; short wanted, found; };

static struct task held[8];
static int made, is_over;

/* Waits a little; nothing but the end of the input can be found. */
static int is_closed(void) {
  struct input input = {0, 0, 0};
  return poll(&input, 1, 2) > 0;
}

static void *waits(void *given) {
  struct task *task = given;
  while (!__atomic_load_n(&is_over, __ATOMIC_SEQ_CST) && !is_closed()) continue;
  return task->start(task->argument);
}

int pthread_create(void *thread, const void *attributes, void *(*start)(void *), void *argument) {
  int (*create)(void *, const void *, void *(*)(void *), void *) = dlsym((void *)-1, "pthread_create");
  const char *working = getenv("WORKING_THREADS");
  int number = made++;
  if (!working || number < *working - '0' || number >= 8) return create(thread, attributes, start, argument);
  held[number] = (struct task){start, argument};
  return create(thread, attributes, waits, &held[number]);
}

int pthread_join(unsigned long thread, void **result) {
  int (*join)(unsigned long, void **) = dlsym((void *)-1, "pthread_join");
  __atomic_store_n(&is_over, 1, __ATOMIC_SEQ_CST);
  return join(thread, result);
}
"""


def body_of(**told):
    """A body as the server writes it."""
    return json.dumps({"jsonrpc": "2.0", **told}, sort_keys=True, separators=(",", ":")).encode()


def opened(uri, label, text):
    return notice("didOpen", {"uri": uri, "languageId": "abnf", "version": label, "text": text})


def notice(method, document, **params):
    return body_of(method=f"textDocument/{method}", params={"textDocument": document, **params})


class Session:
    """What a client says that types in several documents: its messages, what each of them is about or leads to, and the bodies that must
    come, by what they are about."""

    def __init__(self, number, texts, kinds, hovers=HOVERS, most=1 << 30):
        self.number, self.dice, self.hovers, self.most = number, random.Random(f"{SEED} {number}"), hovers, most
        self.encoding = [*UNITS][number % len(UNITS)]
        self.messages, self.leads, self.bodies, self.texts = [], [], {}, {}
        # the places of the messages whose answers an editor waits for before it says more
        self.waits = set()
        self.label = self.requests = self.edits = 0
        self.kinds, self.far = collections.Counter(), collections.Counter()
        self.say(encoding_rows.offers(f'["{self.encoding}"]').encode(), "1", encoding_rows.agreed(self.encoding).encode())
        self.docs = [Document(self.dice, f"file:///typed-{at}", text, self.encoding) for at, text in enumerate(texts)]
        for doc in self.docs:
            self.open_one(doc, doc.text)
        typists = [self.all_of(doc, some) for doc, some in zip(self.docs, kinds)]
        (self.type_by_turns if len(texts) > 2 else self.type_all)(typists)

    def say(self, message, key, body=None):
        self.messages.append(message)
        self.leads.append(key)
        if body is not None:
            self.bodies[key] = body

    def version(self, uri, text, message):
        """A message by which a document has this text, and what is published then."""
        params = {"diagnostics": findings_of(text, self.encoding), "uri": uri, "version": self.label}
        self.say(message, (uri, self.label), body_of(method="textDocument/publishDiagnostics", params=params))
        self.texts[uri, self.label] = text
        if self.dice.randrange(self.hovers) == 0:
            self.hover(uri, reading_of(text, self.encoding))

    def open_one(self, doc, text):
        self.label += 1
        self.version(doc.uri, text, opened(doc.uri, self.label, text))

    def close_one(self, doc):
        self.say(closed(doc.uri).encode(), (doc.uri, None))

    def open_again(self, doc, other):
        """A document is closed and opened with the text of the other one, and the same with its own."""
        for text in (other.text, doc.text):
            self.close_one(doc)
            self.open_one(doc, text)

    def change(self, doc, before, changes):
        self.label, self.edits = self.label + 1, self.edits + 1
        self.version(doc.uri, doc.text, notice("didChange", {"uri": doc.uri, "version": self.label}, contentChanges=changes))
        self.far.update(far_changes(before, doc.text, self.encoding))

    def ask(self, method, uri, at, answered, **params):
        """A request about a position, and what is answered."""
        self.requests += 1
        number, about = 100 + self.requests, {"textDocument": {"uri": uri}, "position": dict(zip(("line", "character"), at)), **params}
        message = body_of(id=number, method=f"textDocument/{method}", params=about)
        self.say(message, json.dumps(number), body_of(id=number, **answered))

    def hover(self, uri, reading):
        """A hover at some name."""
        at = reading.start_of(self.dice.choice(reading.places)) if reading.places else (0, 0)
        self.ask("hover", uri, at, {"result": reading.hover(at)})

    def rename(self, doc, old, new):
        """A rename that is asked for at some place of a name, and the changes that make its edits, from the last to the first; None where it
        is refused."""
        reading = doc.reading()
        at = reading.start_of(self.dice.choice(reading.named(old)))
        renamed = reading.rename(at, new)
        is_granted = not isinstance(renamed, str)
        if is_granted:
            answered = {"result": {"changes": {doc.uri: [{"newText": new, "range": it} for it in renamed]}}}
        else:
            answered = {"error": {"code": REFUSED_RENAME, "message": renamed}}
        self.waits.add(len(self.messages))
        self.ask("rename", doc.uri, at, answered, newName=new)
        return [doc.put(*it, new) for it in doc.offsets(old)] if is_granted else None

    def all_of(self, doc, kinds):
        """Makes the edits of these kinds in a document, one at each step."""
        for kind in kinds:
            steps, before = kind(doc), doc.text
            while (changes := next(steps, None)) is not None:
                if isinstance(changes, Rename):
                    changes = self.rename(doc, *changes)
                if changes is not None:
                    self.change(doc, before, changes)
                    self.kinds[kind.__name__] += 1
                before = doc.text
                yield

    def type_all(self, typists):
        """Types in both documents, some keys in one and some in the other, until all is typed."""
        left = dict(enumerate(typists))
        while left and self.edits < self.most:
            at = self.dice.choice([*left])
            for _ in range(self.dice.choice((1, 1, 2, 8))):
                if at in left and next(left[at], left) is left:
                    del left[at]
            if self.dice.random() < 0.04:
                self.open_again(self.docs[at], self.docs[1 - at])

    def type_by_turns(self, typists):
        """Types a key in each document, and again, until all is typed. Some are closed, and opened at their next turn."""
        left, shut = dict(enumerate(typists)), set()
        while left:
            for at in [*left]:
                doc = self.docs[at]
                if at in shut:
                    self.open_one(doc, doc.text)
                    shut.remove(at)
                if next(left[at], left) is left:
                    del left[at]
                elif self.dice.random() < CLOSED:
                    self.close_one(doc)
                    shut.add(at)


def far_changes(before, after, encoding):
    """The codes of the findings that came or went in lines that are the same before and after an edit."""
    old, new = (LINE_START.split(text) for text in (before, after))
    same = len(os.path.commonprefix([old, new]))
    rest = len(os.path.commonprefix([old[same:][::-1], new[same:][::-1]]))
    sides = []
    for text, lines in ((before, old), (after, new)):
        behind, found = len(lines) - rest, set()
        for it in findings_of(text, encoding):
            at = it["range"]["start"]
            line = at["line"] if at["line"] < same else at["line"] - len(lines)
            if not same <= at["line"] < behind:
                found.add((it["code"], it["message"], line, at["character"]))
        sides.append(found)
    return [code for code, *_ in sides[0] ^ sides[1]]


def texts():
    """All grammars: those of examples/, small ones, and random ones."""
    folder = os.path.join(rows.TOP, "examples")
    for name in sorted(it for it in os.listdir(folder) if it.endswith(".abnf")):
        with open(os.path.join(folder, name), encoding="utf-8", newline="") as file:
            yield file.read()
    yield from SMALL_GRAMMARS
    dice = random.Random(SEED)
    yield from (random_text(dice) for _ in range(RANDOM_GRAMMARS))


def pairs():
    """The texts of the two documents of each session: other ones, or the same, so that much of one stands in the other as well."""
    some = [*texts()]
    yield from zip(some, some[len(some) // 2 :])
    yield from zip(SMALL_GRAMMARS[:TWINS], SMALL_GRAMMARS)


def fours():
    """The texts of the documents of each session in which these have turns: other ones, and one of them four times."""
    yield from zip(*(SMALL_GRAMMARS[at::IN_TURN] for at in range(IN_TURN)))
    yield (SMALL_GRAMMARS[0],) * IN_TURN


@functools.lru_cache(maxsize=None)
def sessions():
    """All of them. In each text edits of all kinds are made, or of some, in turn."""
    dice, turn, made = random.Random(SEED), itertools.cycle(KINDS), []
    for some in (*pairs(), *fours()):
        count = KINDS_IN_TURN if len(some) == IN_TURN else SOME_KINDS
        kinds = [KINDS if len(text) in MIDDLING else [next(turn) for _ in range(count)] for text in some]
        made.append(Session(len(made), some, [dice.sample(it, len(it)) for it in kinds]))
    return made


@functools.lru_cache(maxsize=None)
def refusals():
    """Short sessions, with a hover behind each version."""
    kinds = [getattr(typed_edits, it) for it in FOR_REFUSALS]
    dice = random.Random(SEED)
    both = zip(SMALL_GRAMMARS[:3], SMALL_GRAMMARS[3:])
    return [Session(number, pair, [dice.sample(kinds, len(kinds)) for _ in pair], hovers=1, most=25) for number, pair in enumerate(both)]


def one_by_one(session):
    """Each message by itself: its place, and what is waited for behind it."""
    for at, key in enumerate(session.leads):
        yield at, at + 1, {key} & {*session.bodies}


def in_bursts(session):
    """Some messages at once, up to one that an editor waits for: the places of the first and of that behind the last, and what must come:
    each reply, and the findings of the last version of each document that is open then."""
    dice, start = random.Random(session.number), 0
    while start < len(session.messages):
        end = min(len(session.messages), start + dice.choice((2, 2, 3, 5, 9)))
        end = next((at + 1 for at in range(start, end) if at in session.waits), end)
        keys = session.leads[start:end]
        last = {key[0]: key for key in keys if isinstance(key, tuple)}
        yield start, end, {*last.values(), *(it for it in keys if isinstance(it, str))} & {*session.bodies}
        start = end


def for_replies(session):
    """Each message by itself, with a wait for replies alone, since findings may be missing. One worker runs jobs in order, so that the
    findings of a version come before the reply to what is asked behind it."""
    for at, key in enumerate(session.leads):
        yield at, at + 1, {key} if isinstance(key, str) else set()


class Heard(NamedTuple):
    """How a session ended, the bodies that came, bytes that are no whole frame, and how many messages were sent."""

    status: Any
    said: bytes
    bodies: list
    rest: bytes
    sent: int


def plainly(program, session, environment=None):
    """All messages in one write."""
    status, said, wrote = runs.outcome(program, runs.frames(session.messages), env=environment)
    return Heard(status, said, *runs.bodies_of(wrote), len(session.messages))


class Client(shaken_threads.Client):
    """A client in an environment that waits for what must come."""

    def says(self, given, keys, seconds):
        """Writes these bytes, and waits for bodies about all of these, at most so long. Tells whether they came, and the bodies that did."""
        ends, self.time_up = self.time_up, min(self.time_up, time.monotonic() + seconds)
        came = self.turn(given, lambda wrote: not keys or keys <= {*map(key_of, runs.bodies_of(wrote)[0])})
        bodies, self.wrote = runs.bodies_of(self.wrote)
        self.time_up = ends
        return came, bodies


def replayed(program, session, way, environment, seconds=shaken_threads.SECONDS):
    """The messages by this way, with the waits that it has. What doesn't come in so many seconds is the last that is waited for."""
    client, bodies, sent, came = Client(program, environment), [], 0, True
    for start, end, due in way(session):
        if came:
            came, some = client.says(runs.frames(session.messages[start:end]), due, seconds)
            bodies, sent = bodies + some, end
    status, said, wrote = client.outcome()
    some, rest = runs.bodies_of(wrote)
    return Heard(status, shaken_threads.COUNTED.sub(b"", said), bodies + some, rest, sent)


def difference(body, wanted):
    """What a body says, and what it must say, about where they begin to differ."""
    at = max(0, len(os.path.commonprefix([body, wanted])) - 80)
    return body[at : at + 200], wanted[at : at + 200]


def fault(session, heard, must_come):
    """What is wrong with a session in which nothing is refused; None where nothing is."""
    keys = [*map(key_of, heard.bodies)]
    for key, body in zip(keys, heard.bodies):
        if body != session.bodies.get(key):
            return session.number, key, difference(body, session.bodies.get(key, b""))
    if missing := [key for key in session.leads if key in must_come and key not in keys]:
        return session.number, missing[:3], "missing"
    if (heard.status, heard.said, heard.rest) != (1, b"", b""):
        return session.number, "another end", heard.status, heard.said, heard.rest
    return None if is_in_order(keys) else (session.number, "two bodies about the same, or findings in another order than the versions")


def is_in_order(keys):
    """Whether no two keys are the same, and of each document the versions ascend."""
    versions = [key for key in keys if isinstance(key, tuple)]
    return len({*keys}) == len(keys) and sorted(versions, key=lambda it: it[0]) == sorted(versions)


def in_its_own(program, session, key):
    """What is wrong with what a process publishes that opens just this text; None where nothing is."""
    status, said, wrote = runs.outcome(program, runs.frames([session.messages[0], opened(*key, session.texts[key])]))
    found = (status, said, wrote)
    wanted = (1, b"", runs.frames([session.bodies["1"], session.bodies[key]]))
    return None if found == wanted else (session.number, key, status, said, difference(wrote, wanted[2]))


def sample_cases(program):
    """Versions that are opened by a process of their own."""
    versions = [(session, key) for session in sessions() for key in session.texts]
    some = random.Random(SEED).sample(versions, SAMPLE)
    faults = [it for it in rows.side_by_side(lambda it: in_its_own(program, *it), some) if it]
    yield f"{SAMPLE} versions, each opened by a process of its own", faults[:2], [], SAMPLE


def is_error(key, body):
    """Whether it is the error that a request has whose job is refused memory."""
    return isinstance(key, str) and body == refused_sessions.error(*INTERNAL, json.loads(key))


def refused_fault(session, heard, most):
    """What is wrong with a session in which at most so many allocations in a row were refused; None where nothing is."""
    keys = [*map(key_of, heard.bodies)]
    for key, body in zip(keys, heard.bodies):
        if body != session.bodies.get(key) and not is_error(key, body):
            return key, difference(body, session.bodies.get(key, b""))
    if heard.rest or not is_in_order(keys):
        return "a cut frame, two bodies about the same, or findings in another order than the versions", heard.rest
    if (heard.status, heard.said) == (6, refused_sessions.OUT_OF_MEMORY):
        return None
    missing = [key for key in session.leads[: heard.sent] if key in session.bodies and key not in keys]
    errors = sum(map(is_error, keys, heard.bodies))
    is_answered = not [key for key in missing if isinstance(key, str)]
    if (heard.status, heard.said, is_answered) == (1, b"", True) and len(missing) + errors <= most:
        return None
    return heard.status, heard.said, missing[:3], errors


def lacks_findings(session, heard):
    """Whether a session went on to its end, and not all findings came."""
    return (heard.status, heard.sent) == (1, len(session.messages)) and len(heard.bodies) < len(session.bodies)


def limits(session, count):
    """The first and the last allocation that are refused in each run: those by which it starts are no part of this."""
    start = count // 8
    some = random.Random(session.number).sample(range(start, max(count, start + REFUSED)), REFUSED)
    return [(session, first, first) for first in some] + [(session, first, 2**62) for first in some[:ALL_BEHIND]]


def refused_cases(run):
    """Sessions with memory refused, run by a function of a session and of the first and the last allocation that is refused."""
    tries = []
    for session in refusals():
        counted = refused_sessions.COUNTED.fullmatch(run(session, 0, 0).said)
        tries += limits(session, int(counted[1]) if counted else 0)
    with concurrent.futures.ThreadPoolExecutor(AT_ONCE) as pool:
        ran = list(pool.map(lambda it: run(*it), tries))
    faults = [(*limit, wrong) for (it, *limit), heard in zip(tries, ran) if (wrong := refused_fault(it, heard, limit[1] - limit[0] + 1))]
    yield f"{len(tries)} sessions with memory refused while it is typed", faults[:2], [], len(tries)
    found = {
        "end without memory": any(it.status == 6 for it in ran),
        "go on without some findings": any(lacks_findings(session, it) for (session, *_), it in zip(tries, ran)),
        "have an error for a hover": any(is_error(key_of(body), body) for it in ran for body in it.bodies),
    }
    yield "what some of these come to", found, dict.fromkeys(found, True)


def said_of(counts):
    return ", ".join(f"{number} {name}" for name, number in sorted(counts.items()))


def made_cases():
    """What there is in the sessions: enough edits, each kind, and findings that came or went far from an edit."""
    kinds, far = (sum((getattr(it, name) for it in sessions()), collections.Counter()) for name in ("kinds", "far"))
    edits, documents = sum(kinds.values()), sum(len(it.docs) for it in sessions())
    yield f"{edits} edits in {documents} documents", edits >= EDITS, True
    yield f"the edits by their kinds: {said_of(kinds)}", [it.__name__ for it in KINDS if not kinds[it.__name__]], []
    yield f"findings that came or went where no edit was made: {said_of(far)}", [code for code in FAR if far[code] < LEAST_FAR], []


def replay_case(words, run, way):
    """All sessions, run by a function of a session; what must come is what this way waits for."""
    ran = rows.side_by_side(run, sessions())
    must_come = [set().union(*(due for _, _, due in way(it))) for it in sessions()]
    faults = [wrong for told in zip(sessions(), ran, must_come) if (wrong := fault(*told))]
    versions = sum(len(it.texts) for it in sessions())
    return f"{versions} versions, {words}", faults[:2], [], versions


def plain_cases(program):
    """What is typed to the server on one thread."""
    yield from made_cases()
    yield replay_case("on one thread", functools.partial(plainly, program), one_by_one)
    yield from sample_cases(program)
    with rows.library(refused_sessions.LIBRARY) as made:
        yield from refused_cases(lambda it, first, last: plainly(program, it, rows.in_front(made, first_refused=first, last_refused=last)))


def ran_by(program, made, way, **numbers):
    """What runs a session by this way, with libraries in front that are told these numbers."""
    return lambda session: replayed(program, session, way, rows.in_front(made, **numbers))


def cases(program):
    """What is typed to the server with its threads: the writer's, and those of the workers."""
    with contextlib.ExitStack() as stack:
        libraries = (LIBRARY, shaken_threads.LIBRARY, refused_sessions.LIBRARY)
        held, shaken, refusing = (stack.enter_context(rows.library(it)) for it in libraries)
        for words, made, way, numbers in (
            ("one worker, each waited for", held, one_by_one, {"working_threads": 2}),
            ("one worker, some at once", held, in_bursts, {"working_threads": 2}),
            ("two workers, some at once", held, in_bursts, {"working_threads": 3}),
            ("four workers, some at once", held, in_bursts, {"working_threads": 5}),
            ("four workers that are shaken", shaken, in_bursts, {"shaken_seed": SEED}),
        ):
            yield replay_case(words, ran_by(program, made, way, **numbers), way)
        yield from sample_cases(program)
        made = f"{held} {refusing}"

        def refused(session, first, last):
            numbers = {"working_threads": 2, "first_refused": first, "last_refused": last}
            return replayed(program, session, for_replies, rows.in_front(made, **numbers), PATIENCE)

        yield from refused_cases(refused)


def main(words):
    (program, plain), _ = rows.programs_of(words, rows.SERVER, rows.PLAIN)
    return rows.report(itertools.chain(plain_cases(plain), cases(program)))


if __name__ == "__main__":
    sys.exit(main(sys.argv[1:]))

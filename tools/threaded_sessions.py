#!/usr/bin/env python3
"""The worked sessions of `session_rows`, served by the program with its threads.

    tools/threaded_sessions.py [PROGRAM]

Where each message is sent once what the one before it leads to has come, the bytes are settled, and each row has just those that it has on
one thread. Many rows at once, each about a document of its own, have no settled order: there each reply is found by its id, and what is
published by its document.
"""
import json
import sys

import encoding_rows
import rows
import runs
import session_rows
from plain_messages import id_of

PUBLISHED = b'"method":"textDocument/publishDiagnostics"'
# A session may have 256 documents open, and 1,024 requests wait.
ROWS_AT_ONCE = 100


def as_json(text):
    """What a body says; None where it is no JSON."""
    try:
        return json.loads(runs.as_bytes(text).decode())
    except ValueError:
        return None


def makes_version(message):
    """Whether a message may open or change a document."""
    said = as_json(message)
    return isinstance(said, dict) and said.get("method") in ("textDocument/didOpen", "textDocument/didChange")


def is_reply_to(body, message):
    said, told = as_json(message), as_json(body)
    if not isinstance(said, dict):
        said = {}
    is_notice = isinstance(said.get("method"), str) and "id" not in said
    return "id" in told and not is_notice and json.dumps(told["id"]) == id_of(said.get("id"))


def is_published_for(body, message):
    told = as_json(body)
    return makes_version(message) and "method" in told and told["params"]["uri"] == as_json(message)["params"]["textDocument"]["uri"]


def turns(said, answered, versions=0):
    """Each message with the count of bodies that it leads to, which is at most one: the next of the list, or the findings of one of so many
    versions beside it."""
    left = list(answered)
    for message in said:
        if makes_version(message) and versions:
            versions -= 1
            yield message, 1
        elif left and (is_reply_to(left[0], message) or is_published_for(left[0], message)):
            del left[0]
            yield message, 1
        else:
            yield message, 0


def split(wrote):
    """The frames of the replies, how many findings are published, and what is no whole frame."""
    bodies, rest = runs.bodies_of(wrote)
    kept = [body for body in bodies if PUBLISHED not in body]
    return runs.frames(kept), len(bodies) - len(kept), rest


def turn_cases(program):
    """What is written in each session, and how it ends, message by message."""
    for what, said, answered, status in session_rows.SESSIONS + encoding_rows.SESSIONS:
        yield what, runs.by_turns(program, turns(said, answered)), (status, b"", runs.frames(answered))
    for what, said, answered, versions in session_rows.REPLIES + encoding_rows.REPLIES:
        status, line, wrote = runs.by_turns(program, turns(said, answered, versions))
        yield what, (status, line, *split(wrote)), (1, b"", runs.frames(answered), versions, b"")
    begun, answered = [(session_rows.INITIALIZE, 1)], runs.frames([session_rows.CAPABILITIES])
    for stream, fault in session_rows.FRAMES:
        line = f"framing fault {fault}\n".encode()
        yield f"{fault}: {stream[:60]}", runs.by_turns(program, begun, stream), (2, line, answered)


def moved(text, number):
    """A message or a body about a document and a request of these numbers."""
    text = runs.as_bytes(text).decode()
    return text.replace('file:///g"', f'file:///g{number}"').replace('"id":2,', f'"id":{number},')


def is_free(said):
    """Whether other rows may come between the messages of a row: one request, that no change or close follows or ends, and no other document."""
    requests = [at for at, message in enumerate(said) if '"id":2,' in runs.as_bytes(message).decode("utf-8", "replace")]
    changes = [at for at, message in enumerate(said) if makes_version(message) or b"didClose" in runs.as_bytes(message)]
    return said[0].count('"id":1,') == 1 and len(requests) <= 1 and all(at < request for at in changes for request in requests)


def together(worked):
    """Rows with the same first message, in lists that one session can take."""
    by_first = {}
    for said, answered in worked:
        if is_free(said):
            by_first.setdefault((said[0], answered[0]), []).append((said[1:], answered[1:]))
    for (first, answer), group in by_first.items():
        for at in range(0, len(group), ROWS_AT_ONCE):
            if len(group) > 1:
                yield first, answer, group[at : at + ROWS_AT_ONCE]


def at_once(program, first, answer, group):
    """All these rows in one write: how it ended, the replies or what is published in the order of their bytes, and what is wanted."""
    said, wanted = [first], [answer]
    for number, (messages, bodies) in enumerate(group, 10):
        said += [moved(message, number) for message in messages]
        wanted += [moved(body, number) for body in bodies]
    status, line, wrote = runs.outcome(program, runs.frames(said))
    bodies, rest = runs.bodies_of(wrote)
    return (status, line, rest), sorted(bodies), sorted(map(runs.as_bytes, wanted))


def free_cases(program):
    """Many rows at once."""
    for first, answer, group in together((said, answered) for _, said, answered, _ in session_rows.REPLIES + encoding_rows.REPLIES):
        ends, bodies, wanted = at_once(program, first, answer, group)
        found = [body for body in bodies if PUBLISHED not in body]
        yield f"{len(group)} rows at once, behind {first[:90]}", (ends, found), ((1, b"", b""), wanted), len(group)
    for first, answer, group in together((said, answered) for _, said, answered, _ in session_rows.FINDINGS if len(said) == 2):
        ends, bodies, wanted = at_once(program, first, answer, group)
        yield f"the findings of {len(group)} rows at once", (ends, bodies), ((1, b"", b""), wanted), len(group)


def cases(program):
    yield from turn_cases(program)
    yield from free_cases(program)


def main(words):
    return rows.report(cases(*words or [rows.SERVER]))


if __name__ == "__main__":
    sys.exit(main(sys.argv[1:]))

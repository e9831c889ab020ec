#!/usr/bin/env python3
"""Runs the program on input that is cut, broken or random.

    tools/broken_input.py [PROGRAM [COUNT [SEED]]]

How each run must end, and which replies it must give, is told by a plain reading of the same bytes (`plain_messages`): the status and the line
of `man abnf_ls`, one reply for each request and for each body that is no message, by its id and with an error that there is, and findings
no more than versions. COUNT streams are made from SEED, a number.
"""
import collections
import json
import random
import re
import sys

import encoding_rows
import rows
import runs
import session_rows
from plain_messages import Plain

COUNT, SEED = 4000, 1
# The framing faults of `man abnf_ls`, by their numbers
FAULTS = ("", "HeaderTooLong", "BadHeader", "NoLength", "TwoLengths", "BadLength", "TooLarge", "Truncated")
# The errors of docs/DEFINITIONS.md, but for want of memory
ERRORS = {
    *((-32700, "parse error"), (-32600, "invalid request"), (-32600, "id in use"), (-32601, "method not found"), (-32602, "invalid params")),
    *((-32602, "document not open"), (-32002, "not initialized"), (-32800, "request cancelled"), (-32801, "content modified")),
    *((-32803, it) for it in ("not a rule name", "nothing to rename", "name in use", "too many requests waiting")),
}


def code_of(told):
    """The code of a reply's error, and 0 of a result. It is a KeyError or a ValueError where a reply isn't one of these."""
    if sorted(told) == ["id", "jsonrpc", "result"]:
        return 0
    error = told["error"]
    if sorted(told) != ["error", "id", "jsonrpc"] or (error["code"], error["message"]) not in ERRORS:
        raise ValueError(told)
    return error["code"]


def is_answered(codes, allowed):
    """Whether the replies to one id have codes that its requests allow, one each."""
    left = collections.Counter(codes)
    left.subtract(collections.Counter(it[0] for it in allowed if len(it) == 1))
    free = [it for it in allowed if len(it) > 1]
    return min(left.values(), default=0) >= 0 and sum(left.values()) == len(free) and all(it in free[0] for it in +left)


def fault_of_stream(program, stream):
    """What is wrong with a run on these bytes; None where nothing is."""
    plain = Plain(stream)
    status, said, wrote = runs.outcome(program, stream)
    bodies, rest = runs.bodies_of(wrote)
    line = f"framing fault {plain.fault} {FAULTS[plain.fault]}\n".encode() if plain.fault else b""
    if (status, said, rest) != (plain.status, line, b""):
        return f"ended with {status} {said[:80]} {rest[:80]}, and not {plain.status} {line}"
    replies, allowed, published = {}, {}, 0
    for identity, codes in plain.replies:
        allowed.setdefault(identity, []).append(codes)
    try:
        for told in map(json.loads, bodies):
            if "method" in told:
                published += told["method"] == "textDocument/publishDiagnostics"
            else:
                replies.setdefault(json.dumps(told["id"]), []).append(code_of(told))
    except (ValueError, KeyError, TypeError) as error:
        return f"a body that is none: {error}"
    if replies.keys() != allowed.keys() or not all(is_answered(replies[it], allowed[it]) for it in allowed):
        return f"replies {replies}, and not {allowed}"
    return f"{published} findings of {plain.versions} versions" if published > plain.versions else None


# Messages, as they stand in the worked sessions; of the many documents of one of these a few
WORKED = session_rows.SESSIONS + session_rows.REPLIES + encoding_rows.SESSIONS + encoding_rows.REPLIES
MESSAGES = sorted({runs.as_bytes(it) for row in WORKED for it in row[1][:20] if len(it) < 2000})
VALUES = (
    *("true", "false", "null", "0", "-0", "1", "-1", "1.5", "1e2", "1e400", "4294967295", "4294967296", "9223372036854775807", "9223372036854775808"),
    *("-9223372036854775808", "-9223372036854775809", "18446744073709551616", '""', '"utf-8"', '"\\ud83d\\ude00"', '"\\ud83d"', '"\\u0000"', "[]", "{}"),
    *("[[]]", '{"a":1,"a":2}', '"file:///g"', '"file:///h"', '"textDocument/hover"', '"shutdown"', '"exit"', '"initialize"', '"$/cancelRequest"'),
    *("nul", "NaN", "Infinity", "01", "1.", ".5", "+1", "'x'", '"\t"', "\ufeff1", "[" * 126 + "]" * 126, "[" * 200),
)
SCALAR = re.compile(rb'"(?:[^"\\]|\\.)*"|-?[0-9]+|true|false|null')
SCRAPS = (
    *(b"{", b"}", b"[", b"]", b",", b":", b'"', b"\\", b"\\u", b"\x00", b"\xff", b"\xc3", b"\xc3\xa9", b"\xed\xa0\x80", b"\xf0\x9f\x98\x80"),
    *(b"\r\n", b"\n", b"\r", b" ", b"\t", b"\r\n\r\n", b"Content-Length: 2", b"Content-Length:", b"a: b\r\n", b"9", b"-", b"%x41", b"a = b\\n"),
)
HEADERS = (
    *(b"content-length: %d\r\n\r\n", b"Content-Length:%d\r\n\r\n", b"CONTENT-LENGTH: \t00%d \r\n\r\n", b"Content-Type: x\r\nContent-Length: %d\r\n\r\n"),
    *(b"Content-Length: %d\r\nx:\r\n\r\n", b"Content-Length: %d\n\n", b"Content-Length: %d\r\r\n\r\n", b"Content-Length : %d\r\n\r\n", b" Content-Length: %d\r\n\r\n"),
    *(b"Content-Length: -%d\r\n\r\n", b"Content-Length: 9%d9999999\r\n\r\n", b"Content-Length: 1%d\r\n\r\n", b"Content-Length: %d, 1\r\n\r\n", b"Length: %d\r\n\r\n"),
    *(b"Content-Length: %d\r\nContent-Length: 1\r\n\r\n", b"Content-Length: %d\r\n", b": %d\r\n\r\n", b"\r\nContent-Length: %d\r\n\r\n"),
)


def long_header(dice):
    """A header part of about 4,096 bytes."""
    return b"x: " + b"y" * (4096 - 3 - 2 - 20 - 2 + dice.randrange(-3, 4)) + b"\r\nContent-Length: %4d\r\n\r\n"


def some_bytes(dice, count):
    return dice.getrandbits(8 * count).to_bytes(count, "little")


def at_random(dice, stream):
    """These bytes with a few of them changed."""
    for _ in range(dice.choice((1, 1, 2, 5))):
        start = dice.randrange(len(stream) + 1)
        end = min(len(stream), start + dice.choice((0, 0, 1, 1, 2, 8, 40)))
        put = dice.choice((b"", dice.choice(SCRAPS), dice.choice(SCRAPS), some_bytes(dice, dice.choice((1, 2, 9))), stream[start:end] * 2))
        stream = stream[:start] + put + stream[end:]
    return stream


def other_value(dice, body):
    """A body with another value in the place of one."""
    scalars = list(SCALAR.finditer(body))
    if not scalars:
        return body
    at = dice.choice(scalars)
    put = dice.choice((dice.choice(VALUES).encode(), dice.choice(scalars)[0]))
    return body[: at.start()] + put + body[at.end() :]


def mutated(dice, body):
    for _ in range(dice.choice((0, 1, 1, 2, 3))):
        body = dice.choice((other_value, other_value, at_random))(dice, body)
    return body


def framed(dice, body, slips):
    """A frame; now and then its header part is of another form."""
    if dice.random() >= slips:
        return runs.frame(body)
    header = dice.choice((*HEADERS, long_header(dice)))
    return header % max(0, len(body) + dice.choice((0, 0, 0, 0, -1, 1, 7))) + body


def random_stream(dice):
    """A session of messages from the worked ones, right, mutated in its bodies, in its headers or anywhere; or bytes."""
    if dice.random() < 0.05:
        return b"".join(dice.choice((*SCRAPS, some_bytes(dice, 3), *HEADERS)) for _ in range(dice.randrange(40)))
    bodies = [dice.choice(MESSAGES) for _ in range(dice.choice((1, 3, 10, 30)))]
    if dice.random() < 0.9:
        bodies.insert(0, session_rows.INITIALIZE.encode())
    if dice.random() < 0.5:
        bodies += [session_rows.SHUTDOWN.encode(), *dice.choice(([], [session_rows.EXIT.encode()]))]
    # most ids are those of one request alone
    bodies = [it.replace(b'"id":2,', b'"id":%d,' % dice.choice((2, number, number))) for number, it in enumerate(bodies, 10)]
    slips, changes = dice.choice((0, 0, 0.05, 0.3)), dice.choice((0, 0.1, 0.5))
    stream = b"".join(framed(dice, mutated(dice, it) if dice.random() < changes else it, slips) for it in bodies)
    if dice.random() < 0.2:
        stream = at_random(dice, stream)
    return stream[: dice.randrange(len(stream) + 1)] if dice.random() < 0.1 else stream


def streams(count, seed):
    """So many streams; each has a number of its own, from which it is made."""
    for number in range(count):
        yield number, random_stream(random.Random(f"{seed} {number}"))


FIRST = (session_rows.INITIALIZE, session_rows.INITIALIZED, session_rows.OPEN, session_rows.SYMBOLS, session_rows.SHUTDOWN, session_rows.EXIT)
# What each of these messages leads to
ANSWERS = (session_rows.CAPABILITIES, None, session_rows.CLEAN, session_rows.OUTLINE, session_rows.DOWN, None)


def whole_frames(front):
    """How many of the first session's frames are whole in a front of its bytes, and how many bytes are left behind these."""
    count = 0
    while count < len(FIRST) and len(runs.frames(FIRST[: count + 1])) <= front:
        count += 1
    return count, front - len(runs.frames(FIRST[:count]))


def ends_at(front):
    """How a run on a front of the first session's bytes ends: its status and its line."""
    count, left = whole_frames(front)
    if left:
        return 2, b"framing fault 7 Truncated\n"
    return (0 if count == len(FIRST) else 1), b""


def answers_to(count):
    """What so many messages of the first session lead to."""
    return [body.encode() for body in ANSWERS[:count] if body]


def fault_of_front(program, front):
    """How a run on this front of the first session's bytes ended, where that was wrong."""
    status, said, wrote = runs.outcome(program, runs.frames(FIRST)[:front])
    bodies, rest = runs.bodies_of(wrote)
    found = status, said, rest, sorted(bodies)
    return None if found == (*ends_at(front), b"", sorted(answers_to(whole_frames(front)[0]))) else (front, found)


def cases(program, count=COUNT, seed=SEED):
    """What was tried, what was wrong with it, and what must be wrong: nothing."""
    fronts = range(len(runs.frames(FIRST)) + 1)
    faults = rows.side_by_side(lambda front: fault_of_front(program, front), fronts)
    yield f"{len(faults)} fronts of the first session", [it for it in faults if it][:3], [], len(faults)
    found = rows.side_by_side(lambda it: (it[0], fault_of_stream(program, it[1])), streams(count, seed))
    yield f"{len(found)} random streams", [it for it in found if it[1]][:3], [], len(found)


def main(program=rows.SERVER, count=COUNT, seed=SEED):
    return rows.report(cases(program, int(count), int(seed)))


if __name__ == "__main__":
    sys.exit(main(*sys.argv[1:]))

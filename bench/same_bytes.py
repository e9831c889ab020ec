#!/usr/bin/env python3
"""Drives two servers with the same random sessions and compares their bytes and how they end.

    bench/same_bytes.py PROGRAM OTHER [COUNT] [SEED]

PROGRAM is that of the crate served_plainly and OTHER the plain Rust server, each a command; COUNT sessions (200 if left out) are made from SEED
(a number, 0 if left out). A session offers encodings of positions, or something else in their place, opens random grammars, right and faulty ones,
changes them and asks about random places, with some messages between that can't be served. The first session that gives other bytes, or ends with another exit status, is told with its messages and ends the
run.
"""
import random
import re
import shlex
import subprocess
import sys

from bench import END, about, frame, notice, opened, request

NAMES = ["a", "b", "rule-1", "Rule-2", "c3", "long-name-of-a-rule", "d", "E", "A", "rule-2", "LONG-name-of-a-rule"]
CORE = ["ALPHA", "digit", "HexDig", "CRLF", "LWSP", "wsp", "LF", "DQUOTE", "vchar", "OCTET", "CHAR", "CTL", "CR", "SP", "HTAB", "BIT"]
NUMBERS = ["%x41", "%d65.66.67", "%b1-10", "%x30-39", "%xFFFFFFFF.0", "%X39-30", "%x4294967296", "%x100000000", "%d4294967295", "%d9-8", "%x",
           "%d1.2.99999999999"]
QUOTED = ['"x"', '""', '"a b"', '%s"Aa"', '%i"\\"', '"yyyy"', '%S""', '"unclosed', "%s'"]
REPEATS = ["*", "1*", "2", "0", "*3", "1*2", "10*", "4*4", "3*2", "4096", "5000", "4294967295", "4294967296", "00"]
PROSE = ["<prose>", "<>", "<\u00e9\U0001f600>", "<unclosed"]
COMMENTS = ["; comment", ";", "; \u00e9\u4e2d\U0001f600 wide", "  ; \"quoted\"", "\t;x"]
SCRAPS = [*NAMES, *CORE[:4], *NUMBERS, *QUOTED, *REPEATS, *PROSE, *COMMENTS[:3], *"=/()[]?_\u00e9\U0001f600\\\t \n\r\0", "=/", " ", "\r\n"]
ENDS = ["\n", "\r\n", "\r"]
# The units of a text by the encoding that is agreed, and what is offered; where it isn't one of these three, they are UTF-16
UNITS = {"utf-8": lambda text: len(text.encode()), "utf-16": lambda text: len(text.encode("utf-16-le")) // 2, "utf-32": len}
NO_OFFERS = [None, [], ["x"], "utf-8", {"utf-8": 1}, ["UTF-8", "utf8"], [["utf-8"]], 7, True]


class Dice(random.Random):
    """Chance, which may make mistakes or none; and what positions count."""
    errs = True
    units = staticmethod(UNITS["utf-16"])

    def slips(self, chance):
        return self.errs and self.random() < chance


def element(dice, depth):
    """An element, right but for slips."""
    kind = dice.random()
    if depth and kind < 0.2:
        opening, closing = dice.choice(["()", "[]"])
        return opening + alternation(dice, depth - 1) + (dice.choice(["", ")", "]"]) if dice.slips(0.03) else closing)
    if kind < 0.55:
        return dice.choice(NAMES)
    if kind < 0.65:
        return dice.choice(CORE)
    if kind < 0.8:
        return dice.choice(NUMBERS if dice.slips(0.05) else NUMBERS[:5])
    if dice.slips(0.02):
        return dice.choice(PROSE)
    return dice.choice(QUOTED if dice.slips(0.05) else QUOTED[:6])


def repetition(dice, depth):
    repeat = dice.choice(REPEATS) if dice.slips(0.1) else dice.choice(REPEATS[:8]) if dice.random() < 0.2 else ""
    return repeat + (" " if repeat and dice.slips(0.05) else "") + element(dice, depth)


def blank(dice):
    kind = dice.random()
    if kind < 0.9:
        return "" if dice.slips(0.02) else " "
    return dice.choice(["  ", "\t", dice.choice(COMMENTS[:3]) + dice.choice(ENDS) + "    ", dice.choice(ENDS) + "   "])


def alternation(dice, depth):
    rows = []
    for _ in range(dice.choice([1, 1, 2, 3])):
        row = repetition(dice, depth)
        for _ in range(dice.choice([0, 0, 0, 1, 2])):
            row += blank(dice) + repetition(dice, depth)
        rows.append(row)
    return dice.choice([" / ", " / ", "/", " /  "]).join(rows)


def rule(dice, head):
    """A block that defines or adds to a name, or a comment, or a scrap."""
    if dice.slips(0.02):
        return f"{head} = {'(' * 64}{dice.choice(['', '(', '['])}x{')' * dice.choice([64, 65, 63])}"
    if dice.slips(0.04):
        return "".join(dice.choice(SCRAPS) for _ in range(dice.randrange(12)))
    if dice.random() < 0.03:
        return dice.choice(COMMENTS)
    defines = dice.choice([" = ", " = ", " = ", "=", " ; c\n    = "] if dice.random() < 0.8 else [" =/ ", "\t=/\r\n    "])
    return head + defines + alternation(dice, 3) + dice.choice(["", "", "", " ", dice.choice(COMMENTS)])


def chain(dice):
    """Rules that refer to the next one: long texts, texts of very great lengths, deep and empty ones, or rings."""
    count = dice.choice([5, 20, 70])
    times = dice.choice(["", "2", "4096", "*", "0*1"])
    rules = (f"r{number} = {times}r{number + 1} {dice.choice(['', '', '/ r0', f'r{number + 1}'])}\n" for number in range(count))
    return "".join(rules) + f"r{count} = {dice.choice(['*r0', 'r0', '%x0', 'CRLF', '<p>', 'nope', 'DIGIT'])}\n"


def grammar(dice):
    if dice.random() < 0.1:
        return chain(dice)
    heads = NAMES[:8] * dice.choice([0, 1, 1, 1, 2, 6]) + dice.sample(CORE + NAMES, 2)
    dice.shuffle(heads)
    indent, end, is_mixed = dice.choice(["", "", "", "  ", "\t"]), dice.choice(ENDS), dice.slips(0.2)
    lines = [indent + (" " if dice.slips(0.03) else "") + rule(dice, head) for head in heads]
    return "".join(line + (dice.choice(ENDS) if is_mixed else end) for line in lines) + dice.choice(["", "", "", "x" if dice.errs else " "])


def name_in(dice, text):
    """Where a name of a text starts and ends."""
    return dice.choice(list(re.finditer("[A-Za-z][A-Za-z0-9-]*|$", text))).span()


def position_of(dice, offset, text):
    before = text[:offset].replace("\r\n", "\n").replace("\r", "\n").split("\n")
    return {"line": len(before) - 1, "character": dice.units(before[-1])}


def position(dice, text):
    """A position of a text, or one past its end or that of its line: often at a name."""
    if dice.random() < 0.02:
        return {"line": dice.choice([2 ** 40, 3]), "character": 4294967296}
    at = position_of(dice, dice.randint(*name_in(dice, text)) if dice.random() < 0.8 else dice.randrange(len(text) + 1), text)
    return {**at, "character": at["character"] + dice.choice([0, 0, 0, 0, 0, 0, 1, 5])}


def edit(dice, text):
    """A change: at line ends, of a name, or of anything."""
    if dice.random() < 0.2:
        line = position(dice, text)["line"]
        start, end = {"line": line, "character": 0}, {"line": line, "character": dice.choice([0, 0, 1, 200])}
        return {"range": {"start": start, "end": end}, "text": dice.choice([*ENDS, ""])}
    if not dice.slips(0.8):
        start, end = (position_of(dice, offset, text) for offset in name_in(dice, text))
        return {"range": {"start": start, "end": end}, "text": dice.choice([dice.choice(NAMES), element(dice, 1)])}
    new = dice.choice([dice.choice(SCRAPS), dice.choice(SCRAPS), rule(dice, dice.choice(NAMES)), "", grammar(dice)])
    if dice.random() < 0.05:
        return {"text": new}
    start = position(dice, text)
    end = start if dice.random() < 0.6 else dice.choice([position(dice, text), {**start, "character": start["character"] + 1}])
    return {"range": {"start": start, "end": end}, "text": new}


HOVER = b'{"id":6,"method":"textDocument/hover","params":{"textDocument":{"uri":%b},"position":{"line":%b,"character":0}}}'
STRANGE = [
    b"{}", b"[]", b"{", b"", b"nothing", b'"\t"', b"\xff", b'{"a":1,}', b'{"id":2} x', b"[" * 127 + b"]" * 127, b"[" * 128 + b"]" * 128,
    b'{"id":1,"method":5}', b'{"id":true,"method":"shutdown"}', b'{"id":1,"result":null}', b'{"method":"unknown"}',
    b'{"id":-0,"method":"x"}', b'{"id":-7,"method":"$/x"}', b'{"id":1.0,"method":"x"}', b'{"id":1e5,"method":"x"}', b'{"id":01,"method":"x"}',
    b'{"id":9223372036854775808,"method":"x"}', b'{"id":"\\u00e9\\ud83d\\ude00\\n\\u0001","method":"x"}', b'{"id":3,"method":"\\ud800"}',
    b'{"id":4,"method":"exit"}', b'{"id":5,"method":"textDocument/didOpen"}', b'{"method":"$/cancelRequest","params":{"id":1}}',
    b'{"id":8,"method":"textDocument/documentSymbol"}', HOVER % (b'"file:///g"', b"-1"), HOVER % (b'"file:///g"', b"0.5"), HOVER % (b"5", b"0"),
    b'{"method":"textDocument/didOpen","params":{"textDocument":{"uri":"file:///g"}}}',
    b'{"method":"textDocument/didChange","params":{"textDocument":{"uri":"file:///none"},"contentChanges":[]}}',
]


def message(dice, text):
    """One message of a session whose document was opened with this text."""
    kind = dice.random()
    uri = "file:///g" if dice.random() < 0.95 else dice.choice(["file:///h", "\u00e9\"\\\n\x7f"])
    document = {"uri": uri}
    number = dice.choice([dice.randrange(100), "text-" + str(dice.randrange(9))])
    if kind < 0.25:
        edits = [edit(dice, text) for _ in range(dice.choice([0, 1, 1, 1, 1, 2, 3]))]
        return notice("textDocument/didChange", textDocument={**document, "version": dice.choice([2, -5, None, 7.5])}, contentChanges=edits)
    if kind < 0.7:
        return request(number, "textDocument/hover", textDocument=document, position=position(dice, text))
    if kind < 0.78:
        return request(number, "textDocument/definition", textDocument=document, position=position(dice, text))
    if kind < 0.86:
        context = dice.choice([{}, {"includeDeclaration": True}, {"includeDeclaration": False}, None])
        return request(number, "textDocument/references", textDocument=document, position=position(dice, text), context=context)
    if kind < 0.92:
        return about(number, "documentSymbol")
    if kind < 0.94:
        return notice("textDocument/didClose", textDocument=document) + opened(grammar(dice), uri)
    if kind < 0.96:
        return opened(grammar(dice), uri)
    if kind < 0.963:
        return notice("textDocument/didChange", textDocument=document, contentChanges=[{"text": 5}])
    return frame(dice.choice(STRANGE))


def initialize(dice):
    """The first message, which settles what positions count."""
    agreed = dice.choice([None, *UNITS])
    if agreed is None:
        offers = dice.choice(NO_OFFERS)
    else:
        offers = dice.choice([[], ["x"], [None, 8, "UTF-8"]]) + [agreed] + dice.choice([[], ["utf-8"], ["utf-16", "utf-32"], [{}]])
    dice.units = UNITS[agreed or "utf-16"]
    general = {} if offers is None and dice.random() < 0.5 else {"positionEncodings": offers}
    return request(0, "initialize", capabilities=dice.choice([{"general": general}, {"general": general, "workspace": {}}]))


def session(dice):
    """The messages of a session."""
    dice.errs = dice.random() < 0.5
    text = grammar(dice)
    first = [] if dice.random() < 0.02 else [initialize(dice)]
    rest = [message(dice, text) for _ in range(dice.choice([1, 5, 20, 60]))]
    end = dice.choice([[END], [END], [request(2, "shutdown"), rest[0], notice("exit")], [notice("exit")], [], [b"Content-Length: 5\r\n\r\nabc"]])
    return first + [opened(text)] + rest + end


def ran(command, given):
    """What a server says to some bytes, and its exit status."""
    done = subprocess.run(command, input=given, capture_output=True, check=False)
    return done.stdout, done.returncode


def main():
    programs = [shlex.split(command) for command in sys.argv[1:3]]
    count = int(sys.argv[3]) if len(sys.argv) > 3 else 200
    seed = int(sys.argv[4]) if len(sys.argv) > 4 else 0
    said = 0
    for number in range(count):
        messages = session(Dice(f"{seed} {number}"))
        (one, status), (other, other_status) = (ran(program, b"".join(messages)) for program in programs)
        said += len(one)
        if one != other or status != other_status:
            at = next((at for at, (left, right) in enumerate(zip(one, other)) if left != right), min(len(one), len(other)))
            print(*messages, sep="\n")
            sys.exit(f"session {number} of seed {seed} differs at byte {at}, the exit statuses are {status} and {other_status}:\n"
                     f"{one[max(0, at - 300):at + 200]}\n{other[max(0, at - 300):at + 200]}")
    print(f"{count} sessions of seed {seed} gave the same {said:,} bytes and exit statuses")


if __name__ == "__main__":
    main()

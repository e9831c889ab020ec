#!/usr/bin/env python3
"""Asks the built program about random texts, and compares what it answers with a plain reading of them.

    tools/random_texts.py [PROGRAM [SEED [COUNT [ENCODING]]]]

PROGRAM is that of the crate served_plainly, SEED 1, COUNT 600 and ENCODING each of the three where they aren't given. For each text the tokens
and the outline are asked for, and at random positions definitions, references, renames, hovers and code actions; and what is published of each
version is compared. The plain reading below knows tokens, blocks and places of names, that of plain_rules which string of a rule is the shortest,
and that of plain_findings what is wrong in a text. Then the edits of a rename that is granted are made in the text: its tokens are the same but at
the places of the name, and at each place the same is shown as before. At last random edits are made, at positions inside characters and past the
ends too, or of the whole text, and tokens, the outline and references are asked for again. All positions count what the session agreed on. It ends
nonzero where an answer differs. The gate asks about as many texts as COUNTS says.
"""
import json
import random
import re
import sys

import encoding_rows
import plain_findings
import plain_rules
import rows
import runs

# A session on many texts takes some ten seconds.
SECONDS = 300
# How many texts there are with positions in each encoding
COUNTS = {"utf-16": 600, "utf-8": 300, "utf-32": 300}
SEED = 1
CORE_RULES = "alpha bit char cr crlf ctl digit dquote hexdig htab lf lwsp octet sp vchar wsp".split()
BASES = (("bB", "01"), ("dD", "0-9"), ("xX", "0-9A-Fa-f"))
NUMBERS = "|".join(f"[{letter}][{digits}]+(?:(?:\\.[{digits}]+)+|-[{digits}]+)?" for letter, digits in BASES)
# The classes of tokens (RFC 5234, section 4; RFC 7405, section 2.2) and the types of the legend
CLASSES = tuple(
    (kind, re.compile(form, re.DOTALL))
    for kind, form in (
        ("name", "[A-Za-z][A-Za-z0-9-]*"),
        ("defines", "=/?"),
        ("operator", r"/|[()\[\]]|[0-9]*\*[0-9]*|[0-9]+"),
        ("quoted", r'(?:%[iIsS])?"[\x20\x21\x23-\x7e]*"'),
        ("number", f"%(?:{NUMBERS})"),
        ("prose", "<[^>]*>"),
        ("comment", ";.*"),
        ("blank", r"[ \t]+"),
    )
)
TYPES = {"name": 0, "quoted": 1, "number": 2, "defines": 3, "operator": 3, "comment": 4, "prose": 5}


# What positions count: the units of a text (LSP 3.17, "PositionEncodingKind")
UNITS = {
    "utf-8": lambda text: len(text.encode()),
    "utf-16": lambda text: len(text.encode("utf-16-le")) // 2,
    "utf-32": len,
}


def tokens_of(line):
    """The kind, the text and the start of each token: the longest text of a class, or else one bad character."""
    at, found = 0, []
    while at < len(line):
        fitting = [(match.end(), kind) for kind, form in CLASSES if (match := form.match(line, at)) and match.end() > at]
        end, kind = max(fitting, default=(at + 1, "bad"))
        found.append((kind, line[at:end], at))
        at = end
    return found


def indent(line):
    """How deep a line with content is indented; None for a line that is blank or a comment."""
    content = line.lstrip(" \t")
    return len(line) - len(content) if content and content[0] != ";" else None


class Place:
    """A name in a text: its line, where it starts and ends there in characters, its text, and whether it defines."""

    def __init__(self, line, start, text, defines):
        self.line, self.start, self.end = line, start, start + len(text)
        self.text, self.defines = text, defines


class Reading:
    """What a text says, read plainly, by positions that count what an encoding has."""

    def __init__(self, text, encoding):
        self.encoding, self.units = encoding, UNITS[encoding]
        self.lines = re.split("\r\n|\n|\r", text)
        self.ends = re.findall("\r\n|\n|\r", text) + [""]
        self.tokens = [tokens_of(line) for line in self.lines]
        self.items = [[*self.items_in(block)] for block in self.blocks()]
        self.places = [place for items in self.items for place in self.places_in(items)]
        self._rules = None

    @property
    def rules(self):
        """The rules, which are read where they are asked for first."""
        if self._rules is None:
            self._rules = plain_rules.Rules([[(kind, said, apart) for kind, said, *_, apart in items] for items in self.items], tokens_of)
        return self._rules

    def blocks(self):
        indents = [indent(line) for line in self.lines]
        base = next((depth for depth in indents if depth is not None), 0)
        starts = [at for at, depth in enumerate(indents) if depth is not None and depth <= base]
        return [range(start, end) for start, end in zip(starts, starts[1:] + [len(self.lines)])]

    def items_in(self, block):
        """The kind, the text, the line and the start of each token that counts, and whether it stands apart."""
        apart = False
        for line in block:
            for kind, text, start in self.tokens[line]:
                if kind not in ("blank", "comment"):
                    yield kind, text, line, start, apart
                apart = kind in ("blank", "comment")
            apart = True

    def places_in(self, items):
        has_head = len(items) > 1 and items[0][0] == "name" and items[1][0] == "defines"
        before = [None] + [item[0] for item in items]
        for at, (kind, text, line, start, apart) in enumerate(items):
            touched = at > 0 and not apart and before[at] in ("bad", "number")
            if kind == "name" and not touched:
                yield Place(line, start, text, at == 0 and has_head)

    def named(self, name):
        return [place for place in self.places if place.text.lower() == name.lower()]

    def is_defined(self, name):
        return any(place.defines for place in self.named(name))

    def point(self, line, character):
        """The line and the character of a position: one inside a character's units is before that character."""
        if line >= len(self.lines):
            return len(self.lines) - 1, len(self.lines[-1])
        text, at = self.lines[line], 0
        while at < len(text) and self.units(text[: at + 1]) <= character:
            at += 1
        return line, at

    def edited(self, ends, new):
        """The text with what is between two positions replaced, whichever comes first."""
        lines = [line + end for line, end in zip(self.lines, self.ends)]
        offsets = sorted(sum(map(len, lines[:line])) + at for line, at in (self.point(*end) for end in ends))
        text = "".join(lines)
        return Reading(text[: offsets[0]] + new + text[offsets[1] :], self.encoding)

    def place_at(self, position):
        line, at = self.point(*position)
        here = [place for place in self.places if place.line == line]
        holding = [place for place in here if place.start <= at < place.end]
        return next(iter(holding + [place for place in here if place.end == at]), None)

    def range_of(self, place):
        return self.range_at(place.line, place.start, place.end)

    def numbers(self):
        """The five numbers of each semantic token."""
        by_start = {(place.line, place.start): place for place in self.places}
        told, last_line, last_start = [], 0, 0
        for line, tokens in enumerate(self.tokens):
            for kind, text, at in tokens:
                if kind in TYPES:
                    start = self.units(self.lines[line][:at])
                    behind = start - last_start if line == last_line else start
                    told += [line - last_line, behind, self.units(text), TYPES[kind], self.modifiers(by_start.get((line, at)))]
                    last_line, last_start = line, start
        return told

    def modifiers(self, place):
        if place is None:
            return 0
        if place.defines:
            return 1
        return 2 if not self.is_defined(place.text) and place.text.lower() in CORE_RULES else 0

    def range_at(self, line, start, end):
        """The range of these characters of a line."""
        ends = (self.units(self.lines[line][:at]) for at in (start, end))
        return dict(zip(("start", "end"), ({"line": line, "character": character} for character in ends)))

    def findings(self):
        """What is published of the text."""
        found = plain_findings.findings(self.items, self.rules)
        rows = ((*plain_findings.CODES[row], message, self.range_at(*place)) for row, message, place in found)
        return [{"code": code, "message": message, "range": at, "severity": severity, "source": "abnf"} for code, severity, message, at in rows]

    def outline(self):
        """The symbols of the blocks that have a head, each from its first item to its last one's end."""
        return [self.symbol(items[0], items[-1]) for items in self.items if plain_findings.has_head(items)]

    def symbol(self, head, last):
        names, ends = (self.range_at(*plain_findings.place(it)) for it in (head, last))
        return {"kind": 12, "name": head[1], "range": {**names, "end": ends["end"]}, "selectionRange": names}

    def definitions(self, position):
        place = self.place_at(position)
        return [self.range_of(it) for it in (self.named(place.text) if place else []) if it.defines]

    def references(self, position, declarations):
        place = self.place_at(position)
        return [self.range_of(it) for it in (self.named(place.text) if place else []) if declarations or not it.defines]

    def rename(self, position, new):
        """The ranges that get the new name, or why they don't."""
        place = self.place_at(position)
        if not re.fullmatch("[A-Za-z][A-Za-z0-9-]*", new):
            return "not a rule name"
        if place is None or not self.is_defined(place.text):
            return "nothing to rename"
        if new.lower() != place.text.lower() and (self.named(new) or new.lower() in CORE_RULES):
            return "name in use"
        return [self.range_of(it) for it in self.named(place.text)]

    def start_of(self, place):
        return place.line, self.units(self.lines[place.line][: place.start])

    def with_name(self, old, new):
        """The text with the new name at each place of the old one."""
        lines = list(self.lines)
        for place in reversed(self.named(old)):
            line = lines[place.line]
            lines[place.line] = line[: place.start] + new + line[place.end :]
        return "".join(line + end for line, end in zip(lines, self.ends))

    def pieces(self, old=None, new=None):
        """The kind and the text of each token, line by line, with the new name at each place of the old one."""
        starts = {(place.line, place.start) for place in (self.named(old) if old else [])}
        return [
            [(kind, new if (line, start) in starts else text) for kind, text, start in tokens]
            for line, tokens in enumerate(self.tokens)
        ]

    def head_line(self, position):
        """The line where the name at a position is first defined."""
        place = self.place_at(position)
        return next((it.line for it in self.named(place.text) if it.defines), None) if place else None

    def example(self, position):
        place = self.place_at(position)
        return self.rules.example(place.text) if place else None

    def hover(self, position):
        """What is shown at a position."""
        place = self.place_at(position)
        if place is None:
            return None
        return {"contents": {"kind": "plaintext", "value": self.rules.shown(place.text)}, "range": self.range_of(place)}


# Brackets about as deep as they may nest, of which a text has few
DEEP = tuple(f"deep = {left * count}a{right * more}\n" for left, right in ("()", "[]") for count in (64, 65) for more in (count, count - 1))
# Rules that refer to one another: their lengths double, are too great to tell, or are none
CHAINS = tuple(
    "".join(f"r{number} = {times}r{number + 1} {more}\n" for number in range(count)) + f"r{count} = {last}\n"
    for times in ("2", "4096", "*", "")
    for count, more, last in ((5, "/ r0", '"x"'), (12, "", "DIGIT"), (70, "", '"y"'), (4, "r0", "r0"), (6, "", "<p>"), (3, "/ nope", "nope"))
)
FRAGMENTS = (
    *("%x39-30", "%x100000000", "%d4294967295", "4294967296", "4294967295*", "4096", "00", "2*1", '%x.', '%s"', '""'),
    *("a", "b", "A", "item", "ITEM", "DIGIT", "digit", "HEXDIG", "CRLF", "x41", "c-1", " ", "  ", "\t"),
    *(" = ", " =/ ", "=", "=/", "/", " / ", "(", ")", "[", "]", "*", "2", "1*3", "3*2", "0*"),
    *('"x"', '"', "%x41", "%d13.10", "%x30-39", "%", '%s"Q"', '%i"q"', "<p r>", "<", "é", "€", "😀"),
    *("; c item\n", ";", "\n", "\n", "\n", "\r\n", "\r", "?", "_", "-", "\n a", "\nb = ", "\nitem = ", "\n="),
    *('a = "x"\n', "b = a b\n", "item = 1*DIGIT\n", 'A =/ "y"\n', "a = %x41 / <é> b ; 😀\n", "b = <€😀é> a ; 😀 a\r\n"),
)
# What rules that are right have, but for ranges and repeats that are empty, numbers that are too large, and names that stand for nothing
HEADS = ("a", "b", "item", "ITEM", "c-1", "digit", "rule-1", "B", "d0")
USES = (*HEADS, "nope", "CRLF", "hexdig")
ELEMENTS = ('"x"', '"yy"', '""', '%s"Aa"', "%x41", "%d13.10", "%x30-39", "%x39-30", "%xFFFFFFFF", '%i"q\\"', "DIGIT", '"x y"', "<p>", "%x100000000")
REPEATS = (*("",) * 12, "*", "1*", "2", "0", "*3", "1*2", "3*2", "4*4", "4096", "4294967295")
BLANKS = (*(" ",) * 8, "  ", "\t", " ; \u00e9\U0001f600\n    ", "\r\n  ")
NEW_NAMES = ("a", "b", "c", "item2", "ITEM", "digit", "crlf", "2x", "", "a b", "x41", "d0", "-a", "Q", "A", "hexdig", "c-1", "C-1", "é")


class Session:
    """Messages to the program, and what must be answered to each request: a function of its result or of its error's text."""

    def __init__(self, choose, encoding):
        self.choose, self.encoding, self.messages, self.wanted = choose, encoding, [], {}
        # what is published of each version, by the document and the client's version
        self.published = {}
        # of each rename that was made, whether the plain reading finds the promised tokens after it
        self.renames = []
        # where nothing is offered it is UTF-16
        offered = {} if encoding == "utf-16" else {"general": {"positionEncodings": ["x", encoding, "utf-16"]}}
        self.request("initialize", {"capabilities": offered}, lambda answers: json.loads(encoding_rows.agreed(encoding))["result"])

    def request(self, method, params, want):
        number = len(self.wanted)
        self.messages.append({"id": number, "method": method, "params": params})
        self.wanted[number] = want
        return number

    def notice(self, method, document, reading=None, **params):
        """A notice, and what is published of the text that it leaves."""
        self.messages.append({"method": f"textDocument/{method}", "params": {"textDocument": document, **params}})
        if reading is not None:
            self.published[document["uri"], document["version"]] = reading.findings()

    def position(self, reading):
        if reading.places and self.choose.random() < 0.8:
            place = self.choose.choice(reading.places)
            at = self.choose.choice((place.start, (place.start + place.end) // 2, place.end))
            return place.line, reading.units(reading.lines[place.line][:at])
        return self.choose.choice((*range(len(reading.lines) + 1), 2**40)), self.choose.choice((*range(12), 4294967296))

    def ask(self, uri, method, want, **params):
        return self.request(f"textDocument/{method}", {"textDocument": {"uri": uri}, **params}, lambda answers: want)

    def about(self, uri, text):
        """Opens a text, asks about it and closes it."""
        reading = Reading(text, self.encoding)
        self.notice("didOpen", {"uri": uri, "languageId": "abnf", "version": 1, "text": text}, reading)
        self.ask_whole(uri, reading)
        for _ in range(3):
            self.ask_references(uri, reading)
            self.ask_definition(uri, reading)
            self.ask_rename(uri, reading)
            self.ask_action(uri, reading)
        self.edit_some(uri, self.rename_one(uri, reading))
        self.notice("didClose", {"uri": uri})

    def edit_some(self, uri, reading):
        """Makes up to three random edits at once, and asks about what they leave."""
        changes = []
        for _ in range(self.choose.randrange(4)):
            ends, new = [self.position(reading) for _ in range(2)], self.choose.choice(FRAGMENTS)
            if self.choose.random() < 0.05:
                changes.append({"text": new})
                reading = Reading(new, self.encoding)
            else:
                changes.append({"range": dict(zip(("start", "end"), map(as_json, ends))), "text": new})
                reading = reading.edited(ends, new)
        self.notice("didChange", {"uri": uri, "version": self.choose.choice((3, -5, 2**31 - 1))}, reading, contentChanges=changes)
        self.ask_whole(uri, reading)
        self.ask_references(uri, reading)

    def ask_whole(self, uri, reading):
        """What is asked about a text and not about a place in it."""
        self.ask(uri, "semanticTokens/full", {"data": reading.numbers()})
        self.ask(uri, "documentSymbol", reading.outline())

    def ask_definition(self, uri, reading):
        at = self.position(reading)
        want = [{"range": it, "uri": uri} for it in reading.definitions(at)]
        self.ask(uri, "definition", want, position=as_json(at))

    def ask_references(self, uri, reading):
        at, declarations = self.position(reading), self.choose.choice((True, False))
        want = [{"range": it, "uri": uri} for it in reading.references(at, declarations)]
        self.ask(uri, "references", want, position=as_json(at), context={"includeDeclaration": declarations})

    def ask_rename(self, uri, reading):
        at, new = self.position(reading), self.choose.choice(NEW_NAMES)
        renamed = reading.rename(at, new)
        want = renamed if isinstance(renamed, str) else {"changes": {uri: [{"newText": new, "range": it} for it in renamed]}}
        self.ask(uri, "rename", want, position=as_json(at), newName=new)

    def rename_one(self, uri, reading):
        """Makes the edits of a rename that is granted, if there is one, and asks for what it keeps. Gives what the text says then."""
        places = {place.text.lower(): place for place in reading.places}.values()
        named = [(place.text, new) for place in places for new in NEW_NAMES if self.is_granted(reading, place, new)]
        if not named:
            return reading
        old, new = self.choose.choice(named)
        after = Reading(reading.with_name(old, new), self.encoding)
        before = [self.hover(uri, reading.start_of(place)) for place in reading.places]
        changes = [{"range": reading.range_of(place), "text": new} for place in reversed(reading.named(old))]
        self.notice("didChange", {"uri": uri, "version": 2}, after, contentChanges=changes)
        self.renames.append(after.pieces() == reading.pieces(old, new) and len(after.places) == len(reading.places))
        self.ask(uri, "semanticTokens/full", {"data": after.numbers()})
        for place, number in zip(after.places, before):
            self.hover(uri, after.start_of(place), lambda answers, it=place, was=number: {**answers[was], "range": after.range_of(it)})
        return after

    def is_granted(self, reading, place, new):
        return isinstance(reading.rename(reading.start_of(place), new), list)

    def hover(self, uri, at, want=None):
        return self.request("textDocument/hover", {"textDocument": {"uri": uri}, "position": as_json(at)}, want)

    def ask_action(self, uri, reading):
        ends = [self.position(reading) for _ in range(2)]
        start = min(ends, key=lambda end: (reading.point(*end), end))
        self.ask(uri, "hover", reading.hover(start), position=as_json(start))
        want = actions(uri, reading.head_line(start), reading.example(start))
        self.ask(uri, "codeAction", want, range=dict(zip(("start", "end"), map(as_json, ends))))


def as_json(position):
    return dict(zip(("line", "character"), position))


def actions(uri, line, example):
    """The actions where a name with this example is first defined in this line."""
    if line is None or example is None:
        return []
    at = as_json((line, 0))
    edit = {"newText": f"; example {example}\n", "range": {"start": at, "end": at}}
    return [{"edit": {"changes": {uri: [edit]}}, "kind": "refactor", "title": "Insert shortest example"}]


def answers_of(program, messages):
    """What is answered to each request: its result, or the text of its error; and what is published of each version. Nothing is where the program
    doesn't end as it must."""
    said = runs.frames(json.dumps({"jsonrpc": "2.0", **message}) for message in messages)
    status, line, wrote = runs.outcome(program, said, seconds=SECONDS)
    if (status, line) != (1, b""):
        print(f"it ended with {status} {line}")
        return {}
    answers = {}
    for message in map(json.loads, runs.bodies_of(wrote)[0]):
        if "id" in message:
            answers[message["id"]] = message["error"]["message"] if "error" in message else message["result"]
        else:
            told = message["params"]
            answers[told["uri"], told["version"]] = told["diagnostics"]
    return answers


def element(choose, depth):
    kind = choose.random()
    if depth and kind < 0.2:
        left, right = choose.choice(("()", "[]"))
        return left + alternation(choose, depth - 1) + right
    return choose.choice(USES if kind < 0.6 else ELEMENTS[:-2] if kind < 0.97 else ELEMENTS)


def alternation(choose, depth):
    rows = (range(choose.choice((1, 1, 2, 3))) for _ in range(choose.choice((1, 1, 2, 3))))
    return " / ".join(choose.choice(BLANKS).join(choose.choice(REPEATS) + element(choose, depth) for _ in row) for row in rows)


def rule(choose):
    head = choose.choice(HEADS) + choose.choice((" = ", " = ", " = ", "=", " =/ ", " ; c\n  = "))
    return head + alternation(choose, 3) + choose.choice(("", "", " ", " ; \u00e9\U0001f600"))


def random_text(choose):
    """A text of rules or of fragments, now and then with deep brackets, or a chain of rules."""
    kind = choose.random()
    if kind < 0.03:
        return choose.choice(CHAINS)
    if kind > 0.6:
        end = choose.choice(("\n", "\n", "\r\n", "\r"))
        return "".join(rule(choose) + end for _ in range(choose.choice((1, 2, 5, 10))))
    return "".join(choose.choices(FRAGMENTS, k=choose.choice((1, 3, 6, 10, 20, 40)))) + (choose.choice(DEEP) if kind < 0.08 else "")


def compared(program, seed, count, encoding):
    """The session on so many random texts, and what the program answers otherwise in it: numbers of requests, and versions of documents."""
    session = Session(random.Random(seed), encoding)
    for number in range(count):
        session.about(f"file:///{number}", random_text(session.choose))
    answers = answers_of(program, session.messages)
    if not answers:
        return session, [*session.wanted]
    wrong = [number for number, want in session.wanted.items() if want and answers.get(number) != want(answers)]
    strays = [version for version, found in session.published.items() if answers.get(version) != found]
    for number in wrong[:5]:
        print(f"request {number}: {answers.get(number)!r} in place of {session.wanted[number](answers)!r}")
    for version in strays[:5]:
        print(f"published of {version}: {answers.get(version)!r} in place of {session.published[version]!r}")
    return session, wrong + strays


def cases(program, seed=SEED, counts=None):
    """What was asked, which answers differ, and that none may; and of the renames that were made, how many lost a token."""
    for encoding, count in (counts or COUNTS).items():
        session, wrong = compared(program, seed, count, encoding)
        asked, versions = len(session.wanted), len(session.published)
        yield f"{asked} requests about {versions} versions of {count} random texts, in {encoding}", wrong, [], asked
        yield f"the tokens after {len(session.renames)} renames there", session.renames.count(False), 0, len(session.renames)


def main(program=rows.PLAIN, seed=SEED, count=600, *encodings):
    return rows.report(cases(program, int(seed), dict.fromkeys(encodings or UNITS, int(count))))


if __name__ == "__main__":
    sys.exit(main(*sys.argv[1:]))

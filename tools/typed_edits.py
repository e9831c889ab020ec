"""Edits of ABNF texts as they are typed: key by key, at once, or several in one change.

A kind of edits is a function of a document. It gives lists of changes, as a client tells them (LSP 3.17,
"TextDocumentContentChangeEvent"), and the document has the text that each of them leaves. In place of changes it may give a rename that is
to be asked for, whose edits then are the changes. Most kinds end at the text at which they began. What a kind needs and doesn't find in a
text is an empty item there, so each kind goes through in any text.
"""
import functools
import os
import re
from typing import Any, NamedTuple

from random_texts import CORE_RULES, FRAGMENTS, UNITS, Reading, random_text

LINE_END = re.compile("\r\n|\n|\r")
# What is typed, or taken out, by one key
KEY = re.compile("\r\n|.", re.DOTALL)
OTHER_SIGN = {"=": "=/", "=/": "="}

# Texts in which what is found in one block depends on others, on the first line, or on what a line ends in
SMALL_GRAMMARS = (
    'a = b "x"\nb = a / c\nc = "y"\nd = a c\n',
    "".join(f'r{number} = r{number + 1} "x"\n' for number in range(16)) + 'r16 = "y"\n',
    'a = "x"\na =/ "y"\nA = "z"\nb =/ a\nb = "w"\nB =/ b\nc =/ "v"\nd = c b\n',
    "a = b / <\u00e9 first>\nb = a b\nc = d\nd = c e\ne = <\U0001f600> / e\nf = f c\n",
    '; head\n\n  a = "x"\n    / b\n  b = a\n c = b\n    d = c\n',
    ' a = b\n  "x"\n b = "y"\n   a\n',
    'a = b\r\n  / "x"\r\nb = c ; \u00e9\r\nc = nope\r\n',
    'a = b\r  "x"\rb = <p>\r\rc = a\r',
    'a = b\r\n\rb = "x"\n\r\nc = a\r',
    'line = 1*ALPHA CRLF\nDIGIT = %x30-39\nword = DIGIT / HEXDIG\nalpha =/ "a"\nlwsp = WSP\n',
    'a = (b\nb "x"\n= c\nc = "x""y"\nd = a ?\ne = 3*2"x" %x39-30\nf = e %x100000000\n',
    "a = <\u00e9\u20ac\U0001f600> nope ; \U0001f600 b\nb = <\U0001f600\U0001f600> a nope ; \u00e9\n",
    "a = a",
    "",
    "; a = b\n;\n\n",
    "\n\n   \n",
)


@functools.lru_cache(maxsize=64)
def reading_of(text, encoding):
    return Reading(text, encoding)


@functools.lru_cache(maxsize=64)
def findings_of(text, encoding):
    return reading_of(text, encoding).findings()


class Item(NamedTuple):
    """A token that counts, and where it starts and ends in the text."""

    kind: str
    text: str
    start: int
    end: int


class Rename(NamedTuple):
    """A rename that is asked for at some place of a name."""

    old: str
    new: str


class Block(NamedTuple):
    """Where a block begins, where the next one does, and its items."""

    start: int
    end: int
    items: Any

    def tail(self):
        """Where its last item ends."""
        return self.items[-1].end if self.items else self.end

    def body(self):
        return self.items[2:] if [it.kind for it in self.items[:2]] == ["name", "defines"] else []


class Document:
    """A text as an editor has it. Edits are made at offsets; what is drawn for them is drawn from its dice."""

    def __init__(self, dice, uri, text, encoding):
        self.dice, self.uri, self.text, self.encoding = dice, uri, text, encoding

    def reading(self):
        return reading_of(self.text, self.encoding)

    def point(self, offset):
        lines = LINE_END.split(self.text[:offset])
        return {"line": len(lines) - 1, "character": UNITS[self.encoding](lines[-1])}

    def put(self, start, end, new):
        """The change that puts a text in place of what is there. No position is inside a CR LF: there both characters are replaced."""
        if self.text[max(0, start - 1) : start + 1] == "\r\n":
            start, new = start - 1, "\r" + new
        if self.text[max(0, end - 1) : end + 1] == "\r\n":
            end, new = end + 1, new + "\n"
        change = {"range": {"start": self.point(start), "end": self.point(end)}, "text": new}
        self.text = self.text[:start] + new + self.text[end:]
        return change

    def whole(self, text):
        self.text = text
        return {"text": text}

    def back_to(self, text):
        """The change that makes it this text, by what differs."""
        start = len(os.path.commonprefix([self.text, text]))
        rest = len(os.path.commonprefix([self.text[start:][::-1], text[start:][::-1]]))
        return self.put(start, len(self.text) - rest, text[start : len(text) - rest])

    def lines(self):
        """Where each line starts, and where the text ends."""
        return [0, *(it.end() for it in LINE_END.finditer(self.text)), len(self.text)]

    def blocks(self):
        reading, lines = self.reading(), self.lines()
        for at, items in zip(reading.blocks(), reading.items):
            told = [Item(kind, text, lines[line] + start, lines[line] + start + len(text)) for kind, text, line, start, _ in items]
            yield Block(lines[at.start], lines[at.stop], told)

    def block(self, most=1 << 30):
        """Some block, of at most so many characters where there is one; an empty one at the end where there is none."""
        blocks = [*self.blocks()]
        small = [it for it in blocks if it.end - it.start <= most]
        return self.dice.choice(small or blocks or [Block(len(self.text), len(self.text), [])])

    def item(self, *kinds):
        """Some item of these kinds, or of any, in a body; where there is none, an empty one behind some block's last."""
        items = [it for block in self.blocks() for it in block.body() if not kinds or it.kind in kinds]
        return self.dice.choice(items) if items else self.behind()

    def behind(self):
        at = self.block().tail()
        return Item("", "", at, at)

    def head(self):
        """The first item of some block."""
        return next(iter(self.block().items), self.behind())

    def offsets(self, name):
        """The places of a name, from the last to the first."""
        lines = self.lines()
        return [(lines[it.line] + it.start, lines[it.line] + it.end) for it in reversed(self.reading().named(name))]

    def name(self):
        """A name of the text, or another one."""
        names = [it.text for it in self.reading().places]
        return self.dice.choice([*names, *names, "nope", "a", "b", "DIGIT"])


def typed(doc, at, text):
    """The changes that type a text, key by key."""
    for key in KEY.findall(text):
        yield [doc.put(at, at, key)]
        at += len(key)


def erased(doc, start, end):
    """The changes that take a text out, key by key, from its end."""
    for key in reversed(KEY.findall(doc.text[start:end])):
        yield [doc.put(end - len(key), end, "")]
        end -= len(key)


def tried(doc, at, text):
    """A text is typed, and taken out again."""
    yield from typed(doc, at, text)
    if doc.dice.random() < 0.5:
        yield from erased(doc, at, at + len(text))
    else:
        yield [doc.put(at, at + len(text), "")]


def exchanged(doc, item, new):
    """Another text stands in place of an item, and the item again."""
    yield [doc.put(item.start, item.end, new)]
    yield [doc.put(item.start, item.start + len(new), item.text)]


def rule_typed_again(doc):
    block = doc.block(60)
    text = doc.text[block.start : block.end]
    yield [doc.put(block.start, block.end, "")]
    yield from typed(doc, block.start, text)


def name_in_a_body(doc):
    item = doc.item("name")
    cut = max(item.start, item.end - 2)
    text = doc.text[cut : item.end]
    yield from erased(doc, cut, item.end)
    yield from typed(doc, cut, text)
    yield from exchanged(doc, item, doc.name())
    yield from exchanged(doc, item, item.text.swapcase())


def string(doc):
    item = doc.item("quoted")
    yield from tried(doc, max(0, item.end - 1), "zz")
    yield from exchanged(doc, item, item.text[:-1])
    yield from exchanged(doc, item, "%s" + item.text)


def number(doc):
    item = doc.item("number")
    cut = max(item.start, item.end - 3)
    text = doc.text[cut : item.end]
    yield from erased(doc, cut, item.end)
    yield from typed(doc, cut, text)
    yield from tried(doc, item.end, "0" * 8)


def comment_behind(doc):
    at = doc.item().end
    end = LINE_END.search(doc.text, at)
    yield from tried(doc, end.start() if end else len(doc.text), " ; b \u20ac\U0001f600 = a")


def comment_line(doc):
    at, text = doc.block().start, "; \u00e9\U0001f600 = a"
    yield from typed(doc, at, text)
    yield [doc.put(at + len(text), at + len(text), "\n")]
    yield [doc.put(at, at + len(text) + 1, "")]


def grown(doc):
    """An alternative, an element, an option and a group."""
    for text in (f" / {doc.name()}", ' "y"', f" [{doc.name()}]", f' ({doc.name()} / "z")'):
        yield from typed(doc, doc.block().tail(), text)


def head_renamed(doc):
    """First the head alone, then all uses at once."""
    head, new = doc.head(), "new-name"
    cut = max(head.start, head.end - 2)
    yield from erased(doc, cut, head.end)
    yield [doc.put(head.start, cut, new)]
    yield [doc.put(*it, new) for it in doc.offsets(head.text)]
    yield [doc.put(*it, head.text) for it in doc.offsets(new)]


def new_rule(doc):
    at, name = doc.block().start, doc.dice.choice(("new", "a", doc.name()))
    yield [doc.put(at, at, "\n")]
    yield from typed(doc, at, f'{name} = {doc.name()} "x"')


def adds_or_defines(doc):
    """`=` becomes `=/`, and the other way round, and back: one by itself, and one after the other, from the last to the first."""
    before, signs = doc.text, [block.items[1] for block in doc.blocks() if block.body()]
    some = doc.dice.sample(signs, min(4, len(signs)))
    for sign in some:
        yield from exchanged(doc, sign, OTHER_SIGN[sign.text])
    for sign in sorted(some, key=lambda it: -it.start):
        yield [doc.put(sign.start, sign.end, OTHER_SIGN[sign.text])]
    yield [doc.back_to(before)]


def enter_in_a_rule(doc):
    for text in ("\n    ", "\r\n  ", "\n; a\n "):
        yield from tried(doc, doc.item().start, text)


def enter_before_a_rule(doc):
    for text in ("\n\n", "  ", "\r\n"):
        yield from tried(doc, doc.block().start, text)


def base_indent(doc):
    """The first line is indented, all are, and the first alone goes back: then the others aren't the starts of blocks."""
    before, first = doc.text, next((it.start for it in doc.blocks()), 0)
    yield from tried(doc, first, "   ")
    yield [doc.put(at, at, "  ") for at in reversed(doc.lines()[:-1])]
    first = next((it.start for it in doc.blocks()), 0)
    yield [doc.put(first, min(first + 2, len(doc.text)), "")]
    yield [doc.put(first, first, " ")]
    yield [doc.put(first, first, " ")]
    yield [doc.back_to(before)]


def rules_pasted(doc):
    ends = sorted((doc.block(), doc.block()))
    text, at = doc.text[ends[0].start : ends[1].end], doc.block().start
    yield [doc.put(at, at, text)]
    yield [doc.put(at, at + len(text), "")]


def rules_deleted(doc):
    before = doc.text
    for _ in range(3):
        block = doc.block()
        yield [doc.put(block.start, block.end, "")]
    yield [doc.back_to(before)]
    blocks = [*doc.blocks()]
    for block in doc.dice.sample(blocks, min(4, len(blocks))):
        yield [doc.put(block.start, block.end, "")]
        yield [doc.back_to(before)]


def rule_moved(doc):
    """In one change, and back in two."""
    before, block = doc.text, doc.block()
    text = doc.text[block.start : block.end]
    cut = doc.put(block.start, block.end, "")
    at = doc.block().start
    yield [cut, doc.put(at, at, text)]
    yield [doc.put(at, at + len(text), "")]
    yield [doc.back_to(before)]


def word_moved(doc):
    before, item = doc.text, doc.item()
    yield [doc.put(item.start, item.end, "")]
    at = doc.dice.choice((doc.item().start, doc.block().start, doc.block().tail()))
    yield [doc.put(at, at, item.text)]
    yield [doc.back_to(before)]


def prose(doc):
    yield from exchanged(doc, doc.item("name", "quoted"), "<any \u00e9\U0001f600>")
    yield from tried(doc, doc.block().tail(), " / <p>")


def reached_prose(doc):
    """Two rules that need one another reach prose, a fault, or neither, and others need them."""
    before, at, text = doc.text, doc.block().start, f"never = ever\never = never {doc.name()}\n"
    yield [doc.put(at, at, text)]
    end = at + len(text) - 1
    yield from tried(doc, end, " / <p>")
    yield from typed(doc, doc.block().tail(), " never")
    for name in ("ever", "nope", "never"):
        ends = [end for _, end in doc.offsets(name)]
        yield from tried(doc, ends[0] if ends else 0, " / <p>")
    yield [doc.back_to(before)]


def empty_repeat(doc):
    yield from tried(doc, doc.item("name", "quoted").start, "2*1")
    block = doc.block()
    for item in block.body()[:1]:
        yield from exchanged(doc, Item("", doc.text[item.start : block.tail()], item.start, block.tail()), '3*2"x"')


def empty_range(doc):
    yield from exchanged(doc, doc.item("number", "quoted"), "%x39-30")
    at = doc.block().tail()
    yield from typed(doc, at, " %x39-30")
    yield [doc.put(at + 4, at + 5, "2")]
    yield [doc.put(at, at + 8, "")]


def bracket(doc):
    """One is opened and closed, a wrong one closes it, and one that there is goes and comes."""
    item = doc.item("name", "quoted", "number")
    yield [doc.put(item.start, item.start, "(")]
    yield [doc.put(item.end + 1, item.end + 1, "]")]
    yield [doc.put(item.end + 1, item.end + 2, ")")]
    yield [doc.put(item.start, item.end + 2, item.text)]
    brackets = [it for block in doc.blocks() for it in block.body() if it.text in ("(", ")", "[", "]")]
    if brackets:
        yield from exchanged(doc, doc.dice.choice(brackets), "")


def deep_brackets(doc):
    at, text = doc.block().tail(), f" {'[' * 65}{doc.name()}{']' * 65}"
    yield [doc.put(at, at, text)]
    yield [doc.put(at + 1, at + 2, ""), doc.put(at + len(text) - 2, at + len(text) - 1, "")]
    yield [doc.put(at, at + len(text) - 2, "")]


def duplicate(doc):
    """Before the first block, and behind the last, in another case, and as one that adds."""
    name = doc.head().text.swapcase()
    for at in (next((it.start for it in doc.blocks()), 0), len(doc.text)):
        text = f'{name} = "x"\n' if at < len(doc.text) else f'\n{name} = "x"'
        yield from typed(doc, at, text)
        sign = at + text.index("=") + 1
        yield from tried(doc, sign, "/")
        yield [doc.put(at, at + len(text), "")]


def added_to(doc):
    """What `=/` adds to has another name, adds itself, or goes; and it comes back."""
    before, block = doc.text, doc.block()
    name = block.items[0].text if block.items else "a"
    yield [doc.put(len(before), len(before), f'\n{name} =/ "x"\n{name.upper()} = "y"')]
    after = doc.text
    for item, new in zip(block.items[:2], (f"{name}-1", "=/")):
        yield from exchanged(doc, item, new)
    yield [doc.put(block.start, block.end, "")]
    for text in (after, before):
        yield [doc.back_to(text)]


def generates_nothing(doc):
    """A rule needs itself, and so do all that need it; then it has another choice."""
    before, block = doc.text, doc.block()
    for item in block.body()[:1]:
        name = block.items[0].text
        yield [doc.put(item.start, block.tail(), name)]
        yield from tried(doc, item.start + len(name), ' / "x"')
        yield [doc.back_to(before)]


def last_choices(doc):
    """Rules one behind the other come to generate nothing, from the last to the first, and are mended in the other order."""
    before, undo = doc.text, []
    for block in reversed([*doc.blocks()][-4:]):
        for item in block.body()[:1]:
            undo.append(doc.text)
            yield [doc.put(item.start, block.tail(), block.items[0].text + ' "x"')]
    for text in [*undo[::-1], before]:
        yield [doc.back_to(text)]


def core_names(doc):
    before, name = doc.text, doc.dice.choice(("DIGIT", "ALPHA", "CRLF", "WSP", "hexdig"))
    yield from typed(doc, doc.block().tail(), f" / {name}")
    yield [doc.put(0, 0, f"{name} = {name}\n")]
    yield [doc.put(len(name) + 1, len(name) + 2, "=/")]
    yield [doc.put(0, len(name), doc.dice.choice(CORE_RULES))]
    yield [doc.back_to(before)]
    yield from tried(doc, 0, f"{name.lower()} = <p>\n")


def line_ends(doc):
    """One is another, and all are others, and back."""
    before, ends = doc.text, [*LINE_END.finditer(doc.text)]
    for end in doc.dice.sample(ends, min(2, len(ends))):
        for new in ("\n", "\r\n", "\r"):
            yield [doc.put(end.start(), end.end(), new), doc.put(0, 0, "")]
            yield [doc.back_to(before)]
    for new in ("\r\n", "\r", "\n"):
        yield [doc.put(it.start(), it.end(), new) for it in reversed([*LINE_END.finditer(doc.text)])]
    yield [doc.back_to(before)]


def wide_characters(doc):
    """In prose and in a comment, before what is found in the same line."""
    item = doc.item("name")
    yield from exchanged(doc, item, "<> nope")
    yield [doc.put(item.start, item.end, "<> nope ; ")]
    yield from typed(doc, item.start + 1, "\u00e9\U0001f600\u20ac")
    yield from tried(doc, item.start + 13, "\U0001f600a")
    yield [doc.put(item.start, item.start + 13, item.text)]


def whole_text(doc):
    before = doc.text
    for text in ("", before, random_text(doc.dice), before, before):
        yield [doc.whole(text)]
    at = doc.block().start
    yield [doc.put(0, 0, "a = b\n"), doc.whole(before), doc.put(at, at, 'b = "x"\n')]
    yield [doc.back_to(before)]


def random_edit(doc):
    ends = sorted(doc.dice.randrange(len(doc.text) + 1) for _ in range(2))
    end = doc.dice.choice((ends[0], ends[0], min(ends[0] + 3, len(doc.text)), ends[1]))
    return doc.put(ends[0], end, doc.dice.choice(FRAGMENTS))


def several_at_once(doc):
    before = doc.text
    for count in (2, 5):
        yield [random_edit(doc) for _ in range(count)]
        yield [doc.back_to(before)]


def two_at_once(doc):
    """Two edits in one notice: the one behind first, which moves nothing; the one before first, which moves the other to another line; both
    in one line; and one in what the other put in."""
    before, (one, other) = doc.text, sorted((doc.item(), doc.item()), key=lambda it: it.start)
    line, option = "; two\n    ", " [b]"
    yield [doc.put(other.end, other.end, option), doc.put(one.start, one.start, line)]
    yield [doc.back_to(before)]
    yield [doc.put(one.start, one.start, line), doc.put(other.end + len(line), other.end + len(line), option)]
    yield [doc.back_to(before)]
    yield [doc.put(one.start, one.start, "b "), doc.put(one.end + len("b "), one.end + len("b "), option)]
    yield [doc.back_to(before)]
    yield [doc.put(one.end, one.end, option), doc.put(one.end + len(" ["), one.end + len(" [b"), "2" + doc.name())]
    yield [doc.back_to(before)]


def renamed_in_order(doc, old, new):
    """The changes that rename from the first place to the last, so that each moves those behind it."""
    moved = 0
    for start, end in reversed(doc.offsets(old)):
        yield doc.put(start + moved, end + moved, new)
        moved += len(new) - (end - start)


def renamed_in_twenty_places(doc):
    """A name comes to stand in so many places, a rename of it is asked for and its edits are made at once; one is asked for that must be
    refused; and each place gets its name again."""
    before, name = doc.text, doc.name()
    uses = f'\n{name} =/ "x"\ntwenty-places = {name}' + f"\n  / {name} {name}" * 9
    yield [doc.put(len(before), len(before), uses)]
    yield Rename(name, "renamed")
    yield Rename("renamed", "DIGIT")
    yield [*renamed_in_order(doc, "renamed", name)]
    yield [doc.back_to(before)]


def text_pasted(doc):
    """The whole text is pasted behind itself, another one before a block, and another one in place of it all; each paste is undone, and the
    first ones are done again and undone."""
    before = doc.text
    for at, text in ((len(before), "\n" + before), (doc.block().start, doc.dice.choice(SMALL_GRAMMARS))):
        yield [doc.put(at, at, text)]
        after = doc.text
        for it in (before, after, before):
            yield [doc.back_to(it)]
    yield [doc.put(0, len(before), doc.dice.choice(SMALL_GRAMMARS))]
    yield [doc.put(0, len(doc.text), before)]


def at_random(doc):
    before = doc.text
    for _ in range(6):
        yield [random_edit(doc)]
    yield [doc.back_to(before)]


def undone(doc):
    """A part is deleted, that is undone, done again, and undone."""
    before = doc.text
    start, end = sorted(doc.dice.randrange(len(doc.text) + 1) for _ in range(2))
    yield [doc.put(start, end, "")]
    after = doc.text
    for text in (before, after, before):
        yield [doc.back_to(text)]


def lines_moved(doc):
    """Lines come above all others, and go."""
    for text in ("\n\n", "; a\r\n"):
        yield from tried(doc, 0, text)
    yield from tried(doc, len(doc.text), "\n\n")


def nothing_changed(doc):
    yield []
    item = doc.item()
    yield [doc.put(item.start, item.end, item.text)]
    yield [doc.put(0, 0, "")]


KINDS = (
    *(rule_typed_again, name_in_a_body, string, number, comment_behind, comment_line, grown, head_renamed, new_rule, adds_or_defines),
    *(enter_in_a_rule, enter_before_a_rule, base_indent, rules_pasted, rules_deleted, rule_moved, word_moved, prose, reached_prose),
    *(empty_repeat, empty_range, bracket, deep_brackets, duplicate, added_to, generates_nothing, last_choices, core_names, line_ends),
    *(wide_characters, whole_text, several_at_once, at_random, undone, lines_moved, nothing_changed),
    *(two_at_once, renamed_in_twenty_places, text_pasted),
)

"""The functions and types of Rattle's sources, read from the tokens that the toolchain's own reader makes of them (`rattle fmt --tokens`).

The text of a contract is none of the code's tokens, so its braces are no brackets here; nor are comments, strings and characters.
"""
import json
import subprocess
import tempfile
from typing import NamedTuple

from edits.kit import RTLIB
from workspace import write

# The kinds of tokens that are code. (A doc comment that a macro may read is a literal.)
KINDS = ("Code", "Literal")
CLOSES = {"(": ")", "[": "]", "{": "}"}
BLOCKS, TYPES, QUALIFIERS = ("impl", "trait", "mod"), ("struct", "enum"), ("const", "unsafe", "extern")
# What may stand in a body and reaches beyond it.
REACHING_OUT = {"impl", "trait", "macro_rules"}


class Token(NamedTuple):
    """A token of code, and where it begins and ends in its text, in characters."""

    start: int
    end: int
    kind: str
    word: str


class Function(NamedTuple):
    """A function with a body: what it stands in, from the outside, and its places in its text, in characters.

    It begins with the lines of attributes and comments above it. Its body lies between its braces.
    """

    blocks: tuple
    attributes: tuple
    name: str
    has_parameters: bool
    reaches_out: bool
    start: int
    name_start: int
    body_start: int
    body_end: int

    @property
    def name_end(self):
        return self.name_start + len(self.name)

    @property
    def end(self):
        """Where it ends, behind the brace."""
        return self.body_end + 1


class Items(NamedTuple):
    """The functions with bodies of a text, in their order, and the names of the types that stand in no block."""

    functions: tuple
    types: tuple


def tokens_in(text, lines):
    """The tokens of a text by the toolchain's lines on it, whose places are in bytes."""
    data, is_narrow = text.encode(), text.isascii()
    behind = chars = 0
    for _, start, end, kind, word in (it.split(" ", 4) for it in lines):
        if kind in KINDS:
            places = int(start), int(end)
            if not is_narrow:
                chars += len(data[behind : places[0]].decode())
                behind, places = places[0], (chars, chars + len(data[places[0] : places[1]].decode()))
            yield Token(*places, kind, json.loads(word) if "\\" in word else word[1:-1])


def tokens_of(texts):
    """The tokens of each text, or None of one that the toolchain can't split into some."""
    with tempfile.TemporaryDirectory() as folder:
        for number, text in enumerate(texts):
            write(f"{folder}/{number}.rt", text)
        words = [RTLIB.RATTLE, "fmt", "--tokens", *(f"{folder}/{it}.rt" for it in range(len(texts)))]
        ran = subprocess.run(words, stdin=subprocess.DEVNULL, capture_output=True, encoding="utf-8", check=False)
    if ran.returncode:
        return [None] if len(texts) == 1 else [found for it in texts for found in tokens_of([it])]
    # (a token has no line break, and behind `file N` come the lines of that text)
    lines = [it.splitlines()[1:] for it in f"\n{ran.stdout}".split("\nfile ")[1:]]
    return [[*tokens_in(*it)] for it in zip(texts, lines)]


class Reader:
    """Reads the items of a text from its tokens. A text that ends within brackets raises an IndexError."""

    def __init__(self, text, tokens):
        self.text, self.tokens, self.functions, self.types = text, tokens, [], []
        self.words = [it.word if it.kind == "Code" else "" for it in tokens]

    def behind(self, at):
        """The place behind the bracket that closes the one at this place."""
        open_ones = [CLOSES[self.words[at]]]
        while open_ones:
            at += 1
            if self.words[at] == open_ones[-1]:
                open_ones.pop()
            elif self.words[at] in CLOSES:
                open_ones.append(CLOSES[self.words[at]])
        return at + 1

    def attributes(self, at, end):
        """The attributes and doc comments at this place, and the place behind them."""
        found = []
        while at < end and (self.words[at] == "#" or self.tokens[at].kind == "Literal"):
            behind = at + 1
            if self.words[at] == "#":
                opens = at + 1 + (self.words[at + 1] == "!")
                behind = self.behind(opens)
                found.append("".join(self.words[opens + 1 : behind - 1]))
            at = behind
        return tuple(found), at

    def items(self, at, end, blocks=()):
        """Reads the items from this place on."""
        while at < end:
            first = at
            attributes, at = self.attributes(at, end)
            opens = at
            while opens < end and self.words[opens] not in ("{", ";"):
                opens = self.behind(opens) if self.words[opens] in CLOSES else opens + 1
            if opens == end:
                return
            behind = self.behind(opens) if self.words[opens] == "{" else opens + 1
            self.item(first, attributes, self.unqualified(at, opens), opens, behind, blocks)
            at = behind

    def unqualified(self, at, opens):
        """The place behind what may stand before the word of an item's kind."""
        if self.words[at] == "pub":
            at = self.behind(at + 1) if self.words[at + 1] == "(" else at + 1
        while at < opens and (self.words[at] in QUALIFIERS or self.tokens[at].kind == "Literal"):
            at += 1
        return at

    def item(self, first, attributes, at, opens, behind, blocks):
        """Takes in the item whose kind stands at one place, and whose head ends at the next."""
        kind, has_braces = self.words[at], self.words[opens] == "{"
        if kind == "fn" and has_braces:
            self.functions.append(self.function(first, attributes, at + 1, opens, behind, blocks))
        elif kind in BLOCKS and has_braces:
            self.items(opens + 1, behind - 1, (*blocks, (kind, *self.words[at + 1 : opens])))
        elif kind in TYPES and not blocks:
            self.types.append(self.words[at + 1])

    def function(self, first, attributes, at, opens, behind, blocks):
        name, body = self.tokens[at], self.words[opens + 1 : behind - 1]
        # (type parameters have no brackets of these)
        opens_list = self.words.index("(", at)
        return Function(
            blocks=blocks,
            attributes=attributes,
            name=name.word,
            has_parameters=self.behind(opens_list) > opens_list + 2,
            reaches_out=not REACHING_OUT.isdisjoint(body),
            start=self.above(self.tokens[first].start),
            name_start=name.start,
            body_start=self.tokens[opens].end,
            body_end=self.tokens[behind - 1].start,
        )

    def above(self, start):
        """Where the line of this place begins, or the first of the comments right above it."""
        start = self.text.rfind("\n", 0, start) + 1
        while start:
            before = self.text.rfind("\n", 0, start - 1) + 1
            if not self.text[before:start].lstrip().startswith("//"):
                break
            start = before
        return start


def read(texts):
    """The items of each text, or None of one that is no source of Rattle's."""
    made = []
    for text, tokens in zip(texts, tokens_of(texts) if texts else ()):
        try:
            reader = Reader(text, tokens)
            reader.items(0, len(tokens))
            made.append(Items(tuple(reader.functions), tuple(reader.types)))
        except (IndexError, KeyError, TypeError):
            made.append(None)
    return made


def without_generics(words):
    """The words of a head that stand in no angle brackets."""
    depth = 0
    for it in words:
        depth -= it == ">" and depth > 0
        if not depth and it != ">":
            if it != "<":
                yield it
        depth += it == "<"


def name_of_block(kind, *head):
    """The words of a block in the names that rattle gives to what stands in it: of an impl its type and then its trait, of a module its name.

    None for a trait, and for an impl of one at some type, unless that is one word and the impl's own type has no parameters: as that of
    From<X> for Y, whose name is YFromX.
    """
    if kind == "trait":
        return None
    head = head[: head.index("where")] if "where" in head else head
    plain = [*without_generics(head)]
    if kind == "mod" or "for" not in plain:
        return [plain[-1]]
    split = len(head) - 1 - head[::-1].index("for")
    trait, own = plain[plain.index("for") - 1], plain[-1]
    if head[split - 1] != ">":
        # (what lets a value go has the name of a method of its type)
        return [own] if trait == "Drop" else [own, trait]
    at = split - 1 - head[:split][::-1].index("<")
    is_plain = head[-1] == own and split - at == 3 and head[at - 1] == trait
    return [own, trait, head[at + 1]] if is_plain else None

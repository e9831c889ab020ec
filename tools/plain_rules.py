"""A plain reading of the rules of a text, and the shortest string of each (RFC 5234; RFC 7405).

It shares nothing with the program. A rule's pair is its least length and, for that, the least number of references that stand one inside
another; it is found by rounds over all rules until none changes.
"""
import re

# RFC 5234, appendix B.1
CORE = """
ALPHA = %x41-5A / %x61-7A
BIT = "0" / "1"
CHAR = %x01-7F
CR = %x0D
CRLF = CR LF
CTL = %x00-1F / %x7F
DIGIT = %x30-39
DQUOTE = %x22
HEXDIG = DIGIT / "A" / "B" / "C" / "D" / "E" / "F"
HTAB = %x09
LF = %x0A
LWSP = *(WSP / CRLF WSP)
OCTET = %x00-FF
SP = %x20
VCHAR = %x21-7E
WSP = SP / HTAB
"""
MOST_NUMBER = 4_294_967_295
MOST_NESTED = 64
MOST_SHOWN = 4096
TOP = 18_446_744_073_709_551_615
BASE = {"b": 2, "d": 10, "x": 16}
NEVER, OPAQUE = ("never",), ("opaque",)


class Fault(Exception):
    """The items are no rule."""


class Rule:
    """The alternatives of a rule, read from the items behind its `=` or `=/`: each item has a kind, a text, and whether it stands apart."""

    def __init__(self, items):
        self.items, self.at = items, 0
        self.parts = self.alternation(0)
        if self.at < len(items):
            raise Fault

    def next(self):
        return self.items[self.at] if self.at < len(self.items) else ("end", "", True)

    def takes(self, text):
        found = self.next()[:2] == ("operator", text)
        self.at += found
        return found

    def alternation(self, depth):
        parts = [self.concatenation(depth)]
        while self.takes("/"):
            parts.append(self.concatenation(depth))
        return parts

    def concatenation(self, depth):
        parts = [self.repetition(depth)]
        while self.begins():
            if not self.next()[2]:
                raise Fault
            parts.append(self.repetition(depth))
        return parts[0] if len(parts) == 1 else ("seq", parts)

    def begins(self):
        kind, text, _ = self.next()
        return kind in ("name", "quoted", "number", "prose") or kind == "operator" and text not in ("/", ")", "]")

    def repetition(self, depth):
        kind, text, _ = self.next()
        if kind != "operator" or text in ("(", "["):
            return self.element(depth)
        if text in ("/", ")", "]"):
            raise Fault
        self.at += 1
        if self.next()[2]:
            raise Fault
        low, star, high = text.partition("*")
        least = number_of(low, 10) if low else 0
        most = least if not star else number_of(high, 10) if high else None
        return ("rep", least, most, self.element(depth))

    def element(self, depth):
        kind, text, _ = self.next()
        self.at += 1
        if kind == "name":
            return ("ref", text.lower())
        if kind == "quoted":
            return ("text", [*map(ord, text[text.index('"') + 1 : -1])])
        if kind == "number":
            return numbers(text)
        if kind == "prose":
            return OPAQUE
        if kind == "operator" and text in ("(", "[") and depth < MOST_NESTED:
            parts = self.alternation(depth + 1)
            if not self.takes({"(": ")", "[": "]"}[text]):
                raise Fault
            inner = parts[0] if len(parts) == 1 else ("alt", parts)
            return inner if text == "(" else ("rep", 0, 1, inner)
        raise Fault


def number_of(digits, base):
    number = int(digits, base)
    if number > MOST_NUMBER:
        raise Fault
    return number


def numbers(text):
    """The part that a number stands for."""
    base = BASE[text[1].lower()]
    if "-" in text:
        low, high = (number_of(it, base) for it in text[2:].split("-"))
        return ("text", [low]) if low <= high else NEVER
    return ("text", [number_of(it, base) for it in text[2:].split(".")])


def added(pairs):
    """The pair of parts in a row; None where one of them has none."""
    return None if None in pairs else (min(TOP, sum(it[0] for it in pairs)), max((it[1] for it in pairs), default=0))


class Rules:
    """The rules of a text by their names, beside the core rules, which stand under names of their own."""

    def __init__(self, blocks, tokens_of):
        self.trees = {("core", name): ("alt", parts) for name, parts in core(tokens_of).items()}
        self.own, defined = {}, set()
        for items in blocks:
            if len(items) > 1 and items[0][0] == "name" and items[1][0] == "defines":
                name, adds = items[0][1].lower(), items[1][1] == "=/"
                parts = self.own.setdefault(name, [])
                if adds or name not in defined:
                    parts += said(items[2:])
                if not adds:
                    defined.add(name)
        self.trees.update({("own", name): ("alt", parts) for name, parts in self.own.items()})
        self.pairs = dict.fromkeys(self.trees)
        while self.improves():
            pass

    def improves(self):
        found = {key: self.pair(key[0], tree) for key, tree in self.trees.items()}
        found, self.pairs = self.pairs, found
        return found != self.pairs

    def key(self, side, name):
        """Which rule a name stands for, in the text or in a core rule."""
        return next((key for key in (("own", name), ("core", name)) if key in self.trees and side in ("own", key[0])), None)

    def pair(self, side, part):
        """The least length of what a part generates, and its least nesting; None where it generates nothing."""
        kind = part[0]
        if kind == "text":
            return len(part[1]), 0
        if kind == "seq":
            return added([self.pair(side, it) for it in part[1]])
        if kind == "alt":
            return min((pair for it in part[1] if (pair := self.pair(side, it))), default=None)
        if kind == "rep":
            return self.repeated(side, *part[1:])
        if kind == "ref":
            pair = self.pairs.get(self.key(side, part[1]))
            return pair and (pair[0], pair[1] + 1)
        return None

    def repeated(self, side, least, most, part):
        if most is not None and most < least:
            return None
        pair = (0, 0) if least == 0 else self.pair(side, part)
        return pair and (min(TOP, least * pair[0]), pair[1])

    def string(self, side, part):
        """The string of a part: of a choice that of the first part whose pair is the choice's own."""
        kind = part[0]
        if kind == "text":
            return part[1]
        if kind == "seq":
            return [it for inner in part[1] for it in self.string(side, inner)]
        if kind == "alt":
            pair = self.pair(side, part)
            return self.string(side, next(it for it in part[1] if self.pair(side, it) == pair))
        if kind == "rep":
            return part[1] * self.string(side, part[3]) if part[1] else []
        key = self.key(side, part[1])
        return self.string(key[0], self.trees[key])

    def uses(self, side, part):
        """The rules for which the names in a part stand, and None where it has prose or a fault."""
        kind = part[0]
        if kind in ("seq", "alt"):
            return {key for it in part[1] for key in self.uses(side, it)}
        if kind == "rep":
            return self.uses(side, part[3])
        if kind == "ref":
            key = self.key(side, part[1])
            return {key} if key else set()
        return {None} if part == OPAQUE else set()

    def is_known(self, key):
        """Whether no chain of uses leads from a rule to prose or to a fault."""
        seen, left = {key}, [key]
        while left:
            key = left.pop()
            if key is None:
                return False
            new = self.uses(key[0], self.trees[key]) - seen
            seen |= new
            left += new
        return True

    def example(self, name):
        """The example of a name of the text, as it is shown; None where none is."""
        key = self.key("own", name.lower())
        if key is None or not self.is_known(key) or self.pairs[key] is None or self.pairs[key][0] > MOST_SHOWN:
            return None
        return "".join(map(rendered, self.string(key[0], self.trees[key])))

    def shown(self, name):
        """What is shown of a name of the text."""
        key = self.key("own", name.lower())
        if key is None:
            return "undefined"
        if not self.is_known(key):
            return "not known"
        pair = self.pairs[key]
        if pair is None:
            return "generates nothing"
        if pair[0] == TOP:
            return f"shortest length {TOP} or more"
        example = self.example(name)
        return f"shortest length {pair[0]}\nexample {'not shown' if example is None else example}"


def said(items):
    """The alternatives that items say; an opaque one where they are faulty."""
    try:
        return Rule(items).parts
    except Fault:
        return [OPAQUE]


def core(tokens_of):
    """The alternatives of each core rule."""
    rules = {}
    for line in CORE.split("\n")[1:-1]:
        items, apart = [], False
        for kind, text, _ in tokens_of(line):
            if kind != "blank":
                items.append((kind, text, apart))
            apart = kind == "blank"
        rules[items[0][1].lower()] = Rule(items[2:]).parts
    return rules


def rendered(character):
    if character == ord("\\"):
        return "\\\\"
    return chr(character) if 0x20 <= character <= 0x7E else f"\\x{{{character:X}}}"

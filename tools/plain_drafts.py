"""A plain reading of drafts: what of them is ABNF, where each character of that comes from, and what an answer about it is in the draft.

It shares nothing with the program. What a draft in Markdown or in RFCXML has of ABNF is gathered as docs/DECISIONS.md has it ("Drafts and
arguments"): a grammar is a list of characters, each with the offsets at which it begins and ends in the draft. Where XML is at fault, the
grammar is what stands before the fault. An answer about a grammar has positions in characters.

What of a draft can't be read as it stands is here too: blocks that are empty or have their text elsewhere, and rules that nothing marks as
ABNF. `abnf_findings` prints it, and the server doesn't publish it.
"""
import bisect
import re
from typing import Any, NamedTuple

import plain_findings
from random_texts import UNITS, Reading

LINE_END = re.compile("\r\n|\n|\r")
LINE = re.compile("[^\r\n]*(?:\r\n|\n|\r)|[^\r\n]+")
BLANKS = re.compile("[ \t]*")
MARGIN, QUOTED_MARGIN = BLANKS, re.compile("[ \t>]*")
FENCE = re.compile("([ \t>]*)(```+|~~~+)(.*)", re.DOTALL)
ABNF_INFO = re.compile("(?ai)[ \t]*abnf(?![^ \t])")
ABNF_LIST = re.compile(r'(?ai)[ \t]*\{:?(?:[^}]*[ \t])?(?:\.abnf|\.language-abnf|type="abnf")[ \t}]')
KRAMDOWN_COMMENT = re.compile(r"(?ai)[ \t]*\{::comment\}[ \t]*")
KRAMDOWN_END = re.compile(r"[ \t]*\{:/")
# An XML tag: in one whose name begins with a letter quotes guard a `>`
TAG = re.compile("<(?:[A-Za-z](?:[^>\"']|\"[^\"]*\"|'[^']*')*|(?![A-Za-z])[^>]*)>")
ABNF_TAG = re.compile(
    "<(sourcecode|artwork)(?=[ \t\r\n])(?:[^\"']|\"[^\"]*\"|'[^']*')*?[ \t\r\n]type[ \t\r\n]*=[ \t\r\n]*([\"'])[aA][bB][nN][fF]\\2"
)
# An element `sourcecode` or `artwork`, and one for which a file stands
STARTED = re.compile("<(sourcecode|artwork)(?=[ \t\r\n>])")
INCLUDE = re.compile("<xi:include[ \t\r\n]")
TYPE, SRC = (re.compile(f"<(?:[^\"']|\"[^\"]*\"|'[^']*')*?[ \t\r\n]{it}[ \t\r\n]*=") for it in ("type", "src"))
WHITE = " \t\r\n"
REFERENCE = re.compile("&(?:#x([0-9A-Fa-f]+)|#([0-9]+)|([a-z]+));")
NAMED = {"lt": "<", "gt": ">", "amp": "&", "quot": '"', "apos": "'", "nbsp": "\u00a0", "nbhy": "\u2011", "zwsp": "\u200b", "wj": "\u2060"}
# What is said of XML at fault, by what stands there
XML_FAULTS = {
    **{"<!--": "comment without an end", "<![CDATA[": "CDATA section without an end", "<": "tag without an end"},
    **{"&": "no reference to a character"},
}
NO_END_TAG = "block without an end tag"
# What is said of what can't be read, and its code
EMPTY, ELSEWHERE = ("empty block of grammar", "not-read"), ("grammar in another file", "not-read")
BARE = ('rules in a block without a word, "~~~ abnf" marks them', "unmarked")
UNTYPED = ('rules in an element without a type, type="abnf" marks them', "unmarked")
# The codes of findings that may go by what stands behind a fault
OPEN_CODES = {plain_findings.CODES[row][0] for row in (plain_findings.UNDEFINED, plain_findings.UNPRODUCTIVE)}
NOTHING_TO_RENAME, NOT_A_NAME, AT_FAULT, SPLIT = (
    {"error": {"code": -32803, "message": it}}
    for it in ("nothing to rename", "not a rule name", "the draft's XML is at fault", "name split by markup")
)
# What is answered outside of all blocks, but to renames
OUTSIDE = {"hover": None, "definition": [], "references": [], "codeAction": []}


class Aside(NamedTuple):
    """What may have to be said of a draft: the offset where it begins, what is said, and the block that must be rules for that, if one must."""

    at: int
    says: tuple
    block: Any = None

    def holds(self):
        """Whether it is said."""
        text = "".join(it for it, *_ in aligned(*self.block)) if self.block else ""
        return not self.block or plain_findings.are_rules(Reading(text, "utf-32").items)


class Fence:
    """The fence that opens a block: its margin and marks, whether it says that the block is ABNF, or says nothing; and what stands in the block,
    and where that ends."""

    def __init__(self, margin, marks, info):
        self.margin, self.marks = margin, marks
        self.is_abnf = bool(ABNF_INFO.match(info) or ABNF_LIST.match(info))
        self.is_bare = not info.strip(" \t")
        self.lines_margin = QUOTED_MARGIN if ">" in margin else MARGIN
        self.at, self.inside, self.end = 0, [], 0

    def is_closed_by(self, line):
        rest = line[self.lines_margin.match(line).end() :].rstrip(" \t")
        return len(rest) >= len(self.marks) and not rest.strip(self.marks[0])

    def content(self, line):
        """Where the content of a line begins."""
        return min(len(self.margin), self.lines_margin.match(line).end())


def fence_of(line):
    found = FENCE.fullmatch(line)
    return Fence(*found.groups()) if found and not (found[2][0] == "`" and "`" in found[3]) else None


def state_behind(line, state):
    """What is read behind a line outside of blocks: a fence, or one of the words 'comment', 'extension', 'attributes' and 'text'."""
    if state == "comment":
        return "text" if "-->" in line else state
    if state == "extension":
        return "text" if KRAMDOWN_END.match(line) else state
    fence = fence_of(line)
    if fence:
        fence.is_abnf |= state == "attributes"
        return fence
    if line.lstrip(" \t").startswith("<!--") and "-->" not in line:
        return "comment"
    if KRAMDOWN_COMMENT.fullmatch(line):
        return "extension"
    return "attributes" if state != "block" and ABNF_LIST.match(line) else "text"


def is_list(line):
    """Whether a line begins as an attribute list does."""
    return line.lstrip(" \t").startswith("{")


def fences(draft):
    """The fences of a draft in Markdown, each with what stands in its block. What a list says that stands in the line before or behind, counts."""
    lines, state, before, found = [(it.start(), it[0]) for it in LINE.finditer(draft)], "text", "", []
    for number, (start, whole) in enumerate(lines):
        line = whole.rstrip("\r\n")
        if isinstance(state, str):
            state = state_behind(line, state)
            if isinstance(state, Fence):
                state.at, state.end, state.is_bare = start + len(state.margin), len(draft), state.is_bare and not is_list(before)
                found.append(state)
            before = line
        elif state.is_closed_by(line):
            behind = [it.rstrip("\r\n") for _, it in lines[number + 1 : number + 2]]
            state.is_abnf, state.is_bare = state.is_abnf or any(map(ABNF_LIST.match, behind)), state.is_bare and not any(map(is_list, behind))
            state.end, state, before = start, "block", ""
        else:
            state.inside += [(whole[at], start + at, start + at + 1) for at in range(state.content(line), len(whole))]
    return found


def blocks_in_markdown(draft):
    """The blocks of ABNF, each as its characters with their offsets, and the offset of its end; and that nothing is at fault."""
    return [(it.inside, it.end) for it in fences(draft) if it.is_abnf], None


def asides_in_markdown(draft):
    """What may have to be said: of a block of ABNF that is empty, and of one without a word."""
    for it in fences(draft):
        if it.is_abnf and all(character in WHITE for character, *_ in it.inside):
            yield Aside(it.end, EMPTY)
        if it.is_bare and not it.is_abnf:
            yield Aside(it.at, BARE, (it.inside, it.end))


def referred(draft, at):
    """The character of the reference that stands here, and where that ends; None where none stands."""
    found = REFERENCE.match(draft, at)
    if found and found[3]:
        return (NAMED[found[3]], found.end()) if found[3] in NAMED else None
    number = int(found[1] or found[2], 16 if found[1] else 10) if found else -1
    return (chr(number), found.end()) if 0 <= number <= 0x10FFFF and not 0xD800 <= number <= 0xDFFF else None


def piece_at(draft, at, in_block):
    """Where the piece ends that stands here, and the characters that it stands for in a block; None where it is at fault."""
    for front, back in ("<!--", "-->"), ("<![CDATA[", "]]>"):
        if draft.startswith(front, at):
            start, end = at + len(front), draft.find(back, at + len(front))
            said = [(draft[it], it, it + 1) for it in range(start, end)] if front == "<![CDATA[" else []
            return (end + 3, said) if end >= 0 else None
    if draft[at] == "<":
        tag = TAG.match(draft, at)
        return (tag.end(), []) if tag else None
    if in_block and draft[at] == "&":
        found = referred(draft, at)
        return (found[1], [(found[0], at, found[1])]) if found else None
    end = re.compile("[^<&]+" if in_block else "[^<]+").match(draft, at).end()
    return end, [(draft[it], it, it + 1) for it in range(at, end)]


def blocks_in_xml(draft):
    """The same of a draft in RFCXML up to its first fault, and that fault as its offset and its words; None where there is none. A block that is
    open at the fault ends there; one that has no end tag is itself the fault."""
    at, name, began, content, found = 0, None, 0, [], []
    while at < len(draft):
        piece = piece_at(draft, at, name is not None)
        if piece is None:
            words = next(it for front, it in XML_FAULTS.items() if draft.startswith(front, at))
            return found + [(content, at)] * (name is not None), (at, words)
        end, said = piece
        if name and re.fullmatch(f"</{name}[ \t\r\n]*>", draft[at:end]):
            found.append((content, at))
            name = None
        elif name:
            content += said
        elif (tag := ABNF_TAG.match(draft, at, end)) and draft[end - 2] != "/":
            name, began, content = tag[1], at, []
        at = end
    return found, (began, NO_END_TAG) if name else None


class Element:
    """An element of RFCXML that is open: the offset where it begins, its name, whether it is a block of ABNF, whether nothing is known to stand in
    it, and the characters that do."""

    def __init__(self, at, tag, is_abnf):
        self.at, self.name, self.is_abnf = at, STARTED.match(tag)[1], is_abnf
        self.is_bare, self.content = not SRC.match(tag), []


def begun(at, tag):
    """The element that is open behind a tag outside of all elements, if one is, and what may have to be said of the tag."""
    is_abnf, is_empty, has_source = ABNF_TAG.match(tag), tag[-2:-1] == "/", SRC.match(tag)
    if is_abnf:
        says = ELSEWHERE if has_source else EMPTY
        return None if is_empty else Element(at, tag, True), [Aside(at, says)] * bool(has_source or is_empty)
    is_open = STARTED.match(tag) and not (TYPE.match(tag) or has_source or is_empty)
    return Element(at, tag, False) if is_open else None, []


def behind_piece(element, at, tag, said):
    """The element that is open behind a piece in this element, and what may have to be said."""
    if re.fullmatch(f"</{element.name}[ \t\r\n]*>", tag):
        if not element.is_abnf:
            return None, [Aside(element.at, UNTYPED, (element.content, at))]
        return None, [Aside(element.at, EMPTY)] * element.is_bare
    if not element.is_abnf and STARTED.match(tag):
        return begun(at, tag)
    element.content += said
    includes = bool(element.is_abnf and INCLUDE.match(tag))
    element.is_bare = element.is_bare and not includes and all(it in WHITE for it, *_ in said)
    return element, [Aside(at, ELSEWHERE)] * includes


def asides_in_xml(draft):
    """What may have to be said of a draft in RFCXML up to its first fault: of blocks of ABNF that are empty or have their text in another file, and
    of elements without a type. In one of these no other one begins, and each reference is one to a character."""
    at, element = 0, None
    while at < len(draft):
        if element and not element.is_abnf and draft[at] == "&" and not referred(draft, at):
            element = None
        piece = piece_at(draft, at, element is not None)
        if piece is None:
            return
        end, said = piece
        tag = draft[at:end] if draft[at] == "<" and not draft.startswith(("<!--", "<![CDATA["), at) else ""
        element, asides = behind_piece(element, at, tag, said) if element else begun(at, tag)
        yield from asides
        at = end


def unread(draft, form):
    """What can't be read of a draft: the offset where each begins, what is said of it, and its code."""
    asides = (asides_in_markdown if form == "markdown" else asides_in_xml)(draft)
    return [(it.at, *it.says) for it in asides if it.holds()]


def aligned(content, end):
    """A block without its first indent at the front of each line, and with a line end that stands at its end."""
    lines = re.split("[\r\n]", "".join(it for it, *_ in content))
    base = next((BLANKS.match(it).end() for it in lines if it.strip(" \t")[:1] not in ("", ";")), 0)
    kept, at = [], 0
    for line in lines:
        gone = min(base, BLANKS.match(line).end())
        kept += content[at + gone : at + len(line) + 1]
        at += len(line) + 1
    return [*kept, ("\n", end, end + 1)]


def gathered(draft, form):
    """The characters of each block of a draft's grammar, with their offsets, and the fault behind which nothing is gathered."""
    blocks, fault = (blocks_in_markdown if form == "markdown" else blocks_in_xml)(draft)
    return [aligned(*it) for it in blocks], fault


class Text:
    """A text whose positions count the units of an encoding."""

    def __init__(self, text, encoding):
        self.text, self.units = text, UNITS[encoding]
        self.starts = [0, *(it.end() for it in LINE_END.finditer(text))]

    def offset(self, at):
        if at["line"] >= len(self.starts):
            return len(self.text)
        start = count = self.starts[at["line"]]
        while self.text[count : count + 1] not in ("", "\r", "\n") and self.units(self.text[start : count + 1]) <= at["character"]:
            count += 1
        return count

    def position(self, offset):
        offset -= self.text[max(0, offset - 1) : offset + 1] == "\r\n"
        line = bisect.bisect_right(self.starts, offset) - 1
        return {"line": line, "character": self.units(self.text[self.starts[line] : offset])}

    def with_edits(self, edits):
        """The text after edits in ascending ranges."""
        text = self.text
        for edit in reversed(edits):
            start, end = (self.offset(edit["range"][it]) for it in ("start", "end"))
            text = text[:start] + edit["newText"] + text[end:]
        return text


class Draft(Text):
    """A draft, with its grammar, where that comes from, and what is carried between them."""

    def __init__(self, text, form, encoding):
        super().__init__(text, encoding)
        blocks, self.fault = gathered(text, form)
        found = [it for block in blocks for it in block]
        self.form, self.encoding = form, encoding
        self.origins, self.ends = [start for _, start, _ in found], [end for *_, end in found]
        self.grammar = Text("".join(it for it, *_ in found), "utf-32")
        self.block_ends = [self.grammar.position(sum(map(len, blocks[:at])))["line"] for at in range(1, len(blocks) + 1)]
        self.places = {at: place for place, at in reversed([*enumerate(self.origins)])}

    def inward(self, offset):
        """The position in the grammar of an offset: of what begins there, behind the margin, or of what ends there; None elsewhere."""
        for at, more in ((offset, 0), (BLANKS.match(self.text, offset).end(), 0), (offset - 1, 1)):
            if at in self.places:
                return self.grammar.position(self.places[at] + more)
        return None

    def inner(self, params):
        """What is asked about the grammar for what is asked about the draft; None outside of all blocks."""
        name = next((it for it in ("range", "position") if it in params), None)
        if name is None:
            return params
        given = params[name]
        at = self.inward(self.offset(given) if name == "position" else min(map(self.offset, given.values())))
        return at and {**params, name: at if name == "position" else {"start": at, "end": at}}

    def outward(self, place):
        return self.origins[place] if place < len(self.origins) else len(self.text)

    def behind(self, place):
        """Where a character ends: behind the whole of a reference."""
        return min(self.ends[place], len(self.text)) if place < len(self.ends) else len(self.text)

    def outward_range(self, at):
        start, end = (self.grammar.offset(at[it]) for it in ("start", "end"))
        return self.between(self.outward(start), self.behind(end - 1) if start < end else self.outward(start))

    def between(self, start, end):
        """The range between two offsets."""
        return {"start": self.position(start), "end": self.position(end)}

    def moved(self, told):
        """All that is told, with each range in the draft."""
        if isinstance(told, list):
            return [self.moved(it) for it in told]
        if not isinstance(told, dict):
            return told
        return {key: self.outward_range(it) if key in ("range", "selectionRange") else self.moved(it) for key, it in told.items()}

    def tokens(self, numbers):
        """The numbers of the tokens that stand in one line of the draft."""
        line = start = last_line = last_start = 0
        found = []
        for down, right, length, *kind in zip(*[iter(numbers)] * 5):
            line, start = line + down, right if down else start + right
            ends = {"start": {"line": line, "character": start}, "end": {"line": line, "character": start + length}}
            front, back = (self.outward_range(ends)[it] for it in ("start", "end"))
            if front["line"] == back["line"]:
                at = front["character"] - (last_start if front["line"] == last_line else 0)
                found += [front["line"] - last_line, at, back["character"] - front["character"], *kind]
                last_line, last_start = front["line"], front["character"]
        return found

    def findings(self, found):
        """What is found in the draft, by what is found in its grammar."""
        repeats = plain_findings.repeats(Reading(self.grammar.text, "utf-32").items)
        told = [self.told_again(it, repeats) for it in found if not (self.fault and it["code"] in OPEN_CODES)]
        by_line = [(it["range"]["start"]["line"], it["code"], it) for it in told if it]
        kept = plain_findings.without_floods(by_line, self.block_ends)
        return [*(self.moved({**it, "message": it["message"] + plain_findings.first_of(count)}) for it, count in kept), *self.told_of_xml()]

    def told_again(self, finding, repeats):
        """A finding of the grammar, as it is of a draft, which may define a name again; None of a definition that says the same."""
        if finding["code"] != plain_findings.CODES[plain_findings.DUPLICATE][0]:
            return finding
        name, first, is_same = repeats[finding["range"]["start"]["line"]]
        line = self.position(self.outward(self.grammar.starts[first[2]] + first[3]))["line"] + 1
        return None if is_same else {**finding, "code": "differs", "message": plain_findings.differing(name, line), "severity": 1}

    def told_of_xml(self):
        """The finding of XML at fault, one character long."""
        if self.fault:
            at, words = self.fault
            yield {"code": "xml", "message": words, "range": self.between(at, at + 1), "severity": 1, "source": "abnf"}

    def keeps(self, edits):
        """Whether edits of the grammar, made in the draft, give it the edited grammar."""
        edited = Draft(self.with_edits(self.moved(edits)), self.form, self.encoding)
        return not edited.fault and edited.grammar.text == self.grammar.with_edits(edits)

    def inserted(self, edit):
        """An edit that puts lines in front of one of the grammar, as it is in the draft: they have the end of the draft's line there, and bring
        the margin of that. None where this has markup, or where the draft wouldn't have the grammar with these lines."""
        place = self.grammar.offset(edit["range"]["start"])
        at = self.outward(place)
        line = LINE.match(self.text, self.starts[self.position(at)["line"]])
        new = edit["newText"].replace("\n", "\r\n") if line[0].endswith("\r\n") else edit["newText"]
        margin = self.text[line.start() : at]
        if margin.strip(" \t>"):
            return None
        with_margin = new + margin
        edited = Draft(self.text[:at] + with_margin + self.text[at:], self.form, self.encoding)
        wanted = self.grammar.text[:place] + new + self.grammar.text[place:]
        is_kept = edited.grammar.text == wanted and bool(edited.fault) == bool(self.fault)
        return {"newText": with_margin, "range": self.between(at, at)} if is_kept else None

    def actions(self, told):
        """The actions whose edits can be made in the draft."""
        for action in told:
            made = {uri: [*map(self.inserted, edits)] for uri, edits in action["edit"]["changes"].items()}
            if not any(None in edits for edits in made.values()):
                yield {**action, "edit": {"changes": made}}

    def answer(self, method, inside):
        """The answer about the draft, by that about its grammar."""
        if "error" in inside:
            return inside
        told = inside["result"]
        if method == "semanticTokens/full":
            return {"result": {"data": self.tokens(told["data"])}}
        if method == "codeAction":
            return {"result": [*self.actions(told)]}
        if method == "rename" and self.fault:
            return AT_FAULT
        if method == "rename" and not all(map(self.keeps, told["changes"].values())):
            return SPLIT
        return {"result": self.moved(told)}


def outside(method, params):
    """The answer outside of all blocks."""
    if method == "rename":
        return NOTHING_TO_RENAME if re.fullmatch("[A-Za-z][A-Za-z0-9-]*", params["newName"]) else NOT_A_NAME
    return {"result": OUTSIDE[method]}

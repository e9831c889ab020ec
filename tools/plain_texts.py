"""A plain reading of published RFCs in plain text: what of them is ABNF, where each character of that comes from, and what is found in it.

It shares nothing with the program. Lines with words stand in runs between blank lines and page breaks; a run that begins as a rule does is
grammar where each of its blocks is a rule, and else can't be read. Page breaks are those of RFC 2223 section 3: a footer, a form feed and a
header. A rule that goes over one goes on behind it where its lines are indented deeper (RFC 5234 section 2.2).
"""
import re

import plain_drafts
import plain_findings
from random_texts import Reading

LINE = re.compile("([^\r\n]*)(\r\n|\n|\r|\\Z)")
FOOTER = re.compile(r"\[Page [0-9]+\][ \t]*\Z")
FEED_ALONE = re.compile(r"\f[ \t]*\Z")
HEAD = re.compile(r"[ \t]*[A-Za-z][A-Za-z0-9-]*[ \t]*=")
BLANK, BREAK, WORDS = "blank", "break", "words"
NOTHING, PAGE = "nothing", "page"
NO_GRAMMAR = "no grammar in this text [no-grammar]"
NOT_READ = "warning: lines that are not all rules [not-read]"
SEVERITIES = {1: "error", 2: "warning"}
DUPLICATE = plain_findings.CODES[plain_findings.DUPLICATE][0]


def indent(line):
    return len(line) - len(line.lstrip(" \t"))


def is_content(line):
    return line.strip(" \t")[:1] not in ("", ";")


def lines_of(text):
    """Each line without its line end, and the offset at which it begins."""
    at, found, end = 0, [], "\n"
    while end:
        whole = LINE.match(text, at)
        line, end = whole.groups()
        found.append((at, line))
        at = whole.end()
    return found


class Run:
    """Lines that stand together, each with the offset at which it begins."""

    def __init__(self):
        self.lines = []

    def base(self):
        """The indent of the rule with which it begins; None where it begins with something else, or has no content."""
        first = next((line for _, line in self.lines if is_content(line)), "")
        return indent(first) if HEAD.match(first) else None

    def goes_on(self, between, line):
        """Whether a line goes on with it that stands behind nothing, blank lines or a page break."""
        if between == PAGE:
            return self.base() is not None and indent(line) > self.base() and not HEAD.match(line)
        return between == NOTHING

    def is_rules(self):
        """Whether it has blocks, and each of them is a rule."""
        items = Reading("".join(f"{line}\n" for _, line in self.lines), "utf-32").items
        return bool(items) and not any(map(plain_findings.fault_of, items))

    def grammar(self):
        """Its characters with their offsets, left aligned."""
        content = [it for at, line in self.lines for it in characters(at, line)]
        at, line = self.lines[-1]
        return plain_drafts.aligned(content, at + len(line))


def characters(start, line):
    """The characters of a line and LF, each with the offsets at which it begins and ends."""
    return [(it, at, at + 1) for at, it in enumerate(f"{line}\n", start)]


def kind_of(line, is_behind_feed):
    if line.startswith("\f") or FOOTER.search(line) or (is_behind_feed and line[:1] not in (" ", "\t")):
        return BREAK
    return WORDS if line.strip(" \t") else BLANK


def runs_of(text):
    """The runs of a text, in their order."""
    found, between, is_behind_feed = [], BLANK, False
    for at, line in lines_of(text):
        kind = kind_of(line, is_behind_feed)
        if kind == WORDS:
            if not found or not found[-1].goes_on(between, line):
                found.append(Run())
            found[-1].lines.append((at, line))
            between = NOTHING
        elif kind == BREAK or between != PAGE:
            between = PAGE if kind == BREAK else BLANK
        is_behind_feed = kind == BREAK and bool(FEED_ALONE.match(line))
    return found


def gathered(text):
    """The characters of each run of the grammar, with their offsets, and the offsets of the runs that can't be read."""
    runs = [it for it in runs_of(text) if it.base() is not None]
    return [it.grammar() for it in runs if it.is_rules()], [it.lines[0][0] for it in runs if not it.is_rules()]


class Published(plain_drafts.Text):
    """A published text, with its grammar and what can't be read of it."""

    def __init__(self, text):
        super().__init__(text, "utf-32")
        blocks, self.unread = gathered(text)
        self.has_grammar = bool(blocks)
        found = [it for block in blocks for it in block]
        self.origins = [start for _, start, _ in found]
        self.grammar = "".join(it for it, *_ in found)
        self.reading = Reading(self.grammar, "utf-32")
        self.inner = plain_drafts.Text(self.grammar, "utf-32")

    def place(self, offset):
        """The line and the column of an offset, counted from 1."""
        at = self.position(offset)
        return at["line"] + 1, at["character"] + 1

    def outward(self, position):
        """The place of a position in the grammar."""
        at = self.inner.offset(position)
        return self.place(self.origins[at] if at < len(self.origins) else len(self.text))

    def told(self, finding, repeats):
        """What is said of a finding of the grammar; None of a definition that says the same as the first."""
        code, message, severity = finding["code"], finding["message"], finding["severity"]
        if code == DUPLICATE:
            name, first, is_same = repeats[finding["range"]["start"]["line"]]
            code, message = "differs", plain_findings.differing(name, self.outward({"line": first[2], "character": first[3]})[0])
            if is_same:
                return None
        return f"{SEVERITIES[severity]}: {message} [{code}]"

    def lines(self):
        """The lines of what is found, without names that are near others, each behind its place."""
        repeats = plain_findings.repeats(self.reading.items)
        found = [(self.outward(it["range"]["start"]), self.told(it, repeats)) for it in self.reading.findings()]
        unread = [(self.place(at), NOT_READ) for at in self.unread]
        first = [] if self.has_grammar else [((1, 1), f"error: {NO_GRAMMAR}")]
        return [as_line(*it) for it in [*first, *sorted(((at, it) for at, it in found + unread if it), key=lambda it: it[0])]]

    def rules(self):
        """The lines of the rules: each at the first place that defines it."""
        found = {}
        for name, *place in ((*items[0][1:2], *items[0][2:4]) for items in self.reading.items if plain_findings.has_head(items)):
            found.setdefault(name.lower(), (name, dict(zip(("line", "character"), place))))
        return [as_line(self.outward(at), f"{name}: {shown(self.reading.rules, name)}") for name, at in found.values()]


def as_line(place, words):
    return f"{place[0]}:{place[1]}: {words}"


def shown(rules, name):
    """What is printed of a rule behind its name."""
    length, _, example = rules.shown(name).partition("\nexample ")
    if not example and "\n" not in rules.shown(name):
        return length
    return f"{length}, example not shown" if example == "not shown" else f"{length}: {example}"

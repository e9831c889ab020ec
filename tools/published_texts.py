"""Texts as RFCs are published, each with what must be found in it: without pages (RFC 7994), and with the pages of RFC 2223 section 3.

A text is laid out of pieces that stand between blank lines: words, in which nothing is found, rules with the findings in them, and lines that
begin as a rule does and aren't all rules. Words and such lines stand on one page; rules go over to the next one anywhere. So what is found, and
where each name is first defined, is known from the layout alone. Ten texts are after RFCs, in other words around their grammars, and the others
are random.
"""
import os
import re
import textwrap
from typing import NamedTuple

from plain_texts import NO_GRAMMAR, NOT_READ, as_line
from rows import TOP

FORMS = ("new", "old")
PAGE_LINES = 48
HEAD = re.compile(r"[ \t]*([A-Za-z][A-Za-z0-9-]*)[ \t]*=(/?)")
WORDS, RULES, UNREAD = "words", "rules", "unread"
DIFFERS = "differs"


class Piece(NamedTuple):
    """Lines that stand together, and what is found there: each with its line here, its column, and its words or, of a definition that differs,
    the name and that it does."""

    kind: str
    lines: tuple
    marks: tuple = ()

    def heads(self):
        """Each definition: its line here, its column, its name, and whether it adds to others."""
        if self.kind == RULES:
            base = min(len(line) - len(line.lstrip()) for line in self.lines)
            for at, found in enumerate(map(HEAD.match, self.lines)):
                if found and found.start(1) == base:
                    yield at, base + 1, found[1], bool(found[2])


class Laid:
    """Lines of a text as they are put, and where those of the pieces stand."""

    def __init__(self, header, footer):
        self.header, self.footer = header, footer
        self.lines, self.page, self.left = [], 1, PAGE_LINES
        self.found, self.firsts, self.originals = [], {}, {}

    def put(self, lines):
        self.lines += lines
        self.left -= len(lines)

    def turn_page(self):
        """The end of a page, and the front of the next one."""
        footer, header = f"{self.footer}{f'[Page {self.page}]':>{72 - len(self.footer)}}", self.header
        self.lines += ["", footer, *([f"\f{header}"] if self.page % 3 == 0 else ["\f" + " " * (self.page % 2), header]), "", ""]
        self.page, self.left = self.page + 1, PAGE_LINES

    def put_piece(self, piece, has_pages):
        """The lines of a piece behind a blank one."""
        if has_pages and piece.kind != RULES and len(piece.lines) + 1 > self.left:
            self.turn_page()
        self.put([""])
        at = []
        for line in piece.lines:
            if has_pages and self.left <= 0:
                self.turn_page()
            self.put([line])
            at.append(len(self.lines))
        for line, column, name, adds in piece.heads():
            self.firsts.setdefault(name.lower(), (at[line], column, name))
            if not adds:
                self.originals.setdefault(name.lower(), at[line])
        self.found += [(at[line], column, words) for line, column, words in piece.marks]

    def words_of(self, mark):
        if isinstance(mark, str):
            return mark
        name = mark[1]
        return f"error: rule {name} differs from its definition at line {self.originals[name.lower()]} [differs]"

    def lines_found(self):
        """The lines of what must be found, each behind its place."""
        found = [((1, 1), f"error: {NO_GRAMMAR}")] * (not self.firsts)
        found += [((line, column), self.words_of(mark)) for line, column, mark in sorted(self.found, key=lambda it: it[:2])]
        return [as_line(*it) for it in found]

    def names(self):
        """Each name that is defined, behind the place of its first definition."""
        return [as_line((line, column), name) for line, column, name in sorted(self.firsts.values())]


class Published(NamedTuple):
    """A text, what must be found in it, and the names that it defines."""

    text: str
    found: list
    names: list


def laid_out(form, title, pieces, end="\n", mark=""):
    """The text of these pieces behind a front, in one of the two forms, with these line ends, and at times a byte order mark."""
    number, name, author, date = title
    laid = Laid(f"RFC {number:<10}{name:^44}{date:>14}", f"{author:<24}Standards Track")
    laid.put(["", "", "Internet Engineering Task Force (IETF)" + f"{author:>34}", f"Request for Comments: {number}"])
    laid.put(["Category: Standards Track" + f"{date:>47}", "ISSN: 2070-1721", "", "", f"{name:^72}".rstrip()])
    for piece in pieces:
        laid.put_piece(piece, form == "old")
    if form == "old":
        laid.turn_page()
    return Published(mark + end.join([*laid.lines, ""]), laid.lines_found(), laid.names())


# ---- pieces


def paragraph(text, indent=3):
    """A paragraph of prose."""
    return Piece(WORDS, tuple(textwrap.wrap(text, 69 - indent, initial_indent=" " * indent, subsequent_indent=" " * indent)))


def title(text):
    return Piece(WORDS, (text,))


def figure(*lines, indent=6):
    return Piece(WORDS, tuple(" " * indent + line for line in lines))


def rules(*lines, indent=3, marks=()):
    """Rules, with marks whose columns count from where the rules are indented."""
    moved = tuple((line, column + indent, words) for line, column, words in marks)
    return Piece(RULES, tuple((" " * indent + line).rstrip() for line in lines), moved)


def unread(*lines, indent=3):
    return Piece(UNREAD, tuple(" " * indent + line for line in lines), ((0, 1, NOT_READ),))


def undefined(name):
    return f"error: undefined rule {name} [undefined]"


def unproductive(name):
    return f"warning: rule {name} generates nothing [unproductive]"


def no_base(name):
    return f"warning: no earlier definition of {name} [no-base]"


EMPTY_REPEAT = "warning: repeat with minimum above maximum [empty-repeat]"
EMPTY_RANGE = "warning: range with low above high [empty-range]"


def contents(titles):
    """A table of contents."""
    lines = [f"   {it} {(63 - len(it)) // 2 * ' .'} {number + 3}" for number, it in enumerate(titles)]
    return [title("Table of Contents"), Piece(WORDS, tuple(lines))]


def paragraphs_of(text):
    """The lines of a grammar between blank lines, but for those that are comments alone."""
    found = [it.split("\n") for it in re.split("\n\n+", text.strip("\n"))]
    return [it for it in found if any(not line.lstrip().startswith(";") for line in it)]


# ---- texts after RFCs

CHAR_VAL = """char-val = case-insensitive-string /
           case-sensitive-string

case-insensitive-string = [ "%i" ] quoted-string

case-sensitive-string = "%s" quoted-string

quoted-string = DQUOTE *(%x20-21 / %x23-7E) DQUOTE
       ; a quoted string of SP and VCHAR
       ; that has no DQUOTE
"""


class Worked(NamedTuple):
    """A text after an RFC: its title, the grammar that it has and how that is indented, whether an appendix has it once more, one of its rules with
    what is printed of it, its sentences, and pieces that stand among the rules, each behind words."""

    title: tuple
    grammar: str
    indent: int
    is_collected: bool
    rule: tuple
    prose: tuple
    pieces: tuple


def grammar_at(*path):
    with open(os.path.join(TOP, *path), encoding="utf-8") as file:
        return file.read()


WORKED = {
    "rfc3339": Worked(
        ("3339", "Timestamps of the Internet", "G. Klyne, et al.", "July 2002"),
        grammar_at("examples", "rfc3339.abnf"), 3, False, ("date-time", "20: 0000-00-00T00:00:00Z"),
        (
            "A timestamp tells a moment by a date, a time of day and how far the clocks there are from UTC. Years have four digits, so that none "
            "is taken for one of another century.",
            "Clocks of a zone are ahead of UTC or behind it by hours and minutes. An offset of -00:00 says that UTC is known and the zone isn't.",
            "A minute may have 61 seconds where a leap second is put in; at no other time does 60 stand there. Months are counted from 01.",
        ),
        (
            figure("1985-04-12T23:20:50.52Z", "", "1996-12-19T16:39:57-08:00"),
            unread("week = 7 days, which no timestamp tells"),
            figure("o  t = 0 is the epoch", "   x = y in a list", indent=3),
        ),
    ),
    "rfc3986": Worked(
        ("3986", "URI Generic Syntax", "T. Berners-Lee, et al.", "January 2005"),
        grammar_at("examples", "rfc3986.abnf"), 6, True, ("IPv4address", "7: 0.0.0.0"),
        (
            "A URI names a thing by a scheme and by what the scheme says of it. Its parts are told apart by a few characters, which stand for "
            "themselves elsewhere only if they are encoded.",
            "Each rule below is read from the left, and the first part that fits is taken. An authority is there where two slashes are.",
            "The examples show the parts of a URI. Where q = 1 stands in a query, that is of the query alone, and no rule.",
        ),
        (
            figure("foo://example.com:8042/over/there?name=ferret#nose", "\\_/   \\______________/\\_________/ \\_________/ \\__/"),
            unread("T = R.path, and so on;", "if defined(R.scheme) then", "   T.scheme = R.scheme;", "endif;"),
        ),
    ),
    "rfc5234": Worked(
        ("5234", "ABNF", "D. Crocker, et al.", "January 2008"),
        grammar_at("examples", "rfc5234.abnf"), 8, False, ("rule", r"5: A=A\x{D}\x{A}"),
        (
            "A rule has a name and, behind an equals sign, the elements that it stands for. It ends with its line, unless the next one is "
            "indented deeper.",
            "Names are the same in capitals and in small letters. Angle brackets around a name tell it from the words of a sentence.",
            "Alternatives stand on both sides of a slash. Some are added to a rule later on, so that it is written in several places.",
        ),
        (
            rules("name =  elements crlf", indent=9),
            rules(
                "ruleset     =  alt1 / alt2", indent=9,
                marks=((0, 1, unproductive("ruleset")), (0, 16, undefined("alt1")), (0, 23, undefined("alt2"))),
            ),
            rules("ruleset     =/ alt3", indent=9, marks=((0, 16, undefined("alt3")),)),
            figure("elem (foo / bar) elem", "(elem foo) / (bar elem)"),
        ),
    ),
    "rfc5322": Worked(
        ("5322", "Internet Message Format", "P. Resnick", "October 2008"),
        grammar_at("grammars", "rfc5322.abnf"), 3, False, ("addr-spec", "3: !@!"),
        (
            "A message has fields, each in a line that may be folded, and behind an empty line its text. No line is longer than 998 characters.",
            "Where a rule allows a comment, a reader takes it for a blank. Older forms are read, but not written any more.",
            "An address names a mailbox, or a group of them. The part before the sign belongs to the host that the other part names.",
        ),
        (
            figure("From: Ann <ann@example.net>", "To: Bob <bob@example.com>", "Subject: a = b", "", "This is a message.", indent=3),
            figure("----", "From: Ann <ann@example.net>", "----"),
        ),
    ),
    "rfc6265": Worked(
        ("6265", "Cookies of HTTP", "A. Barth", "April 2011"),
        grammar_at("grammars", "rfc6265.abnf"), 3, False, ("secure-av", "6: Secure"),
        (
            "A server gives a cookie to a user agent, which sends it back with later requests to that server, as long as it lasts.",
            "What is sent is a name and a value. Attributes behind them limit to whom the cookie goes, and for how long.",
            "A name that stands twice is that of the later cookie. Agents keep as many cookies as they have room for.",
        ),
        (
            figure("== Server -> User Agent ==", "", "Set-Cookie: SID=31d4d96e407aad42; Path=/", indent=3),
            # what follows the semicolon is a comment to ABNF
            rules("lang=en-US; Path=/; Domain=example.com", marks=((0, 1, unproductive("lang")), (0, 6, undefined("en-US")))),
            unread("lang=; Expires=Sun, 06 Nov 1994 08:49:37 GMT"),
        ),
    ),
    "rfc7405": Worked(
        ("7405", "Strings of ABNF with Case", "P. Kyzivat", "December 2014"),
        CHAR_VAL, 9, False, ("case-sensitive-string", '4: %s""'),
        (
            "Strings of ABNF have letters of any case. With a mark before it a string is read as it is written, capitals and small letters.",
            "The mark for strings of any case may be left out, and then nothing changes for grammars that are there already.",
        ),
        (
            rules('rulename = %s"aBc"'),
            rules('rulename = %i"aBc"', marks=((0, 1, (DIFFERS, "rulename")),)),
            rules('RuleName=%s"aBc" ; once more'),
        ),
    ),
    "rfc8259": Worked(
        ("8259", "JSON", "T. Bray, Ed.", "December 2017"),
        grammar_at("examples", "rfc8259.abnf"), 6, True, ("JSON-text", "1: 0"),
        (
            "JSON writes values as text: numbers, strings, three words, lists of values, and objects that give values to names.",
            "Blanks may stand on both sides of the six marks. Names within an object should differ, as readers treat those alike in many ways.",
            "A string stands between quotation marks. Any character may be escaped by a backslash and four digits of base 16.",
        ),
        (
            figure("{", '  "Image": {', '      "Width":  800,', '      "Title":  "a = b"', "    }", "}"),
            unread('text = "{}";', "value = parse(text);", indent=6),
            figure("[116, 943, 234, 38793]"),
        ),
    ),
    "rfc9110": Worked(
        ("9110", "HTTP Semantics", "R. Fielding, Ed., et al.", "June 2022"),
        grammar_at("grammars", "rfc9110.abnf"), 3, True, ("Accept-Ranges", "1: !"),
        (
            "A client sends a request that names a resource and says by a method what is to be done; the server answers with a status.",
            "Fields carry what else is to be said, each by its name. A list has its members between commas, and blanks around these.",
            "A validator tells two states of a resource apart. A strong one changes with each byte, a weak one where the server says so.",
        ),
        (
            unread("example-list      = 1#example-list-elmt", "example-list-elmt = token ; see Section 5.6.2"),
            figure("#element => [ element ] *( OWS \",\" OWS element )", "1#element => element *( OWS \",\" OWS element )"),
            figure("GET /hello.txt HTTP/1.1", "Host: www.example.com", "Accept-Language: en, mi;q=0.5"),
        ),
    ),
    "rfc9111": Worked(
        ("9111", "HTTP Caching", "R. Fielding, Ed., et al.", "June 2022"),
        grammar_at("examples", "known", "rfc9111.abnf"), 5, False, ("delta-seconds", "1: 0"),
        (
            "A cache keeps answers, and gives them again where a request is alike. An answer is fresh as long as its server said that it would be.",
            "Where it isn't fresh the server is asked whether it still holds. Directives tell caches on the way what they may keep.",
        ),
        (
            figure("response_is_fresh = (freshness_lifetime > current_age)"),
            unread("age = max(0, now - date);"),
        ),
    ),
    "rfc9112": Worked(
        ("9112", "HTTP/1.1", "R. Fielding, Ed., et al.", "June 2022"),
        grammar_at("grammars", "rfc9112.abnf"), 3, True, ("HTTP-name", "4: HTTP"),
        (
            "A message begins with a line that is that of a request or a status. Fields follow, an empty line, and perhaps a body.",
            "A body in chunks has the length of each before it, in digits of base 16, and ends with a chunk that has none.",
            "A target is a path in most requests, and a whole URI in those to a proxy. The method CONNECT names a host and a port alone.",
        ),
        (
            figure("length := 0", "read chunk-size and CRLF", "while (chunk-size > 0) {", "   length := length + chunk-size", "}"),
            unread("size = 0;", "while (size < length)", "   size = size + 1;"),
            figure("| BWS        | <BWS, see [HTTP], Section 5.6.3> |", "+============+==================================+"),
        ),
    ),
}


def among(worked):
    """The pieces of a worked text's body: rules with sentences between them, and the other pieces behind these."""
    left = [*worked.pieces]
    for at, lines in enumerate(paragraphs_of(worked.grammar)):
        if at % 4 == 0:
            yield paragraph(worked.prose[at // 4 % len(worked.prose)])
        if at % 3 == 2 and left:
            yield from (left.pop(0), paragraph("So much for this, and more of the same below."))
        yield rules(*lines, indent=worked.indent)
    for it in left:
        yield from (paragraph("Beside the rules this stands in the text:"), it)


def worked_text(name, form, end="\n", mark=""):
    """The text after an RFC, in one of the two forms."""
    worked = WORKED[name]
    titles = ["1.  Introduction", "2.  Syntax", "3.  Security Considerations", *["Appendix A.  Collected ABNF"] * worked.is_collected]
    pieces = [title("Abstract"), paragraph(worked.prose[0]), *contents(titles)]
    pieces += [title(titles[0]), paragraph(" ".join(worked.prose)), title(titles[1]), *among(worked)]
    pieces += [title(titles[2]), paragraph("Who reads what others write checks it against the rules first, and takes nothing else.")]
    if worked.is_collected:
        pieces += [title(titles[3]), *(rules(*it, indent=worked.indent) for it in paragraphs_of(worked.grammar)), title("Author's Address")]
    return laid_out(form, worked.title, pieces, end, mark)


# ---- random texts

PROSE = (
    "The server answers each request once. Where it can't, it says so, and why.",
    "In this text x = 1 and y = 2 hold, though neither is a rule of a grammar, as each stands in a sentence. The reader may take any other "
    "numbers for them, if a = b = c holds as well, and nothing else.",
    "Lines like these end in any word = any other word. An agent must not send more than it was asked for, and should not send less.",
    "Fran\u00e7ois and \u4e2d\u6587 \U0001f600 are characters of one column each; no column is wider, whatever a screen shows.",
    "See [RFC5234], Section 2.2 and [Page] for more [Page 3], as it was said there.",
)
# Words that aren't prose: lists, tables, pictures, code. None begins as a rule does.
FIGURES = (
    ("o  one", "o  two = 2", "", "o  three"),
    ("1.  a = b", "    c = d", "2.  (e) = f"),
    ("*  an item,", "   item = other"),
    (" 0                   1", " 0 1 2 3 4 5 6 7 8 9 0 1 2 3", "+-+-+-+-+-+-+-+-+-+-+-+-+-+-+", "|Version|   size = 8    |"),
    ("+======+=======+", "| name | value |", "+------+-------+", "| a    | = b   |", "+======+=======+"),
    ("GET /?a=b HTTP/1.1", "Host: example.com"),
    ("<p>a = b</p>", "a = b", "<br>"),
    ("if (a == b)", "c = d;"),
    ("C: A001 LOGIN name", "S: A001 OK = done"),
    ("the_name = 1",),
    ("; a comment alone", "; x = y"),
    ('= "x"', "a = b"),
    ("=/ b",),
)
# Lines that begin as a rule does and aren't all rules
FAULTY = (
    ("a = b + c",),
    ("Note = what stands here, and no more.",),
    ("size = 0;", "while (size < 9)", "  size = 2;", "end"),
    ("list = 1#item",),
    ("a =", "b = c"),
    ("big = %x100000000",),
    (f"deep = {65 * '('}a{65 * ')'}",),
    ('a = "x"', 'and then = "y"'),
    ('a = "x"', '"y" = a'),
    ("; first", "a = [ b", "    ; behind", "  c"),
    ("a = b", "    c = d"),
    ("n = 4294967296a",),
    ("a-b=c_d",),
    ('s = "it\u2019s"',),
)
NAMES = ("host", "port", "path", "query", "scheme", "token", "value", "field", "chunk", "weight", "quoted", "member", "object", "digits")
CORE = ("ALPHA", "DIGIT", "HEXDIG", "SP", "VCHAR", "WSP")
COMMENTS = ("", "", "", " ; one", "  ; a = b", " ;[Page 1] is said here", " ; \u00e9\U0001f600")
ENDS = ("\n", "\n", "\n", "\r\n", "\r")


class Grammar:
    """Rules as they are made, with what is found in them: names that are defined, and those of rules that may come again."""

    def __init__(self, dice):
        self.dice, self.names, self.good = dice, [], {}

    def name(self):
        """A new name."""
        name = f"{self.dice.choice(NAMES)}-{len(self.names)}"
        self.names.append(name)
        return self.dice.choice((name, name, name.upper(), name.capitalize()))

    def element(self):
        known = self.dice.choice([*self.good, *CORE])
        part = self.dice.choice((known, known, known, f'"{self.dice.choice(NAMES)}"', f'%s"{known}"', "%x41-5A", "%d13.10", "<said in words>"))
        return self.dice.choice(("", "", "", "*", "1*", "2", "*3", "1*3")) + part

    def sequence(self):
        parts = [self.element() for _ in range(self.dice.choice((1, 1, 2, 3)))]
        return self.dice.choice(("{}", "{}", "{}", "[ {} ]", "( {} )", "*( {} )")).format(" ".join(parts))

    def alternatives(self):
        """What stands behind the `=` of a rule, over lines of which each but the first is indented."""
        lines = [self.sequence() for _ in range(self.dice.choice((1, 1, 1, 2, 4, 7)))]
        front = " " * self.dice.choice((1, 2, 7, 14)) + "/ "
        return [lines[0], *(front + it for it in lines[1:])]

    def commented(self, lines):
        return [line + self.dice.choice(COMMENTS) for line in lines]

    def rule(self):
        """A rule in which nothing is found."""
        name, (first, *rest) = self.name(), self.alternatives()
        self.good[name.lower()] = first, rest
        return self.commented([name + self.dice.choice((" = ", "=", "  =  ")) + first, *rest]), ()

    def copy(self):
        """A rule once more that says the same."""
        name = self.dice.choice([*self.good])
        first, rest = self.good[name]
        return self.commented([f"{name.upper()}  = {first}", *(f"   {it.lstrip()}" for it in rest)]), ()

    def other(self):
        """A rule once more that says something else."""
        name = self.dice.choice([*self.good])
        first, rest = self.good[name]
        return self.commented([f'{name} = "other" {first}', *rest]), ((0, 1, (DIFFERS, name)),)

    def addition(self):
        return self.commented([f'{self.dice.choice([*self.good])} =/ "more"']), ()

    def fault(self):
        """A rule with a finding, or with two."""
        name, missing, front = self.name(), f"zzz{len(self.names)}qqq", self.dice.choice(("", " "))
        at = len(name) + len(front) + 3
        line, marks = self.dice.choice((
            (f'{front}= {missing} / "x"', ((0, at, undefined(missing)),)),
            (f"{front}= {missing}", ((0, 1, unproductive(name)), (0, at, undefined(missing)))),
            (f'{front}= 3*2"x" / "y"', ((0, at, EMPTY_REPEAT),)),
            (f'{front}= %x39-30 / "y"', ((0, at, EMPTY_RANGE),)),
            (f'{front}=/ "x"', ((0, 1, no_base(name)),)),
            (f'{front}= {name} "x"', ((0, 1, unproductive(name)),)),
        ))
        return self.commented([name + line]), marks

    def later(self):
        """A rule with a finding in a line behind the first."""
        name, missing = self.name(), f"zzz{len(self.names)}qqq"
        lines = self.alternatives()
        return [f"{name} = {lines[0]}", *lines[1:], f"  / <\u00e9> {missing}"], ((len(lines), 9, undefined(missing)),)

    def some(self):
        """The lines of a rule, and the marks in it."""
        makes = [self.rule] * 6
        if self.good:
            makes += [self.copy, self.other, self.addition, self.fault, self.later]
        return self.dice.choice(makes)()

    def piece(self):
        """Some rules that stand together, with comments between them."""
        lines, marks = [], []
        for _ in range(self.dice.choice((1, 1, 2, 3, 8, 40))):
            lines += self.dice.choice(((), (), (), ("; a comment",), ("; x = y", "    ; z")))
            more, found = self.some()
            marks += [(at + len(lines), column, words) for at, column, words in found]
            lines += more
        return rules(*lines, indent=self.dice.choice((3, 3, 4, 5, 6, 8)), marks=marks)


def random_pieces(dice):
    """Pieces of all kinds, each behind prose; a few texts have no rules."""
    grammar, kinds = Grammar(dice), dice.choice(((WORDS, UNREAD), *[(WORDS, WORDS, UNREAD, RULES, RULES)] * 12))
    for _ in range(dice.choice((1, 4, 8, 12, 16))):
        yield title(f"{dice.randrange(1, 20)}.  A Section") if dice.random() < 0.3 else paragraph(dice.choice(PROSE))
        kind = dice.choice(kinds)
        if kind == RULES:
            yield grammar.piece()
        elif kind == UNREAD:
            yield unread(*dice.choice(FAULTY), indent=dice.choice((3, 5, 10)))
        else:
            yield paragraph("What follows shows it.")
            yield figure(*dice.choice(FIGURES), indent=dice.choice((3, 6, 12)))
    yield paragraph(PROSE[0])


TITLE = ("7777", "Some Protocol", "A. Author", "May 2020")


def random_text(dice):
    """A random text, in one of the two forms."""
    return laid_out(dice.choice(FORMS), TITLE, [*random_pieces(dice)], dice.choice(ENDS), dice.choice(("", "", "", "", "\ufeff")))


# What may be put into a text
MARKS = (
    *("\f", "\f\n", "\n", "\n\n", "A [Page 2]\n", "[Page 3]", "\t", " ", "   ", "; ", "a = b\n", "   c = d\n", " / e", "="),
    *("\r", "\r\n", "\ufeff", "\u00e9"),
)


def damaged(dice, text):
    """A text with some marks put in and some lines taken out, doubled or cut."""
    for _ in range(dice.choice((1, 2, 5, 20))):
        start = dice.choice([0, *(it.end() for it in re.finditer("[\r\n]", text)), dice.randrange(len(text))])
        end = next((it.end() for it in re.finditer("[^\r\n]*[\r\n]*", text[start:])), 0) + start
        new = dice.choice((dice.choice(MARKS), dice.choice(MARKS), "", 2 * text[start:end], f"   {text[start:end]}", text[start:end].lstrip(" ")))
        text = text[:start] + new + text[start if new in MARKS else end :]
    return text

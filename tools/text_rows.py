"""Worked sessions about texts: where their lines end, what edits make of them, their blocks and what is wrong in these, and their names.

They have the form of those of `session_rows`. The values are by hand, from LSP 3.17 ("Text Documents") and RFC 5234.
"""
from encoding_rows import UNITS, agreed, offers
from published_texts import grammar_at
from session_rows import (
    COMMENT, DEFINES, NAME, NOT_OPEN, OPERATOR, PROSE, USE, WITH, WITHOUT, answered, asked, at, changed, edit, edits, found, length, named, opened,
    outline_after, places, shown_at, span, symbol, syntax, undefined, workspace_edit,
)


def questions(text, *asked_there, changes=None, encoding="utf-16", versions=1):
    """What is asked about a text, after changes where there are some: of each question the method, what stands beside it, and the answer."""
    said = [offers(f'["{encoding}"]'), opened(text), *([changed(changes)] if changes else []), *(asked(*it[:2]) for it in asked_there)]
    name = f"{encoding}: {asked_there[0][0]}{asked_there[0][1]} in {text[:60]!r}{f' after {changes[:80]}' if changes else ''}"
    return name, said, [agreed(encoding), *(it[2] for it in asked_there)], versions + bool(changes)


def instead(start, end, text):
    """A change by which a text is put in the place of what is between two positions."""
    return f"[{edit(start, end, text)}]"


def put(position, text):
    return instead(position, position, text)


def tokens(encoding, lines):
    """The question for the tokens of a text, and the answer: of each line its number and its tokens, and of each of these what stands before it in
    its line, its text, type and modifiers."""
    numbers, last_line = [], 0
    for line, told in lines:
        last_start = 0
        for before, text, kind, modifiers in told:
            start = UNITS[encoding](before)
            numbers += [line - last_line, start - last_start, UNITS[encoding](text), kind, modifiers]
            last_line, last_start = line, start
    return "semanticTokens/full", "", answered(f'{{"data":[{",".join(map(str, numbers))}]}}')


def alone(text, line=0, kind=NAME, modifiers=USE):
    """The one token of a line, at its start."""
    return line, (("", text, kind, modifiers),)


# Texts, and of a comment that is put behind each what stands before it: lines with the tokens there, the number of the last line, and its text. A
# line ends by LF, CRLF or CR (LSP 3.17), and by nothing else.
ODD_ENDS = "a\vb\fc\x85d\u2028e\u2029f"
LAST_LINES = (
    ("", (), 0, ""),
    ("a", (), 0, "a"),
    ("a\n", (alone("a"),), 1, ""),
    ("a\r", (alone("a"),), 1, ""),
    ("a\r\n", (alone("a"),), 1, ""),
    ("a\n\r", (alone("a"),), 2, ""),
    ("a\r\r\n\nb", (alone("a"),), 3, "b"),
    (ODD_ENDS, (), 0, ODD_ENDS),
    ("a\r\n\nb\U0001f600\rc\r\n", (alone("a"), alone("b", 2), alone("c", 3)), 4, ""),
)


def comment_behind(text, lines, number, line):
    """A comment that is put behind a text, by a position past its end."""
    names = [(line[:start], it, NAME, USE) for start, it in enumerate(line) if it in "abcdef"]
    last = number, (*names, (line, ";", COMMENT, 0))
    return questions(text, tokens("utf-16", (*lines, last)), changes=put((99, 0), ";"))


# The lines of this are `a`, none, `b` with a character of two units behind it, `c`, and none.
FOUR_ENDS = "a\r\n\nb\U0001f600\rc\r\n"

LINES = (
    *(comment_behind(*it) for it in LAST_LINES),
    questions(
        FOUR_ENDS,
        tokens("utf-16", (alone("a"), alone("b", 2), alone("c", 3))),
        ("references", at(0, 0) + WITH, answered(places((0, 0, 1)))),
        ("references", at(1, 0) + WITH, answered(places())),
        ("references", at(2, 1) + WITH, answered(places((2, 0, 1)))),
        # inside the character and behind it
        ("references", at(2, 2) + WITH, answered(places((2, 0, 1)))),
        ("references", at(2, 3) + WITH, answered(places())),
        ("references", at(3, 9) + WITH, answered(places((3, 0, 1)))),
        ("references", at(4, 0) + WITH, answered(places())),
        ("references", at(5, 0) + WITH, answered(places())),
    ),
    # past the end of a line, which ends by CR alone
    questions(
        FOUR_ENDS,
        tokens("utf-16", (alone("a"), (2, (("", "b", NAME, USE), ("b\U0001f600", ";", COMMENT, 0))), alone("c", 3))),
        changes=put((2, 999), ";"),
    ),
)

# Of this text the tokens after `q =` is put into it in a line of its own, behind so many of its characters
PUT_INTO, PUT_THERE = "a\r\n;\U0001f600z\n", "\nq ="
Q = (("", "q", NAME, DEFINES), ("q ", "=", OPERATOR, 0))
BEHIND = {
    0: ((1, (*Q, ("q =", "a", NAME, USE))), alone(";\U0001f600z", 2, COMMENT)),
    1: (alone("a"), (1, Q), alone(";\U0001f600z", 2, COMMENT)),
    3: (alone("a"), (2, (*Q, ("q =", ";\U0001f600z", COMMENT, 0)))),
    4: (alone("a"), alone(";", 1, COMMENT), (2, (*Q, ("q =\U0001f600", "z", NAME, USE)))),
    5: (alone("a"), alone(";\U0001f600", 1, COMMENT), (2, (*Q, ("q =", "z", NAME, USE)))),
    6: (alone("a"), alone(";\U0001f600z", 1, COMMENT), (2, Q)),
    7: (alone("a"), alone(";\U0001f600z", 1, COMMENT), (3, Q)),
}
# Positions, and how many characters of the text stand before each. In UTF-16 the characters of line 1 have 1, 2 and 1 units, as bytes 1, 4 and 1. A
# position inside a character is before it, one past a line's end is at its end, and one past the last line is at the end of the text.
OFFSETS = {
    "utf-16": (
        *(((0, 0), 0), ((0, 1), 1), ((0, 999), 1), ((1, 0), 3), ((1, 1), 4), ((1, 2), 4), ((1, 3), 5), ((1, 4), 6), ((1, 5), 6)),
        *(((2, 0), 7), ((99, 0), 7)),
    ),
    "utf-8": (((0, 999), 1), ((1, 1), 4), ((1, 2), 4), ((1, 4), 4), ((1, 5), 5), ((1, 6), 6), ((1, 7), 6), ((99, 0), 7)),
    "utf-32": (((0, 999), 1), ((1, 1), 4), ((1, 2), 5), ((1, 3), 6), ((1, 4), 6), ((99, 0), 7)),
}

POSITIONS = tuple(
    questions(PUT_INTO, tokens(encoding, BEHIND[offset]), changes=put(position, PUT_THERE), encoding=encoding)
    for encoding, rows in OFFSETS.items()
    for position, offset in rows
)

# A text of 4,194,304 bytes is as large as one may be.
LARGEST = "a" * 4_194_304
IS_LARGEST = tokens("utf-16", (alone(LARGEST),))
NOT_THERE = ("semanticTokens/full", "", NOT_OPEN)
WHOLE = f'{{"text":"{LARGEST}"}}'

EDITS = (
    # a character past the line's end
    outline_after("ab\ncd =", instead((0, 9), (1, 0), ""), [symbol("abcd", 0, 6)]),
    outline_after("", put((0, 0), "a=\nb="), [symbol("a", 0, 2), symbol("b", 1, 2)]),
    # line ends that an edit makes, joins and splits
    outline_after("a=\rb\nc=", instead((1, 0), (1, 1), ""), [symbol("a", 0, 2), symbol("c", 1, 2)]),
    outline_after("a=\nb=", put((0, 2), "\r"), [symbol("a", 0, 2), symbol("b", 1, 2)]),
    outline_after("a\nb=", instead((0, 0), (0, 1), "x=\r\ny=\r"), [symbol("x", 0, 2), symbol("y", 1, 2), symbol("b", 2, 2)]),
    # the line end between two lines is taken out: the one line that they make has one name
    questions("a\r\nb", tokens("utf-16", (alone("ab"),)), changes=instead((0, 1), (1, 0), "")),
    # the whole text, and then two edits of it; and no edit
    outline_after("old\ntext", f"[{{\"text\":\"abc =\"}},{edit((0, 1), (0, 1), 'XY')},{edit((0, 2), (0, 4), '-')}]", [symbol("aX-c", 0, 6)]),
    outline_after("old\ntext =", "[]", [symbol("text", 1, 6)]),
    questions(LARGEST, IS_LARGEST),
    questions(LARGEST + "b", NOT_THERE, versions=0),
    questions("b", IS_LARGEST, changes=f"[{WHOLE}]"),
    # too large on the way
    questions("b", NOT_THERE, changes=f"[{WHOLE},{edit((0, 0), (0, 0), 'b')},{{\"text\":\"c\"}}]", versions=0),
)

WIDE_LINE = "<\u00e9>\u20ac\U0001f600a ;\u00e9"
CLASSES = (
    questions("a = b", tokens("utf-16", ((0, (("", "a", NAME, DEFINES), ("a ", "=", OPERATOR, 0), ("a = ", "b", NAME, USE))),))),
    # what has no class, of three bytes and of four, belongs to no token
    *(
        questions(
            WIDE_LINE,
            tokens(encoding, ((0, (("", "<\u00e9>", PROSE, 0), (WIDE_LINE[:5], "a", NAME, USE), (WIDE_LINE[:7], ";\u00e9", COMMENT, 0))),)),
            encoding=encoding,
        )
        for encoding in UNITS
    ),
)


def headed(name, line, start, last, end):
    """A symbol: its name with the line and the character where it stands, and the line and the character where its block's last item ends."""
    starts = f'"start":{{"character":{start},"line":{line}}}'
    whole = f'{{"end":{{"character":{end},"line":{last}}},{starts}}}'
    return f'{{"kind":12,"name":"{name}","range":{whole},"selectionRange":{span(line, start, start + len(name))}}}'


def outlined(text, *symbols):
    return questions(text, ("documentSymbol", "", answered(f'[{",".join(headed(*it) for it in symbols)}]')))


BRACKETS = " a=b;c\n \t2( d\n  );e\n"

OUTLINES = (
    # comments and lines without content set no indent
    outlined(";\n a = b\n d = e", ("a", 1, 1, 1, 6), ("d", 2, 1, 2, 6)),
    outlined("a =\n ( b\n )\n", ("a", 0, 0, 2, 2)),
    # a head over lines
    outlined('a ;\n\n =/ "x"', ("a", 0, 0, 2, 7)),
    # comments, blanks and empty lines behind the last item
    outlined("a=b; c\n ; d\n \n\n", ("a", 0, 0, 0, 3)),
    # faulty blocks
    outlined("a = ) ?", ("a", 0, 0, 0, 7)),
    outlined("a =", ("a", 0, 0, 0, 3)),
    outlined("a\n  =/ ?", ("a", 0, 0, 1, 6)),
    # no head
    *(outlined(text) for text in ("a", "a\n", "= b", "a b\n =", 'a "x"', '= "x"', '"a" = "x"', "", " ; c\n \n")),
    # texts that are cut at the indent of the first rule, in which a tab counts as one
    outlined('   a = "x"\n     / "y"\n  b = "z"\n   c = "w"', ("a", 0, 3, 1, 10), ("b", 2, 2, 2, 9), ("c", 3, 3, 3, 10)),
    outlined('; c\n\n a = "x"\n; d\n\n b = "y"\n', ("a", 2, 1, 2, 8), ("b", 5, 1, 5, 8)),
    outlined('\ta = "x"\n  / "y"\n b = "z"', ("a", 0, 1, 1, 7), ("b", 2, 1, 2, 8)),
    outlined(BRACKETS, ("a", 0, 1, 2, 3)),
    questions(
        BRACKETS,
        tokens(
            "utf-16",
            (
                (0, ((" ", "a", NAME, DEFINES), (" a", "=", OPERATOR, 0), (" a=", "b", NAME, USE), (" a=b", ";c", COMMENT, 0))),
                (1, ((" \t", "2", OPERATOR, 0), (" \t2", "(", OPERATOR, 0), (" \t2( ", "d", NAME, USE))),
                (2, (("  ", ")", OPERATOR, 0), ("  )", ";e", COMMENT, 0))),
            ),
        ),
    ),
)

NO_NAME, NO_HEAD, NO_ELEMENT = "rule name expected", '"=" or "=/" expected', "element expected"
NO_BLANK, NOT_CLOSED, BAD = "blank expected", "bracket not closed", "bad character"


def fault_at(line, start, end, message):
    return line, start, end, 1, "syntax", message


def unproductive_at(line, start, name):
    return line, start, start + len(name), 2, "unproductive", f"rule {name} generates nothing"


def too_large(start, end):
    return 0, start, end, 1, "number-too-large", "number too large"


NO_BASE = (0, 0, 1, 2, "no-base", "no earlier definition of a")
TOO_DEEP = (0, 68, 69, 1, "too-deep", "brackets nested too deep")

FAULTS = (
    found("a = 2(b", syntax(5, 6, NOT_CLOSED)),
    found("a = 2]", syntax(4, 5, NO_ELEMENT)),
    # an end after blanks and comments
    found("a", syntax(1, 1, NO_HEAD)),
    found("a = ; c", syntax(3, 3, NO_ELEMENT)),
    found('a = "x" / ', syntax(9, 9, NO_ELEMENT)),
    # brackets
    found("a = (", syntax(5, 5, NO_ELEMENT)),
    found("a = ()", syntax(5, 6, NO_ELEMENT)),
    found("a = (b]", syntax(4, 5, NOT_CLOSED)),
    found("a = b)", syntax(5, 6, NO_ELEMENT)),
    found("a = b = c", syntax(6, 7, NO_ELEMENT)),
    # the least of two faults
    found('? = "x"', syntax(0, 1, NO_NAME)),
    found('a ? "x"', syntax(2, 3, NO_HEAD)),
    found("a = 2?", syntax(4, 5, NO_ELEMENT)),
    found('a = "x"2?', syntax(7, 8, NO_ELEMENT)),
    found("a = 4294967296?", syntax(4, 14, NO_ELEMENT)),
    found('a = "x"%x100000000', syntax(7, 18, NO_BLANK)),
    found('a = 4294967296"x"', too_large(4, 14)),
    found("a = %d1.2.4294967296", too_large(4, 20)),
    # what defines at the first place and what adds; and no head
    found('a = "x"'),
    found("a\n  =/ ?", NO_BASE, fault_at(1, 5, 6, BAD)),
    found('"a" = "x"', syntax(0, 3, NO_NAME)),
    found("a\n", syntax(1, 1, NO_HEAD)),
    found("= b", syntax(0, 1, NO_NAME)),
    found("a b\n =", syntax(2, 3, NO_HEAD)),
    found(";\n a = b\n d = e", unproductive_at(1, 1, "a"), undefined(1, 5, 6, "b"), unproductive_at(2, 1, "d"), undefined(2, 5, 6, "e")),
    found("a =\n ( b\n )\n", unproductive_at(0, 0, "a"), undefined(1, 3, 4, "b")),
    found('a ;\n\n =/ "x"', NO_BASE),
    found("a=b; c\n ; d\n \n\n", unproductive_at(0, 0, "a"), undefined(0, 2, 3, "b")),
    found("a = ) ?", syntax(4, 5, NO_ELEMENT)),
    # a blank is behind a comment and a line end, and none between a repeat and its element
    found(BRACKETS, unproductive_at(0, 1, "a"), undefined(0, 3, 4, "b"), undefined(1, 5, 6, "d")),
    # brackets nest 64 deep and no deeper
    found("a = " + 64 * "(" + '"x"' + 64 * ")"),
    found("a = " + 32 * "([" + '"x"' + 32 * "])"),
    found("a = " + 65 * "(", TOO_DEEP),
    found("a = " + 32 * "([" + "(", TOO_DEEP),
    found("a = " + 64 * "(" + '"x"(', syntax(71, 72, NO_BLANK)),
    # lines that end in each way
    found(FOUR_ENDS, fault_at(0, 1, 1, NO_HEAD), fault_at(2, 1, 3, NO_HEAD), fault_at(3, 1, 1, NO_HEAD)),
    # a second definition doesn't count
    found('A = "yy"\na = "z"\na =/ %s"x"\nb = ?', (1, 0, 1, 1, "duplicate", "rule a is already defined"), fault_at(3, 4, 5, BAD)),
)


def defines(line, character, *spans):
    """The question for the definition at a position, and the places that are answered."""
    return "definition", at(line, character), answered(places(*spans))


def with_all(line, character, *spans):
    return "references", at(line, character) + WITH, answered(places(*spans))


def uses(line, character, *spans):
    return "references", at(line, character) + WITHOUT, answered(places(*spans))


def shows(line, character, shown=None, place=None):
    """The question for the hover at a position, and what is shown, of the name at this place."""
    return "hover", at(line, character), shown_at(shown, place) if shown else answered("null")


def renames(line, character, new, *spans):
    return "rename", at(line, character) + named(f'"{new}"'), answered(workspace_edit(edits(new, *spans)))


UNDEFINED, NOTHING, NOT_KNOWN = "undefined", "generates nothing", "not known"
# The places of a name with one letter, by the line and the character
A_THERE, B_THERE = ((0, 0, 1), (1, 4, 5), (2, 5, 6)), ((0, 4, 5), (2, 0, 1))
ITEM_PLACES = ((0, 10, 14), (1, 0, 4))

NAMES = (
    # an addition defines its name, a name has no case, and a rule goes on in deeper lines
    questions(
        "a = b\n  / A c\nB =/ a\n",
        *(with_all(1, 4, *A_THERE), defines(2, 5, (0, 0, 1)), uses(0, 0, *A_THERE[1:])),
        *(with_all(0, 4, *B_THERE), defines(0, 4, (2, 0, 1)), with_all(1, 6, (1, 6, 7)), defines(1, 6)),
        # where a name is new it stands nowhere
        renames(0, 0, "d", *A_THERE),
        # behind a name's last letter, and where none is
        *(defines(0, 0, (0, 0, 1)), defines(0, 1, (0, 0, 1)), defines(0, 2), defines(0, 5, (2, 0, 1)), defines(1, 4, (0, 0, 1))),
        *(with_all(1, 7, (1, 6, 7)), defines(2, 0, (2, 0, 1)), defines(2, 6, (0, 0, 1)), defines(3, 0), defines(99, 9)),
        *(shows(0, 0, NOTHING, (0, 0, 1)), shows(0, 1, NOTHING, (0, 0, 1)), shows(0, 2), shows(0, 5, NOTHING, (0, 4, 5))),
        *(shows(1, 4, NOTHING, (1, 4, 5)), shows(1, 7, UNDEFINED, (1, 6, 7)), shows(2, 0, NOTHING, (2, 0, 1)), shows(2, 6, NOTHING, (2, 5, 6))),
        *(shows(3, 0), shows(99, 9)),
    ),
    # the first name of a block without `=` is a use, and `=` may stand in the next line
    questions(
        "a b\nb\n =a",
        *(defines(0, 0), uses(0, 0, (0, 0, 1), (2, 2, 3)), with_all(0, 2, (0, 2, 3), (1, 0, 1))),
        *(defines(0, 3, (1, 0, 1)), defines(1, 0, (1, 0, 1)), with_all(2, 3, (0, 0, 1), (2, 2, 3))),
        *(shows(0, 3, NOTHING, (0, 2, 3)), shows(1, 0, NOTHING, (1, 0, 1)), shows(2, 3, UNDEFINED, (2, 2, 3))),
    ),
    # what stands right behind a number is no name, and neither is a comment, prose or a text in quotes; no block has the first line
    questions(
        '; b\n  a = %d9b <b> "b" ; b\n  c = b',
        *(with_all(2, 6, (2, 6, 7)), defines(2, 6), with_all(0, 2), with_all(1, 9), with_all(2, 8, (2, 6, 7)), with_all(9, 9, (2, 6, 7))),
        *(shows(0, 2), shows(1, 9), shows(2, 8, UNDEFINED, (2, 6, 7)), shows(9, 9, UNDEFINED, (2, 6, 7))),
    ),
    # no line begins a block
    questions("; a\n\n ", with_all(0, 0), with_all(0, 2), with_all(1, 0), shows(0, 0), shows(1, 0), tokens("utf-16", (alone("; a", 0, COMMENT),))),
    # a name that a misspelled number has, and the same by itself
    questions(
        'a = %item Item\nitem = "i"',
        *(with_all(1, 0, *ITEM_PLACES), uses(1, 0, *ITEM_PLACES[:1]), defines(0, 10, *ITEM_PLACES[1:]), renames(1, 0, "i", *ITEM_PLACES)),
    ),
    # names at each place of a line, and past its end
    questions(
        "a = b c",
        *(shows(0, 0, NOTHING, (0, 0, 1)), shows(0, 1, NOTHING, (0, 0, 1)), shows(0, 2), shows(0, 3)),
        *(shows(*it, UNDEFINED, (0, 4, 5)) for it in ((0, 4), (0, 5))),
        *(shows(*it, UNDEFINED, (0, 6, 7)) for it in ((0, 6), (0, 7), (0, 8), (1, 0), (1000, 1000))),
    ),
    # beside an equals sign
    questions(
        "a=Bc",
        *(shows(*it, NOTHING, (0, 0, 1)) for it in ((0, 0), (0, 1))),
        *(shows(*it, UNDEFINED, (0, 2, 4)) for it in ((0, 2), (0, 3), (0, 4))),
    ),
    # behind wide characters, in a comment, and at its end
    questions(
        'x = y ; \u20ac\U0001f600 z\r\na = "\u00e9" b\r\n',
        *(shows(0, 5, UNDEFINED, (0, 4, 5)), shows(0, 12), shows(0, 13), shows(0, 99)),
        *(shows(1, 0, NOT_KNOWN, (1, 0, 1)), shows(1, 1, NOT_KNOWN, (1, 0, 1)), shows(1, 7)),
        *(shows(1, 8, UNDEFINED, (1, 8, 9)), shows(1, 9, UNDEFINED, (1, 8, 9)), shows(1, 99, UNDEFINED, (1, 8, 9)), shows(2, 0)),
    ),
    # none in a misspelled number
    questions(
        'a = %item\nitem = "i"',
        *(shows(0, 4), shows(0, 5), shows(0, 9), shows(1, 0, length(1, "i"), (1, 0, 4)), shows(1, 4, length(1, "i"), (1, 0, 4))),
        *(shows(1, 10), shows(99, 0)),
    ),
)


STANDARD = {name: grammar_at("examples", f"{name}.abnf") for name in ("rfc3339", "rfc3986", "rfc5234", "rfc8259")}
ZERO = length(1, "0")
# 100,000 rules, each of which uses the one before, and the first is prose
MANY = 100_000
FROM_PROSE = "r0 = <p>\n" + "".join(f"r{n} = r{n - 1}\n" for n in range(1, MANY))
# The empty string 4,294,967,295 times, alone and behind a character. A run has a minute: were each of the repeats a step of the walk that writes a
# string, a thousand hovers would take hours.
REPEATS = 'a = 4294967295""\nb = "x" 4294967295a'

GRAMMARS = (
    # where the name at a position is defined, at the start of a line; and what is shown of core rules
    questions(STANDARD["rfc3339"], defines(17, 18, (14, 0, 12)), shows(2, 19, ZERO, (2, 19, 24))),
    questions(STANDARD["rfc3986"], defines(27, 32, (31, 0, 11))),
    questions(STANDARD["rfc5234"], defines(4, 46, (14, 0, 8))),
    questions(STANDARD["rfc8259"], defines(57, 26, (59, 0, 4)), shows(45, 27, ZERO, (45, 27, 32)), shows(69, 14, length(1, "A"), (69, 14, 20))),
    # prose is reached by uses, however many
    questions(FROM_PROSE, *(shows(n, 0, NOT_KNOWN, (n, 0, len(f"r{n}"))) for n in (0, MANY // 2, MANY - 1))),
    questions(REPEATS, *1000 * (shows(0, 0, length(0, ""), (0, 0, 1)), shows(1, 0, length(1, "x"), (1, 0, 1)))),
)

SESSIONS = FAULTS
# What these are answered with beside what is published; the last number counts the versions of the document
REPLIES = LINES + POSITIONS + EDITS + CLASSES + OUTLINES + NAMES + GRAMMARS

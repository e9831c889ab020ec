"""Drafts by value: what is published of them, and what is answered in them. The values are by hand, the same in each encoding: of all that is
asked about, nothing stands in a line with a character outside ASCII in front of it.

Each row is what a draft is written in, its text, the findings, and questions: each its method, its parameters and its answer.
"""
URI = "file:///valued"
BLOCK, SECTION, END = '<artwork type="abnf">', '<artwork type="abnf"><![CDATA[', "</artwork>"
NO_HEAD, BAD = '"=" or "=/" expected', "bad character"
AT_FAULT, SPLIT = "the draft's XML is at fault", "name split by markup"
NOT_A_NAME, NOTHING, IN_USE = "not a rule name", "nothing to rename", "name in use"


def point(line, character):
    return {"line": line, "character": character}


def span(line, start, end):
    """The range of these characters of a line."""
    return {"start": point(line, start), "end": point(line, end)}


def finding(line, start, end, code, message, severity=1):
    return {"code": code, "message": message, "range": span(line, start, end), "severity": severity, "source": "abnf"}


def bad(line, start, more=""):
    return finding(line, start, start + 1, "syntax", BAD + more)


def no_head(line, start, more=""):
    return finding(line, start, start + 1, "syntax", NO_HEAD + more)


def fault(line, start, message):
    return finding(line, start, start + 1, "xml", message)


def unproductive(line, start, end, name):
    return finding(line, start, end, "unproductive", f"rule {name} generates nothing", 2)


def undefined(line, start, end, name):
    return finding(line, start, end, "undefined", f"undefined rule {name}")


def differs(line, first):
    """A rule `a` at the start of a line, whose first definition stands in this one."""
    return finding(line, 0, 1, "differs", f"rule a differs from its definition at line {first}")


def first_of(count):
    return f" (the first of {count} faults in this block)"


def refused(line, character, new, message):
    """A rename that is asked for there, and why it isn't granted."""
    return "rename", {"position": point(line, character), "newName": new}, {"error": {"code": -32803, "message": message}}


def renamed(line, character, new, *spans):
    """A rename that is asked for there, and what gets the new name."""
    edits = [{"newText": new, "range": span(*it)} for it in spans]
    return "rename", {"position": point(line, character), "newName": new}, {"result": {"changes": {URI: edits}}}


def action(line, character, *edits, end=None):
    """A code action that is asked for there, or from there to an end, and the text that it puts in at a place; or that there is none."""
    actions = [
        {"edit": {"changes": {URI: [{"newText": text, "range": span(*place)}]}}, "kind": "refactor", "title": "Insert shortest example"}
        for text, place in edits
    ]
    return "codeAction", {"range": span(line, character, character if end is None else end)}, {"result": actions}


def hover(line, character, value=None, start=0, end=0):
    """A hover that is asked for there, and what is shown of these characters of the line; nothing where there is no value."""
    shown = {"contents": {"kind": "plaintext", "value": value}, "range": span(line, start, end)} if value else None
    return "hover", {"position": point(line, character)}, {"result": shown}


def definitions(line, character, *spans):
    return "definition", {"position": point(line, character)}, {"result": [{"range": span(*it), "uri": URI} for it in spans]}


def references(line, character, *spans):
    """The places of a name that is asked for there, those among them that define it."""
    asked = {"position": point(line, character), "context": {"includeDeclaration": True}}
    return "references", asked, {"result": [{"range": span(*it), "uri": URI} for it in spans]}


def tokens(*told, line=0):
    """The tokens of one line: of each how far it begins behind the last, its length, its type and its modifiers."""
    numbers = [number for it in told for number in (0, *it)]
    return "semanticTokens/full", {}, {"result": {"data": [line, *numbers[1:]]}}


def outline(*symbols):
    """The outline: of each symbol its name, and its line, start and end, and the end of its name."""
    told = [
        {"kind": 12, "name": name, "range": span(line, start, end), "selectionRange": span(line, start, behind)}
        for name, line, start, end, behind in symbols
    ]
    return "documentSymbol", {}, {"result": told}


EMPTY_REPEAT = "repeat with minimum above maximum"
# A start tag has 21 characters, and that of a section behind it 9.
FAULT_ROWS = (
    # a fault in a block: what stands behind it may define a name, and may give a string to a rule that has none
    (
        "xml",
        f'{BLOCK}c = "x"{END}\n{BLOCK}\na = nope\nb = ?\n &foo; nope = "x"\n{END}',
        [bad(3, 4), fault(4, 1, "no reference to a character")],
        (
            outline(("c", 0, 21, 28, 22), ("a", 2, 0, 8, 1), ("b", 3, 0, 5, 1)),
            *(hover(2, 5, "undefined", 4, 8), hover(0, 22, "shortest length 1\nexample x", 21, 22), hover(4, 8)),
            *(definitions(3, 0, (3, 0, 1)), definitions(4, 8)),
            *(refused(3, 0, "q", AT_FAULT), refused(3, 0, "B", AT_FAULT), refused(3, 1, "2", NOT_A_NAME)),
            *(refused(3, 0, "A", IN_USE), refused(3, 0, "digit", IN_USE), refused(2, 5, "q", NOTHING)),
            *(refused(4, 8, "q", NOTHING), refused(4, 8, "", NOT_A_NAME), refused(0, 3, "q", NOTHING)),
        ),
    ),
    # a comment in a block, and behind it a name that is used before it
    (
        "xml",
        f'{BLOCK}a = 2*1"x" / b <!-- c\nb = "x"{END}',
        [finding(0, 25, 28, "empty-repeat", EMPTY_REPEAT, 2), fault(0, 36, "comment without an end")],
        (hover(0, 34, "undefined", 34, 35),),
    ),
    # a section and a tag outside of all blocks
    ("xml", f"{BLOCK}a = ?{END}\n <![CDATA[ b", [bad(0, 25), fault(1, 1, "CDATA section without an end")], (hover(0, 21, "not known", 21, 22),)),
    ("xml", f"{BLOCK}a = ?{END}\r\n<t a='>'", [bad(0, 25), fault(1, 0, "tag without an end")], ()),
    ("xml", "<rfc>\n<!-", [fault(1, 0, "tag without an end")], (outline(),)),
    # a block without an end is none; that before it is one
    (
        "xml",
        f"{BLOCK}a = ?{END}\n{BLOCK}b = ?",
        [bad(0, 25), fault(1, 0, "block without an end tag")],
        (outline(("a", 0, 21, 26, 22)), hover(1, 21), refused(1, 21, "q", NOTHING)),
    ),
)

TEN = "\n".join(10 * ["b c"])
FLOOD_ROWS = (
    # ten faults of a block are told one by one; of eleven the first alone, and nothing else of the block; another block stays as it is
    (
        "markdown",
        f'```abnf\na = 3*2"x" / "y"\n{TEN}\n```\n~~~abnf\nd = 3*2"x" / "y"\n{TEN}\ne = 4294967296"x"\nf = nope\n~~~\n```abnf\ng = ?\n```\n',
        [
            finding(1, 4, 7, "empty-repeat", EMPTY_REPEAT, 2),
            *(no_head(line, 2) for line in range(2, 12)),
            *(no_head(15, 2, first_of(11)), bad(29, 4)),
        ],
        (outline(("a", 1, 0, 16, 1), ("d", 14, 0, 16, 1), ("e", 25, 0, 17, 1), ("f", 26, 0, 8, 1), ("g", 29, 0, 5, 1)),),
    ),
    # a fence that opens over prose, and one that has no end
    (
        "markdown",
        f"# Title\n\n```abnf\n{'The words are prose.' + chr(10)}{30 * ('Words, words, words.' + chr(10))}",
        [finding(3, 4, 9, "syntax", NO_HEAD + first_of(31))],
        (),
    ),
    # the first fault has another code
    ("xml", f'{SECTION}\na = "x" /\n 4294967296b\n{TEN}\n]]>{END}', [finding(2, 1, 11, "number-too-large", "number too large" + first_of(11))], ()),
    # a block that is open at a fault ends there, whatever stands there
    ("xml", f"{BLOCK}\nd d\n{TEN}\n&foo;{END}", [no_head(1, 2, first_of(11)), fault(12, 0, "no reference to a character")], ()),
    ("xml", f"{BLOCK}\nd d\n{TEN}\n<!-- {END}", [no_head(1, 2, first_of(11)), fault(12, 0, "comment without an end")], ()),
    # line ends that are written as references end no block
    ("xml", f"{BLOCK}b c&#10;{TEN}\n{END}", [finding(0, 23, 24, "syntax", NO_HEAD + first_of(11))], ()),
)

COPY_ROWS = (
    # one that says the same, and one that doesn't
    (
        "markdown",
        '```abnf\nA = "x"\n```\n\n> ~~~ abnf\n>   a="x" ; again\n>   b = a\n>   a = "X"\n> ~~~\n',
        [finding(7, 4, 5, "differs", "rule a differs from its definition at line 2")],
        (hover(5, 4, "shortest length 1\nexample x", 4, 5), definitions(6, 8, (1, 0, 1), (5, 4, 5), (7, 4, 5))),
    ),
    (
        "xml",
        f'{BLOCK}\n\n  a = "x"{END}\n{BLOCK}a = &#34;x"\na = &#34;y"\n&{END}',
        [finding(4, 0, 1, "differs", "rule a differs from its definition at line 3"), fault(5, 0, "no reference to a character")],
        (),
    ),
)

REFERENCE_ROWS = (
    # a range ends behind a reference; in a section there is none
    (
        "xml",
        f'{BLOCK}&#97; = "x" / b&#99; / &lt;p&gt; d{END}',
        [undefined(0, 35, 41, "bc"), undefined(0, 54, 55, "d")],
        (
            *(hover(0, 21, "not known", 21, 26), hover(0, 36, "undefined", 35, 41), hover(0, 41, "undefined", 35, 41), hover(0, 38)),
            renamed(0, 21, "q", (0, 21, 26)),
            tokens((21, 5, 0, 1), (6, 1, 3, 0), (2, 3, 1, 0), (4, 1, 3, 0), (2, 6, 0, 0), (7, 1, 3, 0), (2, 9, 5, 0), (10, 1, 0, 0)),
        ),
    ),
    ("xml", f'{SECTION}a = "x" &lt;]]>{END}', [bad(0, 38)], ()),
    # names that are written in pieces: by the ends of a section, by a comment
    (
        "xml",
        f'{SECTION}a = b]]>c{END}\n{BLOCK}bc = "x"{END}',
        [],
        (refused(1, 21, "q", SPLIT), refused(0, 34, "q", SPLIT), refused(1, 21, "a", IN_USE), renamed(0, 30, "q", (0, 30, 31))),
    ),
    ("xml", f'{BLOCK}a<![CDATA[b = "x"]]>{END}', [], (refused(0, 21, "q", SPLIT), refused(0, 21, "q ", NOT_A_NAME))),
    ("xml", f'{BLOCK}a<!-- x -->b = "x"{END}', [], (renamed(0, 21, "q", (0, 21, 33)),)),
)

ACTION_ROWS = (
    # the margin, and the end of the line that goes down
    (
        "markdown",
        '- x\r\n\r\n  ~~~ abnf\r\n    a = "x"\r\n    b = a\r\n  ~~~\r\n',
        [],
        (action(3, 4, ("; example x\r\n    ", (3, 4, 4))), action(4, 8, ("; example x\r\n    ", (3, 4, 4))), action(0, 0)),
    ),
    (
        "markdown",
        '> ~~~ abnf\n> a = "x"\r\n> b = "y"\n> c = "z"\r> ~~~\n',
        [],
        (
            *(action(1, 2, ("; example x\r\n> ", (1, 2, 2))), action(2, 2, ("; example y\n> ", (2, 2, 2)))),
            action(3, 2, ("; example z\n> ", (3, 2, 2))),
        ),
    ),
    # in a section all but its end may stand; elsewhere what needs no reference
    (
        "xml",
        f'{SECTION}\r\n  a = "<&"\r\n  b = %x5D.5D.3E\r\n]]>{END}',
        [],
        (action(1, 2, ("; example <&\r\n  ", (1, 2, 2))), action(2, 2)),
    ),
    (
        "xml",
        f'{BLOCK}\n  a = "x"\n  b = "&lt;"\n  c = "&amp;"\n  d = "&gt;"\n  e = %x26.6C.74.3B\n{END}',
        [],
        (*(action(1, 2, ("; example x\n  ", (1, 2, 2))), action(4, 2, ("; example >\n  ", (4, 2, 2)))), *(action(line, 2) for line in (2, 3, 5))),
    ),
    # XML at fault stays at fault where it is
    (
        "xml",
        f'{BLOCK}\na = "x"\nb = "&lt;!--"\n&foo;{END}',
        [fault(3, 0, "no reference to a character")],
        (action(1, 0, ("; example x\n", (1, 0, 0))), action(2, 0)),
    ),
)

# Two blocks, the first in an item of a list, behind a character outside the first plane
MARKDOWN = (
    "# T\r\n\r\n1. item \U0001f600\r\n\r\n   ```abnf\r\n     greeting = hello SP name ; c\r\n     hello = \"hi\"\r\n     name = 1*ALPHA\r\n"
    '   ```\r\n\r\nend\r\n\r\n~~~ abnf\r\n\tother = "x" hello\r\n~~~\r\n'
)
# A CDATA section, and an element with references and a comment
XML = (
    '<rfc><sourcecode type="abnf"><![CDATA[\n  a = b\n  b = "x"]]></sourcecode>\n'
    "<artwork type='abnf'>c = a / &quot;&lt;&quot; / <!-- x -->b</artwork></rfc>"
)
# A start tag of 24 characters, and a fenced block
CODE, CODE_END, FENCED = '<sourcecode type="abnf">', "</sourcecode>", "~~~ abnf\n{}\n~~~\n"
NO_NAME = "rule name expected"
HELLO, IN_B = ((5, 16, 21), (6, 5, 10), (13, 13, 18)), ((1, 6, 7), (2, 2, 3), (3, 58, 59))

NAME_ROWS = (
    (
        "markdown",
        MARKDOWN,
        [],
        (
            *(definitions(5, 16, (6, 5, 10)), references(6, 10, *HELLO), references(6, 7, *HELLO)),
            hover(13, 13, "shortest length 2\nexample hi", 13, 18),
            # a margin is its line, and prose is outside
            *(definitions(6, 2, (6, 5, 10)), definitions(13, 0, (13, 1, 6)), definitions(10, 1), hover(2, 3), definitions(4, 7)),
            *(renamed(13, 15, "salute", *HELLO), refused(0, 0, "salute", NOTHING), refused(0, 0, "1", NOT_A_NAME)),
            # a comment keeps the margin
            action(5, 16, ("; example hi\r\n     ", (6, 5, 5))),
            action(13, 2, ("; example xhi\r\n\t", (13, 1, 1)), end=3),
        ),
    ),
    (
        "xml",
        XML,
        [],
        (
            *(references(1, 6, *IN_B), references(3, 59, *IN_B), references(0, 7), renamed(1, 6, "bb", *IN_B)),
            outline(("a", 1, 2, 7, 3), ("b", 2, 2, 9, 3), ("c", 3, 21, 59, 22)),
            # (the example of `c` is `<`, which can't stand outside of a CDATA section)
            *(action(2, 2, ("; example x\n  ", (2, 2, 2))), action(3, 21)),
        ),
    ),
    (
        "xml",
        f"{CODE}<![CDATA[a = b\nb = a]]>{CODE_END}",
        [unproductive(0, 33, 34, "a"), unproductive(1, 0, 1, "b")],
        (definitions(1, 5, (0, 33, 34)),),
    ),
    # a range ends behind a reference
    ("xml", f"{CODE}ab = a&#98;\n{CODE_END}", [unproductive(0, 24, 26, "ab")], (renamed(0, 24, "abc", (0, 24, 26), (0, 29, 35)),)),
    # what would be written in the place of `a]]>b` would go on to be CDATA
    ("xml", f"{CODE}<![CDATA[ab = a]]>b\n{CODE_END}", [unproductive(0, 33, 35, "ab")], (refused(0, 33, "abc", SPLIT),)),
    # XML at fault keeps what stands in front
    (
        "xml",
        f'{CODE}a = b\na = "x"\n&x;\nb = a{CODE_END}',
        [differs(1, 1), fault(2, 0, "no reference to a character")],
        (definitions(0, 24, (0, 24, 25), (1, 0, 1)), refused(0, 24, "c", AT_FAULT), refused(0, 28, "c", NOTHING)),
    ),
    ("xml", f"{CODE}a = a\n", [fault(0, 0, "block without an end tag")], ()),
    # a definition that says the same, and one that doesn't
    ("markdown", FENCED.format('a = "x"') + FENCED.format('A = "x" ; c'), [], ()),
    ("markdown", FENCED.format('a = "x"') + FENCED.format('a = "y"'), [differs(4, 2)], ()),
    # of eleven faults in a block the first is told, and of ten each
    (
        "markdown",
        FENCED.format("=\n" * 11 + "a = b") + FENCED.format("="),
        [finding(1, 0, 1, "syntax", NO_NAME + first_of(11)), finding(15, 0, 1, "syntax", NO_NAME)],
        (),
    ),
    ("markdown", FENCED.format("\n".join(10 * "=")), [finding(line, 0, 1, "syntax", NO_NAME) for line in range(1, 11)], ()),
    # findings and tokens stand in the draft
    (
        "markdown",
        f"prose\n{FENCED.format('  a = b')}prose\n",
        [unproductive(2, 2, 3, "a"), undefined(2, 6, 7, "b")],
        (tokens((2, 1, 0, 1), (2, 1, 3, 0), (2, 1, 0, 0), line=2),),
    ),
    ("markdown", "a = b\n", [], ()),
)
ROWS = (*FAULT_ROWS, *FLOOD_ROWS, *COPY_ROWS, *REFERENCE_ROWS, *ACTION_ROWS, *NAME_ROWS)

"""Worked sessions: the bodies that a client sends, the bodies that the server writes, and the status at the end.

All bodies are written out as they stand in the stream. FRAMES has streams whose frames are broken, with the line that names the fault, and
STREAMS streams from the first byte on.
"""
import json
import re

from workspace import TOP, text_of

from runs import frames

INITIALIZE = '{"jsonrpc":"2.0","id":1,"method":"initialize","params":{"capabilities":{}}}'
INITIALIZED = '{"jsonrpc":"2.0","method":"initialized","params":{}}'
# 480 bytes
CAPABILITIES = (
    '{"id":1,"jsonrpc":"2.0","result":{"capabilities":{"codeActionProvider":true,"definitionProvider":true,"documentSymbolProvider":true,'
    '"hoverProvider":true,"positionEncoding":"utf-16","referencesProvider":true,"renameProvider":true,"semanticTokensProvider":{"full":true,'
    '"legend":{"tokenModifiers":["definition","defaultLibrary"],"tokenTypes":["type","string","number","operator","comment","macro"]}},'
    '"textDocumentSync":{"change":2,"openClose":true}},"serverInfo":{"name":"abnf_ls"}}}'
)


def takes_links(said):
    """An initialize whose client says this, which is JSON, of whether it takes edits as documentChanges."""
    edits = f'{{"documentChanges":{said}}}'
    return f'{{"id":1,"method":"initialize","params":{{"capabilities":{{"workspace":{{"workspaceEdit":{edits}}}}}}}}}'


SHUTDOWN = '{"jsonrpc":"2.0","id":3,"method":"shutdown"}'
DOWN = '{"id":3,"jsonrpc":"2.0","result":null}'
EXIT = '{"jsonrpc":"2.0","method":"exit"}'
SYMBOLS = '{"jsonrpc":"2.0","id":2,"method":"textDocument/documentSymbol","params":{"textDocument":{"uri":"file:///g"}}}'
# 215 bytes
OUTLINE = (
    '{"id":2,"jsonrpc":"2.0","result":[{"kind":12,"name":"a","range":{"end":{"character":7,"line":0},'
    '"start":{"character":0,"line":0}},"selectionRange":{"end":{"character":1,"line":0},"start":{"character":0,"line":0}}}]}'
)
NONE = '{"id":2,"jsonrpc":"2.0","result":[]}'


def refused(code, message, request="2"):
    return f'{{"error":{{"code":{code},"message":"{message}"}},"id":{request},"jsonrpc":"2.0"}}'


NOT_OPEN = refused(-32602, "document not open")  # 78 bytes
INVALID_PARAMS = refused(-32602, "invalid params")
PARSE_ERROR = refused(-32700, "parse error", "null")
INVALID_REQUEST = refused(-32600, "invalid request", "null")  # 79 bytes


def opened(text, uri="file:///g"):
    document = f'{{"uri":"{uri}","languageId":"abnf","version":1,"text":{json.dumps(text, ensure_ascii=False)}}}'
    return f'{{"jsonrpc":"2.0","method":"textDocument/didOpen","params":{{"textDocument":{document}}}}}'


def closed(uri="file:///g"):
    return f'{{"jsonrpc":"2.0","method":"textDocument/didClose","params":{{"textDocument":{{"uri":"{uri}"}}}}}}'


def cancelled(request):
    """A cancel of the request with this id, which is JSON."""
    return f'{{"jsonrpc":"2.0","method":"$/cancelRequest","params":{{"id":{request}}}}}'


def changed(changes):
    """A change by these changes, which are JSON."""
    document = '{"uri":"file:///g","version":2}'
    return f'{{"method":"textDocument/didChange","params":{{"textDocument":{document},"contentChanges":{changes}}}}}'


def edit(start, end, text):
    at = [f'{{"line":{line},"character":{character}}}' for line, character in (start, end)]
    return f'{{"range":{{"start":{at[0]},"end":{at[1]}}},"text":{json.dumps(text, ensure_ascii=False)}}}'


def span(line, start, end):
    return f'{{"end":{{"character":{end},"line":{line}}},"start":{{"character":{start},"line":{line}}}}}'


def answered(result):
    return f'{{"id":2,"jsonrpc":"2.0","result":{result}}}'


def published(*findings, label=1, uri="file:///g"):
    """What is published of a version: for each finding its line, its two ends in it, severity, code and message."""
    diagnostics = ",".join(
        f'{{"code":"{code}","message":{json.dumps(message)},"range":{span(line, start, end)},"severity":{severity},"source":"abnf"}}'
        for line, start, end, severity, code, message in findings
    )
    params = f'{{"diagnostics":[{diagnostics}],"uri":"{uri}","version":{label}}}'
    return f'{{"jsonrpc":"2.0","method":"textDocument/publishDiagnostics","params":{params}}}'


CANCEL_NOTHING = '{"method":"$/cancelRequest"}'
OPEN = opened('a = "x"')
CLEAN = published()  # 118 bytes
assert (len(CAPABILITIES), len(OUTLINE), len(NOT_OPEN), len(INVALID_REQUEST), len(CLEAN)) == (480, 215, 78, 79, 118)

# What is no id, and ids that are some: integers of 64 bits and texts
NO_IDS = ("true", "false", "null", "[]", "{}", "1.0", "1.5", "1e2", "-0", "9223372036854775808", "-9223372036854775809")
IDS = ("0", "9223372036854775807", "-9223372036854775808", '""', '"9223372036854775808"', '"null"')

# Messages that can't be served or ask for nothing, and what each is answered
HOVER = '{"id":6,"method":"textDocument/hover","params":{"textDocument":{"uri":%s},"position":{"line":%s,"character":0}}}'
STRANGE = (
    *((body, INVALID_REQUEST) for body in ("{}", "[]", "5", "null", '"x"', "[" * 127 + "]" * 127)),
    *((body, PARSE_ERROR) for body in ("{", "", "nothing", '"\t"', b"\xff", '{"a":1,}', '{"id":2} x', "[" * 128 + "]" * 128, '{"id":01,"method":"x"}')),
    ('{"id":3,"method":"\\ud800"}', PARSE_ERROR),
    ('{"id":1,"method":5}', refused(-32600, "invalid request", "1")),
    *((f'{{"id":{said},"method":"x"}}', INVALID_REQUEST) for said in ("-0", "1.0", "1e5", "true", "9223372036854775808")),
    ('{"id":-7,"method":"$/x"}', refused(-32601, "method not found", "-7")),
    ('{"id":"\\u00e9\\ud83d\\ude00\\n\\u0001","method":"x"}', refused(-32601, "method not found", '"\u00e9\U0001f600\\n\\u0001"')),
    *((f'{{"id":4,"method":"{method}"}}', refused(-32601, "method not found", "4")) for method in ("exit", "textDocument/didOpen")),
    ('{"id":8,"method":"textDocument/documentSymbol"}', refused(-32602, "invalid params", "8")),
    *((HOVER % asked, refused(-32602, "invalid params", "6")) for asked in (('"file:///g"', "-1"), ('"file:///g"', "0.5"), ("5", "0"))),
    *((body, None) for body in ('{"id":1,"result":null}', '{"method":"unknown"}', cancelled("1"))),
    ('{"method":"textDocument/didOpen","params":{"textDocument":{"uri":"file:///g"}}}', None),
    ('{"method":"textDocument/didChange","params":{"textDocument":{"uri":"file:///none"},"contentChanges":[]}}', None),
)

LIVES = (
    (
        "messages that can't be served, and ones that ask for nothing",
        [INITIALIZE, OPEN, *(message for message, _ in STRANGE), SYMBOLS],
        [CAPABILITIES, CLEAN, *(answer for _, answer in STRANGE if answer), OUTLINE],
        1,
    ),
    ("no exit", [INITIALIZE, INITIALIZED, OPEN, SYMBOLS], [CAPABILITIES, CLEAN, OUTLINE], 1),
    ("an exit", [INITIALIZE, INITIALIZED, OPEN, SYMBOLS, SHUTDOWN, EXIT, SYMBOLS], [CAPABILITIES, CLEAN, OUTLINE, DOWN], 0),
    # nothing is published when a document is closed
    ("a document closed and opened", [INITIALIZE, OPEN, closed(), SYMBOLS, OPEN, SYMBOLS, EXIT], [CAPABILITIES, CLEAN, NOT_OPEN, CLEAN, OUTLINE], 1),
    ("a document opened twice", [INITIALIZE, OPEN, opened("b"), SYMBOLS], [CAPABILITIES, CLEAN, OUTLINE], 1),
    ("before initialize", [OPEN, SYMBOLS, EXIT], [refused(-32002, "not initialized")], 1),
    ("after shutdown", [INITIALIZE, OPEN, SHUTDOWN, SYMBOLS, closed(), EXIT], [CAPABILITIES, CLEAN, DOWN, refused(-32600, "invalid request")], 0),
    ("a second initialize", [INITIALIZE, INITIALIZE], [CAPABILITIES, refused(-32600, "invalid request", "1")], 1),
    (
        "an unknown request, and an unknown notice",
        [INITIALIZE, '{"id":"7","method":"$/unknown"}', '{"method":"$/unknown"}'],
        [CAPABILITIES, refused(-32601, "method not found", '"7"')],
        1,
    ),
    (
        "cancels of no request that waits, and of what is no id",
        [cancelled("2"), INITIALIZE, OPEN, cancelled("2"), cancelled('"x"'), cancelled("null"), cancelled("1.5"), CANCEL_NOTHING, SYMBOLS]
        + [SHUTDOWN, cancelled("2"), EXIT],
        [CAPABILITIES, CLEAN, OUTLINE, DOWN],
        0,
    ),
    (
        "a cancel in a request",
        [INITIALIZE, '{"id":2,"method":"$/cancelRequest","params":{"id":1}}'],
        [CAPABILITIES, refused(-32601, "method not found")],
        1,
    ),
    ("a notice's method in a request", [INITIALIZE, '{"id":"x","method":"textDocument/didOpen"}'], [CAPABILITIES, refused(-32601, "method not found", '"x"')], 1),
    ("no document", [INITIALIZE, '{"id":2,"method":"textDocument/documentSymbol","params":{}}'], [CAPABILITIES, INVALID_PARAMS], 1),
    ("no parameters", [INITIALIZE, '{"id":2,"method":"textDocument/documentSymbol"}'], [CAPABILITIES, INVALID_PARAMS], 1),
    (
        "bodies that are no message",
        [INITIALIZE, "[" * 128 + "]" * 128, "[" * 127 + "]" * 127, "", '{"id":2}', '{"id":2,"method":5}', OPEN, SYMBOLS],
        [CAPABILITIES, PARSE_ERROR, INVALID_REQUEST, PARSE_ERROR] + [refused(-32600, "invalid request")] * 2 + [CLEAN, OUTLINE],
        1,
    ),
    ("a method that isn't UTF-8", [INITIALIZE, b'{"id":1,"method":"\xff"}'], [CAPABILITIES, PARSE_ERROR], 1),
    (
        "what is no id",
        [INITIALIZE, *(f'{{"id":{said},"method":"shutdown"}}' for said in NO_IDS), SHUTDOWN, EXIT],
        [CAPABILITIES, *[INVALID_REQUEST] * len(NO_IDS), DOWN],
        0,
    ),
    (
        "the last ids that are some",
        [INITIALIZE, *(f'{{"id":{said},"method":"$/unknown"}}' for said in IDS)],
        [CAPABILITIES, *(refused(-32601, "method not found", said) for said in IDS)],
        1,
    ),
    ("a response", [INITIALIZE, '{"id":1,"error":{}}', '{"id":1,"result":null}'], [CAPABILITIES], 1),
    (
        "the 257th document",
        [INITIALIZE, *(opened("", f"file:///{number}") for number in range(256)), OPEN, SYMBOLS, closed("file:///9"), OPEN, SYMBOLS],
        [CAPABILITIES, *(published(uri=f"file:///{number}") for number in range(256)), NOT_OPEN, CLEAN, OUTLINE],
        1,
    ),
)


def symbol(name, line, end):
    starts = f'"start":{{"character":0,"line":{line}}}'
    ranges = f'"range":{{"end":{{"character":{end},"line":{line}}},{starts}}}'
    return f'{{"kind":12,"name":"{name}",{ranges},"selectionRange":{{"end":{{"character":{len(name)},"line":{line}}},{starts}}}}}'


def outline_after(text, changes, symbols):
    wanted = f'{{"id":2,"jsonrpc":"2.0","result":[{",".join(symbols)}]}}'
    return f"{changes[:80]} of {text!r}", [INITIALIZE, opened(text), changed(changes), SYMBOLS], [CAPABILITIES, wanted], 2


def whole(text):
    """The change by which this text takes the place of the whole one."""
    return f'[{{"text":{json.dumps(text, ensure_ascii=False)}}}]'


def closed_by(changes):
    return f"a document that {changes[:80]} closes", [INITIALIZE, opened("a="), changed(changes), SYMBOLS], [CAPABILITIES, NOT_OPEN], 1


EDITS = (
    # inside a surrogate pair is before it
    outline_after(";\U0001f600z", f"[{edit((0, 2), (0, 2), chr(10) + 'q =')}]", [symbol("q", 1, 6)]),
    outline_after(";a\U0001f600z", f"[{edit((0, 4), (0, 4), chr(10) + 'q =')}]", [symbol("q", 1, 4)]),
    outline_after("abc =", f"[{edit((0, 1), (0, 1), 'XY')},{edit((0, 2), (0, 4), '-')}]", [symbol("aX-c", 0, 6)]),
    # a range whose start is after its end
    outline_after("abcd =", f"[{edit((0, 3), (0, 1), '')}]", [symbol("ad", 0, 4)]),
    # a line past the last
    outline_after("ab\n", f"[{edit((9, 5), (9, 5), 'c=')}]", [symbol("c", 1, 2)]),
    # line ends that an edit joins, and that it takes away
    outline_after("a\r", f"[{edit((1, 0), (1, 0), chr(10) + 'b=')}]", [symbol("b", 1, 2)]),
    outline_after("a=\r\nb", f"[{edit((0, 2), (1, 0), '')}]", [symbol("a", 0, 3)]),
    outline_after("", '[{"text":"a = \\"x\\" ; c"}]', [symbol("a", 0, 7)]),
    outline_after("", '[{"text":"w = 1"},{"range":null,"text":"e ="}]', [symbol("e", 0, 3)]),
    closed_by(f'[{{"text":"{"x" * 4_194_305}"}},{{"text":"a="}}]'),
    closed_by("7"),
    closed_by('[{"range":{"start":{"line":-1,"character":0},"end":{"line":0,"character":0}},"text":""}]'),
)


def asked(method, beside, uri="file:///g"):
    """A request of this method about a document, with these parameters beside it, which are JSON."""
    return f'{{"id":2,"method":"textDocument/{method}","params":{{"textDocument":{{"uri":"{uri}"}}{beside}}}}}'


def replied(method, text, beside, answer, initialize=INITIALIZE):
    """A request about a text that is opened, and its answer."""
    return f"{method}{beside} in {text[:60]!r}", [initialize, opened(text), asked(method, beside)], [CAPABILITIES, answer], 1


def at(line, character):
    return f',"position":{{"character":{character},"line":{line}}}'


def places(*spans, uri="file:///g"):
    """Places: the line of each, its first character and the end."""
    listed = ",".join(f'{{"range":{span(*it)},"uri":"{uri}"}}' for it in spans)
    return f"[{listed}]"


def defined(text, character, *spans):
    """The definition at a character of the first line stands at these places."""
    return replied("definition", text, at(0, character), answered(places(*spans)))


NO_POSITIONS = (
    "",
    ',"position":null',
    ',"position":{"line":0}',
    ',"position":{"character":-1,"line":0}',
    ',"position":{"character":"0","line":0}',
)
SHORT = 'a=b\nb=""'

DEFINITIONS = (
    defined('a = B\nb = "x"\nB =/ "y"', 4, (1, 0, 1), (2, 0, 1)),
    defined('  a = b\n  b = "x"', 6, (1, 2, 3)),
    # a core rule has no place in the text, and neither has a name that nothing defines
    defined("a = DIGIT", 4),
    defined("a = nothing", 4),
    # no name stands there: a string, a comment, the end of the text
    defined('a = "a"', 4),
    defined("a = ; a", 6),
    defined("", 4),
    # a name ends where the cursor stands behind its last letter, also at the end of the line and past it
    defined(SHORT, 0, (0, 0, 1)),
    defined(SHORT, 1, (0, 0, 1)),
    defined(SHORT, 2, (1, 0, 1)),
    defined(SHORT, 3, (1, 0, 1)),
    defined(SHORT, 9, (1, 0, 1)),
    # characters outside the first plane are two units of UTF-16 each
    defined('a="\U0001f004\U0001f004" a', 9, (0, 0, 1)),
    *(replied("definition", "a = a", beside, INVALID_PARAMS) for beside in NO_POSITIONS),
)


def found(text, *findings):
    """What is published of a text that is opened."""
    return f"findings of {text!r}", [INITIALIZE, opened(text)], [CAPABILITIES, published(*findings)], 1


def unproductive(line, name):
    return line, 0, len(name), 2, "unproductive", f"rule {name} generates nothing"


def undefined(line, start, end, name):
    return line, start, end, 1, "undefined", f"undefined rule {name}"


def duplicate(line, name):
    return line, 0, len(name), 1, "duplicate", f"rule {name} is already defined"


def no_base(line, name):
    return line, 0, len(name), 2, "no-base", f"no earlier definition of {name}"


def empty_repeat(line, start, end):
    return line, start, end, 2, "empty-repeat", "repeat with minimum above maximum"


def empty_range(line, start, end):
    return line, start, end, 2, "empty-range", "range with low above high"


def syntax(start, end, message, line=0):
    return line, start, end, 1, "syntax", message


def bad(line, start):
    return syntax(start, start + 1, "bad character", line)


# Each rule needs one at the other end of those that are left.
TO_AND_FRO = "\n".join(
    (*map(" = ".join, "ax bw cv du et fs gr hq ip jo kn lm".split()), 'm = "x"', *map(" = ".join, "nl ok pj qi rh sg tf ue vd wc xb zz".split()))
)
ODD_AND_EVEN = "\n".join([f"r{n} = r{n - 1}" for n in (*range(1, 20, 2), *range(18, 0, -2))] + ['r0 = "x"'])

# What a client says of a version, and the one that it is told
LABELS = (("-5", -5), ("9223372036854775807", 9223372036854775807), *((said, 0) for said in ("null", "7.5", '"7"', "9223372036854775808", "[]", "{}")))

FINDINGS = (
    found('a = b "x"\nb = a', unproductive(0, "a"), unproductive(1, "b")),
    found('a = 0nope *nope [nope] "k"', *(undefined(0, start, start + 4, "nope") for start in (5, 11, 17))),
    found(
        'a = 3*2"x" / %x39-30',
        unproductive(0, "a"),
        empty_repeat(0, 4, 7),
        empty_range(0, 13, 20),
    ),
    found('A = "yy"\na = "z"\na =/ "x"', duplicate(1, "a")),
    found('a =/ "x"', no_base(0, "a")),
    found("a = b", unproductive(0, "a"), undefined(0, 4, 5, "b")),
    # core rules are there, in either case, and equal bounds and ends are not empty; what leads to prose may generate something
    *(found(text) for text in ("", "; c\n\n", "a = B digit\nb = 2*2%x30-30", "a = b\nb = <text>", "a = b\nb = <c> / b")),
    # that a rule generates nothing is told at its first head, as it is spelled there
    found('List = list\nLIST =/ list "x"', unproductive(0, "List")),
    # a block that doesn't count is looked at like any other
    found('a = "x"\na = "x"\n', duplicate(1, "a")),
    found('a = "x"\na = Nope 2*1"y"', duplicate(1, "a"), undefined(1, 4, 8, "Nope"), empty_repeat(1, 9, 12)),
    found('a =/ "x"\na = "y"\na =/ "z"', no_base(0, "a")),
    # of one place, in the order of the table
    found("b =/ b", no_base(0, "b"), unproductive(0, "b")),
    found(
        'a = b\nA = "x" / c\nb = a b\nd =/ d',
        *(unproductive(0, "a"), duplicate(1, "A"), undefined(1, 10, 11, "c"), unproductive(2, "b"), no_base(3, "d"), unproductive(3, "d")),
    ),
    # heads of faulty blocks define their names, and of what leads to them not all is known
    found('a = ?\na = "x"\nb = (\nb =/ "y"', bad(0, 4), duplicate(1, "a"), syntax(5, 5, "element expected", 2)),
    found("a = b\nb = c\nc = ?", bad(2, 4)),
    # rules that need each other to and fro, so that each look at all of them in their order tells of one alone
    found(TO_AND_FRO, unproductive(24, "z")),
    found(ODD_AND_EVEN),
    found('= "x"', syntax(0, 1, "rule name expected")),
    found('a "x"', syntax(2, 5, '"=" or "=/" expected')),
    found("a =", syntax(3, 3, "element expected")),
    found('a = 2 "x"', syntax(4, 5, "element expected")),
    found('a = "x""y"', syntax(7, 10, "blank expected")),
    found("a = (b", syntax(4, 5, "bracket not closed")),
    found("a = ?", syntax(4, 5, "bad character")),
    found("a = %x100000000", (0, 4, 15, 1, "number-too-large", "number too large")),
    # of brackets nested 65 deep the innermost
    *(found("a = " + "(" * 65 + rest, (0, 68, 69, 1, "too-deep", "brackets nested too deep")) for rest in ("", '"x"' + ")" * 65)),
    found('a = <text> / "x"\nb = "y"'),
    # characters outside the first plane are two units of UTF-16 each
    found("a = <\U0001f600> / b", undefined(0, 11, 12, "b")),
    # what is no integer of 64 bits is told as 0, and a change without edits is one
    (
        "findings by the versions that a client names, and by what is none",
        [INITIALIZE, OPEN, *(changed("[]").replace('"version":2', f'"version":{said}') for said, _ in LABELS)],
        [CAPABILITIES, CLEAN, *(published(label=label) for _, label in LABELS)],
        1,
    ),
    # the findings of each version, with the version that the client named; a change that closes publishes nothing
    (
        "findings of each version",
        [INITIALIZE, opened('a = b\n  "x"'), changed(f"[{edit((1, 0), (1, 2), 'b = ')}]"), changed(f"[{edit((0, 4), (0, 4), '(')}]"), changed("7")],
        [
            CAPABILITIES,
            published(unproductive(0, "a"), undefined(0, 4, 5, "b")),
            published(label=2),
            published(syntax(4, 5, "bracket not closed"), label=2),
        ],
        1,
    ),
)


def typed(what, text, *steps):
    """What is published of a text in which nothing is found, and again after each step: in it some characters of a line are replaced."""
    said = [changed(f"[{edit((line, start), (line, end), new)}]") for (line, start, end), new, *_ in steps]
    answers = [published(*findings, label=2) for _, _, *findings in steps]
    return f"findings while it is typed {what}", [INITIALIZE, opened(text), *said], [CAPABILITIES, CLEAN, *answers], 1


# Three rules, each of which uses the next, and a comment
RULES = 'a = b\nb = ("x" / c)\nc = 2"y" ; two\n'
NOT_CLOSED = syntax(4, 5, "bracket not closed", 1)
# What has only an undefined name generates nothing, and neither does what uses that.
ALONE = (unproductive(0, "a"), unproductive(1, "b"), undefined(1, 5, 6, "c"))


def planted(rfc, *mistake):
    """A mistake that is made in a grammar of examples/, in which nothing is found: none of these standards has a name without a rule, a second
    definition of a name, an empty repeat or range, or a rule that generates nothing. (The empty path of RFC 3986 is prose, `0<pchar>`.)"""
    return typed(f"in RFC {rfc}", text_of(f"{TOP}/examples/rfc{rfc}.abnf"), mistake)


TYPED = (
    # without its semicolon a comment is read
    typed(
        "in a comment",
        RULES,
        ((2, 14, 14), " (%"),
        ((2, 10, 17), "nope"),
        ((2, 9, 10), "", unproductive(2, "c"), undefined(2, 9, 13, "nope")),
        ((2, 9, 9), ";"),
    ),
    typed("at a bracket", RULES, ((1, 12, 13), "", NOT_CLOSED), ((1, 12, 12), "]", NOT_CLOSED), ((1, 12, 13), ")")),
    # a line that is indented belongs to the block before it: there `=` follows an element; then it is an alternative
    typed(
        "between blocks",
        RULES,
        ((2, 0, 0), " ", syntax(3, 4, "element expected", 2)),
        ((2, 1, 4), "/", undefined(1, 11, 12, "c")),
        ((2, 0, 2), "C =/", no_base(2, "C")),
        ((2, 2, 4), "="),
    ),
    typed(
        "in names",
        RULES,
        ((2, 0, 1), "d", undefined(1, 11, 12, "c")),
        ((1, 5, 11), "", *ALONE),
        ((2, 0, 1), "B", *ALONE, duplicate(2, "B")),
        ((2, 0, 1), "C"),
    ),
    # date-time = full-date "T" fulltime
    planted(3339, (19, 36, 37), "", unproductive(19, "date-time"), undefined(19, 32, 40, "fulltime")),
    # h16 = 4*1HEXDIG; an address can do without
    planted(3986, (41, 16, 19), "4*1", unproductive(41, "h16"), empty_repeat(41, 16, 19)),
    # rulelist = 1*( rule / (*c-wsp c-nl)
    planted(5234, (2, 43, 44), "", syntax(20, 21, "bracket not closed", 2)),
    # digit1-9 = %x39-31; a number may be zero
    planted(8259, (41, 11, 18), "%x39-31", unproductive(41, "digit1-9"), empty_range(41, 11, 18)),
)

# What stands behind both of two texts, so that most of their lines are the same and what is kept of one is used for the other
TAIL, LONG_TAIL = "\n" + 40 * "; c\n", "\n" + 6000 * ";\n"


def replaced(what, *pairs, tails=("", TAIL)):
    """What is published of texts, each with its findings, and of those that take their places, in each pair. All is let go when a document is
    closed."""
    said, answers = [INITIALIZE], [CAPABILITIES]
    for tail in tails:
        for (before, *found_before), (text, *found) in pairs:
            said += [opened(before + tail), changed(whole(text + tail)), closed()]
            answers += [published(*found_before), published(*found, label=2)]
    return f"findings of texts in the place of others: {what}", said, answers, 1


def in_turn(*texts):
    """Each text with its findings, and the one that takes its place."""
    return zip(texts, texts[1:])


B_ALONE = unproductive(1, "b")
LINES = ('a = "x" "y"\nb = c ?\n', bad(1, 6))
A_BLOCK = ('; c\n\na = "x"\n "y"\n "z"\nb = c ?\n', bad(5, 6))
WITH_COMMENT = ('; c\n\na = "x"\n "y" ; c\n "z"\nb = c ?\n', bad(5, 6))
LONGER = ('; c\n\na = "x"\n "y"\n; c\n "z"\nb = c ?\n', bad(6, 6))
PARTED = ('; c\n\na = "x"\nd = "y"\n "z"\nb = c ?\n', bad(5, 6))
LAST_ALONE = ('a = "x"\nb = "y"\nc = d', unproductive(2, "c"), undefined(2, 4, 5, "d"))
BLANK = ("\n\n; c\n\na = b\n", unproductive(4, "a"), undefined(4, 4, 5, "b"))
# The first line with content stands deep behind others.
DEEP = 200 * "; c\n"
DEEP_RULES = f"{DEEP}  a = %x20\n  b = a\n"


def numbered(letter, count):
    """So many rules with names of their own, all of which lead to the first of them, which needs itself."""
    rules = "".join(f"{letter}{n} = {letter}{n // 2}\n" for n in range(count))
    return f"start = %x20\n{rules}", *(unproductive(1 + n, f"{letter}{n}") for n in range(count))


def alternatives(count, before=""):
    """A rule of so many names that no rule has, behind some lines."""
    lines, head = "".join(f"  / n{n}\n" for n in range(count)), 1 + before.count("\n")
    return f"{before}start = %x20\n{lines}", *(undefined(head + n, 4, 5 + len(str(n)), f"n{n}") for n in range(count))


REPLACED = (
    replaced(
        "comments and quotes",
        *in_turn(('a = "x"\nb = b', B_ALONE), ('a = "x" ; y\nb = b', B_ALONE), ('a = "y"\nb = b', B_ALONE)),
        (("a = <x>\nb = b", B_ALONE), ("a = <no x>\nb = b", B_ALONE)),
        (("a = c c\nb = b\nc = %x20", B_ALONE), ("a = c  C\nb = b\nc = %x20", B_ALONE)),
    ),
    replaced(
        "lines",
        (LINES, LINES),
        (LINES, ('\na = "x" "y"\nb = c ?\n', bad(2, 6))),
        (LINES, ('a = "x"\n "y"\nb = c ?\n', bad(2, 6))),
        (LINES, ('a = "x" "y"\n; c\nb = c ?\n', bad(2, 6))),
        (LINES, ('a = "x" "y"\r\nb = c ?\r\n', bad(1, 6))),
        (("; c\n\na = b\n", unproductive(2, "a"), undefined(2, 4, 5, "b")), ("a = b\n", unproductive(0, "a"), undefined(0, 4, 5, "b"))),
    ),
    replaced(
        "a block of lines",
        *in_turn(A_BLOCK, WITH_COMMENT, A_BLOCK, ('; c\n\na = "x" ; c\n "y"\n "z"\nb = c ?\n', bad(5, 6))),
        # lines come and go inside the block, and before it
        *in_turn(A_BLOCK, LONGER, A_BLOCK, ('; c\n\n\na = "x"\n "y"\n "z"\nb = c ?\n', bad(6, 6))),
        (A_BLOCK, ('\na = "x"\n\n "y"\n "z"\nb = c ?\n', bad(5, 6))),
        # a line inside the block begins another one, and goes on with it again
        *in_turn(A_BLOCK, PARTED, A_BLOCK),
        # a name in a line of the block is another one
        (A_BLOCK, ('; c\n\na = "x"\n d\n "z"\nb = c ?\n', unproductive(2, "a"), undefined(3, 1, 2, "d"), bad(5, 6))),
    ),
    replaced(
        "other items",
        (('a = b\nb = "x"',), ('a = c\nb = "x"', unproductive(0, "a"), undefined(0, 4, 5, "c"))),
        (('a = "x"\nb = c a\nc = b', B_ALONE, unproductive(2, "c")), ('a = "x"\nc = b / a', undefined(1, 4, 5, "b"))),
        (('a = "x" "y"',), ('a = "x""y"', syntax(7, 10, "blank expected"))),
        (('a = "x"\nb = "y"',), ('a = "x"\nb =/ "y"', no_base(1, "b"))),
        # a line that continued a rule begins a block
        (('a = "x"\n "y"',), ('a = "x"\n"y"', syntax(0, 3, "rule name expected", 1))),
        # rules come and go in the middle, and what stands behind them is told by its new lines
        (LAST_ALONE, ('a = "x"\ne = a\nf = a\nc = d', unproductive(3, "c"), undefined(3, 4, 5, "d"))),
        (LAST_ALONE, ("c = d", unproductive(0, "c"), undefined(0, 4, 5, "d"))),
    ),
    replaced(
        "blocks with findings",
        *in_turn(*((text, unproductive(0, "a"), undefined(0, 4, 5, "b")) for text in ("a = b", "a = b ; c"))),
        *in_turn(('a = ?\nb = "x"', bad(0, 4)), ('a = ?\n\nb = "x"', bad(0, 4))),
    ),
    replaced(
        "another indent",
        ((' a = "x"\n b = "y"',), ('a = "x"\n "y"',)),
        (('a = b\nb = "x"',), ('  a = b\n  b = "x"',)),
        (('a = "x"',), ("",)),
    ),
    replaced(
        "many new names",
        *in_turn(numbered("a", 20), numbered("b", 1500), numbered("a", 20)),
        (numbered("b", 1500), numbered("c", 1500)),
        tails=("", LONG_TAIL),
    ),
    replaced(
        "a long block",
        *in_turn(("start = %x20\n",), alternatives(1500), alternatives(1501)),
        (alternatives(1500), alternatives(1500, "; c\n")),
        tails=("",),
    ),
    replaced(
        "both ends at once",
        (
            ("a = b\nb = c ; d\nc = d\nd = %x20\n",),
            ("a = b b\nb = c ; d\nc = d\nd = e\n", *(unproductive(line, name) for line, name in enumerate("abcd")), undefined(3, 4, 5, "e")),
        ),
        # blocks come and go between them, and stand in another order
        (("a = b\nb = %x20\nc = %x21\nd = %x22\ne = a",), ("a = c\nd = %x22\nx = a\nb = %x20 ; y\n c\nc = %x21\ne = x",)),
        # a block with a fault stands between them
        (("a = %x20\nb = ?\nc = a", bad(1, 4)), ("a = %x21\nb = ?\nc = b", bad(1, 4))),
    ),
    replaced(
        "lines above all rules",
        (BLANK, ("\n ; d\n; c\n\na = b\n", *BLANK[1:])),
        *((BLANK, (text,)) for text in ("\n\n; c\nb = %x20\na = b\n", "\n\n; c\n\n")),
        *((("\n\n\n",), it) for it in (("\n; c\n\n",), BLANK)),
    ),
    # in the last of them all is one block: there `=` follows an element
    replaced(
        "the first line with content deep behind others",
        *(((DEEP_RULES,), (text,)) for text in (f"{DEEP}  a = %x20 ; c\n  b = a a\n", f"\n{DEEP_RULES}", DEEP)),
        ((DEEP,), (DEEP_RULES,)),
        ((DEEP_RULES,), (f" c = a\n{DEEP_RULES}", syntax(4, 5, "element expected", 201))),
        tails=("",),
    ),
)


def shown_at(shown, place):
    return answered(f'{{"contents":{{"kind":"plaintext","value":{json.dumps(shown)}}},"range":{span(*place)}}}')


def hovered(text, line, character, shown, place):
    return replied("hover", text, at(line, character), answered("null") if shown is None else shown_at(shown, place))


def length(number, example):
    return f"shortest length {number}\nexample {example}"


CORE = 'LF = "n"\na = CRLF HEXDIG'
NESTED = 'r0 = "x"\n' + "".join(f"r{number} = 2r{number - 1}\n" for number in range(1, 65))

HOVERS = (
    hovered('a = "x"', 0, 0, length(1, "x"), (0, 0, 1)),
    # behind the name's last letter too, and nowhere else
    hovered('a = "x"', 0, 1, length(1, "x"), (0, 0, 1)),
    hovered('a = "x"', 0, 2, None, None),
    hovered('a = "x"', 0, 5, None, None),
    hovered('a = a / ""', 0, 4, length(0, ""), (0, 4, 5)),
    hovered('a = b "x"\nb = a', 1, 4, "generates nothing", (1, 4, 5)),
    hovered('a = <text> / "x"\nb = "y"', 0, 0, "not known", (0, 0, 1)),
    hovered('a = <text> / "x"\nb = "y"', 1, 0, length(1, "y"), (1, 0, 1)),
    hovered("a = nope", 0, 5, "undefined", (0, 4, 8)),
    # names are read without case
    hovered('a = B\nb = "\\"', 0, 4, length(1, "\\\\"), (0, 4, 5)),
    # the text's own LF, and the core rule's in CRLF
    hovered(CORE, 0, 0, length(1, "n"), (0, 0, 2)),
    hovered(CORE, 1, 0, length(3, "\\x{D}\\x{A}A"), (1, 0, 1)),
    hovered(CORE, 1, 5, length(2, "\\x{D}\\x{A}"), (1, 4, 8)),
    hovered(NESTED, 13, 0, "shortest length 8192\nexample not shown", (13, 0, 3)),
    hovered(NESTED, 64, 0, "shortest length 18446744073709551615 or more", (64, 0, 3)),
)
# a body of 180 bytes
assert len(HOVERS[0][2][1]) == 180, len(HOVERS[0][2][1])

LIST = 'item = "i"\nlist = 1*Item ; item'


def context(said):
    """Whether the places that define a name are wanted; this is JSON."""
    return f',"context":{{"includeDeclaration":{said}}}'


WITH, WITHOUT = context("true"), context("false")


def referred(text, line, character, context, *spans):
    return replied("references", text, at(line, character) + context, answered(places(*spans)))


# A second definition, which doesn't count, and faulty blocks
FAULTY = 'a = "x"\nA = (a\nb = ? a'
# What follows a bad token or a number at once is no place
TOUCHED = 'g = "x"\na = ?g %x41g g'

REFERENCES = (
    referred(LIST, 0, 0, WITHOUT, (1, 9, 13)),
    referred(LIST, 0, 0, WITH, (0, 0, 4), (1, 9, 13)),
    referred(LIST, 0, 4, WITHOUT, (1, 9, 13)),
    # false alone leaves the defining places out
    *(
        referred(LIST, 1, 13, beside, (0, 0, 4), (1, 9, 13))
        for beside in ("", ',"context":null', ',"context":{}', context("null"), context('"false"'), context("0"))
    ),
    # in a comment, in a string and in no text there is no name
    referred(LIST, 1, 16, WITH),
    referred(LIST, 0, 8, WITH),
    referred("", 0, 0, WITH),
    # core rules and what nothing defines have their uses
    referred("a = DIGIT digit", 0, 4, WITH, (0, 4, 9), (0, 10, 15)),
    referred("a = nope\nb = NOPE", 0, 8, WITHOUT, (0, 4, 8), (1, 4, 8)),
    referred(FAULTY, 0, 0, WITH, (0, 0, 1), (1, 0, 1), (1, 5, 6), (2, 6, 7)),
    referred(FAULTY, 2, 6, WITHOUT, (1, 5, 6), (2, 6, 7)),
    referred(TOUCHED, 0, 0, WITH, (0, 0, 1), (1, 13, 14)),
    referred(TOUCHED, 1, 5, WITH),
    referred(TOUCHED, 1, 11, WITH),
    referred('a =/ "x"\na = a', 1, 4, WITH, (0, 0, 1), (1, 0, 1), (1, 4, 5)),
    referred('a =/ "x"\na = a', 1, 4, WITHOUT, (1, 4, 5)),
    # characters outside the first plane are two units of UTF-16 each
    referred('b = "x"\na = <\U0001f600\U0001f600> b', 0, 0, WITHOUT, (1, 11, 12)),
    *(replied("references", "a = a", beside + WITH, INVALID_PARAMS) for beside in NO_POSITIONS),
)


def edits(new, *spans):
    """The text that each of these places gets."""
    listed = ",".join(f'{{"newText":{json.dumps(new)},"range":{span(*it)}}}' for it in spans)
    return f"[{listed}]"


def workspace_edit(made, uri="file:///g"):
    """Edits of a document, for a client that takes no links."""
    return f'{{"changes":{{"{uri}":{made}}}}}'


def linked_edit(made, label=1, uri="file:///g"):
    """Edits of a version of a document, for a client that takes links."""
    return f'{{"documentChanges":[{{"edits":{made},"textDocument":{{"uri":"{uri}","version":{label}}}}}]}}'


def named(new):
    """A new name, which is JSON."""
    return f',"newName":{new}'


def renamed(text, line, character, new, *spans):
    """A rename that is granted: each of these places gets the new name."""
    return replied("rename", text, at(line, character) + named(json.dumps(new)), answered(workspace_edit(edits(new, *spans))))


def kept(text, line, character, new, why):
    """A rename that is refused."""
    return replied("rename", text, at(line, character) + named(json.dumps(new)), refused(-32803, why))


# How many bytes a unit of each encoding has, and how Python writes it
CODECS = {"utf-8": (1, "utf-8"), "utf-16": (2, "utf-16-le"), "utf-32": (4, "utf-32-le")}


def with_edits(text, new, spans, encoding):
    """A text with a new name in these places, from the last to the first."""
    size, codec = CODECS[encoding]
    lines = [line.encode(codec) for line in text.split("\n")]
    for line, start, end in reversed(spans):
        lines[line] = lines[line][: size * start] + new.encode(codec) + lines[line][size * end :]
    return "\n".join(line.decode(codec) for line in lines)


def heads_told(text, told):
    """A hover at the head in each of some lines, with what is shown there."""
    for line, shown in told:
        start, end = re.search("[A-Za-z0-9-]+", text.split("\n")[line]).span()
        yield asked("hover", at(line, start)), shown_at(shown, (line, start, end))


def keeps(text, line, character, new, spans, after, *told, encoding="utf-16"):
    """A rename that is granted: each of these places gets the new name. The client makes the edits, from the last to the first, which gives
    another text. At the heads in some lines the same is shown before and after it."""
    assert with_edits(text, new, spans, encoding) == after, (text, new)
    then, now = ([*heads_told(it, told)] for it in (text, after))
    rename = asked("rename", at(line, character) + named(json.dumps(new))), answered(workspace_edit(edits(new, *spans)))
    made = ",".join(edit((at_line, start), (at_line, end), new) for at_line, start, end in reversed(spans))
    said = [INITIALIZE, opened(text), *(it for it, _ in then), rename[0], changed(f"[{made}]"), *(it for it, _ in now)]
    return f"a rename to {new} that is made in {text!r}", said, [CAPABILITIES, *(it for _, it in (*then, rename, *now))], 2


NOT_A_NAME, NOTHING, IN_USE = "not a rule name", "nothing to rename", "name in use"
ITEM = at(0, 0) + named('"ITEM2"')
ITEM_EDITS = edits("ITEM2", (0, 0, 4), (1, 9, 13))
RENAMED = (
    '{"id":2,"jsonrpc":"2.0","result":{"changes":{"file:///g":['
    '{"newText":"ITEM2","range":{"end":{"character":4,"line":0},"start":{"character":0,"line":0}}},'
    '{"newText":"ITEM2","range":{"end":{"character":13,"line":1},"start":{"character":9,"line":1}}}]}}}'
)
LINKED = (
    '{"id":2,"jsonrpc":"2.0","result":{"documentChanges":[{"edits":['
    '{"newText":"ITEM2","range":{"end":{"character":4,"line":0},"start":{"character":0,"line":0}}},'
    '{"newText":"ITEM2","range":{"end":{"character":13,"line":1},"start":{"character":9,"line":1}}}],'
    '"textDocument":{"uri":"file:///g","version":1}}]}}'
)
assert (RENAMED, LINKED) == (answered(workspace_edit(ITEM_EDITS)), answered(linked_edit(ITEM_EDITS)))
LINKS = takes_links("true")
DIGITS = 'DIGIT = "0"\nn = 2DIGIT HEXDIG'
# A uri as a client may write it, and as JSON writes it with the shortest escapes
ODD, SHORTEST = r"file:\/\/\/\u0009\u0022\\\u00e9", r"file:///\t\"\\é"


def odd(initialize, method, beside, result):
    """A request about a document whose uri has characters that JSON escapes."""
    said = [initialize, opened(LIST, ODD), asked(method, beside, r"file:///\t\"\\\u00E9")]
    return f"{method} of a uri with escapes, {result[:30]}", said, [CAPABILITIES, answered(result)], 1


RENAMES = (
    replied("rename", LIST, ITEM, RENAMED),
    replied("rename", LIST, ITEM, LINKED, initialize=LINKS),
    replied("rename", LIST, at(0, 4) + named('"ITEM2"'), RENAMED),
    # true alone says that links are taken
    *(replied("rename", LIST, ITEM, RENAMED, initialize=takes_links(said)) for said in ("false", "null", '"true"', "1")),
    (
        "a rename in the version that the client named",
        [LINKS, opened(LIST), changed(f"[{edit((0, 0), (0, 0), ';' + chr(10))}]"), asked("rename", at(1, 0) + named('"b"'))],
        [CAPABILITIES, answered(linked_edit(edits("b", (1, 0, 4), (2, 9, 13)), label=2))],
        2,
    ),
    odd(INITIALIZE, "rename", ITEM, workspace_edit(ITEM_EDITS, SHORTEST)),
    odd(LINKS, "rename", ITEM, linked_edit(ITEM_EDITS, uri=SHORTEST)),
    odd(INITIALIZE, "references", at(0, 0) + WITH, places((0, 0, 4), (1, 9, 13), uri=SHORTEST)),
    # the same name, and the same in another case
    renamed(LIST, 0, 0, "item", (0, 0, 4), (1, 9, 13)),
    renamed(LIST, 1, 9, "ITEM", (0, 0, 4), (1, 9, 13)),
    renamed('digit = "0"', 0, 0, "DIGIT", (0, 0, 5)),
    renamed(LIST, 1, 0, "a-2-", (1, 0, 4)),
    *(kept(LIST, 0, 0, new, NOT_A_NAME) for new in ("2x", "", "-a", "a b", "a_b", "a\u00e9", "<a>", "a\n")),
    *(kept(LIST, 0, 0, new, IN_USE) for new in ("digit", "LIST", "Crlf", "list", "WSP")),
    *(kept(LIST, line, character, new, NOTHING) for new in ("a", "thing") for line, character in ((1, 16), (0, 5), (0, 8))),
    kept("", 0, 0, "b", NOTHING),
    # a core rule, a name that nothing defines, and what follows a bad token at once
    kept("a = DIGIT", 0, 4, "b", NOTHING),
    kept("a = nope", 0, 4, "b", NOTHING),
    kept('a = %item\nitem = "i"', 0, 6, "x41", NOTHING),
    # what is tested first is told
    kept(LIST, 1, 16, "2x", NOT_A_NAME),
    kept(LIST, 1, 16, "LIST", NOTHING),
    # a name is in use where something uses it, in a faulty block too, but not in a comment or as part of something misspelled
    kept("a = nope", 0, 0, "NOPE", IN_USE),
    kept('a = "x"\nb = (c', 0, 0, "c", IN_USE),
    kept('a = "x"\nb = " c', 0, 0, "C", IN_USE),
    renamed('a = "x"\nb = "c', 0, 0, "c", (0, 0, 1)),
    renamed('a = "x" ; c', 0, 0, "c", (0, 0, 1)),
    renamed(FAULTY, 2, 6, "c", (0, 0, 1), (1, 0, 1), (1, 5, 6), (2, 6, 7)),
    renamed('a = %item\nitem = "i"', 1, 0, "x41", (1, 0, 4)),
    renamed(DIGITS, 0, 0, "d0", (0, 0, 5), (1, 5, 10)),
    # its edits, from the last to the first, leave what is shown as it was
    (
        "a rename that the client makes, and the same hover before and after it",
        [
            INITIALIZE,
            opened(DIGITS),
            asked("hover", at(1, 0)),
            asked("rename", at(1, 5) + named('"d0"')),
            changed(f"[{edit((1, 5), (1, 10), 'd0')},{edit((0, 0), (0, 5), 'd0')}]"),
            asked("hover", at(1, 0)),
            asked("references", at(0, 0) + WITH),
        ],
        [
            CAPABILITIES,
            shown_at(length(3, "00A"), (1, 0, 1)),
            answered(workspace_edit(edits("d0", (0, 0, 5), (1, 5, 10)))),
            shown_at(length(3, "00A"), (1, 0, 1)),
            answered(places((0, 0, 2), (1, 5, 7))),
        ],
        2,
    ),
    *(replied("rename", "a = a", beside + named('"b"'), INVALID_PARAMS) for beside in NO_POSITIONS),
    *(replied("rename", "a = a", at(0, 0) + beside, INVALID_PARAMS) for beside in ("", named("null"), named("5"), named('["b"]'))),
)


IS_NOT_KNOWN, NO_STRING = "not known", "generates nothing"
IS_X, IS_Y, IS_I = (length(1, it) for it in "xyi")
EACH_IS_I = ((0, IS_I), (1, IS_I))
ITEMS = ((0, 0, 4), (1, 9, 13))

MADE = (
    # names in any case; all places get the new name as it is given
    *(keeps(LIST, 0, at, "ITEM2", ITEMS, 'ITEM2 = "i"\nlist = 1*ITEM2 ; item', *EACH_IS_I) for at in (0, 4)),
    keeps(LIST, 0, 1, "ITEM", ITEMS, 'ITEM = "i"\nlist = 1*ITEM ; item', *EACH_IS_I),
    keeps(LIST, 0, 0, "item", ITEMS, 'item = "i"\nlist = 1*item ; item', *EACH_IS_I),
    # of heads
    keeps("a = %x41 ; c", 0, 0, "letter", [(0, 0, 1)], "letter = %x41 ; c", (0, length(1, "A"))),
    keeps('a = "x" / a a', 0, 0, "c", [(0, 0, 1), (0, 10, 11), (0, 12, 13)], 'c = "x" / c c', (0, IS_X)),
    # blocks that add to a rule, without one that defines it too
    keeps(
        *('a = "xx"\na =/ "y"\nA =/ "zzz"', 2, 0, "b", [(0, 0, 1), (1, 0, 1), (2, 0, 1)], 'b = "xx"\nb =/ "y"\nb =/ "zzz"'),
        *((line, IS_Y) for line in range(3)),
    ),
    keeps('a =/ "x" / 2a', 0, 0, "b", [(0, 0, 1), (0, 12, 13)], 'b =/ "x" / 2b', (0, IS_X)),
    # a second definition doesn't count
    keeps(
        *('a = "x"\nA = "yy"\nb = a', 1, 0, "c", [(0, 0, 1), (1, 0, 1), (2, 4, 5)], 'c = "x"\nc = "yy"\nb = c'),
        *((line, IS_X) for line in range(3)),
    ),
    # inside a core rule names stand for core rules alone, so the digit of HEXDIG isn't the text's own
    keeps(DIGITS, 0, 0, "d0", [(0, 0, 5), (1, 5, 10)], 'd0 = "0"\nn = 2d0 HEXDIG', (0, length(1, "0")), (1, length(3, "00A"))),
    keeps(
        *('LF = "n"\na = LF CRLF', 1, 4, "new-line", [(0, 0, 2), (1, 4, 6)], 'new-line = "n"\na = new-line CRLF'),
        *((0, length(1, "n")), (1, length(3, "n\\x{D}\\x{A}"))),
    ),
    # behind repeats and in brackets
    keeps(
        *('a = *b 2b 1*2b *3(b)\nb = "x"', 1, 0, "c-1", [(0, 5, 6), (0, 8, 9), (0, 13, 14), (0, 18, 19), (1, 0, 1)]),
        *('a = *c-1 2c-1 1*2c-1 *3(c-1)\nc-1 = "x"', (0, length(3, "xxx")), (1, IS_X)),
    ),
    keeps(
        *('a = (b/b [B])\nb = "x"', 0, 5, "long-name", [(0, 5, 6), (0, 7, 8), (0, 10, 11), (1, 0, 1)]),
        *('a = (long-name/long-name [long-name])\nlong-name = "x"', (0, IS_X), (1, IS_X)),
    ),
    # what stands in strings, comments and prose is no name
    keeps(
        *('a = "b" b %s"b" ; b\nb = "y"', 0, 8, "c", [(0, 8, 9), (1, 0, 1)]),
        *('a = "b" c %s"b" ; b\nc = "y"', (0, length(3, "byb")), (1, IS_Y)),
    ),
    # the name ends where the position stands
    keeps('a=b\nb=""', 0, 3, "c", [(0, 2, 3), (1, 0, 1)], 'a=c\nc=""', (0, length(0, "")), (1, length(0, ""))),
    # over lines
    keeps(
        *('a = b ; b\n  / c ; c\nb = "bb"\nc = "c"', 1, 4, "last", [(1, 4, 5), (3, 0, 1)]),
        *('a = b ; b\n  / last ; c\nb = "bb"\nlast = "c"', (0, length(1, "c")), (2, length(2, "bb")), (3, length(1, "c"))),
    ),
    keeps('\ta\t=\t"x"\r\n\tb\t=\tA\r\n', 0, 1, "c", [(0, 1, 2), (1, 5, 6)], '\tc\t=\t"x"\r\n\tb\t=\tc\r\n', (0, IS_X), (1, IS_X)),
    # characters outside the first plane are two units of UTF-16 each
    keeps(
        *('a = <\U0001f600> b \U0001f600 b\nb = "x" ; \U0001f600', 0, 9, "bee", [(0, 9, 10), (0, 14, 15), (1, 0, 1)]),
        *('a = <\U0001f600> bee \U0001f600 bee\nbee = "x" ; \U0001f600', (0, IS_NOT_KNOWN), (1, IS_X)),
    ),
    # in faulty blocks
    keeps(
        *('a = "x"\nb = (a\nc = ? A\na b', 0, 0, "d", [(0, 0, 1), (1, 5, 6), (2, 6, 7), (3, 0, 1)]),
        *('d = "x"\nb = (d\nc = ? d\nd b', (0, IS_X), (1, IS_NOT_KNOWN), (2, IS_NOT_KNOWN)),
    ),
    keeps("a = (b\nb = a", 1, 4, "c", [(0, 0, 1), (1, 4, 5)], "c = (b\nb = c", (0, IS_NOT_KNOWN), (1, IS_NOT_KNOWN)),
    # a name that nothing defines has no rule, so what needs it generates nothing
    keeps('a = nope b\nb = "x"', 1, 0, "c", [(0, 9, 10), (1, 0, 1)], 'a = nope c\nc = "x"', (0, NO_STRING), (1, IS_X)),
    # what follows a bad token or a number at once is part of something misspelled, which a new name could mend: `%x41` is a number
    keeps('a = %item\nitem = "i"', 1, 0, "x41", [(1, 0, 4)], 'a = %item\nx41 = "i"', (0, IS_NOT_KNOWN), (1, IS_I)),
    keeps('a = %x41g g\ng = "x"', 1, 0, "b", [(0, 10, 11), (1, 0, 1)], 'a = %x41g b\nb = "x"', (0, IS_NOT_KNOWN), (1, IS_X)),
    # a quotation mark that isn't closed, and prose that isn't
    keeps('a = "item item\nitem = "i"', 1, 0, "thing", [(0, 10, 14), (1, 0, 4)], 'a = "item thing\nthing = "i"', (0, IS_NOT_KNOWN), (1, IS_I)),
    keeps('a = <item item\nitem = "i"', 0, 10, "thing", [(0, 10, 14), (1, 0, 4)], 'a = <item thing\nthing = "i"', (0, IS_NOT_KNOWN), (1, IS_I)),
)


def ranged(start, end):
    ends = [f'{{"line":{line},"character":{character}}}' for line, character in (start, end)]
    return f',"range":{{"start":{ends[0]},"end":{ends[1]}}}'


def action(edit):
    return f'[{{"edit":{edit},"kind":"refactor","title":"Insert shortest example"}}]'


def inserted(line, example):
    """The edits that insert an example before a line."""
    return edits(f"; example {example}\n", (line, 0, 0))


def offered(text, start, end, line, example):
    """At a range the example can be inserted before this line."""
    return replied("codeAction", text, ranged(start, end), answered(action(workspace_edit(inserted(line, example)))))


def not_offered(text, start, end):
    return replied("codeAction", text, ranged(start, end), NONE)


LETTER = "a = %x41 ; c"
OFFERED = (
    '{"id":2,"jsonrpc":"2.0","result":[{"edit":{"changes":{"file:///g":[{"newText":"; example A\\n",'
    '"range":{"end":{"character":0,"line":0},"start":{"character":0,"line":0}}}]}},"kind":"refactor","title":"Insert shortest example"}]}'
)
assert OFFERED == answered(action(workspace_edit(inserted(0, "A"))))

ACTIONS = (
    replied("codeAction", LETTER, ranged((0, 0), (0, 0)), OFFERED),
    # what stands beside the range is ignored
    replied("codeAction", LETTER, ranged((0, 0), (0, 0)) + ',"context":7', OFFERED),
    replied("codeAction", LETTER, ranged((0, 0), (0, 0)), answered(action(linked_edit(inserted(0, "A")))), initialize=LINKS),
    odd(INITIALIZE, "codeAction", ranged((1, 9), (1, 9)), action(workspace_edit(inserted(0, "i"), SHORTEST))),
    odd(LINKS, "codeAction", ranged((1, 9), (1, 9)), action(linked_edit(inserted(0, "i"), uri=SHORTEST))),
    # the name at the start counts, whichever end that is
    offered(LETTER, (0, 0), (0, 12), 0, "A"),
    offered(LETTER, (0, 12), (0, 0), 0, "A"),
    offered(LETTER, (0, 1), (0, 1), 0, "A"),
    not_offered(LETTER, (0, 2), (0, 2)),
    not_offered(LETTER, (0, 11), (0, 11)),
    offered(LIST, (1, 0), (1, 4), 1, "i"),
    offered(LIST, (1, 0), (0, 0), 0, "i"),
    not_offered(LIST, (0, 5), (1, 0)),
    # from a use, before the line of the first place that defines the name
    offered(LIST, (1, 9), (1, 13), 0, "i"),
    offered('a =/ "y"\na = "xx"', (1, 0), (1, 0), 0, "y"),
    offered('a = "xx"\na = "y"', (1, 0), (1, 0), 0, "xx"),
    offered('a =/ "x"', (0, 0), (0, 0), 0, "x"),
    # a core rule has no line in the text, unless the text defines it
    not_offered("a = DIGIT", (0, 4), (0, 4)),
    offered('DIGIT = "7"\na = digit', (1, 4), (1, 4), 0, "7"),
    not_offered("a = nope", (0, 4), (0, 4)),
    # it comes at the line's start, and its line end is LF
    offered('  b = "y"\r\n  a = CRLF', (1, 2), (1, 2), 1, "\\x{D}\\x{A}"),
    offered('a = ""', (0, 0), (0, 0), 0, ""),
    offered('a = "\\" %x1F600', (0, 0), (0, 0), 0, "\\\\\\x{1F600}"),
    # a rule with a fault, one that leads there, prose, and one that generates nothing
    not_offered("a = (b", (0, 0), (0, 0)),
    not_offered("a = b\nb = ?", (0, 0), (0, 0)),
    not_offered("a = <text>", (0, 0), (0, 0)),
    not_offered("a = a", (0, 0), (0, 0)),
    # of the length 4,096, and longer
    offered('a = 4096"x"', (0, 0), (0, 0), 0, "x" * 4096),
    not_offered('a = 4097"x"', (0, 0), (0, 0)),
    not_offered("", (0, 0), (0, 0)),
    *(
        replied("codeAction", "a = a", beside, INVALID_PARAMS)
        for beside in (
            "",
            ',"range":null',
            ',"range":[]',
            ',"range":{"start":{"line":0,"character":0}}',
            ',"range":{"end":{"line":0,"character":0}}',
            ranged((0, 0), (0, -1)),
        )
    ),
)


def classed(text, *tokens):
    """The tokens of a text: lines below the one before, characters behind it or from the line's start, length, type and modifiers."""
    numbers = ",".join(str(number) for token in tokens for number in token)
    return replied("semanticTokens/full", text, "", answered(f'{{"data":[{numbers}]}}'))


# The legend: types and modifiers
NAME, QUOTED, NUMBER, OPERATOR, COMMENT, PROSE = range(6)
USE, DEFINES, IS_CORE = 0, 1, 2
# A name at the start of a line that it defines, and its `=` behind a blank
HEAD = ((0, 0, 1, NAME, DEFINES), (0, 2, 1, OPERATOR, 0))
NEXT = ((1, 0, 1, NAME, DEFINES), (0, 2, 1, OPERATOR, 0))
CLASSED = '{"id":2,"jsonrpc":"2.0","result":{"data":[0,0,1,0,1,0,2,1,3,0,0,2,4,2,0,0,5,3,4,0]}}'

TOKENS = (
    replied("semanticTokens/full", LETTER, "", CLASSED),
    classed(""),
    classed('a = "x"', *HEAD, (0, 2, 3, QUOTED, 0)),
    # lines that are empty or hold a comment, and a rule that is indented
    classed('\n\n; c\n  a = "x"', (2, 0, 3, COMMENT, 0), (1, 2, 1, NAME, DEFINES), (0, 2, 1, OPERATOR, 0), (0, 2, 3, QUOTED, 0)),
    # line ends belong to no token
    classed("a = b ; c\r\nb = a\rc = b\n", *HEAD, (0, 2, 1, NAME, USE), (0, 2, 3, COMMENT, 0), *NEXT, (0, 2, 1, NAME, USE), *NEXT, (0, 2, 1, NAME, USE)),
    # blanks belong to none either, but in a comment
    classed('a\t=\t%s"x"\t;\tc', *HEAD, (0, 2, 5, QUOTED, 0), (0, 6, 3, COMMENT, 0)),
    # characters outside the first plane are two units of UTF-16 each
    classed("; \U0001f600\na = <\U0001f600> / b", (0, 0, 4, COMMENT, 0), *NEXT, (0, 2, 4, PROSE, 0), (0, 5, 1, OPERATOR, 0), (0, 2, 1, NAME, USE)),
    classed('a = \U0001f600 "x"', *HEAD, (0, 5, 3, QUOTED, 0)),
    classed(
        "a =/ 1*2( b / [ c ] )",
        (0, 0, 1, NAME, DEFINES),
        (0, 2, 2, OPERATOR, 0),
        (0, 3, 3, OPERATOR, 0),
        (0, 3, 1, OPERATOR, 0),
        (0, 2, 1, NAME, USE),
        (0, 2, 1, OPERATOR, 0),
        (0, 2, 1, OPERATOR, 0),
        (0, 2, 1, NAME, USE),
        (0, 2, 1, OPERATOR, 0),
        (0, 2, 1, OPERATOR, 0),
    ),
    # a block of two lines
    classed('a = *b\n  / %d13.10', *HEAD, (0, 2, 1, OPERATOR, 0), (0, 1, 1, NAME, USE), (1, 2, 1, OPERATOR, 0), (0, 2, 7, NUMBER, 0)),
    # core rules, and the same where the text defines them, in a faulty block too
    classed("a = DIGIT crlf", *HEAD, (0, 2, 5, NAME, IS_CORE), (0, 6, 4, NAME, IS_CORE)),
    classed("a = (DIGIT", *HEAD, (0, 2, 1, OPERATOR, 0), (0, 1, 5, NAME, IS_CORE)),
    classed(
        DIGITS,
        (0, 0, 5, NAME, DEFINES),
        (0, 6, 1, OPERATOR, 0),
        (0, 2, 3, QUOTED, 0),
        *NEXT,
        (0, 2, 1, OPERATOR, 0),
        (0, 1, 5, NAME, USE),
        (0, 6, 6, NAME, IS_CORE),
    ),
    classed("DIGIT = (\na = digit", (0, 0, 5, NAME, DEFINES), (0, 6, 1, OPERATOR, 0), (0, 2, 1, OPERATOR, 0), *NEXT, (0, 2, 5, NAME, USE)),
    # bad tokens, and names that follow one or a number at once: these stand for nothing
    classed("b = DIGIT\na = ?DIGIT DIGIT", *HEAD, (0, 2, 5, NAME, IS_CORE), *NEXT, (0, 3, 5, NAME, USE), (0, 6, 5, NAME, IS_CORE)),
    classed("a = %item %x41g g", *HEAD, (0, 3, 4, NAME, USE), (0, 5, 4, NUMBER, 0), (0, 4, 1, NAME, USE), (0, 2, 1, NAME, USE)),
    classed('a = "b c\nb = <a', *HEAD, (0, 3, 1, NAME, USE), (0, 2, 1, NAME, USE), *NEXT, (0, 3, 1, NAME, USE)),
    # a second definition, and a name that isn't one since no `=` follows
    classed('a = "x"\na = "y"\na', *HEAD, (0, 2, 3, QUOTED, 0), *NEXT, (0, 2, 3, QUOTED, 0), (1, 0, 1, NAME, USE)),
)


def about_no_document(method, beside):
    """A request about a document that isn't open, and such ones that name none."""
    no_uri = (f'{{"textDocument":{{}}{beside}}}', f'{{"textDocument":{{"uri":7}}{beside}}}', f'{{{beside[1:]}}}', "[]", "null")
    yield f"{method} of no document", [INITIALIZE, OPEN, closed(), asked(method, beside)], [CAPABILITIES, NOT_OPEN], 1
    yield f"{method} of another document", [INITIALIZE, OPEN, asked(method, beside, "file:///h")], [CAPABILITIES, NOT_OPEN], 1
    for params in no_uri:
        request = f'{{"id":2,"method":"textDocument/{method}","params":{params}}}'
        yield f"{method} with the parameters {params}", [INITIALIZE, OPEN, request], [CAPABILITIES, INVALID_PARAMS], 1
    request = f'{{"id":2,"method":"textDocument/{method}"}}'
    yield f"{method} without parameters", [INITIALIZE, OPEN, request], [CAPABILITIES, INVALID_PARAMS], 1


NO_DOCUMENT = (
    *about_no_document("references", at(0, 0) + WITH),
    *about_no_document("rename", at(0, 0) + named('"b"')),
    *about_no_document("codeAction", ranged((0, 0), (0, 0))),
    *about_no_document("semanticTokens/full", ""),
)

# A document with the version 7, as it is opened and closed without more members than must be there
OPEN_NAME = '{"method":"textDocument/didOpen","params":{"textDocument":{"uri":"file:///g","version":7,"text":"a"}}}'
CLOSE_NAME = '{"method":"textDocument/didClose","params":{"textDocument":{"uri":"file:///g"}}}'
ASK_NAME = asked("documentSymbol", "")

HEARD = (
    # a request, a notice, a response and no message (JSON-RPC 2.0, sections 4 and 5)
    (
        "a body of each kind",
        [INITIALIZE, '{"id":"x","method":"m","params":true}', '{"method":"m"}', '{"id":1,"error":{}}', ""],
        [CAPABILITIES, refused(-32601, "method not found", '"x"'), PARSE_ERROR],
        1,
    ),
    # an object is no id: it stands among NO_IDS
    *(
        (f"a shutdown with the id {said}", [INITIALIZE, f'{{"id":{said},"method":"shutdown"}}'], [CAPABILITIES, DOWN.replace("3", said)], 1)
        for said in ("-5", "7", '"1"')
    ),
    ("a hover in a document that was never open", [INITIALIZE, asked("hover", at(0, 0))], [CAPABILITIES, NOT_OPEN], 1),
    ("nothing is heard after an exit", [INITIALIZE, EXIT, INITIALIZE], [CAPABILITIES], 1),
    ("an opening before initialize", [OPEN_NAME, LINKS, ASK_NAME], [CAPABILITIES, NOT_OPEN], 1),
    # a name alone is no rule (RFC 5234, section 4)
    (
        "a document that is closed before it is open, and after",
        [LINKS, CLOSE_NAME, OPEN_NAME, CLOSE_NAME, ASK_NAME],
        [CAPABILITIES, published((0, 1, 1, 1, "syntax", '"=" or "=/" expected'), label=7), NOT_OPEN],
        1,
    ),
)

OUTLINES = (
    # a rule of two lines, a block without a head, a second definition, and a faulty block with a head
    replied(
        "documentSymbol",
        'a = "x" ; c\n  / b\n"y"\nA =/ "z"\nb = ?\n',
        "",
        answered(
            '[{"kind":12,"name":"a","range":{"end":{"character":5,"line":1},"start":{"character":0,"line":0}},'
            f'"selectionRange":{span(0, 0, 1)}}},{symbol("A", 3, 8)},{symbol("b", 4, 5)}]'
        ),
    ),
)

SESSIONS = LIVES + FINDINGS + TYPED + REPLACED + HEARD
# What these are answered with beside what is published; the last number counts the versions of the document
REPLIES = EDITS + DEFINITIONS + HOVERS + REFERENCES + RENAMES + MADE + ACTIONS + TOKENS + NO_DOCUMENT + OUTLINES

# What stands in the stream behind a whole frame, and the line that names its fault
FRAMES = (
    (b"Content-Type: x\r\n\r\n{}", "3 NoLength"),
    (b"Content-Length: -1\r\n\r\n{}", "5 BadLength"),
    (b"Content-Length: 16777217\r\n\r\n{}", "6 TooLarge"),
    (b"Content-Length 2\r\n\r\n{}", "2 BadHeader"),
    (b"Content-Length: 2\n\r\n{}", "2 BadHeader"),
    (b"Content-Length: 2\r\nContent-Length: 2\r\n\r\n{}", "4 TwoLengths"),
    (b"a" * 4096, "1 HeaderTooLong"),
    (b"Content-Length: 02\r\n\r\n{", "7 Truncated"),
)

# Streams from the first byte on, what they are answered with, and the fault with which they end, if one does
STREAMS = (
    # a frame with its length as it may be written, and fronts of it
    (b"", (), None),
    (b"Content-Length: 0", (), "7 Truncated"),
    (b"Content-Length: 02\r\n\r\n{", (), "7 Truncated"),
    (b"Content-Length: 02\r\n\r\n{}", (INVALID_REQUEST,), None),
    (b"Content-Length: 2\r\n\r\n{", (), "7 Truncated"),
    # other forms of header parts
    (b"content-length:  002 \r\n\r\nabX-Other: y\r\nContent-Length:0\r\n\r\n", (PARSE_ERROR, PARSE_ERROR), None),
    # the largest content
    (b"Content-Length: 16777216\r\n\r\n", (), "7 Truncated"),
    # frames before a fault, and one behind it, which isn't heard
    (
        b"Content-Length: 1\r\n\r\naContent-Length: 0\r\n\r\nContent-Type: x\r\n\r\nContent-Length: 0\r\n\r\n",
        (PARSE_ERROR, PARSE_ERROR),
        "3 NoLength",
    ),
    # header parts alone
    (b"Content-Type: x\r\n\r\n", (), "3 NoLength"),
    (b"Content-Length: -1\r\n\r\n", (), "5 BadLength"),
    (b"Content-Length: 16777217\r\n\r\n", (), "6 TooLarge"),
    (b"Content-Length 2\r\n\r\n", (), "2 BadHeader"),
    (b"Content-Length: 2\n\r\n", (), "2 BadHeader"),
    (b"Content-Length: 2\r\nContent-Length: 2\r\n\r\n", (), "4 TwoLengths"),
    # the largest header part, of 4,096 bytes, and one that doesn't end there
    (b"Content-Length: 0\r\na:" + b" " * 4071 + b"\r\n\r\n", (PARSE_ERROR,), None),
    (b"a" * 4096, (), "1 HeaderTooLong"),
)
assert len(STREAMS[-2][0]) == 4096


def ends_of(bodies, fault):
    """How a run on a stream ends that is answered with these bodies: its status, its line and what it has written."""
    return 2 if fault else 1, f"framing fault {fault}\n".encode() if fault else b"", frames(bodies)

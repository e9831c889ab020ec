"""Worked sessions in which the client says what positions count: bytes, units of UTF-16 or characters.

They have the form of those of `session_rows`.
"""
from session_rows import (
    CAPABILITIES, COMMENT, DEFINES, NAME, NOTHING, NUMBER, OPERATOR, PROSE, QUOTED, USE, WITH, WITHOUT, action, answered, asked, at, changed,
    closed, edit, edits, inserted, keeps, length, named, opened, outline_after, places, published, ranged, refused, replied, shown_at, symbol,
    syntax, undefined, workspace_edit,
)


def offers(said):
    """An initialize whose client says this, which is JSON, of the encodings that it knows."""
    return f'{{"id":1,"method":"initialize","params":{{"capabilities":{{"general":{{"positionEncodings":{said}}}}}}}}}'


def agreed(encoding):
    """The answer to an initialize by which this encoding is agreed."""
    return CAPABILITIES.replace('"utf-16"', f'"{encoding}"')


# What a client says of the encodings that it knows, and the one that is agreed
OFFERS = (
    *((said, "utf-16") for said in ("null", "[]", "{}", '"utf-8"', "true", '["x"]', '["UTF-8"]', '["utf8"]', '[["utf-8"]]', '[{"utf-8":1}]')),
    *((f'["{encoding}"]', encoding) for encoding in ("utf-8", "utf-16", "utf-32")),
    ('["x","utf-32","utf-8"]', "utf-32"),
    ('["utf-16","utf-8"]', "utf-16"),
    ('[8,null,"utf-8","utf-16"]', "utf-8"),
)


def in_encoding(encoding, text, answers, *messages):
    """What a client says of a text, where this encoding is agreed, and what it is answered."""
    said = [offers(f'["{encoding}"]'), opened(text), *messages]
    return f"{encoding}: {messages[:1]} of {text!r}", said, [agreed(encoding), *answers], 1


AGREED = (
    *((f"an offer of {said}", [offers(said), offers('["utf-8"]')], [agreed(known), refused(-32600, "invalid request", "1")], 1) for said, known in OFFERS),
    in_encoding("utf-8", "a = <\u00e9> / b", [published(undefined(0, 11, 12, "b"))]),
    in_encoding("utf-16", "a = <\u00e9> / b", [published(undefined(0, 10, 11, "b"))]),
    in_encoding("utf-32", "a = <\u00e9> / b", [published(undefined(0, 10, 11, "b"))]),
    in_encoding("utf-8", "a = <\U0001f600> / b", [published(undefined(0, 13, 14, "b"))]),
    in_encoding("utf-32", "a = <\U0001f600> / b", [published(undefined(0, 10, 11, "b"))]),
)


def replied_in(encoding, method, text, beside, answer):
    """A request about a text that is opened, where this encoding is agreed, and its answer."""
    name, said, wanted, versions = replied(method, text, beside, answer, offers(f'["{encoding}"]'))
    return f"{encoding}: {name}", said, [agreed(encoding), *wanted[1:]], versions


def edited_in(encoding, text, changes, *symbols):
    """The outline of a text after changes, where this encoding is agreed."""
    name, said, wanted, versions = outline_after(text, changes, symbols)
    return f"{encoding}: {name}", [offers(f'["{encoding}"]'), *said[1:]], [agreed(encoding), *wanted[1:]], versions


def kept_in(encoding, character, *spans):
    """A rename that is made of a name behind characters of two, three and four bytes, with one of four behind it in another line."""
    text, after = (
        f'a = <\u00e9\u20ac\U0001f600> {{0}}\n{{0}} = "x" ; \U0001f600\nc = <\U0001f600> {{1}}'.format(*it) for it in (("b", "B"), ("bee", "bee"))
    )
    told = (0, "not known"), (1, length(1, "x")), (2, "not known")
    name, said, wanted, versions = keeps(text, 0, character, "bee", spans, after, *told, encoding=encoding)
    return f"{encoding}: {name}", [offers(f'["{encoding}"]'), *said[1:]], [agreed(encoding), *wanted[1:]], versions


# In the line `a="..." a` the second name stands behind a string with two characters outside the first plane.
WIDE = 'a="\U0001f004\U0001f004" a'

ASKED = (
    # inside the bytes of a character is before it, behind its last byte is behind it
    edited_in("utf-8", ";\U0001f600z", f"[{edit((0, 4), (0, 4), chr(10) + 'q =')}]", symbol("q", 1, 8)),
    edited_in("utf-8", ";\U0001f600z", f"[{edit((0, 5), (0, 5), chr(10) + 'q =')}]", symbol("q", 1, 4)),
    edited_in("utf-32", ";\U0001f600z", f"[{edit((0, 1), (0, 1), chr(10) + 'q =')}]", symbol("q", 1, 5)),
    edited_in("utf-32", ";\U0001f600z", f"[{edit((0, 2), (0, 2), chr(10) + 'q =')}]", symbol("q", 1, 4)),
    # each edit of a list is read in the encoding
    edited_in("utf-32", "\U0001f600", f"[{edit((0, 1), (0, 1), 'a')},{edit((0, 2), (0, 2), chr(10) + 'q =')}]", symbol("q", 1, 3)),
    replied_in("utf-8", "definition", WIDE, at(0, 13), answered(places((0, 0, 1)))),
    replied_in("utf-32", "definition", WIDE, at(0, 7), answered(places((0, 0, 1)))),
    replied_in("utf-8", "references", WIDE, at(0, 0) + WITHOUT, answered(places((0, 13, 14)))),
    replied_in("utf-16", "references", WIDE, at(0, 0) + WITHOUT, answered(places((0, 9, 10)))),
    replied_in("utf-32", "references", WIDE, at(0, 0) + WITHOUT, answered(places((0, 7, 8)))),
    replied_in("utf-8", "rename", WIDE, at(0, 14) + named('"b"'), answered(workspace_edit(edits("b", (0, 0, 1), (0, 13, 14))))),
    replied_in("utf-32", "rename", WIDE, at(0, 8) + named('"b"'), answered(workspace_edit(edits("b", (0, 0, 1), (0, 7, 8))))),
    replied_in("utf-32", "hover", WIDE, at(0, 7), shown_at("not known", (0, 7, 8))),
    kept_in("utf-8", 16, (0, 16, 17), (1, 0, 1), (2, 11, 12)),
    kept_in("utf-16", 11, (0, 11, 12), (1, 0, 1), (2, 9, 10)),
    kept_in("utf-32", 10, (0, 10, 11), (1, 0, 1), (2, 8, 9)),
)

# The units of a text in each encoding
UNITS = {"utf-8": lambda text: len(text.encode()), "utf-16": lambda text: len(text.encode("utf-16-le")) // 2, "utf-32": len}
# Lines that end in CRLF, with characters of one to four bytes before what is asked about and behind it
WIDE_LINES = ("a = <\u00e9\u20ac\U0001f600> / b ; \U0001f600\u00e9", 'b = "x"', "c = <\u20ac> nope ; \u00e9", "c =/ b")
WIDE_LINE_ENDS = "\r\n".join(WIDE_LINES)
# Their tokens
WIDE_TOKENS = (
    (("a", NAME, DEFINES), ("=", OPERATOR, 0), ("<\u00e9\u20ac\U0001f600>", PROSE, 0), ("/", OPERATOR, 0), ("b", NAME, USE), ("; \U0001f600\u00e9", COMMENT, 0)),
    (("b", NAME, DEFINES), ("=", OPERATOR, 0), ('"x"', QUOTED, 0)),
    (("c", NAME, DEFINES), ("=", OPERATOR, 0), ("<\u20ac>", PROSE, 0), ("nope", NAME, USE), ("; \u00e9", COMMENT, 0)),
    (("c", NAME, DEFINES), ("=/", OPERATOR, 0), ("b", NAME, USE)),
)


def wide_place(encoding, line, word):
    """A word that stands once in its line: the line, the units before the word, and those up to its end."""
    units, before = UNITS[encoding], WIDE_LINES[line].partition(word)[0]
    return line, units(before), units(before + word)


def wide_numbers(encoding):
    """The numbers of the tokens of these lines."""
    for line, tokens in enumerate(WIDE_TOKENS):
        last = None
        for word, kind, modifiers in tokens:
            start = wide_place(encoding, line, word)[1]
            yield from (int(line > 0 and last is None), start - (last or 0), UNITS[encoding](word), kind, modifiers)
            last = start


def outlined(*symbols):
    """An outline: of each symbol the name, the line where it stands at the start, and the end of the last item."""
    return answered(f'[{",".join(symbol(*it) for it in symbols)}]')


def wide_rows(encoding):
    """A question of each kind about these lines, where this encoding is agreed."""
    use, last_use = wide_place(encoding, 0, "b"), wide_place(encoding, 3, "b")
    prose, nope = wide_place(encoding, 0, WIDE_TOKENS[0][2][0]), wide_place(encoding, 2, "nope")
    numbers = ",".join(map(str, wide_numbers(encoding)))
    example = answered(action(workspace_edit(inserted(1, "x"))))
    for method, beside, answer in (
        ("definition", at(*use[:2]), answered(places((1, 0, 1)))),
        # past the end of the line, where no name ends, and where one does
        ("definition", at(0, 99), answered(places())),
        ("references", at(3, 99) + WITHOUT, answered(places(use, last_use))),
        ("references", at(1, 0) + WITH, answered(places(use, (1, 0, 1), last_use))),
        ("rename", at(*use[::2]) + named('"bb"'), answered(workspace_edit(edits("bb", use, (1, 0, 1), last_use)))),
        ("rename", at(*prose[:2]) + named('"bb"'), refused(-32803, NOTHING)),
        ("hover", at(*use[:2]), shown_at(length(1, "x"), use)),
        ("hover", at(*nope[:2]), shown_at("undefined", nope)),
        ("hover", at(*prose[::2]), answered("null")),
        ("codeAction", ranged(use[:2], (9, 9)), example),
        ("codeAction", ranged((9, 9), use[::2]), example),
        ("documentSymbol", "", outlined(("a", 0, use[2]), ("b", 1, 7), ("c", 2, nope[2]), ("c", 3, 6))),
        ("semanticTokens/full", "", answered(f'{{"data":[{numbers}]}}')),
    ):
        yield replied_in(encoding, method, WIDE_LINE_ENDS, beside, answer)


def inside_rows(encoding):
    """A position inside a character's units is before it: where a name ends, and where a text is inserted."""
    for character in "\u00e9\u20ac\U0001f600":
        many = UNITS[encoding](character)
        for behind in range(many + 1):
            before = behind < many
            found = places((1, 0, 1)) if before else places()
            yield replied_in(encoding, "definition", f'a = b{character}\r\nb = "x"', at(0, 5 + behind), answered(found))
            inserted_there = edit((0, 1 + behind), (0, 1 + behind), "\r\nq =")
            yield edited_in(encoding, f";{character}z", f"[{inserted_there}]", symbol("q", 1, 4 + (many if before else 0)))


def wide_findings(encoding):
    """What is found in these lines, and again once `b` is another name and the first wide character of the comment ends its line."""
    use, nope = wide_place(encoding, 0, "b"), wide_place(encoding, 2, "nope")
    behind = use[2] + UNITS[encoding](" ; \U0001f600")
    made = f"[{edit(use[:2], use[::2], 'd')},{edit((0, behind), (0, behind), chr(13) + chr(10) + ';')}]"
    found = published(undefined(*nope, "nope"))
    found_then = published(undefined(*use, "d"), undefined(3, *nope[1:], "nope"), label=2)
    return in_encoding(encoding, WIDE_LINE_ENDS, [found, found_then], changed(made))


# Lines and their tokens but for blanks and bad ones (RFC 5234 section 4, RFC 7405 section 2.2): what each is, where it starts and ends, in
# bytes, and its modifiers, if it has any
LINES = (
    ("",),
    (
        'a=/%s"x"2*b%x41-5A.<p>;c',
        *((NAME, 0, 1, DEFINES), (OPERATOR, 1, 3), (QUOTED, 3, 8), (OPERATOR, 8, 10), (NAME, 10, 11), (NUMBER, 11, 18)),
        *((PROSE, 19, 22), (COMMENT, 22, 24)),
    ),
    # signs
    (" \t( )[]/=", *((OPERATOR, start, start + 1) for start in (2, 4, 5, 6, 7, 8))),
    ('"x"=/y', (QUOTED, 0, 3), (OPERATOR, 3, 5), (NAME, 5, 6)),
    ("1*2*3", (OPERATOR, 0, 3), (OPERATOR, 3, 5)),
    # numbers
    ("%x", (NAME, 1, 2)),
    ("%d300b", (NUMBER, 0, 5), (NAME, 5, 6)),
    ("%x41-", (NUMBER, 0, 4)),
    ("%x41.42-43", (NUMBER, 0, 7), (OPERATOR, 8, 10)),
    ("%b2", (NAME, 1, 3)),
    ("%D13.10", (NUMBER, 0, 7)),
    # signs that close
    ("%s", (NAME, 1, 2)),
    ('%I"x"""', (QUOTED, 0, 5), (QUOTED, 5, 7)),
    ('"\t"',),
    ("<p", (NAME, 1, 2)),
    ("<<p><p<", (PROSE, 0, 4), (NAME, 5, 6)),
    # characters of several bytes
    ("<\u00e9>\u20ac\U0001f600a;\u00e9", (PROSE, 0, 4), (NAME, 11, 12), (COMMENT, 12, 15)),
)
# Texts and the place of the first fault in each, which is at a bad token: at its block's front, and behind a sign
FIRST_BAD = ("%x", "%b2", "%s", "<p", '"\t"')
BAD_BEHIND = (
    *((text, 2, 3) for text in ("a=%x", "a=%b2", "a=%s", "a=<p", "a=<", 'a="\t"')),
    *(("a=%x41-5A.<p>;c", 9, 10), ("a=%x41-", 6, 7), ("a=%x41.42-43", 9, 10), ('a=\t"', 3, 4), ("a=<<p><p<", 6, 7)),
    *(("a=<\u00e9>\u20ac\U0001f600a;\u00e9", 6, 9), ("a=<\u00e9>\U0001f600a;\u00e9", 6, 10)),
)


def line_numbers(tokens):
    """The numbers of the tokens of a text of one line."""
    last = 0
    for kind, start, end, *modifiers in tokens:
        yield from (0, start - last, end - start, kind, *(modifiers or [USE]))
        last = start


def bytes_of_tokens():
    """The tokens of each line, in one session."""
    said, wanted = [offers('["utf-8"]')], [agreed("utf-8")]
    for line, *tokens in LINES:
        said += [opened(line), asked("semanticTokens/full", ""), closed()]
        wanted += [answered(f'{{"data":[{",".join(map(str, line_numbers(tokens)))}]}}')]
    return f"utf-8: the tokens of {len(LINES)} lines", said, wanted, len(LINES)


def bytes_of_bad_tokens():
    """What is found in texts with bad tokens, in one session."""
    first = [(text, syntax(0, 1, "rule name expected")) for text in FIRST_BAD]
    behind = [(text, syntax(start, end, "bad character")) for text, start, end in BAD_BEHIND]
    said, wanted = [offers('["utf-8"]')], [agreed("utf-8")]
    for text, found in first + behind:
        said += [opened(text), closed()]
        wanted += [published(found)]
    return "utf-8: bad tokens", said, wanted, 1


SESSIONS = AGREED + (bytes_of_bad_tokens(),) + tuple(wide_findings(encoding) for encoding in UNITS)
# What these are answered with beside what is published; the last number counts the versions of the document
REPLIES = ASKED + (bytes_of_tokens(),) + tuple(row for encoding in UNITS for rows in (wide_rows, inside_rows) for row in rows(encoding))

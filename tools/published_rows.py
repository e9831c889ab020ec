#!/usr/bin/env python3
"""Rows of `abnf_findings` about published RFCs in plain text: what it prints of them, and how it ends.

    tools/published_rows.py [PROGRAM [COUNT [SEED]]]

runs a program that is built. The values of the small texts are by hand, from RFC 5234, RFC 2223 section 3 and RFC 7994. Ten texts are after RFCs,
with pages and without, and what is found in them and in random texts is known from how they were laid out (tools/published_texts.py). The same is
what a plain reading finds (tools/plain_texts.py). Random texts that are damaged are compared with that reading alone.
"""
import itertools
import random
import re
import sys

import plain_texts
import published_texts
import refused_memory
import rows
from findings_rows import printed, refusals, status_of
from runs import outcome

COUNT, SEED = 300, 1
NO_GRAMMAR = "1:1: error: no grammar in this text [no-grammar]"
NO_KNOWN_GRAMMAR = NO_GRAMMAR.replace("error", "warning")
NEAR = re.compile(rb", did you mean [A-Za-z][A-Za-z0-9-]*\?")
# The rule and the findings of a text in which a rule goes over a page break
GOES_OVER = "1:4: a: generates nothing", "1:4: warning: rule a generates nothing [unproductive]", "5:11: error: undefined rule nope [undefined]"
A_IS_X, A_IS_XY = ("1:4: a: shortest length 1: x",), ("1:4: a: shortest length 2: xy",)
FOOTER, PAGE = "Author            [Page 1]\n", "Author            [Page 1]\n\f\nRFC 1     May 2020\n"


def not_read(line):
    return f"{line}:1: warning: lines that are not all rules [not-read]"


# Texts, what is found in them, the lines of their rules, and their grammars; None where there is none
ROWS = (
    # nothing that begins as a rule does
    ("", (NO_GRAMMAR,), (), None),
    ("\n \t\n", (NO_GRAMMAR,), (), None),
    ("Some prose.\nIn it a = b stands.\n", (NO_GRAMMAR,), (), None),
    ('Grammar:\n   a = "x"\n', (NO_GRAMMAR,), (), None),
    ("Some words:\na = b\n", (NO_GRAMMAR,), (), None),
    ("Dear reader,\n\n  this text has no rules.\nThe = sign stands in it.\n\nYours,\nA. Author\n", (NO_GRAMMAR,), (), None),
    ("<html>\n<p>a = b</p>\n\n</html>\n", (NO_GRAMMAR,), (), None),
    ("<html>\n<title>a = b</title>\n\n<script>\nx = 1;\n</script>\n\n  width = 100%;\n</html>\n", (NO_GRAMMAR, not_read(8)), (), None),
    ("   ; a = b\n", (NO_GRAMMAR,), (), None),
    ('   a\n     = "x"\n', (NO_GRAMMAR,), (), None),
    ('   1a = "x"\n\n   a_b = "y"\n\n   = "z"\n\n   a: = "z"\n', (NO_GRAMMAR,), (), None),
    # rules, however they are indented
    ('a = "x"\nb = a\n  / "y"\n', (), ("1:1: a: shortest length 1: x", "2:1: b: shortest length 1: y"), 'a = "x"\nb = a\n  / "y"\n\n'),
    (
        "Text.\n\n   a = nope\n\nText.\n",
        ("3:4: warning: rule a generates nothing [unproductive]", "3:8: error: undefined rule nope [undefined]"),
        ("3:4: a: generates nothing",),
        "a = nope\n\n",
    ),
    ("1. Rules\n\n   a = DIGIT\n", (), ("3:4: a: shortest length 1: 0",), "a = DIGIT\n\n"),
    (
        '1. Rules\n\n   a = nope\n\n   b = "x"\n',
        ("3:4: warning: rule a generates nothing [unproductive]", "3:8: error: undefined rule nope [undefined]"),
        ("3:4: a: generates nothing", "5:4: b: shortest length 1: x"),
        'a = nope\n\nb = "x"\n\n',
    ),
    (
        '1. Rules\n\n  a = b\n   / nope\n\n  d = 3*2"x"\n',
        (
            "3:3: warning: rule a generates nothing [unproductive]",
            *("3:7: error: undefined rule b [undefined]", "4:6: error: undefined rule nope [undefined]"),
            *("6:3: warning: rule d generates nothing [unproductive]", "6:7: warning: repeat with minimum above maximum [empty-repeat]"),
        ),
        ("3:3: a: generates nothing", "6:3: d: generates nothing"),
        'a = b\n / nope\n\nd = 3*2"x"\n\n',
    ),
    (
        '   a = "x"\n\n\t  b = a c\n',
        ("3:4: warning: rule b generates nothing [unproductive]", "3:10: error: undefined rule c [undefined]"),
        ("1:4: a: shortest length 1: x", "3:4: b: generates nothing"),
        'a = "x"\n\nb = a c\n\n',
    ),
    (
        '   a = "x"\n   b =/ a\n',
        ("2:4: warning: no earlier definition of b [no-base]",),
        (*A_IS_X, "2:4: b: shortest length 1: x"),
        'a = "x"\nb =/ a\n\n',
    ),
    ('     ; first\n   a="x"\n ; last', (), ("2:4: a: shortest length 1: x",), '  ; first\na="x"\n; last\n\n'),
    ('      a = "x"\n   b = "y"\n', (), ("1:7: a: shortest length 1: x", "2:4: b: shortest length 1: y"), 'a = "x"\nb = "y"\n\n'),
    ('   a\t= "x"\n', (), A_IS_X, 'a\t= "x"\n\n'),
    # words that are a rule by chance
    (
        "Total = several things\n",
        (
            "1:1: warning: rule Total generates nothing [unproductive]",
            *("1:9: error: undefined rule several [undefined]", "1:17: error: undefined rule things [undefined]"),
        ),
        ("1:1: Total: generates nothing",),
        "Total = several things\n\n",
    ),
    # lines that begin as a rule does and aren't all rules
    ("   a = ?\n", (NO_GRAMMAR, not_read(1)), (), None),
    ("a = ALPHA\n\n  x = 5 apples\n", (not_read(3),), ("1:1: a: shortest length 1: A",), "a = ALPHA\n\n"),
    ("Some words.\n\nx = 5 apples\n", (NO_GRAMMAR, not_read(3)), (), None),
    ("Text.\n\n   a =\n\n   big = %x100000000\n", (NO_GRAMMAR, not_read(3), not_read(5)), (), None),
    (f"   deep = {65 * '('}\"x\"{65 * ')'}\n\n   a = 1#b\n", (NO_GRAMMAR, not_read(1), not_read(3)), (), None),
    ('   ; first\n   a = "x"\n   b = ?\n', (NO_GRAMMAR, not_read(1)), (), None),
    ('   a = "x"\n   and so on.\n', (NO_GRAMMAR, not_read(1)), (), None),
    ("a = b\n    c = d\n", (NO_GRAMMAR, not_read(1)), (), None),
    (
        "   a = ?\n\n   b = nope\n\n   c = ?\n",
        (not_read(1), "3:4: warning: rule b generates nothing [unproductive]", "3:8: error: undefined rule nope [undefined]", not_read(5)),
        ("3:4: b: generates nothing",),
        "b = nope\n\n",
    ),
    # definitions that come again
    (
        'a = "x"\n\n  A = "x" ; a\n\n a = "y"\n',
        ("5:2: error: rule a differs from its definition at line 1 [differs]",),
        ("1:1: a: shortest length 1: x",),
        'a = "x"\n\nA = "x" ; a\n\na = "y"\n\n',
    ),
    (
        '   a = "x"\n\nText.\n\n   A  =  "x"  ; again\n\n   a = "y"\n',
        ("7:4: error: rule a differs from its definition at line 1 [differs]",),
        A_IS_X,
        'a = "x"\n\nA  =  "x"  ; again\n\na = "y"\n\n',
    ),
    # a rule that goes over a page break, behind blank lines or not
    (
        '\u00e9\n\n  a = "x"\n\nDoe [Page 3]\n\f\nRFC 1\n\n    / nope\n',
        ("9:7: error: undefined rule nope [undefined]",),
        ("3:3: a: shortest length 1: x",),
        'a = "x"\n  / nope\n\n',
    ),
    (f'   a = "x"\n\n{PAGE}\n      "y"\n', (), A_IS_XY, 'a = "x"\n   "y"\n\n'),
    (f'   a = "x"\n{PAGE}      "y" nope\n', GOES_OVER[1:], GOES_OVER[:1], 'a = "x"\n   "y" nope\n\n'),
    (f'   a = "x"\n\n{PAGE}\n      "y"\n   b = a\n', (), (*A_IS_XY, "8:4: b: shortest length 2: xy"), 'a = "x"\n   "y"\nb = a\n\n'),
    (f'   a = "x"\n\n{PAGE}\n      "y"\n   b = ?\n', (NO_GRAMMAR, not_read(1)), (), None),
    (f'   a = "x"\n\n{PAGE}\n\n{PAGE}\n     ; behind\n     "y"\n', (), A_IS_XY, 'a = "x"\n  ; behind\n  "y"\n\n'),
    (f'   a = "x"\n{FOOTER}      "y"\n', (), A_IS_XY, 'a = "x"\n   "y"\n\n'),
    ('   a = "x"\n\fRFC 1\n     "y"\n', (), A_IS_XY, 'a = "x"\n  "y"\n\n'),
    ('   a = "x"\n\f\n     "y"\n', (), A_IS_XY, 'a = "x"\n  "y"\n\n'),
    # one that doesn't: lines that aren't deeper, other rules, and prose, which is taken for the rest of the rule where it is deeper
    (f'   a = "x"\n\n{PAGE}\n   "y"\n', (), A_IS_X, 'a = "x"\n\n'),
    (f'   a = "x"\n\n{PAGE}\n     b = a\n', (), (*A_IS_X, "7:6: b: shortest length 1: x"), 'a = "x"\n\nb = a\n\n'),
    (f'   a = "x"\n\n{PAGE}\n     And prose.\n', (NO_GRAMMAR, not_read(1)), (), None),
    (f'   ; first\n{PAGE}     a = "x"\n', (), ("5:6: a: shortest length 1: x",), 'a = "x"\n\n'),
    (f'Text.\n{PAGE}     a = "x"\n', (), ("5:6: a: shortest length 1: x",), 'a = "x"\n\n'),
    ('   a = "x"\n\n     "y"\n', (), A_IS_X, 'a = "x"\n\n'),
    # headers: a line at the left right behind a form feed alone
    ('   a = "x"\n\f\nb = "y"\n', (), A_IS_X, 'a = "x"\n\n'),
    ('   a = "x"\n\f \t\nb = "y"\n', (), A_IS_X, 'a = "x"\n\n'),
    ('   a = "x"\n\f\n\nb = "y"\n', (), (*A_IS_X, "4:1: b: shortest length 1: y"), 'a = "x"\n\nb = "y"\n\n'),
    ('   a = "x"\n\f\n b = "y"\n', (), (*A_IS_X, "3:2: b: shortest length 1: y"), 'a = "x"\n\nb = "y"\n\n'),
    ('   a = "x"\n\fRFC 1\nb = "y"\n', (), (*A_IS_X, "3:1: b: shortest length 1: y"), 'a = "x"\n\nb = "y"\n\n'),
    ('   a = "x"\n\f\nRFC 1\nb = "y"\n', (), (*A_IS_X, "4:1: b: shortest length 1: y"), 'a = "x"\n\nb = "y"\n\n'),
    (' \f a = "x"\n', (NO_GRAMMAR,), (), None),
    # what is a footer
    ('a = "x" ; [Page 1]\n', (NO_GRAMMAR,), (), None),
    ('a = "x" ; [Page 12] \t\nb = "y"\n', (), ("2:1: b: shortest length 1: y",), 'b = "y"\n\n'),
    (
        'a = "x" ; [Page 1].\nb = "y" ; [Page]\nc = "z" ; [Page x]\nd = "w" ; [page 1]\ne = "v" ; [Page  1]\nf = "u" ; [Page 1\ng = "t" ;[Page ]',
        (),
        tuple(f"{line}:1: {name}: shortest length 1: {it}" for line, (name, it) in enumerate(zip("abcdefg", "xyzwvut"), 1)),
        'a = "x" ; [Page 1].\nb = "y" ; [Page]\nc = "z" ; [Page x]\nd = "w" ; [page 1]\ne = "v" ; [Page  1]\nf = "u" ; [Page 1\ng = "t" ;[Page ]\n\n',
    ),
    # line ends, characters, and a byte order mark
    (
        '   a = "x"\r\n\r\n   b = nope\r\r\n   c = a\r     / b',
        ("3:4: warning: rule b generates nothing [unproductive]", "3:8: error: undefined rule nope [undefined]"),
        (*A_IS_X, "3:4: b: generates nothing", "5:4: c: shortest length 1: x"),
        'a = "x"\n\nb = nope\n\nc = a\n  / b\n\n',
    ),
    (
        "\u00e9\U0001f600 text\n\n   a = <\u00e9\U0001f600> nope\n",
        ("3:13: error: undefined rule nope [undefined]",),
        ("3:4: a: not known",),
        "a = <\u00e9\U0001f600> nope\n\n",
    ),
    ('\ufeffa = "x"\n\n   b = "y"\n', (), ("3:4: b: shortest length 1: y",), 'b = "y"\n\n'),
    ('\u00a0\u00a0 a = "x"\n\n   b = "y"\n', (), ("3:4: b: shortest length 1: y",), 'b = "y"\n\n'),
)

# Texts of which each names others: what is known, and a rule that uses it with what is printed of that
TOGETHER = (
    (("rfc9110", "rfc9111"), ("cache-directive", "1: !")),
    (("rfc9110", "rfc9112"), ("status-line", "13: HTTP/0.0 000 ")),
    (("rfc3986", "rfc5322"), ("IPv6address", "2: ::")),
)


def known(found):
    """What is printed of a text whose names are known, by what is found in it."""
    return [NO_KNOWN_GRAMMAR] * (NO_GRAMMAR in found) + [it for it in found if it.endswith(" [not-read]")]


def text_cases(program, files, what, name, text, found, told, grammar):
    """A text as a file of this name, from standard input, and where warnings don't pass; its rules, its grammar, and where its names are known."""
    what, file = f"the text {what}", files.written(name, text)
    status, is_printed = status_of(found, False), printed(file, found)
    yield what, outcome(program, None, [file]), (status, b"", is_printed)
    yield f"strict {what}", outcome(program, None, ["--strict", file]), (status_of(found, True), b"", is_printed)
    from_input = outcome(program, text.encode(), ["--format", "text", "-"])
    yield f"{what}, from standard input", from_input, (status, b"", printed("-", found))
    yield f"rules of {what}", outcome(program, None, ["--rules", file]), (0, b"", printed(file, told))
    is_grammar = (1, b"", printed(file, (NO_GRAMMAR,))) if grammar is None else (0, b"", grammar.encode())
    yield f"the grammar of {what}", outcome(program, None, ["--grammar", file]), is_grammar
    plain, warned = files.written("plain.abnf", 'plain = "x"'), known(found)
    yield f"{what} as a known file", outcome(program, None, ["--with", file, plain]), (0, b"", printed(file, warned))
    known_strictly = outcome(program, None, ["--strict", "--with", file, plain])
    yield f"strict, {what} as a known file", known_strictly, (int(bool(warned)), b"", printed(file, warned))


def row_cases(program, files):
    for text, found, told, grammar in ROWS:
        yield from text_cases(program, files, repr(text[:40]), "text.txt", text, found, told, grammar)


def worked_cases(program, files):
    """The texts after RFCs, with pages and without, and with CR LF."""
    for name, form, end in itertools.product(published_texts.WORKED, published_texts.FORMS, ("\n", "\r\n")):
        laid = published_texts.worked_text(name, form, end)
        plain = plain_texts.Published(laid.text)
        what = f"{name} in the {form} form{', with CR LF' * len(end[1:])}"
        yield f"a plain reading of {what}", (plain.lines(), names_of(plain)), (laid.found, laid.names)
        yield from text_cases(program, files, what, f"{name}.txt", laid.text, laid.found, plain.rules(), plain.grammar)
        yield from use_cases(program, files, what, files.path(f"{name}.txt"), laid.found, published_texts.WORKED[name].rule)


def use_cases(program, files, what, file, found, rule):
    """A small grammar and a draft that use a name of a text."""
    name, told = rule
    use, warned = files.written("use.abnf", f"use = {name}"), printed(file, known(found))
    is_told = printed(use, (f"1:1: use: shortest length {told}",))
    yield f"a name of {what}", outcome(program, None, ["--rules", "--with", file, use]), (0, b"", is_told)
    draft = files.written("use.md", f'Text.\n\n~~~ abnf\n  use = {name} "x"\n~~~\n')
    yield f"a name of {what}, in a draft", outcome(program, None, ["--with", file, draft]), (0, b"", warned)
    missing = files.written("missing.abnf", f"use = {name} zzzqqq")
    lines = ("1:1: warning: rule use generates nothing [unproductive]", f"1:{len(name) + 8}: error: undefined rule zzzqqq [undefined]")
    yield f"no name of {what}", outcome(program, None, ["--with", file, missing]), (1, b"", warned + printed(missing, lines))


def together_cases(program, files):
    """Names of several texts."""
    for names, (rule, told) in TOGETHER:
        paths = [files.written(f"{it}.txt", published_texts.worked_text(it, "old").text) for it in names]
        use = files.written("use.abnf", f"use = {rule}")
        words = [word for it in paths for word in ("--with", it)]
        is_told = printed(use, (f"1:1: use: shortest length {told}",))
        yield f"a name of {' and '.join(names)}", outcome(program, None, ["--rules", *words, use]), (0, b"", is_told)
    laid = [(files.written(f"{it}.txt", laid.text), laid.found) for it in names for laid in [published_texts.worked_text(it, "new")]]
    wanted = b"".join(printed(*it) for it in laid)
    status = max(status_of(found, False) for _, found in laid)
    yield "several texts, in their order", outcome(program, None, [file for file, _ in laid]), (status, b"", wanted)
    text, grammar = files.written("text.txt", 'Text.\n\na = nope / "x"\n'), files.written("grammar.abnf", 'b = nope / "x"\n')
    both = printed(text, ("3:5: error: undefined rule nope [undefined]",)) + printed(grammar, ("1:5: error: undefined rule nope [undefined]",))
    yield "a text and a grammar", outcome(program, None, [text, grammar]), (1, b"", both)
    prose, known_text = files.written("prose.txt", "Some prose.\n"), files.written("known.txt", 'Text.\n\n   nope = "x"\n\n   other = ?\n')
    warned = printed(prose, (NO_KNOWN_GRAMMAR,)) + printed(known_text, (not_read(5),))
    both_known = outcome(program, None, ["--with", prose, "--with", known_text, text, grammar])
    yield "a known file without a grammar, and one with it", both_known, (0, b"", warned)
    both = printed(known_text, (not_read(5),)) + printed(prose, (NO_GRAMMAR,))
    yield "a text beside one that is known", outcome(program, None, ["--with", known_text, prose]), (1, b"", both)
    without_format = outcome(program, b'Text.\n\n   a = "x"\n', ["-"])
    yield "a text from standard input without its format", without_format, (1, b"", printed("-", ('1:5: error: "=" or "=/" expected [syntax]',)))


def limit_cases(program, files):
    """A text of nearly the greatest size, and one that is larger with a line end."""
    wide = files.written("wide.txt", 16_383 * (255 * b"x" + b"\n") + b'\na = nope / "x"')
    at_end = ("16385:5: error: undefined rule nope [undefined]",)
    yield "a text of nearly the greatest size", outcome(program, None, [wide]), (1, b"", printed(wide, at_end))
    large = files.written("large.txt", b'a = "x" ;' + (4_194_304 - 9) * b"x")
    yield "a run that is too large with its line end", outcome(program, None, [large]), (2, f"not a text: {large}\n".encode(), b"")
    blank = files.written("blank.txt", 4_194_304 * b" ")
    yield "a text of blanks", outcome(program, None, [blank]), (1, b"", printed(blank, (NO_GRAMMAR,)))


def memory_cases(program, files):
    """Each allocation refused in turn: it ends with `out of memory`, and with no file half told, or as it does where nothing is refused."""
    one, other = files.written("one.txt", '   a =/ "x"\n\n   b = ?\n'), files.written("other.txt", f'   a = "x"\n{PAGE}      "y" nope\n')
    base, (rule, *lines) = "1:4: warning: no earlier definition of a [no-base]", GOES_OVER
    said = refused_memory.REFUSED + b"out of memory\n"
    for what, options, status, before, behind in (
        ("texts", [], 1, printed(one, (base, not_read(3))), printed(other, lines)),
        ("rules of texts", ["--rules"], 0, printed(one, A_IS_X), printed(other, (rule,))),
        ("grammars of texts", ["--grammar"], 0, b'a =/ "x"\n\n', b'a = "x"\n   "y" nope\n\n'),
    ):
        with rows.library(refused_memory.LIBRARY) as made:
            found = refusals(program, made, [*options, one, other])
        others = {*found[:-1]} - {(6, said, b""), (6, said, before), (status, refused_memory.REFUSED, before + behind)}
        yield f"{what}, {len(found) - 1} allocations refused in turn", (len(found) > 20, sorted(others)), (True, [])
        yield f"{what}, no allocation refused", found[-1], (status, b"", before + behind)


def format_cases(program, files):
    """What is a text by its name or by the format that is named, with names in any case."""
    text, found = "Text.\n\n   a = ?\n", (NO_GRAMMAR, not_read(3))
    for name in ("a.txt", "a.TXT", "a.Txt", "a.md.txt", "a.xml.TXT", ".txt"):
        file = files.written(name, text)
        yield f"a text {name}", outcome(program, None, [file]), (1, b"", printed(file, found))
    for name in ("txt", "a.txt.abnf", "a.text", "a-txt"):
        file = files.written(name, 'a = "x"\n\nb = ?\n')
        yield f"a grammar {name}", outcome(program, None, [file]), (1, b"", printed(file, ("3:5: error: bad character [syntax]",)))
    for name in ("a.MD", "a.Markdown", "a.MKD"):
        file = files.written(name, "~~~ abnf\na = ?\n~~~\n")
        yield f"a draft {name}", outcome(program, None, [file]), (1, b"", printed(file, ("2:5: error: bad character [syntax]",)))
    for name in ("a.XML", "a.Xml"):
        file = files.written(name, '<artwork type="abnf">a = ?</artwork>')
        yield f"a draft {name}", outcome(program, None, [file]), (1, b"", printed(file, ("1:26: error: bad character [syntax]",)))
    plain = files.written("plain.txt", '   a = "x"\n\n   b = ?\n')
    as_grammar = printed(plain, ("3:8: error: bad character [syntax]",))
    yield "a grammar in spite of its name", outcome(program, None, ["--format", "abnf", plain]), (1, b"", as_grammar)
    yield "a text by its name", outcome(program, None, [plain]), (0, b"", printed(plain, (not_read(3),)))
    named = files.written("named.md", '   a = "x"\n\n   b = ?\n')
    yield "a text in spite of its name", outcome(program, None, ["--format", "text", named]), (0, b"", printed(named, (not_read(3),)))
    core, uses = files.written("core.abnf", 'core = "x"'), files.written("uses", "Text.\n\n   a = core nope\n")
    lines = ("3:4: warning: rule a generates nothing [unproductive]", "3:13: error: undefined rule nope [undefined]")
    named_text = outcome(program, None, ["--format", "text", "--with", core, uses])
    yield "a text by the format, and a known grammar by its name", named_text, (1, b"", printed(uses, lines))
    for words in ("--format TEXT", "--format txt", "--format plain"):
        status, said, wrote = outcome(program, None, [*words.split(), plain])
        yield f"the arguments {words} and a file", (status, said[:7], wrote), (5, b"usage: ", b"")


def names_of(plain):
    """The names that a text defines, each behind its place, as a plain reading has them."""
    return [": ".join(it.split(": ", 2)[:2]) for it in plain.rules()]


def read_by(program, text):
    """What a program prints of a text, of its rules and as its grammar, but for names that are near others."""
    words = (["--format", "text", "-"], ["--rules", "--format", "text", "-"], ["--grammar", "--format", "text", "-"])
    for status, said, wrote in rows.side_by_side(lambda it: outcome(program, text.encode(), it), words):
        yield status, said, NEAR.sub(b"", wrote)


def read_plainly(plain, found):
    """The same by a plain reading, and by what is found."""
    yield status_of(found, False), b"", printed("-", found)
    yield 0, b"", printed("-", plain.rules())
    yield (0, b"", plain.grammar.encode()) if plain.has_grammar else (1, b"", printed("-", (NO_GRAMMAR,)))


def random_cases(program, count, seed):
    """Random texts: what is found is what they were laid out with, and what a plain reading finds."""
    faults, lines, over_pages = [], [], 0
    for number in range(count):
        laid = published_texts.random_text(random.Random(f"{seed} {number}"))
        plain = plain_texts.Published(laid.text)
        lines += laid.found
        over_pages += any(b"[Page " in laid.text[block[0][1] : block[-1][1]].encode() for block in plain_texts.gathered(laid.text)[0])
        if (plain.lines(), names_of(plain)) != (laid.found, laid.names):
            faults.append((number, "read plainly", plain.lines()[:3], laid.found[:3]))
        if (found := [*read_by(program, laid.text)]) != (wanted := [*read_plainly(plain, laid.found)]):
            faults.append((number, *next(it for it in zip(found, wanted) if it[0] != it[1])))
    yield f"{count} published texts", (faults[:2], *reached(count, lines, over_pages)), ([], True, True, True), count


def reached(count, lines, over_pages):
    """Whether enough is found, whether each code is, and whether enough rules go over pages."""
    codes = {it.rpartition("[")[2] for it in lines}
    return len(lines) > count, len(codes) == 8, over_pages > count / 10


def damaged_cases(program, count, seed):
    """Random texts that are damaged: what is found is what a plain reading finds."""
    faults, lines, unlike = [], [], 0
    for number in range(count):
        dice = random.Random(f"damaged {seed} {number}")
        laid = published_texts.random_text(dice)
        text = published_texts.damaged(dice, laid.text)
        plain = plain_texts.Published(text)
        found = plain.lines()
        lines, unlike = lines + found, unlike + (len(found) != len(laid.found))
        if (said := [*read_by(program, text)]) != (wanted := [*read_plainly(plain, found)]):
            faults.append((number, *next(it for it in zip(said, wanted) if it[0] != it[1])))
    yield f"{count} damaged texts", (faults[:2], len(lines) > count, unlike > count / 4), ([], True, True), count


def cases(program, count=COUNT, seed=SEED):
    """What each case is, how the program ended in it, and how it must end."""
    with rows.files() as files:
        for some in (row_cases, worked_cases, together_cases, format_cases, limit_cases, memory_cases):
            yield from some(program, files)
    yield from random_cases(program, count, seed)
    yield from damaged_cases(program, count, seed)


def main(words):
    program, count, seed = [*words, *[rows.FINDINGS, COUNT, SEED][len(words) :]]
    return rows.report(cases(program, int(count), seed))


if __name__ == "__main__":
    sys.exit(main(sys.argv[1:]))

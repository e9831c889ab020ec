#!/usr/bin/env python3
"""Worked rows of `abnf_findings`: what it prints of texts, and how it ends. The values are by hand, from RFC 5234 and the table of findings.

    tools/findings_rows.py [PROGRAM]

runs a program that is built. Each row is a text and its lines without the name of the file; the severity in a line tells how the run ends.
"""
import os
import re
import shutil
import sys

import plain_findings
import refused_memory
import rows
from install import grammars
from random_texts import Reading
from runs import HUNG, outcome
from session_rows import ODD_AND_EVEN, TO_AND_FRO
from sums import kit
from workspace import TOP, version

USAGE = b"usage: abnf_findings [--strict | --rules | --grammar] [--with FILE].. [--format abnf | markdown | xml | text] FILE..\n"
HELP = USAGE + b"""Prints what is found in the ABNF grammars of files: of drafts and published RFCs too.
The file - is standard input.

  --strict         warnings count as errors do for the exit status
  --rules          prints the rules and their shortest strings instead
  --grammar        prints the grammars themselves instead
  --with FILE      the names that FILE defines are known; it may stand more than once
  --format FORMAT  what each FILE is written in: abnf, markdown, xml or text
  --               what follows are files, whatever their names are
  --help           prints this
  --version        prints the version
"""
DEEP = "a = " + 65 * "("
# So many faults of syntax are told one by one in a block of a draft.
TEN = 10 * "b c\n"
NO_HEAD = '"=" or "=/" expected'
FIRST_OF_ELEVEN = " (the first of 11 faults in this block)"
FIRST_OF_TWELVE = FIRST_OF_ELEVEN.replace("11", "12")
# As many faults as a block of prose has at least, in rules, and what is printed of them
ELEVEN = "b = ?\nc = ?\nd = ?\ne = ?\ng = ?\nh = ?\ni = ?\nj = ?\nk = ?\nl = ?\nm = ?\n"
ELEVEN_FAULTS = tuple(f"{line}:5: error: bad character [syntax]" for line in range(1, 12))
# A line that is no rule
XY = "x y\n"

FOLDED = ", lines that are folded by \\ are not joined (RFC 8792)"
OF_HTTP = ", lists by # are an extension of HTTP (RFC 9110, section 5.6.1)"
GAP = ", as it leads to names that no file defines"
BARE = 'warning: rules in a block without a word, "~~~ abnf" marks them [unmarked]'
UNTYPED = 'warning: rules in an element without a type, type="abnf" marks them [unmarked]'
# What is said of blocks that can't be read
ELSEWHERE, NONE_THERE = "warning: grammar in another file [not-read]", "warning: empty block of grammar [not-read]"
# What is printed of a text that is no grammar, and of a draft that has none
NO_TEXT = ("1:1: error: no grammar in this text [no-grammar]",)
NO_GRAMMAR = ("1:1: warning: no grammar in this draft [no-grammar]",)

# Drafts in Markdown and RFCXML with blocks that nothing marks, and that aren't all rules, or that something marks: nothing is found in them. The
# line of their rule stands behind those in Markdown; in RFCXML it stands in the first line.
MARKED_DRAFTS = (
    ('```\na = "x"\nSome words.\n```\n```abnf\nb = "x"\n```\n', 6),
    ('~~~\na = ?\n~~~\n~~~\n; a\n~~~\n~~~\n~~~\n```abnf\nb = "x"\n```\n', 10),
    ('```text\na = "x"\n```\n{: #a}\n```\na = "x"\n```\n\n```abnf\nb = "x"\n```\n', 10),
)
MARKED_PAGES = (
    '<artwork type="abnf">b = "x"</artwork><artwork>+--+</artwork><artwork></artwork>',
    '<artwork type="abnf">b = "x"</artwork><artwork>a = b<!-- c -->\nc\n</artwork>',
    '<artwork type="abnf">b = "x"</artwork><artwork type="">a = b</artwork><artwork>a = &b;</artwork>',
)

# A name, the names that are known in front of the core rules, and the one that is meant, by edits that are counted by hand
LONG = "a" + 62 * "x"
NEAR_NAMES = (
    # a letter put in, taken out, changed; two exchanged are two changes
    ("sheme", ("a", "scheme", "ALPHA"), "scheme"),
    ("hosts", ("port", "host"), "host"),
    ("pert", ("port",), "port"),
    ("shceme", ("scheme",), "scheme"),
    ("hots", ("host",), None),
    # letters are read without case
    ("PATH-EMPTI", ("path-empty",), "path-empty"),
    ("digits", ("ALPHA", "DIGIT"), "DIGIT"),
    # a third of the longer name, rounded down, and 1 of short ones
    ("abcdefghi", ("abcdefxyz",), "abcdefxyz"),
    ("abcdefgh", ("abcdexyz",), None),
    ("abcdef", ("abcdefghi",), "abcdefghi"),
    ("abcde", ("abcdefgh",), None),
    ("ab", ("ac",), "ac"),
    ("ab", ("cd",), None),
    ("kitten", ("sitting",), None),
    # the nearest, and of those that are as near the first
    ("segmant", ("segments", "segment"), "segment"),
    ("pat", ("path", "part"), "path"),
    ("pat", ("part", "path"), "part"),
    ("pat", ("pot", "part", "pa"), "pot"),
    # one letter has nothing in common with another, and nothing with a longer name
    ("a", ("b",), None),
    ("ab", ("a",), None),
    ("a", ("ab",), None),
    # names of up to 64 letters are compared
    (f"{LONG}z", (f"{LONG}y",), f"{LONG}y"),
    (f"{LONG}zz", (f"{LONG}y",), None),
    (f"{LONG}y", (f"{LONG}zz",), None),
)


def near_row(name, known, meant):
    """A text that defines the known names, in the first of which it uses the other name, and what is found in it."""
    first, *others = known
    text, hint = "".join(f'{it} = "x"\n' for it in others), f", did you mean {meant}?" if meant else ""
    return f'{first} = "x" / {name}\n{text}', (f"1:{len(first) + 10}: error: undefined rule {name}{hint} [undefined]",)


ROWS = (
    # nothing is found: the core rules are there (RFC 5234 appendix B.1), in either case, and equal bounds and ends are not empty
    ("", ()),
    ('a = "x"\n', ()),
    ("a = B digit\r\nb = 2*2%x30-30\r\n", ()),
    ('a = <text> / "x"\nb = "y"', ()),
    ("a = b\nb = <text>", ()),
    # faults of syntax (RFC 5234 section 4)
    ('= "x"', ("1:1: error: rule name expected [syntax]",)),
    ('a "x"', ('1:3: error: "=" or "=/" expected [syntax]',)),
    ("a = ?", ("1:5: error: bad character [syntax]",)),
    ("a =", ("1:4: error: element expected [syntax]",)),
    ('a = 2 "x"', ("1:5: error: element expected [syntax]",)),
    ('a = "x""y"', ("1:8: error: blank expected [syntax]",)),
    ("a = (b", ("1:5: error: bracket not closed [syntax]",)),
    # lists by `#` are HTTP's (RFC 9110 section 5.6.1), and a file may begin with a byte order mark
    ('a = 1#b\nb = "x"', (f"1:5: error: element expected{OF_HTTP} [syntax]",)),
    ('a = 1*2#b\nb = "x" #b', (f"1:5: error: element expected{OF_HTTP} [syntax]", f"2:9: error: bad character{OF_HTTP} [syntax]")),
    ("a = 1 #b", ("1:5: error: element expected [syntax]",)),
    ("# A title", ("1:1: error: rule name expected [syntax]",)),
    ('\ufeffa = "x"\n\ufeffb = "y"\nc = "z"', ("1:1: error: rule name expected, a byte order mark [syntax]", "2:1: error: rule name expected [syntax]")),
    ("\uff11 = a", ("1:1: error: rule name expected [syntax]",)),
    # lines that are folded (RFC 8792), and files that kramdown includes
    ('a = "x" \\\n  "y"\nb = c', (f"1:9: error: bad character{FOLDED} [syntax]", "3:1: warning: rule b generates nothing [unproductive]", "3:5: error: undefined rule c [undefined]")),
    ('{::include a.abnf}\n{: b\nc = "z"', ("1:1: error: rule name expected, what kramdown includes is not read [syntax]", "2:1: error: rule name expected [syntax]")),
    # limits
    ("a = %x100000000", ("1:5: error: number too large [number-too-large]",)),
    (DEEP, ("1:69: error: brackets nested too deep [too-deep]",)),
    # names that stand for nothing; an optional use generates the empty string (RFC 5234 sections 3.6 and 3.8)
    ('a = 0nope *nope [nope] "k"', tuple(f"1:{column}: error: undefined rule nope [undefined]" for column in (6, 12, 18))),
    # near names: of the text as it is first defined there, then of the core rules; none of one letter, and none where another thing is told
    ('a = sheme / "x"\nscheme = "y"', ("1:5: error: undefined rule sheme, did you mean scheme? [undefined]",)),
    ('Scheme = "y"\na = SHEME / "x"\nscheme =/ "z"', ("2:5: error: undefined rule SHEME, did you mean Scheme? [undefined]",)),
    ('a = DIGITS / "x"', ("1:5: error: undefined rule DIGITS, did you mean DIGIT? [undefined]",)),
    ('a = hexdi / "x"\nhexdix = "1"', ("1:5: error: undefined rule hexdi, did you mean hexdix? [undefined]",)),
    ('a = b c / "x"', ("1:5: error: undefined rule b [undefined]", "1:7: error: undefined rule c [undefined]")),
    ('scheme = "x"\nshemes =/ "y"', ("2:1: warning: no earlier definition of shemes [no-base]",)),
    ('a = nope / "x"\nscheme = "y"', ("1:5: error: undefined rule nope [undefined]",)),
    # (a faulty block defines its name too)
    ('scheme = ?\na = sheme / "x"', ("1:10: error: bad character [syntax]", "2:5: error: undefined rule sheme, did you mean scheme? [undefined]")),
    *(near_row(*it) for it in NEAR_NAMES),
    # second definitions, in either case (RFC 5234 section 2.1), and additions without a first (section 3.3)
    ('A = "yy"\na = "z"\na =/ "x"', ("2:1: error: rule a is already defined [duplicate]",)),
    ('a =/ "x"\na = "y"\na =/ "z"', ("1:1: warning: no earlier definition of a [no-base]",)),
    # a block that doesn't count is looked at like any other
    (
        'a = "x"\na = Nope 2*1"y"',
        (
            *("2:1: error: rule a is already defined [duplicate]", "2:5: error: undefined rule Nope [undefined]"),
            "2:10: warning: repeat with minimum above maximum [empty-repeat]",
        ),
    ),
    # heads of faulty blocks define their names, and of what leads to them not all is known
    (
        'a = ?\na = "x"\nb = (\nb =/ "y"',
        ("1:5: error: bad character [syntax]", "2:1: error: rule a is already defined [duplicate]", "3:6: error: element expected [syntax]"),
    ),
    ("a = b\nb = c\nc = ?", ("3:5: error: bad character [syntax]",)),
    # repeats and ranges that are empty (RFC 5234 sections 3.6 and 3.4)
    ('a = 3*2"x" / "y"', ("1:5: warning: repeat with minimum above maximum [empty-repeat]",)),
    ('a = %x39-30 / "y"', ("1:5: warning: range with low above high [empty-range]",)),
    # rules that generate nothing
    ('a = b "x"\nb = a', ("1:1: warning: rule a generates nothing [unproductive]", "2:1: warning: rule b generates nothing [unproductive]")),
    (
        "a = b\nb = gone\n",
        (
            *(f"{line}:1: warning: rule {name} generates nothing [unproductive]" for line, name in ((1, "a"), (2, "b"))),
            "2:5: error: undefined rule gone [undefined]",
        ),
    ),
    # at the first head of the rule, as it is spelled there; and rules that need each other to and fro
    ('List = list\nLIST =/ list "x"', ("1:1: warning: rule List generates nothing [unproductive]",)),
    (TO_AND_FRO, ("25:1: warning: rule z generates nothing [unproductive]",)),
    (ODD_AND_EVEN, ()),
    (" a = OWS\n", ("1:2: warning: rule a generates nothing [unproductive]", "1:6: error: undefined rule OWS [undefined]")),
    (
        'a = b\n / nope\n\nd = 3*2"x"\n\n',
        (
            "1:1: warning: rule a generates nothing [unproductive]",
            *("1:5: error: undefined rule b [undefined]", "2:4: error: undefined rule nope [undefined]"),
            *("4:1: warning: rule d generates nothing [unproductive]", "4:5: warning: repeat with minimum above maximum [empty-repeat]"),
        ),
    ),
    # several of one line, and of one place by the rows of the table
    (
        'a = 3*2"x" / %x39-30',
        (
            "1:1: warning: rule a generates nothing [unproductive]",
            "1:5: warning: repeat with minimum above maximum [empty-repeat]",
            "1:14: warning: range with low above high [empty-range]",
        ),
    ),
    ("b =/ b", ("1:1: warning: no earlier definition of b [no-base]", "1:1: warning: rule b generates nothing [unproductive]")),
    ("a = b", ("1:1: warning: rule a generates nothing [unproductive]", "1:5: error: undefined rule b [undefined]")),
    (
        'a = b\nA = "x" / c\nb = a b\nd =/ d',
        (
            *("1:1: warning: rule a generates nothing [unproductive]", "2:1: error: rule A is already defined [duplicate]"),
            *("2:11: error: undefined rule c [undefined]", "3:1: warning: rule b generates nothing [unproductive]"),
            *("4:1: warning: no earlier definition of d [no-base]", "4:1: warning: rule d generates nothing [unproductive]"),
        ),
    ),
    # what columns count: characters, whatever bytes or UTF-16 units they have; a tab is one
    ('a = <\u00e9\u20ac\U0001f600> nope', ("1:11: error: undefined rule nope [undefined]",)),
    ("a = <\u00e9> nope nope", ("1:9: error: undefined rule nope [undefined]", "1:14: error: undefined rule nope [undefined]")),
    ("a =\tnope", ("1:1: warning: rule a generates nothing [unproductive]", "1:5: error: undefined rule nope [undefined]")),
    # lines, by each line end (LSP 3.17), and past nine
    ('a = "x"\r\nb = ?\rc = ?\nd = ?', tuple(f"{line}:5: error: bad character [syntax]" for line in (2, 3, 4))),
    ('a = "x"\n' + 9 * "\n" + "b = ?", ("11:5: error: bad character [syntax]",)),
    # a grammar has all its faults told, however many they are
    (f'a = "x"\n{TEN}b c', tuple(f"{line}:3: error: {NO_HEAD} [syntax]" for line in range(2, 13))),
    (ELEVEN, ELEVEN_FAULTS),
    # a text that is no grammar: more than one block, none a rule, and fewer than half with a head
    ("Some words.\nMore of them.\n", NO_TEXT),
    ("<!DOCTYPE html>\n<html>\n <body>\n  <p>a = b</p>\n </body>\n</html>\n", NO_TEXT),
    ("; a\n  a = ?\n  Some words.\nMore words, a = b\n", NO_TEXT),
    (f"{TEN}b c", NO_TEXT),
    ("; a\n\n  Some words.\n    More words.\n  And more.\n", NO_TEXT),
    ("Some words.\na = ?\nMore words.\n", NO_TEXT),
    ('= "x"\n= "y"', NO_TEXT),
    # half of its blocks have one, or one is a rule, or there is one block alone
    ("a = ?\nSome words.\n", ("1:5: error: bad character [syntax]", f"2:6: error: {NO_HEAD} [syntax]")),
    ("Some words.\nA\n =/ ?\n", (f"1:6: error: {NO_HEAD} [syntax]", "2:1: warning: no earlier definition of A [no-base]", "3:5: error: bad character [syntax]")),
    ('Some words.\na = "x"\nMore words.\nAnd more.\n', (f"1:6: error: {NO_HEAD} [syntax]", f"3:6: error: {NO_HEAD} [syntax]", f"4:5: error: {NO_HEAD} [syntax]")),
    ("Some words.\n  More of them.\n", (f"1:6: error: {NO_HEAD} [syntax]",)),
    ("Some words.\n", (f"1:6: error: {NO_HEAD} [syntax]",)),
    ("Some words.\na = ?\n", (f"1:6: error: {NO_HEAD} [syntax]", "2:5: error: bad character [syntax]")),
    ('Some words.\nMore words.\na = "x"\nAnd more.\n', tuple(f"{at}: error: {NO_HEAD} [syntax]" for at in ("1:6", "2:6", "4:5"))),
    ("a = %x100000000\nb = %x100000000", ("1:5: error: number too large [number-too-large]", "2:5: error: number too large [number-too-large]")),
)

# What is printed of rules: each at the first place that defines it. A text that is no grammar has rules where its blocks have heads.
RULE_ROWS = (
    ("Some words.\nMore of them.\na = ?\n", ("3:1: a: not known",)),
    ("", ()),
    ("Some words.\nMore words.\n", ()),
    ("; nothing\n", ()),
    ('a = "x"', ("1:1: a: shortest length 1: x",)),
    # names are read without case, and what is added counts (RFC 5234 sections 2.1 and 3.3)
    ('A = b\na =/ "y"\nb = 2"xy"\n', ("1:1: A: shortest length 1: y", "3:1: b: shortest length 4: xyxy")),
    ('a = "xx"\na = "y"\nDIGIT = a', ("1:1: a: shortest length 2: xx", "3:1: DIGIT: shortest length 2: xx")),
    ('a =/ "xx"\nb = a\na = "y"', ("1:1: a: shortest length 1: y", "2:1: b: shortest length 1: y")),
    ('a = DIGIT\nb = *"x"', ("1:1: a: shortest length 1: 0", "2:1: b: shortest length 0: ")),
    ("a = %x20.e9\r\n\r\nb = %x5c", ("1:1: a: shortest length 2:  \\x{E9}", "3:1: b: shortest length 1: \\\\")),
    ("a = <text>\nb = a\nc = ?", ("1:1: a: not known", "2:1: b: not known", "3:1: c: not known")),
    ('a = a "x"\nb = nope', ("1:1: a: generates nothing", "2:1: b: generates nothing")),
    ('  a = 4096"x"\n  b = 4097"x"', (f"1:3: a: shortest length 4096: {4096 * 'x'}", "2:3: b: shortest length 4097, example not shown")),
    (
        'c = 4294967295"x"\nb = 4294967295c\na = 4294967295b',
        (
            "1:1: c: shortest length 4294967295, example not shown",
            "2:1: b: shortest length 18446744065119617025, example not shown",
            "3:1: a: shortest length 18446744073709551615 or more",
        ),
    ),
)

# Drafts in Markdown (CommonMark 0.31, section 4.5), with what is found in them, and the lines of their rules. All stands where the draft
# has it.
DRAFT_ROWS = (
    ("", NO_GRAMMAR, ()),
    ("# A title\n\n    a = ?\n", NO_GRAMMAR, ()),
    (
        "# A title\n\n```abnf\na = nope\n```\n",
        ("4:1: warning: rule a generates nothing [unproductive]", "4:5: error: undefined rule nope [undefined]"),
        ("4:1: a: generates nothing",),
    ),
    # tildes, a word in capitals with no blank before it, and an indentation of the block's own
    ('~~~ABNF\n  a = "x"\n  b = ?\n~~~', ("3:7: error: bad character [syntax]",), ("2:3: a: shortest length 1: x", "3:3: b: not known")),
    # two blocks with other indentations, of which the second uses a name of the first and adds to it
    (
        '``` abnf\na = "xx"\n```\nand\n~~~~ abnf title\n    b = a c\n    a =/ "y"\n~~~~\n',
        ("6:5: warning: rule b generates nothing [unproductive]", "6:11: error: undefined rule c [undefined]"),
        ("2:1: a: shortest length 1: y", "6:5: b: generates nothing"),
    ),
    # a fence in a list, whose indentation goes; a line with less of it stands at the left
    ("- an item\n\n  ```abnf\n  a = ?\n  ```\n", ("4:7: error: bad character [syntax]",), ("4:3: a: not known",)),
    ('   ```abnf\n   a = "x"\n b = ?\n   ```\n', ("3:6: error: bad character [syntax]",), ("2:4: a: shortest length 1: x", "3:2: b: not known")),
    # line ends, and characters outside ASCII before the block and in it
    ("\u00e9\U0001f600\r\n```abnf\r\na = <\u00e9> nope\r\n```\r\n", ("3:9: error: undefined rule nope [undefined]",), ("3:1: a: not known",)),
    # a fence without an end, and one whose end is longer; what is no end
    ("```abnf\na = (b", ("2:5: error: bracket not closed [syntax]",), ("2:1: a: not known",)),
    ('```abnf\na = "x"\n`````\nb = ?\n', (), ("2:1: a: shortest length 1: x",)),
    ('````abnf\na = "x"\n```\n````\n', ("3:1: error: rule name expected [syntax]",), ("2:1: a: shortest length 1: x",)),
    # other blocks, and what stands in them
    ("````text\n```abnf\na = ?\n```\n````\n", NO_GRAMMAR, ()),
    ("```abnf-like\na = ?\n```\n", NO_GRAMMAR, ()),
    ("``` abnf `\na = ?\n```\n", NO_GRAMMAR, ()),
    ("``abnf\na = ?\n``\n", NO_GRAMMAR, ()),
    ("``\na = b\n``\n", NO_GRAMMAR, ()),
    ("a = b\n", NO_GRAMMAR, ()),
    ("```\nabnf\n```\n", NO_GRAMMAR, ()),
    ("```abnfx\na = b\n```\n", NO_GRAMMAR, ()),
    ("``` xml abnf\na = b\n```\n", NO_GRAMMAR, ()),
    ("```abnf `\na = b\n", NO_GRAMMAR, ()),
    ("~~~text\n```abnf\na = b\n```\n~~~\n", NO_GRAMMAR, ()),
    # attribute lists that say ABNF, as kramdown has them: in the info string, before a block and behind it; that behind a block speaks of that
    ("~~~ {.abnf}\na = ?\n~~~\n", ("2:5: error: bad character [syntax]",), ("2:1: a: not known",)),
    ('```{: .x type="ABNF" #y}\na = ?\n```\n', ("2:5: error: bad character [syntax]",), ("2:1: a: not known",)),
    (" {: .Language-Abnf}\n~~~\na = ?\n~~~\n~~~\nb = ?\n~~~\n", ("3:5: error: bad character [syntax]",), ("3:1: a: not known",)),
    ('~~~ text\na = ?\n~~~\n{: type="abnf"}\n~~~\nb = ?\n~~~\n', ("2:5: error: bad character [syntax]",), ("2:1: a: not known",)),
    ("~~~ {.abnfs}\na = ?\n~~~\n{.x} .abnf\n", NO_GRAMMAR, ()),
    ("{.abnf}\n\n~~~\na = ?\n~~~\n\n{.abnf}", NO_GRAMMAR, ()),
    # a block in a quote (CommonMark 0.31, section 5.1); a `>` in any other block is the grammar's
    ("> text\n>\n> ~~~ abnf\n> a =\n>  ?\n> ~~~\n\n~~~ abnf\nb = ?\n~~~\n", ("5:4: error: bad character [syntax]", "9:5: error: bad character [syntax]"), ("4:3: a: not known", "9:1: b: not known")),
    ("~~~ abnf\n> ~~~\n~~~\n", ("2:1: error: rule name expected [syntax]",), ()),
    # comments (CommonMark 0.31, section 4.6), and what kramdown leaves out
    ("<!--\n~~~ abnf\na = ?\n~~~\n-->\n", NO_GRAMMAR, ()),
    ("<!-- a -->\n~~~ abnf\na = ?\n~~~\n<!-- b\nc --> d\n~~~ abnf\nb = ?\n~~~\n", ("3:5: error: bad character [syntax]", "8:5: error: bad character [syntax]"), ("3:1: a: not known", "8:1: b: not known")),
    ("{::comment}\n~~~ abnf\na = ?\n~~~\n{:/comment}\n~~~ abnf\nb = ?\n~~~\n", ("7:5: error: bad character [syntax]",), ("7:1: b: not known",)),
    ("{::comment} b {:/comment}\n~~~ abnf\na = ?\n~~~\n", ("3:5: error: bad character [syntax]",), ("3:1: a: not known",)),
    # empty blocks, each where its closing fence stands, or where the draft ends
    ("```abnf\n```\n", ("2:1: warning: empty block of grammar [not-read]",), ()),
    (
        "text\n\n~~~ {.abnf}\n \t\n ~~~\n```abnf\na = ?\n```\n```\n```\n```abnf\n\n",
        ("5:1: warning: empty block of grammar [not-read]", "7:5: error: bad character [syntax]", "13:1: warning: empty block of grammar [not-read]"),
        ("7:1: a: not known",),
    ),
    ("~~~ abnf\r\n \t\r\n\r\n  ~~~\n", ("4:1: warning: empty block of grammar [not-read]",), ()),
    ("~~~\n~~~\n{: .abnf}\n", ("2:1: warning: empty block of grammar [not-read]",), ()),
    ("> ~~~ abnf\n>\n> ~~~\n", ("3:1: warning: empty block of grammar [not-read]",), ()),
    (
        "```abnf\n\u00e9\n```\n```abnf\n",
        ("2:1: error: rule name expected [syntax]", "5:1: warning: empty block of grammar [not-read]"),
        (),
    ),
    # text stands in it, or it is no block of ABNF
    ("```abnf\n; a\n```\n", (), ()),
    ("```text\n```\n", NO_GRAMMAR, ()),
    ("<!--\n```abnf\n```\n", NO_GRAMMAR, ()),
    # findings of two blocks
    (
        '# A title\n\n```abnf\n  a = b\n   / nope\n```\ntext\n~~~abnf\nd = ?\na =/ "x"\n~~~\n',
        (
            *("4:7: error: undefined rule b [undefined]", "5:6: error: undefined rule nope [undefined]"),
            "9:5: error: bad character [syntax]",
        ),
        ("4:3: a: shortest length 1: x", "9:1: d: not known"),
    ),
    # an appendix that collects the grammar: what says the same as the first definition is no finding, with names in any case, and other
    # blanks and comments
    (
        '```abnf\na = b "x" ; first\nb = %x41\n```\n~~~abnf\n  A=B\n    "x"\n  b = %x41 ; again\n~~~\n',
        (),
        ("2:1: a: shortest length 2: Ax", "3:1: b: shortest length 1: A"),
    ),
    # one that says something else: another text, and one token less or more
    (
        '```abnf\na = "x"\n```\n```abnf\n a = "X"\n a = "x"\n a = "x" "y"\n```\n',
        (
            "5:2: error: rule a differs from its definition at line 2 [differs]",
            "7:2: error: rule a differs from its definition at line 2 [differs]",
        ),
        ("2:1: a: shortest length 1: x",),
    ),
    # what is added to a name repeats nothing, and a name of the text of a token is another one
    ('```abnf\na =/ b\na = b\na =/ b\na = "b"\nb = "x"\n```\n', ("2:1: warning: no earlier definition of a [no-base]", "5:1: error: rule a differs from its definition at line 3 [differs]"), ("2:1: a: shortest length 1: x", "6:1: b: shortest length 1: x")),
    # ten faults of a block are told one by one; of eleven the first alone, and nothing else of the block; another block stays as it is
    (
        f'```abnf\na = 3*2"x" / "y"\n{TEN}```\n~~~abnf\nd = 3*2"x" / "y"\n{TEN}e = 4294967296"x"\nf = nope\n~~~\n```abnf\ng = ?\n```\n',
        (
            "2:5: warning: repeat with minimum above maximum [empty-repeat]",
            *(f"{line}:3: error: {NO_HEAD} [syntax]" for line in range(3, 13)),
            f"16:3: error: {NO_HEAD}{FIRST_OF_ELEVEN} [syntax]",
            "30:5: error: bad character [syntax]",
        ),
        ("2:1: a: shortest length 1: y", "15:1: d: shortest length 1: y", "26:1: e: not known", "27:1: f: generates nothing", "30:1: g: not known"),
    ),
    # a fence that opens over what isn't ABNF, with a hint at the first fault
    (f"# Title\n\n```abnf\na = 1#b\n{TEN}", (f"4:5: error: element expected{OF_HTTP}{FIRST_OF_ELEVEN} [syntax]",), ("4:1: a: not known",)),
    (
        f"~~~ abnf\na = #b\n{10 * XY}~~~\n",
        (f"2:5: error: bad character{OF_HTTP}{FIRST_OF_ELEVEN} [syntax]",),
        ("2:1: a: not known",),
    ),
    (
        f'~~~ abnf\na = 4294967296"x"\n{10 * XY}~~~\n',
        (f"2:5: error: number too large{FIRST_OF_ELEVEN} [number-too-large]",),
        ("2:1: a: not known",),
    ),
    # a fence that opens over prose: nothing else is told of the block
    (
        f"text\n\n```abnf\na = nope\n{11 * XY}```\n",
        (f"5:3: error: {NO_HEAD}{FIRST_OF_ELEVEN} [syntax]",),
        ("4:1: a: generates nothing",),
    ),
    # a fence that no line closes, where the last line has no end
    (f"```abnf\n{11 * XY}x y", (f"2:3: error: {NO_HEAD}{FIRST_OF_TWELVE} [syntax]",), ()),
    # a second block stays whole
    (
        f"```abnf\n{11 * XY}```\n```abnf\nb = ?\nb y\n```\n",
        (
            f"2:3: error: {NO_HEAD}{FIRST_OF_ELEVEN} [syntax]",
            *("15:5: error: bad character [syntax]", f"16:3: error: {NO_HEAD} [syntax]"),
        ),
        ("15:1: b: not known",),
    ),
    # so does a first, and nothing is told of definitions that differ from its own
    (
        f'```abnf\nc = nope\na = "x"\n```\n```abnf\na = "y"\nd =/ "x"\n?\n{10 * XY}```\n',
        (
            *("2:1: warning: rule c generates nothing [unproductive]", "2:5: error: undefined rule nope [undefined]"),
            f"8:1: error: rule name expected{FIRST_OF_ELEVEN} [syntax]",
        ),
        ("2:1: c: generates nothing", "3:1: a: shortest length 1: x", "7:1: d: shortest length 1: x"),
    ),
    # two of them, with an empty block behind
    (
        f"```abnf\n{11 * XY}```\n```abnf\n{12 * XY}```\n```abnf\n```\n",
        (
            *(f"2:3: error: {NO_HEAD}{FIRST_OF_ELEVEN} [syntax]", f"15:3: error: {NO_HEAD}{FIRST_OF_TWELVE} [syntax]"),
            "29:1: warning: empty block of grammar [not-read]",
        ),
        (),
    ),
    # ten faults, and other findings of their block
    (
        f"text\n\n```abnf\na = nope\n{10 * XY}```\n",
        (
            *("4:1: warning: rule a generates nothing [unproductive]", "4:5: error: undefined rule nope [undefined]"),
            *(f"{line}:3: error: {NO_HEAD} [syntax]" for line in range(5, 15)),
        ),
        ("4:1: a: generates nothing",),
    ),
    # blocks of rules that nothing marks as ABNF: each at its fence, behind the margin
    ('```\na = "x"\n```\n', (*NO_GRAMMAR, f"1:1: {BARE}"), ()),
    ("text\n\n~~~~ \t\na = nope\na = nope\n\n\nb =/ 3*2a\n", (*NO_GRAMMAR, f"3:1: {BARE}"), ()),
    ('- an item\n\n  ~~~\n    ; c\n    a = "x"\n     / b\n    b = a\n  ~~~\n\n> ````  \n> a = "x"\n> ````\n\t```\n\ta = b\n\t```\n', (*NO_GRAMMAR, f"3:3: {BARE}", f"10:3: {BARE}", f"13:2: {BARE}"), ()),
    ("\u00e9\U0001f600\r\n> \t~~~\r\n> \ta = <\u00e9>\r\n> \t~~~\r\n", (*NO_GRAMMAR, f"2:4: {BARE}"), ()),
    # among findings, and blocks that are empty, in the order of the draft
    (
        "~~~\nb = nope\n~~~\n\n```abnf\na = ?\n```\n```\nc = %x61\n / d\ne =/ c\n```\n```abnf\n```\n",
        (f"1:1: {BARE}", "6:5: error: bad character [syntax]", f"8:1: {BARE}", "14:1: warning: empty block of grammar [not-read]"),
        ("6:1: a: not known",),
    ),
    (
        '> ~~~\n> b = c\n> ~~~\n\n```abnf\na = a\n```\n\n  ~~~\n  ; d\n  d =/ nope\n  e = "x"',
        (f"1:3: {BARE}", "6:1: warning: rule a generates nothing [unproductive]", f"9:3: {BARE}"),
        ("6:1: a: generates nothing",),
    ),
    # nothing is said of them where rules are asked for
    ('```\nb = "y"\n```\n```abnf\na = "x"\n```\n', (f"1:1: {BARE}",), ("5:1: a: shortest length 1: x",)),
    # an attribute list in the line before or behind, whatever it says: that behind a block stands before the next one, too
    ('{.x}\n~~~\na = "x"\n~~~\n', NO_GRAMMAR, ()),
    ("{: .text}\n```\na = b\n```\n", NO_GRAMMAR, ()),
    ("\t{\n~~~\na = b\n~~~\n", NO_GRAMMAR, ()),
    ('~~~\na = "x"\n~~~\n {: #y\n', NO_GRAMMAR, ()),
    ("```\na = b\n```\n{: #a}\n", NO_GRAMMAR, ()),
    (
        "{: .abnf}\n```\na = b\n```\n",
        ("3:1: warning: rule a generates nothing [unproductive]", "3:5: error: undefined rule b [undefined]"),
        ("3:1: a: generates nothing",),
    ),
    (
        "```\na = b\n```\n  {.abnf}\n",
        ("2:1: warning: rule a generates nothing [unproductive]", "2:5: error: undefined rule b [undefined]"),
        ("2:1: a: generates nothing",),
    ),
    ('~~~\na = "x"\n~~~\n{.x}\n~~~\nb = "x"\n~~~\n~~~\nc = "x"\n~~~', (*NO_GRAMMAR, f"8:1: {BARE}"), ()),
    ('{.x}\n\n~~~\na = "x"\n~~~\n\n{.x}\n', (*NO_GRAMMAR, f"3:1: {BARE}"), ()),
    # an info string
    ("```text\na = b\n```\n", NO_GRAMMAR, ()),
    ('``` x\na = "x"\n```\n~~~ {.x}\na = "x"\n~~~\n~~~abnfs\na = "x"\n~~~\n~~~ ~\na = "x"\n~~~\n', NO_GRAMMAR, ()),
    # not all is rules, or nothing is
    ('~~~\na = "x"\nb\n~~~\n```\n# A title\n\n    a = "x"\n```\n~~~\na = "x"\nb = %x100000000\n~~~\n', NO_GRAMMAR, ()),
    ('~~~\n; a = "x"\n\n~~~\n```\n```\n~~~\n \t\n~~~\n~~~', NO_GRAMMAR, ()),
    *((text, (), (f"{line}:1: b: shortest length 1: x",)) for text, line in MARKED_DRAFTS),
    # other blocks, and comments
    (
        '````text\n~~~\na = "x"\n~~~\n````\n<!--\n~~~\na = "x"\n~~~\n-->\n{::comment}\n~~~\na = "x"\n~~~\n{:/comment}\n\n    ```\n    a = "x"\n    ```\n',
        (*NO_GRAMMAR, f"17:5: {BARE}"),
        (),
    ),
)

# The same of drafts in RFCXML (RFC 7991 sections 2.5 and 2.48; XML 1.0, fifth edition). Of a draft at fault the fault alone is told.
XML_ROWS = (
    ("<rfc><t>none</t></rfc>", NO_GRAMMAR, ()),
    (
        '<rfc>\n<sourcecode type="abnf">\na = nope\n</sourcecode>\n</rfc>',
        ("3:1: warning: rule a generates nothing [unproductive]", "3:5: error: undefined rule nope [undefined]"),
        ("3:1: a: generates nothing",),
    ),
    # the other element and kind of quotes, and an indentation of the block's own
    ("<artwork name='x' type = 'ABNF'>\n    a = \"x\"\n    b = ?\n</artwork>", ("3:9: error: bad character [syntax]",), ("2:5: a: shortest length 1: x", "3:5: b: not known")),
    # references: each is one character, at the place of its first one
    ('<artwork type="abnf">a = &lt;p&gt; &#x6e;&#111;pe ?</artwork>', ("1:51: error: bad character [syntax]",), ("1:22: a: not known",)),
    ('<artwork type="abnf">a = &quot;x&quot; nope</artwork>', ("1:22: warning: rule a generates nothing [unproductive]", "1:40: error: undefined rule nope [undefined]"), ("1:22: a: generates nothing",)),
    # a section in the middle of a line, and comments in a block and outside
    (
        '<!-- <artwork type="abnf"> --><artwork type="abnf">a = <![CDATA[<p> b]]><!-- ? --> c</artwork>',
        ("1:69: error: undefined rule b [undefined]", "1:84: error: undefined rule c [undefined]"),
        ("1:52: a: not known",),
    ),
    (
        '<artwork type="abnf">\n  a = &lt;b&gt; nope\n  c = c\n</artwork>',
        ("2:17: error: undefined rule nope [undefined]", "3:3: warning: rule c generates nothing [unproductive]"),
        ("2:3: a: not known", "3:3: c: generates nothing"),
    ),
    # what is no block
    ("", NO_GRAMMAR, ()),
    ("a = b & c\n", NO_GRAMMAR, ()),
    ('<sourcecode type="xml">a = b</sourcecode>', NO_GRAMMAR, ()),
    ('<sourcecodes type="abnf">a = b</sourcecodes>', NO_GRAMMAR, ()),
    ('<Artwork type="abnf">a = b</Artwork>', NO_GRAMMAR, ()),
    ('<artwork type="abnf"/>a = b', (*NO_GRAMMAR, "1:1: warning: empty block of grammar [not-read]"), ()),
    ('<![CDATA[<artwork type="abnf">]]>', NO_GRAMMAR, ()),
    ('<?xml version="1.0"?><!DOCTYPE rfc>', NO_GRAMMAR, ()),
    # two blocks, of which the second uses a name of the first; other types, an empty element, and `>` in quotes
    (
        '<sourcecode type="abnf">a = "x"</sourcecode>\n<sourcecode type="xml">b = ?</sourcecode>\n<artwork type="abnf"/>\n<artwork alt=">" type="abnf">b = a c</artwork>',
        ("3:1: warning: empty block of grammar [not-read]", "4:30: warning: rule b generates nothing [unproductive]", "4:36: error: undefined rule c [undefined]"),
        ("1:25: a: shortest length 1: x", "4:30: b: generates nothing"),
    ),
    ('\u00e9\U0001f600<artwork type="abnf">a = ?</artwork>', ("1:28: error: bad character [syntax]",), ("1:24: a: not known",)),
    # blocks that can't be read: their text is in another file (RFC 7991 sections 2.5.8 and 2.48.4; XInclude 1.0), or there is none
    (
        '<artwork type="abnf"/>\n<sourcecode name="src=" type="abnf" src = \'a.abnf\'/>\n<sourcecode src="a.abnf"/>',
        (*NO_GRAMMAR, "1:1: warning: empty block of grammar [not-read]", "2:1: warning: grammar in another file [not-read]"),
        (),
    ),
    (
        '<artwork type="abnf">a = ?</artwork>\n<sourcecode type="abnf">\n <xi:include href="b.abnf"/></sourcecode>\n<artwork type="abnf"> <!-- c --></artwork><artwork type="abnf">d = ?</artwork>',
        (
            "1:26: error: bad character [syntax]",
            "3:2: warning: grammar in another file [not-read]",
            "4:1: warning: empty block of grammar [not-read]",
            "4:68: error: bad character [syntax]",
        ),
        ("1:22: a: not known", "4:64: d: not known"),
    ),
    ('<artwork type="abnf" src="a.abnf">a = "x"</artwork>', ("1:1: warning: grammar in another file [not-read]",), ("1:35: a: shortest length 1: x",)),
    *((text, (*NO_GRAMMAR, f"1:1: {ELSEWHERE}"), ()) for text in ('<sourcecode type="abnf" src="a.abnf"/>', '<artwork src="a" type="abnf"/>')),
    (
        "<sourcecode src = 'a' type=\"abnf\">a = b</sourcecode>",
        (f"1:1: {ELSEWHERE}", "1:35: warning: rule a generates nothing [unproductive]", "1:39: error: undefined rule b [undefined]"),
        ("1:35: a: generates nothing",),
    ),
    ('<artwork type="abnf" src="a"></artwork>', (f"1:1: {ELSEWHERE}",), ()),
    ('<sourcecode type="abnf"><xi:include href="a"/></sourcecode>', (f"1:25: {ELSEWHERE}",), ()),
    (
        '<artwork type="abnf">a = b<xi:include href="b"/> c<xi:include href="c"/></artwork>',
        (
            *("1:22: warning: rule a generates nothing [unproductive]", "1:26: error: undefined rule b [undefined]", f"1:27: {ELSEWHERE}"),
            *("1:50: error: undefined rule c [undefined]", f"1:51: {ELSEWHERE}"),
        ),
        ("1:22: a: generates nothing",),
    ),
    # there is no text
    ('x<artwork type="abnf"/>', (*NO_GRAMMAR, f"1:2: {NONE_THERE}"), ()),
    ('<sourcecode type="abnf"></sourcecode>', (f"1:1: {NONE_THERE}",), ()),
    ('<artwork type="abnf"> \n<!-- a --><![CDATA[\t]]>&#32;</artwork>', (f"1:1: {NONE_THERE}",), ()),
    ('<artwork type="abnf"/><artwork type="abnf"></artwork>', (f"1:1: {NONE_THERE}", f"1:23: {NONE_THERE}"), ()),
    # all is read: a fault that stands behind the last character of a block stands at its end tag
    *(
        (text, (f"1:{text.index('</') + 1}: error: {NO_HEAD} [syntax]",), ())
        for text in (
            '<artwork type="abnf">a</artwork>',
            '<artwork type="abnf"><![CDATA[a]]></artwork>',
            '<artwork type="abnf">&#65;</artwork>',
            '<sourcecode type="abnf" srcs="a">a</sourcecode>',
            '<sourcecode type="abnf" name="x src=\'a\'">a</sourcecode>',
        )
    ),
    # what is no block of ABNF
    ('<sourcecode src="a"/><xi:include href="a"/>', NO_GRAMMAR, ()),
    ('<!-- <artwork type="abnf"/> -->', NO_GRAMMAR, ()),
    # definitions that come again
    (
        '<artwork type="abnf">a = "x"</artwork>\n<artwork type="abnf">a = &quot;x&quot;\na = &quot;x&quot; / "y"</artwork>',
        ("3:1: error: rule a differs from its definition at line 1 [differs]",),
        ("1:22: a: shortest length 1: x",),
    ),
    # eleven faults in a block, of which one is of another code, beside definitions that come again
    (
        f'<artwork type="abnf">a = "x"</artwork>\n<artwork type="abnf">\na = &quot;x&quot;\na = "y"\n{TEN}c = %x100000000\n</artwork>',
        (f"5:3: error: {NO_HEAD}{FIRST_OF_ELEVEN} [syntax]",),
        ("1:22: a: shortest length 1: x", "15:1: c: not known"),
    ),
    (
        f'<artwork type="abnf">\na = nope\n{11 * XY}</artwork>\n',
        (f"3:3: error: {NO_HEAD}{FIRST_OF_ELEVEN} [syntax]",),
        ("2:1: a: generates nothing",),
    ),
    # a line end that a reference stands for is none of a block
    (
        '<artwork type="abnf">x y&#10;x y&#xA;x y&#10;x y&#10;x y&#10;x y&#10;x y&#10;x y&#10;x y&#10;x y&#10;x y</artwork>',
        (f"1:24: error: {NO_HEAD}{FIRST_OF_ELEVEN} [syntax]",),
        (),
    ),
    # eleven, ten of which stand in one block
    (
        f'<artwork type="abnf">\n{10 * XY}</artwork><artwork type="abnf">b = ?</artwork>',
        (*(f"{line}:3: error: {NO_HEAD} [syntax]" for line in range(2, 12)), "12:36: error: bad character [syntax]"),
        ("12:32: b: not known",),
    ),
    # names of spaces and hyphens, of which each is one character that no grammar has
    (
        '<artwork type="abnf">a = b&nbhy;c\nb =&nbsp;"x"\nc = "y" &zwsp;\nd = &wj;</artwork>',
        (
            "1:27: error: bad character [syntax]",
            "2:4: error: bad character [syntax]",
            "3:9: error: bad character [syntax]",
            "4:5: error: bad character [syntax]",
        ),
        ("1:22: a: not known", "2:1: b: not known", "3:1: c: not known", "4:1: d: not known"),
    ),
    # elements of rules without a type: each at its start tag
    ('<rfc>\n<artwork>\n  a = "x"\n</artwork>\n<sourcecode>b = nope</sourcecode>\n</rfc>', (*NO_GRAMMAR, f"2:1: {UNTYPED}", f"5:1: {UNTYPED}"), ()),
    (
        '\u00e9<artwork name="type=" alt=\' src=\'\n>a = &lt;p&gt;<!-- ? --><![CDATA[ / "x"\nb = <q>]]><br/> ; &nbsp;</artwork\n>',
        (*NO_GRAMMAR, f"1:2: {UNTYPED}"),
        (),
    ),
    (
        '<artwork>a = "x"</artwork>\n<artwork type="abnf">b = ?</artwork><sourcecode>c = b</sourcecode>\n<artwork type="abnf"/>',
        (f"1:1: {UNTYPED}", "2:26: error: bad character [syntax]", f"2:37: {UNTYPED}", "3:1: warning: empty block of grammar [not-read]"),
        ("2:22: b: not known",),
    ),
    ("<sourcecode>a = b</sourcecode>", (*NO_GRAMMAR, f"1:1: {UNTYPED}"), ()),
    ("<artwork name=\" type='abnf'\">a = b</artwork>", (*NO_GRAMMAR, f"1:1: {UNTYPED}"), ()),
    *((text, (), ("1:22: b: shortest length 1: x",)) for text in MARKED_PAGES),
    # another type, none of a name, or `src`
    ('<artwork type="">a = "x"</artwork><sourcecode type=\'text\'>a = "x"</sourcecode><artwork\ttype\n= "x">a = "x"</artwork>', NO_GRAMMAR, ()),
    ('<artwork src="b">a = "x"</artwork><sourcecode name="a" src = "b" >a = "x"</sourcecode>', NO_GRAMMAR, ()),
    ("<sourcecode type = 'xml'>a = b</sourcecode>", NO_GRAMMAR, ()),
    (
        '<artwork\ntype="abnf">a = b</artwork>',
        ("2:13: warning: rule a generates nothing [unproductive]", "2:17: error: undefined rule b [undefined]"),
        ("2:13: a: generates nothing",),
    ),
    # empty elements, others, and what is no element
    ('<artwork/>a = "x"<artwork />a = "x"</artwork><artworks>a = "x"</artworks><t>a = "x"</t>', NO_GRAMMAR, ()),
    ('<!-- <artwork>a = "x"</artwork> --><![CDATA[<artwork>a = "x"</artwork>]]>', NO_GRAMMAR, ()),
    ("a = b", NO_GRAMMAR, ()),
    ('<artwork name="a" />a = b</artwork>', NO_GRAMMAR, ()),
    ("<Artwork>a = b</Artwork>", NO_GRAMMAR, ()),
    ("<figure>a = b</figure>", NO_GRAMMAR, ()),
    # one in another one: the inner one may be told
    ('<artwork>a = "x"<sourcecode>b = "y"</sourcecode></artwork>', (*NO_GRAMMAR, f"1:17: {UNTYPED}"), ()),
    ('<artwork>a = "x"\n<sourcecode type="abnf">b = ?</sourcecode></artwork>', ("2:29: error: bad character [syntax]",), ("2:25: b: not known",)),
    ('<artwork>a = "x"<artwork src="b"/></artwork>', NO_GRAMMAR, ()),
    # references that can't be read, no end tag, not all rules, and none
    ('<artwork>a = "x" ; &foo;\n</artwork><sourcecode>a = "x" ; &\n</sourcecode>', NO_GRAMMAR, ()),
    ('<sourcecode>a = "x"</artwork>', NO_GRAMMAR, ()),
    ("<artwork>a = b</sourcecode>", NO_GRAMMAR, ()),
    ("<artwork>a = b", NO_GRAMMAR, ()),
    ("<artwork>a = b<!-- </artwork>", ("1:15: error: comment without an end [xml]",), None),
    ('<artwork>a = "x"\nb</artwork><artwork>; a</artwork><artwork> <!-- a = b --></artwork>', NO_GRAMMAR, ()),
    ('<artwork>a = "x"</artwork><!-- a', ("1:27: error: comment without an end [xml]",), None),
    # faults
    ('<rfc>\n<artwork type="abnf">\na = ?\n', ("2:1: error: block without an end tag [xml]",), None),
    ("<rfc><!-- a", ("1:6: error: comment without an end [xml]",), None),
    ("<rfc>\n <![CDATA[", ("2:2: error: CDATA section without an end [xml]",), None),
    ("\u00e9<rfc a='>'", ("1:2: error: tag without an end [xml]",), None),
    ('<artwork type="abnf">a = &nope;</artwork>', ("1:26: error: no reference to a character [xml]",), None),
    ('<artwork type="abnf">a = &#xD800;</artwork>', ("1:26: error: no reference to a character [xml]",), None),
    *(
        (f'<artwork type="abnf">{it}</artwork>', ("1:22: error: no reference to a character [xml]",), None)
        for it in ("&amp ", "&#xD800;", "&#x110000;", "&#;")
    ),
    ('<artwork type="abnf">\na = nope\nb = ?\n &foo;</artwork>', ("4:2: error: no reference to a character [xml]",), None),
    ('x<sourcecode type="abnf">a</artwork>', ("1:2: error: block without an end tag [xml]",), None),
    ("ab<!-- -", ("1:3: error: comment without an end [xml]",), None),
    ('<artwork type="abnf"><!-- </artwork>', ("1:22: error: comment without an end [xml]",), None),
    ('<artwork type="abnf"/><!-- <artwork type="abnf"/>', ("1:23: error: comment without an end [xml]",), None),
    ("<![CDATA[ ]]", ("1:1: error: CDATA section without an end [xml]",), None),
    ('<a b=">', ("1:1: error: tag without an end [xml]",), None),
)

CORE = "OWS = *( SP / HTAB )\nRWS = 1*( SP / HTAB )\n"
A_IS_X = ("1:1: a: shortest length 1: x",)
NOT_RULES = "warning: lines that are not all rules [not-read]"

# The grammars that are installed, by their short names: those of other standards by which each is tried, what is found in it then, and a rule of it
# with the shortest string that it generates. What is found are names that none of these has, and a misprint of RFC 3261, section 25.1.
UTF8 = ("UTF8-2", "UTF8-3", "UTF8-4")
KNOWN_ROWS = (
    (
        ("rfc3261", "rfc3986"),
        (
            "71:30: error: undefined rule telephone-subscriber [undefined]",
            "315:1: warning: rule digest-uri generates nothing [unproductive]",
            "316:1: warning: rule digest-uri-value generates nothing [unproductive]",
            "316:22: error: undefined rule rquest-uri, did you mean Request-URI? [undefined]",
        ),
        ("Status-Line", r"14: SIP/0.0 100 \x{D}\x{A}"),
    ),
    (("rfc3339",), (), ("date-time", "20: 0000-00-00T00:00:00Z")),
    (("rfc3501",), (), ("date-time", '28: " 0-Jan-0000 00:00:00 +0000"')),
    (("rfc3986",), (), ("IPv4address", "7: 0.0.0.0")),
    (("rfc4512",), (), ("numericoid", "3: 0.0")),
    (("rfc5234",), (), ("rule", r"5: A=A\x{D}\x{A}")),
    (("rfc5321", "rfc5322"), (), ("quit", r"6: QUIT\x{D}\x{A}")),
    (("rfc5322",), (), ("addr-spec", "3: !@!")),
    (
        ("rfc5545", "rfc5646"),
        (
            "50:1: warning: rule NON-US-ASCII generates nothing [unproductive]",
            *(f"50:{column}: error: undefined rule {name} [undefined]" for column, name in zip((17, 26, 35), UTF8)),
            "134:1: warning: rule fmttypeparam generates nothing [unproductive]",
            "134:30: error: undefined rule type-name [undefined]",
            "134:44: error: undefined rule subtype-name [undefined]",
        ),
        ("date-time", "15: 00000000T000000"),
    ),
    (("rfc5646",), (), ("Language-Tag", "2: AA")),
    (("rfc6265", "rfc7230"), (), ("cookie-pair", "2: !=")),
    (
        ("rfc6350", "rfc3986", "rfc5646"),
        (
            "48:1: warning: rule NON-ASCII generates nothing [unproductive]",
            *(f"48:{column}: error: undefined rule {name} [undefined]" for column, name in zip((13, 22, 31), UTF8)),
            "179:13: error: undefined rule type-name, did you mean type-value? [undefined]",
            "179:27: error: undefined rule subtype-name [undefined]",
            "179:47: error: undefined rule attribute [undefined]",
        ),
        ("timestamp", "15: 00000000T000000"),
    ),
    (("rfc6749", "rfc3986"), (), ("expires-in", "1: 0")),
    (("rfc7230", "rfc3986"), (), ("status-line", r"15: HTTP/0.0 000 \x{D}\x{A}")),
    (("rfc7231", "rfc7230"), (), ("HTTP-date", "24: Mon Jan 00 00:00:00 0000")),
    (("rfc7232", "rfc7230"), (), ("ETag", '2: ""')),
    (("rfc7233", "rfc7230"), (), ("Range", "3: !=!")),
    (("rfc7234", "rfc7231"), (), ("warn-date", '26: "Mon Jan 00 00:00:00 0000"')),
    (("rfc7235", "rfc7230"), (), ("WWW-Authenticate", "1: !")),
    (("rfc7950",), (), ("date-arg", "10: 0000-00-00")),
    (("rfc8259",), (), ("JSON-text", "1: 0")),
    (
        ("rfc8288", "rfc3986", "rfc7230"),
        (
            "15:1: warning: rule reg-rel-type generates nothing [unproductive]",
            "15:18: error: undefined rule LOALPHA, did you mean ALPHA? [undefined]",
            "15:29: error: undefined rule LOALPHA, did you mean ALPHA? [undefined]",
        ),
        ("link-param", "1: !"),
    ),
    (("rfc8866", "rfc3986", "rfc5322"), (), ("time-field", r"7: t=0 0\x{D}\x{A}")),
    (("rfc9110",), (), ("Accept-Ranges", "1: !")),
    (("rfc9111", "rfc9110"), (), ("cache-directive", "1: !")),
    (("rfc9112", "rfc9110"), (), ("status-line", "13: HTTP/0.0 000 ")),
)

# The same as WITH_ROWS below, of rules that generate nothing: it is told where they lead to names that no file defines, but for those of the told
# file alone.
IDLE = "warning: rule a generates nothing [unproductive]"
LEADING = f"warning: rule a generates nothing{GAP} [unproductive]"
NOTHING = ("1:1: a: generates nothing",)
GONE = ("1.abnf", "b = gone\n")
GAP_ROWS = (
    # directly, over several rules, and over those of two files
    (("a.abnf", "a = x"), (("1.abnf", 'x = "1" nope'),), (f"1:1: {LEADING}",), NOTHING),
    (
        ("a.abnf", 'b = a\na = c "1"\nc = x'),
        (("1.abnf", "x = 2y\ny = [z] nope\nz = x"),),
        (f"1:1: warning: rule b generates nothing{GAP} [unproductive]", f"2:1: {LEADING}", f"3:1: warning: rule c generates nothing{GAP} [unproductive]"),
        ("1:1: b: generates nothing", "2:1: a: generates nothing", "3:1: c: generates nothing"),
    ),
    (("a.abnf", "a = x"), (("1.abnf", "x = y"), ("2.abnf", "y = nope")), (f"1:1: {LEADING}",), NOTHING),
    (("a.abnf", "a = x"), (("1.abnf", "x = NOPE"), ("2.abnf", 'nope = "1"')), (), ("1:1: a: shortest length 1: 1",)),
    (("a.abnf", "a = b\n"), (("1.abnf", "b = c\n"), ("2.abnf", "c = Gone gone\n")), (f"1:1: {LEADING}",), NOTHING),
    # by a rule of the file, in which it stands elsewhere
    (
        ("a.md", 'text\n\n```abnf\n  a = d\n  d = b "x"\n```\n'),
        (GONE,),
        (f"4:3: {LEADING}", f"5:3: warning: rule d generates nothing{GAP} [unproductive]"),
        ("4:3: a: generates nothing", "5:3: d: generates nothing"),
    ),
    (("a.txt", "1. Rules\n\n   a = b\n"), (("1.txt", "1. More rules\n\n   b = gone\n"),), (f"3:4: {LEADING}",), ("3:4: a: generates nothing",)),
    # a name of its own that is undefined stands in another rule
    (
        ("a.abnf", "a = b\nc = nope\n"),
        (GONE,),
        (f"1:1: {LEADING}", "2:1: warning: rule c generates nothing [unproductive]", "2:5: error: undefined rule nope [undefined]"),
        ("1:1: a: generates nothing", "2:1: c: generates nothing"),
    ),
    # it stands beside, and isn't needed
    (("a.abnf", "a = b / nope\n"), (GONE,), (f"1:1: {LEADING}", "1:9: error: undefined rule nope [undefined]"), NOTHING),
    # it is needed too, or the rule needs itself: it leads to such a name all the same
    (("a.abnf", "a = b nope\n"), (GONE,), (f"1:1: {LEADING}", "1:7: error: undefined rule nope [undefined]"), NOTHING),
    (("a.abnf", "a = b a\n"), (GONE,), (f"1:1: {LEADING}",), NOTHING),
    # a rule that has another alternative, here and there, or that may stand for anything
    (("a.abnf", "a = b / <words>\n"), (GONE,), (), ("1:1: a: not known",)),
    (("a.abnf", 'a = x / "1"\nb = y\nc = *x'), (("1.abnf", 'x = nope\ny = nope / "2"'),), (), ("1:1: a: shortest length 1: 1", "2:1: b: shortest length 1: 2", "3:1: c: shortest length 0: ")),
    (("a.abnf", "a = x\nb = y"), (("1.abnf", "x = <p> nope\ny = nope ?"),), (), ("1:1: a: not known", "2:1: b: not known")),
    # a rule that leads to itself alone, here and there; one that does, and to such a name too
    (
        ("a.abnf", 'a = a "x"\nb = x'),
        (("1.abnf", "x = nope"),),
        (f"1:1: {IDLE}", f"2:1: warning: rule b generates nothing{GAP} [unproductive]"),
        ("1:1: a: generates nothing", "2:1: b: generates nothing"),
    ),
    (("a.abnf", "a = x"), (("1.abnf", 'x = x "1"\ny = nope x'),), (f"1:1: {IDLE}",), NOTHING),
    (("a.abnf", "a = a x"), (("1.abnf", "x = nope"),), (f"1:1: {LEADING}",), NOTHING),
    # rules need themselves, or what no string is of
    (
        ("a.abnf", "a = b\nd = %x39-30\n"),
        (("1.abnf", 'b = b "x"\nc = gone\n'),),
        (f"1:1: {IDLE}", "2:1: warning: rule d generates nothing [unproductive]", "2:5: warning: range with low above high [empty-range]"),
        ("1:1: a: generates nothing", "2:1: d: generates nothing"),
    ),
    # what the file defines itself isn't joined; what is added and what comes again
    (("a.abnf", "a = x\nx = x"), (("1.abnf", "x = nope"),), (f"1:1: {IDLE}", "2:1: warning: rule x generates nothing [unproductive]"), ("1:1: a: generates nothing", "2:1: x: generates nothing")),
    (
        ("a.abnf", "a = b\nb = b\n"),
        (("1.abnf", "b = gone\nc = gone\n"),),
        (f"1:1: {IDLE}", "2:1: warning: rule b generates nothing [unproductive]"),
        ("1:1: a: generates nothing", "2:1: b: generates nothing"),
    ),
    (("a.abnf", "a = x"), (("1.abnf", "x = x\nx = nope"),), (f"1:1: {IDLE}",), NOTHING),
    (("a.abnf", "a = x"), (("1.abnf", "x = x\nx =/ nope"),), (f"1:1: {LEADING}",), NOTHING),
    # a name that the told file uses: alone, and with another one, in whatever rule
    (("a.abnf", "a = nope"), (("1.abnf", 'x = "1"'),), (f"1:1: {IDLE}", "1:5: error: undefined rule nope [undefined]"), NOTHING),
    (("a.abnf", "a = nope"), (("1.abnf", "x = Nope"),), (f"1:1: {LEADING}", "1:5: error: undefined rule nope [undefined]"), NOTHING),
    # drafts
    (("a.md", "```abnf\n  a = x\n```\n"), (("1.xml", '<artwork type="abnf">x = nope</artwork>'),), (f"2:3: {LEADING}",), ("2:3: a: generates nothing",)),
)

# Files with the files whose names are known (RFC 5234 sections 2.1, 2.2 and 3.3), what is found, and the lines of their rules: each file is
# its name and its text. Nothing is told of the known files.
WITH_ROWS = (
    # names in any case, and names that no file has
    (
        ("a.abnf", 'a = OWS "x" ows nope'),
        (("core.abnf", CORE),),
        ("1:1: warning: rule a generates nothing [unproductive]", "1:17: error: undefined rule nope [undefined]"),
        ("1:1: a: generates nothing",),
    ),
    (("a.abnf", 'a = RWS "x" / b\nb = rws'), (("core.abnf", CORE),), (), ("1:1: a: shortest length 1:  ", "2:1: b: shortest length 1:  ")),
    (("a.abnf", 'a = OWS "x" ows\n'), (("core.abnf", CORE),), (), A_IS_X),
    (("a.abnf", 'a = RWS "x"\n'), (("1.abnf", "RWS = 1*SP\n"),), (), ("1:1: a: shortest length 2:  x",)),
    (("a.abnf", ""), (("core.abnf", CORE),), (), ()),
    # an earlier file comes first, and the told one before all; what is added to a name is its file's
    (("a.abnf", "a = x"), (("1.abnf", 'x = "1"'), ("2.abnf", 'x = nope\nx =/ "2"')), (), ("1:1: a: shortest length 1: 1",)),
    (("a.abnf", "a = x\n"), (("1.abnf", 'x = "1"\n'), ("2.abnf", "x = nope\n")), (), ("1:1: a: shortest length 1: 1",)),
    (("a.abnf", 'a = b\nb = "x"\n'), (("1.abnf", "b = nope\n"),), (), (*A_IS_X, "2:1: b: shortest length 1: x")),
    (("a.abnf", 'B = "xx"\na = b c\n'), (("1.abnf", 'b = "y"\nc = "z"\n'),), (), ("1:1: B: shortest length 2: xx", "2:1: a: shortest length 3: xxz")),
    (
        ("a.abnf", "a = b\nb = nope\n"),
        (("1.abnf", 'b = "x"\n'),),
        (
            *("1:1: warning: rule a generates nothing [unproductive]", "2:1: warning: rule b generates nothing [unproductive]"),
            "2:5: error: undefined rule nope [undefined]",
        ),
        ("1:1: a: generates nothing", "2:1: b: generates nothing"),
    ),
    (
        ("a.abnf", "a = x"),
        (("1.abnf", "x = nope"), ("2.abnf", 'x = "1"')),
        (f"1:1: warning: rule a generates nothing{GAP} [unproductive]",),
        ("1:1: a: generates nothing",),
    ),
    (
        ("a.abnf", 'B = "xx"\na = b c'),
        (("1.abnf", 'b =/ "y"\nc = "z"\nc = ?'),),
        (),
        ("1:1: B: shortest length 2: xx", "2:1: a: shortest length 3: xxz"),
    ),
    (
        ("a.abnf", 'a = b\nb =/ "x"'),
        (("1.abnf", 'b = "y"'),),
        ("2:1: warning: no earlier definition of b [no-base]",),
        ("1:1: a: shortest length 1: x", "2:1: b: shortest length 1: x"),
    ),
    (("a.abnf", "a = b"), (("1.abnf", 'b = nope\nb =/ "y"\n= ?\nc'),), (), ("1:1: a: shortest length 1: y",)),
    (("a.abnf", 'a = "x"\n'), (("1.abnf", 'b = ?\nc = nope\nc = "x"\n'),), (), A_IS_X),
    # near names: the file's own first, then those of the known files, then the core rules (RFC 5234 appendix B.1)
    (
        ("a.abnf", 'a = sheme / "x"'),
        (("1.abnf", 'b = sheme\nscheme = "y"'),),
        ("1:5: error: undefined rule sheme, did you mean scheme? [undefined]",),
        ("1:1: a: shortest length 1: x",),
    ),
    (
        ("a.abnf", 'a = hosts / segments / DIGITS / "x"\nsegmen = hosta\nhosta = "y"'),
        (("1.abnf", 'host = "1"\ndigitx = "2"\nsegment = "3"'),),
        (
            "1:5: error: undefined rule hosts, did you mean hosta? [undefined]",
            "1:13: error: undefined rule segments, did you mean segment? [undefined]",
            "1:24: error: undefined rule DIGITS, did you mean digitx? [undefined]",
        ),
        ("1:1: a: shortest length 1: x", "2:1: segmen: shortest length 1: y", "3:1: hosta: shortest length 1: y"),
    ),
    # a nearer name of a known file, in a draft
    (
        ("a.md", '```abnf\n  a = segments / "x"\n  segmen = "y"\n```\n'),
        (("1.abnf", 'segment = "3"\n'),),
        ("2:7: error: undefined rule segments, did you mean segment? [undefined]",),
        ("2:3: a: shortest length 1: x", "3:3: segmen: shortest length 1: y"),
    ),
    # other indents and line ends, and findings at the very end
    (
        ("a.abnf", '   a = b\n     / c\n   d = "x"\n'),
        (("1.abnf", '      b = "x"\n        / "y"\n      e = b\n'), ("2.abnf", 'c = "z"\n')),
        (),
        ("1:4: a: shortest length 1: x", "3:4: d: shortest length 1: x"),
    ),
    (
        ("a.abnf", "   a = b\n   c = ?\n"),
        (("1.abnf", '      b = "x"\n'),),
        ("2:8: error: bad character [syntax]",),
        ("1:4: a: shortest length 1: x", "2:4: c: not known"),
    ),
    (("a.abnf", "a ="), (("core.abnf", CORE),), ("1:4: error: element expected [syntax]",), ("1:1: a: not known",)),
    (("a.abnf", 'b = "x"\na'), (("core.abnf", CORE),), (f"2:2: error: {NO_HEAD} [syntax]",), ("1:1: b: shortest length 1: x",)),
    (
        ("a.abnf", "   a = b\r\n     c\r\n   d ="),
        (("1.abnf", '     b = "x"\n       "y"\n     c = "z"'),),
        ("3:7: error: element expected [syntax]",),
        ("1:4: a: shortest length 3: xyz", "3:4: d: not known"),
    ),
    (("a.abnf", "a"), (("core.abnf", CORE),), ('1:2: error: "=" or "=/" expected [syntax]',), ()),
    # drafts, told and known
    (
        ("a.md", "text\n\n```abnf\n  a = b c nope\n```\n"),
        (("1.md", '~~~abnf\n    b = "x"\n~~~\n'), ("1.xml", '<artwork type="abnf">c = &quot;y&quot;</artwork>')),
        ("4:3: warning: rule a generates nothing [unproductive]", "4:11: error: undefined rule nope [undefined]"),
        ("4:3: a: generates nothing",),
    ),
    (("a.md", "text"), (("core.abnf", CORE),), NO_GRAMMAR, ()),
    (
        ("a.abnf", "a = b c\n"),
        (("1.md", '# A title\n\n```abnf\n  b = "x"\n```\n'), ("1.xml", '<artwork type="abnf">c = "y"</artwork>')),
        (),
        ("1:1: a: shortest length 2: xy",),
    ),
    (
        ("a.md", "text\n\n```abnf\na = OWS nope\n```\n"),
        (("core.abnf", CORE),),
        ("4:1: warning: rule a generates nothing [unproductive]", "4:9: error: undefined rule nope [undefined]"),
        ("4:1: a: generates nothing",),
    ),
    (("a.md", "```abnf\n  a = b\n```\n"), (("1.abnf", 'b = "y"\n'),), (), ("2:3: a: shortest length 1: y",)),
    # published texts whose names are known, and some that know others
    (("a.abnf", "a = b\n"), (("1.txt", '1. Rules\n\n   b = "x"\n\nMore words.\n'),), (), A_IS_X),
    (
        ("a.txt", '1. Rules\n\n   a = OWS b\n   b = "x"\n'),
        (("core.abnf", CORE),),
        (),
        ("3:4: a: shortest length 1: x", "4:4: b: shortest length 1: x"),
    ),
    (("a.txt", "1. Rules\n\n  a = b\n\nx = 5 apples\n"), (("1.abnf", 'b = "y"\n'),), (f"5:1: {NOT_RULES}",), ("3:3: a: shortest length 1: y",)),
    (
        ("a.txt", 'x = 5 apples\n\na = nope / "x"\n\n  y = 6\n\n  b = OWS nope / "y"\n'),
        (("core.abnf", "OWS = *( SP / HTAB )\n"),),
        (
            *(f"1:1: {NOT_RULES}", "3:5: error: undefined rule nope [undefined]"),
            *(f"5:1: {NOT_RULES}", "7:11: error: undefined rule nope [undefined]"),
        ),
        ("3:1: a: shortest length 1: x", "7:3: b: shortest length 1: y"),
    ),
    (("a.txt", "Some words.\n\n  x = 5 apples\n"), (("1.abnf", 'x = "x"\n'),), (*NO_TEXT, f"3:1: {NOT_RULES}"), ()),
    # definitions that come again: in a draft, and in a file that is a grammar
    (
        ("a.md", "```abnf\na = b\n```\n\n```abnf\na = b\na = c\n```\n"),
        (("1.abnf", 'b = "x"\nc = "yy"'),),
        ("7:1: error: rule a differs from its definition at line 2 [differs]",),
        ("2:1: a: shortest length 1: x",),
    ),
    (
        ("a.abnf", "a = b\na = b"),
        (("1.abnf", 'b = "x"'),),
        ("2:1: error: rule a is already defined [duplicate]",),
        ("1:1: a: shortest length 1: x",),
    ),
    (("a.abnf", 'a = "x"'), (("none.md", "```abnf\n; none\n```\n"),), (), ("1:1: a: shortest length 1: x",)),
    # eleven faults in a block of a draft, and in one of a file that is known
    (
        ("a.md", f"```abnf\na = OWS nope\n{TEN}= c\n```\n~~~abnf\nd = OWS nope\n~~~\n"),
        (("core.md", f"```abnf\n{CORE}{TEN}= c\n```\n"),),
        (
            f"3:3: error: {NO_HEAD}{FIRST_OF_ELEVEN} [syntax]",
            *("16:1: warning: rule d generates nothing [unproductive]", "16:9: error: undefined rule nope [undefined]"),
        ),
        ("2:1: a: generates nothing", "16:1: d: generates nothing"),
    ),
    (
        ("a.md", f"```abnf\na = OWS nope\n{11 * XY}```\n```abnf\nb = nope\n```\n"),
        (("core.abnf", CORE),),
        (
            f"3:3: error: {NO_HEAD}{FIRST_OF_ELEVEN} [syntax]",
            *("16:1: warning: rule b generates nothing [unproductive]", "16:5: error: undefined rule nope [undefined]"),
        ),
        ("2:1: a: generates nothing", "16:1: b: generates nothing"),
    ),
    (
        ("a.xml", f'<artwork type="abnf">{10 * XY}x y</artwork>\n<artwork type="abnf"><![CDATA[b = ?]]></artwork>'),
        (("core.abnf", CORE),),
        (f"1:24: error: {NO_HEAD}{FIRST_OF_ELEVEN} [syntax]", "12:35: error: bad character [syntax]"),
        ("12:31: b: not known",),
    ),
    # the faults of a known file don't count, and those of a file that is a grammar are told one by one
    (("a.md", f"```abnf\n{10 * XY}```\n"), (("1.abnf", ELEVEN),), tuple(f"{line}:3: error: {NO_HEAD} [syntax]" for line in range(2, 12)), ()),
    (("a.abnf", ELEVEN), (("core.abnf", CORE),), ELEVEN_FAULTS, tuple(f"{line}:1: {name}: not known" for line, name in enumerate("bcdeghijklm", 1))),
    # what can't be read of a draft
    (("a.md", "```abnf\n```\n"), (("core.abnf", CORE),), ("2:1: warning: empty block of grammar [not-read]",), ()),
    (
        ("a.xml", '<artwork type="abnf"/>\n<artwork type="abnf">a = OWS "x" nope</artwork>'),
        (("core.abnf", CORE),),
        ("1:1: warning: empty block of grammar [not-read]", "2:22: warning: rule a generates nothing [unproductive]", "2:34: error: undefined rule nope [undefined]"),
        ("2:22: a: generates nothing",),
    ),
    (("a.xml", '<artwork src="b" type="abnf"/>'), (("core.abnf", CORE),), (*NO_GRAMMAR, "1:1: warning: grammar in another file [not-read]"), ()),
    (
        ("a.xml", '<artwork type="abnf"/>\n<artwork type="abnf">a = OWS ?</artwork>\n<artwork type="abnf" src="b"/>'),
        (("core.abnf", CORE),),
        (f"1:1: {NONE_THERE}", "2:30: error: bad character [syntax]", f"3:1: {ELSEWHERE}"),
        ("2:22: a: not known",),
    ),
    (("a.xml", "<rfc><!-- a"), (("core.abnf", CORE),), ("1:6: error: comment without an end [xml]",), None),
    # rules that nothing marks
    (("a.md", "```\na = OWS\n```\n~~~abnf\nb = OWS\n~~~\n"), (("core.abnf", CORE),), (f"1:1: {BARE}",), ("5:1: b: shortest length 0: ",)),
    (("a.md", "```\na = OWS\n```\n"), (("core.abnf", CORE),), (*NO_GRAMMAR, f"1:1: {BARE}"), ()),
    (
        ("a.xml", '<artwork>a = OWS</artwork>\n<artwork type="abnf">b = OWS nope</artwork>'),
        (("core.abnf", CORE),),
        (f"1:1: {UNTYPED}", "2:22: warning: rule b generates nothing [unproductive]", "2:30: error: undefined rule nope [undefined]"),
        ("2:22: b: generates nothing",),
    ),
    (("a.xml", '<rfc>\n<artwork name="a">\n  a = "x"\n</artwork></rfc>'), (("core.abnf", CORE),), (*NO_GRAMMAR, f"2:1: {UNTYPED}"), ()),
    (
        ("a.xml", '<artwork type="abnf">a = OWS</artwork>\n \u00e9<sourcecode>b = &lt;c&gt;</sourcecode><artwork type="abnf"/>'),
        (("core.abnf", CORE),),
        (f"2:3: {UNTYPED}", f"2:41: {NONE_THERE}"),
        ("1:22: a: shortest length 0: ",),
    ),
    *((("a.md", text), (("core.abnf", CORE),), (), (f"{line}:1: b: shortest length 1: x",)) for text, line in MARKED_DRAFTS),
    *((("a.xml", text), (("core.abnf", CORE),), (), ("1:22: b: shortest length 1: x",)) for text in MARKED_PAGES),
    # texts that are no grammar, and one of which half the blocks have heads
    (("a.abnf", "Some words.\nMore of them.\n"), (("core.abnf", CORE),), NO_TEXT, ()),
    (("a.abnf", "Some words.\nMore of them.\na = ?\n"), (("core.abnf", CORE),), NO_TEXT, ("3:1: a: not known",)),
    (("a.abnf", "; a\n\n  Some words.\n    More words.\n  And more.\n"), (("core.abnf", CORE),), NO_TEXT, ()),
    (("a.abnf", "Some words.\na = ?\nMore words.\n"), (("core.abnf", CORE),), NO_TEXT, ("2:1: a: not known",)),
    (("a.abnf", '= "x"\n= "y"'), (("core.abnf", CORE),), NO_TEXT, ()),
    (("a.abnf", "Some words.\n"), (("core.abnf", CORE),), (f"1:6: error: {NO_HEAD} [syntax]",), ()),
    (
        ("a.abnf", 'Some words.\nMore words.\na = "x"\nAnd more.\n'),
        (("core.abnf", CORE),),
        tuple(f"{at}: error: {NO_HEAD} [syntax]" for at in ("1:6", "2:6", "4:5")),
        ("3:1: a: shortest length 1: x",),
    ),
    (("a.abnf", "Some words.\na = ?\n"), (("core.abnf", CORE),), (f"1:6: error: {NO_HEAD} [syntax]", "2:5: error: bad character [syntax]"), ("2:1: a: not known",)),
    *GAP_ROWS,
)

# Files whose names are known, and what is told of them: that they have no grammar, and what of them can't be read or nothing marks.
NO_KNOWN_TEXT = ("1:1: warning: no grammar in this text [no-grammar]",)
TOLD_ROWS = (
    ("prose.abnf", "Some words.\nMore of them.\n", NO_KNOWN_TEXT),
    ("bare.md", "```\na = b\n```\n", (*NO_GRAMMAR, f"1:1: {BARE}")),
    ("marked.md", '~~~abnf\nc = "x"\n~~~\n```\na = b\n```\n', (f"4:1: {BARE}",)),
    ("bare.xml", '<artwork type="abnf">c = "x"</artwork>\n<artwork>a = b</artwork>', (f"2:1: {UNTYPED}",)),
    # drafts without a grammar, and what has one
    ("text.md", "text\n", NO_GRAMMAR),
    ("nothing.md", "", NO_GRAMMAR),
    ("none.xml", "<rfc/>", NO_GRAMMAR),
    ("comment.md", "```abnf\n; a\n```\n", ()),
    ("nothing.abnf", "", ()),
    ("faulty.abnf", "a = ?", ()),
    # not all of them is read
    ("half.md", "```abnf\n```\n```abnf\na = b\n```\n", (f"2:1: {NONE_THERE}",)),
    ("apart.xml", '<artwork src="a" type="abnf"/>', (*NO_GRAMMAR, f"1:1: {ELSEWHERE}")),
    ("front.md", "```\na = b\n```\n~~~ abnf\nc = d\n~~~\n", (f"1:1: {BARE}",)),
    ("untyped.xml", " <artwork>a = b</artwork>", (*NO_GRAMMAR, f"1:2: {UNTYPED}")),
    ("half.txt", "a = b\n\nx = 5 apples\n", (f"3:1: {NOT_RULES}",)),
    # texts without a grammar, and with one, be it faulty
    ("words.abnf", "Some words.\nMore words.\n", NO_KNOWN_TEXT),
    ("head.abnf", "Some words.\na = ?\nMore words.\n", NO_KNOWN_TEXT),
    ("words.txt", "Some words.\n\n  More words.\n", NO_KNOWN_TEXT),
    ("nothing.txt", "", NO_KNOWN_TEXT),
    ("block.abnf", "Some words.\n", ()),
    ("heads.abnf", "Some words.\na = ?\n", ()),
    ("rule.abnf", 'Some words.\nMore words.\na = "x"\n', ()),
    ("rule.txt", "Some words.\n\n  a = nope\n", ()),
)

# The grammars of drafts: each block without its indentation, and a line end behind it.
GRAMMAR_ROWS = (
    ("a.abnf", "Some words.\nMore of them.\n", "Some words.\nMore of them.\n"),
    ("a.md", "```\na = b\n```\n~~~abnf\nc = d\n~~~\n", "c = d\n\n"),
    ("a.xml", '<artwork>a = b</artwork><artwork type="abnf">c = d</artwork>', "c = d\n"),
    ("a.abnf", "  a = b\r\n; \u00e9", "  a = b\r\n; \u00e9"),
    ("a.abnf", "", ""),
    ("a.md", "# A title\n\n```abnf\n  a = b\n   / c\n```\ntext\n~~~abnf\nd = ?\n~~~\n", "a = b\n / c\n\nd = ?\n\n"),
    ("a.xml", '<rfc><artwork type="abnf">\n  a = &lt;b&gt;\n</artwork></rfc>', "\na = <b>\n\n"),
    ("a.txt", "1. Rules\n\n  a = b\n\f\nRFC 1\n   / c\n\nx = 5 apples\n\nd = e\n", "a = b\n / c\n\nd = e\n\n"),
    # each line end stays as it is
    ("a.abnf", "a\r\n\nb\U0001f600\rc\r\n", "a\r\n\nb\U0001f600\rc\r\n"),
)

# Of the grammars of standards how many rules each has, what is printed of the last one, and of which no string is printed, as they lead to prose: in
# RFC 3986 the empty path is prose.
STANDARDS = (
    ("rfc3339.abnf", 13, "20:1: date-time: shortest length 20: 0000-00-00T00:00:00Z", []),
    (
        *("rfc3986.abnf", 36, "82:1: sub-delims: shortest length 1: !"),
        ["URI", "hier-part", "URI-reference", "absolute-URI", "relative-ref", "relative-part", "path", "path-empty"],
    ),
    ("rfc5234.abnf", 37, "113:1: WSP: shortest length 1:  ", []),
    ("rfc8259.abnf", 30, "76:1: unescaped: shortest length 1:  ", []),
)


def told_kit():
    """The kit that the program names, with the logic of the kit that is here: kits of several names have the same logic."""
    return f"rattle-kit-13f {kit().partition(' ')[2]}"


def status_of(found, strict):
    if any(": error: " in line for line in found):
        return 1
    return 1 if found and strict else 0


def printed(name, found):
    return "".join(f"{name}:{line}\n" for line in found).encode()


def row_cases(program, files):
    """Each row, from a file and from standard input, and where warnings don't pass."""
    for text, found in ROWS:
        what, file = f"findings of {text[:40]!r}", files.written("g.abnf", text)
        yield what, outcome(program, None, [file]), (status_of(found, False), b"", printed(file, found))
        yield f"strict {what}", outcome(program, None, ["--strict", file]), (status_of(found, True), b"", printed(file, found))
        yield f"{what}, from standard input", outcome(program, text.encode(), ["-"]), (status_of(found, False), b"", printed("-", found))


def rule_cases(program, files):
    """The rules of each text, and of texts beside a file that can't be read."""
    for text, found in RULE_ROWS:
        what, file = f"rules of {text[:40]!r}", files.written("g.abnf", text)
        yield what, outcome(program, None, ["--rules", file]), (0, b"", printed(file, found))
        yield f"{what}, from standard input", outcome(program, text.encode(), ["--rules", "-"]), (0, b"", printed("-", found))
    good, none = files.written("good.abnf", 'a = "x"'), files.path("none")
    is_good = printed(good, ("1:1: a: shortest length 1: x",))
    yield "rules, and no file", outcome(program, None, ["--rules", none, good]), (2, f"cannot read {none}\n".encode(), is_good)
    for arguments in (["--rules"], [good, "--rules"], ["--rules", "--strict", good]):
        yield f"the arguments {arguments}", outcome(program, None, arguments), (5, USAGE, b"")


def draft_cases(program, files):
    """Each draft, by its name or by the format that is told, and its rules."""
    for format, ending, drafts in (("markdown", "md", DRAFT_ROWS), ("xml", "xml", XML_ROWS)):
        for text, found, told in drafts:
            what, file = f"the draft {text[:40]!r}", files.written(f"draft.{ending}", text)
            is_printed, status = printed(file, found), status_of(found, False)
            yield what, outcome(program, None, [file]), (status, b"", is_printed)
            yield f"strict {what}", outcome(program, None, ["--format", format, "--strict", file]), (status_of(found, True), b"", is_printed)
            from_input = outcome(program, text.encode(), ["--format", format, "-"])
            yield f"{what}, from standard input", from_input, (status, b"", printed("-", found))
            rules = (status, b"", is_printed) if told is None else (0, b"", printed(file, told))
            yield f"rules of {what}", outcome(program, None, ["--rules", file]), rules


def format_cases(program, files):
    """What a file is by its name, and the options that tell it."""
    bad = ("2:5: error: bad character [syntax]",)
    for name in ("a.mkd", "a.markdown", "a.md", "a.MD", "a.mD", "a.MKD", "a.mKd", "a.Markdown", "A.MARKDOWN", "a.txt.md"):
        file = files.written(name, "```abnf\na = ?\n```\n")
        yield f"a draft {name}", outcome(program, None, [file]), (1, b"", printed(file, bad))
    for name in ("a.XML", "a.Xml", "a.md.xml", "a.txt.Xml"):
        file = files.written(name, '<artwork type="abnf">\na = ?\n</artwork>')
        yield f"a draft {name}", outcome(program, None, [file]), (1, b"", printed(file, bad))
    os.makedirs(files.path("folder.txt"))
    for name in ("a.abnf", "md", "a.txt.abnf", "xml", "txt", "a.text", "folder.txt/b", "a.mdx", "a.MD ", "a.m\u212ad", "a.ABNF", "a"):
        file = files.written(name, "\na = ?\n")
        yield f"a grammar {name}", outcome(program, None, [file]), (1, b"", printed(file, bad))
    for name in ("a.txt", "a.TXT", "a.Txt", "A.TXT", ".txt", "a.md.txt", "a.md.tXt"):
        file = files.written(name, "\na = ?\n")
        unread = (*NO_TEXT, "2:1: warning: lines that are not all rules [not-read]")
        yield f"a published text {name}", outcome(program, None, [file]), (1, b"", printed(file, unread))
        yield f"a grammar {name}, by its format", outcome(program, None, ["--format", "abnf", file]), (1, b"", printed(file, bad))
    plain, good = files.written("plain.md", 'a = "x"'), files.written("good.abnf", 'a = "x"')
    yield "a grammar in spite of its name", outcome(program, None, ["--format", "abnf", plain]), (0, b"", b"")
    yield "a published text in spite of its name", outcome(program, None, ["--format", "text", plain]), (0, b"", b"")
    yield "a draft behind a grammar", outcome(program, None, [good, plain]), (0, b"", printed(plain, NO_GRAMMAR))
    for words in ("--format", "--format abnf", "--format XML", "--format Abnf", "--format Text", "--format txt", "--format texts", "--format abnf --format abnf", "--format --strict"):
        yield f"the arguments {words} and a file", outcome(program, None, [*words.split(), *[good] * (words != "--format abnf")]), (5, USAGE, b"")
    for words in (["--format"], ["--format", ""], ["--format", "", good], ["--format", "--help"], [good, "--format", "abnf"]):
        yield f"the arguments {words}", outcome(program, None, words), (5, USAGE, b"")


def put_in_place(program, files, name):
    """The program as it is installed in a new folder of this name, and the folder of its grammars."""
    own, there = (files.path(os.path.join(name, *it)) for it in (("bin", "abnf_findings"), ("share", "abnf_ls", "grammars")))
    for folder in (os.path.dirname(own), there):
        os.makedirs(folder)
    shutil.copy(program, own)
    return own, there


def installed_cases(program, files):
    """Grammars that are installed with the program, by their short names."""
    own, there = put_in_place(program, files, "installed")
    with open(os.path.join(there, "rfc1.abnf"), "w", encoding="utf-8") as file:
        file.write(CORE)
    text = files.written("uses.abnf", 'a = OWS "x"')
    yield "an installed grammar", outcome(own, None, ["--with", "rfc1", text]), (0, b"", b"")
    unknown = ("1:1: warning: rule a generates nothing [unproductive]", "1:5: error: undefined rule OWS [undefined]")
    yield "an installed grammar that isn't asked for", outcome(own, None, [text]), (1, b"", printed(text, unknown))
    for name in ("rfc2", "rfc1.abnf", "../rfc1"):
        yield f"no installed grammar, {name}", outcome(own, None, ["--with", name, text]), (2, f"cannot read {name}\n".encode(), b"")
    here = os.path.join(files.folder, "here")
    os.makedirs(os.path.join(here, "rfc1"))
    yield "a folder of this name, and no such file", outcome(own, None, ["--with", "rfc1", text], folder=here), (2, b"cannot read rfc1\n", b"")
    yield "a program that isn't installed", outcome(program, None, ["--with", "rfc1", text]), (2, b"cannot read rfc1\n", b"")


def make_cases(program, files):
    """README's lines for a makefile, where the program is on the PATH."""
    own, _ = put_in_place(program, files, "made")
    env = {**os.environ, "PATH": os.path.dirname(own) + os.pathsep + os.environ["PATH"]}
    with open(os.path.join(TOP, "README.md"), encoding="utf-8") as file:
        lines = re.search(r"^```make\n(.*?)^```", file.read(), re.MULTILINE | re.DOTALL)[1]
    for what, text, status, found in (("passes", 'a = "x"', 0, b""), ("fails", "a = ?", 2, b"a.abnf:1:5: error: bad character [syntax]\n")):
        here = os.path.join(files.folder, what)
        os.makedirs(here)
        for name, written in (("Makefile", lines), ("a.abnf", text), ("draft-b.md", "~~~ abnf\nb = \"y\"\n~~~\n")):
            with open(os.path.join(here, name), "w", encoding="utf-8") as file:
                file.write(written)
        ended = outcome("make", None, ["--silent"], env=env, folder=here)
        yield f"README's makefile {what}", (ended[0], ended[2]), (status, found)


def known_cases(program, files):
    """The grammars of standards, installed: a name of each is known by its short name, and what is found in each where those of others are known."""
    own, there = put_in_place(program, files, "standards")
    for name, text in grammars():
        with open(os.path.join(there, name), "wb") as file:
            file.write(text)
    yield "the grammars with rows", [f"{name}.abnf" for (name, *_), _, _ in KNOWN_ROWS], [name for name, _ in grammars()]
    for (name, *others), found, (rule, told) in KNOWN_ROWS:
        known = [word for it in others for word in ("--with", it)]
        use, file = files.written("use.abnf", f"a = {rule}"), os.path.join(there, f"{name}.abnf")
        is_told = printed(use, (f"1:1: a: shortest length {told}",))
        yield f"a name of {name}", outcome(own, None, ["--rules", *known, "--with", name, use]), (0, b"", is_told)
        yield f"what is found in {name}", outcome(own, None, ["--strict", *known, file]), (status_of(found, True), b"", printed(file, found))


def with_cases(program, files):
    """Each file with those whose names are known, and those that can't be known."""
    for (name, text), others, found, told in WITH_ROWS:
        known = [word for other, its in others for word in ("--with", files.written(other, its))]
        what, file = f"{text[:40]!r} with {len(others)} files", files.written(name, text)
        is_printed, status = printed(file, found), status_of(found, False)
        yield what, outcome(program, None, [*known, file]), (status, b"", is_printed)
        yield f"strict {what}", outcome(program, None, ["--strict", *known, file]), (status_of(found, True), b"", is_printed)
        yield f"{what}, twice", outcome(program, None, [*known, file, file]), (status, b"", 2 * is_printed)
        rules = (status, b"", is_printed) if told is None else (0, b"", printed(file, told))
        yield f"rules of {what}", outcome(program, None, ["--rules", *known, file]), rules
    bad, core, none = files.written("bad.abnf", "a = ?"), files.written("core.abnf", CORE), files.path("none")
    no_text, faulty = files.written("no_text", b'a = "\xff"'), files.written("faulty.xml", "<rfc><!-- a")
    for file, line in ((none, "cannot read"), (files.folder, "cannot read"), (no_text, "not a text:"), (faulty, "not a text:")):
        yield f"{line} a file of --with", outcome(program, None, ["--with", core, "--with", file, bad]), (2, f"{line} {file}\n".encode(), b"")
    widest = files.written("widest.abnf", 4_194_304 * b" ")
    is_bad = printed(bad, ("1:5: error: bad character [syntax]",))
    too_large = outcome(program, None, ["--with", core, widest, bad])
    yield "a joined grammar that is too large", too_large, (2, f"not a text: {widest}\n".encode(), is_bad)
    plain, empty = files.written("plain.md", 'a = OWS "x"'), files.written("empty.md", "text")
    warned = printed(empty, NO_GRAMMAR)
    yield "a file of --with that has no grammar", outcome(program, None, ["--with", empty, "--with", core, core]), (0, b"", warned)
    yield "strict, one that has none", outcome(program, None, ["--strict", "--with", empty, core]), (1, b"", warned)
    yield "one that has none, beside an error", outcome(program, None, ["--with", empty, bad]), (1, b"", warned + is_bad)
    yield from unlike_cases(program, files, core, bad)
    none_read, apart = files.written("none_read.md", "```abnf\n```\n"), files.written("apart.xml", '<artwork type="abnf" src="a"/>')
    warnings = (
        printed(none_read, ("2:1: warning: empty block of grammar [not-read]",)),
        printed(apart, (*NO_GRAMMAR, "1:1: warning: grammar in another file [not-read]")),
    )
    words = ["--with", none_read, "--with", apart, core]
    yield "files of --with that can't be read whole", outcome(program, None, words), (0, b"", b"".join(warnings))
    yield "strict, files that can't", outcome(program, None, ["--strict", *words]), (1, b"", b"".join(warnings))
    yield "rules beside one that has none", outcome(program, None, ["--rules", "--with", empty, core])[::2], (0, printed(core, ("1:1: OWS: shortest length 0: ", "2:1: RWS: shortest length 1:  ")))
    unread = outcome(program, None, ["--with", empty, "--with", none, core])
    yield "one that has none, and one that can't be read", unread, (2, f"cannot read {none}\n".encode(), warned)
    for words in (["--format", "abnf", "--with", core, plain], ["--with", core, "--format", "abnf", plain]):
        yield f"{' '.join(words[:2])}, and a known file by its name", outcome(program, None, ["--strict", *words]), (0, b"", b"")
    fenced = files.written("fenced.abnf", "```abnf\na = OWS\n```\n")
    known = outcome(program, None, ["--format", "markdown", "--with", core, "--strict", fenced])
    yield "--format markdown, and a known file that is a grammar by its name", known, (0, b"", b"")
    own = [os.path.join(rows.TOP, "examples", *it) for it in (("rfc3986.abnf",), ("known", "rfc9110.abnf"))]
    link = files.written("link.abnf", 'Link = "<" URI-Reference ">" *( ows ";" OWS token [ BWS "=" BWS ( token / quoted-string ) ] )')
    yield "names of standards", outcome(program, None, ["--strict", "--with", own[0], "--with", own[1], link]), (0, b"", b"")
    for words in (["--with"], ["--with", core], ["--grammar", "--with", core, bad], [bad, "--with", core]):
        yield f"the arguments {words[:-1]}", outcome(program, None, words), (5, USAGE, b"")


def unlike_cases(program, files, core, bad):
    """Files of --with that are no grammar, or of which not all is read: each is told as a warning, and the others are known all the same."""
    is_bad, rules = printed(bad, ("1:5: error: bad character [syntax]",)), ("1:1: OWS: shortest length 0: ", "2:1: RWS: shortest length 1:  ")
    for name, text, lines in TOLD_ROWS:
        other = files.written(name, text)
        warned, words = printed(other, lines), ["--with", other, "--with", core]
        uses = files.written("uses.abnf", "a = RWS")
        yield f"{name} is known", outcome(program, None, [*words, uses]), (0, b"", warned)
        yield f"strict, {name} is known", outcome(program, None, ["--strict", *words, uses]), (status_of(lines, True), b"", warned)
        yield f"{name} is known, beside an error", outcome(program, None, [*words, bad]), (1, b"", warned + is_bad)
        yield f"rules where {name} is known", outcome(program, None, ["--rules", *words, core]), (0, b"", printed(core, rules))
    lone, uses = files.written("lone.abnf", "Some words"), files.written("uses.abnf", "a = head")
    yield "a block alone that is no rule is known", outcome(program, None, ["--strict", "--with", lone, core]), (0, b"", b"")
    several = [files.written(*it) for it in (("words.abnf", "Some words.\nMore words.\n"), ("words.txt", "Some words.\n"), ("b.abnf", 'b = "x"\n'))]
    words, warned = [word for it in several for word in ("--with", it)], b"".join(printed(it, NO_KNOWN_TEXT) for it in several[:2])
    a_is_b = files.written("a.abnf", "a = b\n")
    yield "files without a grammar, and one behind them", outcome(program, None, [*words, a_is_b]), (0, b"", warned)
    prose = files.written("prose.abnf", "Some words.\nMore of them.\nhead = ?\n")
    warned = printed(prose, NO_KNOWN_TEXT)
    yield "the names in what is no grammar are known", outcome(program, None, ["--with", prose, uses]), (0, b"", warned)


def without_places(lines):
    """The lines of findings, each without the name of its file and its place."""
    return [line.split(b" ", 1)[1] for line in lines.splitlines()]


def but_repeats(lines):
    """The findings but those of definitions that repeat others, of which a draft says something else than a grammar."""
    return [it for it in lines if not it.endswith((b" [duplicate]", b" [differs]"))]


def grammar_cases(program, files):
    """The grammar of each file, and that in it the same is found as in the file, but for places, for definitions that repeat others, and for
    blocks with many faults, of which all are told there."""
    for name, text, grammar in GRAMMAR_ROWS:
        what, file = f"the grammar of {text[:40]!r}", files.written(name, text)
        yield what, outcome(program, None, ["--grammar", file]), (0, b"", grammar.encode())
        yield f"{what}, twice", outcome(program, None, ["--grammar", file, file]), (0, b"", 2 * grammar.encode())
    for ending, drafts in (("md", DRAFT_ROWS), ("xml", XML_ROWS)):
        for text, found, told in drafts:
            what, file = f"the grammar of the draft {text[:40]!r}", files.written(f"draft.{ending}", text)
            status, said, grammar = outcome(program, None, ["--grammar", file])
            if found[:1] == NO_GRAMMAR or told is None:
                yield what, (status, said, grammar), (status_of(found, False), b"", printed(file, found[:1]))
                continue
            yield what, (status, said), (0, b"")
            found = [it for it in found if not it.endswith((" [not-read]", " [unmarked]"))]
            if plain_findings.is_no_grammar(Reading(grammar.decode(), "utf-32").items):
                file = files.written("grammar.abnf", grammar)
                yield f"findings in {what}", outcome(program, None, [file]), (1, b"", printed(file, NO_TEXT))
                continue
            status, _, wrote = outcome(program, None, [files.written("grammar.abnf", grammar)])
            is_told, wanted = but_repeats(without_places(wrote)), but_repeats(without_places(printed(file, found)))
            if any(" faults in this block) [" in it for it in found):
                wanted = {it.replace(FIRST_OF_ELEVEN.encode(), b"").replace(FIRST_OF_TWELVE.encode(), b"") for it in wanted}
                yield f"faults in {what}", (status, wanted - {*is_told}), (1, set())
                continue
            does_repeat = b" [duplicate]" in wrote
            yield f"findings in {what}", (does_repeat or status, is_told), (does_repeat or status_of(found, False), wanted)
    none, good = files.path("none"), files.written("good.abnf", 'a = "x"')
    yield "a grammar, and no file", outcome(program, None, ["--grammar", none, good]), (2, f"cannot read {none}\n".encode(), b'a = "x"')
    for words in (["--grammar"], ["--grammar", "--rules", good], ["--strict", "--grammar", good], ["--grammar", "--grammar", good]):
        yield f"the arguments {words}", outcome(program, None, words), (5, USAGE, b"")


def argument_cases(program, files):
    """Help, the version, and options before the files."""
    good, bad = files.written("good.abnf", 'a = "x"'), files.written("bad.abnf", "a = ?")
    is_bad = printed(bad, ("1:5: error: bad character [syntax]",))
    for words in (["--help"], ["--help", "-x"], ["--help", "-x", "--help"], ["--strict", "--help", "--strict"], ["--strict", "--with", "a", "--help"]):
        yield f"the arguments {words}", outcome(program, None, words), (0, b"", HELP)
    told = f"abnf_findings {version()} ({told_kit()})\n".encode()
    for words in (["--version"], ["--version", "--help"], ["--rules", "--version"], ["--rules", "--version", "--rules"]):
        yield f"the arguments {words}", outcome(program, None, words), (0, b"", told)
    full = os.open("/dev/full", os.O_WRONLY)
    for option in ("--help", "--version"):
        yield f"{option} to an output that is full", outcome(program, None, [option], stdout=full), (2, b"write failed\n", b"")
    os.close(full)
    yield "files behind --", outcome(program, None, ["--", bad]), (1, b"", is_bad)
    yield "a file like an option behind --", outcome(program, None, ["--strict", "--", good, "--strict"]), (2, b"cannot read --strict\n", b"")
    yield from order_cases(program, files, bad, is_bad)
    for words in (
        *(["--"], ["-x", "--help"], [good, "--help"], [good, "--", bad], ["--with"], ["--with", good]),
        *(["--with", "--strict", good], ["--with", "--", good], ["--with", good, "--grammar", bad]),
        *(["--rules", "--grammar", good], ["--strict", "--rules", good]),
        # options that there aren't
        *(["--Strict", good], ["--strict=", good]),
    ):
        yield f"the arguments {words}", outcome(program, None, words), (5, USAGE, b"")


def order_cases(program, files, bad, is_bad):
    """Files in their order, standard input among them, with all options at once, and with names like options and none."""
    program, odd, base = os.path.abspath(program), files.path("odd"), ("1:1: warning: no earlier definition of a [no-base]",)
    from_input = printed("-", base)
    yield "standard input between files", outcome(program, b'a =/ "x"', [bad, "-", bad]), (1, b"", is_bad + from_input + is_bad)
    known = files.written("known.abnf", 'c = "x"')
    drafts = [files.written(name, f"~~~ abnf\n{rule}\n~~~\n") for name, rule in (("one", "a = c"), ("two", "b = d"))]
    words = ["--with", known, "--rules", "--with", "-", "--format", "markdown", *drafts]
    is_told = printed(drafts[0], ("2:1: a: shortest length 1: x",)) + printed(drafts[1], ("2:1: b: shortest length 1: y",))
    yield "rules of several drafts, and known files", outcome(program, b'd = "y"', words), (0, b"", is_told)
    os.makedirs(odd)
    for name in ("--rules", "--", "-x", "rules"):
        files.written(os.path.join("odd", name), 'a =/ "x"')
    is_odd = b"".join(printed(name, base) for name in ("--rules", "--", "-x"))
    words = ["--strict", "--", "--rules", "--", "-x"]
    yield "files like options behind --", outcome(program, None, words, folder=odd), (1, b"", is_odd)
    yield "a file without a name", outcome(program, None, ["", "rules"], folder=odd), (2, b"cannot read \n", printed("rules", base))


def version_cases():
    """The version stands where it is told in words."""
    for page in ("abnf_ls", "abnf_findings"):
        with open(os.path.join(rows.TOP, "man", f"{page}.1"), encoding="utf-8") as file:
            yield f"the version in the manual page of {page}", f".Os abnf_ls {version()}\n" in file, True


def bound_cases(program, files):
    """As many names are compared as have a near one, and one more, where none has one (RFC 5234 has 16 core rules)."""
    for uses in (5_882, 5_883):
        file = files.written("many.abnf", 'aa = "x"' + uses * "\n / ab")
        hint = ", did you mean aa?" if uses * 17 <= 100_000 else ""
        lines = tuple(f"{line}:4: error: undefined rule ab{hint} [undefined]" for line in range(2, uses + 2))
        yield f"{uses} names that stand for nothing", outcome(program, None, [file]), (1, b"", printed(file, lines))
    for rules in (99_983, 99_984):
        file = files.written("wide.abnf", "".join(f"x{number:06} = %x61\n" for number in range(rules)) + 'aa = yy00000 / "x"')
        hint = ", did you mean x000000?" if rules + 17 <= 100_000 else ""
        yield f"a name among {rules + 1} rules", outcome(program, None, [file]), (1, b"", printed(file, (f"{rules + 1}:6: error: undefined rule yy00000{hint} [undefined]",)))
    file, other = files.written("one.abnf", 'a = ab / "x"'), files.written("many.abnf", 'aa = "x"' + 5_883 * "\n / ab")
    near = printed(file, ("1:5: error: undefined rule ab, did you mean aa? [undefined]",))
    yield "a name beside a known file with many that stand for nothing", outcome(program, None, ["--with", other, file]), (1, b"", near)


def example_cases(program):
    """Nothing is found in the grammars of standards, all in one run and each in its own, but in those that have faults."""
    examples = os.path.join(rows.TOP, "examples")
    folders, faulty = (examples, os.path.join(examples, "known")), {f"{name}.abnf" for (name, *_), found, _ in KNOWN_ROWS if found}
    files = sorted(os.path.join(folder, it) for folder in folders for it in os.listdir(folder) if it.endswith(".abnf") and it not in faulty)
    for some in (files, *([it] for it in files)):
        yield f"examples, {len(some)} of them", outcome(program, None, ["--strict", *some]), (0, b"", b"")
    for name, count, last, unknown in STANDARDS:
        file = os.path.join(examples, name)
        status, said, wrote = outcome(program, None, ["--rules", file])
        told = [line.removeprefix(f"{file}:") for line in wrote.decode().splitlines()]
        without = [line.split(": ")[1] for line in told if ": shortest length " not in line]
        yield f"the rules of {name}", (status, said, len(told), told[-1:], without), (0, b"", count, [last], unknown)


def file_cases(program, files):
    """Files that can't be read or are no texts, beside others, which are told all the same."""
    bad, good = files.written("bad.abnf", "a = ?"), files.written("good.abnf", 'a = "x"')
    doubtful = files.written("doubtful.abnf", 'a =/ "x"')
    no_text, large = files.written("no_text", b'a = "\xff"'), files.sparse("large", 4_194_305)
    widest, none = files.written("widest.abnf", b" " * 4_194_304), files.path("none")
    is_bad = printed(bad, ("1:5: error: bad character [syntax]",))
    is_doubtful = printed(doubtful, ("1:1: warning: no earlier definition of a [no-base]",))
    yield "a text of the greatest size", outcome(program, None, [widest]), (0, b"", b"")
    wide_draft = files.written("widest.md", b"```abnf\n" + 16_383 * (b";" + 254 * b"x" + b"\n") + b"a = ?")
    yield "a draft of nearly that size", outcome(program, None, [wide_draft]), (1, b"", printed(wide_draft, ("16385:5: error: bad character [syntax]",)))
    yield "several files, in their order", outcome(program, None, [doubtful, good, bad, doubtful]), (1, b"", is_doubtful + is_bad + is_doubtful)
    yield "warnings alone", outcome(program, None, [good, doubtful]), (0, b"", is_doubtful)
    yield "warnings alone, strict", outcome(program, None, ["--strict", good, doubtful]), (1, b"", is_doubtful)
    for what, file, line in (
        ("no file", none, f"cannot read {none}"),
        ("a folder", files.folder, f"cannot read {files.folder}"),
        ("a file that isn't UTF-8", no_text, f"not a text: {no_text}"),
        ("a file that is too large", large, f"not a text: {large}"),
        ("a file without an end", "/dev/zero", "not a text: /dev/zero"),
    ):
        yield what, outcome(program, None, [file]), (2, f"{line}\n".encode(), b"")
        yield f"{what}, between others", outcome(program, None, [bad, file, doubtful]), (2, f"{line}\n".encode(), is_bad + is_doubtful)
    full = os.open("/dev/full", os.O_WRONLY)
    yield "an output that is full", outcome(program, None, [bad], stdout=full), (2, b"write failed\n", b"")
    yield "an output that is full and not needed", outcome(program, None, [good], stdout=full), (0, b"", b"")
    os.close(full)
    for arguments in ([], ["--strict"], ["--halp"], [good, "--strict"], ["--strict", "--strict", good], ["-x"], [good, b"\xff"]):
        yield f"the arguments {arguments}", outcome(program, None, arguments), (5, USAGE, b"")


def refusals(program, made, words):
    """How it ends with each allocation refused in turn, and last with none refused."""
    found = []
    for number in range(1, refused_memory.MOST):
        found.append(outcome(program, None, words, env=rows.in_front(made, refused_allocation=number)))
        if not found[-1][1] or found[-1][0] == HUNG:
            break
    return found


def memory_cases(program, files):
    """Each allocation refused in turn: it ends with `out of memory`, and with no file half told, or as it does where nothing is refused."""
    doubtful, bad = files.written("doubtful.abnf", 'a =/ "x"'), files.written("bad.abnf", "a = b ?")
    said = refused_memory.REFUSED + b"out of memory\n"
    drafts = [files.written("doubtful.md", '```abnf\na =/ "x"\n```'), files.written("bad.md", "~~~ABNF\n  a = b ?")]
    pages = [
        files.written("doubtful.xml", '<artwork type="abnf">a =/ "x"</artwork>'),
        files.written("bad.xml", "<artwork type='abnf'>a = &lt;p&gt; ?</artwork>"),
    ]
    unread = [files.written("empty.xml", '<artwork type="abnf"/>'), files.written("else.xml", '<artwork type="abnf" src="a">b = ?</artwork>')]
    empty = printed(unread[0], (*NO_GRAMMAR, "1:1: warning: empty block of grammar [not-read]"))
    elsewhere = printed(unread[1], ("1:1: warning: grammar in another file [not-read]", "1:34: error: bad character [syntax]"))
    bare = [
        files.written("bare.md", '```\na = b\n```\n~~~abnf\na =/ "x"\n~~~\n'),
        files.written("bare.xml", '<artwork>a = b</artwork><artwork type="abnf">b = ?</artwork>'),
    ]
    in_markdown = printed(bare[0], (f"1:1: {BARE}", "5:1: warning: no earlier definition of a [no-base]"))
    in_xml = printed(bare[1], (f"1:1: {UNTYPED}", "1:50: error: bad character [syntax]"))
    prose, idle = files.written("prose.abnf", "Some words.\nMore of them.\n"), files.written("idle.abnf", "a = x")
    core = files.written("core.abnf", CORE)
    known, gap = ["--with", core, "--with", drafts[1]], ["--with", files.written("gap.abnf", "x = nope")]
    uses = [files.written("uses.abnf", "c = OWS a"), files.written("uses.md", '```abnf\nc = RWS "x" ?\n```')]
    near = [files.written("near.abnf", 'a = sheme / "x"\nscheme = "y"'), files.written("far.abnf", 'a = "x" / DIGITS')]
    for what, words, wanted in (("help", ["--help"], HELP), ("the version", ["--version"], f"abnf_findings {version()} ({told_kit()})\n".encode())):
        with rows.library(refused_memory.LIBRARY) as made:
            found = refusals(program, made, words)
        others = {*found[:-1]} - {(6, said, b""), (0, refused_memory.REFUSED, wanted)}
        yield f"{what}, {len(found) - 1} allocations refused in turn", (len(found) > 2, sorted(others)), (True, [])
        yield f"{what}, no allocation refused", found[-1], (0, b"", wanted)
    for what, options, (one, other), status, first, second in (
        ("findings", [], (doubtful, bad), 1, "1:1: warning: no earlier definition of a [no-base]", "1:7: error: bad character [syntax]"),
        ("near names", [], near, 1, "1:5: error: undefined rule sheme, did you mean scheme? [undefined]", "1:11: error: undefined rule DIGITS, did you mean DIGIT? [undefined]"),
        ("rules", ["--rules"], (doubtful, bad), 0, "1:1: a: shortest length 1: x", "1:1: a: not known"),
        ("drafts", [], drafts, 1, "2:1: warning: no earlier definition of a [no-base]", "2:9: error: bad character [syntax]"),
        ("rules of drafts", ["--rules"], drafts, 0, "2:1: a: shortest length 1: x", "2:3: a: not known"),
        ("drafts in XML", [], pages, 1, "1:22: warning: no earlier definition of a [no-base]", "1:36: error: bad character [syntax]"),
        ("what can't be read", [], unread, 1, empty, elsewhere),
        ("what nothing marks", [], bare, 1, in_markdown, in_xml),
        ("a text that is no grammar", [], (prose, bad), 1, printed(prose, NO_TEXT), "1:7: error: bad character [syntax]"),
        ("names that no file defines", gap, (idle, bad), 1, f"1:1: {LEADING}", "1:7: error: bad character [syntax]"),
        ("uses of others", known, [doubtful, uses[1]], 1, "1:1: warning: no earlier definition of a [no-base]", "2:13: error: bad character [syntax]"),
        ("rules with others", ["--rules", *known], uses, 0, "1:1: c: not known", "2:1: c: not known"),
        ("grammars", ["--grammar"], [doubtful, drafts[1]], 0, b'a =/ "x"', b"a = b ?\n"),
        ("grammars of XML", ["--grammar"], pages, 0, b'a =/ "x"\n', b"a = <p> ?\n"),
    ):
        before, behind = (it if isinstance(it, bytes) else printed(file, (it,)) for file, it in ((one, first), (other, second)))
        with rows.library(refused_memory.LIBRARY) as made:
            found = refusals(program, made, [*options, one, other])
        whole = before + behind
        others = {*found[:-1]} - {(6, said, b""), (6, said, before), (status, refused_memory.REFUSED, whole)}
        least = 20 if isinstance(first, bytes) else 60
        yield f"{what}, {len(found) - 1} allocations refused in turn", (len(found) > least, sorted(others)), (True, [])
        yield f"{what}, no allocation refused", found[-1], (status, b"", whole)


def cases(program):
    """What each case is, how the program ended in it, and how it must end."""
    yield from example_cases(program)
    yield from version_cases()
    with rows.files() as files:
        for some in (
            *(row_cases, rule_cases, draft_cases, with_cases, installed_cases, make_cases, known_cases, grammar_cases, format_cases, argument_cases, bound_cases),
            *(file_cases, memory_cases),
        ):
            yield from some(program, files)


def main(words):
    return rows.report(cases(*words or [rows.FINDINGS]))


if __name__ == "__main__":
    sys.exit(main(sys.argv[1:]))

#!/usr/bin/env python3
"""Worked rows of the commands `example` and `check`: what they print and how they end.

    tools/command_rows.py [PROGRAM]

runs a program that is built. Each example is a text, a rule of it, its hover text and the certificate, or None where another certificate
may stand there. Each check is a text, a certificate, and the status with what stands on standard error and output.
"""
import sys

import rows
from published_texts import grammar_at
from runs import outcome


def lines(*all_lines):
    return "".join(f"{line}\n" for line in all_lines)


def shown(length, example):
    return f"shortest length {length}\nexample {example}"


def not_shown(length):
    return f"shortest length {length}\nexample not shown"


NOTHING = "generates nothing"
NOT_KNOWN = "not known"
X = lines("0 1 0 0", "1 1 0 0")
TWO = 'a = b / "x"\nb = a'
TWO_LINES = ("0 1 0 1", "1 1 2 0", "2 1 0 0", "3 1 1 0", "4 1 1 0")
NO_TWO = 'a = b "x"\nb = a'
NO_TWO_CERT = lines("0 -", "1 -", "2 -", "3 1 0 0", "4 -", "5 -")
DOUBLED = "\n".join(['r0 = "x"'] + [f"r{n} = 2r{n - 1}" for n in range(1, 65)])
HUGE = "\n".join(
    (
        'c = 4294967295"x"',
        "b = 4294967295c",
        "a = 4294967295b",
        "d = 4294967295c 2c",
        'e = 4294967295c 1c 4294967294"x"',
        'f = a / "z"',
        "h = *a",
    )
)
IS_HUGE = "shortest length 18446744073709551615 or more"
MANY = 100_000
APART = "\n".join(f'r{n} = "x"' for n in range(MANY))
CHAIN = "\n".join([f"r{n} = r{n - 1}" for n in range(MANY - 1, 0, -1)] + ['r0 = "x"'])
NOWHERE = "\n".join(f"r{n} = r{n + 1}" for n in range(MANY))
# Core rules have their nodes behind those of the text's rules, and what they use stands for core rules.
OWN_LF = 'LF = "n"\na = CRLF HEXDIG'
OF_LF_AND_A = ("0 1 0 0", "1 1 0 0", "2 3 2 0", "3 3 2 0", "4 2 2 0", "5 1 1 0")
OF_CR_AND_CRLF = ("6 1 0 0", "7 1 0 0", "8 2 1 0", "9 2 1 0", "10 1 1 0", "11 1 1 0")
OF_DIGIT_AND_HEXDIG = ("12 1 0 0", "13 1 0 0", "14 1 0 1", "15 1 1 0", *(f"{n} 1 0 0" for n in range(16, 22)))
OWN_LF_CERT = lines(*OF_LF_AND_A, *OF_CR_AND_CRLF, *OF_DIGIT_AND_HEXDIG, "22 1 0 0", "23 1 0 0")
# Blocks of one name are joined, a second `=` doesn't count, and a faulty one is opaque.
JOINED, JOINED_CERT = 'A = "yy"\na = "z"\na =/ %s"x"\nb = ?', lines("0 1 0 1", "1 2 0 0", "2 1 0 0", "3 -", "4 -")
REPEATS = 'a = 2*3%x41-5a [%d13.10] *<p> 4(("q")) %b1'
REPEATS_CERT = lines("0 7 0 0", "1 7 0 0", "2 2 0 0", "3 1 0 0", "4 0 0 0", "5 2 0 0", "6 0 0 0", "7 -", "8 4 0 0", "9 1 0 0", "10 1 0 0")

# Grammars, and of each some of its rules with what is shown of them
ALL_EXAMPLES = (
    (OWN_LF, (("lf", shown(1, "n")), ("A", shown(3, r"\x{D}\x{A}A")), ("cr", shown(1, r"\x{D}")), ("crlf", shown(2, r"\x{D}\x{A}")))),
    (OWN_LF, (("Digit", shown(1, "0")), ("HEXDIG", shown(1, "A")), ("ALPHA", "undefined"), ("n", "undefined"))),
    # prose is reached by uses, of core rules too
    (
        'a = b\nb = c\nc = <prose>\nd = "x"\ne = d\nf = nope / ALPHA / LWSP',
        (
            *((name, NOT_KNOWN) for name in "abc"),
            *(("d", shown(1, "x")), ("e", shown(1, "x")), ("f", shown(0, "")), ("nope", "undefined")),
            *(("ALPHA", shown(1, "A")), ("LWSP", shown(0, "")), ("WSP", shown(1, " "))),
        ),
    ),
    # and against uses alone
    ("a = b\nb = a\nc = b / <p>", (("a", NOTHING), ("b", NOTHING), ("c", NOT_KNOWN))),
    # a faulty block is as prose
    ('a = b\nb = (\nc = "x" 2("y" [b])\nd = c\ne = "x"', (*((name, NOT_KNOWN) for name in "abcd"), ("e", shown(1, "x")))),
    # ten characters of a date, T, eight of a time, and Z, which is shorter than an offset in numbers; a digit is its low end, 0 (RFC 3339
    # section 5.6)
    (grammar_at("examples", "rfc3339.abnf"), (("date-time", shown(20, "0000-00-00T00:00:00Z")), ("time-numoffset", shown(6, "+00:00")))),
    # RFC 3986 appendix A
    (
        grammar_at("examples", "rfc3986.abnf"),
        (
            # the empty path is `0<pchar>`, which is prose: of what leads there not all is known
            ("URI", NOT_KNOWN),
            # a host may be an empty name, and what stands around it may be left out
            ("authority", shown(0, "")),
            # "::" alone is an address
            ("IP-literal", shown(4, "[::]")),
            # of the digits "A" takes no reference, and of the marks ":"
            ("IPvFuture", shown(4, "vA.:")),
        ),
    ),
    # a line end is a list of rules, and the shortest rule is a name that stands for a name; numbers in base 2, 10 and 16 are equally short, and the
    # first is taken (RFC 5234 section 4)
    (
        grammar_at("examples", "rfc5234.abnf"),
        (("rulelist", shown(2, r"\x{D}\x{A}")), ("rule", shown(5, r"A=A\x{D}\x{A}")), ("num-val", shown(3, "%b0"))),
    ),
    # a number of one digit; a string, an array and an object have two characters, the words four and more (RFC 8259 sections 2 to 7)
    (grammar_at("examples", "rfc8259.abnf"), (("JSON-text", shown(1, "0")), ("object", shown(2, "{}")), ("exp", shown(2, "e0")))),
)

EXAMPLES = (
    ('a = "x"', "a", shown(1, "x"), X),
    ('a = "x"', "A", shown(1, "x"), X),
    ('a = "x"', "nope", "undefined", X),
    ('a = "x"', "ALPHA", "undefined", X),
    ("", "a", "undefined", ""),
    ('a = a / ""', "a", shown(0, ""), lines("0 0 0 1", "1 0 1 0", "2 0 0 0")),
    (TWO, "a", shown(1, "x"), lines(*TWO_LINES)),
    (TWO, "b", shown(1, "x"), lines(*TWO_LINES)),
    (NO_TWO, "a", NOTHING, NO_TWO_CERT),
    (NO_TWO, "b", NOTHING, NO_TWO_CERT),
    ('a = 0nope *nope [nope] "k"', "a", shown(1, "k"), None),
    ('a = 3*2"x" / %x39-30', "a", NOTHING, None),
    (DOUBLED, "r12", shown(4096, "x" * 4096), None),
    (DOUBLED, "r13", not_shown(8192), None),
    (DOUBLED, "r63", not_shown(9223372036854775808), None),
    (DOUBLED, "r64", IS_HUGE, None),
    ('a = <text> / "x"\nb = "y"', "a", NOT_KNOWN, None),
    ('a = <text> / "x"\nb = "y"', "b", shown(1, "y"), None),
    ('A = "yy"\na = "z"\na =/ "x"', "a", shown(1, "x"), None),
    ('a = 5000"x"', "a", not_shown(5000), lines("0 5000 0 0", "1 5000 0 0", "2 1 0 0")),
    (r'a = "\" %x0D.1F600', "a", shown(3, r"\\\x{D}\x{1F600}"), None),
    ('LF = "n"\na = CRLF HEXDIG', "a", shown(3, r"\x{D}\x{A}A"), None),
    ('LF = "n"\na = CRLF HEXDIG', "LF", shown(1, "n"), None),
    *((text, "a", NOT_KNOWN, None) for text in ("a =", 'a = 2 "x"', 'a = "x""y"', "a = (b", "a = %x100000000", "a = ?")),
    (
        'r3 = r2\nr2 = r1\nr1 = r0\nr0 = "x"',
        "r3",
        shown(1, "x"),
        lines("0 1 3 0", "1 1 3 0", "2 1 2 0", "3 1 2 0", "4 1 1 0", "5 1 1 0", "6 1 0 0", "7 1 0 0"),
    ),
    (
        'a = 2"x" / b / c\nc = "z"\nb = "y"',
        "a",
        shown(1, "y"),
        lines("0 1 1 1", "1 2 0 0", "2 1 0 0", "3 1 1 0", "4 1 1 0", "5 1 0 0", "6 1 0 0", "7 1 0 0", "8 1 0 0"),
    ),
    (APART, f"r{MANY - 1}", shown(1, "x"), lines(*(f"{n} 1 0 0" for n in range(2 * MANY)))),
    (CHAIN, f"r{MANY - 1}", shown(1, "x"), None),
    (HUGE, "c", not_shown(4294967295), None),
    (HUGE, "b", not_shown(18446744065119617025), None),
    (HUGE, "a", IS_HUGE, None),
    (HUGE, "d", IS_HUGE, None),
    (HUGE, "e", not_shown(18446744073709551614), None),
    (HUGE, "f", shown(1, "z"), None),
    (HUGE, "h", shown(0, ""), None),
    ('a = 4294967295""', "a", shown(0, ""), lines("0 0 0 0", "1 0 0 0", "2 0 0 0")),
    (OWN_LF, "a", shown(3, r"\x{D}\x{A}A"), OWN_LF_CERT),
    (JOINED, "a", shown(1, "x"), JOINED_CERT),
    (JOINED, "b", NOT_KNOWN, JOINED_CERT),
    (REPEATS, "a", NOT_KNOWN, REPEATS_CERT),
    # 100,000 rules, each of which uses the next, and the last one that there isn't
    (NOWHERE, "r0", NOTHING, lines(*(f"{n} -" for n in range(2 * MANY)))),
    (NOWHERE, f"r{MANY}", "undefined", None),
    *((text, rule, wanted, None) for text, all_wanted in ALL_EXAMPLES for rule, wanted in all_wanted),
    (TWO, "B", shown(1, "x"), lines(*TWO_LINES)),
    ("a = <text>", "a", NOT_KNOWN, lines("0 -", "1 -")),
)

YES = (0, b"", b"yes\n")
NO = (1, b"", b"no\n")


def fault(name):
    return (2, f"certificate fault {name}\n".encode(), b"")


CHECKS = (
    (TWO, lines(*TWO_LINES), YES),
    (TWO, lines("0 0 0 1", *TWO_LINES[1:]), NO),
    (TWO, lines(*TWO_LINES[:4], "4 -"), NO),
    (TWO, lines(TWO_LINES[0], "1 1 3 0", *TWO_LINES[2:]), NO),
    (TWO, lines(*TWO_LINES[:2], *TWO_LINES[3:]), fault("2 OutOfOrder")),
    (TWO, lines(*TWO_LINES[:4]), NO),
    (TWO, lines("0 01 0 1", *TWO_LINES[1:]), fault("1 BadLine")),
    (TWO, lines("0 18446744073709551616 0 1", *TWO_LINES[1:]), fault("3 NumberTooLarge")),
    ("a = a", lines("0 0 18446744073709551615 0", "1 0 18446744073709551615 0"), NO),
    ("a = a", lines("0 -", "1 -"), YES),
    ("", "", YES),
    ('a = a / ""', lines("0 0 0 1", "1 0 1 0", "2 0 0 0"), YES),
    ('a = a / ""', lines("0 0 1 0", "1 0 1 0", "2 0 0 0"), NO),
    # a line without its end, and ends of another kind; what is wrong first is told
    ("a = a", "0 -\n1 -", fault("1 BadLine")),
    ("a = a", "0 -\r\n1 -\r\n", fault("1 BadLine")),
    ("a = a", lines("0 -", "5 18446744073709551616 0 1"), fault("2 OutOfOrder")),
    # behind the first lines of an example
    (TWO, "shortest length 1\n\n" + lines(*TWO_LINES), YES),
)


def example_cases(program, files):
    """Each row's example, and the check of it."""
    for text, rule, wanted, cert in EXAMPLES:
        file = files.written("g.abnf", text)
        status, said, wrote = outcome(program, None, ["example", file, rule])
        head, _, tail = wrote.decode().partition("\n\n")
        of = f"example {rule} of {text[:40]!r}"
        yield of, (status, said, head, tail if cert is not None else None), (0, b"", wanted, cert)
        yield f"check of the {of}", outcome(program, None, ["check", file, files.written("c", wrote)]), YES


def check_cases(program, files):
    """Certificates that aren't accepted, and texts that are none."""
    for text, cert, wanted in CHECKS:
        found = outcome(program, None, ["check", files.written("g.abnf", text), files.written("c", cert)])
        yield f"check of {cert[:40]!r} for {text!r}", found, wanted


def cases(program):
    """What each case is, how the program ended in it, and how it must end."""
    with rows.files() as files:
        yield from example_cases(program, files)
        yield from check_cases(program, files)


def main(words):
    return rows.report(cases(*words or [rows.SERVER]))


if __name__ == "__main__":
    sys.exit(main(sys.argv[1:]))

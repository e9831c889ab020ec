#!/usr/bin/env python3
"""Prints what a keystroke and a hover cost in a draft, and in a file with the draft's grammar alone.

    bench/drafts.py [PROGRAM]

PROGRAM is that of the crate served_plainly, which is built if it is left out and isn't there. A draft has ten sections of prose, each with a
block of rules, in Markdown or in RFCXML. A key is typed in a rule, and in prose; a hover is asked in the first rule. Times are milliseconds
from the message to the findings, or to the reply: the least of some.

Behind them come drafts of the middle size that aren't sound: in which an appendix collects the grammar once more, the first block has no end,
or the last one, which in RFCXML is a fault.
"""
from bench import INITIALIZE, RUNS, Server, notice, request

SECTIONS = 10
# Lines of a draft, and lines of grammar among them.
SIZES = ((2_000, 300), (20_000, 300), (20_000, 3_000))
FENCES = {"markdown": ("~~~ abnf", "~~~"), "xml": ('<sourcecode type="abnf"><![CDATA[', "]]></sourcecode>")}
DRAFTS = request(0, "initialize", capabilities={}, initializationOptions={"drafts": True})
KEYS = 20


def rules(start, count):
    return [f'rule-{it} = "x{it}" / rule-{max(0, it - 1)} SP "y"' for it in range(start, start + count)]


def draft(language, lines, grammar):
    """The lines of a text of this language, which is a grammar alone where it has no fences."""
    given = []
    for at in range(SECTIONS):
        block = rules(at * grammar // SECTIONS, grammar // SECTIONS)
        if language in FENCES:
            begin, end = FENCES[language]
            prose = [f"This is line {it} of section {at}, which has no rule." for it in range((lines - grammar) // SECTIONS - 2)]
            block = [*prose, begin, *block, end]
        given += block
    return given


def collected(language, lines):
    """A draft with its grammar once more, in one block."""
    begin, end = FENCES[language]
    return [*lines, begin, *(it for it in lines if it.startswith("rule-")), end]


def without_end(language, lines, which):
    """A draft without the end of its first block, or of its last."""
    at = [at for at, line in enumerate(lines) if line == FENCES[language][1]][which]
    return [*lines[:at], *lines[at + 1 :]]


SHAPES = (
    ("collected", collected),
    ("the first has no end", lambda language, lines: without_end(language, lines, 0)),
    ("the last has no end", lambda language, lines: without_end(language, lines, -1)),
)


def opened(language, lines):
    return notice("textDocument/didOpen", textDocument={"uri": "file:///g", "languageId": language, "version": 1, "text": "\n".join(lines) + "\n"})


def key(line):
    at = {"line": line, "character": 6}
    return notice("textDocument/didChange", textDocument={"uri": "file:///g", "version": 2}, contentChanges=[{"range": {"start": at, "end": at}, "text": "x"}])


def hover(line):
    return request(5, "textDocument/hover", textDocument={"uri": "file:///g"}, position={"line": line, "character": 1})


def costs(language, lines):
    """The least milliseconds of a key in a rule, of one in prose, where there is some, and of a hover."""
    in_rules = [at for at, line in enumerate(lines) if line.startswith("rule-")]
    in_prose = [at for at, line in enumerate(lines) if line.startswith("This")]
    server = Server()
    server.until_answered((DRAFTS if language in FENCES else INITIALIZE) + opened(language, lines))
    steps = [key(in_rules[len(in_rules) // 2]), *([key(in_prose[len(in_prose) // 2])] if in_prose else []), hover(in_rules[0])]
    least = [min(server.until_answered(step) for _ in range(KEYS)) for step in steps]
    server.end()
    return [it * 1e3 for it in least]


def print_costs(name, language, lines):
    runs = [costs(language, lines) for _ in range(RUNS)]
    best = [min(column) for column in zip(*runs)]
    best = best if len(best) == 3 else [best[0], None, best[1]]
    shown = (f"{'–' if it is None else f'{it:.2f}':>10}" for it in best[1:])
    print(f"{name:<20} {language:<10} {best[0]:14.2f} {' '.join(shown)}", flush=True)


def main():
    print(f"{'lines, of grammar':<20} {'language':<10} {'key in a rule':>14} {'in prose':>10} {'hover':>10}")
    for lines, grammar in SIZES:
        for language in ("abnf", *FENCES):
            print_costs(f"{lines}, {grammar}", language, draft(language, lines, grammar))
    for name, made in SHAPES:
        for language in FENCES:
            print_costs(name, language, made(language, draft(language, *SIZES[1])))


if __name__ == "__main__":
    main()

#!/usr/bin/env python3
"""Puts random grammars into drafts in Markdown and in RFCXML, and compares what `abnf_findings` finds in a draft with what it finds in its
grammar. It does the same with grammars beside others whose names are known.

    tools/random_drafts.py [PROGRAM [COUNT [SEED]]]

A grammar is cut before some of its rules. Each piece is indented by some blanks, stands in a fence of its own, which may be indented too, and
has other text around it: words, fences of other languages with rules in them, and fences of none. What is found in the draft must be what is
found in the grammar, with and without --rules, each line moved as its piece was. Some definitions come again at the end: one that says the same
as the first must be no finding in the draft, and of one that says something else the line of the first must be printed. Some pieces have just as
many faults as are told one by one, some have more: of these the first fault alone must be printed.

Between the fences stand some that are empty. In RFCXML each piece stands in a CDATA section of an element, and between these stand elements
that are empty, or have their text in another file, or have no type. Each of them must be a warning, before what is found behind it; of a fence
without a word and of an element without a type, where all of it is rules. Some of these drafts are put at fault: then the fault alone must be
printed, where a plain reading has it. Of drafts with marks put in or taken out all must be printed that the plain readings find.

Of random grammars one is told, and the names of the others are known, each indented by some blanks. What is found must be what is found in
the one with just those blocks of the others behind it that have new names, up to the last line of the one; and of a rule that leads to a name
of the others that no file defines it must be said so.

Of texts of words those that are no grammar by a plain reading must be told as that, in one line. As files whose names are known they join what
has a head, and that they are no grammar must be a warning.
"""
import itertools
import random
import re
import sys

import plain_drafts
import plain_findings
import rows
from drawn_drafts import blocks, draft_of, grammar, page_of, prose, random_draft, with_fault
from random_texts import Reading
from runs import outcome

COUNT, SEED = 200, 1
# The name at the head of a block
HEAD = re.compile(r"([A-Za-z][A-Za-z0-9-]*)(?:[ \t\n]|;.*\n)*=")
PLACE = re.compile(r"g:(\d+):(\d+): (.*)", re.DOTALL)
DEFINED_AGAIN = re.compile(r"error: rule (.*) is already defined \[duplicate\]")
# A finding's words, and its code
CODED = re.compile(r"(.*?: (?:error|warning): .*)( \[([a-z-]+)\])", re.DOTALL)
# What is said behind messages and isn't read plainly
HINT = re.compile(
    r", (?:did you mean [A-Za-z0-9-]+\?|lists by # are an extension of HTTP \(RFC 9110, section 5\.6\.1\)"
    r"|lines that are folded by \\ are not joined \(RFC 8792\)|a byte order mark|what kramdown includes is not read)"
)
# Rules of a grammar that is told, and of others, by which rules may lead to names that no file defines
IDLE = ("idle = lead", "idle = idle lead", 'idle = "x" lead', "idle = nope lead", "idle =/ end", "idle = [lead] idle", "more = 2idle / end")
LEADING = (
    *("lead = gap", "lead = gap / lead", "lead = gap / 2end", "lead = lead 0gap", "lead = lead <p> gap", "lead = 3*2gap", "lead = lead ("),
    *("lead = idle gap", "end = end", "end = nope", 'end = "x"', "end =/ lead"),
)
SEVERITIES = {1: "error", 2: "warning"}


def repeats_in(lines):
    """Of each line in which a name is defined again: the line of its first definition, and whether the two say the same."""
    found = plain_findings.repeats(Reading("\n".join(lines), "utf-32").items)
    return {line: (first[2], is_same) for line, (_, first, is_same) in found.items()}


def told(program, options, text, name):
    """How a run on a text from standard input ends, with its lines under another name."""
    status, said, wrote = outcome(program, text.encode(), [*options, "-"])
    return status, said, [f"{name}{line[1:]}" for line in wrote.decode().splitlines()]


def moved_line(line, moved):
    """A line about the grammar, as it must be about the draft."""
    at, column, rest = PLACE.fullmatch(line).groups()
    place, by = moved[int(at) - 1]
    return f"g:{place + 1}:{int(column) + by}: {rest}"


def told_again(line, repeats, moved):
    """A line about the grammar, as it is about a draft, which may define a name again; None of a definition that says the same."""
    at, _, rest = PLACE.fullmatch(line).groups()
    again = DEFINED_AGAIN.fullmatch(rest)
    if not again:
        return line
    original, is_same = repeats[int(at) - 1]
    differing = f"error: {plain_findings.differing(again[1], moved[original][0] + 1)} [differs]"
    return None if is_same else line.replace(rest, differing)


def in_draft(lines, repeats, moved):
    """The lines about a grammar, as they must be about the draft in which it is. Lines of rules have no codes."""
    kept = [it for line in lines if (it := told_again(line, repeats, moved))]
    coded = [(int(PLACE.fullmatch(it)[1]) - 1, CODED.fullmatch(it), it) for it in kept]
    ends = [at + 1 for at, (place, _) in enumerate(moved) if moved[at + 1 : at + 2] != [(place + 1, moved[at][1])]]
    by_line = [(at, code[3] if code else "", it) for at, code, it in coded]
    for line, count in plain_findings.without_floods(by_line, ends):
        yield moved_line(CODED.sub(rf"\1{plain_findings.first_of(count)}\2", line) if count else line, moved)


def draft_cases(program, count, seed):
    faults, lines_printed, copies, floods, unmarked = [], 0, 0, 0, 0
    for number in range(count):
        dice = random.Random(f"{seed} {number}")
        lines = grammar(dice).split("\n")
        repeats = repeats_in(lines)
        draft, moved, warnings = draft_of(dice, lines)
        end = dice.choice(("\n", "\r\n", "\r"))
        for options in ([], ["--rules"]):
            _, said, alone = told(program, options, "\n".join(lines), "g")
            kept = [*in_draft(alone, repeats, moved)]
            wanted = sorted([*kept, *([] if options else warnings)], key=place_of)
            found = told(program, [*options, "--format", "markdown"], end.join(draft), "g")
            lines_printed, copies = lines_printed + len(kept), copies + any(it[1] for it in repeats.values())
            floods, unmarked = floods + any("(the first of " in it for it in kept), unmarked + any("[unmarked]" in it for it in wanted)
            if found != (int(any(": error: " in it for it in wanted) and not options), said, wanted):
                faults.append((number, options, found[2][:3], wanted[:3]))
    reached = lines_printed > count, copies > count / 10, floods > count / 10, unmarked > count / 10
    yield f"{count} grammars in drafts", (faults[:2], *reached), ([], *[True] * len(reached)), count


def place_of(line):
    return tuple(int(it) for it in PLACE.fullmatch(line).groups()[:2])


def fault_cases(program, count, seed):
    """Drafts at fault: the fault alone is printed, where its rules are asked for too."""
    faults, kinds = [], set()
    for number in range(count):
        dice = random.Random(f"fault {seed} {number}")
        page, fault = "", None
        while not fault:
            lines = [line.replace("]]>", "] ]>") for line in grammar(dice).split("\n")]
            page = with_fault(dice, dice.choice(("\n", "\r\n", "\r")).join(page_of(dice, lines)[0]))
            _, fault = plain_drafts.gathered(page, "xml")
        at = plain_drafts.Text(page, "utf-32").position(fault[0])
        wanted = [f"g:{at['line'] + 1}:{at['character'] + 1}: error: {fault[1]} [xml]"]
        found = [told(program, [*options, "--format", "xml"], page, "g") for options in ([], ["--rules"])]
        kinds.add(fault[1])
        if found != [(1, b"", wanted)] * 2:
            faults.append((page, found, wanted))
    yield f"{count} drafts in RFCXML at fault", (faults[:2], len(kinds)), ([], 5), count


def page_cases(program, count, seed):
    faults, lines_printed, unread_printed, floods = [], 0, 0, 0
    for number in range(count):
        dice = random.Random(f"page {seed} {number}")
        lines = [line.replace("]]>", "] ]>") for line in grammar(dice).split("\n")]
        repeats = repeats_in(lines)
        page, moved, warnings = page_of(dice, lines)
        for options in ([], ["--rules"]):
            _, said, alone = told(program, options, "\n".join(lines), "g")
            wanted = sorted([*in_draft(alone, repeats, moved), *([] if options else warnings)], key=place_of)
            found = told(program, [*options, "--format", "xml"], "\n".join(page), "g")
            lines_printed, unread_printed = lines_printed + len(wanted), unread_printed + len(wanted) * bool(warnings)
            floods += any("(the first of " in it for it in wanted)
            if found != (int(any(": error: " in it for it in wanted) and not options), said, wanted):
                faults.append((number, options, found[2][:3], wanted[:3]))
    reached = lines_printed > count, unread_printed > count, floods > count / 10
    yield f"{count} grammars in RFCXML", (faults[:2], *reached), ([], True, True, True), count


def head(block):
    """The name at the head of a block, in small letters; None where it has no head."""
    found = HEAD.match("\n".join(block))
    return found and found[1].lower()


def joined(lines, others):
    """The lines of a grammar, and behind them those of the blocks of others that have new names."""
    names, found = {head(it) for it in blocks(lines)}, [*lines]
    for other in others:
        found += [line for it in blocks(other) if head(it) and head(it) not in names for line in it]
        names |= {head(it) for it in blocks(other)}
    return found


def indented(dice, lines):
    """A text of these lines behind some blanks, and how many these are."""
    blanks = dice.choice(("", "", " ", "\t   "))
    return "\n".join(blanks + line for line in lines), len(blanks)


def with_gaps(lines, whole, count):
    """The lines about a grammar of so many lines at the front of a whole one, of which some lead to names that no file defines."""
    reading = Reading("\n".join(whole), "utf-32")
    leading = plain_findings.leading_to_gaps(reading.items, reading.rules, count)
    for line in lines:
        does_lead = line.endswith(" [unproductive]") and int(PLACE.fullmatch(line)[1]) - 1 in leading
        yield CODED.sub(rf"\1{plain_findings.GAP_HINT}\2", line) if does_lead else line


def beside(program, options, whole, count, by):
    """The lines about a grammar that is indented by so much, and has so many lines at the front of a whole one, as they must be where the others
    are known."""
    moves = [(at, by) for at in range(len(whole))]
    moved = [moved_line(line, moves) for line in told(program, options, "\n".join(whole), "g")[2]]
    return [*with_gaps([line for line in moved if int(PLACE.fullmatch(line)[1]) <= count], whole, count)]


def with_some(dice, lines, some):
    """The lines of a grammar, and at times some of these behind them."""
    return [*lines, *(dice.sample(some, dice.choice((1, 2))) if dice.random() < 0.6 else ())]


def known_cases(program, count, seed):
    faults, lines_printed, lines_joined, gaps = [], 0, 0, 0
    with rows.files() as files:
        for number in range(count):
            dice = random.Random(f"known {seed} {number}")
            lines, *others = (grammar(dice).split("\n") for _ in range(dice.choice((2, 2, 3))))
            lines, *others = with_some(dice, lines, IDLE), *(with_some(dice, it, LEADING) for it in others)
            known = [files.written(f"{at}.abnf", indented(dice, it)[0]) for at, it in enumerate(others)]
            text, by = indented(dice, lines)
            whole = joined(lines, others)
            lines_joined += len(whole) - len(lines)
            for options in ([], ["--rules"]):
                found = told(program, [*options, *(word for it in known for word in ("--with", it))], text, "g")
                wanted = beside(program, options, whole, len(lines), by)
                lines_printed, gaps = lines_printed + len(wanted), gaps + any(plain_findings.GAP_HINT in it for it in wanted)
                if found != (int(any(": error: " in it for it in wanted) and not options), b"", wanted):
                    faults.append((number, options, found, wanted[:3]))
    reached = lines_printed > count, lines_joined > count, gaps > count / 5
    yield f"{count} grammars with known files", (faults[:2], *reached), ([], *[True] * len(reached)), count


# ---- what the plain readings find alone


def plain_line(at, severity, message, code):
    return f"g:{at['line'] + 1}:{at['character'] + 1}: {severity}: {message} [{code}]"


def plain_lines(found):
    """The lines of findings as they are published, with positions in characters."""
    return [plain_line(it["range"]["start"], SEVERITIES[it["severity"]], it["message"], it["code"]) for it in found]


def plain_draft(text, form):
    """The lines of a draft, but for hints."""
    draft = plain_drafts.Draft(text, form, "utf-32")
    if draft.fault:
        return plain_lines(draft.told_of_xml())
    unread = [plain_line(draft.position(at), "warning", words, code) for at, words, code in plain_drafts.unread(text, form)]
    if not draft.grammar.text:
        return [f"g:1:1: warning: {plain_findings.NO_GRAMMAR_IN_DRAFT}", *unread]
    return sorted([*plain_lines(draft.findings(Reading(draft.grammar.text, "utf-32").findings())), *unread], key=place_of)


def told_plainly(program, options, text):
    """How a run on a text from standard input ends, with its lines but for hints."""
    status, said, lines = told(program, options, text, "g")
    return status, said, [HINT.sub("", it) for it in lines]


def status_of(lines):
    return int(any(": error: " in it for it in lines))


def any_cases(program, count, seed):
    """Drafts with marks put in or taken out."""
    for form in ("markdown", "xml"):
        faults, reached = [], {"[unmarked]": 0, "[not-read]": 0}
        for number in range(count):
            dice = random.Random(f"any {form} {seed} {number}")
            text = random_draft(dice, form)
            wanted = plain_draft(text, form)
            found = told_plainly(program, ["--format", form], text)
            if found != (status_of(wanted), b"", wanted):
                faults.append((text, found, wanted))
            for code in reached:
                reached[code] += any(it.endswith(code) for it in wanted)
        seldom = [it for it in reached if reached[it] < count / 20]
        yield f"{count} drafts by the plain readings, in {form}", (sorted(faults, key=lambda it: len(it[0]))[:2], seldom), ([], []), count


def at_left(text):
    """The lines of a text, without its first indent."""
    return re.split("\r\n|\n|\r", "".join(it for it, *_ in plain_drafts.aligned([(it, 0, 0) for it in text], 0)))


def known_prose(program, file, text, other):
    """What is found of a grammar where a text that is no grammar is known, and what must be found."""
    lines = other.split("\n")
    wanted = beside(program, [], joined(lines, [at_left(text)]), len(lines), 0)
    warned = f"{file}:1:1: warning: {plain_findings.NO_GRAMMAR}\n" + "".join(f"-{it[1:]}\n" for it in wanted)
    return outcome(program, other.encode(), ["--with", file, "-"]), (status_of(wanted), b"", warned.encode())


def prose_cases(program, count, seed):
    """Texts of words, alone and as files whose names are known."""
    faults, nones = [], 0
    with rows.files() as files:
        for number in range(count):
            dice = random.Random(f"prose {seed} {number}")
            text, other = prose(dice), grammar(dice)
            reading, file = Reading(text, "utf-32"), files.written("prose.abnf", text)
            is_none = plain_findings.is_no_grammar(reading.items)
            wanted = [f"g:1:1: error: {plain_findings.NO_GRAMMAR}"] if is_none else plain_lines(reading.findings())
            found = [told_plainly(program, [], text), outcome(program, text.encode(), ["--grammar", "-"])]
            if found != [(status_of(wanted), b"", wanted), (0, b"", text.encode())]:
                faults.append((text, found, wanted))
            found, wanted = known_prose(program, file, text, f"{other}\nuses = nope / a / no") if is_none else (None, None)
            nones += is_none
            if found != wanted:
                faults.append((text, other, found, wanted))
    yield f"{count} texts of words", (sorted(faults, key=lambda it: len(it[0]))[:2], count / 5 < nones < count), ([], True), count


ALL = (draft_cases, page_cases, fault_cases, known_cases, any_cases, prose_cases)


def cases(program, count=COUNT, seed=SEED):
    return itertools.chain(*(it(program, count, seed) for it in ALL))


def main(words):
    program, count, seed = [*words, *[rows.FINDINGS, COUNT, SEED][len(words) :]]
    return rows.report(cases(program, int(count), seed))


if __name__ == "__main__":
    sys.exit(main(sys.argv[1:]))

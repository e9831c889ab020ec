"""A plain reading of what is wrong or doubtful in a text (RFC 5234, sections 2 to 4; RFC 7405), by the tables of docs/DEFINITIONS.md.

It shares nothing with the program. An item is its kind, its text, its line, its start there, and whether it stands apart. A finding is its
row, what is said of it, and its place: a line, and where it starts and ends there in characters.

What is told of the findings of a draft is here too: of definitions that come again, and of blocks with many faults. So is what `abnf_findings`
prints beyond findings: of a text that is no grammar, and of rules that lead to names that no file defines.
"""
import re

MOST_NUMBER = 4_294_967_295
MOST_NESTED = 64
BASE = {"b": 2, "d": 10, "x": 16}
SYNTAX, TOO_LARGE, TOO_DEEP, UNDEFINED, DUPLICATE, NO_BASE, EMPTY_REPEAT, EMPTY_RANGE, UNPRODUCTIVE = range(1, 10)
# The code of each row, and the severity of LSP 3.17, "DiagnosticSeverity"
CODES = {
    **{SYNTAX: ("syntax", 1), TOO_LARGE: ("number-too-large", 1), TOO_DEEP: ("too-deep", 1)},
    **{UNDEFINED: ("undefined", 1), DUPLICATE: ("duplicate", 1), NO_BASE: ("no-base", 2)},
    **{EMPTY_REPEAT: ("empty-repeat", 2), EMPTY_RANGE: ("empty-range", 2), UNPRODUCTIVE: ("unproductive", 2)},
}

# The codes that are faults of syntax, and how many of these a block of a draft may have before its first one alone is told
FAULTS_OF_SYNTAX = {CODES[row][0] for row in (SYNTAX, TOO_LARGE, TOO_DEEP)}
MOST_FAULTS = 10
# What is said of a text that is no grammar, and of a draft that has none
NO_GRAMMAR, NO_GRAMMAR_IN_DRAFT = "no grammar in this text [no-grammar]", "no grammar in this draft [no-grammar]"
# What is said behind the message of a rule that leads to a name that no file defines
GAP_HINT = ", as it leads to names that no file defines"


def place(item):
    return item[2], item[3], item[3] + len(item[1])


def behind(item):
    """The empty place behind an item."""
    return item[2], item[3] + len(item[1]), item[3] + len(item[1])


def is_one_of(item, texts):
    return item[0] == "operator" and item[1] in texts


def is_repeat(item):
    return item[0] == "operator" and item[1] not in "/()[]"


def begins_element(item):
    return item[0] in ("name", "quoted", "number", "prose") or is_one_of(item, "([")


def needs_element(item):
    return item[0] == "defines" or is_one_of(item, "/([")


def ends_element(item):
    return item[0] in ("name", "quoted", "number", "prose") or is_one_of(item, ")]")


def numbers_in(item):
    """The values of a repeat's or a number's digits."""
    if is_repeat(item):
        return [int(it) for it in item[1].split("*") if it]
    return [int(it, BASE[item[1][1].lower()]) for it in re.split("[.-]", item[1][2:])] if item[0] == "number" else []


def fault_at(last, opened, items):
    """What the end, or the first of these items, shows behind a last item and open brackets; None where it is no fault."""
    if not items:
        if needs_element(last):
            return SYNTAX, "element expected", behind(last)
        return (SYNTAX, "bracket not closed", place(opened[-1])) if opened and ends_element(last) else None
    item, closes = items[0], is_one_of(items[0], ")]")
    begins = is_repeat(item) or begins_element(item)
    if item[0] == "bad":
        return SYNTAX, "bad character", place(item)
    if (needs_element(last) and not begins) or (item[0] == "defines" and ends_element(last)) or (closes and not opened):
        return SYNTAX, "element expected", place(item)
    if is_repeat(item) and not (items[1:] and begins_element(items[1]) and not items[1][4]):
        return SYNTAX, "element expected", place(item)
    if begins and ends_element(last) and not item[4]:
        return SYNTAX, "blank expected", place(item)
    if closes and opened[-1][1] + item[1] not in ("()", "[]") and ends_element(last):
        return SYNTAX, "bracket not closed", place(opened[-1])
    if max(numbers_in(item), default=0) > MOST_NUMBER:
        return TOO_LARGE, "number too large", place(item)
    return (TOO_DEEP, "brackets nested too deep", place(item)) if is_one_of(item, "([") and len(opened) >= MOST_NESTED else None


def fault_of(items):
    """The fault of a block; None where it has none."""
    if items[0][0] != "name":
        return SYNTAX, "rule name expected", place(items[0])
    if not has_head(items):
        return SYNTAX, '"=" or "=/" expected', place(items[1]) if items[1:] else behind(items[0])
    opened = []
    for at in range(2, len(items) + 1):
        fault = fault_at(items[at - 1], opened, items[at:])
        if fault:
            return fault
        if at < len(items) and is_one_of(items[at], "(["):
            opened.append(items[at])
        if at < len(items) and is_one_of(items[at], ")]"):
            opened.pop()
    return None


def has_head(items):
    return len(items) > 1 and items[0][0] == "name" and items[1][0] == "defines"


def in_body(items, rules):
    """What is found behind the head of a block without fault."""
    for item in items[2:]:
        if item[0] == "name" and rules.key("own", item[1].lower()) is None:
            yield UNDEFINED, f"undefined rule {item[1]}", place(item)
        low, _, high = item[1].partition("*")
        if is_repeat(item) and low and high and int(low) > int(high):
            yield EMPTY_REPEAT, "repeat with minimum above maximum", place(item)
        if item[0] == "number" and "-" in item[1] and numbers_in(item)[0] > numbers_in(item)[1]:
            yield EMPTY_RANGE, "range with low above high", place(item)


def findings(blocks, rules):
    """What is found in blocks of items, by line, start and row. The rules are those of plain_rules."""
    found, heads, bases = [], set(), set()
    for items in blocks:
        fault = fault_of(items)
        found += [fault] if fault else in_body(items, rules)
        if has_head(items):
            text, name, at, adds = items[0][1], items[0][1].lower(), place(items[0]), items[1][1] == "=/"
            if name in bases and not adds:
                found.append((DUPLICATE, f"rule {text} is already defined", at))
            if adds and name not in bases:
                found.append((NO_BASE, f"no earlier definition of {text}", at))
            if name not in heads and rules.is_known(("own", name)) and rules.pairs[("own", name)] is None:
                found.append((UNPRODUCTIVE, f"rule {text} generates nothing", at))
            heads.add(name)
            bases |= set() if adds else {name}
    return sorted(found, key=lambda it: (*it[2][:2], it[0]))


def words(items):
    """What a block says: its tokens but for blanks and comments, names in small letters."""
    return [(kind, text.lower() if kind == "name" else text) for kind, text, *_ in items]


def repeats(blocks):
    """Of each line in which a name is defined again: the name there, the head of its first definition, and whether the two say the same."""
    firsts, found = {}, {}
    for items in blocks:
        if has_head(items) and items[1][1] == "=":
            first = firsts.setdefault(items[0][1].lower(), items)
            if first is not items:
                found[items[0][2]] = items[0][1], first[0], words(first) == words(items)
    return found


def differing(name, line):
    """What is said in a draft of a definition that differs from the first, which stands in a line of it that is counted from 1."""
    return f"rule {name} differs from its definition at line {line}"


def first_of(count):
    """What is said behind the first fault of a block that has so many; nothing where that isn't too many."""
    return f" (the first of {count} faults in this block)" if count else ""


def without_floods(found, ends):
    """What is told of the findings of a draft whose blocks end before these lines, and of how many faults of its block each stands. A finding
    is a line, a code, and what is told. Of a block with too many faults of syntax the first of these alone is told."""
    for start, end in zip([0, *ends], ends):
        here = [it for it in found if start <= it[0] < end]
        faults = [told for _, code, told in here if code in FAULTS_OF_SYNTAX]
        yield from [(faults[0], len(faults))] if len(faults) > MOST_FAULTS else [(told, 0) for *_, told in here]


def are_rules(blocks):
    """Whether there are blocks, and each of them is a rule."""
    return bool(blocks) and not any(map(fault_of, blocks))


def is_no_grammar(blocks):
    """Whether a text with these blocks is no grammar: they are more than one, none is a rule, and fewer than half of them have a head."""
    return len(blocks) > 1 and all(map(fault_of, blocks)) and 2 * sum(map(has_head, blocks)) < len(blocks)


def names_in(items):
    """The names in the body of a block, in small letters."""
    return {it[1].lower() for it in items[2:] if it[0] == "name"}


def names_used(blocks):
    """The names that each name's definitions use, its first one and what is added to it."""
    used, bases = {}, set()
    for items in filter(has_head, blocks):
        name, adds = items[0][1].lower(), items[1][1] == "=/"
        used.setdefault(name, set()).update(names_in(items) if adds or name not in bases else ())
        bases |= set() if adds else {name}
    return used


def leading_to_gaps(blocks, rules, end):
    """The lines in which rules are defined that lead to gaps: over any number of rules to names that stand for nothing, and are used in blocks
    from this line on, behind the grammar of which findings are told."""
    behind = [items for items in blocks if items[0][2] >= end and not fault_of(items)]
    gaps = {name for items in behind for name in names_in(items) if rules.key("own", name) is None}
    used, leading = names_used(blocks), set()
    while more := {name for name, uses in used.items() if uses & (gaps | leading)} - leading:
        leading |= more
    return {items[0][2] for items in filter(has_head, blocks) if items[0][1].lower() in leading}

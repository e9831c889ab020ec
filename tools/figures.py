"""The figures that README and the pages of docs/ have, which are those of counts.txt, and of GATE's table what README says of it.

A figure is found by the words around it, and written anew by `tools/counts.py --raise`.
"""
import os
import re
from typing import Any, NamedTuple

import failing_devices
from rows import TOP

GATE, TESTING, README = "docs/GATE.md", "docs/TESTING.md", "README.md"
# How long the gate took, as tools/gate_minutes.py writes it
TOOK = re.compile(r"(?m)^([0-9.]+) minutes on ([0-9]+) processors, [0-9.]+ of all together\.$")


def all_of(counts, *words):
    """The sum of the counts whose names begin with these words, and how many there are of these."""
    found = [count for name, count in counts.items() if tuple(name.split())[: len(words)] == words]
    return sum(found), len(found)


class Figure(NamedTuple):
    """Figures that stand in a page in the places of {}, and what tells them by the counts."""

    page: str
    words: str
    value: Any

    def form(self):
        words = [re.escape(it).replace(r"\{\}", r"([0-9][0-9,]*)") for it in self.words.split()]
        return re.compile(r"\s+".join(words))

    def wanted(self, counts):
        """The figures by the counts; None where one of these isn't there."""
        try:
            found = self.value(counts)
        except KeyError:
            return None
        return tuple(f"{it:,}" for it in (found if isinstance(found, tuple) else (found,)))

    def fault(self, text, counts):
        """What is wrong with the figures in the page's text; None where nothing is."""
        found, wanted = [it.groups() for it in self.form().finditer(text)], self.wanted(counts)
        if wanted is None:
            return f"{self.page}: no count tells '{self.words}'"
        if len(found) != 1:
            return f"{self.page}: {len(found) or 'no'} places tell '{self.words}', where one must"
        return f"{self.page}: '{self.words}' has {', '.join(found[0])}, and not {', '.join(wanted)}" if found[0] != wanted else None

    def put(self, text, counts):
        """The page's text with the right figures."""
        found = self.form().search(text)
        for number, figure in reversed([*enumerate(self.wanted(counts) or (), 1)] if found else []):
            text = text[: found.start(number)] + figure + text[found.end(number) :]
        return text


def count_of(name):
    """The count of this name, for a figure."""
    return lambda counts: counts[name]


def total_of(*names):
    """The sum of these counts."""
    return lambda counts: sum(counts[name] for name in names)


def counts_of(*names):
    return lambda counts: tuple(counts[name] for name in names)


def failing_devices_of(counts):
    # (one row is the session at devices that don't fail)
    return counts["rows abnf_ls failing_devices"] - 1


def edited_texts_of(counts):
    # (two long texts have so many, and so many short ones stand in each encoding)
    return 2 * counts["cases edited_texts.EDITS"], 3 * counts["cases edited_texts.TEXTS"]


def gate_took(_counts):
    """The minutes of the gate's last measured run, and on how many processors it was."""
    minutes, processors = TOOK.search(page(GATE)).groups()
    return round(float(minutes)), int(processors)


SESSIONS, REPLIES = (total_of(*(f"list {it}_rows.{name}" for it in ("session", "encoding", "text"))) for name in ("SESSIONS", "REPLIES"))
REFUSED_TO_THREADS = total_of("cases refused_sessions.FIRST", "cases refused_sessions.SAMPLE")
RANDOM_TEXTS = total_of(*(f"cases random_texts.COUNTS.{it}" for it in ("utf-8", "utf-16", "utf-32")))
KNOWN_FILES = counts_of("list findings_rows.WITH_ROWS", "list findings_rows.GRAMMAR_ROWS")
FIGURES = (
    Figure(README, "./test # proves and tests all from nothing: {} minutes on {} processors, when last timed", gate_took),
    Figure(GATE, "(../counts.txt) has {} edits in {} crates", lambda counts: all_of(counts, "edits")),
    Figure(TESTING, "| tests of the crates | {} in {} crates |", lambda counts: all_of(counts, "tests")),
    Figure(TESTING, "| edits that must be refused | {} in {} crates |", lambda counts: all_of(counts, "edits")),
    Figure(TESTING, "| edits that must not compile | {} |", lambda counts: all_of(counts, "must-not-compile")[0]),
    Figure(TESTING, "| edits that mean the same | {} |", count_of("same-meaning")),
    Figure(TESTING, "| worked sessions, byte for byte | {} |", SESSIONS),
    Figure(TESTING, "| worked replies | {} |", REPLIES),
    Figure(TESTING, "| streams with a broken frame | {} |", count_of("list session_rows.FRAMES")),
    Figure(TESTING, "| streams from the first byte on | {} |", count_of("list session_rows.STREAMS")),
    Figure(TESTING, "| examples, each with its check | {} |", count_of("list command_rows.EXAMPLES")),
    Figure(TESTING, "| checks of certificates | {} |", count_of("list command_rows.CHECKS")),
    Figure(TESTING, "| texts of `abnf_findings` | {}, of rules {} |", counts_of("list findings_rows.ROWS", "list findings_rows.RULE_ROWS")),
    Figure(TESTING, "| drafts of `abnf_findings` | {}, in RFCXML {} |", counts_of("list findings_rows.DRAFT_ROWS", "list findings_rows.XML_ROWS")),
    Figure(TESTING, "| files with known ones | {}, printed grammars {} |", KNOWN_FILES),
    Figure(TESTING, "| known files, with what is told of them | {} |", count_of("list findings_rows.TOLD_ROWS")),
    Figure(TESTING, "| rows of `./install` | {} |", count_of("rows install install_rows")),
    Figure(TESTING, "| rows of `./dist` | {} |", count_of("rows dist dist_rows")),
    Figure(TESTING, "| runs with devices that fail, of each program | {} |", failing_devices_of),
    Figure(TESTING, "Each of its {} reads fails", lambda counts: -(-len(failing_devices.GIVEN) // failing_devices.PIECE)),
    Figure(TESTING, "each of its {} writes fails", lambda counts: sum(map(failing_devices.leads_on, failing_devices.SESSION))),
    Figure(TESTING, "| random texts | {} |", RANDOM_TEXTS),
    Figure(TESTING, "| edits that are typed, at least | {} |", count_of("cases replayed_typing.EDITS")),
    Figure(TESTING, "| kinds of these edits | {} |", count_of("list typed_edits.KINDS")),
    Figure(TESTING, "| random drafts | {} |", count_of("cases random_drafts.COUNT")),
    Figure(TESTING, "| published texts | {}, random {} |", counts_of("list published_rows.ROWS", "cases published_rows.COUNT")),
    Figure(TESTING, "| random streams | {} |", count_of("cases broken_input.COUNT")),
    Figure(TESTING, "| allocations refused to threads | {} |", REFUSED_TO_THREADS),
    Figure(TESTING, "| random sessions | {} of {} messages |", counts_of("cases worked_sessions.random.SESSIONS", "cases worked_sessions.random.MESSAGES")),
    Figure(TESTING, "| sessions with shaken threads | {} |", count_of("cases shaken_threads.COUNT")),
    Figure(TESTING, "| random grammars | {} |", count_of("cases worked_grammars.random")),
    Figure(TESTING, "| random edits of long texts | {}, short texts {} |", edited_texts_of),
)


def figures(counts):
    """All of them, with those of each crate that has tests."""
    tests = [name.split()[1] for name in counts if name.startswith("tests ")]
    return [*FIGURES, *(Figure(TESTING, f"| `{it}` | {{}} |", count_of(f"tests {it}")) for it in tests)]


def page(name):
    with open(os.path.join(TOP, name), encoding="utf-8") as file:
        return file.read()


def faults(counts):
    """The figures that aren't those of the counts."""
    pages = {name: page(name) for name in (README, GATE, TESTING)}
    return [fault for it in figures(counts) if (fault := it.fault(pages[it.page], counts))]


def write(counts):
    """Puts the figures by these counts into the pages."""
    for name in (README, GATE, TESTING):
        text = before = page(name)
        for it in figures(counts):
            text = it.put(text, counts) if it.page == name else text
        if text != before:
            with open(os.path.join(TOP, name), "w", encoding="utf-8") as file:
                file.write(text)

#!/usr/bin/env python3
"""Worked rows of how tools/refused_edits.py comes to a verdict: made-up logs, edits and provers. Nothing is proved, so it takes seconds.

    tools/verdict_rows.py

The last line is 'N passed, M failed'. The prover of the last rows is played: what it says of a function rests on a word in its body.
"""
import argparse
import contextlib
import os
import re
import signal
import sys
import tempfile
from unittest import mock

import rows
from edits import checks, copies, kit
from edits import store as stores
from edits.copies import Copy
from edits.files import edits_in, lines_of
from edits.functions import Source, is_in
from edits.kit import DOES_KEEP, once_a_call
from edits.libraries import Gate, Libraries
from edits.store import KINDS, NoStore, Store
from edits.trial import BODY, DEFINITION, WITH_ANSWERS, WITH_INVARIANTS, Trial
from edits.verdict import (
    BOUND_TEXT,
    BY_A_NAME,
    TIMED_OUT,
    against,
    against_named,
    is_at_a_bound,
    read_check,
    refusal,
    verdict_alone,
    why_unclean,
)
from refused_edits import unread, untested
from workspace import text_of, write

END, WHOLE_END = "only=3 holes=9", "logic=not-proved"
F, G, H, TWIN = "fn made::f: ", "fn made::g: ", "fn made::h: ", "fn made::f_twin0: "
DONE, HOLE, WAITS = "no holes", "depends on a hole in `made::k`", "not proved; it calls `made::f`, which is not proved"
OWN_HOLE = "depends on a hole in `Rattle.made.proofs.f.Proof.f_spec`"
GOAL = "note: src/lib.rt:{}:5: it is not proved: a ≡ b"
TWINS_GOAL, FS_GOAL, GS_GOAL = GOAL.format(12), GOAL.format(2), GOAL.format(22)
BREAK = "note: what antt said of a `search` in the proof that rattle made: src/lib.rt:12:5: error: `search`: give the call less to do"
GIVEN_UP = f"{TWINS_GOAL}; `search` gave up at one of its limits"
VALUES = f"{TWINS_GOAL}; the facts known there allow values at which this goal is false"
ANSWER = "proofs/f_twin0/Answers.antt:3:1: error: `returns`: the sides differ"
NO_NAME = "proofs/f_twin0/Answers.antt:3:1: error: `returns`: `goal` has no field `loop`"
LEMMA = "proofs/Laws.antt:3:1: error: `law`: the sides differ"
STALE = "proofs/f_twin0/Answers.antt:1:1: error: module `Rattle-low-specs` was made from other text. Run the lower steps again"
# Of a copy in which f_twin0 is edited, and f and g stand as they are.
CLEAN = [f"{F}{DONE}", TWINS_GOAL, f"{TWIN}not proved", f"{G}{HOLE}", END]

# What a log of the copy shows of f_twin0: that it is refused, maybe at a bound alone, or nothing (KEPT); or the copy doesn't count (NONE).
REFUSED, BOUND, KEPT, NONE = "refused", "bound", "kept", "none"
LOGS = (
    ("a goal of the edited function", 1, CLEAN, REFUSED),
    ("an answer that isn't one", 1, [f"{F}{DONE}", ANSWER, f"{TWIN}not proved", f"{G}{HOLE}", END], REFUSED),
    ("nothing is wrong", 1, [f"{F}{DONE}", f"{TWIN}{DONE}", f"{G}{HOLE}", END], KEPT),
    ("nothing is wrong, and no hole is left", 0, [f"{F}{DONE}", f"{TWIN}{DONE}", f"{G}{DONE}", END], KEPT),
    ("only a name is gone", 1, [f"{F}{DONE}", NO_NAME, f"{TWIN}not proved", f"{G}{HOLE}", END], KEPT),
    ("it waits for what it calls", 1, [f"{F}{DONE}", f"{TWIN}{WAITS}", f"{G}{HOLE}", END], KEPT),
    ("a search broke off", 1, [f"{F}{DONE}", BREAK, f"{TWIN}not proved", f"{G}{HOLE}", END], BOUND),
    ("a search broke off, and its goal is told too", 1, [f"{F}{DONE}", BREAK, TWINS_GOAL, f"{TWIN}not proved", f"{G}{HOLE}", END], BOUND),
    ("a search broke off beside a false goal", 1, [f"{F}{DONE}", BREAK, GOAL.format(13), f"{TWIN}not proved", f"{G}{HOLE}", END], REFUSED),
    ("a search broke off, and values say no", 1, [f"{F}{DONE}", BREAK, VALUES, f"{TWIN}not proved", f"{G}{HOLE}", END], REFUSED),
    ("status 0 beside a fault", 0, CLEAN, NONE),
    ("status 2", 2, CLEAN, NONE),
    ("status 3", 3, CLEAN, NONE),
    ("a signal", -signal.SIGSEGV, CLEAN, NONE),
    ("it was killed", -signal.SIGKILL, CLEAN, NONE),
    ("it took too long", TIMED_OUT, CLEAN, NONE),
    ("a stale library", 1, [f"{F}{DONE}", STALE, f"{TWIN}not proved", f"{G}{HOLE}", END], NONE),
    ("the log is cut", 1, CLEAN[:-1], NONE),
    ("the log is cut within its last line", 1, [*CLEAN[:-1], "on"], NONE),
    ("no log", 1, [], NONE),
    ("a goal, and no line of its function", 1, [f"{F}{DONE}", f"{G}{HOLE}", TWINS_GOAL, END], NONE),
    ("a goal of another function", 1, [f"{F}{DONE}", GS_GOAL, f"{TWIN}not proved", f"{G}{HOLE}", END], NONE),
    ("a function's line that can't be read", 1, [f"{F}{DONE}", TWINS_GOAL, "fn made: f_twin0 not proved", f"{G}{HOLE}", END], NONE),
    ("an error in the source", 1, [*CLEAN[:-1], "src/lib.rt:12:5: error: `f_twin0`: no such name", END], NONE),
    ("an error of no known form", 1, [*CLEAN[:-1], "proofs/f_twin0/Answers.antt:3:1: error: a bracket is missing", END], NONE),
    ("the function without its edit fails", 1, [FS_GOAL, f"{F}not proved", *CLEAN[1:]], NONE),
    ("the function without its edit isn't told of", 1, CLEAN[1:], NONE),
    ("the function without its edit waits", 1, [f"{F}{WAITS}", *CLEAN[1:]], NONE),
    ("the function without its edit can't be told", 1, [f"{F}could not tell", *CLEAN[1:]], NONE),
    ("the witness fails", 1, [*CLEAN[:3], GS_GOAL, f"{G}not proved", END], NONE),
    ("the witness has no proof", 1, [*CLEAN[:3], f"{G}no proof: its file is missing", END], NONE),
    ("a lemma fails", 1, [*CLEAN[:-1], LEMMA, END], NONE),
    ("the function without its edit is left out", 1, [f"{F}{OWN_HOLE}", *CLEAN[1:]], NONE),
    ("a search gave up", 1, [f"{F}{DONE}", GIVEN_UP, *CLEAN[2:]], BOUND),
    ("a search gave up, and one at the same place went to its end", 1, [f"{F}{DONE}", GIVEN_UP, *CLEAN[1:]], REFUSED),
    ("a search gave up, and values say no", 1, [f"{F}{DONE}", GIVEN_UP, VALUES, *CLEAN[2:]], REFUSED),
    ("the edited function can't be told", 1, [f"{F}{DONE}", f"{TWIN}could not tell", f"{G}{HOLE}", END], KEPT),
)
ALONE = (
    ("refused", "refused, as it must be: note: ..", TWINS_GOAL, False, True),
    ("refused", "refused, as it must be: note: ..", BREAK, False, BOUND_TEXT),
    ("limit", "refused, as it must be (only by a limit of the prover, ..)", "", False, "refused, as it must be (only by a limit"),
    ("missed", "NOT REFUSED: the crate is still proved with this edit", "", False, False),
    ("unsure", "NOT TRIED: its check ended with status 3", "", False, False),
    ("bad", "BAD EDIT: it did not reach the prover", "", False, False),
    ("refused", f"{BY_A_NAME}, so this says little): ..", TWINS_GOAL, False, False),
    ("refused", "refused, as it must be: note: ..", TWINS_GOAL, True, False),
    ("limit", "refused, as it must be (only by a limit of the prover)", "", True, False),
    ("missed", "NOT REFUSED: the crate is still proved with this edit", "", True, True),
    ("unsure", "NOT TRIED: its check ended with status 3", "", True, False),
    ("bad", "BAD EDIT: it did not reach the prover", "", True, False),
)
PAIR = "old: a\nnew: b\n"
# Edits, and whether all of them is read.
TEXTS = (
    (f"file: src/lib.rt\n{PAIR}", True),
    (f"checked: f\nfile: src/lib.rt\n{PAIR}{PAIR}file: specs/A.antt\n{PAIR}", True),
    ("file: src/lib.rt\nold: a\nnew:\n", True),
    (f"file: src/lib.rt\n{PAIR}checked: f\n", True),
    ("", False),
    ("file: src/lib.rt\n", False),
    (PAIR, False),
    (f"file: src/lib.rt\n{PAIR}New: c\n", False),
    (f"file: src/lib.rt\n{PAIR}old:c\nnew: d\n", False),
    (f"file: src/lib.rt\n{PAIR}new: c\n", False),
    ("file: src/lib.rt\nold: a\nold: b\nnew: c\n", False),
    (f"file: src/lib.rt\n{PAIR}old: c\n", False),
    (f"file: src/lib.rt\nfile: src/main.rt\n{PAIR}", False),
    (f"file: src/lib.rt\n{PAIR}file: src/main.rt\n", False),
    (f"file: src/lib.rt\n{PAIR}\n", False),
    (f"file: src/lib.rt\n{PAIR}# a remark\n", False),
    (f"file: src/lib.rt\n{PAIR}and more of b\n", False),
    (f"error: borrow-e0505\nfile: src/lib.rt\n{PAIR}", False),
    (f"checked: \nfile: src/lib.rt\n{PAIR}", False),
)


def function_at(path, line):
    """The functions of the made-up logs: f from line 1 on, f_twin0 from 11, g from 21."""
    return [], "f" if line < 11 else "f_twin0" if line < 21 else "g"


def shown_by(status, log):
    said, why = read_check(status, "\n".join(log) + "\n", "made", function_at)
    why = why or why_unclean(said, lambda name: is_in(name, {"f_twin0"}), ("f", "g"))
    if why:
        return NONE
    text = refusal(against(said, {"f_twin0"}))
    return KEPT if not text else BOUND if is_at_a_bound(text) else REFUSED


def logs():
    for name, status, log, wanted in LOGS:
        yield f"a log: {name}", shown_by(status, log), wanted
    # of an edit of a function itself a caller waits, and the copy counts; where nothing is edited so, it doesn't
    said, why = read_check(1, f"{FS_GOAL}\n{F}not proved\n{G}{WAITS}\n{END}\n", "made", function_at)
    for is_direct, wanted in ((True, None), (False, "g isn't edited and isn't shown to be proved")):
        yield f"a caller waits, {is_direct}", why or why_unclean(said, lambda name: name == "f", ("g",), is_direct), wanted


    # an edit that names f is refused where f isn't proved, as it has a goal of its own or stands on a lemma that fails
    stands = f"{F}not proved; it stands on `Rattle.made.proofs.Laws.law`, which antt refuses"
    for fs_line, wanted in ((stands, 1), (f"{F}{DONE}", 0), (f"{F}could not tell", 0)):
        said, why = read_check(1, "\n".join([LEMMA, fs_line, f"{G}{HOLE}", END]), "made", function_at)
        yield f"a lemma, {fs_line}", (why, len(against_named(said, ["f"]))), (None, wanted)
        yield f"a lemma, {fs_line}, and all is checked", len(against_named(said, [])), 1


def alone():
    for kind, text, log, is_same, wanted in ALONE:
        is_well, said = verdict_alone(kind, text, log, is_same)
        yield f"alone: {kind}, {is_same}", said[: len(wanted)] if is_well and isinstance(wanted, str) else is_well, wanted
        if is_well and not is_same:
            yield f"alone: {kind} at a bound", is_at_a_bound(said), isinstance(wanted, str)


def texts():
    for text, wanted in TEXTS:
        yield f"an edit: {text!r}", not lines_of(text, ("file", "old", "new", "checked"))[1], wanted
    yield "an edit that must not compile", lines_of(f"error: e\nfile: src/lib.rt\n{PAIR}", ("file", "old", "new", "error"))[1], None
    with tempfile.TemporaryDirectory() as at:
        os.makedirs(f"{at}/crates/made/edits/more")
        for name in ("a.edit", "b.md", "c.edits", "d", "README.md"):
            write(f"{at}/crates/made/edits/{name}", "")
        yield "files", edits_in(f"{at}/crates/made/edits"), (["a.edit"], ["b.md", "c.edits", "d", "more"])


SOURCE = """pub fn f(a: u8) -> u8
    ensures { result ≡ a }
{
    let b = a;
    b
}

pub fn g(a: u8) -> u8
    ensures { result ≡ a }
{
    f(a)
}

pub fn h(a: u8) -> u8
    ensures { result ≡ word }
{
    let b = a;
    let c = b;
    let d = c;
    d
}

pub fn law()
    ensures { word ≡ 1 }
{}

impl Clone for Made {
    fn clone(&self) -> Made {
        let made = self.0;
        Made(made)
    }
}

pub struct Pair(u8, u8);

impl Pair {
    pub fn turns(&self) -> u8
        ensures { result ≡ self.now.1 }
    {
        self.1
    }
}

pub fn walks(a: u8) -> u8
    ensures { result ≡ a }
{
    a + 0
}
"""
# The proofs of the made-up crate that the tool looks for: answers of a method, and an invariant.
PROOFS = {"Pair/turns/Answers.antt": "", "walks/Invariants.antt": ""}
# The edits of the made-up crate; those that mean the same hold no word that the played prover refuses.
EDITS = {
    "f_first": "file: src/lib.rt\nold:     b\nnew:     b + broken\n",
    "f_second": "file: src/lib.rt\nold:     b\nnew:     b + hard\n",
    "g_first": "file: src/lib.rt\nold:     f(a)\nnew:     broken(a)\n",
    "clone_first": "file: src/lib.rt\nold:         Made(made)\nnew:         Made(broken)\n",
    "word_first": "checked: law\nfile: specs/Words.antt\nold: word = 1\nnew: word = broken\n",
}
SAME = {
    "f_same": "file: src/lib.rt\nold:     b\nnew:     b + 0\n",
    "turns_same": "file: src/lib.rt\nold:         self.1\nnew:         self.1 + 0\n",
    "walks_same": "file: src/lib.rt\nold:     a + 0\nnew:     a + 0 + 0\n",
    "word_same": "checked: law\nfile: specs/Words.antt\nold: word = 1\nnew: word = 0 + 1\n",
}


class Crate:
    """As much of a crate as a trial asks for."""

    name = "made"

    def __init__(self, folder):
        self.folder = folder

    def count(self, pattern):
        return 1

    def below(self):
        return []


class Prover:
    """A played prover. It finds goals in functions whose bodies have the word broken; what it does else, a row says."""

    def __init__(self, **faults):
        self.faults, self.specs, self.is_copy = faults, "", False

    def lines_of(self, name, text):
        """What it says of a function, and whether that is a fault."""
        last = name.rpartition("::")[2]
        found = re.search(rf"(?m)^ *(?:pub )?fn {last}\(.*(?:\n(?! *(?:pub )?fn ).*)*", text)
        bad = re.search("broken|hard", found[0]) if found else None
        is_beside = "broken" in self.specs and last in ("law", *self.faults.get("fails_beside", ()))
        if self.is_copy and last in self.faults.get("hides", ()):
            return []
        if is_beside or last in self.faults.get("fails", ()) or (self.faults.get("refuses_twins") and "_twin" in last):
            number = text.count("\n", 0, found.start()) + 1
            return [f"note: src/lib.rt:{number}:1: it is not proved: {last}", f"fn made::{name}: not proved"]
        if bad and not self.faults.get("finds_nothing"):
            number = text.count("\n", 0, found.start() + bad.start()) + 1
            why = "error: `search`: give the call less to do" if bad[0] == "hard" else "it is not proved"
            return [f"note: src/lib.rt:{number}:1: {why}", f"fn made::{name}: not proved"]
        return [f"fn made::{name}: no holes"]

    def checked(self, crate, folder, flags, kept=None):
        with open(f"{folder}/src/lib.rt", encoding="utf-8") as file:
            text = file.read()
        with open(f"{folder}/specs/Words.antt", encoding="utf-8") as file:
            self.specs = file.read()
        names = [it for word, it in zip(flags, flags[1:]) if word == "--only"]
        self.is_copy = bool(names)
        said = [line for it in names or ("f", "g", "h", "law", "MadeClone::clone") for line in self.lines_of(it, text)]
        is_bad = any("not proved" in it for it in said)
        last = "only=1 holes=1" if names else "logic=not-proved" if is_bad else "logic=proved"
        if self.faults.get("stale"):
            said.append(STALE)
        status = self.faults.get("status", 1 if names or is_bad else 0)
        return checks.Ended(status if names or not self.faults.get("in_copies") else int(is_bad), "\n".join([*said, last]) + "\n")


ALL = {*EDITS, *SAME}
# How the prover is played, which edits come to what they must, which of them only at a bound, and how many are tried alone.
PLAYED = (
    ("it is right", {}, ALL, {"f_second"}, 1),
    ("it finds nothing", {"finds_nothing": True}, {"word_first", "word_same"}, set(), 5),
    ("it refuses each twin", {"refuses_twins": True}, ALL - {"f_same", "turns_same", "walks_same"}, set(), 1),
    ("f is never proved", {"fails": ("f",)}, {*EDITS}, set(), 4),
    ("the law is never proved", {"fails": ("law",)}, {*EDITS}, {"f_second"}, 2),
    ("the witness is never proved", {"fails": ("h",)}, {*EDITS}, set(), 5),
    ("the witness fails beside the broken word", {"fails_beside": ("h",)}, ALL, {"f_second"}, 2),
    ("f isn't told of in copies", {"hides": ("f",)}, {*EDITS}, {"f_second"}, 4),
    ("the law isn't told of in copies", {"hides": ("law",)}, {*EDITS}, {"f_second"}, 2),
    ("the witness isn't told of in copies", {"hides": ("h",)}, {*EDITS}, {"f_second"}, 5),
    ("status 3 of each check", {"status": 3}, set(), set(), 5),
    ("status 3 of each copy", {"status": 3, "in_copies": True}, {*EDITS}, {"f_second"}, 5),
    ("each check takes too long", {"status": TIMED_OUT}, set(), set(), 0),
    ("a library is stale", {"stale": True}, set(), set(), 0),
)


@contextlib.contextmanager
def made_crate(store=None, is_kept=False, is_unedited=False, **provers_faults):
    """A made-up crate's trial, with a played prover."""
    was = checks.run, checks.MEMORY
    with tempfile.TemporaryDirectory() as at:
        proofs = {f"proofs/{path}": text for path, text in PROOFS.items()}
        for path, text in {"src/lib.rt": SOURCE, "specs/Words.antt": "word : Nat\nword = 1\n", **proofs}.items():
            os.makedirs(os.path.dirname(f"{at}/made/{path}"), exist_ok=True)
            write(f"{at}/made/{path}", text)
        for folder, found in ((f"{at}/made/edits", EDITS), (f"{at}/same/made", SAME)):
            os.makedirs(folder)
            for name, text in found.items():
                write(f"{folder}/{name}.edit", text)
        given = argparse.Namespace(names=[], unedited=is_unedited, kept=is_kept, log=None, top=at)
        checks.run, checks.MEMORY = Prover(**provers_faults).checked, argparse.Namespace(of=lambda crate: contextlib.nullcontext())
        try:
            # (which function has its turn next is no matter of the day here)
            with mock.patch.object(copies, "days_left", lambda name: 1 if name == "f" else 2):
                yield Trial(Crate(f"{at}/made"), given, store or NoStore(), f"{at}/same/made")
        finally:
            checks.run, checks.MEMORY = was


def played():
    for name, faults, wanted, at_a_bound, alone_wanted in PLAYED:
        with made_crate(**faults) as trial:
            yield f"the edits of the played crate: {name}", trial.unfit(), []
            said = trial.run()[-1]
            yield f"a played prover, alone: {name}", int(re.search(r"(\d+) alone", said)[1]), alone_wanted
            well = {it[: -len(".edit")] for it, (is_well, _) in trial.results.items() if is_well}
            bound = {it[: -len(".edit")] for it, (is_well, text) in trial.results.items() if is_well and is_at_a_bound(text)}
            yield f"a played prover: {name}", well, wanted
            yield f"a played prover, at a bound: {name}", bound, at_a_bound
            yield f"a played prover, all edits: {name}", len(trial.results), len(ALL)


def controls():
    """Of the functions with twins those are proved as they stand whose turn comes next, and each whose answers name the proof of another."""
    both = {"f", "g"}
    cited = {"": {"f"}, "Laws.{law}": {"f"}, "g.Goals as goal": {"f"}, "h.Met.{met}": both, "low.h.Met.{met}": both}
    for name, wanted in cited.items():
        with made_crate() as trial:
            for function, text in (("f", "-- answers\n"), ("g", f"use Rattle.made.proofs.{name}\n" if name else "")):
                os.makedirs(f"{trial.source.folder}/proofs/{function}")
                write(f"{trial.source.folder}/proofs/{function}/Answers.antt", text)
            again = Trial(trial.crate, trial.given, NoStore(), f"{trial.given.top}/same/made")
            twins = again.maker.shared_out([it for it in again.edits if it.functions], {"law"})[0]
            yield f"the functions with twins: {name}", twins.bases(), {"f", "g", "Pair::turns", "walks"}
            yield f"the controls of a copy: {name}", again.maker.controls(twins), wanted
            with tempfile.TemporaryDirectory() as folder:
                yield f"what must be proved in a copy: {name}", {*again.maker.make(folder, twins)[2]} >= {*wanted, "law"}, True
    with made_crate() as trial:
        yield "the controls where there is no twin", trial.maker.controls(Copy([])), set()
    # each function with twins is a control on one day of so many
    shown = []
    for day in range(copies.DAYS):
        with mock.patch.object(copies, "today", lambda day=day: day):
            shown += [it for it in ("f", "g", "walks", "Pair::turns", "scan::longest") if not copies.days_left(it)]
    yield "the days of controls", sorted(shown), ["Pair::turns", "f", "g", "scan::longest", "walks"]
    with mock.patch.object(copies, "today", lambda: 0):
        days = copies.days_left("f")
    with mock.patch.object(copies, "today", lambda: days):
        yield "the day of a control", copies.days_left("f"), 0
    with made_crate() as trial:
        twins = trial.maker.shared_out([it for it in trial.edits if it.functions], set())[0]
        with mock.patch.object(copies, "days_left", lambda name: 0 if name in ("f", "g") else 7):
            yield "the controls of a day", trial.maker.controls(twins), {"f", "g"}
        with mock.patch.object(copies, "days_left", lambda name: {"f": 9, "g": 3}.get(name, 7)):
            yield "the control of a day on which none has its turn", trial.maker.controls(twins), {"g"}


LAWS = "pub fn first()\n    ensures { word ≡ 1 }\n{}\n\npub fn second()\n    ensures { word ≡ word }\n    ensures { 1 ≡ 1 }\n{}\n"


def witnesses():
    """Beside an edit of a definition something else is proved: a function with a body, or where there is none another law."""
    with made_crate() as trial:
        yield "a witness with a body", trial.maker.witness({"law"}), ["h"]
    with tempfile.TemporaryDirectory() as at:
        os.makedirs(f"{at}/src")
        os.makedirs(f"{at}/proofs/first")
        write(f"{at}/src/lib.rt", LAWS)
        write(f"{at}/proofs/first/Answers.antt", "-- some answers\n")
        maker = copies.Maker(Source("made", at), False)
        yield "the laws of a crate", maker.source.laws(), ["first", "second"]
        for named, wanted in ((set(), ["second"]), ({"second"}, ["first"]), ({"first", "second"}, [])):
            yield f"a witness beside {sorted(named)}", maker.witness(named), wanted


def names():
    """A method of a trait has the names of its type and its trait, but for `drop`; none of them has twins."""
    for trait, wanted in (("Drop", "Made::drop"), ("Clone", "MadeClone::clone")):
        with tempfile.TemporaryDirectory() as at:
            os.makedirs(f"{at}/src")
            head = f"impl {trait} for Made<'_> {{\n    fn {trait.lower()}(self) {{\n"
            write(f"{at}/src/lib.rt", f"pub struct Made<'t> {{\n    a: &'t u8,\n}}\n\n{head}        f(self)\n    }}\n}}\n")
            source = Source("made", at)
            yield f"the name of a method: {trait}", [*source.bodies()], [wanted]
            yield f"a method without a twin: {trait}", source.without_twins, {wanted}


class Summed:
    """A crate whose sum is made of its own reading and of the sums of those that it uses."""

    def __init__(self, name, *deps):
        self.name, self.deps, self.text, self.readings = name, deps, name, 0

    def stamp(self):
        self.readings += 1
        return f"{self.text} {[it.stamp() for it in self.deps]}"


class SummedAtOnce(Summed):
    stamp = once_a_call(Summed.stamp)


def sums():
    """A sum that is made at once is the same, reads each crate once, and sees what has changed since the one before."""
    made = {}
    for kind in (Summed, SummedAtOnce):
        low = kind("low")
        middle = kind("middle", low)
        top = kind("top", low, middle, kind("other", middle, low))
        first, low.text = top.stamp(), "changed"
        made[kind] = first, top.stamp(), low.readings, top.readings
    yield "the sums", made[Summed][:2], made[SummedAtOnce][:2]
    yield "the sums before and behind a change", made[SummedAtOnce][0] != made[SummedAtOnce][1], True
    yield "the readings by each way", made[Summed][2:], (8, 2)
    yield "the readings at once", made[SummedAtOnce][2:], (2, 2)


def unedited():
    """With no edit made all copies must be proved."""
    for fails, wanted in (((), True), (("f",), False), (("law",), False), (("clone",), False), (("h",), False)):
        with made_crate(is_unedited=True, fails=fails) as trial:
            trial.run()
            yield f"unedited: {fails}", all(is_well for is_well, _ in trial.results.values()), wanted


def self_test():
    """It is a fault where no edits of the same meaning stand in a trial, or not of both kinds."""
    with made_crate() as trial, tempfile.TemporaryDirectory() as empty:
        same = f"{trial.given.top}/same"
        yield "the tool is tried", untested([trial], same), None
        yield "no edits of the same meaning", bool(untested([trial], empty)), True
        yield "no crate to try it on", bool(untested([], same)), True
        for names, wanted in (([], True), (["made"], False)):
            yield f"the tool is tried, {names}", any("isn't tried" in it for it in unread([trial], [], names)), wanted
        # (f isn't all that has a body)
        for name in SAME:
            os.rename(f"{same}/made/{name}.edit", f"{same}/made/other")
            lacking = Trial(trial.crate, trial.given, NoStore(), f"{same}/made")
            yield f"the same meaning without {name}", bool(untested([lacking], same)), name != "f_same"
            os.rename(f"{same}/made/other", f"{same}/made/{name}.edit")
        found = {it.name[: -len(".edit")]: trial.kinds(it) for it in trial.edits if it.is_same}
        kinds = {"f_same": {BODY}, "word_same": {DEFINITION}, "turns_same": {BODY, WITH_ANSWERS}, "walks_same": {BODY, WITH_INVARIANTS}}
        yield "the kinds of edits that mean the same", found, kinds


class Memory(NoStore):
    """A store that notes what it is to keep."""

    def __init__(self):
        self.kept = []

    def name(self, crate, edit):
        return edit.name

    def keep(self, crate, edits, shown):
        self.kept += [edit.name[: -len(".edit")] for edit, _ in edits.values()]


class Kept:
    """As much of the store of `rt` as names ask for."""

    def of_edit(self, edit, total):
        return f"{os.path.basename(edit)} {total}"

    def key(self, crate):
        return "the crate"


def remembered():
    """An edit that means the same has another name in the store than one that must be refused, and is told nothing that is kept of one."""
    for is_kept, faults, wanted in ((False, {}, ALL), (False, {"fails": ("f",)}, {*EDITS}), (True, {}, set())):
        with made_crate(Memory(), is_kept, **faults) as trial:
            trial.run()
            yield f"what is kept: {is_kept}, {faults}", {*trial.store.kept}, wanted
    store = Store.__new__(Store)
    with tempfile.TemporaryDirectory() as store.folder, made_crate() as trial:
        store.kept, store.lock, store.tools = Kept(), contextlib.nullcontext(), "the tools"
        edit = trial.edits[0]
        names = set()
        for edit.is_same in (False, True):
            names.add(store.name(trial.crate, edit))
        yield "names of what is kept", len(names), 2
        store.kept.at = store.folder
        os.makedirs(f"{store.folder}/edits")
        write(f"{store.folder}/edits/n", f'{{"edit": "n", "kind": "{KINDS[True]}", "text": "t"}}')
        yield "what is kept of the same meaning", (store.kept_text("n", True), store.kept_text("n", False), store.kept_text("m", True)), ("t", None, None)


# A made-up repository of two crates: what an edit's verdict rests on there.
REPOSITORY = {
    "crates.txt": "low:\nmade: low\n",
    "HANDLES": "Handles allowed: none.\n",
    "crates/low/src/lib.rt": "pub fn below() {}\n",
    "crates/low/out/rlib/low.rlib/format": "as it was built",
    "crates/made/src/lib.rt": SOURCE,
    "crates/made/specs/Words.antt": "word : Nat\nword = 1\n",
    "crates/made/proofs/f/Answers.antt": "-- answers\n",
    "crates/made/edits/e.edit": EDITS["f_first"],
}


def stored(at, changes):
    """The store of `rt` over that repository with these files changed, one of its crates, and an edit of it."""
    for path, text in {".git/HEAD": "", **REPOSITORY, **changes}.items():
        os.makedirs(os.path.dirname(f"{at}/{path}"), exist_ok=True)
        write(f"{at}/{path}", text)
    crates = {it.name: it for it in kit.crates_of(at)}
    store = Store([*crates.values()])
    store.has_library(crates["low"])
    edit = argparse.Namespace(file=f"{at}/crates/made/edits/e.edit", name="e.edit", is_same=False)
    return store, crates["made"], edit


# What the verdict on an edit rests on: each is changed in turn, and then nothing that was kept is found.
PARTS_OF_A_KEY = (
    ("nothing", {}, {}),
    ("a tool", {}, {"tools": "other tools"}),
    ("the kit", {}, {"kit": "another kit"}),
    ("the edit", {"crates/made/edits/e.edit": EDITS["f_second"]}, {}),
    ("the crate's code", {"crates/made/src/lib.rt": f"{SOURCE}// more\n"}, {}),
    ("its definitions", {"crates/made/specs/Words.antt": "word : Nat\nword = 2\n"}, {}),
    ("its proofs", {"crates/made/proofs/f/Answers.antt": "-- other answers\n"}, {}),
    ("its line of crates.txt", {"crates.txt": "low:\nmade: low memchr\n"}, {}),
    ("what the repository may", {"HANDLES": "Handles allowed: Wait.\n"}, {}),
    ("a library below", {"crates/low/out/rlib/low.rlib/format": "as it was built anew"}, {}),
)


def as_told(tools, name):
    """The sums of the tools and of the kit are these."""
    stack = contextlib.ExitStack()
    stack.enter_context(mock.patch.object(stores, "sum_of_tools", lambda: tools))
    stack.enter_context(mock.patch.object(kit.RT, "kit_sum", lambda: name))
    return stack


def keys():
    """Nothing is taken from the store that was kept of something else. Where `rt` has no store there is none to be wrong."""
    for what, changes, others in PARTS_OF_A_KEY:
        if not DOES_KEEP:
            # (so that there are as many rows with any kit)
            yield f"nothing is kept, and so with a change of {what}", DOES_KEEP, False
            continue
        with tempfile.TemporaryDirectory() as at, mock.patch.object(kit.RT, "STORE", f"{at}/store"):
            with as_told("the tools", "the kit"):
                store, crate, edit = stored(f"{at}/before", {})
                store.keep(crate, {store.name(crate, edit): (edit, "refused")}, ["f"])
            with as_told(others.get("tools", "the tools"), others.get("kit", "the kit")):
                store, crate, edit = stored(f"{at}/after", changes)
                found = store.kept_text(store.name(crate, edit), False), store.has_shown(crate, "f")
        # (that a function is shown to be proved rests on no edit)
        yield f"what is kept, with a change of {what}", found, ("refused" if what == "nothing" else None, what in ("nothing", "the edit"))
    here = os.path.dirname(os.path.abspath(stores.__file__))
    own = [f"{os.path.dirname(here)}/{it}.py" for it in ("refused_edits", "workspace")]
    for path in (*own, *sorted(f"{here}/{it}" for it in os.listdir(here) if it.endswith(".py"))):
        total = stores.sum_of_tools()
        with mock.patch.object(stores, "text_of", lambda it, path=path: "other" if it == path else text_of(it)):
            yield f"the sum of the tools without {os.path.basename(path)}", stores.sum_of_tools() != total, True


def libraries():
    """Beside a gate a library comes from the store, or from out/ while the gate runs and has told that it is proved."""
    found_in = (
        ("the store has it", "", True, True, True),
        ("it is proved, and not kept", "rt: made proved\n", True, False, True),
        ("it was proved, and something else may stand there", "rt: made proved\n", False, False, False),
        ("it isn't proved", "rt: made NOT PROVED\n", False, False, False),
        ("its tests are proved", "rt: made: its tests are proved\n", False, False, False),
        ("it isn't proved yet, and then the gate ends", "rt: low proved\n", None, False, False),
    )
    for name, log, is_running, is_kept, wanted in found_in:
        with tempfile.TemporaryDirectory() as at:
            crate = Crate(f"{at}/copy/made")
            crate.rlib = f"{at}/copy/made/out/rlib/made.rlib"
            os.makedirs(f"{at}/crates/made/out/rlib/made.rlib")
            write(f"{at}/crates/made/out/rlib/made.rlib/format", "of the checkout")
            write(f"{at}/log", log)
            gate, store = Gate(f"{at}/log"), NoStore()
            store.gives = lambda crate: is_kept
            states = [True, False] if is_running is None else [is_running]
            gate.is_running = lambda: states.pop(0)
            found = [is_there for _, is_there in Libraries(at, store, gate).arriving([crate])]
            yield f"libraries: {name}", (found, os.path.isfile(f"{crate.rlib}/format")), ([wanted], wanted and not is_kept)


# Checks that run, by how many seconds ago they began and what memory each needs; what of it is free; and whether one that needs 4 may begin.
RUNNING = (
    ("nothing else runs", (), 1, True),
    ("there is room beside a grown one", ((60, 9),), 4, True),
    ("there is none beside a grown one", ((60, 9),), 3, False),
    ("there is room beside a young one", ((59, 3),), 7, True),
    ("a young one needs the room", ((59, 3),), 6, False),
    ("two young ones need it", ((60, 9), (30, 3), (0, 2)), 8, False),
    ("there is room beside both", ((60, 9), (30, 3), (0, 2)), 9, True),
)


def memory():
    """A check begins where memory has room for it beside the young ones, whose need doesn't show yet; and one that has ended needs nothing."""
    for name, running, free, wanted in RUNNING:
        own = checks.Memory()
        own.running = [checks.Begun(100.0 - age, needed) for age, needed in running]
        with mock.patch.object(kit.RT, "free", lambda free=free: free), mock.patch.object(checks.time, "monotonic", lambda: 100.0):
            yield f"a check begins: {name}", own.begin(4) is not None, wanted
            yield f"the checks that run: {name}", len(own.running), len(running) + wanted
    own = checks.Memory()
    with mock.patch.object(kit.RT, "free", lambda: 9), mock.patch.object(kit.RT, "need", lambda needed: needed):
        with own.of(5):
            yield "a check that still runs", own.begin(5) is None, True
        yield "a check behind one that has ended", own.begin(5) is not None, True


def cases():
    for some in (logs, alone, texts, names, played, controls, witnesses, sums, unedited, self_test, remembered, keys, libraries, memory):
        yield from some()


if __name__ == "__main__":
    sys.exit(rows.report(cases()))

#!/usr/bin/env python3
"""Worked rows of the gate's outermost stages: what each says last and how it ends, with played provers, programs, sums and pages.

    tools/stage_rows.py

A stage that finds everything well whatever it is given passes all that is beneath it. So each is run here as the gate runs it, on what
is well and on what isn't. Nothing is proved. The gate runs these rows before any proof.
"""
import argparse
import contextlib
import io
import os
import re
import subprocess
import sys
import tempfile
from unittest import mock

import comments
import counts
import documents
import layout
import must_not_compile
import program_ends
import refused_edits
import rows
import sums
import tests_ran
import verdict_rows
from edits import checks
from edits.store import NoStore
from workspace import sum_of, write

COMPILE_ERROR = "src/lib.rt:5:5: error[borrow-e0515]: cannot return value referencing local variable `b`"
OTHER_ERROR = "src/lib.rt:5:5: error[borrow-e0505]: cannot move out of `b` because it is borrowed"


def ends_with(main, *words):
    """The last line that a stage says, and how it ends."""
    with contextlib.redirect_stdout(io.StringIO()) as said, contextlib.redirect_stderr(io.StringIO()):
        try:
            status = main(*words)
        except SystemExit as ended:
            status = ended.code
    lines = said.getvalue().splitlines()
    return lines[-1] if lines else "", status


@contextlib.contextmanager
def replaced(module, **values):
    """A module with other values under these names."""
    with mock.patch.multiple(module, **values):
        yield


# ---- the edits that must be refused

# How the prover is played, what is tried, and how many of the made-up crate's edits pass and fail by it.
EDIT_STAGES = (
    ("each is refused", {}, None, "9 passed, 0 failed", 0),
    ("none is refused", {"finds_nothing": True}, None, "2 passed, 7 failed", 1),
    ("each twin is refused", {"refuses_twins": True}, None, "6 passed, 3 failed", 1),
    ("the checks end with another status", {"status": 3}, None, "0 passed, 9 failed", 1),
    ("one that isn't refused", {"finds_nothing": True}, ["made/g_first.edit"], "0 passed, 1 failed", 1),
    ("one that is", {}, ["made/g_first.edit"], "1 passed, 0 failed", 0),
    # (that it isn't there, and that there are no edits, are two errors)
    ("one that isn't there", {}, ["made/none.edit"], "0 passed, 2 failed", 1),
    ("a crate that isn't there", {}, ["other"], "0 passed, 2 failed", 1),
)


class NoLibraries:
    """The libraries of a crate that stands on none."""

    def __init__(self, *_):
        pass

    def arriving(self, crates):
        return iter(())


@contextlib.contextmanager
def made_repository(**provers_faults):
    """The stage of edits over a repository whose one crate is made up, with a played prover."""
    with verdict_rows.made_crate(**provers_faults) as trial:
        top, same = trial.given.top, f"{trial.given.top}/same"
        made = replaced(
            refused_edits,
            TOP=top,
            SAME=same,
            DOES_KEEP=False,
            Libraries=NoLibraries,
            copy_crates=lambda top, to: None,
            crates_of=lambda folder: [verdict_rows.Crate(f"{top}/made")],
            places=lambda top: (),
        )
        with made:
            yield top


def given(names, is_fit=False):
    return argparse.Namespace(
        names=names or [], fit=is_fit, unedited=False, alone=False, kept=False, jobs=1, beside=None, log=None, top=refused_edits.TOP
    )


def edit_stages():
    for what, faults, names, line, status in EDIT_STAGES:
        with made_repository(**faults) as top:
            yield f"edits: {what}", ends_with(refused_edits.run, given(names), top), (line, status)
    with made_repository() as top:
        yield "edits: whether each fits", ends_with(refused_edits.run, given(None, True), top), ("9 edits, and 0 errors in them or in what stands beside them", 0)
        write(f"{top}/made/edits/worse.edit", "file: src/lib.rt\nold: nothing\nnew: b\n")
        yield "edits: one doesn't fit", ends_with(refused_edits.run, given(None, True), top)[1], 1
        yield "edits: one doesn't fit, and all are tried", ends_with(refused_edits.run, given(None), top), ("0 passed, 1 failed", 1)
    for status in (0, 1):
        played = replaced(refused_edits, run=lambda *_, status=status: status, own_folder=lambda: contextlib.nullcontext("folder"))
        with played, replaced(refused_edits.RTLIB, guarded=lambda: ()), mock.patch.object(sys, "argv", ["refused_edits.py"]):
            here = os.getcwd()
            yield f"edits: the status {status}", ends_with(refused_edits.main)[1], status
            os.chdir(here)


# ---- the edits that must not compile

NO_COMPILE = "error: borrow-e0515\nfile: src/lib.rt\nold:     b\nnew:     c\n"
# What the edits are, how the check ends and what it says, and whether the stage passes.
COMPILE_STAGES = (
    ("refused as it names", {"a.edit": NO_COMPILE}, 1, COMPILE_ERROR, 0),
    ("refused with another error", {"a.edit": NO_COMPILE}, 1, OTHER_ERROR, 1),
    ("not refused", {"a.edit": NO_COMPILE}, 0, "only=0 holes=0", 1),
    ("its error stands beside the status 0", {"a.edit": NO_COMPILE}, 0, COMPILE_ERROR, 1),
    ("its error stands beside the status 3", {"a.edit": NO_COMPILE}, 3, COMPILE_ERROR, 1),
    ("a library is stale", {"a.edit": NO_COMPILE}, 1, f"{COMPILE_ERROR}\n{verdict_rows.STALE}", 1),
    ("its check took too long", {"a.edit": NO_COMPILE}, checks.TIMED_OUT, COMPILE_ERROR, 1),
    ("an edit that names no error", {"a.edit": NO_COMPILE.partition("\n")[2]}, 1, COMPILE_ERROR, 1),
    ("a file of another name", {"a.md": NO_COMPILE}, 1, COMPILE_ERROR, 1),
    ("no edits", {}, 1, COMPILE_ERROR, 1),
)


def compile_stages():
    for what, found, status, log, wanted in COMPILE_STAGES:
        with tempfile.TemporaryDirectory() as at:
            os.makedirs(f"{at}/made/src")
            write(f"{at}/made/src/lib.rt", verdict_rows.SOURCE)
            os.makedirs(f"{at}/made/must-not-compile")
            for name, text in found.items():
                write(f"{at}/made/must-not-compile/{name}", text)
            played = replaced(
                must_not_compile,
                DOES_KEEP=False,
                Libraries=NoLibraries,
                copy_crates=lambda top, to: None,
                crates_of=lambda folder, at=at: [verdict_rows.Crate(f"{at}/made")],
            )
            ended = checks.Ended(status, f"{log}\n")
            with played, replaced(checks, run=lambda *_, ended=ended: ended), replaced(checks.RTLIB, guarded=lambda: ()):
                yield f"must not compile: {what}", ends_with(must_not_compile.main)[1], wanted


# ---- the sums

# The sums in sums.txt, by which kit, the programs that stand there, and what comes of it.
SUM_STAGES = (
    ("the same", {"p": b"p", "q": b"q"}, {"p": b"p", "q": b"q"}, "2 passed, 0 failed", 0),
    ("another program", {"p": b"p", "q": b"q"}, {"p": b"p", "q": b"r"}, "1 passed, 1 failed", 1),
    ("a program that isn't there", {"p": b"p", "q": b"q"}, {"p": b"p"}, "1 passed, 1 failed", 1),
    ("no sum of a program", {"p": b"p"}, {"p": b"p", "q": b"q"}, "1 passed, 1 failed", 1),
    ("no sums", None, {"p": b"p", "q": b"q"}, "0 passed, 2 failed", 1),
)


def sum_stages():
    for what, listed, made, line, status in SUM_STAGES:
        with rows.files() as files:
            for name, text in (listed or {}).items():
                files.written(name, text)
            sums_of_files = {name: sum_of(files.path(name)) for name in listed or {}}
            if listed is not None:
                files.written("sums.txt", sums.written(sums_of_files, "kit 1"))
            for name in ("p", "q"):
                with contextlib.suppress(FileNotFoundError):
                    os.remove(files.path(name))
            for name, text in made.items():
                files.written(name, text)
            played = replaced(sums, SUMS=files.path("sums.txt"), PROGRAMS=(files.path("p"), files.path("q")), kit=lambda: "kit 1")
            with played:
                yield f"sums: {what}", ends_with(sums.main, []), (line, status)
                ends_with(sums.main, ["--write"])
                yield f"sums: {what}, written", ends_with(sums.main, [])[1], int(len(made) < 2)
                yield f"sums: {what}, another word", bool(ends_with(sums.main, ["--other"])[1]), True


# ---- the runs of programs

COUNTS = {"crates": 2, "edits a": 3, "rows p tool": 2}
WELL = ("crates: 2 passed, 0 failed, status 0", "edits: 3 passed, 0 failed, status 0", "sums: 2 passed, 0 failed, status 0")
# What is handed in, the rows of the played tool, and what comes of it.
RUN_STAGES = (
    ("all is well", WELL, (("a", 1, 1), ("b", 1, 1)), "9 passed, 0 failed", 0),
    ("a row fails", WELL, (("a", 1, 1), ("b", 1, 2)), "8 passed, 1 failed", 1),
    ("a row is missing", WELL, (("a", 1, 1),), "8 passed, 1 failed", 1),
    ("a row more", WELL, (("a", 1, 1), ("b", 1, 1), ("c", 1, 1)), "10 passed, 1 failed", 1),
    ("a row that stands for two runs", WELL, (("a", 1, 1, 2),), "8 passed, 0 failed", 0),
    ("no rows", WELL, (), "7 passed, 1 failed", 1),
    ("an edit failed", (WELL[0], "edits: 2 passed, 1 failed, status 1", WELL[2]), (("a", 1, 1), ("b", 1, 1)), "8 passed, 1 failed", 1),
    ("edits that broke off", (WELL[0], "edits: 3 passed, 0 failed, status 1", WELL[2]), (("a", 1, 1), ("b", 1, 1)), "9 passed, 1 failed", 1),
    ("a crate less", ("crates: 1 passed, 0 failed, status 0", *WELL[1:]), (("a", 1, 1), ("b", 1, 1)), "8 passed, 1 failed", 1),
    ("no counts", ("crates: , status 0", *WELL[1:]), (("a", 1, 1), ("b", 1, 1)), "7 passed, 1 failed", 1),
)


def run_stages():
    for what, words, found, line, status in RUN_STAGES:
        played = replaced(program_ends, all_cases=lambda found=found: (("p", "tool", rows.Case(*it)) for it in found))
        counted = replaced(counts, parsed=lambda text: COUNTS, text_of=lambda path: "", keep_rows=lambda found: None)
        with played, counted:
            yield f"runs: {what}", ends_with(program_ends.main, list(words)), (line, status)


# ---- the tests that have run

TESTS = {"tests a": 2, "tests b": 1, "edits a": 3}
ALL_OF_A = "tests: 2\ntest x::first ... ok\ntest x::second ... ok\ntest result: ok. 2 passed; 0 failed; 0 ignored; 0 filtered out\nrt: a: its tests passed\n"
ALL_OF_B = "test only ... ok\ntest result: ok. 1 passed; 0 failed; 0 ignored; 0 filtered out\nrt: b: its tests passed\n"
ONE_OF_A = ALL_OF_A.replace("test x::second ... ok\n", "").replace("2 passed", "1 passed")
# What `rt ci` said, and what comes of it.
TEST_STAGES = (
    ("all of them", ALL_OF_A + ALL_OF_B, "3 passed, 0 failed", 0),
    ("one less", ONE_OF_A + ALL_OF_B, "2 passed, 1 failed", 1),
    ("a result of more than ran", ALL_OF_A.replace("test x::second ... ok\n", "") + ALL_OF_B, "1 passed, 2 failed", 1),
    ("one that ran twice", ALL_OF_A.replace("second", "first") + ALL_OF_B, "1 passed, 2 failed", 1),
    ("one that was ignored", ALL_OF_A.replace("0 ignored", "1 ignored") + ALL_OF_B, "1 passed, 2 failed", 1),
    ("none of a crate", ALL_OF_A, "2 passed, 1 failed", 1),
    ("a crate whose tests fail", ALL_OF_A + ALL_OF_B.replace("its tests passed", "its tests FAILED"), "2 passed, 1 failed", 1),
    ("a crate that isn't counted", ALL_OF_A + ALL_OF_B + ALL_OF_B.replace("rt: b", "rt: c"), "3 passed, 1 failed", 1),
    ("nothing", "", "0 passed, 3 failed", 1),
)


def test_stages():
    for what, log, line, status in TEST_STAGES:
        with rows.files() as files:
            path = files.written("log", log)
            counted = replaced(counts, parsed=lambda text: TESTS, text_of=lambda it, path=path, log=log: log if it == path else "")
            with counted:
                yield f"tests: {what}", ends_with(tests_ran.main, [path]), (line, status)


# ---- counts and pages

def line_stages():
    """A stage that says line by line what is wrong ends well only where it says nothing."""
    for found, ends in (((), ("as counts.txt has them", 0)), (("a", "b"), ("FAILED", 1))):
        played = replaced(counts, faults=lambda listed, found=found: iter(found), parsed=lambda text: COUNTS, text_of=lambda path: "")
        with played:
            yield f"counts: {len(found)} faults", ends_with(counts.main, []), (f"counts: {ends[0]}", ends[1])
    with replaced(counts, parsed=lambda text: COUNTS, text_of=lambda path: ""):
        yield "counts: another word", bool(ends_with(counts.main, ["--other"])[1]), True
    for found, ends in (((), ("as the repository is", 0)), (("a",), ("FAILED", 1))):
        with replaced(documents, faults=lambda tree, found=found: iter(found), whole_tree=lambda: None):
            yield f"documents: {len(found)} faults", ends_with(documents.main), (f"documents: {ends[0]}", ends[1])
    for least, ends in ((0, ("all that must be there", 0)), (1, ("FAILED", 1))):
        with replaced(comments, all_sources=list, LEAST=dict.fromkeys(comments.KINDS, least)):
            yield f"comments: at least {least} of each", ends_with(comments.main), (f"comments: {ends[0]}", ends[1])


# How the gate ends, the last line that it has seen, and what it says then.
GATE_ENDS = (
    (0, "3 passed, 0 failed", []),
    (1, "2 passed, 1 failed", []),
    (1, "3 passed, 0 failed", ["0 passed, 1 failed"]),
    (0, "rt: ok", ["0 passed, 1 failed"]),
    (1, "rt: FAILED: a", ["0 passed, 1 failed"]),
    (1, None, ["0 passed, 1 failed"]),
)


def gate_stages():
    """The gate's last line says that all passed only behind a run that went to its end."""
    with open(os.path.join(rows.TOP, "test"), encoding="utf-8") as file:
        end = re.search(r"(?ms)^end\(\) \{\n.*?^\}\n", file.read())[0]
    for status, line, said in GATE_ENDS:
        with rows.files() as files:
            last = files.written("last", f"before\n{line}\n") if line else ""
            script = f'{end}work="$1/work" edits= last="$2"\ntrap end EXIT\nexit {status}\n'
            ended = subprocess.run(["bash", "-c", script, "test", files.folder, last], stdout=subprocess.PIPE, text=True, check=False)
            yield f"the gate: status {status} behind {line!r}", (ended.stdout.splitlines(), ended.returncode), (said, status)


# A file of a crate, and how the look at its layout ends; None where there is no such file.
LAYOUTS = (
    ("pub fn one() -> u8 {\n    1\n}\n", 0),
    ("pub fn one() -> u8 { 1 }\n", 1),
    (None, 1),
)


def layout_stages():
    """A file that isn't in the layout is found, and so is that there is none to look at."""
    for text, status in LAYOUTS:
        with tempfile.TemporaryDirectory() as top:
            os.makedirs(f"{top}/crates/made/src")
            if text:
                write(f"{top}/crates/made/src/lib.rt", text)
            yield f"layout: {text!r}", ends_with(layout.main, top)[1], status


def told_stages():
    """A tool of rows fails where a row does, and where there is none."""
    for found, ends in (((), 1), ((("a", 1, 1),), 0), ((("a", 1, 1), ("b", 1, 2)), 1)):
        yield f"rows: {len(found)}", ends_with(rows.report, found)[1], ends


def cases():
    for some in (edit_stages, compile_stages, sum_stages, run_stages, test_stages, line_stages, layout_stages, told_stages, gate_stages):
        yield from some()


if __name__ == "__main__":
    # (what says how cases went is tried here too, so its own word isn't enough)
    wrong = [what for what, found, wanted in told_stages() if found != wanted]
    sys.exit(rows.report(cases()) or len(wrong))

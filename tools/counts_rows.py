#!/usr/bin/env python3
"""Worked rows of what compares counts, figures and sums: made-up inputs, and what must be said of each.

    tools/counts_rows.py

The gate runs them before any proof.
"""
import contextlib
import io
import os
import sys
import tempfile

import alike_lines
import counts
import figures
import program_ends
import rows
import sums
import workspace

TOLD = {"crates": 2, "tests a": 3, "edits a": 2, "edits b": 4, "rows p tool": 7, "rows p.by-rattle tool": 7}
RAISE = f"`{counts.RAISE}` puts it there"

SIX = [f"line {it}" for it in range(6)]
TWICE = "\n".join(SIX)
# The texts of files, and the pairs of places that share lines
SHARED = (
    ("six lines in two files", {"a": TWICE, "b": f"x\n{TWICE}"}, [(("a", 1), ("b", 2), 6)]),
    ("five lines", {"a": "\n".join(SIX[1:]), "b": TWICE}, []),
    ("other lines behind", {"a": f"{TWICE}\nx", "b": f"{TWICE}\ny"}, [(("a", 1), ("b", 1), 6)]),
    ("seven lines are one pair", {"a": f"{TWICE}\nx", "b": f"{TWICE}\nx"}, [(("a", 1), ("b", 1), 7)]),
    ("twice in one file", {"a": f"{TWICE}\nx\n{TWICE}"}, [(("a", 1), ("a", 8), 6)]),
    ("blanks at the ends", {"a": TWICE, "b": "\n".join(f"  {it} " for it in SIX)}, [(("a", 1), ("b", 1), 6)]),
    ("lines that say nothing between", {"a": TWICE, "b": "\n// c\n-- c\nuse x;\n}\n".join(SIX)}, [(("a", 1), ("b", 1), 6)]),
    ("lines that say nothing alone", {"a": "}\n" * 9, "b": "}\n" * 9}, []),
    ("in nine places", {str(it): TWICE for it in range(9)}, []),
)

# What is found, what differs from TOLD, and what TOLD is raised to
COMPARED = (
    ("the same", {}, [], {}),
    ("a test lost its attribute", {"tests a": 2}, ["tests a: 2, and 3 in counts.txt: 1 missing"], {}),
    ("no edits of a crate", {"edits b": None}, ["edits b: none, and 4 in counts.txt: 4 missing"], {}),
    (
        "no edits",
        {"edits a": None, "edits b": None},
        ["edits a: none, and 2 in counts.txt: 2 missing", "edits b: none, and 4 in counts.txt: 4 missing"],
        {},
    ),
    ("a tool without a row", {"rows p tool": 0}, ["rows p tool: none, and 7 in counts.txt: 7 missing"], {}),
    ("no second compiler", {"rows p.by-rattle tool": None}, ["rows p.by-rattle tool: none, and 7 in counts.txt: 7 missing"], {}),
    ("one more", {"edits a": 3}, [f"edits a: 3, and 2 in counts.txt: {RAISE}"], {"edits a": 3}),
    ("a new crate", {"edits c": 1}, [f"edits c: 1, and none in counts.txt: {RAISE}"], {"edits c": 1}),
    ("one that is none", {"rows q tool": 0}, [], {}),
    (
        "one more and one less",
        {"tests a": 1, "edits a": 5},
        ["tests a: 1, and 3 in counts.txt: 2 missing", f"edits a: 5, and 2 in counts.txt: {RAISE}"],
        {"edits a": 5},
    ),
)

UNMARKED = "the function goes looks like a test, and has no #[test]"
SIGNATURE = "fn goes(rt: HostRuntime) -> Result<(), Fail> {\n    Ok(())\n}\n"
# The files of a crate, and the functions among them that look like tests and aren't
MARKED = (
    ("a test", {"lib.rt": f"#[test]\n{SIGNATURE}"}, []),
    ("a test without its attribute", {"lib.rt": f"#[test]\n{SIGNATURE}", "x.rt": SIGNATURE}, [f"x.rt: {UNMARKED}"]),
    ("a test in a comment", {"lib.rt": f"#[test]\n{SIGNATURE}\n// #[test]\n{SIGNATURE}"}, [f"lib.rt: {UNMARKED}"]),
    ("another attribute", {"lib.rt": f"#[test]\n#[other]\n{SIGNATURE}"}, []),
    ("a function with more arguments", {"lib.rt": f"#[test]\n{SIGNATURE}fn helps(rt: HostRuntime, at: u32) {{\n}}\n"}, []),
    ("a crate without tests", {"main.rt": "fn main(rt: HostRuntime) -> ExitCode {\n}\n"}, []),
)

NO_MODULE = "no file has it as a module, so nothing reads it"
# The files of a crate, and those that are no part of it
READ = (
    ("modules", {"lib.rt": "mod a;\n#[cfg(test)]\nmod b;\npub(crate) mod c;\n", "a.rt": "", "b.rt": "", "c.rt": ""}, []),
    ("a file that is no module", {"lib.rt": "mod a;\n// mod b;\n", "a.rt": "", "b.rt": ""}, [f"b.rt: {NO_MODULE}"]),
    ("a module in a folder", {"lib.rt": "mod a;\n", "a.rt": "mod b;\n", "a/b.rt": ""}, []),
    ("a folder that is a module", {"lib.rt": "mod a;\n", "a/mod.rt": "mod b;\n", "a/b.rt": "", "a/c.rt": ""}, [f"a/c.rt: {NO_MODULE}"]),
)

ONLY_FOLDERS = f"crates/a/edit: a crate has only folders {', '.join(workspace.FOLDERS)}"
# Lines as in crates.txt, and the crates that they list: each with what stands before the colon, and with its libraries
LISTED = (
    ("nothing", "", {}),
    ("two crates", "a:\nb: a c\n", {"a": ([], []), "b": ([], ["a", "c"])}),
    ("what a crate may", "a may_wait=4: b\n", {"a": (["may_wait=4"], ["b"])}),
    ("comments", "# a: b\n\nc: # d\n", {"c": ([], [])}),
)
CHECKOUT = {
    "crates.txt": "# Each crate.\na:\nb may_wait=4: a\nc: a\n",
    "HANDLES": "Handles allowed: Wait.\n",
    **{f"crates/{crate}/{path}": crate for crate in "abc" for path in ("src/lib.rt", "src/out/mod.rt", "out/log", "edits/x.edit")},
}
OF_A = ["src/lib.rt", "src/out/mod.rt"]
# The crates that are copied, the folders that are left, and the files that a copy has then
COPIED = (
    (None, ("out",), [*(f"crates/{crate}/{it}" for crate in "abc" for it in ("edits/x.edit", *OF_A))], CHECKOUT["crates.txt"]),
    (["a", "b"], ("out", "edits"), [*(f"crates/{crate}/{it}" for crate in "ab" for it in OF_A)], "# Each crate.\na:\nb may_wait=4: a\n"),
)
# Paths of files, and what is said of those that nothing looks for, where the crates are a and b
PLACED = (
    ("edits in their places", ["crates/a/edits/x.edit", "crates/b/must-not-compile/x.edit", "tools/same_meaning/a/x.edit"], []),
    ("other files", ["crates/a/src/lib.rt", "crates/a/edits/README.md", "tools/counts.py"], []),
    ("another folder", ["crates/a/edit/x.edit", "crates/a/edit/y.edit"], ["crates/a/edit: 2 edits lie there, where nothing looks for any", ONLY_FOLDERS]),
    ("a folder below", ["crates/a/edits/more/x.edit"], ["crates/a/edits/more: 1 edits lie there, where nothing looks for any"]),
    ("the same meaning of no crate", ["tools/same_meaning/x.edit"], ["tools/same_meaning: 1 edits lie there, where nothing looks for any"]),
    ("a crate that isn't listed", ["crates/c/src/lib.rt"], ["crates/c: crates.txt doesn't have it"]),
    ("a folder of another name", ["crates/a/edit/README.md"], [ONLY_FOLDERS]),
)

# Edits by their paths, and what is said of those that are others once more
ALIKE = (
    ("each is another", {"crates/a/edits/x.edit": "1", "crates/a/edits/y.edit": "2"}, []),
    ("of two crates", {"crates/a/edits/x.edit": "1", "crates/b/edits/x.edit": "1"}, []),
    ("one once more", {"crates/a/edits/x.edit": "1", "crates/a/edits/y.edit": "1"}, ["crates/a/edits/y.edit: it has the bytes of x.edit"]),
)

# Texts of a crate that uses the library b, and whether one of them names it
NAMED = (
    ("a path", ["use std::vec::Vec;\nfn f() { b::g() }"], True),
    ("a use", ["use b;"], True),
    ("a macro's path", ["#[derive(b::Error)]"], True),
    ("a definition", ["fn f()\n    ensures { Rattle.b.specs.B.Is }\n{}"], True),
    ("a proof", ["fn f() {}", "use Rattle.b.proofs.f.Met\n"], True),
    ("another name", ["use bb::f;\nuse Rattle.bb.specs.B.{b}\n// b, and crate::ab::c\n"], False),
    ("nothing", [], False),
)

USE = "use Rattle.a.specs.own.Kept.{IsKept}\n"
# Files of crates, by their paths, and what is said of those that name another's own statements
OWNED = (
    ("a private statement", {"a/src/desk.rt": f"ghost {USE};", "a/proofs/X.antt": USE}, []),
    ("own ones among themselves", {"a/specs/own/Puts.antt": USE, "a/specs/own.antt": "pub mod Kept\n"}, []),
    ("an open definition", {"a/specs/Stands.antt": USE}, ["crates/a/specs/Stands.antt: names a's own Kept, of which no public contract speaks"]),
    ("another crate", {"b/proofs/X.antt": USE + USE}, ["crates/b/proofs/X.antt: names a's own Kept, of which no public contract speaks"]),
    ("a module of like name", {"b/src/x.rt": "ghost use Rattle.a.specs.owned.Kept.{IsKept};"}, []),
)

FIGURE = figures.Figure("README.md", "| edits | {} in {} crates |", lambda listed: figures.all_of(listed, "edits"))
WRONG = "README.md: '| edits | {} in {} crates |' has 1,006, 2, and not 6, 2"
# A page's text, what is wrong with its figure by TOLD, and the text once it is written anew
TOLD_FIGURES = (
    ("| edits | 6 in 2 crates |", None, "| edits | 6 in 2 crates |"),
    ("x\n| edits | 6\n  in 2 crates |\ny", None, "x\n| edits | 6\n  in 2 crates |\ny"),
    ("x | edits | 1,006 in 2 crates | 6", WRONG, "x | edits | 6 in 2 crates | 6"),
    ("nothing", "README.md: no places tell '| edits | {} in {} crates |', where one must", "nothing"),
)
UNTOLD = figures.Figure("README.md", "{} rows", figures.count_of("rows none"))

A, B = "a" * 64, "b" * 64
CHANGED = f"built by kit 2, and sums.txt written by kit 1; where code, kit or compiler have changed, `{sums.WRITE}` writes it anew"
# The sums of sums.txt, those of the programs that are made, and what is said of these
SUMMED = (
    ("the same", {"p": A}, {"p": A}, []),
    ("another program", {"p": A, "q": A}, {"p": B, "q": A}, [f"p: its sum is {B}, and {A} in sums.txt", CHANGED]),
    ("no program", {"p": A}, {"p": None}, ["p: there is no program", CHANGED]),
    ("no sum", {}, {"p": A}, [f"p: its sum is {A}, and none in sums.txt", CHANGED]),
    ("a program that is gone", {"p": A, "q": A}, {"p": A}, ["q: there is no program", CHANGED]),
)

# What is handed in to the gate's last step, and how many pass and fail by it
HANDED_IN = (
    ("2 passed, 0 failed", (2, 0)),
    ("2 passed, 1 failed", (2, 1)),
    ("crates: 2 passed, 0 failed, status 0", (2, 0)),
    ("crates: 1 passed, 1 failed, status 1", (1, 1)),
    ("crates: 1 passed, 0 failed, status 0", (1, 1)),
    ("edits: 6 passed, 0 failed, status 0", (6, 0)),
    ("edits: 6 passed, 0 failed, status 1", (6, 1)),
    ("edits: 5 passed, 0 failed, status 0", (5, 1)),
    ("edits: 0 passed, 0 failed, status 1", (0, 2)),
    ("tests: 3 passed, 0 failed, status 0", (3, 0)),
    ("tests: 2 passed, 0 failed, status 0", (2, 1)),
    ("edits: , status 0", (0, 1)),
    ("", (0, 1)),
    ("2 passed, 0 failed (a and the crates below alone: not the gate)", (0, 1)),
)


def compared_cases():
    for what, changes, lines, more in COMPARED:
        found = {name: count for name, count in {**TOLD, **changes}.items() if count is not None}
        yield f"counts: {what}", [*counts.differences(TOLD, found)], lines
        yield f"counts: {what}, raised", counts.raised(TOLD, found), {**TOLD, **more}
    yield "counts: as they are written", counts.parsed(counts.written(TOLD)), TOLD
    yield "counts: rows alone, and all others", [len(counts.of_kind(TOLD, it)) for it in (True, False)], [2, 4]


def source_cases():
    for what, texts, lines in MARKED:
        yield f"tests: {what}", [*counts.unmarked(texts)], lines
    for what, texts, lines in READ:
        yield f"files: {what}", [*counts.unread(texts)], lines
    for what, text, wanted in LISTED:
        yield f"listed: {what}", workspace.listed(text), wanted
    for names, left_out, paths, lines in COPIED:
        with tempfile.TemporaryDirectory() as at:
            for path, text in CHECKOUT.items():
                os.makedirs(os.path.dirname(f"{at}/from/{path}"), exist_ok=True)
                workspace.write(f"{at}/from/{path}", text)
            workspace.copy_crates(f"{at}/from", f"{at}/to", names, left_out)
            made = sorted(os.path.relpath(f"{folder}/{it}", f"{at}/to") for folder, _, files in os.walk(f"{at}/to") for it in files)
            found = made, workspace.text_of(f"{at}/to/crates.txt"), os.path.isdir(f"{at}/to/.git")
            yield f"a copy of {names or 'all'}", found, (["HANDLES", *sorted(["crates.txt", *paths])], lines, True)
    for what, paths, lines in PLACED:
        yield f"places: {what}", [*workspace.out_of_place(paths, ["a", "b"])], lines
    for what, texts, lines in ALIKE:
        yield f"alike: {what}", [*counts.alike(texts)], lines
    for what, texts, wanted in SHARED:
        yield f"alike lines: {what}", [*alike_lines.pairs(texts)], wanted
    for what, texts, is_named in NAMED:
        yield f"named: {what}", [*counts.unnamed(["b"], texts)], [] if is_named else ["crates.txt gives it b, which it names nowhere"]
    for what, texts, lines in OWNED:
        yield f"own: {what}", [*counts.misused(texts)], lines


def figure_cases():
    for text, fault, put in TOLD_FIGURES:
        yield f"figures: {text!r}", (FIGURE.fault(text, TOLD), FIGURE.put(text, TOLD)), (fault, put)
    found = UNTOLD.fault("5 rows", TOLD), UNTOLD.put("5 rows", TOLD)
    yield "figures: one that no count tells", found, ("README.md: no count tells '{} rows'", "5 rows")


def sum_cases():
    for what, listed, made, lines in SUMMED:
        yield f"sums: {what}", sums.differences(listed, "kit 1", made, "kit 2"), lines
    yield "sums: as they are written", sums.parsed(sums.written({"p": A, "q": B}, "kit 1")), ({"p": A, "q": B}, "kit 1")


def broken_tool(program):
    yield "a row", program, "p"
    raise ValueError("broken")


def tally_cases():
    for word, ends in HANDED_IN:
        tally = program_ends.Tally()
        with contextlib.redirect_stdout(io.StringIO()):
            tally.take(word, TOLD)
        yield f"handed in: {word!r}", (tally.passed, tally.failed), ends
    with contextlib.redirect_stderr(io.StringIO()):
        found = [(it.is_good(), it.count) for it in program_ends.cases_of(broken_tool, "p")]
    yield "a tool that breaks off", found, [(True, 1), (False, 0)]
    with contextlib.redirect_stdout(io.StringIO()):
        ends = rows.report([]), rows.report([("a row", 1, 1)]), rows.report([("a row", 1, 2)])
    yield "a tool that is run by hand: none, one that is good, one that isn't", ends, (1, 0, 1)


def cases():
    for some in (compared_cases, source_cases, figure_cases, sum_cases, tally_cases):
        yield from some()


if __name__ == "__main__":
    sys.exit(rows.report(cases()))

#!/usr/bin/env python3
"""Compares how many crates, tests, edits and rows there are with counts.txt, so that none goes without a word.

    tools/counts.py [--raise]

counts.txt has a line for each kind of them: its name, and how many there are. What can be counted without a proof is compared before any
proof, by this tool, and the rows that programs are run with at the gate's end, by tools/program_ends.py. A count that is lower fails, as
something is missing, and so does one that is higher, as it could go again without a word.

With --raise each count that is higher or new is put into counts.txt, the rows as the last gate found them (out/rows), and the figures in
the pages are written anew. It lowers none: what is taken away with intent is taken out of counts.txt by hand.

Among the counts are the pairs of places in the crates that share six or more lines (tools/alike_lines.py).

Beside the counts it fails where a test, an edit or a crate stands where nothing looks for it, where an edit is another one once more, where
something names what another crate says for itself alone (specs/own/), and where a page tells another figure than counts.txt
(tools/figures.py).
"""
import contextlib
import importlib
import io
import os
import re
import sys

import alike_lines
import figures
from rows import report_faults
from workspace import EDITS, NO_COMPILE, SAME_MEANING, TOP, crates, out_of_place, places, text_of

COUNTS = os.path.join(TOP, "counts.txt")
# The rows that the last gate found
FOUND_ROWS = os.path.join(TOP, "out", "rows")
ROWS = "rows"
RAISE = "tools/counts.py --raise"
HEAD = f"# What the gate must find, neither more nor less. `{RAISE}` puts higher counts here, and lowers none.\n"

# Lists of worked rows, and numbers of cases that are made in a loop
LISTS = (
    *(f"{module}.{name}" for module in ("session_rows", "encoding_rows", "text_rows") for name in ("SESSIONS", "REPLIES")),
    *("session_rows.FRAMES", "session_rows.STREAMS", "command_rows.EXAMPLES", "command_rows.CHECKS", "failing_devices.WORKED"),
    *("findings_rows.ROWS", "findings_rows.RULE_ROWS", "findings_rows.DRAFT_ROWS", "findings_rows.XML_ROWS", "install_rows.ROWS"),
    *("findings_rows.WITH_ROWS", "findings_rows.TOLD_ROWS", "findings_rows.GRAMMAR_ROWS", "published_rows.ROWS"),
    "typed_edits.KINDS",
)
NUMBERS = (
    *("broken_input.COUNT", "refused_sessions.FIRST", "refused_sessions.SAMPLE", "refused_threads.THREADS", "shaken_threads.COUNT"),
    *(f"random_texts.COUNTS.{encoding}" for encoding in ("utf-8", "utf-16", "utf-32")),
    *("replayed_typing.EDITS", "random_drafts.COUNT", "published_rows.COUNT", "edited_texts.TEXTS", "edited_texts.EDITS"),
)
# The same of tests in crates: the file, and how the number stands there
LOOPS = {
    "worked_sessions.random.SESSIONS": ("crates/worked_sessions/src/random/replies.rt", r"(?m)^const SESSIONS: u64 = ([0-9_]+);"),
    "worked_sessions.random.MESSAGES": ("crates/worked_sessions/src/random/replies.rt", r"(?m)^const MESSAGES: usize = ([0-9_]+);"),
    "worked_grammars.random": ("crates/worked_grammars/src/random.rt", r"(?m)^    for _ in 0\.\.([0-9_]+) \{"),
}
# The tools of rows that try the gate's own tools
OWN_ROWS = ("source_rows", "reference_rows", "comments_rows", "verdict_rows", "counts_rows", "documents_rows", "stage_rows")
TEST = re.compile(r"(?m)^ *#\[test\]")
# A function as tests are, with the attributes above it
LIKE_A_TEST = re.compile(r"(?m)^((?: *#\[.*\]\n)*) *(?:pub(?:\(\w+\))? )?fn (\w+)\(\w+: HostRuntime\)")
ROOTS = ("lib.rt", "main.rt", "mod.rt")
# Where a module of specs/ is named
SAID_IN = (".rt", ".antt")
# A module of what a crate says for itself alone
OWN = re.compile(r"Rattle\.(\w+)\.specs\.own\.(\w+)")


def parsed(text):
    """The counts that a text has, by their names."""
    lines = [line.rpartition(" ") for line in text.splitlines() if line and not line.startswith("#")]
    return {name: int(count) for name, _, count in lines}


def written(counts):
    """The text that has these counts: each kind by itself."""
    kinds = {}
    for name, count in counts.items():
        kinds.setdefault(name.partition(" ")[0], []).append(f"{name} {count}\n")
    return "\n".join([HEAD, *map("".join, kinds.values())])


def differences(listed, found):
    """A line for each count that isn't as listed."""
    for name in dict.fromkeys([*listed, *found]):
        count, wanted = found.get(name, 0), listed.get(name, 0)
        if count < wanted:
            yield f"{name}: {count or 'none'}, and {wanted} in counts.txt: {wanted - count} missing"
        elif count > wanted:
            yield f"{name}: {count}, and {wanted or 'none'} in counts.txt: `{RAISE}` puts it there"


def raised(listed, found):
    """The counts as listed, with those put in that are higher or new."""
    return {name: max(listed.get(name, 0), found.get(name, 0)) for name in dict.fromkeys([*found, *listed]) if name in listed or found[name]}


def of_kind(counts, is_row):
    """The rows alone, or all but these."""
    return {name: count for name, count in counts.items() if (name.partition(" ")[0] == ROWS) == is_row}


def files_in(*path, end=".edit"):
    folder = os.path.join(TOP, *path)
    return sum(it.endswith(end) for it in os.listdir(folder)) if os.path.isdir(folder) else 0


def sources(crate):
    """The files of a crate's code, by their paths from its src/."""
    src = os.path.join(TOP, "crates", crate, "src")
    paths = (os.path.join(at, name) for at, _, names in os.walk(src) for name in names)
    return {os.path.relpath(path, src): text_of(path) for path in sorted(paths)}


def number_at(name):
    """The number or the length of the list that a tool of this module has by this name, which may be one of a table there; 0 of none."""
    module, *names = name.split(".")
    value = importlib.import_module(module)
    for it in names:
        value = value.get(it, 0) if isinstance(value, dict) else getattr(value, it, 0)
    return value if isinstance(value, int) else len(value)


def number_in(path, form):
    """The number that stands once in a file in this form; 0 where none does."""
    path = os.path.join(TOP, path)
    found = re.findall(form, text_of(path)) if os.path.exists(path) else []
    return int(found[0].replace("_", "")) if len(found) == 1 else 0


def rows_of(name):
    """How many rows a tool of this module has."""
    with contextlib.redirect_stdout(io.StringIO()), contextlib.redirect_stderr(io.StringIO()):
        return sum(1 for _ in importlib.import_module(name).cases())


def of_sources():
    """What can be counted without a proof."""
    names = crates()
    counts = {"crates": len(names)}
    counts.update({f"tests {it}": sum(len(TEST.findall(text)) for text in sources(it).values()) for it in names})
    for kind in (EDITS, NO_COMPILE):
        counts.update({f"{kind} {it}": files_in("crates", it, kind) for it in names})
    counts["same-meaning"] = sum(files_in(SAME_MEANING, it) for it in names)
    counts["examples"] = files_in("examples", end=".abnf")
    counts["known-examples"] = files_in("examples", "known", end=".abnf")
    counts.update({f"alike-lines {kind}": count for kind, count in alike_lines.found().items()})
    counts.update({f"own-rows {it}": rows_of(it) for it in OWN_ROWS})
    counts.update({f"list {it}": number_at(it) for it in LISTS})
    counts.update({f"cases {it}": number_at(it) for it in NUMBERS})
    counts.update({f"cases {name}": number_in(path, form) for name, (path, form) in LOOPS.items()})
    return {name: count for name, count in counts.items() if count}


def unmarked(texts):
    """The functions that look like tests and aren't, in the files of a crate that has tests, by their paths."""
    if any(map(TEST.search, texts.values())):
        for path, text in texts.items():
            for attributes, name in LIKE_A_TEST.findall(text):
                if "#[test]" not in attributes:
                    yield f"{path}: the function {name} looks like a test, and has no #[test]"


def unread(texts):
    """The files of a crate, by their paths, that no other one names as a module: what stands in them is no part of it."""
    for path in texts:
        folder, name = os.path.split(path)
        module = os.path.basename(folder) if name == "mod.rt" else name[: -len(".rt")]
        around = os.path.dirname(folder) if name == "mod.rt" else folder
        parents = [os.path.join(around, it) for it in ROOTS] + ([f"{around}.rt"] if around else [])
        named = re.compile(rf"(?m)^(?:pub(?:\(\w+\))? )?mod {re.escape(module)};")
        if path not in ROOTS and not any(named.search(texts.get(it, "")) for it in parents):
            yield f"{path}: no file has it as a module, so nothing reads it"


def alike(texts):
    """The edits among these files, by their paths, that have the bytes of another one of their crate: both count, and show one thing."""
    first = {}
    for path, text in texts.items():
        kept = first.setdefault((os.path.dirname(path), text), path)
        if kept != path:
            yield f"{path}: it has the bytes of {os.path.basename(kept)}"


def unnamed(libraries, texts):
    """The libraries of a crate's line in crates.txt that none of its sources, specs and proofs names."""
    text = "\n".join(texts)
    for it in libraries:
        if not re.search(rf"\b{it}::|\bRattle\.{it}\.|\buse {it}\b", text):
            yield f"crates.txt gives it {it}, which it names nowhere"


def misused(texts):
    """The files, by their paths in crates/, that name a module of a crate's specs/own/ where only that crate's private statements may."""
    for path, text in texts.items():
        crate, folder, _ = path.split("/", 2)
        # (a definition that others may cite stands on no own one)
        is_open = folder == "specs" and not path.startswith((f"{crate}/specs/own.", f"{crate}/specs/own/"))
        for owner, name in dict.fromkeys(OWN.findall(text)):
            if owner != crate or is_open:
                yield f"crates/{path}: names {owner}'s own {name}, of which no public contract speaks"


def keep_rows(found):
    """Keeps how many rows a gate has found, for --raise."""
    os.makedirs(os.path.dirname(FOUND_ROWS), exist_ok=True)
    with open(FOUND_ROWS, "w", encoding="utf-8") as file:
        file.writelines(f"{name} {count}\n" for name, count in found.items())


def faults(listed):
    """All that isn't as counts.txt tells, or that stands where nothing looks for it."""
    yield from differences(of_kind(listed, False), of_sources())
    names, paths = crates(), [*places()]
    yield from out_of_place(paths, names)
    yield from alike({it: text_of(os.path.join(TOP, it)) for it in paths if it.endswith(".edit")})
    said = {it: text_of(os.path.join(TOP, it)) for it in paths if it.startswith("crates/") and it.endswith(SAID_IN)}
    yield from misused({it[len("crates/") :]: text for it, text in said.items()})
    for crate, libraries in crates().items():
        own = [text for path, text in said.items() if path.startswith(f"crates/{crate}/")]
        yield from (f"crates/{crate}: {it}" for it in unnamed(libraries, own))
    for crate in names:
        texts = sources(crate)
        yield from (f"crates/{crate}/src/{it}" for some in (unmarked, unread) for it in some(texts))
    yield from figures.faults(listed)


def raise_all(listed):
    """Puts the counts that are higher or new into counts.txt, and the figures into the pages."""
    found = {**of_sources(), **(parsed(text_of(FOUND_ROWS)) if os.path.exists(FOUND_ROWS) else {})}
    counts = raised(listed, found)
    with open(COUNTS, "w", encoding="utf-8") as file:
        file.write(written(counts))
    figures.write(counts)
    for name in counts:
        if counts[name] != listed.get(name):
            print(f"{name}: {listed.get(name, 'none')} before, {counts[name]} now")
    return counts


def main(words):
    listed = parsed(text_of(COUNTS)) if os.path.exists(COUNTS) else {}
    if words == ["--raise"]:
        listed = raise_all(listed)
    elif words:
        sys.exit("usage: tools/counts.py [--raise]")
    return report_faults("counts", faults(listed), "as counts.txt has them")


if __name__ == "__main__":
    sys.exit(main(sys.argv[1:]))

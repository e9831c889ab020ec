#!/usr/bin/env python3
"""Tries the edits crates/NAME/must-not-compile/*.edit: each must be refused with the error that it names.

They are edits that the borrow checker refuses before anything is proved, which `rt ci` doesn't take. Each is read as those of
tools/refused_edits.py are, and has a line 'error: CODE' beside. It is applied to a copy of its crate, over libraries that stand as the
edits' tool has them: from the store of `rt`, or built in this checkout. So no library is proved for it where `rt ci` has passed.
"""
import os
import sys
import tempfile

from edits import checks, copies
from edits.files import BAD_NAME, edits_in, read
from edits.kit import DOES_KEEP, RTLIB, crates_of
from edits.libraries import Gate, Libraries
from edits.store import NoStore, Store
from edits.verdict import STALE, TIMED_OUT, TOO_LONG
from workspace import NO_COMPILE, TOP, copy_crates, write

NOTHING_PROVED = ("--only", "")
# How a check ends that has found an error.
IS_WRONG = 1


def verdict(ended, error):
    """Whether a check that ended so shows that an edit is refused with this error, and what to say of it."""
    if ended.returncode == TIMED_OUT:
        return False, f"NOT TRIED: {TOO_LONG}"
    if RTLIB.STALE.search(ended.stdout):
        return False, f"NOT TRIED: {STALE}"
    if ended.returncode != IS_WRONG:
        return False, f"NOT refused as it names: its check ended with status {ended.returncode}"
    is_refused = f"error[{error}]" in ended.stdout
    return is_refused, "refused, as it must be" if is_refused else "NOT refused as it names"


def tried(crate, path):
    """Whether an edit is refused with the error that it names, and what to say of it."""
    texts, others, why = read(path, crate.folder, ("file", "old", "new", "error"))
    if why or len(others["error"]) != 1:
        return False, f"BAD EDIT: {why or 'it wants one line error:'}"
    with copies.room() as folder:
        copies.copied(crate.folder, folder)
        for name, text in texts.items():
            write(f"{folder}/{name}", text)
        ended = checks.run(crate, folder, NOTHING_PROVED)
    return verdict(ended, others["error"][0])


def results_in(folder):
    """What each edit comes to, on a copy of the crates in this folder."""
    copy_crates(TOP, folder)
    crates, results = crates_of(folder), {}
    found = {it: edits_in(f"{it.folder}/{NO_COMPILE}") for it in crates}
    needed = {below for it, (good, _) in found.items() if good for below in it.below()}
    libraries = Libraries(TOP, Store(crates) if DOES_KEEP else NoStore(), Gate(None))
    lost = {it for it, is_there in libraries.arriving([it for it in crates if it in needed]) if not is_there}
    for crate, (good, bad) in found.items():
        results.update({f"{crate.name}/{it}": (False, BAD_NAME) for it in bad})
        for it in good:
            is_whole = lost.isdisjoint(crate.below())
            why = False, "NOT TRIED: a library below its crate isn't proved"
            results[f"{crate.name}/{it}"] = tried(crate, f"{crate.folder}/{NO_COMPILE}/{it}") if is_whole else why
    return results


def main():
    # (its first call starts a process that ends all checks with this one)
    checks.RTLIB.guarded()
    with tempfile.TemporaryDirectory(prefix=f"rt-edits-{os.getpid()}-") as at:
        results = results_in(f"{at}/repository")
    for name, (_, text) in results.items():
        print(f"must-not-compile {name}: {text}")
    if not results:
        print("must-not-compile: there are no edits")
    return 0 if results and all(is_well for is_well, _ in results.values()) else 1


if __name__ == "__main__":
    sys.exit(main())

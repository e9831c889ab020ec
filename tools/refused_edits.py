#!/usr/bin/env python3
"""Tries the edits crates/NAME/edits/*.edit, many of a crate in one check: the prover must refuse each.

    tools/refused_edits.py [--fit | --unedited | --alone] [--jobs N] [--beside FILE] [--kept] [--log FOLDER] [CRATE ..] [CRATE/NAME.edit ..]

An edit has the form of a must-fail edit of `rt`: a line 'file: PATH', then pairs of lines 'old: TEXT' and 'new: TEXT'. A line
'checked: FUNCTION' may say in whose proof it must be refused, if it changes something else than bodies. Any other line is an error.

Edits that change bodies of functions alone are tried together on one copy of the crate: a function is proved against the contracts of what
it calls, and no such edit changes one. Each is made in a twin of its function, which is the function once more by another name. Of these
functions those whose turn it is, each on one day in thirty, or else the next, and each whose answers name the proof of another one, must be
proved in that very copy as they stand. All others are left out, with a body that never returns and a hole in place of a proof, but for one
that stays whole as a witness. Where a function can have no twin, as in an impl of a trait, the edit comes on a further copy, and the
function stands whole in the first. An edit of anything else (a definition, a contract) comes on a copy by itself, of which the functions
that it names are checked in the same way, and stand whole in the first copy too; or all are checked.

An edit of bodies is refused where a function that it changes has a goal of its own that isn't proved. That what it calls isn't proved is no
such goal, nor is a proof file that names what is gone. Any other edit is refused where something isn't proved. A copy counts only if its
check ended by itself, all of it was read, and nothing fails in it that isn't edited or named; else its edits are halved and tried again.
What no copy shows to be refused is tried alone and from nothing, as `rt must-fail` does, and has that verdict. A check that takes too long
is killed, and its edits have no verdict.

Without names all edits are tried, and with them this tool: the edits in tools/same_meaning/CRATE/, which mean the same as before, stand in
the copies of that crate among its own, and must be found not refused; and one of them, of a definition, also alone and from nothing. Some
are of a method whose proof has answers, and of a function whose proof has invariants, so that the twins of such are tried too.

Before any proof it looks whether each edit can be made, since its words must stand once in the code, and tries none where one can't. With
--fit that is all it does. With --unedited the copies are checked with no edit made, and all of them must be proved.

All this is done on a copy of the crates in a temporary folder, with its own libraries. With --beside it works beside an `rt ci` in this
checkout, which runs as long as FILE is there, and writes to it: the edits of a crate are tried once the libraries below it are proved. With
--kept the first check of a crate begins with what `rt check` kept of it, and not from nothing. With --alone each edit is tried by
`rt must-fail` itself.

What an edit came to is kept as `rt ci` keeps such, outside the checkout, by a sum over these tools, the edit, whether it must be refused,
the crate and the libraries below it, and isn't sought again; but nothing is kept with --kept, or where the kit's `rt` keeps nothing. The
last line is 'N passed, M failed'. An edit that is refused only as a proof file names what the edit took away shows little of a contract,
and counts as one that isn't refused.
"""
import argparse
import concurrent.futures
import contextlib
import os
import queue
import shutil
import signal
import sys
import tempfile
import time
import traceback

from edits import checks
from edits.files import BAD_NAME, edits_in
from edits.kit import DOES_KEEP, RT, RTLIB, crates_of
from edits.libraries import Gate, Libraries
from edits.store import NoStore, Store
from edits.trial import KINDS, Trial
from edits.verdict import is_at_a_bound
from workspace import SAME_MEANING, TOP, copy_crates, out_of_place, places

SAME = f"{TOP}/{SAME_MEANING}"


@contextlib.contextmanager
def own_folder():
    """The folder of all that this run makes, which is removed however the run ends."""
    if DOES_KEEP:
        RT.sweep()
    at = tempfile.tempdir = tempfile.mkdtemp(prefix=f"rt-edits-{os.getpid()}-")

    def end(number, _):
        checks.PROCESSES.kill_all()
        shutil.rmtree(at, ignore_errors=True)
        os._exit(128 + number)

    for it in (signal.SIGHUP, signal.SIGINT, signal.SIGTERM):
        signal.signal(it, end)
    try:
        yield at
    finally:
        tempfile.tempdir = None
        shutil.rmtree(at, ignore_errors=True)


def alone(names):
    """Tries edits by `rt must-fail` itself, which looks for them in another folder."""

    def of_crate(crate):
        good, bad = edits_in(f"{crate.folder}/edits")
        return [f"{crate.folder}/edits/{it}" for it in good], [f"{crate.folder}/edits/{it}" for it in bad]

    RT.edits_of = of_crate
    if not DOES_KEEP:
        return RT.edits_alone(names)
    RT.share_work(False)
    return RT.where_disk_lasts(RT.edits_alone, names)


def same_meaning(folder):
    """The folders of edits that mean the same, by the crates that they are of."""
    return {it: f"{folder}/{it}" for it in sorted(os.listdir(folder)) if os.path.isdir(f"{folder}/{it}")}


def untested(trials, folder):
    """Why this tool wouldn't be tried with the edits of the folders in this one, which mean the same, or None."""
    same = [f"{crate}/{it}" for crate, at in same_meaning(folder).items() for it in edits_in(at)[0]]
    among = [(trial, edit) for trial in trials for edit in trial.edits if edit.is_same]
    if len(same) != len(among):
        return f"this tool isn't tried: of the {len(same)} edits of tools/same_meaning {len(among)} stand among those of their crates"
    lacking = {*KINDS}.difference(*(trial.kinds(edit) for trial, edit in among))
    return f"this tool isn't tried: tools/same_meaning wants an edit of {sorted(lacking)[0]}" if lacking else None


def unread(trials, crates, names):
    """What is said of all that no trial would read: folders, names that fit nothing, a self-test that would try nothing."""
    said = [*out_of_place(places(TOP), [it.name for it in crates])]
    bad = {crate: edits_in(at)[1] for crate, at in same_meaning(SAME).items()}
    said += [f"tools/same_meaning/{crate}/{it}: {BAD_NAME}" for crate, found in bad.items() for it in found]
    why = None if names else untested(trials, SAME)
    said += [why] if why else []
    known = {it.crate.name for it in trials if it.edits} | {f"{it.crate.name}/{edit.name}" for it in trials for edit in it.edits}
    said += [f"{it}: there is no such edit, and no crate of this name that has edits" for it in names if it not in known]
    return said if any(it.edits for it in trials) else [*said, "there are no edits"]


def tried(trials, crates, given, libraries):
    """Tries the edits of each crate, of those whose libraries are there the longest first, and gives what each came to."""
    results, running, there, ready = [], [], set(), queue.PriorityQueue()
    needed = {below for trial in trials for below in trial.crate.below()}

    def run_longest():
        trial = ready.get()[-1]
        try:
            return trial, trial.run()
        except Exception:  # noqa: BLE001 (whatever it is, the other crates' edits are tried)
            trial.not_tried(trial.edits, "this tool failed")
            return trial, [traceback.format_exc(), *trial.lines()]

    with concurrent.futures.ThreadPoolExecutor(given.jobs) as pool:

        def begin():
            for trial in [it for it in trials if there >= {*it.crate.below()}]:
                trials.remove(trial)
                ready.put((-trial.length(), trial.crate.name, trial))
                running.append(pool.submit(run_longest))

        begin()
        for crate, is_there in libraries.arriving([it for it in crates if it in needed]):
            if is_there:
                there.add(crate)
                begin()
            for trial in [it for it in trials if not is_there and crate in it.crate.below()]:
                trials.remove(trial)
                trial.not_tried(trial.edits, f"its library {crate.name} isn't proved")
                print("\n".join(trial.lines()), flush=True)
                results += trial.results.values()
        for it in concurrent.futures.as_completed(running):
            trial, said = it.result()
            print("\n".join(said), flush=True)
            results += trial.results.values()
    return results


def parsed():
    parser = argparse.ArgumentParser(usage=__doc__.split("\n\n")[1].strip())
    for it in ("--fit", "--unedited", "--alone", "--kept"):
        parser.add_argument(it, action="store_true")
    parser.add_argument("--jobs", type=int, default=len(os.sched_getaffinity(0)))
    for it in ("--beside", "--log"):
        parser.add_argument(it)
    parser.add_argument("names", nargs="*")
    return parser.parse_args(namespace=argparse.Namespace(top=TOP))


def run(given, folder):
    """Tries the edits on a copy of the crates in this folder."""
    began = time.time()
    copy_crates(TOP, folder)
    crates = crates_of(folder)
    store = Store(crates) if DOES_KEEP else NoStore()
    same = same_meaning(SAME) if not given.names else {}
    trials = [Trial(it, given, store, same.get(it.name)) for it in crates]
    unfit = [*unread(trials, crates, given.names), *(line for it in trials for line in it.unfit())]
    edits = sum(len(it.edits) for it in trials)
    if unfit or given.fit:
        print("\n".join([*unfit, f"{edits} edits, and {len(unfit)} errors in them or in what stands beside them"]))
        if not given.fit:
            print(f"0 passed, {len(unfit)} failed")
        return 1 if unfit else 0
    trials = [it for it in trials if it.edits]
    results = tried(trials, crates, given, Libraries(TOP, store, Gate(given.beside)))
    failed = sum(not is_well for is_well, _ in results)
    at_a_bound = sum(is_well and is_at_a_bound(text) for is_well, text in results)
    print(f"{at_a_bound} of the edits are refused only as a search broke off at its bound, or by a limit of the prover")
    print(f"{(time.time() - began) / 60:.1f} minutes")
    print(f"{len(results) - failed} passed, {failed} failed")
    return 1 if failed or not results else 0


def main():
    given = parsed()
    os.chdir(TOP)
    if given.alone:
        return alone(given.names)
    if given.log:
        given.log = os.path.abspath(given.log)
        os.makedirs(given.log, exist_ok=True)
    # (its first call starts a process that ends all checks with this one, and sets a signal's handler, which only the main thread may)
    RTLIB.guarded()
    with own_folder() as folder:
        return run(given, f"{folder}/repository")


if __name__ == "__main__":
    sys.exit(main())

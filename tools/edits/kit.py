"""All that is taken of the toolchain's own `rt`.

The crates of a checkout, the texts that an edit makes of a crate's files, the try of one edit from nothing, and, where it has one, the
store of what earlier runs passed.
"""
import functools
import importlib.machinery
import importlib.util
import os
import shutil
import sys
import threading

PARTS = ("src", "specs", "proofs")


def loaded():
    found = shutil.which("rt") or sys.exit("there is no command rt")
    sys.dont_write_bytecode = True
    loader = importlib.machinery.SourceFileLoader("rt", os.path.realpath(found))
    made = importlib.util.module_from_spec(importlib.util.spec_from_loader("rt", loader))
    loader.exec_module(made)
    return made


def once_a_call(stamp):
    """The same sum of a crate and of all below it, with one reading of each crate for all the ways that lead down to it."""
    local = threading.local()

    @functools.wraps(stamp)
    def made(crate):
        if getattr(local, "sums", None) is not None:
            if crate.name not in local.sums:
                local.sums[crate.name] = stamp(crate)
            return local.sums[crate.name]
        # (only while one sum is made, since sums tell whether a file has changed)
        local.sums = {}
        try:
            return stamp(crate)
        finally:
            local.sums = None

    return made


RT = loaded()
RTLIB = RT.rtlib
if hasattr(RTLIB.Crate, "stamp"):
    RTLIB.Crate.stamp = once_a_call(RTLIB.Crate.stamp)
DOES_KEEP = hasattr(RT, "Kept")

# What a try of one edit from nothing comes to, in the words of `rt`. The prover refuses it, by itself or by a limit of its own; the crate
# is still proved; and for all else there is no verdict.
REFUSED, AT_LIMIT, MISSED, UNSURE = "refused", "limit", "missed", "unsure"
IS_REFUSED = (REFUSED, AT_LIMIT)


def crates_of(top):
    """The crates of a checkout, lowest first."""
    # (the sums by which `rt ci` keeps what it proved rest on the handles too)
    RT.Crate.allowed = RT.handles_of(top)
    if DOES_KEEP:
        return RT.crates_of(top)
    RTLIB.Crate = RT.Crate
    return sorted(RTLIB.crates_below(top), key=lambda it: len(it.below()))


def alone(crate, file):
    """Tries an edit alone and from nothing, as `rt must-fail` does: what it comes to, and what is said of it."""
    kind, text = RT.must_fail(crate, file, ["--jobs", "1"])
    if not DOES_KEEP:
        # (an older one gives whether it was refused)
        kind = REFUSED if kind else MISSED if "NOT REFUSED" in text else UNSURE
    return kind, text.partition(": ")[2]

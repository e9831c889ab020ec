#!/usr/bin/env python3
"""Tells which modules of a crate took long in its last whole check, by the times at which the check kept them.

    rm -rf crates/CRATE/out/incremental; (cd crates/CRATE; rt check --jobs 1); tools/slow_modules.py CRATE [COUNT]

A module is named by its function and by what it holds of it: `Lts` the steps of its code with all values that are alive in them,
`Answers` and `Proof` its goals. Other names are files of `specs/` and `proofs/`. Seconds pass between one kept file and the next, so they count
all that the machine did; with more than one job they tell little.
"""
import os
import sys

from workspace import TOP


def kept(crate):
    """When each module was kept, and its name."""
    for folder, _, names in os.walk(os.path.join(TOP, "crates", crate, "out", "incremental")):
        for name in names:
            if name.endswith(".oantt"):
                yield os.path.getmtime(os.path.join(folder, name)), name.removesuffix(".oantt").removesuffix(".decls")


def main(crate, count="15"):
    times = sorted(kept(crate))
    waits = [(at - before, name) for (before, _), (at, name) in zip(times, times[1:])]
    for seconds, name in sorted(waits, reverse=True)[: int(count)]:
        print(f"{seconds:7.1f} s  {name}")


if __name__ == "__main__":
    main(*sys.argv[1:])

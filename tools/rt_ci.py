#!/usr/bin/env python3
"""Runs `rt ci` at the top of a repository, in the current folder, and makes its sums of crates at once.

    tools/rt_ci.py

Before `rt` builds a crate, and again behind that, it makes a sum of the crate and of all below it. Some kits read a crate anew for each way
that leads down to it: 42,505 ways lead down from ls_threads. The sums up to ls_workers took some 30 minutes of one processor, and the largest
were to come. Here each crate is read once for a sum (once_a_call in edits/kit.py). The sums are the same, and all else is `rt ci` itself.
"""
import sys

from edits.kit import RT

if __name__ == "__main__":
    sys.exit(RT.main(["ci"]))

#!/usr/bin/env python3
"""Looks whether each .rt and .antt file of the crates is in the toolchain's layout, in seconds.

    tools/layout.py

`rt ci` does so too, but of each crate only once its turn comes.
"""
import subprocess
import sys

from edits.kit import RTLIB
from workspace import TOP, places

ENDINGS = (".rt", ".antt")


def main(top=TOP):
    files = [it for it in places(top) if it.endswith(ENDINGS)]
    if not files:
        print("layout: there is no file to look at")
        return 1
    how = {"stdout": subprocess.PIPE, "stderr": subprocess.STDOUT, "text": True, "check": False}
    ran = subprocess.run([RTLIB.RATTLE, "fmt", "--check", *files], cwd=top, stdin=subprocess.DEVNULL, **how)
    print(ran.stdout, end="")
    print(f"layout: {len(files)} files are in it" if ran.returncode == 0 else "layout: `rt fmt` in a crate's folder lays its files out")
    return ran.returncode


if __name__ == "__main__":
    sys.exit(main())

#!/usr/bin/env python3
"""Sees that what is typed costs in proportion to the text, in each form of text that might be dear.

    tools/grown_edits.py [PROGRAM]

PROGRAM is that of the crate served_plainly. The forms are those of bench/forms.py, and bench/growth.py counts the instructions of an edit in two
texts of each, one four times as long as the other: some hundreds of rules, or thousands of lines. It has a bound for how often the one goes into
the other. A keystroke that reads more than it must at each size is within the bound: kept_rows.py shows that kept state is used at all.
"""
import os
import re
import subprocess
import sys

import rows
from workspace import TOP

TOOL = os.path.join(TOP, "bench", "growth.py")
SHARE = 100
# Growth is printed at the end of a line: how often what the smaller text takes goes into what the larger one takes.
FORM = re.compile(r"(?m)^(\S.*\S) +[\d.]+ +[\d.]+ \( *[\d.]+\)$")
BEYOND = "beyond a bound: "


def cases(program):
    """Of each form that it is measured, and at last that none is beyond its bound."""
    ran = subprocess.run([sys.executable, TOOL, "--instructions", f"--share={SHARE}", program], capture_output=True, text=True, check=False)
    beyond = dict(line.removeprefix(BEYOND).split(": ", 1) for line in ran.stdout.splitlines() if line.startswith(BEYOND))
    for form in FORM.findall(ran.stdout):
        yield f"the growth of {form}", beyond.pop(form, "in proportion"), "in proportion"
    yield "the growth of all forms", (ran.returncode, beyond, ran.stderr), (0, {}, "")


def main():
    (program,), _ = rows.programs_of(sys.argv[1:], rows.PLAIN)
    return rows.report(cases(program))


if __name__ == "__main__":
    sys.exit(main())

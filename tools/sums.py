#!/usr/bin/env python3
"""Compares the programs, as they are built, with the sums in sums.txt.

    tools/sums.py [--write]

With one kit the same sources make the same bytes wherever they lie. So whoever is given a program by somebody else can see whether it is
the one whose crates are proved here: sums.txt has the SHA-256 sum of each, in the form of `sha256sum`. A sum changes with the code of the
crates and with the kit, whose compiler and libraries make the program. --write puts the sums of the programs that are built into
sums.txt, and leaves that of one that isn't as it is. The last line is 'N passed, M failed'.
"""
import os
import subprocess
import sys

from rows import FINDINGS, SERVER
from workspace import TOP, sum_of

SUMS = os.path.join(TOP, "sums.txt")
PROGRAMS = (SERVER, FINDINGS)
WRITE = "tools/sums.py --write"
BY = "# By "


def kit():
    """The kit's name, and that of its logic."""
    return subprocess.run(["rt", "version"], stdout=subprocess.PIPE, text=True, check=True).stdout.strip()


def parsed(text):
    """The sums of a text by the programs' names, and the kit by which they were built."""
    lines = text.splitlines()
    sums = dict(reversed(line.split(maxsplit=1)) for line in lines if line and not line.startswith("#"))
    return sums, next((line[len(BY) :] for line in lines if line.startswith(BY)), "no kit")


def written(sums, by):
    """The text that has these sums. What stands behind # is passed over by `sha256sum --check`."""
    return f"{BY}{by}\n" + "".join(f"{total}  {name}\n" for name, total in sums.items())


def difference(name, listed, made):
    """What is wrong with the sum of a program as it was made; None where nothing is."""
    if made == listed:
        return None
    if made is None:
        return f"{name}: there is no program"
    return f"{name}: its sum is {made}, and {listed or 'none'} in sums.txt"


def differences(listed, by, made, now_by):
    """A line for each sum that isn't as listed; the last line is what to do."""
    found = [line for name in dict.fromkeys([*listed, *made]) if (line := difference(name, listed.get(name), made.get(name)))]
    if found:
        found.append(f"built by {now_by}, and sums.txt written by {by}; where code, kit or compiler have changed, `{WRITE}` writes it anew")
    return found


def main(words):
    made = {os.path.basename(path): sum_of(path) for path in PROGRAMS}
    listed, by = {}, "no kit"
    if os.path.exists(SUMS):
        with open(SUMS, encoding="utf-8") as file:
            listed, by = parsed(file.read())
    if words == ["--write"]:
        listed.update({name: total for name, total in made.items() if total})
        with open(SUMS, "w", encoding="utf-8") as file:
            file.write(written(listed, kit()))
        by = kit()
    elif words:
        sys.exit("usage: tools/sums.py [--write]")
    for line in differences(listed, by, made, kit()):
        print(f"sums: {line}")
    passed = sum(bool(total) and listed.get(name) == total for name, total in made.items())
    failed = len({**listed, **made}) - passed
    print(f"{passed} passed, {failed} failed")
    return 1 if failed else 0


if __name__ == "__main__":
    sys.exit(main(sys.argv[1:]))

#!/usr/bin/env python3
"""Compares the tests that `rt ci` has run with counts.txt.

    tools/tests_ran.py LOG

tools/counts.py counts what the sources have, before any proof, and a test that stands in a comment counts there too. LOG is what `rt ci`
said. It has what the runner of each crate's tests said, and then a line of the crate. The last line is 'N passed, M failed'.
"""
import re
import sys

import counts

RESULT = re.compile(r"test result: ok\. (\d+) passed; 0 failed; 0 ignored; 0 filtered out")
RAN = re.compile(r"test (\S+) \.\.\. ok")
ENDED = re.compile(r"rt: (\w+): its tests (passed|FAILED)")


def ran(log):
    """How many tests of each crate have run and passed, by what the runner said of each and of all; none where these differ."""
    found, names, result = {}, set(), None
    for line in log.splitlines():
        test, last, ended = RAN.fullmatch(line), RESULT.fullmatch(line), ENDED.match(line)
        if test:
            names.add(test[1])
        elif last:
            result = int(last[1])
        elif ended:
            found[ended[1]] = len(names) if ended[2] == "passed" and len(names) == result else 0
            names, result = set(), None
    return found


def main(words):
    if len(words) != 1:
        sys.exit("usage: tools/tests_ran.py LOG")
    listed = {name.split()[1]: count for name, count in counts.parsed(counts.text_of(counts.COUNTS)).items() if name.startswith("tests ")}
    found = ran(counts.text_of(words[0]))
    passed = failed = 0
    for name in dict.fromkeys([*listed, *found]):
        count, wanted = found.get(name, 0), listed.get(name, 0)
        passed, failed = passed + min(count, wanted), failed + abs(count - wanted)
        if count != wanted:
            print(f"tests of {name}: {count or 'none'} ran, and {wanted or 'none'} in counts.txt")
    print(f"{passed} passed, {failed} failed")
    return 1 if failed or not passed else 0


if __name__ == "__main__":
    sys.exit(main(sys.argv[1:]))

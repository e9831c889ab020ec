#!/usr/bin/env python3
"""Times `least`, `check` and `example` beside `Grammar::of`, and the commands `example` and `check` as a user runs them.

The program of the first part is sentences.rt.txt. The second part runs out/abnf_ls, or the program that is the first argument: the
best of five runs.
"""
import os
import subprocess
import sys
import tempfile
import time

import scratch

DEPS = "abnf_least abnf_cert abnf_names abnf_parts abnf_syntax abnf_token ls_text ls_lists anyhow"
PROGRAM = sys.argv[1] if len(sys.argv) > 1 else os.path.join(scratch.TOP, "out", "abnf_ls")
RUNS = 5


def grammar(count, alternatives=1):
    """So many rules, each of which names the ones after it."""
    def rule(number):
        names = " / ".join(f"rule-{(number + next) % count}" for next in range(1, alternatives + 1))
        return f"rule-{number} = %x20-7E / {names}\n"
    return "".join(rule(number) for number in range(count))


def timed(*arguments):
    """The least seconds of some runs, and what the last printed."""
    times = []
    for _ in range(RUNS):
        start = time.perf_counter()
        ran = subprocess.run([PROGRAM, *arguments], stdin=subprocess.DEVNULL, capture_output=True, check=True)
        times.append(time.perf_counter() - start)
    return min(times), ran.stdout


def commands(name, text, rule):
    with tempfile.TemporaryDirectory() as folder:
        file, cert = os.path.join(folder, "grammar.abnf"), os.path.join(folder, "cert")
        with open(file, "w", encoding="utf-8") as grammar_file:
            grammar_file.write(text)
        shown, printed = timed("example", file, rule)
        with open(cert, "wb") as cert_file:
            cert_file.write(printed)
        checked, _ = timed("check", file, cert)
    print(f"{name:<32} {len(text):>8} bytes   example {shown * 1e3:8.1f} ms, {len(printed):>9} bytes   check {checked * 1e3:8.1f} ms")


def main():
    status = scratch.run("sentences.rt.txt", DEPS)
    if not os.path.exists(PROGRAM):
        print(f"{PROGRAM} isn't built: the commands aren't timed", file=sys.stderr)
        return status
    commands("1,000 rules", grammar(1_000), "rule-999")
    commands("100,000 rules", grammar(100_000), "rule-99999")
    commands("4,000 rules with 85 names each", grammar(4_000, 85), "rule-3999")
    return status


if __name__ == "__main__":
    sys.exit(main())

#!/usr/bin/env python3
"""Runs the gate, or the command that is given, and tells the processor minutes that each crate takes in it.

    tools/gate_minutes.py [--write] [COMMAND ..]
    tools/gate_minutes.py --bounds LOG

All that the command prints goes to out/gate.log. The table has, for each crate, the processor minutes of its proof, of its edits that
must be refused and of the proof of its tests. They are read from /proc twice a second while the command runs. Below it stand the edits that
are refused only at a bound. With --write all that goes into docs/GATE.md, in the place of what stands there: to be done from nothing, on a
machine that does nothing else. With --bounds only the edits at a bound do, as a log of tools/refused_edits.py has them, in which all edits
were tried.
"""
import collections
import os
import re
import resource
import subprocess
import sys
import textwrap
import time

from edits.verdict import is_at_a_bound
from workspace import TOP, crates

TICKS = os.sysconf("SC_CLK_TCK")
KINDS = ("proof", "edits", "tests")
PAGE = os.path.join(TOP, "docs", "GATE.md")
WIDTH = 100
EDIT = re.compile(r"(?m)^(\w+)/([\w.-]+)\.edit: (refused, .*)")
FIGURES, BOUNDS = "the figures of one run", "the edits at a bound"


def processes():
    """The parent and the processor seconds of each process that runs now."""
    found = {}
    for name in filter(str.isdigit, os.listdir("/proc")):
        try:
            with open(f"/proc/{name}/stat", encoding="utf-8", errors="replace") as file:
                fields = file.read().rpartition(")")[2].split()
        except OSError:
            continue
        found[int(name)] = int(fields[1]), int(fields[19]), (int(fields[11]) + int(fields[12])) / TICKS
    return found


def is_below(pid, top, found):
    while pid in found and pid != top:
        pid = found[pid][0]
    return pid == top


def work_of(pid):
    """The crate that a process checks, and whether it is its proof, its tests or an edit; None for all other processes."""
    try:
        with open(f"/proc/{pid}/cmdline", encoding="utf-8", errors="replace") as file:
            words = file.read().split("\0")
        folder = os.readlink(f"/proc/{pid}/cwd")
    except OSError:
        return None
    if os.path.basename(words[0]) != "rattle" or "--crate-name" not in words:
        return None
    kind = "edits" if os.path.basename(folder).startswith("rt-edit-") else "tests" if "--test" in words else "proof"
    return words[words.index("--crate-name") + 1], kind


def watched(gate):
    """The processor seconds of each check below this process, until it ends."""
    seconds, works = {}, {}
    while True:
        found = processes()
        for pid, (_, start, used) in found.items():
            if is_below(pid, gate.pid, found):
                work = works.get((pid, start)) or work_of(pid)
                if work:
                    works[pid, start] = work
                    seconds[pid, start] = max(used, seconds.get((pid, start), 0.0))
        if gate.poll() is not None:
            return seconds, works
        time.sleep(0.5)


def edits_of(crate):
    folder = os.path.join(TOP, "crates", crate, "edits")
    return sum(it.endswith(".edit") for it in os.listdir(folder)) if os.path.isdir(folder) else 0


def table(seconds, works):
    """Of each crate the minutes of its checks, how many edits it has, and in how many checks they were tried."""
    minutes, checks = collections.Counter(), collections.Counter()
    for key, work in works.items():
        minutes[work] += seconds[key] / 60
        checks[work] += 1
    lines, sums = ["| crate | proof | edits | tests | together |", "|---|---|---|---|---|"], collections.Counter()
    for crate in crates():
        row = {it: minutes[crate, it] for it in KINDS}
        edits, tries = edits_of(crate), checks[crate, "edits"]
        sums.update({**row, "all": edits, "tries": tries})
        lines.append(line_of(f"`{crate}`", row, edits, tries))
    return "\n".join([*lines, line_of("together", sums, sums["all"], sums["tries"])])


def line_of(name, row, edits, tries):
    told = {it: f"{row[it]:.1f}" if row[it] else "–" for it in KINDS}
    told["edits"] += f" for {edits} in {tries}" if tries else ""
    return f"| {name} | {' | '.join(told[it] for it in KINDS)} | {sum(row[it] for it in KINDS):.1f} |"


def at_a_bound(log):
    """The edits that a gate's log says to be refused only at a bound, by crate."""
    found = collections.defaultdict(list)
    for crate, name, text in EDIT.findall(log):
        if is_at_a_bound(text):
            found[crate].append(f"`{name}`")
    total = sum(map(len, found.values()))
    return "\n".join([f"{total} edits are refused only at a bound:", "", *(f"- `{it}`: {', '.join(found[it])}." for it in crates() if it in found)])


def wrapped(text):
    """A text whose list items are no wider than a page."""
    return "\n".join(textwrap.fill(it, WIDTH, subsequent_indent="  ", break_on_hyphens=False) for it in text.splitlines())


def put(mark, text):
    """Puts a text into the page, behind a mark and up to the end of what stands there."""
    with open(PAGE, encoding="utf-8") as file:
        page = file.read()
    with open(PAGE, "w", encoding="utf-8") as file:
        file.write(re.sub(rf"(?s)(<!-- {mark} -->\n).*?(<!-- their end -->)", lambda it: f"{it[1]}\n{text}\n\n{it[2]}", page))


def put_bounds(path):
    """Puts the edits at a bound into the page, if a log has all edits."""
    with open(path, encoding="utf-8", errors="replace") as file:
        log = file.read()
    tried, there = {(crate, name) for crate, name, _ in EDIT.findall(log)}, sum(map(edits_of, crates()))
    if len(tried) != there:
        sys.exit(f"{path}: {len(tried)} edits were refused, and there are {there}")
    put(BOUNDS, wrapped(at_a_bound(log)))
    return 0


def main(words):
    if words[:1] == ["--bounds"]:
        return put_bounds(*words[1:])
    does_write = words[:1] == ["--write"]
    os.makedirs(f"{TOP}/out", exist_ok=True)
    began = time.time()
    with open(f"{TOP}/out/gate.log", "wb") as log:
        command = words[does_write:] or ["./test"]
        gate = subprocess.Popen(command, cwd=TOP, stdin=subprocess.DEVNULL, stdout=log, stderr=subprocess.STDOUT)
        seconds, works = watched(gate)
    used = resource.getrusage(resource.RUSAGE_CHILDREN)
    said = f"{(time.time() - began) / 60:.1f} minutes on {len(os.sched_getaffinity(0))} processors, {(used.ru_utime + used.ru_stime) / 60:.1f} of all together."
    with open(f"{TOP}/out/gate.log", encoding="utf-8", errors="replace") as file:
        log = file.read()
    figures, bounds = f"{table(seconds, works)}\n\n{said}", wrapped(at_a_bound(log))
    print(f"{figures}\n\n{bounds}\n\nout/gate.log ends:")
    print("\n".join(log.splitlines()[-2:]))
    if does_write and not gate.returncode:
        put(FIGURES, figures)
        put(BOUNDS, bounds)
    return gate.returncode


if __name__ == "__main__":
    sys.exit(main(sys.argv[1:]))

#!/usr/bin/env python3
"""Compares what it takes to add names that meet in the server's table of names with what it takes to add others.

    bench/meeting.py [PROGRAM]

PROGRAM is as for bench.py. What the server keeps of a text has a table of its names. It is seeded by the text that was read as a whole, and the names
of later versions come into the same table. So whoever knows that text can choose names for a later version that meet in it. meeting.rs, which rustc
builds, finds them: names of one hash, and names of one group. A text is opened, and then COUNT rules with such names are added at once, or as many
with other names of the same length.

The figures are the milliseconds of processor time of the version that adds them, to its findings: the least of some runs, for names that meet and for
others, and how often the latter go into the former. It ends nonzero where that is more than MOST times.
"""
import os
import subprocess
import sys
import tempfile

from bench import INITIALIZE, PROGRAM, TOP, opened
from beside import Timed, compiled
from forms import two_names
from keystrokes import put
from real import changed

SOURCE = os.path.join(TOP, "bench", "meeting.rs")
WAYS = ("hash", "group")
FIRST, COUNT, RUNS, MOST = 1_000, 20_000, 3, 3
# What the code says of the seed and of the hash where meeting.rs has them as they are
SEEDED = {
    "crates/incremental_findings/src/blocks.rt": "Digests::new(alloc, sheet.seed())",
    "crates/abnf_syntax/src/sheet.rt": "let mut hasher = DefaultHasher::new();",
    "crates/findings_index/src/table.rt": "IndexSet::with_hasher(alloc, Seeded::by(seed))",
    "crates/abnf_parts/src/seeded.rt": "seeded.write_u64(seed);",
}


def seeded_otherwise():
    """The files of the code that don't say of the seed what they said when meeting.rs was written."""
    for path, said in SEEDED.items():
        with open(os.path.join(TOP, path), encoding="utf-8") as file:
            if said not in file.read():
                yield path


def meeting(program, text, way):
    """Names that meet in the table that this text seeds."""
    ran = subprocess.run([program, way, str(COUNT)], input=text.encode(), stdout=subprocess.PIPE, check=True)
    return ran.stdout.decode().split("\n")


def others(length):
    """As many names of so many characters, as they come."""
    return [f"m{number:0{length - 1}}" for number in range(COUNT)]


def cost(text, names):
    """The least seconds of processor time of the version that adds rules of these names to a text."""
    given = changed(put(text, len(text), "".join(f'{name} = "x"\n' for name in names)))
    times = []
    for _ in range(RUNS):
        server = Timed([PROGRAM])
        server.until_answered(INITIALIZE + opened(text))
        times.append(server.took(given))
        server.end()
    return min(times)


def main():
    text, is_beyond = two_names(FIRST), False
    for path in seeded_otherwise():
        print(f"{path} has the seed or the hash in other words than meeting.rs knows: the names may not meet")
    with tempfile.TemporaryDirectory() as folder:
        program = compiled(SOURCE, os.path.join(folder, "meeting"))
        for way in WAYS:
            names = meeting(program, text, way)
            assert len({*names}) == COUNT
            met, apart = (cost(text, it) for it in (names, others(len(names[0]))))
            is_beyond |= met > MOST * apart
            print(f"{COUNT:,} names of one {way:<8} {met * 1e3:10.1f} ms   {apart * 1e3:10.1f} ms of others   ({met / apart:.1f})", flush=True)
    return 1 if is_beyond else 0


if __name__ == "__main__":
    sys.exit(main())

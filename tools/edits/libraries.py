"""The copy of a checkout's crates on which edits are tried, and the libraries that stand there.

Nothing else writes to it, so what a check reads can't change beneath it. A library comes from the store of `rt`, as soon as a gate that
runs beside has proved it, or from the checkout.
"""
import os
import re
import shutil
import subprocess
import time

from edits.kit import crates_of

PATH = "{}/crates/{}/out/rlib/{}.rlib"


class Gate:
    """An `rt ci` that runs as long as a file is there, to which it writes what it says; without a file none."""

    def __init__(self, path):
        self.path, self.said = path, open(path, encoding="utf-8", errors="replace") if path else None

    def is_running(self):
        return bool(self.path) and os.path.exists(self.path)

    def has_proved(self, crate):
        """Whether it said so of the crate, by now or before it ended."""
        if not self.said:
            return False
        self.said.seek(0)
        return bool(re.search(rf"(?m)^rt: {crate.name} (proved$|is kept: )", self.said.read()))


def states_of(folder):
    """What tells whether a file below a folder was replaced."""
    found = [f"{at}/{name}" for at, _, names in os.walk(folder) for name in names]
    return sorted((it, state.st_ino, state.st_size, state.st_mtime_ns) for it, state in ((it, os.stat(it)) for it in found))


class Libraries:
    """The libraries of a copy of a checkout's crates."""

    def __init__(self, top, store, gate):
        self.top, self.store, self.gate, self.theirs = top, store, gate, {}

    def is_copied(self, crate):
        """Takes over the library that stands in the checkout, unless that changes meanwhile. Gives whether it could."""
        theirs = PATH.format(self.top, crate.name, crate.name)
        shutil.rmtree(os.path.dirname(crate.rlib), ignore_errors=True)
        try:
            before = states_of(theirs)
            shutil.copytree(theirs, crate.rlib)
            stands = bool(before) and before == states_of(theirs)
        except (OSError, shutil.Error):
            stands = False
        if stands:
            self.store.has_library(crate)
        return stands

    def comes_from_gate(self, crate):
        """Waits until the gate has proved a crate, and takes its library over. Gives whether it could. Those below it are there."""
        while True:
            is_running = self.gate.is_running()
            # (behind its end other libraries may stand in the checkout again)
            if self.store.gives(crate) or is_running and self.gate.has_proved(crate) and self.is_copied(crate):
                return True
            if not is_running:
                return False
            time.sleep(1)

    def arriving(self, crates):
        """Gives each of these crates, lowest first, once its library is there, and whether it is."""
        lost = set()
        if self.gate.path:
            for it in crates:
                is_there = not lost.intersection(it.below()) and self.comes_from_gate(it)
                lost |= set() if is_there else {it}
                yield it, is_there
        else:
            is_kept = all(self.store.gives(it) for it in crates)
            for it in crates:
                # (a library fits only those that it was built over, so all come from one place)
                is_there = is_kept or not lost.intersection(it.below()) and self.is_built(it) and self.is_copied(it)
                lost |= set() if is_there else {it}
                yield it, is_there

    def is_built(self, crate):
        """Builds a library in the checkout, unless it stands there. Gives whether it does."""
        self.theirs = self.theirs or {it.name: it for it in crates_of(self.top)}
        theirs = self.theirs[crate.name]
        return theirs.is_built() or subprocess.run(["rt", "lib"], cwd=theirs.folder, check=False).returncode == 0

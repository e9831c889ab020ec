"""What earlier runs on this machine came to, which `rt` keeps beside itself.

An entry is named by the sum of all that its verdict was made from, these tools among it, so none goes stale, and `rt` itself finds none of
them.
"""
import glob
import hashlib
import json
import os
import threading

from edits.kit import RT
from workspace import text_of

# What is kept of an edit: that it is refused, as it must be, or that it means the same as before; and of a function, that it is shown to be
# proved in a copy in which all others are left out.
KINDS = {False: "must be refused", True: "means the same"}
SHOWN = "is proved in a copy"


def sum_of_tools():
    """The sum of all files of these tools."""
    here = os.path.dirname(os.path.abspath(__file__))
    files = [*(f"{os.path.dirname(here)}/{it}.py" for it in ("refused_edits", "workspace")), *sorted(glob.glob(f"{here}/*.py"))]
    return hashlib.sha256("\0".join(text_of(it) for it in files).encode()).hexdigest()


class Store:
    """The store of an `rt` that has one."""

    def __init__(self, crates):
        self.kept, self.lock, self.tools = RT.Kept(crates), threading.Lock(), sum_of_tools()

    def gives(self, crate):
        """Gives a crate its library, where `rt ci` proved it here from these sources over these libraries. Those below it have theirs."""
        with self.lock:
            is_given = self.kept.give(crate, False, self.kept.key(crate))
        if is_given:
            self.has_library(crate)
        return is_given

    def has_library(self, crate):
        """Notes the crate's library, which stands there, for the names of what is kept of the crates above it."""
        with self.lock:
            self.kept.is_built(crate)

    def name(self, crate, edit):
        with self.lock:
            return self.kept.of_edit(edit.file, f"{self.tools} {KINDS[edit.is_same]} {self.kept.key(crate)}")

    def name_of_function(self, crate, function):
        with self.lock:
            return hashlib.sha256(f"{self.tools} {SHOWN} {self.kept.key(crate)} {function}".encode()).hexdigest()

    def found(self, name, kind):
        """What is kept under a name, if it is of this kind."""
        try:
            found = json.loads(text_of(f"{self.kept.at}/edits/{name}"))
            return found["text"] if found["edit"] == name and found["kind"] == kind else None
        except (OSError, ValueError, KeyError, TypeError):
            return None

    def kept_text(self, name, is_same):
        """What an earlier run said of the edit of this name, where it went well."""
        return self.found(name, KINDS[is_same])

    def has_shown(self, crate, function):
        return bool(self.found(self.name_of_function(crate, function), SHOWN))

    def keep(self, crate, edits, shown):
        """Keeps what is said of edits, by their names, and which functions were shown, where all that it stands on is as it was."""
        libraries_stand = all(self.kept.mark(it) == self.kept.marks[it.name] for it in crate.below())
        if not libraries_stand or not self.kept.is_untouched(crate):
            return
        entries = [(name, KINDS[edit.is_same], text) for name, (edit, text) in edits.items() if self.name(crate, edit) == name]
        entries += [(self.name_of_function(crate, it), SHOWN, it) for it in shown]
        with self.lock:
            for it in entries:
                self.kept.keep_tried(*it)


class NoStore:
    """As a store, where `rt` keeps nothing."""

    def gives(self, crate):
        return False

    def has_library(self, crate):
        pass

    def name(self, crate, edit):
        return None

    def kept_text(self, name, is_same):
        return None

    def has_shown(self, crate, function):
        return False

    def keep(self, crate, edits, shown):
        pass

"""The files that edits are in, of which nothing may go unread.

An edit has lines 'file: PATH', and behind each of them pairs of lines 'old: TEXT' and 'new: TEXT'. A line 'checked: FUNCTION' may say in
whose proof it must be refused; one that must not compile has a line 'error: CODE'.
"""
import os
import re

from edits.kit import RT
from workspace import text_of

NAME = re.compile(r"[A-Za-z0-9_-][A-Za-z0-9_.-]*\.edit")
BAD_NAME = "BAD EDIT: its name is of letters, digits, _, - and . and ends in .edit (but for a README.md)"
# What may stand before a line: nothing is the head of the file.
BEFORE = {"file": ("", "new", "checked", "error"), "old": ("file", "new", "checked"), "new": ("old",)}
BEFORE["checked"] = BEFORE["error"] = BEFORE["file"]


def word_of(line, words):
    """The word that an edit's line begins with, or None where the line isn't read."""
    word, _, rest = line.partition(":")
    is_whole = rest[:1] == " " and (word == "new" or rest.strip()) or (word == "new" and not rest)
    return word if word in words and is_whole else None


def lines_of(text, words):
    """The word and the text of each line of an edit, and what is wrong with it, or None."""
    before, lines = "", []
    for number, line in enumerate(text.removesuffix("\n").split("\n"), 1):
        word = word_of(line, words)
        if not word or before not in BEFORE[word]:
            return lines, f"its line {number} isn't read: {line[:60]!r}"
        lines.append((word, line[len(word) + 2 :]))
        before = word
    found = [word for word, _ in lines]
    if "new" not in found or before in ("file", "old") or "file file" in " ".join(it for it in found if it in ("file", "old", "new")):
        return lines, "behind each line 'file:' it wants pairs of lines 'old:' and 'new:'"
    return lines, None


def read(path, folder, words=("file", "old", "new", "checked")):
    """The texts of the crate's files that an edit changes, its other lines by their word, and what is wrong with it, or None."""
    try:
        lines, why = lines_of(text_of(path), words)
    except (OSError, ValueError) as error:
        return {}, {}, f"it can't be read: {error}"
    others = {word: [text for it, text in lines if it == word] for word in words if word not in ("file", "old", "new")}
    if why:
        return {}, others, why
    texts, why = RT.read_edit(path, folder)
    return texts or {}, others, why


def edits_in(folder):
    """The names of the edits in a folder, and of all else that stands there and is none."""
    names = sorted(os.listdir(folder)) if os.path.isdir(folder) else []
    good = [it for it in names if NAME.fullmatch(it) and os.path.isfile(f"{folder}/{it}")]
    return good, [it for it in names if it not in good and it != "README.md"]

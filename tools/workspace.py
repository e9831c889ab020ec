"""The checkout as the tools see it: its crates by crates.txt, what stands where nothing looks for it, copies of crates, sums of files, and the
version."""
import collections
import hashlib
import json
import os
import shutil

TOP = os.path.dirname(os.path.dirname(os.path.realpath(__file__)))
EDITS, NO_COMPILE, SAME_MEANING = "edits", "must-not-compile", "tools/same_meaning"
# What a crate's folder may hold: a folder of another name, as edit/, would be read by nobody.
FOLDERS = ("src", "specs", "proofs", "c", "data", EDITS, NO_COMPILE, "out")
# What the toolchain needs at the top of a repository.
HANDLES, LIST = "HANDLES", "crates.txt"


def text_of(path):
    with open(path, encoding="utf-8") as file:
        return file.read()


def write(path, text):
    with open(path, "w", encoding="utf-8") as file:
        file.write(text)


def sum_of(path):
    """The SHA-256 sum of a file; None where there is none."""
    try:
        with open(path, "rb") as file:
            return hashlib.sha256(file.read()).hexdigest()
    except FileNotFoundError:
        return None


def version():
    """The version, as the extension for VS Code has it. (tools/findings_rows.py compares the program and the manual pages with it.)"""
    return json.loads(text_of(f"{TOP}/editors/vscode/package.json"))["version"]


def listed(text):
    """The crates that a text lists as crates.txt does, in its order: each with its line's words before the colon, and with its libraries."""
    lines = (line.partition("#")[0].partition(":") for line in text.splitlines())
    return {head.split()[0]: (head.split()[1:], libraries.split()) for head, colon, libraries in lines if colon}


def crates(top=TOP):
    """The crates of a checkout, in their order, each with the names of the libraries that it uses."""
    return {name: libraries for name, (_, libraries) in listed(text_of(f"{top}/{LIST}")).items()}


def crates_below(program):
    """A program's crate and each that it needs, lowest first, each with all crates below it. Crates of tests aren't among them."""
    uses, below = crates(), {}

    def visit(name):
        if name not in below:
            own = [it for it in uses[name] if it in uses]
            for it in own:
                visit(it)
            below[name] = {*own}.union(*(below[it] for it in own))

    visit(program)
    return below


def copy_crates(top, to, names=None, left_out=("out",)):
    """Makes a repository of a checkout's crates, or of those that are named, without these folders of theirs.

    What is edited in the checkout doesn't reach what is proved there.
    """
    text = text_of(f"{top}/{LIST}")
    names = [*listed(text)] if names is None else names
    # (the toolchain looks no further for the top of the repository)
    os.makedirs(f"{to}/.git")
    write(f"{to}/{LIST}", "".join(it for it in text.splitlines(keepends=True) if not listed(it) or [*listed(it)][0] in names))
    if os.path.isfile(f"{top}/{HANDLES}"):
        shutil.copy(f"{top}/{HANDLES}", to)
    for crate in (f"crates/{it}" for it in names):
        # (a module may have the name of such a folder)
        at_the_crate = {f"{top}/{crate}": left_out}
        shutil.copytree(f"{top}/{crate}", f"{to}/{crate}", symlinks=True, ignore=lambda at, _, left=at_the_crate: left.get(at, ()))


def places(top=TOP):
    """The paths of all files of a checkout's crates and tools, but for those that are built."""
    for folder in ("crates", "tools"):
        for at, folders, files in os.walk(f"{top}/{folder}"):
            folders[:] = sorted(it for it in folders if it not in ("out", "__pycache__"))
            yield from (os.path.relpath(f"{at}/{it}", top) for it in sorted(files))


def out_of_place(paths, names):
    """What is said of the folders of these paths in which nothing looks for anything, where crates.txt has these names."""
    known = {at for name in names for at in (f"{SAME_MEANING}/{name}", f"crates/{name}/{EDITS}", f"crates/{name}/{NO_COMPILE}")}
    for folder, count in collections.Counter(os.path.dirname(it) for it in paths if it.endswith(".edit")).items():
        if folder not in known:
            yield f"{folder}: {count} edits lie there, where nothing looks for any"
    parts = [it.split("/") for it in paths if it.startswith("crates/") and it.count("/") > 1]
    for name in sorted({it[1] for it in parts} - {*names}):
        yield f"crates/{name}: crates.txt doesn't have it"
    for name, inside in sorted({(it[1], it[2]) for it in parts if len(it) > 3 and it[1] in names and it[2] not in FOLDERS}):
        yield f"crates/{name}/{inside}: a crate has only folders {', '.join(FOLDERS)}"

#!/usr/bin/env python3
"""Worked rows of `./install`: what lies under the prefix after each, what it says and how it ends.

    tools/install_rows.py [FOLDER]

The programs are those of the folder (`out/`, if it is left out). They stand for built ones in a copy of the checkout, whose path has
blanks, as has that of each place where a row works. A row has what lies there before, the calls with the status and the lines on
standard error of each, and what lies there behind. No `rt` is on the PATH: what isn't built can't be built.
"""
import json
import os
import resource
import shutil
import subprocess
import sys
import tempfile

import build
import rows
from rows import TOP

PROGRAMS = ("abnf_ls", "abnf_findings")
NEEDED = ("bash", "dirname", "env", "python3", "readlink")
SECONDS = 60
FILES = (
    "bin/abnf_findings",
    "bin/abnf_ls",
    "share/abnf_ls/editors/emacs-abnf-mode.el",
    "share/abnf_ls/editors/emacs-drafts.el",
    "share/abnf_ls/editors/emacs-eglot.el",
    "share/abnf_ls/editors/emacs-lsp-mode.el",
    "share/abnf_ls/editors/helix-languages.toml",
    "share/abnf_ls/editors/kate-abnf.xml",
    "share/abnf_ls/editors/kate-settings.json",
    "share/abnf_ls/editors/neovim-0.11.lua",
    "share/abnf_ls/editors/neovim-drafts.lua",
    "share/abnf_ls/editors/neovim.lua",
    "share/abnf_ls/editors/vim-ale-drafts.vim",
    "share/abnf_ls/editors/vim-ale.vim",
    "share/abnf_ls/editors/vim-drafts.vim",
    "share/abnf_ls/editors/vim-plain.vim",
    "share/abnf_ls/editors/vim-ycm.vim",
    "share/abnf_ls/editors/vscode/extension.js",
    "share/abnf_ls/editors/vscode/language-configuration.json",
    "share/abnf_ls/editors/vscode/package.json",
    "share/abnf_ls/grammars/rfc3261.abnf",
    "share/abnf_ls/grammars/rfc3339.abnf",
    "share/abnf_ls/grammars/rfc3501.abnf",
    "share/abnf_ls/grammars/rfc3986.abnf",
    "share/abnf_ls/grammars/rfc4512.abnf",
    "share/abnf_ls/grammars/rfc5234.abnf",
    "share/abnf_ls/grammars/rfc5321.abnf",
    "share/abnf_ls/grammars/rfc5322.abnf",
    "share/abnf_ls/grammars/rfc5545.abnf",
    "share/abnf_ls/grammars/rfc5646.abnf",
    "share/abnf_ls/grammars/rfc6265.abnf",
    "share/abnf_ls/grammars/rfc6350.abnf",
    "share/abnf_ls/grammars/rfc6749.abnf",
    "share/abnf_ls/grammars/rfc7230.abnf",
    "share/abnf_ls/grammars/rfc7231.abnf",
    "share/abnf_ls/grammars/rfc7232.abnf",
    "share/abnf_ls/grammars/rfc7233.abnf",
    "share/abnf_ls/grammars/rfc7234.abnf",
    "share/abnf_ls/grammars/rfc7235.abnf",
    "share/abnf_ls/grammars/rfc7950.abnf",
    "share/abnf_ls/grammars/rfc8259.abnf",
    "share/abnf_ls/grammars/rfc8288.abnf",
    "share/abnf_ls/grammars/rfc8866.abnf",
    "share/abnf_ls/grammars/rfc9110.abnf",
    "share/abnf_ls/grammars/rfc9111.abnf",
    "share/abnf_ls/grammars/rfc9112.abnf",
    "share/abnf_ls/installed",
    "share/man/man1/abnf_findings.1",
    "share/man/man1/abnf_ls.1",
)
FOLDERS = ("", "bin", "share", "share/abnf_ls", "share/abnf_ls/editors", "share/abnf_ls/editors/vscode", "share/abnf_ls/grammars", "share/man", "share/man/man1")
USAGE = "usage: ./install [--uninstall] [PREFIX]"
NOT_PUT = "nothing was put in place"
# The name of a prefix that means something in each language of the snippets.
ODD = "a \"b\" \\c' $d %e \u00e9"


def folders(*paths):
    return dict.fromkeys(paths)


def under(prefix):
    """What lies under a prefix after an install into nothing."""
    files = {os.path.join(prefix, it): "installed" for it in FILES}
    return {**files, **folders(*(os.path.join(prefix, it).rstrip("/") for it in FOLDERS))}


DONE = (0, ())
OTHERS = {
    **folders("p", "p/bin", "p/share", "p/share/abnf_ls", "p/share/abnf_ls/editors", "p/share/man", "p/share/man/man1"),
    **{"p/bin/other": "1", "p/share/abnf_ls/editors/mine": "2", "p/share/man/man1/other.1": "3"},
}
EARLIER = {
    **folders("p", "p/share", "p/share/abnf_ls"),
    "p/share/abnf_ls/old": "1",
    "p/share/abnf_ls/installed": "file share/abnf_ls/old\nfolder share\nfolder share/abnf_ls\n",
}
EMPTY = folders("p", "p/bin", "p/empty")
# Each row: what it is; what lies there before; the calls, each with its status and its lines; what lies there behind. {} is the place.
ROWS = (
    ("an install", {}, ((["p"], DONE),), under("p")),
    ("an install into folders that aren't there", {}, ((["x/y/p"], DONE),), {**under("x/y/p"), **folders("x", "x/y")}),
    ("an install by default", {}, (([], DONE),), under("home/.local")),
    ("an install twice", {}, ((["p"], DONE), (["p"], DONE)), under("p")),
    ("an install by a whole path", {}, ((["{}/p"], DONE),), under("p")),
    ("a prefix whose name means something in the snippets", {}, (([ODD], DONE),), under(ODD)),
    ("an install beside other files", OTHERS, ((["p"], DONE),), {**under("p"), **OTHERS}),
    ("an uninstall", {}, ((["x/y/p"], DONE), (["--uninstall", "x/y/p"], DONE)), {}),
    ("an uninstall by default", {}, (([], DONE), (["--uninstall"], DONE)), {}),
    ("an uninstall after two installs", {}, ((["p"], DONE), (["p"], DONE), (["--uninstall", "p"], DONE)), {}),
    ("an uninstall beside other files", OTHERS, ((["p"], DONE), (["--uninstall", "p"], DONE)), OTHERS),
    ("an uninstall in folders that were empty before", EMPTY, ((["p"], DONE), (["--uninstall", "p"], DONE)), EMPTY),
    ("two prefixes", {}, ((["p"], DONE), (["q"], DONE), (["--uninstall", "q"], DONE)), under("p")),
    (
        "an uninstall where nothing is installed",
        OTHERS,
        ((["--uninstall", "p"], (1, ("nothing is installed under {}/p: there is no {}/p/share/abnf_ls/installed",))),),
        OTHERS,
    ),
    (
        "a prefix that can't be written, since it is a file",
        {"p": "1"},
        ((["p"], (1, ("stopped; in place under {}/p by now: nothing new", "{}/p: Not a directory"))),),
        {"p": "1"},
    ),
    (
        "a file where a folder must be",
        {**folders("p", "p/share", "p/share/man"), "p/share/man/man1": "1"},
        ((["p"], (1, ("stopped; in place under {}/p by now: nothing new", "{}/p/share/man/man1: Not a directory"))),),
        {**folders("p", "p/share", "p/share/man"), "p/share/man/man1": "1"},
    ),
    (
        "a program of another origin",
        {**folders("p", "p/bin"), "p/bin/abnf_ls": "1"},
        ((["p"], (1, (f"{{}}/p/bin/abnf_ls is there already, and not by an install; {NOT_PUT}",))),),
        {**folders("p", "p/bin"), "p/bin/abnf_ls": "1"},
    ),
    (
        "a folder where a program must be",
        folders("p", "p/bin", "p/bin/abnf_ls"),
        ((["p"], (1, (f"{{}}/p/bin/abnf_ls is a folder; {NOT_PUT}",))),),
        folders("p", "p/bin", "p/bin/abnf_ls"),
    ),
    (
        "an uninstall behind an earlier install and one of now",
        EARLIER,
        ((["p"], DONE), (["--uninstall", "p"], DONE)),
        folders("p"),
    ),
    (
        "what only an earlier install put there",
        EARLIER,
        ((["p"], DONE),),
        {**under("p"), "p/share/abnf_ls/installed": "changed"},
    ),
    (
        "a list that no install has written",
        {**folders("p", "p/share", "p/share/abnf_ls"), "p/x": "1", "p/share/abnf_ls/installed": "file share/../x\n"},
        ((["--uninstall", "p"], (1, ("{}/p/share/abnf_ls/installed has a line that no install writes: file share/../x",))),),
        {**folders("p", "p/share", "p/share/abnf_ls"), "p/x": "1", "p/share/abnf_ls/installed": "file share/../x\n"},
    ),
    ("a prefix with a line end", {}, ((["p\nq"], (1, ("'{}/p\\nq' has a control character, or isn't UTF-8",))),), {}),
    *(
        (f"the arguments {words}", {}, ((words, (5, (USAGE,))),), {})
        for words in (["--help"], ["-x", "p"], ["p", "--uninstall"], ["p", "q"], ["--uninstall", "p", "q"], ["--uninstall", "-p"], [""])
    ),
)
# With a program that isn't built.
UNBUILT = (
    "abnf_ls: the Rattle toolchain is missing: no command 'rt' on the PATH",
    f"install: abnf_findings could not be built; {NOT_PUT}",
)


def copied(programs, copy, more=()):
    """A copy of what an install reads, and of these files more, in which these programs stand for those that are built from its sources."""
    for name in ("install", "build", "crates.txt", "tools/build.py", "tools/install.py", "tools/workspace.py", *more):
        os.makedirs(os.path.dirname(os.path.join(copy, name)), exist_ok=True)
        shutil.copy(os.path.join(TOP, name), os.path.join(copy, name))
    for name in ("man", "editors", "examples", "grammars"):
        shutil.copytree(os.path.join(TOP, name), os.path.join(copy, name))
    os.symlink(os.path.join(TOP, "crates"), os.path.join(copy, "crates"))
    os.mkdir(os.path.join(copy, "out"))
    for name, program in zip(PROGRAMS, programs):
        shutil.copy(program, os.path.join(copy, "out", name))
        with open(os.path.join(copy, "out", f"{name}.sources"), "w", encoding="utf-8") as file:
            file.write(build.Program(name).source_sum())
    return copy


class Place:
    """A folder in which a row works, with a home and a PATH of its own."""

    def __init__(self, folder, checkout, needed=NEEDED):
        self.folder, self.checkout = folder, checkout
        self.path = os.path.join(folder, "work \u00e4")
        self.bin = os.path.join(folder, "bin")
        os.mkdir(self.bin)
        for name in needed:
            os.symlink(shutil.which(name), os.path.join(self.bin, name))

    def lay(self, before):
        shutil.rmtree(self.path, ignore_errors=True)
        os.makedirs(os.path.join(self.path, "home"))
        for path in sorted(before):
            whole = os.path.join(self.path, path)
            if before[path] is None:
                os.mkdir(whole)
            else:
                os.makedirs(os.path.dirname(whole), exist_ok=True)
                with open(whole, "w", encoding="utf-8") as file:
                    file.write(before[path])

    def call(self, words, most=resource.RLIM_INFINITY):
        """The status of a call and the lines on its standard error. No file may have more bytes than that."""
        env = {"PATH": self.bin, "HOME": os.path.join(self.path, "home"), "LC_ALL": "C.UTF-8"}
        words = [it.replace("{}", self.path) for it in words]
        ran = subprocess.run(
            [os.path.join(self.checkout, "install"), *words],
            cwd=self.path, env=env, stdin=subprocess.DEVNULL, capture_output=True, timeout=SECONDS, check=False,
            preexec_fn=lambda: resource.setrlimit(resource.RLIMIT_FSIZE, (most, resource.RLIM_INFINITY)),
        )
        return ran.returncode, tuple(ran.stderr.decode().splitlines())

    def lies(self, before):
        """What lies there: of a folder nothing, of a file its text if it was laid before, and else that it is installed."""
        found = {}
        for folder, names, files in os.walk(self.path):
            for it in names:
                found[os.path.relpath(os.path.join(folder, it), self.path)] = None
            for it in files:
                path = os.path.relpath(os.path.join(folder, it), self.path)
                found[path] = "installed"
                if path in before:
                    with open(os.path.join(folder, it), encoding="utf-8", errors="replace") as file:
                        text = file.read()
                    found[path] = text if text == before[path] else "changed"
        del found["home"]
        return found


def row_cases(place, those=ROWS):
    for what, before, calls, behind in those:
        place.lay(before)
        for number, (words, (status, said)) in enumerate(calls, 1):
            wanted = (status, tuple(f"install: {it}".replace("{}", place.path) for it in said))
            yield f"{what}, call {number}", place.call(words), wanted
        yield f"{what}, what lies there", place.lies(before), behind


def read(*path):
    with open(os.path.join(*path), "rb") as file:
        return file.read()


def quoted(path):
    return path.replace("\\", "\\\\").replace('"', '\\"').encode()


def folder_of(name):
    """Where the grammar lies that is put in place by this name."""
    return next(it for it in ("grammars", "examples/known", "examples") if os.path.isfile(os.path.join(TOP, it, name)))


def command_of(settings):
    """The command in Kate's settings, none where they are no JSON."""
    try:
        return json.loads(settings)["servers"]["abnf"]["command"]
    except ValueError:
        return None


def named_in(snippet, folder):
    """How often a snippet names each program, as it lies in this folder, between double quotes."""
    return [snippet.count(b'"' + quoted(os.path.join(folder, name)) + b'"') for name in PROGRAMS]


def content_cases(place, programs):
    """What is put in place: the programs as they are, to be run by all, and snippets that name them where they lie."""
    place.lay({})
    yield "an install for its contents", place.call([ODD]), DONE
    prefix = os.path.join(place.path, ODD)
    for name, program in zip(PROGRAMS, programs):
        put = os.path.join(prefix, "bin", name)
        yield f"{name} as it is", (read(put) == read(program), oct(os.stat(put).st_mode & 0o777)), (True, "0o755")
        page = os.path.join(prefix, "share", "man", "man1", f"{name}.1")
        yield f"the page of {name} as it is", (read(page), oct(os.stat(page).st_mode & 0o777)), (read(TOP, "man", f"{name}.1"), "0o644")
    folder, editors = os.path.join(prefix, "bin"), os.path.join(prefix, "share", "abnf_ls", "editors")
    for path in (it for it in FILES if it.startswith("share/abnf_ls/grammars/")):
        name = os.path.basename(path)
        yield f"{name} as it is", read(prefix, path), read(TOP, folder_of(name), name)
    yield "the server in Kate's settings", command_of(read(editors, "kate-settings.json")), [os.path.join(folder, "abnf_ls")]
    for path in (it[len("share/abnf_ls/editors/") :] for it in FILES if it.startswith("share/abnf_ls/editors/")):
        snippet, template = read(editors, path), read(TOP, "editors", path)
        named = named_in(template, "/path/to/abnf_ls/out")
        yield f"no path is left in {path}", snippet.count(b"/path/to"), 0
        yield f"the programs in {path}", named_in(snippet, folder), named
        yield f"each path in {path} stands between double quotes", template.count(b"/path/to"), sum(named)


def full_cases(place):
    """A file that can't be written whole, as where a disk is full: nothing is left of it, or of those before it."""
    for before in ({}, OTHERS):
        place.lay(before)
        said = (f"install: stopped; in place under {place.path}/p by now: nothing new", f"install: {place.path}/p/bin/abnf_ls: File too large")
        yield "a file that can't be written", place.call(["p"], 4096), (1, said)
        yield "a file that can't be written, what lies there", place.lies(before), before
    place.lay({})
    yield "an install before that", place.call(["p"]), DONE
    yield "a file that can't be written anew", place.call(["p"], 4096), (1, said)
    yield "a file that can't be written anew, what lies there", place.lies({}), under("p")


def unbuilt_cases(place):
    """Without one of the programs, and no toolchain, nothing is put in place."""
    place.lay({})
    os.remove(os.path.join(place.checkout, "out", "abnf_findings.sources"))
    yield "a program that isn't built", place.call(["p"]), (127, UNBUILT)
    yield "a program that isn't built, what lies there", place.lies({}), {}


def cases(*programs):
    """What each case is, what was found in it, and what must be found. The programs are the server and that of findings."""
    with tempfile.TemporaryDirectory(prefix="try install ") as folder:
        place = Place(folder, copied(programs, os.path.join(folder, "a checkout")))
        yield from row_cases(place)
        yield from content_cases(place, programs)
        yield from full_cases(place)
        yield from unbuilt_cases(place)


def main(words):
    folder = words[0] if words else os.path.join(TOP, "out")
    return rows.report(cases(*(os.path.join(folder, it) for it in PROGRAMS)))


if __name__ == "__main__":
    sys.exit(main(sys.argv[1:]))

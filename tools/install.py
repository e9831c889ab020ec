#!/usr/bin/env python3
"""Puts the programs, their manual pages, the editors' snippets and grammars under a prefix, or takes them away. ./install calls this.

All files are first laid beside their places and then moved there, so what fails before changes nothing. A list of the files, and
of the folders that were made for them, lies beside them: by it a second install knows what is its own, and an uninstall what to
take away. What isn't in the list is neither overwritten nor taken away.
"""
import contextlib
import errno
import os
import signal
import subprocess
import sys

TOP = os.path.dirname(os.path.dirname(os.path.realpath(__file__)))
PROGRAMS = ("abnf_ls", "abnf_findings")
USAGE = "usage: ./install [--uninstall] [PREFIX]"
OWN = os.path.join("share", "abnf_ls")
LIST = os.path.join(OWN, "installed")
# The folder of the programs, as the editors' files have it
IN_SNIPPETS = b"/path/to/abnf_ls/out"
# What of editors/ is no such file: the trials, and what `npm install` lays beside the extension for VS Code
NO_SNIPPETS = {"try", "node_modules", "package-lock.json"}
# Where the grammars lie that are put in place. What stands in several folders is that of the last one, which is whole.
GRAMMARS = ("examples", os.path.join("examples", "known"), "grammars")
CANNOT, WRONG_USE = 1, 5


def say(text):
    print(f"install: {text}", file=sys.stderr, flush=True)


def stop(status, *lines):
    for line in lines:
        say(line)
    sys.exit(status)


def why(fault):
    return f"{fault.filename}: {fault.strerror}" if fault.filename else str(fault)


def read(*path):
    with open(os.path.join(*path), "rb") as file:
        return file.read()


def quoted(path):
    """A path as the inside of a string of JSON, TOML, Lua, JavaScript, Emacs Lisp and Vim script, between double quotes."""
    return path.replace("\\", "\\\\").replace('"', '\\"').encode()


def snippets():
    """Each file for an editor, by its path in editors/: its bytes."""
    editors = os.path.join(TOP, "editors")
    for folder, folders, files in os.walk(editors):
        folders[:] = sorted({*folders} - NO_SNIPPETS)
        for path in (os.path.join(folder, it) for it in sorted({*files} - NO_SNIPPETS)):
            yield os.path.relpath(path, editors), read(path)


def grammars():
    """Each grammar whose names can be known by its short name, by the name of its file: its bytes."""
    lies = {name: folder for folder in GRAMMARS for name in os.listdir(os.path.join(TOP, folder)) if name.endswith(".abnf")}
    for name in sorted(lies):
        yield name, read(TOP, lies[name], name)


def filled(snippet, folder):
    """A file for an editor, with the folder in which the programs are to lie."""
    return snippet.replace(IN_SNIPPETS, quoted(folder))


def contents(prefix):
    """Each file that is put under the prefix, by its path there: its bytes, and its mode."""
    for name in PROGRAMS:
        yield os.path.join("bin", name), read(TOP, "out", name), 0o755
        yield os.path.join("share", "man", "man1", f"{name}.1"), read(TOP, "man", f"{name}.1"), 0o644
    for path, snippet in snippets():
        yield os.path.join(OWN, "editors", path), filled(snippet, os.path.join(prefix, "bin")), 0o644
    for name, text in grammars():
        yield os.path.join(OWN, "grammars", name), text, 0o644


class Installed:
    """What is put under a prefix: the files, and the folders that were made for them, by their paths from there."""

    def __init__(self, prefix):
        self.prefix, self.files, self.folders = prefix, set(), set()

    def at(self, path):
        return os.path.join(self.prefix, path)

    def is_there(self):
        return os.path.lexists(self.at(LIST))

    def read(self):
        kinds = {"file": self.files, "folder": self.folders}
        for line in read(self.at(LIST)).decode(errors="replace").splitlines():
            kind, _, path = line.partition(" ")
            if kind not in kinds or os.path.isabs(path) or (kind == "file" and ".." in path.split(os.sep)):
                stop(CANNOT, f"{self.at(LIST)} has a line that no install writes: {line}")
            kinds[kind].add(path)
        return self

    def text(self):
        lines = [f"file {it}" for it in sorted(self.files)] + [f"folder {it}" for it in sorted(self.folders)]
        return "".join(f"{line}\n" for line in lines).encode()

    def make_folder(self, path):
        """Makes a folder and those above it where they aren't there, and notes which it has made."""
        if os.path.isdir(path):
            return
        if os.path.lexists(path):
            raise NotADirectoryError(errno.ENOTDIR, os.strerror(errno.ENOTDIR), path)
        self.make_folder(os.path.dirname(path))
        os.mkdir(path)
        self.folders.add(os.path.relpath(path, self.prefix))

    def remove_folders(self, paths):
        """Takes these folders away, the innermost first, but those in which something else lies."""
        for path in sorted(map(self.inside, paths), key=len, reverse=True):
            with contextlib.suppress(OSError):
                os.rmdir(path)

    def inside(self, path):
        return os.path.normpath(self.at(path))


class Staged:
    """Files that lie beside their places until all of them are moved there."""

    def __init__(self, installed):
        self.installed, self.before, self.laid = installed, {*installed.folders}, []

    def beside(self, place):
        folder, name = os.path.split(self.installed.at(place))
        return os.path.join(folder, f".abnf_ls.new.{name}")

    def lay(self, place, data, mode):
        self.installed.make_folder(os.path.dirname(self.installed.at(place)))
        with contextlib.suppress(FileNotFoundError):
            os.remove(self.beside(place))
        self.laid.append(place)
        try:
            with open(self.beside(place), "xb") as file:
                file.write(data)
            os.chmod(self.beside(place), mode)
        except OSError as fault:
            raise OSError(fault.errno, fault.strerror, self.installed.at(place)) from fault

    def move(self, place):
        os.replace(self.beside(place), self.installed.at(place))
        self.laid.remove(place)

    def clean(self):
        """Takes away what isn't moved in place, and the folders that were made for it."""
        for place in self.laid:
            with contextlib.suppress(OSError):
                os.remove(self.beside(place))
        self.installed.remove_folders(self.installed.folders - self.before)


def put_files(installed, files):
    """Puts these files in place, and the list of all before them, so that an uninstall takes away whatever is there."""
    staged, there = Staged(installed), []
    try:
        installed.make_folder(os.path.dirname(installed.at(LIST)))
        for it in files:
            staged.lay(*it)
        staged.lay(LIST, installed.text(), 0o644)
        for place in [LIST, *(place for place, _, _ in files)]:
            staged.move(place)
            there.append(place)
    except BaseException:
        staged.clean()
        say(f"stopped; in place under {installed.prefix} by now: {', '.join(there) or 'nothing new'}")
        raise


def build():
    for name in PROGRAMS:
        status = subprocess.run([os.path.join(TOP, "build"), name], stdin=subprocess.DEVNULL, check=False).returncode
        if status:
            stop(status if status > 0 else 128 - status, f"{name} could not be built; nothing was put in place")


def refuse_others(installed, places):
    """Ends where something stands in the way that no install has put there."""
    for place in places:
        path = installed.at(place)
        if os.path.isdir(path) and not os.path.islink(path):
            stop(CANNOT, f"{path} is a folder; nothing was put in place")
        if os.path.lexists(path) and place not in installed.files and place != LIST:
            stop(CANNOT, f"{path} is there already, and not by an install; nothing was put in place")


def put(prefix):
    build()
    installed = Installed(prefix)
    if installed.is_there():
        installed.read()
    earlier, files = {*installed.files}, [*contents(prefix)]
    places = {place for place, _, _ in files}
    refuse_others(installed, [LIST, *sorted(places)])
    installed.files |= places
    put_files(installed, files)
    if earlier - places:
        take_files(installed, earlier - places)
        put_files(installed, [])
    tell(prefix)


def tell(prefix):
    folder = os.path.join(prefix, "bin")
    print(f"{' and '.join(PROGRAMS)} are in {folder}, the lines for editors in {os.path.join(prefix, OWN, 'editors')}")
    if folder not in os.environ.get("PATH", "").split(os.pathsep):
        print(f"{folder} isn't on the PATH: put it there, and `man abnf_ls` finds the manual page too")


def take_files(installed, places):
    """Takes these files away, and says which can't be: they stay in the list. Tells whether all are gone."""
    for place in sorted(places):
        try:
            with contextlib.suppress(FileNotFoundError, NotADirectoryError):
                os.remove(installed.at(place))
            installed.files.discard(place)
        except OSError as fault:
            say(f"cannot take away {why(fault)}")
    return not installed.files & places


def take(prefix):
    installed = Installed(prefix)
    if not installed.is_there():
        stop(CANNOT, f"nothing is installed under {prefix}: there is no {installed.at(LIST)}")
    installed.read()
    if not take_files(installed, {*installed.files}):
        stop(CANNOT, "all else is taken away; --uninstall may be called again")
    os.remove(installed.at(LIST))
    installed.remove_folders(installed.folders)
    print(f"what was installed under {prefix} is taken away")


def end(number, _frame):
    sys.exit(128 + number)


def prefix_of(words):
    """The prefix as a whole path. Its name goes into strings of several languages, so it must be a plain text."""
    if len(words) > 1 or any(not it or it.startswith("-") for it in words):
        stop(WRONG_USE, USAGE)
    prefix = os.path.abspath(words[0] if words else os.path.expanduser("~/.local"))
    if any(ord(it) < 32 or ord(it) == 127 or 0xD800 <= ord(it) < 0xE000 for it in prefix):
        stop(CANNOT, f"{prefix!r} has a control character, or isn't UTF-8")
    return prefix


def main(words):
    act = put
    if words[:1] == ["--uninstall"]:
        act, words = take, words[1:]
    prefix = prefix_of(words)
    for it in (signal.SIGTERM, signal.SIGINT, signal.SIGHUP):
        if signal.getsignal(it) != signal.SIG_IGN:
            signal.signal(it, end)
    try:
        act(prefix)
    except OSError as fault:
        stop(CANNOT, why(fault))


if __name__ == "__main__":
    main(sys.argv[1:])

#!/usr/bin/env python3
"""Worked rows of `./dist`: which packages it makes and of which bytes, what they put in place, and that the programs work from there.

    tools/dist_rows.py [FOLDER]

The programs are those of the folder (`out/`, if it is left out). They stand for built ones in copies of the checkout, whose sums.txt has
their sums, and in which made-up packages of Node stand for those that the extension for VS Code needs. The rows of `./install` are tried
with the archive's install too, on whose PATH are a shell and the usual commands alone.

Where there is no dpkg-deb, no lintian or no node, the rows that need it aren't tried, nor are those that put the Debian package in place where dpkg
may not, as it is run by somebody else than root. A line says so, and counts as many as they are.
"""
import contextlib
import gzip
import hashlib
import io
import json
import os
import re
import shutil
import subprocess
import sys
import tarfile
import tempfile
import xml.etree.ElementTree as xml
import zipfile

import install_rows
import rows
import session_rows
import sums
import threaded_sessions
from install_rows import DONE, FILES, PROGRAMS, SECONDS, Place, named_in, read
from rows import TOP
from runs import by_turns, frames, outcome
from workspace import sum_of, text_of, version, write

# What a checkout has for `./dist` beside what it has for `./install`
MORE = ("dist", "tools/dist.py", "tools/install.sh", "tools/preload.py", "tools/rows.py", "tools/sums.py")
NEEDED = (*install_rows.NEEDED, "dpkg-deb", "tar")
USUAL = ("cat", "chmod", "dirname", "find", "grep", "mkdir", "mv", "rm", "rmdir", "sed", "sh", "sort")
FOLDER = f"abnf_ls-{version()}-linux-x86_64"
ARCHIVE, DEBIAN, EXTENSION, SUMS = f"{FOLDER}.tar.gz", f"abnf-ls_{version()}_amd64.deb", f"abnf-ls-{version()}.vsix", "sums.txt"
# The time of all files where nothing says another, and another one
TIME, OTHER_TIME = 1767225600, 1000000000
# Packages of Node: two that the extension needs, one that lies in the first of them, and one that nothing needs; and what npm lays beside them
NODE = {
    "vscode-languageclient/package.json": '{"dependencies": {"inner": "1", "@some/outer": "1"}}',
    "vscode-languageclient/node.js": "module.exports = {};\n",
    "vscode-languageclient/node_modules/inner/package.json": '{"dependencies": {"@some/outer": "1"}}',
    "@some/outer/package.json": "{}",
    "@some/outer/LICENSE": "all may use it\n",
    "other/package.json": "{}",
    "../package-lock.json": "{}",
}
IS_NEEDED = sorted(it for it in NODE if not it.startswith(("other/", "../")))
NO_DEBIAN = "dist: no Debian package is made: there is no dpkg-deb"
NO_NODE = "dist: no package for VS Code is made: editors/vscode/node_modules has no vscode-languageclient; `npm install --omit=dev` there fetches it"
# What `./install` says, and the archive's install in its place
OWN_WORDS = {"'{}/p\\nq' has a control character, or isn't UTF-8": "the prefix has a control character"}
FIELDS = {"Package": "abnf-ls", "Version": version(), "Architecture": "amd64", "Section": "editors", "Priority": "optional"}
LICENCE = "None is given yet; the owner of the repository decides."
# How many rows need each of these, which may not be there
NEED = {"dpkg-deb": 31, "dpkg": 9, "lintian": 1, "node": 1}
# What lintian says of the package, which lacks a licence
NO_LICENCE = b"W: abnf-ls: copyright-without-copyright-notice\n"

# A session, and a draft, with what is found in them
TEXT = 'a = nope / "x"'
SAID = (session_rows.INITIALIZE, session_rows.INITIALIZED, session_rows.opened(TEXT), session_rows.SHUTDOWN, session_rows.EXIT)
ANSWERED = (session_rows.CAPABILITIES, session_rows.published((0, 4, 8, 1, "undefined", "undefined rule nope")), session_rows.DOWN)
DRAFT = f"# A draft\n\n```abnf\n{TEXT}\n```\n"
FOUND = "{}:4:5: error: undefined rule nope [undefined]\n"
# One with a name of a grammar that is installed
NAMED = "# A draft\n\n```abnf\na = token\n```\n"


def of_archive(row):
    """A row of `./install` in the words of the archive's install."""
    what, before, calls, behind = row
    return what, before, [(words, (status, [OWN_WORDS.get(it, it) for it in said])) for words, (status, said) in calls], behind


class Checkout:
    """A copy of what is read to make packages, with these programs as the built ones."""

    def __init__(self, folder, programs, node=NODE):
        self.path, self.bin = os.path.join(folder, "a checkout"), os.path.join(folder, "bin")
        install_rows.copied(programs, self.path, MORE)
        write(os.path.join(self.path, SUMS), sums.written({name: sum_of(it) for name, it in zip(PROGRAMS, programs)}, "a kit"))
        packages = os.path.join(self.path, "editors", "vscode", "node_modules")
        shutil.rmtree(packages, ignore_errors=True)
        for path, text in node.items():
            os.makedirs(os.path.dirname(os.path.join(packages, path)), exist_ok=True)
            write(os.path.join(packages, path), text)
        os.mkdir(self.bin)
        for name in filter(shutil.which, NEEDED):
            os.symlink(shutil.which(name), os.path.join(self.bin, name))

    def dist(self, *words, mask=0o022, **env):
        """The status of a call, and the lines on its standard error."""
        env = {"PATH": self.bin, "HOME": self.path, "LC_ALL": "C.UTF-8", **env}
        ran = subprocess.run(
            [os.path.join(self.path, "dist"), *words],
            cwd="/", env=env, stdin=subprocess.DEVNULL, capture_output=True, timeout=SECONDS, check=False, preexec_fn=lambda: os.umask(mask),
        )
        return ran.returncode, tuple(ran.stderr.decode().splitlines())

    def made(self):
        """What was made: the bytes of each file, by its name."""
        folder = os.path.join(self.path, "out", "dist")
        return {it: read(folder, it) for it in sorted(os.listdir(folder))} if os.path.isdir(folder) else {}


def where(program, cases, may=True):
    """These cases where there is such a program, and it may do that, and else one for all of them; and whether they are as many as are counted then."""
    why = f"this is not root, as {program} needs" if shutil.which(program) else f"there is no {program}"
    there = list(cases) if shutil.which(program) and may else [(f"NOT TRIED, since {why}", True, True, NEED[program])]
    yield from there
    yield f"how many rows need {program}", sum(rows.Case(*it).count for it in there), NEED[program]


# ---- what is made

LEFT_OUT = () if shutil.which("dpkg-deb") else (NO_DEBIAN,)
ALL = tuple(sorted({ARCHIVE, EXTENSION, SUMS} | ({DEBIAN} if not LEFT_OUT else set())))


def make_cases(first, second):
    """The packages are there, have the sums that are listed, and are the same wherever and whenever they are made."""
    yield "a make", first.dist(), (0, LEFT_OUT)
    made = first.made()
    yield "its packages", tuple(made), ALL
    listed = dict(reversed(it.split("  ")) for it in made[SUMS].decode().splitlines())
    yield "their sums", listed, {it: hashlib.sha256(data).hexdigest() for it, data in made.items() if it != SUMS}
    yield "their sums, by sha256sum", by_sha256sum(os.path.join(first.path, "out", "dist"), "--strict"), (0, [f"{it}: OK" for it in listed])
    yield "a second make", first.dist(), (0, LEFT_OUT)
    yield "the same bytes again", different(first.made(), made), []
    yield "a make elsewhere, with another mask of modes and another time zone", second.dist(mask=0o077, TZ="Asia/Tokyo"), (0, LEFT_OUT)
    yield "the same bytes there", different(second.made(), made), []
    yield "a make of another time", second.dist(SOURCE_DATE_EPOCH=str(OTHER_TIME)), (0, LEFT_OUT)
    yield "other bytes", different(second.made(), made), [*ALL]
    yield "that time in the archive", {it.mtime for it in members(second.made()[ARCHIVE])}, {OTHER_TIME}


def by_sha256sum(folder, *words):
    """What sha256sum says of the files in a folder, by the sums that are listed there."""
    ran = subprocess.run(["sha256sum", "--check", *words, SUMS], cwd=folder, capture_output=True, timeout=SECONDS, check=False)
    return ran.returncode, ran.stdout.decode().splitlines()


def different(made, others):
    """The names whose bytes differ."""
    return sorted(it for it in {*made, *others} if made.get(it) != others.get(it))


def refuse_cases(checkout, programs):
    """What `./dist` leaves out of a checkout without packages of Node, and what it doesn't pack."""
    yield "a make without packages of Node", checkout.dist(), (0, (*LEFT_OUT, NO_NODE))
    yield "no package for VS Code then", tuple(checkout.made()), tuple(it for it in ALL if it != EXTENSION)
    with contextlib.suppress(FileNotFoundError):
        os.remove(os.path.join(checkout.bin, "dpkg-deb"))
    yield "a make without dpkg-deb", checkout.dist(), (0, (NO_DEBIAN, NO_NODE))
    made = checkout.made()
    yield "no Debian package then", tuple(made), (ARCHIVE, SUMS)
    for words in (["--help"], ["x"], [""]):
        yield f"the arguments {words}", checkout.dist(*words), (5, ("dist: usage: ./dist",))
    said = "dist: SOURCE_DATE_EPOCH has no number of seconds: today; nothing is made"
    yield "a time that is none", checkout.dist(SOURCE_DATE_EPOCH="today"), (1, (said,))
    write(os.path.join(checkout.path, SUMS), sums.written({"abnf_ls": 64 * "0", "abnf_findings": sum_of(programs[1])}, "a kit"))
    said = f"dist: abnf_ls: its sum is {sum_of(programs[0])}, and {64 * '0'} in sums.txt, by a kit; nothing is made"
    yield "a program of another sum", checkout.dist(), (1, (said,))
    os.remove(os.path.join(checkout.path, "out", "abnf_findings.sources"))
    said = (install_rows.UNBUILT[0], "dist: abnf_findings could not be built; nothing is made")
    yield "a program that isn't built", checkout.dist(), (127, said)
    yield "what was made before stays", different(checkout.made(), made), []


# ---- the archive


def members(archive):
    with tarfile.open(fileobj=io.BytesIO(archive)) as tar:
        return tar.getmembers()


def archived(path):
    """Where a file lies in the archive that is put at this path under a prefix."""
    for end, to in (("bin/", ""), ("share/man/man1/", "man/"), ("share/abnf_ls/", "")):
        if path.startswith(end):
            return to + path[len(end) :]
    return path


def archive_cases(archive, checkout):
    """What the archive has: the files as they are in the checkout, each of a fixed owner, mode and time."""
    found = members(archive)
    paths = [it.name for it in found]
    yield "no name and no time in the archive's head", archive[3:8], bytes(5)
    yield "its paths in their order", paths, sorted(paths)
    yield "owners and times", {(it.uid, it.gid, it.uname, it.gname, it.mtime) for it in found}, {(0, 0, "root", "root", TIME)}
    files = {archived(it) for it in FILES if it != "share/abnf_ls/installed"} | {"install", "sums.txt"}
    yield "its files", sorted(it.name for it in found if it.isfile()), sorted(f"{FOLDER}/{it}" for it in files)
    is_run = {f"{FOLDER}/{it}" for it in (*PROGRAMS, "install")}
    yield "what can be run", {it.name for it in found if it.isfile() and it.mode == 0o755}, is_run
    yield "other modes", {it.mode for it in found if it.name not in is_run}, {0o644, 0o755}
    with tempfile.TemporaryDirectory() as folder:
        with tarfile.open(fileobj=io.BytesIO(archive)) as tar:
            tar.extractall(folder)
        lies = {"install": "tools/install.sh", **{it: f"out/{it}" for it in PROGRAMS}}
        lies |= {it: f"{install_rows.folder_of(it[len('grammars/'):])}/{it[len('grammars/'):]}" for it in files if it.startswith("grammars/")}
        others = [it for it in sorted(files) if read(folder, FOLDER, it) != read(checkout.path, lies.get(it, it))]
        yield "files with other bytes than in the checkout", others, []
        yield "its programs, by sha256sum", by_sha256sum(os.path.join(folder, FOLDER)), (0, [f"{it}: OK" for it in PROGRAMS])


def install_cases(place, other, programs):
    """The archive's install does what `./install` does, the other one, and each knows what the other has put in place."""
    yield from install_rows.row_cases(place, map(of_archive, install_rows.ROWS))
    yield from install_rows.content_cases(place, programs)
    place.lay({})
    said = (f"install: stopped; in place under {place.path}/p by now: nothing new", f"install: {place.path}/p/bin/abnf_findings: cannot be written")
    status, lines = place.call(["p"], 4096)
    yield "a file that can't be written", (status > 0, lines[-2:]), (True, said)
    yield "a file that can't be written, what lies there", place.lies({}), {}
    other.path = place.path
    for one, two in ((place, other), (other, place)):
        place.lay({})
        yield "an install", one.call(["x/p"]), DONE
        before = whole(place.path)
        yield "an install by the other one", two.call(["x/p"]), DONE
        yield "the same files", different(whole(place.path), before), []
        yield "an uninstall by the first one", one.call(["--uninstall", "x/p"]), DONE
        yield "what lies there", place.lies({}), {}


def whole(folder):
    """The bytes and the mode of each file in a folder, by its path."""
    paths = (os.path.join(at, it) for at, _, files in os.walk(folder) for it in files)
    return {os.path.relpath(it, folder): (read(it), os.stat(it).st_mode) for it in paths}


def use_cases(what, folder):
    """A session and a draft with the programs of a folder."""
    server, findings = (os.path.join(folder, it) for it in PROGRAMS)
    session = by_turns(server, threaded_sessions.turns(SAID, ANSWERED))
    yield f"a session, {what}", session, (0, b"", frames(ANSWERED))
    with rows.files() as files:
        draft = files.written("draft.md", DRAFT)
        yield f"a draft, {what}", outcome(findings, None, [draft]), (1, b"", FOUND.format(draft).encode())
        named = files.written("named.md", NAMED)
        yield f"a name of another standard, {what}", outcome(findings, None, ["--strict", "--with", "rfc9110", named]), (0, b"", b"")
    status, _, said = outcome(findings, None, ["--version"])
    yield f"the version, {what}", (status, said.decode().partition(" (")[0]), (0, f"abnf_findings {version()}")


# ---- the Debian package


def by_dpkg(option, deb, *more):
    return subprocess.run(["dpkg-deb", option, deb, *more], stdout=subprocess.PIPE, timeout=SECONDS, check=True).stdout


def debian_cases(folder, checkout):
    """What the Debian package has, and the programs as they are unpacked of it."""
    deb, root = os.path.join(checkout.path, "out", "dist", DEBIAN), os.path.join(folder, "unpacked")
    fields = dict(re.findall(r"(?m)^ ([A-Z][\w-]*): (.*)$", by_dpkg("-I", deb).decode()))
    yield "its fields", {it: fields.get(it) for it in FIELDS}, FIELDS
    yield "what it needs", bool(re.fullmatch(r"libc6(?: \(>= 2\.[0-9]+\))?", fields.get("Depends", ""))), True
    yield "who hands it on, and its size", all(it in fields for it in ("Maintainer", "Installed-Size", "Description")), True
    found = members(by_dpkg("--fsys-tarfile", deb))
    paths = [it.name.split("/") for it in found]
    yield "its paths in their order, folder by folder", paths, sorted(paths)
    yield "owners and times of its files", {(it.uid, it.gid, it.mtime) for it in found}, {(0, 0, TIME)}
    is_run = {f"./usr/bin/{it}" for it in PROGRAMS}
    yield "which of its files can be run", {it.name for it in found if it.isfile() and it.mode == 0o755}, is_run
    yield "other modes of it", {(it.isdir(), it.mode) for it in found if it.name not in is_run}, {(True, 0o755), (False, 0o644)}
    by_dpkg("-x", deb, root)
    own = {f"usr/{it}{'.gz' * it.startswith('share/man/')}" for it in FILES if it != "share/abnf_ls/installed"}
    told = {f"usr/share/{it}" for it in ("abnf_ls/sums.txt", "doc/abnf-ls/changelog.gz", "doc/abnf-ls/copyright", "lintian/overrides/abnf-ls")}
    yield "what it puts in place", {*whole(root)}, own | told
    changes = gzip.decompress(read(root, "usr", "share", "doc", "abnf-ls", "changelog.gz")).decode()
    yield "its version in the list of changes", changes.partition("\n")[0], f"abnf-ls ({version()}) unstable; urgency=low"
    yield "its time there", changes.endswith("  Thu, 01 Jan 2026 00:00:00 +0000\n"), True
    sums_of = {path: hashlib.md5(data).hexdigest() for path, (data, _) in whole(root).items()}
    yield "its sums for dpkg", by_dpkg("-I", deb, "md5sums").decode(), "".join(f"{sums_of[it]}  {it}\n" for it in sorted(sums_of))
    yield "its programs", [read(root, "usr", "bin", it) == read(checkout.path, "out", it) for it in PROGRAMS], [True, True]
    pages = [read(root, "usr", "share", "man", "man1", f"{it}.1.gz") for it in PROGRAMS]
    yield "its manual pages", [gzip.decompress(it) for it in pages], [read(TOP, "man", f"{it}.1") for it in PROGRAMS]
    named = {it: named_in(read(root, "usr", it), "/usr/bin") for it in FILES if it.startswith("share/abnf_ls/editors/")}
    wanted = {it: named_in(read(TOP, archived(it)), "/path/to/abnf_ls/out") for it in named}
    yield "the programs in its files for editors", named, wanted
    places = os.path.join(root, "usr", "share", "doc", "abnf-ls", "copyright"), os.path.join(TOP, "README.md")
    yield "its licence, as README says it", [LICENCE in text_of(it) for it in places], [True, True]
    yield from use_cases("of the Debian package", os.path.join(root, "usr", "bin"))
    yield from where("dpkg", dpkg_cases(folder_in(folder, "root"), deb, whole(root)), os.geteuid() == 0)
    yield from where("lintian", lintian_cases(deb))


def dpkg_cases(root, deb, files):
    """The package as dpkg puts it into an empty folder, where the C library isn't told, and takes it away."""
    for it in ("info", "updates", "triggers"):
        os.makedirs(os.path.join(root, "var", "lib", "dpkg", it))
    write(os.path.join(root, "var", "lib", "dpkg", "status"), "")
    by, name = [f"--root={root}", "--force-depends", "--force-bad-path"], FIELDS["Package"]
    yield "an install by dpkg", outcome("dpkg", None, [*by, "-i", deb])[0], 0
    installed = {path: it for path, it in whole(root).items() if path.startswith("usr/")}
    yield "what dpkg has put in place", different(installed, files), []
    yield "its files by the sums for dpkg", outcome("dpkg", None, [*by, "--verify", name])[::2], (0, b"")
    yield from use_cases("as dpkg installs it", os.path.join(root, "usr", "bin"))
    yield "a purge by dpkg", outcome("dpkg", None, [*by, "-P", name])[0], 0
    yield "what it leaves", os.path.exists(os.path.join(root, "usr")), False


def lintian_cases(deb):
    """What lintian says of the package: nothing but of its licence."""
    yield "the Debian package by lintian", outcome("lintian", None, ["--allow-root", deb])[::2], (0, NO_LICENCE)


# ---- the package for VS Code


def bare(name):
    """The name of an element of XML without that of its space."""
    return name.rpartition("}")[2]


def elements(text):
    """The attributes of each element of XML, by its name."""
    return [(bare(it.tag), it.attrib) for it in xml.fromstring(text).iter()]


def extension_cases(folder, checkout, program):
    """What the package for VS Code has, read as a zip, XML and JSON; and its code, run by node."""
    unpacked = os.path.join(folder, "unpacked")
    with zipfile.ZipFile(io.BytesIO(checkout.made()[EXTENSION])) as packed:
        yield "a zip that is whole", packed.testzip(), None
        names, times = packed.namelist(), {it.date_time for it in packed.infolist()}
        packed.extractall(unpacked)
    own = ["extension.js", "language-configuration.json", "package.json", *(f"node_modules/{it}" for it in IS_NEEDED)]
    yield "the files of the extension", names, sorted(["[Content_Types].xml", "extension.vsixmanifest", *(f"extension/{it}" for it in own)])
    yield "the time of them", times, {(2026, 1, 1, 0, 0, 0)}
    package = json.loads(read(unpacked, "extension", "package.json"))
    found = elements(read(unpacked, "extension.vsixmanifest"))
    wanted = {"Id": package["name"], "Version": version(), "Publisher": package["publisher"]}
    yield "who it is", [{name: it.get(name) for name in wanted} for tag, it in found if tag == "Identity"], [wanted]
    engine = [it["Value"] for tag, it in found if tag == "Property" and it["Id"] == "Microsoft.VisualStudio.Code.Engine"]
    yield "which VS Code it is for", engine, [package["engines"]["vscode"]]
    yield "what it names", [it["Path"] for tag, it in found if tag == "Asset" and it["Path"] in names], ["extension/package.json"]
    types = [it.get("Extension") or it["PartName"] for tag, it in elements(read(unpacked, "[Content_Types].xml")) if tag in ("Default", "Override")]
    untyped = [it for it in names if os.path.splitext(it)[1][1:] not in types and f"/{it}" not in types]
    yield "what has no type: the list of them", untyped, ["[Content_Types].xml"]
    yield "its code", os.path.join("extension", package["main"][2:]) in names, True
    yield "the server by its name", package["contributes"]["configuration"]["properties"]["abnf_ls.path"]["default"], "abnf_ls"
    yield from where("node", node_cases(folder, unpacked, program))


def node_cases(folder, unpacked, program):
    """The code of the extension as it is packed, by the trial of it."""
    there = os.path.join(folder, "editors")
    shutil.copytree(os.path.join(unpacked, "extension"), os.path.join(there, "vscode"))
    os.mkdir(os.path.join(there, "try"))
    shutil.copy(os.path.join(TOP, "editors", "try", "vscode.js"), os.path.join(there, "try"))
    status, said, wrote = outcome("node", None, [os.path.join(there, "try", "vscode.js"), program])
    yield "the extension by node", (status, b"FAIL" in wrote), (0, False)


def folder_in(folder, name):
    """A new folder of this name."""
    path = os.path.join(folder, name)
    os.mkdir(path)
    return path


def cases(*programs):
    """What each case is, what was found in it, and what must be found. The programs are the server and that of findings."""
    with tempfile.TemporaryDirectory(prefix="try dist ") as folder:
        first = Checkout(folder_in(folder, "one"), programs)
        yield from make_cases(first, Checkout(folder_in(folder, "an other"), programs))
        yield from refuse_cases(Checkout(folder_in(folder, "a third"), programs, {}), programs)
        archive, unpacked = first.made()[ARCHIVE], folder_in(folder, "archive")
        yield from archive_cases(archive, first)
        with tarfile.open(fileobj=io.BytesIO(archive)) as tar:
            tar.extractall(unpacked)
        place = Place(unpacked, os.path.join(unpacked, FOLDER), USUAL)
        yield from install_cases(place, Place(folder_in(folder, "other"), first.path), programs)
        place.lay({})
        yield "an install of the archive", place.call(["p"]), DONE
        installed = os.path.join(place.path, "p", "bin")
        yield from use_cases("of the archive", installed)
        yield from where("dpkg-deb", debian_cases(folder_in(folder, "debian"), first))
        yield from extension_cases(folder_in(folder, "extension"), first, os.path.join(installed, "abnf_ls"))


def main(words):
    folder = words[0] if words else os.path.join(TOP, "out")
    return rows.report(cases(*(os.path.join(folder, it) for it in PROGRAMS)))


if __name__ == "__main__":
    sys.exit(main(sys.argv[1:]))

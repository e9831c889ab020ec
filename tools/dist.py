#!/usr/bin/env python3
"""Packs the programs to hand them on: an archive with an install of its own, a Debian package, and the extension for VS Code. ./dist calls
this.

All lie in out/dist, with their SHA-256 sums in the sums.txt there. A program that isn't built is built first, and one whose sum isn't that
of the repository's sums.txt isn't packed. What can't be made here is left out, and a line says so: the Debian package where there is no
dpkg-deb, and the extension where a package of Node that it needs isn't in editors/vscode/node_modules.

The same programs and files make the same bytes each time, with one Python and one dpkg-deb: paths are sorted, owners and modes fixed, and
each file has the time that SOURCE_DATE_EPOCH says, or else that of the commit.
"""
import contextlib
import email.utils
import gzip
import hashlib
import io
import json
import os
import re
import shutil
import subprocess
import sys
import tarfile
import tempfile
import time
import zipfile
from typing import NamedTuple
from xml.sax.saxutils import escape, quoteattr

import sums
from install import CANNOT, IN_SNIPPETS, PROGRAMS, WRONG_USE, filled, grammars, read, snippets, why
from workspace import TOP, sum_of, text_of, version

OUT = os.path.join(TOP, "out", "dist")
EXTENSION = os.path.join(TOP, "editors", "vscode")
# The time of all files where there is neither SOURCE_DATE_EPOCH nor a commit: the first second of 2026. (No zip has one before 1980.)
NO_COMMIT, LEAST_TIME = 1767225600, 315532800
# The name of the Debian package, which may have no underscore, and who hands it on
DEBIAN, OWNER = "abnf-ls", "The owner of abnf_ls <owner@abnf-ls.invalid>"
# What README says of it
LICENCE = "None is given yet; the owner of the repository decides."
COPYRIGHT = f"abnf_ls: a language server for ABNF, and abnf_findings.\n\nLicence: {LICENCE}\n"
CONTROL = """\
Package: {name}
Version: {version}
Architecture: amd64
Maintainer: {owner}
Installed-Size: {size}
Depends: {depends}
Section: editors
Priority: optional
Description: language server for ABNF, and findings in grammars and drafts
 abnf_ls speaks the Language Server Protocol over standard input and output.
 It serves grammars in ABNF, the notation of RFC 5234 and RFC 7405.
 .
 abnf_findings prints what is found in grammars, also in those of drafts in
 Markdown or RFCXML.
 .
 Files for editors are in /usr/share/abnf_ls/editors, and grammars of
 standards, whose names abnf_findings can know, in
 /usr/share/abnf_ls/grammars.
"""
CHANGELOG = """\
{name} ({version}) unstable; urgency=low

  * Version {version}.

 -- {owner}  {time}
"""
# What lintian is not to say of the package
OVERRIDES = f"""\
# The programs have their symbols, since their bytes are those whose sums are told.
{DEBIAN}: unstripped-binary-or-object
"""
TYPES = """\
<?xml version="1.0" encoding="utf-8"?>
<Types xmlns="http://schemas.openxmlformats.org/package/2006/content-types">
{types}
</Types>
"""
MANIFEST = """\
<?xml version="1.0" encoding="utf-8"?>
<PackageManifest Version="2.0.0" xmlns="http://schemas.microsoft.com/developer/vsx-schema/2011">
  <Metadata>
    <Identity Language="en-US" Id={name} Version={version} Publisher={publisher}/>
    <DisplayName>{title}</DisplayName>
    <Description xml:space="preserve">{description}</Description>
    <Categories>{categories}</Categories>
    <Properties>
      <Property Id="Microsoft.VisualStudio.Code.Engine" Value={engine}/>
    </Properties>
  </Metadata>
  <Installation>
    <InstallationTarget Id="Microsoft.VisualStudio.Code"/>
  </Installation>
  <Dependencies/>
  <Assets>
    <Asset Type="Microsoft.VisualStudio.Code.Manifest" Path="extension/package.json" Addressable="true"/>
  </Assets>
</PackageManifest>
"""
# What the files of an extension are by their endings; those of others are bytes.
MEDIA = {".js": "application/javascript", ".json": "application/json", ".md": "text/markdown", ".txt": "text/plain", ".vsixmanifest": "text/xml"}


class File(NamedTuple):
    """A file of a package: its path there, its bytes, and its mode."""

    path: str
    data: bytes
    mode: int = 0o644


def say(text):
    print(f"dist: {text}", file=sys.stderr, flush=True)


def stop(status, text):
    say(text)
    sys.exit(status)


def refuse(status, text):
    stop(status, f"{text}; nothing is made")


# ---- what goes into all packages


def build_all():
    for name in PROGRAMS:
        status = subprocess.run([os.path.join(TOP, "build"), name], stdin=subprocess.DEVNULL, check=False).returncode
        if status:
            refuse(status if status > 0 else 128 - status, f"{name} could not be built")


def refuse_others():
    """Ends where a program isn't the one whose sum the repository has."""
    listed, by = sums.parsed(text_of(sums.SUMS))
    for name in PROGRAMS:
        if other := sums.difference(name, listed.get(name), sum_of(os.path.join(TOP, "out", name))):
            refuse(CANNOT, f"{other}, by {by}")


def seconds():
    """The time of all files, in seconds since the beginning of 1970."""
    said = os.environ.get("SOURCE_DATE_EPOCH", "")
    if not said and os.path.exists(os.path.join(TOP, ".git")):
        with contextlib.suppress(FileNotFoundError):
            ran = subprocess.run(["git", "-C", TOP, "log", "-1", "--format=%ct"], stdout=subprocess.PIPE, text=True, check=False)
            said = ran.stdout.strip()
    if said and not re.fullmatch("[0-9]{1,10}", said):
        refuse(CANNOT, f"SOURCE_DATE_EPOCH has no number of seconds: {said}")
    return max(int(said or NO_COMMIT), LEAST_TIME)


def programs():
    return [File(name, read(TOP, "out", name), 0o755) for name in PROGRAMS]


def pages():
    return [File(f"{name}.1", read(TOP, "man", f"{name}.1")) for name in PROGRAMS]


def listed_sums():
    return File("sums.txt", read(sums.SUMS))


def under(folder, files):
    """The same files, in this folder."""
    return [it._replace(path=f"{folder}/{it.path}") for it in files]


def folders_of(paths):
    """The folders of these paths, and those that they are in."""
    found = set()
    for path in paths:
        while path := os.path.dirname(path):
            found.add(path)
    return found


def gzipped(data):
    """These bytes, packed without a name and a time."""
    packed = io.BytesIO()
    with gzip.GzipFile(filename="", mode="wb", compresslevel=9, fileobj=packed, mtime=0) as file:
        file.write(data)
    return packed.getvalue()


# ---- the archive


def archive(files, at):
    """The bytes of a tar.gz of these files with their folders, by their paths, all of one owner and time."""
    members = {it: (b"", 0o755, tarfile.DIRTYPE) for it in folders_of(it.path for it in files)}
    members.update({it.path: (it.data, it.mode, tarfile.REGTYPE) for it in files})
    tarred = io.BytesIO()
    with tarfile.open(fileobj=tarred, mode="w", format=tarfile.USTAR_FORMAT) as tar:
        for path, (data, mode, kind) in sorted(members.items()):
            member = tarfile.TarInfo(path)
            member.type, member.mode, member.size, member.mtime = kind, mode, len(data), at
            member.uname = member.gname = "root"
            tar.addfile(member, io.BytesIO(data))
    return gzipped(tarred.getvalue())


def archive_files(name):
    """The files of the archive, whose folder has this name. Those for editors have no path filled in: the install does that."""
    editors, known = [File(*it) for it in snippets()], [File(*it) for it in grammars()]
    install = File("install", read(TOP, "tools", "install.sh"), 0o755)
    return under(name, [*programs(), *under("man", pages()), *under("editors", editors), *under("grammars", known), listed_sums(), install])


# ---- the Debian package


def c_library():
    """The C library that the programs need, by the names of the versions of its calls in them."""
    found = {(int(it[1]), int(it[2])) for program in programs() for it in re.finditer(rb"\bGLIBC_(\d+)\.(\d+)", program.data)}
    return "libc6 (>= {}.{})".format(*max(found)) if found else "libc6"


def changelog(at):
    """The package's list of changes, which has its version alone."""
    return CHANGELOG.format(name=DEBIAN, version=version(), owner=OWNER, time=email.utils.formatdate(at).replace("-0000", "+0000"))


def debian_files(at):
    """The files that the package puts in place, by their paths from the root."""
    editors, known = [File(path, filled(it, "/usr/bin")) for path, it in snippets()], [File(*it) for it in grammars()]
    packed = [File(f"{it.path}.gz", gzipped(it.data)) for it in pages()]
    told = [File("copyright", COPYRIGHT.encode()), File("changelog.gz", gzipped(changelog(at).encode()))]
    return [
        *under("usr/bin", programs()),
        *under("usr/share/man/man1", packed),
        *under("usr/share/abnf_ls", [*under("editors", editors), *under("grammars", known), listed_sums()]),
        *under(f"usr/share/doc/{DEBIAN}", told),
        File(f"usr/share/lintian/overrides/{DEBIAN}", OVERRIDES.encode()),
    ]


def lay(folder, files, at):
    """Lays files with their folders into a folder, with their modes and all with this time."""
    for it in files:
        path = os.path.join(folder, it.path)
        os.makedirs(os.path.dirname(path), exist_ok=True)
        with open(path, "wb") as file:
            file.write(it.data)
        os.chmod(path, it.mode)
        os.utime(path, (at, at))
    for path in sorted(folders_of(it.path for it in files) | {""}, reverse=True):
        os.chmod(os.path.join(folder, path), 0o755)
        os.utime(os.path.join(folder, path), (at, at))


def debian(files, at):
    """The bytes of the Debian package of these files. (Its size is in units of 1,024 bytes.)"""
    size = sum(-(-len(it.data) // 1024) for it in files)
    control = CONTROL.format(name=DEBIAN, version=version(), owner=OWNER, size=size, depends=c_library())
    md5sums = "".join(f"{hashlib.md5(it.data).hexdigest()}  {it.path}\n" for it in sorted(files))
    with tempfile.TemporaryDirectory() as folder:
        tree, made = os.path.join(folder, "tree"), os.path.join(folder, "made.deb")
        lay(tree, [*files, *under("DEBIAN", [File("control", control.encode()), File("md5sums", md5sums.encode())])], at)
        # (one thread packs always the same, and gzip is packed by one)
        command = ["dpkg-deb", "--root-owner-group", "-Zgzip", "-z9", "--build", tree, made]
        env = {**os.environ, "SOURCE_DATE_EPOCH": str(at)}
        subprocess.run(command, env=env, stdin=subprocess.DEVNULL, stdout=subprocess.DEVNULL, check=True)
        return read(made)


# ---- the extension for VS Code


def package_of(folder):
    return json.loads(read(folder, "package.json"))


def package_at(folder, name):
    """Where the package of Node lies that code in a folder of the extension has by this name; None where there is none."""
    while folder.startswith(EXTENSION):
        path = os.path.join(folder, "node_modules", name)
        if os.path.isdir(path):
            return path
        folder = os.path.dirname(folder)
    return None


def needed():
    """The folders of the packages that the extension needs, with what these need; and the names of those that aren't there."""
    folders, missing = [EXTENSION], []
    for folder in folders:
        for name in package_of(folder).get("dependencies", {}):
            path = package_at(folder, name)
            if not path:
                missing.append(name)
            elif path not in folders:
                folders.append(path)
    return folders[1:], missing


def files_of(folder):
    """The files of a package of Node, but for other packages in it."""
    for at, folders, names in os.walk(folder):
        folders[:] = [it for it in folders if it != "node_modules"]
        for path in (os.path.join(at, it) for it in names):
            yield File(os.path.relpath(path, EXTENSION), read(path))


def extension_files(packages):
    """The files of the extension's package. The server is one on the PATH, until the extension's setting says where it lies."""
    own = [File(path[len("vscode/") :], it.replace(IN_SNIPPETS + b"/", b"")) for path, it in snippets() if path.startswith("vscode/")]
    files = under("extension", [*own, *(it for folder in packages for it in files_of(folder))])
    files.append(File("extension.vsixmanifest", manifest().encode()))
    return [File("[Content_Types].xml", content_types(files).encode()), *files]


def content_types(files):
    """What each file is: by its ending, or for itself where it has none."""
    endings = {it.path: os.path.splitext(it.path)[1].lower() for it in files}
    known = ((it[1:], MEDIA.get(it, "application/octet-stream")) for it in sorted({*endings.values()} - {""}))
    types = [f'<Default Extension={quoteattr(ending)} ContentType="{media}"/>' for ending, media in known]
    types += [f'<Override PartName={quoteattr(f"/{path}")} ContentType="text/plain"/>' for path in sorted(endings) if not endings[path]]
    return TYPES.format(types="\n".join(types))


def manifest():
    """What VS Code reads of the extension before it unpacks it, by its package.json."""
    package = package_of(EXTENSION)
    return MANIFEST.format(
        name=quoteattr(package["name"]),
        version=quoteattr(version()),
        publisher=quoteattr(package["publisher"]),
        title=escape(package["displayName"]),
        description=escape(package["description"]),
        categories=escape(",".join(package["categories"])),
        engine=quoteattr(package["engines"]["vscode"]),
    )


def zipped(files, at):
    """The bytes of a zip of these files, by their paths, all of one time."""
    packed = io.BytesIO()
    with zipfile.ZipFile(packed, "w") as archived:
        for it in sorted(files):
            member = zipfile.ZipInfo(it.path, time.gmtime(at)[:6])
            member.create_system, member.external_attr = 3, (0o100000 | it.mode) << 16
            archived.writestr(member, it.data, zipfile.ZIP_DEFLATED, 9)
    return packed.getvalue()


# ---- all of them


def packages(at):
    """The name and the bytes of each package."""
    name = f"abnf_ls-{version()}-linux-x86_64"
    yield f"{name}.tar.gz", archive(archive_files(name), at)
    if shutil.which("dpkg-deb"):
        yield f"{DEBIAN}_{version()}_amd64.deb", debian(debian_files(at), at)
    else:
        say("no Debian package is made: there is no dpkg-deb")
    packages_of_node, missing = needed()
    if not missing:
        yield f"{package_of(EXTENSION)['name']}-{version()}.vsix", zipped(extension_files(packages_of_node), at)
    else:
        say(f"no package for VS Code is made: editors/vscode/node_modules has no {' and no '.join(missing)}; `npm install --omit=dev` there fetches it")


def put(files):
    """Puts these files, by their names, into out/dist, in place of all that was there."""
    new = f"{OUT}.new"
    shutil.rmtree(new, ignore_errors=True)
    os.makedirs(new)
    for name, data in files.items():
        with open(os.path.join(new, name), "wb") as file:
            file.write(data)
    shutil.rmtree(OUT, ignore_errors=True)
    os.rename(new, OUT)


def main(words):
    if words:
        stop(WRONG_USE, "usage: ./dist")
    build_all()
    refuse_others()
    made = dict(packages(seconds()))
    made["sums.txt"] = "".join(f"{hashlib.sha256(data).hexdigest()}  {name}\n" for name, data in made.items()).encode()
    put(made)
    print(f"{', '.join(made)} are in {OUT}")


if __name__ == "__main__":
    try:
        main(sys.argv[1:])
    except OSError as fault:
        refuse(CANNOT, why(fault))
    except subprocess.CalledProcessError as fault:
        refuse(CANNOT, f"dpkg-deb ended with the status {fault.returncode}")

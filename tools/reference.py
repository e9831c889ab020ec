#!/usr/bin/env python3
"""Makes a reference of all crates from their sources: what each is for, its public types, functions, laws and definitions.

    tools/reference.py [FOLDER]

A function stands with the comment above it, its signature and its contract as they are in the code, and the edits of it that the prover
must refuse; a type with what contracts see of it (its `impl Model`); a definition with the comment above it, and the edits that change it. The folder (out/reference where none is named) then has
`index.html`, with a search over all names, a page for each crate, in which a word that is defined leads to its definition, and all of it as
plain text in `reference.txt`, for grep. It takes seconds and proves nothing.
"""
import html
import os
import re
import sys
from typing import NamedTuple

from edits import syntax
from edits.files import edits_in, read
from edits.functions import Source, module_of
from workspace import EDITS, TOP, crates, text_of, write

FOLDER = os.path.join(TOP, "out", "reference")
KINDS = ("struct", "enum", "trait", "type")
# What a crate's root hands on of its modules, and which of these are public.
HANDED_ON = re.compile(r"(?ms)^pub use \w[\w:]*::(?:\{(.*?)\}|(\w+));")
OPEN_MODULE = re.compile(r"(?m)^pub mod (\w+);")
# In a file of definitions: the first line of one, that of several which name each other, of each of these, and of several with the same
# parameters. A line may stand before the first one that says how an operator binds.
FORM = r"(?:(?:unfoldable|abbrev) )*pub (?:(?:record|data) )?(?!mod\b)(\S+)"
DEFINES = re.compile(rf"(?:infix\w* .*\n)?{FORM}")
CYCLE, IN_A_CYCLE = re.compile(r"(?:infix\w* .*\n)?(?:\w+ )*mutual\n"), re.compile(rf"(?m)^  {FORM}")
WITH_PARAMETERS = re.compile(r"module _ .*where\n")
# A field that isn't public, with the comments and attributes above it.
PRIVATE_FIELD = re.compile(r"(?m)^(?: {4}(?:///|#\[).*\n)* {4}(?:pub\(\w+\) )?\w+: .*\n")
# What contracts see of a type, and what isn't shown of that.
MODEL = re.compile(r"(?ms)^impl(?:<[^>]*>)? Model for (\w+)[^{]*\{\n.*?^\}$")
NOT_SHOWN = re.compile(r"(?m)^    (?:ghost use|//) .*\n\n?")
# The first lines of the plain text.
HOW_TO = "Each entry begins with a line of its name: grep -n -- '---- .*NAME ' reference.txt\n"
WORD = re.compile(r"[^\W\d][\w.-]*")
TYPES, FUNCTIONS, LAWS, DEFINITIONS = SECTIONS = ("Types", "Functions", "Laws", "Definitions")


class Entry(NamedTuple):
    """Something that a crate says: its section, its name, its file, the comment above it, its text, and the edits of it."""

    section: str
    name: str
    path: str
    comment: str
    text: str
    edits: tuple


class Crate(NamedTuple):
    """A crate: the first lines of its root, the crates that it stands on, and its entries."""

    name: str
    about: str
    below: list
    entries: list


def parted(text, mark):
    """The comment that a text begins with, whose lines begin with a mark, and all else, without what its first line is indented by."""
    indent = re.match(" *", text)[0]
    lines = [it.removeprefix(indent) for it in text.rstrip().split("\n")]
    above = [it.removeprefix(mark).removeprefix(" ") for it in lines if it.startswith(mark)]
    return "\n".join(above), "\n".join(it for it in lines if not it.startswith(mark))


# ---- code


class Reader(syntax.Reader):
    """Reads the types and constants of a source too: each by its name, and where it begins and ends."""

    def __init__(self, text, tokens):
        super().__init__(text, tokens)
        self.values = []

    def item(self, first, attributes, at, opens, behind, blocks):
        super().item(first, attributes, at, opens, behind, blocks)
        # (the word of a constant is passed over, as it may stand before a function)
        is_constant = self.words[at - 1] == "const" and self.words[at] != "fn"
        if not blocks and (self.words[at] in KINDS or is_constant):
            name = self.words[at if is_constant else at + 1]
            self.values.append((name, self.above(self.tokens[first].start), self.tokens[behind - 1].end))


class Door:
    """What other crates can name of a crate: what its root hands on, and what stands in public modules and in the root itself."""

    def __init__(self, root):
        self.names = {it for several, one in HANDED_ON.findall(root) for it in re.findall(r"\w+", several or one)}
        self.modules = {*OPEN_MODULE.findall(root)}

    def has(self, name, module):
        return not module or name in self.names or module[0] in self.modules


def functions_of(source, door, edits):
    """The public functions and laws of a crate, and the methods by which its public types have traits."""
    for path, functions in source.files.items():
        for name, it in functions.items():
            head, is_of_trait = it.text[it.place.start : it.place.name_start].rpartition("\n")[2], len(it.block or ()) > 1
            if door.has(it.block[0] if it.block else it.place.name, it.module) and (is_of_trait or "pub " in head):
                comment, text = parted(it.text[it.place.start : it.place.body_start - 1], "///")
                yield Entry(LAWS if it.is_law() else FUNCTIONS, name, path, comment, text, tuple(edits.get(name, ())))


def types_of(source, door):
    """The public types and constants of a crate."""
    for (path, text), tokens in zip(source.texts.items(), syntax.tokens_of([*source.texts.values()])):
        models = {it[1]: f"\n\n{NOT_SHOWN.sub('', it[0])}" for it in MODEL.finditer(text)}
        reader = Reader(text, tokens)
        reader.items(0, len(tokens))
        for name, start, end in reader.values:
            comment, found = parted(text[start:end], "///")
            if re.search("(?m)^pub ", found) and door.has(name, module_of(path)):
                yield Entry(TYPES, name, path, comment, PRIVATE_FIELD.sub("", found) + models.get(name, ""), ())


# ---- definitions


def chunks(text):
    """The pieces of a file of definitions: each to the next empty line behind which something isn't indented. What several have in common,
    which are indented below their parameters, stands in front of each, and the comment above it in front of the first."""
    for piece in (it for it in re.split(r"\n\n(?=\S)", text) if it.strip()):
        above, code = parted(piece, "--")
        head = WITH_PARAMETERS.match(code)
        for it in re.split(r"\n\n(?=  \S)", code[head.end() :]) if head else ():
            comment, inner = parted(it, "--")
            yield "".join(f"-- {line}\n" for line in (above, comment) if line for line in line.split("\n")) + head[0] + indented(inner)
            above = ""
        if not head:
            yield piece


def indented(text):
    return "\n".join(f"  {it}" if it else it for it in text.split("\n"))


def names_in(chunk):
    """The public names that a piece of a file of definitions defines."""
    code = WITH_PARAMETERS.sub("", parted(chunk, "--")[1], 1)
    code = parted(code, "--")[1]
    found = DEFINES.match(code)
    return IN_A_CYCLE.findall(code) if CYCLE.match(code) else [found[1]] if found else []


def definitions_of(folder, edits):
    """The public definitions of a crate. Those that name each other are one entry."""
    for at, _, files in os.walk(f"{folder}/specs"):
        for path in (os.path.relpath(f"{at}/{it}", folder) for it in files):
            for chunk in chunks(text_of(f"{folder}/{path}")):
                names = names_in(chunk)
                if names:
                    yield Entry(DEFINITIONS, ", ".join(names), path, *parted(chunk, "--"), tuple(edits.get((path, names[0]), ())))


def edits_of(source):
    """The edits of each function of a crate by its name, and of each definition by its file and its first name."""
    folder, made = f"{source.folder}/{EDITS}", {}
    found = {it: read(f"{folder}/{it}", source.folder)[0] for it in edits_in(folder)[0]}
    source.read([text for texts in found.values() for path, text in texts.items() if path in source.files])
    for file, texts in found.items():
        changed = {*source.changed(texts)}
        for path, text in ((it, text) for it, text in texts.items() if it.startswith("specs/")):
            before = {*chunks(text_of(f"{source.folder}/{path}"))}
            changed |= {(path, name) for it in chunks(text) if it not in before for name in names_in(it)[:1]}
        for it in changed:
            made.setdefault(it, []).append(file.removesuffix(".edit"))
    return made


def root_of(source):
    return source.texts.get("src/lib.rt") or source.texts["src/main.rt"]


def entries_of(source, edits):
    """The entries of a crate, where these are its edits."""
    door = Door(root_of(source))
    entries = [*types_of(source, door), *functions_of(source, door, edits), *definitions_of(source.folder, edits)]
    return sorted(entries, key=lambda it: (SECTIONS.index(it.section), it.path, it.name))


def crate_of(name, folder, below):
    source = Source(name, folder)
    about = parted(re.match(r"(?://!.*\n)*", root_of(source))[0], "//!")[0]
    return Crate(name, about, below, entries_of(source, edits_of(source)))


# ---- pages

STYLE = (
    "body{font:15px/1.5 sans-serif;max-width:60em;margin:2em auto;padding:0 1em}pre{background:#f5f5f2;padding:.7em;overflow-x:auto}"
    "a{color:#034}h3{margin-bottom:.2em}.at{color:#666;font-size:85%}li{list-style:none}input{font-size:110%;width:100%}"
)
# A name that is just what is typed comes first, then names that begin so, then all that have it somewhere.
SEARCH = (
    "const list=document.querySelector('ul'),all=[...list.children];const rank=(it,word)=>it.dataset.name===word?0:"
    "it.dataset.name.startsWith(word)?1:it.textContent.toLowerCase().includes(word)?2:3;document.querySelector('input').oninput=event=>{"
    "const word=event.target.value.toLowerCase(),ranked=all.map((it,at)=>[rank(it,word),at,it]).sort((a,b)=>a[0]-b[0]||a[1]-b[1]);"
    "for(const[found,,it]of ranked){it.hidden=found===3;list.append(it)}}"
)


def page(title, *body):
    head = f'<!DOCTYPE html><html lang="en"><meta charset="utf-8"><title>{title}</title><style>{STYLE}</style>'
    return "\n".join([f"{head}<body><h1>{title}</h1>", *body, "</body></html>\n"])


class Links:
    """Where each name is defined, and by that the links in a text."""

    def __init__(self, made):
        self.places = {}
        for crate in made:
            for entry in crate.entries:
                for name in entry.name.split(", "):
                    self.places.setdefault(name.rpartition("::")[2], {}).setdefault(crate.name, entry.name)

    def place(self, crate, word):
        """The place of a word as a crate means it: its own, or that of a crate that it stands on; None where it is no name."""
        found = self.places.get(word, {})
        owner = next((it for it in (crate.name, *crate.below) if it in found), None)
        return f"{owner}.html#{html.escape(found[owner])}" if owner else None

    def linked(self, crate, text):
        def with_link(it):
            place = self.place(crate, it[0])
            return f'<a href="{place}">{it[0]}</a>' if place else it[0]

        # (no mark of HTML is within a word)
        return "".join(WORD.sub(with_link, it) if number % 2 == 0 else it for number, it in enumerate(re.split(r"(&\w+;)", html.escape(text))))


def crate_page(crate, links):
    below = ", ".join(f'<a href="{it}.html">{it}</a>' for it in crate.below) or "nothing"
    body = [f'<p><a href="index.html">All crates</a></p><p>{html.escape(crate.about)}</p><p>Stands on: {below}.</p>']
    for section in SECTIONS:
        some = [it for it in crate.entries if it.section == section]
        body += [f"<h2>{section}</h2>"] if some else []
        for it in some:
            name, edits = html.escape(it.name), f"Edits that are refused: {', '.join(it.edits)}." if it.edits else ""
            body.append(f'<h3 id="{name}">{name}</h3><p class="at">crates/{crate.name}/{it.path}</p><p>{html.escape(it.comment)}</p>')
            body.append(f'<pre>{links.linked(crate, it.text)}</pre><p class="at">{edits}</p>')
    return page(crate.name, *body)


def index_page(made):
    # (by what it is called in its module, and there types first)
    found = [(html.escape(it.name), crate.name, it.section) for crate in made for it in crate.entries]
    called = sorted(((name.rpartition("::")[2].lower(), SECTIONS.index(section)), name, crate, section) for name, crate, section in found)
    names = [
        f'<li data-name="{word}"><a href="{crate}.html#{name}">{name}</a> <span class="at">{crate}, {section}</span></li>'
        for (word, _), name, crate, section in called
    ]
    about = [f'<p><a href="{it.name}.html">{it.name}</a>: {html.escape(it.about.partition(chr(10) * 2)[0])}</p>' for it in made]
    return page("Reference", '<input placeholder="a name" autofocus>', *about, "<ul>", *names, f"</ul><script>{SEARCH}</script>")


def plain(crate):
    """A crate as plain text."""
    yield f"{'=' * 20} {crate.name}\n\n{crate.about}\n\nStands on: {', '.join(crate.below) or 'nothing'}\n"
    for it in crate.entries:
        edits = f"\n\nEdits that are refused: {', '.join(it.edits)}" if it.edits else ""
        yield f"---- {it.name} ({it.section}, crates/{crate.name}/{it.path})\n{it.comment}\n\n{it.text}{edits}\n"


def main(folder=FOLDER):
    uses = crates()
    made = [crate_of(it, f"{TOP}/crates/{it}", [name for name in below if name in uses]) for it, below in uses.items()]
    os.makedirs(folder, exist_ok=True)
    links = Links(made)
    for it in made:
        write(f"{folder}/{it.name}.html", crate_page(it, links))
    write(f"{folder}/index.html", index_page(made))
    write(f"{folder}/reference.txt", "\n".join([HOW_TO, *(line for it in made for line in plain(it))]))
    print(f"{folder}/index.html: {len(made)} crates, {sum(len(it.entries) for it in made):,} entries")
    return 0


if __name__ == "__main__":
    sys.exit(main(*sys.argv[1:]))

#!/usr/bin/env python3
"""Compares what README, CONTRIBUTING and the pages of docs/ name with what there is, and how they are laid out.

    tools/documents.py

It fails where

- a link leads to no file, or to no heading of its page;
- a path in backticks is none of the tree;
- a word in backticks on a page of WORDED is none of the code, of specs or of proofs;
- a table of PROOFS names a law that its crates don't have, or one of DEFINITIONS other codes, severities or texts than the code has;
- what TRUST or CONTRACTS quotes as code stands so in no crate;
- the code of a crate names what its item in ARCHITECTURE says that it must never know, or the file to open first isn't there, or
  ARCHITECTURE has a crate neither in such an item nor among those of tests;
- code that stands by itself in TRUST or CONTRACTS doesn't say in which language it is;
- no page names a tool;
- a paragraph has more than MOST_WORDS words, a line more than MOST_COLUMNS columns, or README more than MOST_LINES lines.

A check that finds nothing to look at would pass, so each has a least count of what it must have looked at (LEAST).

It takes seconds and no proof, so the gate runs it first.
"""
import collections
import os
import re
import sys
from typing import Any, NamedTuple

from rows import TOP, report_faults

ARCHITECTURE, DEFINITIONS, PROOFS, README = "docs/ARCHITECTURE.md", "docs/DEFINITIONS.md", "docs/PROOFS.md", "README.md"
QUOTING = ("docs/TRUST.md", "docs/CONTRACTS.md")
# The pages whose words in backticks are words of the repository: all but those that name words of editors and of a shell, and crates of a gate
# that ran before
WORDED = (*QUOTING, DEFINITIONS, PROOFS, ARCHITECTURE, *(f"docs/{it}.md" for it in ("DECISIONS", "TESTING", "COSTS")), "CONTRIBUTING.md")
MOST_WORDS, MOST_COLUMNS, MOST_LINES = 80, 100, 180
# What the checks must have looked at, and at least how many of each: where fewer are found, a page says them in a form that none reads.
LINKS, PATHS, WORDS, LAWS, ROWS = "links", "paths in backticks", "words in backticks", "laws in tables", "rows of codes"
QUOTES, KNOWLEDGE, PARAGRAPHS = "pieces of code that are quoted", "items on what a crate must never know", "paragraphs"
LEAST = {LINKS: 130, PATHS: 430, WORDS: 900, LAWS: 41, ROWS: 23, QUOTES: 15, KNOWLEDGE: 41, PARAGRAPHS: 700}
# What DEFINITIONS has tables of: the file, the definition of the text of each, and that of what stands beside it.
TABLES = (
    ("crates/abnf_lint/specs/Messages.antt", "code_text", "severity_of"),
    ("crates/ls_bodies/specs/Refusal.antt", "refusal_text", "code_of"),
)
NOT_READ = ("out", "__pycache__", ".git", "node_modules")
ENDINGS = ("rt", "antt", "py", "md", "sh", "toml", "json", "lua", "el", "vim", "xml", "txt", "abnf", "rs", "edit", "yml")

# Words in backticks that are none of the repository: those of Rattle, its libraries and tools, of Rust, of the system and of the protocol
OTHER_WORDS = frozenset(
    """
    abbrev AllocError antt Appends apt Arc arrayvec artwork axiom axioms bugs cargo clang clap Clone clone Condvar Content-Length core
    custom Debug didChange dpkg-deb Drop ensures Err errno extern false fast_float foreign forever functions ghost git Global grind HANDLES hides
    hole HostRuntime IfErr IfNone IfOk IfSome impl indexmap invariant itoa json key levenshtein_row logbook logic match may_wait memchr
    Model model Mutex new None now npm Ok old omega OnErr OnOk OnSome Option proof pub rand_core rand_pcg rattle rattle-kit-13b Read record
    refl requires Result result rt ryu search Send serde serde_json Serialize Serializer simdutf8 simp SipHash slice_get_read smallvec
    Some sourcecode spec src start_io std String strsim subst Sync tests_may thiserror Threads tmux to_vec true u32 u64 unfoldable
    unfolding unsafe usize Vec view Wait worked_ Write
    """.split()
)
# What paths begin with that aren't in the repository: those of the system, of a user, of the kit, and what is built
NOT_HERE = ("/", "~", ".git/", "out/", "bin/", "init.lua", "./-")
COMMANDS = ("rt ", "git ", "grep ", "python3 ", "taskset ", "./", "tools/", "bench/", "editors/", "man ", "cp ", "rm ")

# What the code of a crate names where it knows such a thing, which ARCHITECTURE says that it must never
KNOWS = {
    "JSON": r"\bserde(?:_json)?\b",
    "threads": r"\b(?:thread|Threads|Mutex|Condvar|Wait)\b",
    "devices": r"\b(?:ls_devices|ls_plain|ls_server|DeviceFault)\b",
    "the server": r"\bls_(?!lists\b|text\b)\w+",
    "the desk": r"\bls_desk\b",
    "which documents are open": r"\b(?:Desk|Document)\b",
    "documents": r"\b(?:Document|Snapshot)\b",
    "what a content says": r"\b(?:ls_rpc|serde)\b",
    "how an answer is found": r"\b(?:Grammar|Cert|abnf_least|abnf_names)\b",
    "which answer is given": r"\bls_answers\b",
    "how a certificate is found": r"\babnf_least\b",
    "grammars": r"\bGrammar\b",
    "what ABNF is": r"\babnf_",
    "blocks": r"\bBlock\b",
    "places": r"\bPlace\b",
    "positions": r"\bPosition\b",
    "what positions count": r"\bEncoding\b",
    "Markdown": r"\bmarkdown_blocks\b",
    "where texts come from": r"\b(?:origins|markdown_blocks|xml_blocks|text_files)\b|\bstd::(?:io|fs)\b",
    "findings": r"\b(?:abnf_lint|Finding)\b",
    "what is printed of a file": r"\b(?:Printed|print_\w+)\b",
    "how files are read": r"\bstd::(?:io|fs)\b",
    "how a program ends": r"\b(?:ExitCode|Ending)\b",
}

FENCE = re.compile(r"(?m)^[ ]*```.*?^[ ]*```[ ]*$", re.S)
LINK = re.compile(r"\[[^\]\[]*\]\(([^()\s]+)\)")
IN_BACKTICKS = re.compile(r"`([^`\n]+(?:\n[^`\n]+)?)`")
PATH = re.compile(rf"\.?[\w.*-]*(?:/[\w.*-]*)+|[\w.*-]+\.(?:{'|'.join(ENDINGS)})")
NAME = re.compile(r"[A-Za-z_][\w-]*(?:::[A-Za-z_]\w*)*")
ITEM = re.compile(r"[ ]*(?:[-*]|\d+\.)[ ]")


class Page(NamedTuple):
    """A page by its path, and the tree that it speaks of."""

    path: str
    text: str
    tree: Any

    def prose(self):
        """The text without code that stands by itself, in as many lines."""
        return FENCE.sub(lambda found: "\n" * found[0].count("\n"), self.text)

    def line_at(self, text, place):
        return f"{self.path}:{text.count(chr(10), 0, place) + 1}"


def anchors(text):
    """What links call the headings of a page."""
    found = {}
    for heading in re.findall(r"(?m)^#+ (.*)$", FENCE.sub("", text)):
        words = re.sub(r"\[([^\]]*)\]\([^)]*\)", r"\1", heading).lower()
        slug = re.sub(r"[^\w\- ]", "", words).replace(" ", "-")
        found[slug] = found.get(slug, -1) + 1
    return {slug if not number else f"{slug}-{number}" for slug, count in found.items() for number in range(count + 1)}


def link_faults(page):
    """The links that lead nowhere."""
    text = page.prose()
    for found in LINK.finditer(text):
        path, _, anchor = found[1].partition("#")
        if re.match(r"[a-z]+:", path):
            continue
        page.tree.looked[LINKS] += 1
        target = os.path.normpath(os.path.join(os.path.dirname(page.path), path)) if path else page.path
        if target not in page.tree.paths:
            yield f"{page.line_at(text, found.start())}: a link leads to {target}, which isn't there"
        elif anchor and anchor not in anchors(page.tree.text_of(target) if path else page.text):
            yield f"{page.line_at(text, found.start())}: a link leads to #{anchor} of {target}, which has no such heading"


def quoted_words(page):
    """What stands in backticks, each with its place."""
    text = page.prose()
    for found in IN_BACKTICKS.finditer(text):
        yield re.sub(r"\s+", " ", found[1]), page.line_at(text, found.start())


def is_told_of(path, page):
    """Whether there is such a path, or will be once something is built, or is none of the repository."""
    tree, bare = page.tree, path.rstrip("/").removeprefix("./")
    # (an edit as tools/refused_edits.py takes it)
    bare = re.sub(r"^(\w+)/(\w+\.edit)$", r"crates/\1/edits/\2", bare)
    if path.startswith(NOT_HERE) or "/out" in path or re.search(r"\b(?:NAME|FILE|CRATE|MODULE|FUNCTION|X)\b", path):
        return True
    return tree.has(bare) or tree.has(os.path.normpath(os.path.join(os.path.dirname(page.path), bare))) or tree.is_said(bare)


def path_faults(page):
    """The paths in backticks that are none of the tree."""
    for words, place in quoted_words(page):
        whole = [words] if PATH.fullmatch(words) else words.split() if words.startswith(COMMANDS) else []
        for path in (it.strip(",;:'\"()") for it in whole):
            page.tree.looked[PATHS] += bool(PATH.fullmatch(path))
            if PATH.fullmatch(path) and path not in page.tree.words and not is_told_of(path, page):
                yield f"{place}: `{path}` is no path of the repository"


def name_in(words):
    """The name that a text in backticks begins with, or none: a name with what it is said of, or a path of names."""
    if PATH.fullmatch(words) or words.startswith(COMMANDS):
        return None
    first = words.split()[0].rstrip("(),") if words.split() else ""
    found = NAME.fullmatch(first)
    return found and found[0]


def word_faults(page):
    """The words in backticks that are none of the code, of specs or of proofs."""
    for words, place in quoted_words(page):
        name = name_in(words)
        page.tree.looked[WORDS] += bool(name)
        known = name and (len(name) < 3 or name in OTHER_WORDS or words in page.tree.literals or page.tree.has_name(name))
        if name and not known:
            yield f"{place}: `{name}` is no word of the code, of specs or of proofs"


def rows_of(page):
    """The rows of the tables of a page, each as its cells."""
    for line in re.findall(r"(?m)^\|(.*)\|$", page.prose()):
        yield [it.strip() for it in line.split("|")]


def law_faults(page):
    """The laws that a table names behind its crates, and that aren't laws of these. A cell may also name something else of a crate."""
    for _, crates, *cells in (it for it in rows_of(page) if len(it) > 2):
        crates = [it for it in re.findall(r"`(\w+)`", crates) if it in page.tree.names]
        for cell in cells if crates else ():
            law = re.fullmatch(r"`(\w+)`", cell)
            page.tree.looked[LAWS] += bool(law)
            names = re.findall(r"`(\w+)`", cell)
            if law and not any(page.tree.has_law(law[1], it) for it in crates):
                yield f"{page.path}: `{law[1]}` is no law of {', '.join(crates)}"
            elif not law and not any(all(page.tree.has_name(name, it) for name in names) for it in crates):
                yield f"{page.path}: '{cell}' names something that {', '.join(crates)} doesn't have"


def equations(text, name):
    """What a definition by cases gives for each of them, with texts without their quotation marks and numbers as they are read."""
    found = re.findall(rf"(?m)^{name} \(?\w+\.(\w+)[^=\n]*= (.*)$", text)
    return {case: re.sub(r'^codes "(.*)"$', r"\1", re.sub(r"^neg_ℤ \(pos (\d+)\)$", r"-\1", value)) for case, value in found}


def wanted_rows(tree):
    """The texts and what stands beside each, as the code has them."""
    for path, texts, values in TABLES:
        text = tree.text_of(path)
        beside = equations(text, values)
        for case, it in equations(text, texts).items():
            value = beside.get(case, "")
            # (a word that stands for a number is defined elsewhere)
            number = re.search(rf"(?m)^{value} = neg_ℤ \(pos (\d+)\)$", "\n".join(tree.code[".antt"])) if value.islower() else None
            yield it, f"-{number[1]}" if number else value.lower()


def row_faults(page):
    """The rows of codes that the code doesn't have, and those that no row has."""
    found = set()
    for texts, *cells in rows_of(page):
        for it in re.findall(r"`([^`]+)`", texts) if cells and re.fullmatch(r"(?:`[^`]+`(?:, )?)+", texts) else ():
            page.tree.looked[ROWS] += 1
            found.add((it, cells[0]))
    wanted = {*wanted_rows(page.tree)}
    yield from (f"{page.path}: the code has no '{it}' with {value}" for it, value in sorted(found - wanted))
    yield from (f"{page.path}: no row has '{it}' with {value}" for it, value in sorted(wanted - found))


def knowledge_faults(page):
    """What a crate must never know by its item, and its code names all the same."""
    text = re.sub(r"\s+", " ", page.prose())
    items = re.findall(r"- \*\*`(\w+)`\*\* \(`([\w/]+\.\w+)`\):(?:(?! - \*\*).)*? Never: (.*?)\.(?= |$)", text)
    page.tree.looked[KNOWLEDGE] += len(items)
    placed = {crate for crate, _, _ in items} | {*re.findall(r"(?m)^\| `(\w+)` \|", page.prose())}
    yield from (f"{page.path}: nothing says what {it} must never know, or that it is of tests" for it in sorted({*page.tree.names} - placed))
    for crate, file, told in items:
        if not {f"crates/{crate}/src/{file}", f"crates/{crate}/{file}"} & {*page.tree.texts}:
            yield f"{page.path}: {crate} has no {file} to open first"
        code = re.sub(r"//.*", "", "\n".join(it for path, it in page.tree.texts.items() if path.startswith(f"crates/{crate}/src/")))
        if told.startswith("anything but "):
            others = set(re.findall(r"\buse (\w+)::", code)) - set(re.findall(r"`(\w+)`", told)) - {"std", "crate", "super", "self"}
            yield from (f"{page.path}: {crate} uses {it}, which it must never know" for it in sorted(others & {*page.tree.names}))
            continue
        for what in re.split(r",? or |, ", told):
            if what in KNOWS and (found := re.search(KNOWS[what], code)):
                yield f"{page.path}: {crate} must never know {what}, and its code names {found[0]}"
            elif what not in KNOWS and not what.endswith("(read)"):
                yield f"{page.path}: nothing enforces that {crate} must never know {what}: `(read)` says so, or a word of KNOWS"


def squeezed(text):
    """A text of code without its comments, and with one blank for all that stands between words."""
    text = re.sub(r"(?m)^\s*(?:--|///?)[ ].*$", " ", text)
    return re.sub(r"\s+", " ", text).strip()


def quote_faults(page):
    """What is quoted as code and stands so in no crate. A line `..` leaves something out."""
    for found in re.finditer(r"(?ms)^[ ]*```([^\n`]*)\n(.*?)^[ ]*```[ ]*$", page.text):
        if not found[1].strip():
            yield f"{page.line_at(page.text, found.start())}: code stands by itself, and doesn't say in which language it is"
        for piece in re.split(r"(?m)^\s*\.\.\s*$", found[2]) if found[1] in ("rust", "antt") else ():
            page.tree.looked[QUOTES] += bool(squeezed(piece))
            if squeezed(piece) and not page.tree.has_code(squeezed(piece), {"rust": ".rt", "antt": ".antt"}[found[1]]):
                yield f"{page.line_at(page.text, found.start())}: no crate has the code '{squeezed(piece)[:60]}'"


def paragraphs(text):
    """The paragraphs of a page and the items of its lists, each with the number of its first line."""
    at, lines = 0, []
    for number, line in enumerate([*text.splitlines(), ""], 1):
        is_text = bool(line.strip()) and not re.match(r"[ ]*(?:#|\||<!--)", line)
        if lines and (not is_text or ITEM.match(line)):
            yield at, " ".join(lines)
            lines = []
        if is_text:
            at = at if lines else number
            lines.append(line.strip())


def layout_faults(page):
    """Paragraphs and lines that are too long; code has lines of any length."""
    for number, text in paragraphs(page.prose()):
        page.tree.looked[PARAGRAPHS] += 1
        count = len(text.split())
        if count > MOST_WORDS:
            yield f"{page.path}:{number}: a paragraph has {count} words, and may have {MOST_WORDS}"
    for number, line in enumerate(page.prose().splitlines(), 1):
        if len(line) > MOST_COLUMNS:
            yield f"{page.path}:{number}: a line has {len(line)} columns, and may have {MOST_COLUMNS}"
    count = page.text.count("\n")
    if page.path == README and count > MOST_LINES:
        yield f"{page.path}: it has {count} lines, and may have {MOST_LINES}"


RUST_NAMES = re.compile(
    r"\b(?:fn|struct|enum|trait|type|const|static|mod|ghost|requires|ensures|impl|promise)\s+(?:<[^>]*>\s*)?(\w+)"
    r"|(?m:^\s*(?:pub(?:\(\w+\))?\s+)?(\w+)\s*:)|(?m:^\s+([A-Z]\w*)\s*[({,])|\bfor\s+(\w+)"
)
ANTT_NAMES = re.compile(
    r"(?m)^\s*(?:(?:abbrev|unfoldable|opaque|pub|record|data|type|ruleset|mutual)\s+)*([A-Za-z_][\w'-]*)(?=[ \t]*[:({])"
)


def defined_in(text):
    """The names that a file of specs or of proofs defines."""
    return set(ANTT_NAMES.findall(text))


def names_of(path, text):
    """The names that a file of a crate defines, with those of parameters in whole words."""
    if path.endswith(".antt"):
        parameters = {it for some in re.findall(r"[({]((?:[a-z_]{4,} ?)+): ", text) for it in some.split()}
        return defined_in(text) | parameters | {os.path.basename(path)[: -len(".antt")]}
    return {name for found in RUST_NAMES.findall(text) for name in found if name}


def tool_names(path, text):
    """The names that a tool defines."""
    return set(re.findall(r"(?m)^\s*(?:def|class)\s+(\w+)|^([A-Z_]+)\b", text)) if path.endswith(".py") else ()


class Tree:
    """The files of the repository, and the names of its crates."""

    def __init__(self, texts):
        self.texts, self.looked = texts, collections.Counter()
        self.paths = {path for it in texts for path in (it, *parents(it))} | {"."}
        self.bases = {tuple(it.split("/"))[at:] for it in self.paths for at in range(it.count("/") + 1)}
        self.names, self.code = {}, {".rt": [], ".antt": []}
        for path, text in texts.items():
            parts, end = path.split("/"), os.path.splitext(path)[1]
            if parts[0] == "crates" and end in self.code:
                self.names.setdefault(parts[1], set()).update(names_of(path, text))
                self.code[end].append(text)
        # Texts of the code, as the protocol's names, the codes of findings and what errors say
        self.literals = {it.strip(" :") for text in sum(self.code.values(), []) for it in re.findall(r'"([^"\n]{1,60})"', text)}
        # Names of what isn't in crates: of files, of what tools define, and the crates themselves
        tools = {name for path, text in texts.items() for some in tool_names(path, text) for name in some}
        self.words = {*self.names, *self.literals, *(re.sub(r"\.\w+$", "", it.rpartition("/")[2]) for it in texts), *tools}
        self.squeezed = {}

    def text_of(self, path):
        return self.texts.get(path, "")

    def has(self, path):
        """Whether there is such a path, or one that ends so; a star stands for anything in a name."""
        parts = tuple(path.split("/"))
        if "*" not in path:
            return path in self.paths or parts in self.bases
        form = re.compile("/".join(re.escape(it).replace(r"\*", "[^/]*") for it in parts))
        return any(form.fullmatch("/".join(it)) for it in self.bases if len(it) == len(parts))

    def is_said(self, path):
        """Whether a text of the code is this path, or ends so, as the protocol's methods do."""
        return any(it == path or it.endswith(f"/{path}") for it in self.literals)

    def has_name(self, name, crate=None):
        """Whether some crate, or this one, has all parts of a name."""
        crates = [self.names[crate]] if crate else self.names.values()
        parts = [it for it in name.split("::") if it not in OTHER_WORDS and it not in self.names]
        return not crate and name in self.words or any(all(it in names for it in parts) for names in crates)

    def has_law(self, name, crate):
        """Whether a crate has a law of this name: a public function of nothing."""
        law = re.compile(rf"(?m)^pub fn {name}(?:<[^\n()]*>)?\(\)")
        return any(path.startswith(f"crates/{crate}/src/") and law.search(text) for path, text in self.texts.items())

    def has_code(self, piece, end):
        if end not in self.squeezed:
            self.squeezed[end] = [squeezed(it) for it in self.code[end]]
        return any(piece in it for it in self.squeezed[end])


def parents(path):
    while path := os.path.dirname(path):
        yield path


def whole_tree():
    texts = {}
    for at, folders, files in os.walk(TOP):
        folders[:] = sorted(it for it in folders if it not in NOT_READ)
        for it in files:
            path = os.path.relpath(os.path.join(at, it), TOP)
            with open(os.path.join(TOP, path), encoding="utf-8", errors="replace") as file:
                texts[path] = file.read()
    return Tree(texts)


def page_faults(page):
    yield from link_faults(page)
    yield from path_faults(page)
    if page.path in WORDED:
        yield from word_faults(page)
    if page.path == PROOFS:
        yield from law_faults(page)
    if page.path == DEFINITIONS:
        yield from row_faults(page)
    if page.path in QUOTING:
        yield from quote_faults(page)
    if page.path == ARCHITECTURE:
        yield from knowledge_faults(page)
    yield from layout_faults(page)


def unnamed_tools(tree):
    """The tools that no page names."""
    told = {name for path, text in tree.texts.items() if is_page(path) for name in re.findall(r"\w+\.py\b", text)}
    for path in sorted(tree.texts):
        name = path.rpartition("/")[2]
        if re.fullmatch(r"(?:tools|tools/edits|bench)/\w+\.py", path) and name not in told | {"__init__.py"}:
            yield f"{path}: no page names it"


def is_page(path):
    return path.endswith(".md") and ("/" not in path or path.startswith("docs/"))


def unseen(looked):
    """What the checks have looked at fewer of than there must be."""
    for what, least in LEAST.items():
        if looked[what] < least:
            yield f"of {what} {looked[what]} were looked at, and at least {least} must be: pages say them in a form that no check reads"


def faults(tree):
    yield from unnamed_tools(tree)
    for path, text in sorted(tree.texts.items()):
        if is_page(path):
            yield from page_faults(Page(path, text, tree))
    yield from unseen(tree.looked)


def main():
    return report_faults("documents", faults(whole_tree()), "as the repository is")


if __name__ == "__main__":
    sys.exit(main())

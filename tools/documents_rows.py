#!/usr/bin/env python3
"""Worked rows of what compares the pages with the repository: made-up pages, and what must be said of each.

    tools/documents_rows.py

The gate runs them before any proof.
"""
import sys

import documents
import rows

CODE = """//! A crate.
pub struct Seat {
    mark: u32,
}

impl Seat {
    pub fn goes(&self, at: u32) -> bool
        ensures value { result ≡ is_so at }
    {
        self.says("shutdown")
    }
}
"""
SPECS = """-- A number is so.
abbrev pub is_so : ℕ → Bool
is_so number = nat_le 1 number

pub record IsSettled (desk : Seen) : Type 0 where
  pub sent : desk.outbox ≡ []
"""
OTHER = "use std::io;\nuse low::Seat;\n// Grammar stands in this comment alone.\npub fn comes() {}\npub fn of(it: u8) {}\n"
CODES = """abbrev pub severity_of : Code → Severity
severity_of (c.Syntax fault) = Error
severity_of c.Empty = Warning

abbrev pub code_text : Code → List ℕ
code_text (c.Syntax fault) = codes "syntax"
code_text c.Empty = codes "empty"
"""
REFUSALS = """abbrev pub code_of : Refusal → ℤ
code_of refusal.NoJson = no_json
code_of refusal.Unknown = neg_ℤ (pos 7)

abbrev pub refusal_text : Refusal → List ℕ
refusal_text refusal.NoJson = codes "no JSON"
refusal_text refusal.Unknown = codes "not known"

abbrev pub no_json : ℤ
no_json = neg_ℤ (pos 8)
"""
# The rows of codes that a page must have by these.
CODE_ROWS = "| code | severity |\n|---|---|\n| `syntax` | error |\n| `empty` | warning |\n\n| `no JSON` | -8 | a |\n| `not known` | -7 | b |\n"
TREE = documents.Tree({
    "README.md": "# A\n\n## How it ends\n\n## How it ends\n",
    "docs/B.md": "# B\n",
    "crates/low/src/lib.rt": CODE,
    "crates/low/specs/Words.antt": SPECS,
    "crates/high/src/main.rt": OTHER,
    documents.TABLES[0][0]: CODES,
    documents.TABLES[1][0]: REFUSALS,
    "tools/counts.py": "LISTS = ()\n\n\ndef written(counts):\n    pass\n",
    "examples/a.abnf": "a = b\n",
})
# The crate of which a page says that it is of tests
LOW = "| `low` | texts |\n\n| `abnf_lint` | findings |\n\n| `ls_bodies` | bodies |\n\n"
# A paragraph of 81 words
LONG = "\n".join(["word"] * 81)


def said(check, path, text):
    return [*check(documents.Page(path, text, TREE))]


NO_WORD = "no word of the code, of specs or of proofs"
# The check, the page that it reads, its text, and what is said of it
PAGES = (
    (documents.link_faults, "docs/B.md", "# B\n[a](../README.md) and [a](../README.md#how-it-ends-1), [b](#b), [c](https://x.org/y)", []),
    (documents.link_faults, "docs/B.md", "\n[a](README.md)", ["docs/B.md:2: a link leads to docs/README.md, which isn't there"]),
    (documents.link_faults, "README.md", "[a](#ends)", ["README.md:1: a link leads to #ends of README.md, which has no such heading"]),
    (documents.link_faults, "README.md", "```\n[a](nothing.md)\n```\n", []),
    (documents.path_faults, "README.md", "`docs/B.md`, `crates/low`, `lib.rt`, `low/src/lib.rt`, `examples/*.abnf`, `./tools`", []),
    (documents.path_faults, "README.md", "`~/x/y.md`, `/etc/passwd`, `out/abnf_ls`, `crates/NAME/specs/X.antt`", []),
    (documents.path_faults, "README.md", "`docs/C.md`", ["README.md:1: `docs/C.md` is no path of the repository"]),
    (documents.path_faults, "README.md", "`examples/*.txt`", ["README.md:1: `examples/*.txt` is no path of the repository"]),
    (documents.path_faults, "README.md", "`python3 tools/no.py --raise`", ["README.md:1: `tools/no.py` is no path of the repository"]),
    (documents.word_faults, "docs/B.md", "`goes`, `Seat::goes`, `is_so number`, `shutdown`, `low`, `written`, `LISTS`, `Ok`, `x`", []),
    (documents.word_faults, "docs/B.md", "`went`", [f"docs/B.md:1: `went` is {NO_WORD}"]),
    (documents.word_faults, "docs/B.md", "`Seat::comes`", [f"docs/B.md:1: `Seat::comes` is {NO_WORD}"]),
    (documents.law_faults, "docs/PROOFS.md", "| of | crate | law |\n|---|---|---|\n| a | `high` | `comes` |\n| b | `low`, `high` | `comes` | – |\n", []),
    (documents.law_faults, "docs/PROOFS.md", "| a | `low` | clause `value` of `goes` |\n| b | lines | `none` |\n| `none` | c |\n", []),
    (documents.law_faults, "docs/PROOFS.md", "| a | `low` | `comes` | – |\n", ["docs/PROOFS.md: `comes` is no law of low"]),
    (documents.law_faults, "docs/PROOFS.md", "| a | `high` | `comes` | `of` |\n", ["docs/PROOFS.md: `of` is no law of high"]),
    (
        documents.law_faults,
        "docs/PROOFS.md",
        "| a | `low` | clause `value` of `went` |\n",
        ["docs/PROOFS.md: 'clause `value` of `went`' names something that low doesn't have"],
    ),
    (documents.row_faults, "docs/DEFINITIONS.md", CODE_ROWS, []),
    (
        documents.row_faults,
        "docs/DEFINITIONS.md",
        CODE_ROWS.replace("| `empty` | warning |\n", ""),
        ["docs/DEFINITIONS.md: no row has 'empty' with warning"],
    ),
    (
        documents.row_faults,
        "docs/DEFINITIONS.md",
        CODE_ROWS.replace("warning", "error").replace("no JSON` | -8", "no JSON`, `new` | -8"),
        [
            "docs/DEFINITIONS.md: the code has no 'empty' with error",
            "docs/DEFINITIONS.md: the code has no 'new' with -8",
            "docs/DEFINITIONS.md: no row has 'empty' with warning",
        ],
    ),
    (
        documents.row_faults,
        "docs/DEFINITIONS.md",
        CODE_ROWS.replace("-8", "-7"),
        ["docs/DEFINITIONS.md: the code has no 'no JSON' with -7", "docs/DEFINITIONS.md: no row has 'no JSON' with -8"],
    ),
    (documents.quote_faults, "docs/TRUST.md", "```antt\nabbrev pub is_so : ℕ → Bool\n```\n", []),
    (documents.quote_faults, "docs/TRUST.md", "```rust\npub fn goes(&self, at: u32)\n    -> bool ensures value\n```\n", []),
    (documents.quote_faults, "docs/TRUST.md", "```antt\npub record IsSettled (desk : Seen) : Type 0 where\n..\n```\n", []),
    (
        documents.quote_faults,
        "docs/TRUST.md",
        "```antt\nis_so number = false\n```\n",
        ["docs/TRUST.md:1: no crate has the code 'is_so number = false'"],
    ),
    (documents.knowledge_faults, "docs/ARCHITECTURE.md", f"{LOW}- **`high`** (`main.rt`): y. Never: grammars, or blocks.\n", []),
    (documents.knowledge_faults, "docs/ARCHITECTURE.md", f"{LOW}- **`high`** (`main.rt`): y. Never: the sea (read), or JSON.\n", []),
    (documents.knowledge_faults, "docs/ARCHITECTURE.md", f"{LOW}- **`high`** (`main.rt`): y. Never: anything but `low`.\n", []),
    (
        documents.knowledge_faults,
        "docs/ARCHITECTURE.md",
        f"{LOW}- **`high`** (`main.rt`): y. Never: how files are\n  read, or the sea.\n- **`high`**: z.\n",
        [
            "docs/ARCHITECTURE.md: high must never know how files are read, and its code names std::io",
            "docs/ARCHITECTURE.md: nothing enforces that high must never know the sea: `(read)` says so, or a word of KNOWS",
        ],
    ),
    (
        documents.knowledge_faults,
        "docs/ARCHITECTURE.md",
        f"{LOW}- **`high`** (`main.rt`): y. Never: anything but `none`.\n",
        ["docs/ARCHITECTURE.md: high uses low, which it must never know"],
    ),
    (
        documents.knowledge_faults,
        "docs/ARCHITECTURE.md",
        f"{LOW}- **`high`** (`main.rt`): y. It never knows grammars.\n",
        ["docs/ARCHITECTURE.md: nothing says what high must never know, or that it is of tests"],
    ),
    (
        documents.knowledge_faults,
        "docs/ARCHITECTURE.md",
        f"{LOW}- **`high`** (`gone.rt`): y. Never: grammars.\n",
        ["docs/ARCHITECTURE.md: high has no gone.rt to open first"],
    ),
    (
        documents.quote_faults,
        "docs/TRUST.md",
        "a\n```\nis_so number = false\n```\n",
        ["docs/TRUST.md:2: code stands by itself, and doesn't say in which language it is"],
    ),
    (documents.layout_faults, "README.md", f"{'word ' * 60}\n\n- word\n", ["README.md:1: a line has 300 columns, and may have 100"]),
    (documents.layout_faults, "docs/B.md", f"a\n\n{LONG}\n", ["docs/B.md:3: a paragraph has 81 words, and may have 80"]),
    (documents.layout_faults, "docs/B.md", "- a\n- b\n" * 90, []),
    (documents.layout_faults, "README.md", "a\n" * 70 + "\n" * 111, ["README.md: it has 181 lines, and may have 180"]),
)


# A page on which each check finds what to look at, and how often.
LOOKED = (
    (documents.link_faults, documents.LINKS, "[a](#b), [c](../README.md)\n", 2),
    (documents.path_faults, documents.PATHS, "`docs/B.md`, `python3 tools/counts.py`, `goes`\n", 2),
    (documents.word_faults, documents.WORDS, "`goes`, `docs/B.md`\n", 1),
    (documents.law_faults, documents.LAWS, "| a | `high` | `comes` |\n| b | `low` | clause `value` of `goes` |\n", 1),
    (documents.row_faults, documents.ROWS, "| `syntax`, `empty` | error |\n| a | error |\n", 2),
    (documents.quote_faults, documents.QUOTES, "```antt\nis_so number = nat_le 1 number\n```\n```sh\nls\n```\n", 1),
    (documents.knowledge_faults, documents.KNOWLEDGE, "- **`high`** (`main.rt`): y. Never: grammars.\n", 1),
    (documents.layout_faults, documents.PARAGRAPHS, "a\n\nb\nc\n", 2),
)


def looked_cases():
    for check, what, text, count in LOOKED:
        TREE.looked.clear()
        said(check, "docs/B.md", text)
        yield f"what {check.__name__} looks at", dict(+TREE.looked), {what: count}
    yield "each check has a least count", {*documents.LEAST}, {what for _, what, _, _ in LOOKED}
    yield "as many as must be", [*documents.unseen(documents.LEAST)], []
    for what, least in documents.LEAST.items():
        few = {**documents.LEAST, what: least - 1}
        line = f"of {what} {least - 1} were looked at, and at least {least} must be: pages say them in a form that no check reads"
        yield f"too few {what}", [*documents.unseen(few)], [line]
    bare = documents.Tree({"docs/B.md": "# B\n"})
    yield "a repository in which nothing is looked at", len([*documents.faults(bare)]), len(documents.LEAST)


def page_cases():
    for check, path, text, wanted in PAGES:
        yield f"{check.__name__}: {text[:60]!r}", said(check, path, text), wanted
    named = documents.Tree({"tools/a.py": "", "bench/b.py": "", "docs/B.md": "`tools/a.py` or `bb.py`"})
    yield "tools that no page names", [*documents.unnamed_tools(named)], ["bench/b.py: no page names it"]
    yield "the names of a file of specs", documents.defined_in(SPECS), {"is_so", "IsSettled", "sent"}
    yield "the anchors of a page", documents.anchors("# A `b`, c\n## [D](e.md)\n## D\n"), {"a-b-c", "d", "d-1"}


def cases():
    yield from page_cases()
    yield from looked_cases()


if __name__ == "__main__":
    sys.exit(rows.report(cases()))

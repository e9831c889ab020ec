#!/usr/bin/env python3
"""Tries how the edits' tool reads sources (tools/edits/syntax.py, tools/edits/functions.py) on made-up texts. The last line is 'N passed, M failed'."""
import os
import sys
import tempfile

import rows
from edits import syntax
from edits.copies import Maker
from edits.functions import Source
from workspace import text_of, write

F = ("f", "{ 1 }")
# What a text is, the text, and the name and the body of each function that is found in it; None of one that is no source.
READ = (
    ("a function", "fn f() -> u8 { 1 }", [F]),
    ("two", "fn f() -> u8 { 1 }\nfn g() {}\n", [F, ("g", "{}")]),
    ("public ones", "pub fn f() -> u8 { 1 }\npub(crate) const fn g() {}\npub(in crate::a) unsafe fn h() {}\n", [F, ("g", "{}"), ("h", "{}")]),
    ("a foreign one", 'extern "C" fn f() -> u8 { 1 }', [F]),
    ("braces in a contract", "fn f() -> u8\n    requires { }\n    ensures a { record { b = 1 }.b ≡ result }\n{ 1 }", [F]),
    ("a brace in a comment", "// fn g() {\n/* fn h() { */\nfn f() -> u8 { 1 }", [F]),
    ("braces in strings", 'fn f() -> &str { "}{" }\nfn g() -> &str { r#"}"{"# }', [("f", '{ "}{" }'), ("g", '{ r#"}"{"# }')]),
    ("a brace that is a character", "fn f() -> char { '}' }\nfn g() {}\n", [("f", "{ '}' }"), ("g", "{}")]),
    ("a lifetime", "fn f<'a>(a: &'a u8) -> &'a u8 { a }", [("f", "{ a }")]),
    ("type parameters", "fn f<F: Fn(u8) -> u8>(f: F) -> u8\nwhere\n    F: Copy,\n{ 1 }", [F]),
    ("one in a body", "fn f() -> u8 { fn g() -> u8 { 1 } g() }", [("f", "{ fn g() -> u8 { 1 } g() }")]),
    ("a block in a body", "fn f() { if a { [b; { 2 }] } else { c } }", [("f", "{ if a { [b; { 2 }] } else { c } }")]),
    ("a constant's block", "const A: u8 = { 1 };\nfn f() -> u8 { 1 }", [F]),
    ("a constant that compares", "const A: bool = 1 < 2;\nfn f() -> u8 { 1 }", [F]),
    ("a type, a use and a macro", "use a::{b, c};\nstruct S { f: fn(u8) -> u8 }\nmacro_rules! m { () => { fn g() {} } }\nfn f() -> u8 { 1 }", [F]),
    ("a method", "impl S {\n    fn f() -> u8 { 1 }\n}", [("S::f", "{ 1 }")]),
    ("a method, type parameters", "impl<'a, T: Copy> S<'a, T> {\n    fn f() -> u8 { 1 }\n}", [("S::f", "{ 1 }")]),
    ("a method of a trait", "impl T for S {\n    fn f() -> u8 { 1 }\n}", [("ST::f", "{ 1 }")]),
    ("a method of a trait with a path", "impl a::T for b::S<u8> {\n    fn f() -> u8 { 1 }\n}", [("ST::f", "{ 1 }")]),
    ("a method of a trait at a type", "impl From<X> for S {\n    fn f() -> u8 { 1 }\n}", [("SFromX::f", "{ 1 }")]),
    ("what lets a value go", "impl Drop for S {\n    fn drop(&mut self) {}\n}", [("S::drop", "{}")]),
    ("a trait", "trait T {\n    fn g();\n    fn f() -> u8 { 1 }\n}", [F]),
    ("a module", "mod m {\n    fn f() -> u8 { 1 }\n}\nfn g() {}", [("m::f", "{ 1 }"), ("g", "{}")]),
    ("a ghost view", "impl Model for S {\n    ghost view = { λ s. s };\n}\nfn f() -> u8 { 1 }", [F]),
    ("a body that doesn't end", "fn f() { if a { b }", None),
    ("a string that doesn't end", 'fn f() { "a }', None),
)
# What a function is, its text, and whether it is a law, proved by itself, and can have a twin.
TOLD_APART = (
    ("a function", "fn f(a: u8) -> u8 { a }", (False, True, True)),
    ("a law", "fn f()\n    ensures { a }\n{}", (True, True, True)),
    ("one that takes nothing", "fn f() -> u8 { 1 }", (False, True, True)),
    ("a law that takes something", "fn f(a: u8) {}", (False, True, True)),
    ("one of a cycle", "#[cycle(c)]\nfn f(a: u8) -> u8 { f(a) }", (False, False, True)),
    ("one whose comment names a cycle", "// #[cycle(c)]\nfn f(a: u8) -> u8 { a }", (False, True, True)),
    ("a method", "impl S {\n    fn f(&self) -> u8 { 1 }\n}", (False, True, True)),
    ("a method of a trait", "impl T for S {\n    fn f(&self) -> u8 { 1 }\n}", (False, True, False)),
    ("one of a trait", "trait T {\n    fn f(&self) -> u8 { 1 }\n}", (False, False, False)),
    ("one of an impl at some type", "impl T<X<Y>> for S {\n    fn f(&self) -> u8 { 1 }\n}", (False, False, False)),
    ("one of a block in a block", "mod m {\n    impl S {\n        fn f(&self) -> u8 { 1 }\n    }\n}", (False, False, True)),
)
BEFORE = "/// What it is.\n#[inline]\nfn f(a: u8) -> u8 {\n    a\n}\n\nfn g(a: u8) -> u8 {\n    f(a)\n}\n"
# What an edit is, the words that it changes, and the functions whose bodies alone it changes.
CHANGED = (
    ("nothing", (), set()),
    ("a body", ("    a\n", "    a + 1\n"), {"f"}),
    ("two bodies", ("a\n}\n", "b\n}\n", "f(a)", "f(b)"), {"f", "g"}),
    ("a head", ("fn f(a: u8)", "fn f(a: u16)"), set()),
    ("a head and a body", ("fn f(a: u8)", "fn f(a: u16)", "    a\n", "    b\n"), set()),
    ("what stands above and a body", ("#[inline]\n", "", "    a\n", "    b\n"), set()),
    ("a body that is empty then", ("    f(a)\n", ""), set()),
    ("a function more, out of a body", ("    a\n}", "    a\n}\n\nfn h() {\n    a\n}"), set()),
    ("a function more, in a body", ("    a\n}", "    fn h() {\n        a\n    }\n    a\n}"), {"f"}),
    ("an impl in a body", ("    a\n}", "    impl S {}\n    a\n}"), set()),
    ("braces that don't close", ("    a\n", "    { a\n"), set()),
    ("braces in a string", ("    a\n", '    "}"\n'), {"f"}),
)


def source_of(text, folder):
    os.makedirs(f"{folder}/src", exist_ok=True)
    write(f"{folder}/src/lib.rt", text)
    return Source("made", folder)


def cases():
    for what, text, wanted in READ:
        with tempfile.TemporaryDirectory() as folder:
            source = source_of(text, folder)
            found = [(it.name, f"{{{it.body()}}}") for it in source.all()] if source.items[text] else None
        yield f"functions: {what}", found, wanted
    for what, text, wanted in TOLD_APART:
        with tempfile.TemporaryDirectory() as folder:
            source = source_of(text, folder)
            yield f"a kind: {what}", [(it.is_law(), it.is_own, it.name not in source.without_twins) for it in source.all()], [wanted]
    with tempfile.TemporaryDirectory() as folder:
        source = source_of(BEFORE, folder)
        for what, words, wanted in CHANGED:
            text = BEFORE
            for old, new in zip(words[::2], words[1::2]):
                text = text.replace(old, new)
            yield f"an edit of {what}", source.changed({"src/lib.rt": text}), wanted
        f, g = source.all()
        yield "a twin", f.renamed("f_twin0"), BEFORE.partition("\n\n")[0].replace("fn f", "fn f_twin0")
        yield "without a body", g.without_body(), "fn g(a: u8) -> u8 { loop {} }"
        yield "whose line it is", [source.function_at(folder, "src/lib.rt", it)[1] for it in range(1, 10)], [*"fffff", None, *"ggg"]
    with tempfile.TemporaryDirectory() as folder:
        Maker(source_of(BEFORE, folder), False).leave_out(folder, {"f"})
        wanted = BEFORE.replace("{\n    f(a)\n}", "{ loop {} }"), True
        yield "g is left out", (text_of(f"{folder}/src/lib.rt"), os.path.isfile(f"{folder}/proofs/g/Proof.antt")), wanted
    for texts in ([], ["fn f() {}"], ["fn f() {}", '"', "fn g() {}"]):
        found = [it and [function.name for function in it.functions] for it in syntax.read(texts)]
        yield f"{len(texts)} texts at once", found, [["f"], None, ["g"]] if len(texts) == 3 else [["f"]] * len(texts)


if __name__ == "__main__":
    sys.exit(rows.report(cases()))

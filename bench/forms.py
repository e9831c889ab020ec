#!/usr/bin/env python3
"""Forms of texts that strain one part of the server each, and what is typed into them.

    bench/forms.py

A form has a name, the number of parts of its larger text, and two functions. One makes the text of so many parts, or several texts, each of a
document of its own. The other makes what is typed from the texts: notices, each with the number of its document and its edits, which are those
of keystrokes.py. All of them together lead back to the texts at which they began, so they can be typed again and again.

Run by itself it makes each form, and fails where a text is larger than the server takes it, or where what is typed doesn't lead back; this is
tried with few parts.
"""
import functools
import random
import re
import sys
from typing import Any, NamedTuple

from keystrokes import applied, place, typed

SEED = 1
# The most bytes of a text that the server takes
MOST_BYTES = 4_194_304
FEW = 60
# In so many places stands the name that is replaced at once.
PLACES = 20


class Notice(NamedTuple):
    """Edits that an editor sends at once: each is about the text as those before it left it."""

    edits: list
    document: int = 0


class Form(NamedTuple):
    """The name of a form, how many parts the larger text has, how a text is made of so many, and what is typed into it."""

    name: str
    count: int
    text: Any
    typed: Any

    def texts(self, count):
        """The texts of so many parts, one to a document."""
        made = self.text(count)
        return made if isinstance(made, list) else [made]


def on_one_line(count):
    """One rule in one line, of names that no rule defines."""
    return "a = " + " / ".join(f"n{number}" for number in range(count)) + "\n"


def many_alternatives(count):
    """One rule of alternatives, each in a line of its own."""
    return "a = b\n" + " / b\n" * count


def one_name(count):
    """One name, named again and again."""
    return "a = b\n" + "b = a a a a\n" * count


def deep_brackets(count):
    """Rules of brackets as deep as a rule may nest."""
    return "".join(f"r{number} = {'(' * 60}{'[' * 4}a{']' * 4}{')' * 60}\n" for number in range(count))


def faulty_blocks(count):
    """Rules that break off."""
    return "".join(f"r{number} = ( a\n" for number in range(count))


def one_chain(count):
    """Each rule is 4096 times the next one: least lengths of very many digits."""
    return "".join(f"r{number} = 4096r{number + 1}\n" for number in range(count)) + f'r{count} = "x"\n'


def chain(count, end='"x"'):
    """Rules, each of which is the next one, and the last of which has an end."""
    return [*(f"r{number} = r{number + 1}\n" for number in range(count)), f"r{count} = {end}\n"]


def shallow_chain(count):
    """Each rule is the next one."""
    return "".join(chain(count))


def one_ring(count):
    """Each rule is the next one, and the last is the first: none generates anything."""
    return "".join(f"r{number} = r{(number + 1) % count}\n" for number in range(count))


def comments(count):
    """No rule but the first: lines of comments."""
    return "a = b\n" + "; nothing but a comment of a usual length\n" * count


def undefined(count):
    """Names that no rule defines, one to a rule."""
    return "".join(f"r{number} = u{number}\n" for number in range(count))


def twice_defined(count):
    """Each rule is defined twice."""
    return "".join(f'r{number % (count // 2)} = "x"\n' for number in range(count))


def names_on_one_line(count):
    """One line of one name again and again, in a row."""
    return "a =" + " a" * count + "\n"


def brackets_on_one_line(count):
    """One line of brackets as deep as a rule may nest, again and again."""
    return "a =" + f" {'(' * 64}a{')' * 64}" * count + "\n"


def comment_on_one_line(count):
    """One line that is a comment of signs which begin another one."""
    return "a = b ;" + ";" * count + "\n"


def one_undefined_name(count):
    """Rules that all use one name that no rule defines."""
    return "".join(f"r{number} = u\n" for number in range(count))


def one_name_defined(count):
    """Definitions of one name."""
    return 'a = "x"\n' * count


def one_name_added_to(count):
    """One rule, and additions to it."""
    return 'a = "x"\n' + 'a =/ "x"\n' * count


def nothing_to_add_to(count):
    """Additions to names that have no rule."""
    return "".join(f'r{number} =/ "x"\n' for number in range(count))


def unproductive_chain(count):
    """Each rule is the next one, and the last is itself: none generates anything."""
    return "".join(chain(count, f"r{count}"))


def alternatives_of_one_character(count):
    """One rule of alternatives of one character on one line."""
    return "a = a" + "/a" * count + "\n"


def repeats_of_repeats(count):
    """Rules of repeats of repeats, as deep as a rule may nest."""
    return "".join(f"r{number} = {'2(' * 63}2a{')' * 63}\n" for number in range(count))


def chain_of_repeats(count):
    """Each rule is many times a bracket of many times the next one."""
    return "".join(f"r{number} = 3*(2*r{number + 1})\n" for number in range(count)) + f'r{count} = "x"\n'


def wide_characters(count):
    """Comments of characters that are two UTF-16 units each."""
    return "a = b\n" + f"; {chr(0x1F600) * 20}\n" * count


def two_names(count, stem="rule"):
    """Rules of two names, as most grammars have them: that of the next rule, and that of one far away."""
    names = [f"{stem}-{number}" for number in range(count)]
    return "".join(f'{name} = "x" / {names[(at + 1) % count]} {names[(7 * at + 3) % count]}\n' for at, name in enumerate(names))


def documents(number):
    """What makes the texts of so many documents, in which all names are other ones."""
    return lambda count: [two_names(count, f"rule{at}") for at in range(number)]


def with_shared_name(count):
    """Rules of two names, some of which use one more: it stands in 20 places."""
    lines = two_names(count).splitlines(keepends=True)
    for at in range(PLACES - 1):
        lines[at * count // PLACES] = lines[at * count // PLACES].replace("\n", " shared\n")
    return "".join(lines) + 'shared = "y"\n'


def shuffled_chain(count):
    """Each rule is another one, and they stand in no order."""
    rules = chain(count)
    random.Random(SEED).shuffle(rules)
    return "".join(rules)


def to_and_fro(count):
    """Each rule is the next one, and they stand at the front and at the back by turns, up to the middle."""
    rules = chain(count)
    return "".join(rules[::2] + rules[1::2][::-1])


def needs_all(count):
    """A rule that needs all others, each in a line of its own; these are a chain in no order."""
    return "all = r0\n" + "".join(f" r{number}\n" for number in range(1, count)) + shuffled_chain(count)


def blank_lines(count):
    """Empty lines."""
    return "\n" * count


def comment_lines(count):
    """Lines of comment."""
    return "; nothing but a comment\n" * count


def before_a_rule(lines):
    """What makes lines with a rule behind them."""
    return lambda count: lines(count) + 'a = "x"\n'


def unknown_alternatives(count):
    """One rule of alternatives, each in a line of its own and of a name that no rule defines."""
    return "a = u0\n" + "".join(f" / u{number}\n" for number in range(1, count))


def one_letter_lines(count):
    """Lines of one letter."""
    return "a\n" * count


def long_block(count):
    """One rule of very many lines."""
    return 'a = "x"\n' + ' "x"\n' * count


def swapped(text, spans, new):
    """A text comes in place of what stands between these offsets, at once, and what was there comes back. In either notice the last one comes
    first, so that no edit moves what the next one is about."""
    there = [(place(text, start), place(text, end), new) for start, end in reversed(spans)]
    after, back, moved = applied(text, there), [], 0
    for start, end in spans:
        at = start + moved
        back.append((place(after, at), place(after, at + len(new)), text[start:end]))
        moved += len(new) - (end - start)
    return [Notice(there), Notice(back[::-1])]


def middle(text):
    """Where the line in the middle ends."""
    return text.index("\n", len(text) // 2)


def put_in(text, new, *offsets):
    """A text is put in at these offsets at once, and taken out."""
    return swapped(text, [(at, at) for at in offsets], new)


def first_line(text):
    """A letter behind the first line."""
    return put_in(text, "x", text.index("\n"))


def middle_line(text):
    """A letter behind the line in the middle."""
    return put_in(text, "x", middle(text))


def blank(text):
    """A blank behind the line in the middle."""
    return put_in(text, " ", middle(text))


def alternative(text):
    """An alternative in the middle."""
    return put_in(text, ' / "y"', middle(text))


def both_ends(text):
    """A letter behind the first line and the last at once."""
    return put_in(text, "x", text.index("\n"), text.rindex("\n"))


def shared_name(text):
    """The shared name is another one in all its places at once."""
    return swapped(text, [it.span() for it in re.finditer("shared", text)], "common")


def as_many_rules(text):
    """As many rules as there are, of other names, are pasted before the line in the middle."""
    at = middle(text) + 1
    return swapped(text, [(at, at)], text.replace("rule-", "pasted-"))


def end_of_chain(text):
    """The rule at the end of a chain is itself: then none generates anything."""
    at = text.index('"x"')
    head = text[text.rfind("\n", 0, at) + 1 : at].split()[0]
    return swapped(text, [(at, at + len('"x"'))], head)


def comment(text):
    """A comment behind the line in the middle is typed key by key, and erased."""
    keys = typed(text, middle(text), " ;x")
    erased = [(start, (line, character + 1), "") for start, (line, character), _ in reversed(keys)]
    return [Notice([edit]) for edit in keys + erased]


def in_turn(*texts):
    """A letter behind the line in the middle of each document, and then each is erased."""
    both = [middle_line(text) for text in texts]
    return [it[half]._replace(document=at) for half in range(2) for at, it in enumerate(both)]


FORMS = (
    Form("all on one line", 400_000, on_one_line, first_line),
    Form("one rule of alternatives", 800_000, many_alternatives, first_line),
    Form("one name everywhere", 340_000, one_name, first_line),
    Form("deep brackets", 28_000, deep_brackets, first_line),
    Form("faulty blocks", 280_000, faulty_blocks, first_line),
    Form("4096 times the next rule", 100_000, one_chain, first_line),
    Form("a chain", 200_000, shallow_chain, first_line),
    Form("a ring", 200_000, one_ring, first_line),
    Form("comments", 96_000, comments, first_line),
    Form("undefined names", 200_000, undefined, first_line),
    Form("each rule twice", 240_000, twice_defined, first_line),
    Form("characters of two units", 48_000, wide_characters, first_line),
    Form("one name on one line", 2_000_000, names_on_one_line, first_line),
    Form("brackets on one line", 32_000, brackets_on_one_line, first_line),
    Form("a comment on one line", 4_190_000, comment_on_one_line, first_line),
    Form("one undefined name", 100_000, one_undefined_name, first_line),
    Form("one name defined", 100_000, one_name_defined, first_line),
    Form("one name added to", 100_000, one_name_added_to, first_line),
    Form("nothing to add to", 100_000, nothing_to_add_to, first_line),
    Form("an unproductive chain", 100_000, unproductive_chain, first_line),
    Form("letters and slashes", 2_000_000, alternatives_of_one_character, first_line),
    Form("repeats of repeats", 20_000, repeats_of_repeats, first_line),
    Form("a chain of repeats", 100_000, chain_of_repeats, first_line),
    Form("rules of two names", 80_000, two_names, middle_line),
    Form("two such texts in turn", 40_000, documents(2), in_turn),
    Form("three such texts in turn", 40_000, documents(3), in_turn),
    Form("four such texts in turn", 40_000, documents(4), in_turn),
    Form("first and last line at once", 80_000, two_names, both_ends),
    Form("a name in 20 places at once", 80_000, with_shared_name, shared_name),
    Form("as many rules pasted", 40_000, two_names, as_many_rules),
    Form("a shuffled chain, an alternative", 100_000, shuffled_chain, alternative),
    Form("a chain to and fro, an alternative", 100_000, to_and_fro, alternative),
    Form("a rule that needs all", 100_000, needs_all, alternative),
    Form("the end of a shuffled chain", 100_000, shuffled_chain, end_of_chain),
    Form("the end of what a rule needs", 100_000, needs_all, end_of_chain),
    Form("blank lines, then a rule", 600_000, before_a_rule(blank_lines), blank),
    Form("blank lines alone", 600_000, blank_lines, blank),
    Form("lines of comment, then a rule", 160_000, before_a_rule(comment_lines), middle_line),
    Form("lines of comment alone", 160_000, comment_lines, middle_line),
    Form("a block of unknown alternatives", 100_000, unknown_alternatives, middle_line),
    Form("one name defined, its middle", 100_000, one_name_defined, middle_line),
    Form("undefined names, their middle", 100_000, undefined, middle_line),
    Form("one letter a line", 600_000, one_letter_lines, middle_line),
    Form("a comment typed in a block", 500_000, long_block, comment),
)


def most_bytes(texts, notices):
    """At most so many bytes the texts have while this is typed."""
    more = max(sum(len(new.encode()) for *_, new in it.edits) for it in notices)
    return sum(len(text.encode()) for text in texts) + more


def fault(form):
    """What is wrong with a form; None where nothing is."""
    texts = form.texts(FEW)
    notices = form.typed(*texts)
    after = functools.reduce(lambda now, it: [applied(text, it.edits) if at == it.document else text for at, text in enumerate(now)], notices, texts)
    if after != texts:
        return "what is typed doesn't lead back"
    if not all(it.edits for it in notices) or len({it.document for it in notices}) != len(texts):
        return "nothing is typed in a document"
    return "it is too large" if any(len(it.encode()) > MOST_BYTES for it in form.texts(form.count)) else None


def main():
    faults = {form.name: wrong for form in FORMS if (wrong := fault(form))}
    for name, wrong in faults.items():
        print(f"{name}: {wrong}")
    print(f"{len(FORMS) - len(faults)} forms are as they must be, {len(faults)} aren't")
    return 1 if faults else 0


if __name__ == "__main__":
    sys.exit(main())

"""Kinds of replayed typing: what an author does to a grammar, as the edits that an editor sends.

    KINDS["a new rule"](text, random.Random(7))

Each kind is a function from a text and seeded chance to a list of edits, ((start line, start character), (end line, end character), new text), each
of which is about the text as those before it left it. What is typed or erased by keys comes as an edit of one character; what is cut, pasted or
deleted at once, and a line end with the blanks behind it, as one edit. The list is empty where a text has nothing of the kind. Lines end with LF,
and positions count characters. `applied` makes the text that the edits lead to.
"""
import re

RULE = re.compile(r"^[A-Za-z][^\n]*\n?(?:[ \t]+[^\s][^\n]*\n?)*", re.MULTILINE)
NAME = re.compile(r"[A-Za-z][A-Za-z0-9-]*")
TOKEN = re.compile(
    r'(?P<comment>;[^\n]*)|(?P<quoted>(?:%[isIS])?"[^"\n]*")|(?P<prose><[^>\n]*>)|(?P<number>%[bdxBDX][0-9A-Fa-f.-]+)'
    r"|(?P<name>[A-Za-z][A-Za-z0-9-]*)|(?P<defines>=/?)|(?P<repeat>[0-9]*\*[0-9]*|[0-9]+)|(?P<operator>[/()\[\]])"
)
ELEMENTS = ("name", "quoted", "number", "prose")
WORDS = ("what", "follows", "it", "is", "always", "the", "first", "octet", "of", "header", "or", "none", "optional", "since", "section", "new")
TRIES = 100


def applied(text, edits):
    """The text behind these edits."""
    lines = text.split("\n")
    for (start, first), (end, last), new in edits:
        lines[start:end + 1] = (lines[start][:first] + new + lines[end][last:]).split("\n")
    return "\n".join(lines)


def place(text, offset):
    """The line of an offset, and how many characters of that stand before it."""
    return text.count("\n", 0, offset), offset - text.rfind("\n", 0, offset) - 1


def cut(text, start, end):
    """The edit that takes out what stands between two offsets."""
    return place(text, start), place(text, end), ""


def put(text, offset, new):
    """The edit that puts something in at once."""
    return place(text, offset), place(text, offset), new


def typed(text, offset, new):
    """The edits that type something, character by character."""
    line, character = place(text, offset)
    edits = []
    for one in new:
        edits.append(((line, character), (line, character), one))
        line, character = (line + 1, 0) if one == "\n" else (line, character + 1)
    return edits


def typed_above(text, offset, new):
    """The edits that open a line before the one that starts at an offset, and type something there."""
    return [put(text, offset, "\n"), *typed(text, offset, new)]


def retyped(text, start, end, new):
    """The edits that erase a part of a line, the last character first, and type something in its place."""
    line, first = place(text, start)
    erased = [((line, first + at - 1), (line, first + at), "") for at in range(end - start, 0, -1)]
    return erased + typed(text, start, new)


def some_rule(text, dice):
    """Where a rule starts and ends; None where there is none."""
    found = RULE.search(text, dice.randrange(len(text) + 1)) or RULE.search(text)
    return found and found.span()


def body(text, rule):
    """The tokens behind the head of a rule: the kind of each, where it starts and where it ends."""
    tokens = [(it.lastgroup, *it.span()) for it in TOKEN.finditer(text, *rule)]
    behind = next((at for at, it in enumerate(tokens) if it[0] == "defines"), len(tokens))
    return tokens[behind + 1:]


def body_end(text, rule):
    """Where the last token of a rule ends that is no comment; for a rule without a body, where its name ends."""
    ends = [end for kind, _, end in body(text, rule) if kind != "comment"]
    return ends[-1] if ends else NAME.match(text, rule[0]).end()


def some_part(text, dice, *kinds):
    """Where a token of one of these kinds starts and ends in the body of a rule; None where none was found."""
    for _ in range(TRIES):
        rule = some_rule(text, dice)
        parts = [it for it in body(text, rule) if it[0] in kinds] if rule else []
        if parts:
            return dice.choice(parts)[1:]
    return None


def some_name(text, dice):
    """The name of a rule of the text, or a word where it has none."""
    rule = some_rule(text, dice)
    return NAME.match(text, rule[0])[0] if rule else "name"


def new_name(dice):
    """A name that hardly any rule has."""
    return f"{dice.choice(WORDS)}-{dice.choice(WORDS)}-{dice.randrange(100)}"


def sentence(dice):
    """Some words."""
    return " ".join(dice.choice(WORDS) for _ in range(dice.randint(2, 9)))


def some_element(text, dice):
    """What stands for an element: mostly a name."""
    return dice.choice([some_name(text, dice), some_name(text, dice), f'"{dice.choice(WORDS)}"', "%x41-5A", f"1*{some_name(text, dice)}"])


def rule_again(text, dice):
    """A rule is deleted at once, but for its last line end, and typed again."""
    rule = some_rule(text, dice)
    if not rule:
        return []
    lines = text[slice(*rule)].rstrip("\n")
    return [cut(text, rule[0], rule[0] + len(lines)), *typed(text, rule[0], lines)]


def name_retyped(text, dice):
    """A name in a body is erased, and it or another one is typed."""
    part = some_part(text, dice, "name")
    return retyped(text, *part, dice.choice([text[slice(*part)], some_name(text, dice)])) if part else []


def string_retyped(text, dice):
    """What stands in a string is erased, and other words are typed."""
    part = some_part(text, dice, "quoted")
    return retyped(text, text.index('"', part[0]) + 1, part[1] - 1, sentence(dice)) if part else []


def number_retyped(text, dice):
    """The digits of a number are erased, and the same or others typed."""
    part = some_part(text, dice, "number")
    if not part:
        return []
    digits = text[part[0] + 2:part[1]]
    others = re.sub("[0-9A-Fa-f]", lambda _: dice.choice("01"), digits)
    return retyped(text, part[0] + 2, part[1], dice.choice([digits, others]))


def comment_typed(text, dice):
    """A comment in a rule is erased and typed anew, or one is typed behind a rule."""
    part, rule = some_part(text, dice, "comment"), some_rule(text, dice)
    if part and dice.random() < 0.5:
        return retyped(text, part[0] + 1, part[1], " " + sentence(dice))
    return typed(text, body_end(text, rule), "  ; " + sentence(dice)) if rule else []


def comment_line(text, dice):
    """A line that is a comment is typed before a rule."""
    rule = some_rule(text, dice)
    return typed_above(text, rule[0], "; " + sentence(dice)) if rule else []


def alternative_added(text, dice):
    """An alternative is typed at the end of a rule."""
    rule = some_rule(text, dice)
    return typed(text, body_end(text, rule), " / " + some_element(text, dice)) if rule else []


def option_added(text, dice):
    """An option is typed behind an element."""
    part = some_part(text, dice, *ELEMENTS)
    return typed(text, part[1], f" [ {some_element(text, dice)} ]") if part else []


def element_added(text, dice):
    """An element is typed behind another one."""
    part = some_part(text, dice, *ELEMENTS)
    return typed(text, part[1], " " + some_element(text, dice)) if part else []


def head_renamed(text, dice):
    """The name that a rule defines is erased, and a new one is typed."""
    rule = some_rule(text, dice)
    return retyped(text, *NAME.match(text, rule[0]).span(), new_name(dice)) if rule else []


def new_rule(text, dice):
    """A rule of one to three lines is typed before another one."""
    rule = some_rule(text, dice)
    if not rule:
        return []
    lines = [" ".join(some_element(text, dice) for _ in range(dice.randint(1, 3))) for _ in range(dice.randint(1, 3))]
    return typed_above(text, rule[0], f"{new_name(dice)} = " + "\n    / ".join(lines))


def enter_in_rule(text, dice):
    """A line end is typed before a token of a rule, mostly with blanks behind it."""
    part = some_part(text, dice, *ELEMENTS, "repeat", "operator", "comment")
    return [put(text, part[0], "\n" + " " * dice.choice([0, 4, 4, 18]))] if part else []


def enter_before_rule(text, dice):
    """A line end is typed before a rule."""
    rule = some_rule(text, dice)
    return [put(text, rule[0], "\n")] if rule else []


def rules_moved(text, dice):
    """One rule or some that follow one another are deleted, or a copy of them is pasted before a rule."""
    rule = some_rule(text, dice)
    if not rule:
        return []
    start, end = rule
    for _ in range(dice.randrange(5)):
        behind = RULE.search(text, end)
        end = behind.end() if behind else end
    if dice.random() < 0.5:
        return [cut(text, start, end)]
    return [put(text, some_rule(text, dice)[0], text[start:end].rstrip("\n") + "\n")]


def word_moved(text, dice):
    """A name, a string or a number is cut, and pasted behind an element."""
    part = some_part(text, dice, "name", "quoted", "number")
    if not part:
        return []
    taken = cut(text, *part)
    rest = applied(text, [taken])
    behind = some_part(rest, dice, *ELEMENTS)
    return [taken, put(rest, behind[1] if behind else part[0], " " + text[slice(*part)])]


KINDS = {
    "a rule deleted, typed again": rule_again,
    "a name retyped": name_retyped,
    "a string retyped": string_retyped,
    "a number retyped": number_retyped,
    "a comment typed": comment_typed,
    "a new comment line": comment_line,
    "an alternative added": alternative_added,
    "an option added": option_added,
    "an element added": element_added,
    "a head renamed": head_renamed,
    "a new rule": new_rule,
    "Enter in a rule": enter_in_rule,
    "Enter before a rule": enter_before_rule,
    "rules pasted or deleted": rules_moved,
    "a word cut and pasted": word_moved,
}

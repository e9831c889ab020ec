"""Random grammars, and random drafts that have them, as lines and as texts: in lists and quotes, with tabs, each kind of line end, attribute
lists, comments, sections and references; with fences that open over prose, with rules that nothing marks as ABNF, and at fault; the marks that
may be put into a draft or taken out; and texts of words.
"""
import re

import plain_drafts
import plain_findings
from random_texts import FRAGMENTS, Reading, random_text

ENDS = ("\n", "\n", "\r\n", "\r")
SHARED = ("\n", "\n\n", "\r\n", "\r", "\t", "  ", "<!--", "-->", "a = b\n", 'b = "x"\n', "a", "; \u00e9\U0001f600", " / c", "=")
MARKS = {
    "markdown": ("```", "~~~\n", "```abnf\n", "\n~~~ abnf\n", "\n> ```abnf\n", "> ", "{.abnf}\n", "{::comment}\n", "{:/}\n", "- ", *SHARED),
    "xml": (
        *('<artwork type="abnf">', "<artwork>", "</artwork>", "<![CDATA[", "]]>", "&", "&lt;", "&#x62;", "&nbsp;", "<br/>", "<t a='>'>", "<", ">"),
        *SHARED,
    ),
    "abnf": FRAGMENTS,
}
FENCE = re.compile("[ >]*[`~]{3}")
# What may stand beside a fence
ASIDES = (
    *("{.abnf}", ' {: .x type="ABNF"}', "{.language-abnf}", "{.abnf }", "{.x.abnf}", "<!--", "-->", "-->", "<!-- -->", "{::comment}", "{:/}", "{:/}"),
    *("; c", "      ; c", "   ", "{.x", " {: #y}"),
)
# Words, of which each line is a fault of syntax where a fence opens over them
PROSE = ("The server answers.", "An item: a - b", "- one", "1. two", "> three", "(four)", "## Five", "a = five, or six", "", "  and more")
# What else a text of words may have
HEADS = ("no = ?", "no =/", "no = nope", "; no", " no", "nope = (")
IN_WORD, WORD_END = re.compile("(?<=[A-Za-z0-9])[A-Za-z0-9]"), re.compile("[A-Za-z0-9](?![A-Za-z0-9-])")
# What is taken out as one
MARK = re.compile("[`~]{3,}(?:[ ]?[A-Za-z]+)?|<!--|-->|<!\\[CDATA\\[|\\]\\]>|<[^<>]*>|&[^;\\s]*;|\r\n|[A-Za-z0-9-]+|.", re.DOTALL)
# What may stand between the pieces of a block of RFCXML
BETWEEN = (*("<!-- no = ? & -->", "<!--\n-->", "<br/>", "<bcp14 a='>'>", "<br a=\">\"/>") * 3, "&nbsp;", "&nbhy;", "&zwsp;", "&wj;")

WORDS = ("", "Some words.", "\u00e9\u4e2d\U0001f600", "    an = indented block", "- an item", "# A title", "``no = fence``", "<!-- -->")
# Fences that aren't of ABNF, and of each that is to be marked its line in the text, and its column. In what stands beside others no list begins.
OTHERS = (
    ("```\nno = ?\n```", None),
    ("~~~~ text\n```abnf\nno = ?\n```\n~~~~", None),
    ("``` abnf-like\nno = nope\n```", None),
    ("```\nno = nope\n```", (1, 1)),
    ("> ~~~ \n>   no = %x61 ; no\n>    / <p>\n>\n>   no =/ no\n> ~~~", (1, 3)),
    ("- an item\n\n  ````\t\n  no = 3*2no\n  no = no\n ; no\n  `````", (3, 3)),
    ("~~~\nno = %x61\nno\n~~~", None),
    ("~~~\n; no = %x61\n~~~", None),
    ("\n{.no}\n~~~\nno = nope\n~~~", None),
    ("~~~\nno = nope\n~~~\n {: .no\n", None),
    ("<!--\n~~~\nno = nope\n~~~\n-->", None),
)
# Lines that are each a block with one fault of syntax, and how many of them may stand in a row
FAULTY = ("? is prose", "9 lives", "= b", "A title here", "/ c", "- an item", "too = 4294967296b", f"deep = {65 * '('}a{65 * ')'}", "b = ?", "a = (c")
IN_A_ROW = (plain_findings.MOST_FAULTS - 1, plain_findings.MOST_FAULTS, plain_findings.MOST_FAULTS + 1, plain_findings.MOST_FAULTS + 1, 30)
# Rules whose shortest strings have what XML reads
MARKUP = ('lt = "<p>"', 'amp = "&" / "yy"', 'lt = %x26.6C.74.3B', "amp = %x5D.5D.3E", 'lt = amp "<" / first', 'amp = "<!--"')
END_TAG = "</artwork>"
# What is at fault in a block of RFCXML, each kind with what would end it behind
ENDLESS = (
    [("&foo;", ""), ("& ", ""), ("&#xD800;", "")],
    *([("<!-- ", "-->")], [("<![CDATA[", "]]>")], [("<t ", ">"), ("<t a='", "'")], [(END_TAG, "")]),
)


def grammar(dice):
    """A random grammar whose first line has content, at the left. Some of its blocks come again, some of them with another comment. Some have
    rules with marks of XML in their strings, or faults in a row. One that would be no grammar has a rule more."""
    text = 'first = "x"\n' + random_text(dice)
    lines = re.sub("\r\n?", "\n", text).split("\n")
    again = [block for block in blocks(lines) if dice.random() < 0.2]
    lines += [line + dice.choice(("", "", " ; again")) for block in again for line in block]
    if dice.random() < 0.3:
        lines[1:1] = dice.sample(MARKUP, dice.choice((1, 2)))
    if dice.random() < 0.3:
        at = dice.choice([*(at for at in range(1, len(lines)) if is_at_left(lines[at])), len(lines)])
        lines[at:at] = dice.choices(FAULTY, k=dice.choice(IN_A_ROW))
    text = "\n".join(lines)
    return f'{text}\nlast = "x"' if plain_findings.is_no_grammar(Reading(text, "utf-32").items) else text


def is_content(line):
    return line.strip(" \t")[:1] not in ("", ";")


def is_at_left(line):
    return is_content(line) and line[0] not in " \t"


def pieces(dice, lines):
    """The lines of a grammar, cut before some of those that begin at the left, and often where faults in a row begin and end."""
    often, known = dice.choice((0.4, 0.4, 0.2, 0.05)), {True: 0, False: 0.8}
    pairs = [(before in FAULTY, line in FAULTY) for before, line in zip(lines, lines[1:])]
    odds = [known[one == other] if one or other else often for one, other in pairs]
    cuts = [at for at, (line, odd) in enumerate(zip(lines[1:], odds), 1) if is_at_left(line) and dice.random() < odd]
    return [lines[start:end] for start, end in zip([0, *cuts], [*cuts, len(lines)])]


def fence_around(dice, piece):
    """A fence that no line of a piece closes."""
    mark = dice.choice("`~")
    longest = max((len(it) for line in piece for it in re.findall(f"^[ \t]*({mark}+)", line)), default=0)
    return mark * dice.choice((max(3, longest + 1), max(3, longest + 1) + 2))


def put_around(dice, draft, warnings):
    """Puts lines of other text behind those of a draft, and their warnings behind others."""
    for _ in range(dice.randrange(4)):
        text, at = dice.choice(OTHERS) if dice.random() < 0.3 else (dice.choice(WORDS), None)
        if at:
            warnings.append(f"g:{len(draft) + at[0]}:{at[1]}: warning: {said(plain_drafts.BARE)}")
        draft += text.split("\n")


def said(of_aside):
    """What is said of what can't be read, with its code."""
    return "{} [{}]".format(*of_aside)


def draft_of(dice, lines):
    """The lines of a draft, of each line of the grammar where it stands there, as its line and by how much it is moved, and the warnings of
    blocks that are empty, or that nothing marks."""
    draft, moved, warnings = [], [], []
    for piece in pieces(dice, lines):
        put_around(dice, draft, warnings)
        if dice.random() < 0.2:
            draft += [dice.choice(("~~~ abnf", "> ~~~ abnf", "  ~~~{.abnf}")), *dice.choice(([], [""], [" \t", ""]))]
            warnings.append(f"g:{len(draft) + 1}:1: warning: {said(plain_drafts.EMPTY)}")
            draft.append(f"{dice.choice(('', '  '))}~~~")
        fence, outer, inner = fence_around(dice, piece), " " * dice.choice((0, 0, 2, 5)), " " * dice.choice((0, 0, 3, 8))
        draft.append(f"{outer}{fence}{dice.choice(('', ' '))}{dice.choice(('abnf', 'ABNF', 'Abnf rules'))}")
        for line in piece:
            moved.append((len(draft), len(outer) + len(inner)))
            draft.append(outer + inner + line)
        draft.append(dice.choice(("", outer, "   ")) + fence + dice.choice(("", " ", fence[0])))
    put_around(dice, draft, warnings)
    return draft, moved, warnings


def unread(dice):
    """An element whose text is in another file, that has none, or that has no type, as one line, with where its warning stands in it and what that
    says."""
    name, quote = dice.choice(("sourcecode", "artwork")), dice.choice("\"'")
    kind, other = f"type={quote}{dice.choice(('abnf', 'ABNF'))}{quote}", f"alt={quote}src=>{quote}"
    source, blank = f"src{dice.choice(('', ' '))}={quote}a.abnf{quote}", dice.choice(("", " ", "<!-- no = ? -->", "<![CDATA[ ]]>", "&#9;"))
    attributes = [kind, *dice.choice(([], [other]))]
    dice.shuffle(attributes)
    front = f"<{name} {' '.join(attributes)}"
    if dice.random() < 0.4:
        return untyped(dice, name, other)
    text, at, says = dice.choice((
        (f"{front}/>", 1, plain_drafts.EMPTY),
        (f"{front}>{blank}</{name}>", 1, plain_drafts.EMPTY),
        (f"{front} {source}/>", 1, plain_drafts.ELSEWHERE),
        (f"{front} {source}>{blank}</{name}>", 1, plain_drafts.ELSEWHERE),
        (f"{front}>{blank}<xi:include href='a'/></{name}>", len(front) + len(blank) + 2, plain_drafts.ELSEWHERE),
        (f"<{name} {other} {source}/>", 0, None),
    ))
    return text, at, says


def untyped(dice, name, other):
    """The same of an element without a type, most of them with rules."""
    front = f"<{name}{dice.choice(('', ' ', f' {other}'))}>"
    kind = dice.choice(("no = nope", "no = &quot;&#x78;<!-- ? -->\"<![CDATA[ / <p>]]>", "no = &lt;<br/>p>"))
    return dice.choice((
        (f"{front}{kind}</{name}>", 1, plain_drafts.UNTYPED),
        (f"{front}{kind}</{name} >", 1, plain_drafts.UNTYPED),
        (f"{front}{kind}{front}{kind}</{name}></{name}>", len(front + kind) + 1, plain_drafts.UNTYPED),
        (f"{front}{kind}<sourcecode src='a'/></{name}>", 0, None),
        (f"{front}{kind} &foo;</{name}>", 0, None),
        (f"{front}{kind} ?</{name}>", 0, None),
        (f"{front}<!-- no --></{name}>", 0, None),
        (f"<{name} type=''>{kind}</{name}>", 0, None),
        (f"<{name} src='a'>{kind}</{name}>", 0, None),
    ))


def page_of(dice, lines):
    """The lines of a draft in RFCXML, of each line of the grammar where it stands there, and the warnings of what can't be read or isn't
    marked."""
    page, moved, warnings = [dice.choice(("<rfc>", "\u00e9<!-- no = ? -->"))], [], []
    for piece in pieces(dice, lines):
        for _ in range(dice.choice((0, 0, 1, 2))):
            text, at, says = unread(dice)
            before = dice.choice(("", "<t>\u4e2d</t>"))
            if says:
                warnings.append(f"g:{len(page) + 1}:{len(before) + at}: warning: {said(says)}")
            page.append(before + text)
        inner = " " * dice.choice((0, 0, 3, 8))
        page.append('<artwork type="abnf"><![CDATA[')
        for line in piece:
            moved.append((len(page), len(inner)))
            page.append(inner + line)
        page.append("]]></artwork>")
    return page, moved, warnings


def with_fault(dice, page):
    """A draft in RFCXML that is put at fault, mostly in a block: what is put in has no end behind it, or the last end tag is missing."""
    mark, end = dice.choice(dice.choice(ENDLESS))
    if mark == END_TAG:
        return "".join(page.rpartition(mark)[::2])
    within = [(it.end(), page.find(END_TAG, it.end())) for it in re.finditer('<artwork type="abnf">', page)]
    start, stop = dice.choice((*within, (0, len(page))))
    at = dice.randrange(start, max(start, stop) + 1)
    is_cdata = page.rfind("<![CDATA[", 0, at) > page.rfind("]]>", 0, at)
    return page[:at] + "]]>" * is_cdata + mark + (page[at:].replace(end, "") if end else page[at:])


def blocks(lines):
    """The blocks of a grammar that stands at the left, each as its lines."""
    starts = [at for at, line in enumerate(lines) if is_content(line) and line[0] not in " \t"]
    return [lines[start:end] for start, end in zip(starts, [*starts[1:], len(lines)])]


def damaged(dice, form, text):
    """A draft with a few marks put in or taken out."""
    for _ in range(dice.choice((0, 0, 0, 1, 2))):
        start, end = span(dice, text)
        text = text[:start] + (dice.choice(MARKS[form]) if dice.random() < 0.5 else "") + text[end:]
    return text


def span(dice, text):
    """Where a random mark of a text begins, and where it ends, or that it is empty there."""
    found = MARK.match(text, dice.randrange(len(text) + 1))
    return (found.start(), dice.choice(found.span())) if found else (len(text), len(text))


def with_asides(dice, lines):
    """The lines of a draft in Markdown, with others beside fences; some blocks are ABNF by an attribute list alone, or not at all."""
    asides = ("",) * 24 + ASIDES
    for line in lines:
        if not FENCE.match(line):
            yield line
            continue
        before, behind = dice.choice(asides), dice.choice(asides)
        yield from [before] * bool(before)
        yield re.sub("(?i) ?abnf.*", "", line) if "abnf" in before or dice.random() < 0.1 else line
        yield from [behind] * bool(behind)


def markdown(dice):
    lines = [*with_asides(dice, draft_of(dice, grammar(dice).split("\n"))[0])]
    if dice.random() < 0.15:
        at = dice.randrange(len(lines) + 1)
        lines[at:at] = ["```abnf", *dice.choices(PROSE, k=dice.choice((5, 15, 40))), *["```"] * dice.choice((0, 1))]
    front, front_again = dice.choice((("", ""), ("", ""), ("- ", "  "), ("> ", "> "), ("\t", "\t")))
    lines = [(front_again if at else front) + line for at, line in enumerate(lines)]
    if dice.random() < 0.2:
        lines = [line.replace("   ", " \t ", 1) for line in lines]
    return dice.choice(ENDS).join(lines)


def marked_up(dice, text):
    """What stands in a block of RFCXML for a text: sections, and characters of which some are written as references, at times those at the ends
    of words; between are comments. At times many words are cut."""
    often, by_number = (dice.choice((0.01, 0.05, 0.2, 0.3)) for _ in range(2))
    in_words, odds = (0.2 if dice.random() < 0.2 else often), [by_number] * len(text)
    cuts = [at for at in range(1, len(text)) if dice.random() < (in_words if IN_WORD.match(text, at) else often)]
    if dice.random() < 0.3:
        odds = [0.7 if WORD_END.match(text, at) else by_number for at in range(len(text))]
    for start, end in zip([0, *cuts], [*cuts, len(text)]):
        if dice.random() < 0.4:
            yield f"<![CDATA[{text[start:end]}]]>"
        else:
            yield "".join(referred(dice, *it) for it in zip(text[start:end], odds[start:end]))
        yield dice.choice(("",) * 16 + BETWEEN)


def referred(dice, character, often):
    by_number = (f"&#{ord(character)};", f"&#x{ord(character):X};")
    if character in "<&":
        return dice.choice(("&lt;" if character == "<" else "&amp;", *by_number))
    if dice.random() < often:
        return dice.choice(by_number)
    return {">": "&gt;", '"': dice.choice(('"', '"', "&quot;"))}.get(character, character)


def xml(dice):
    lines = [line.replace("]]>", "] ]>") for line in grammar(dice).split("\n")]
    page = dice.choice(ENDS).join(page_of(dice, lines)[0])
    page = re.sub('<artwork type="abnf">', lambda it: "<artwork>" if dice.random() < 0.05 else it[0], page)
    if dice.random() < 0.3:
        return page
    fronts = ("", "", "", "\n      ; c", " ; c\r  ; c")
    return re.sub(r"<!\[CDATA\[(.*?)\]\]>", lambda it: "".join(marked_up(dice, begun(dice, fronts, it[1]))), page, flags=re.DOTALL)


def begun(dice, fronts, text):
    """A text of a block behind one of these fronts, or, now and then, in the line of its start tag."""
    return text.lstrip("\r\n") if dice.random() < 0.15 else dice.choice(fronts) + text


def random_draft(dice, form):
    if form == "markdown":
        return damaged(dice, form, markdown(dice))
    draft = xml(dice)
    return damaged(dice, form, with_fault(dice, draft) if dice.random() < 0.35 else draft)


def prose(dice):
    """A text of words, in which some rules, heads and comments may stand."""
    lines = dice.choices(PROSE, k=dice.choice((1, 2, 3, 8)))
    for it in dice.choices(HEADS, k=dice.choice((0, 0, 0, 1, 2, 4))):
        at = dice.randrange(len(lines) + 1)
        lines[at:at] = [it]
    return dice.choice(ENDS).join(lines)

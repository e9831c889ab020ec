#!/usr/bin/env python3
"""Asks the built server about random drafts, and compares what it answers with what it says of their grammars, carried by a plain reading.

    tools/draft_sessions.py [PROGRAM] [--count N] [--seed N]

A client asks for drafts, and opens random ones in Markdown and in RFCXML: those of drawn_drafts, in lists and quotes, with tabs, each kind
of line end, references, comments and sections, and some with marks put in or taken out at random. It asks everything about each of them, at
names, in margins, in prose, at the ends of blocks and anywhere. Another session opens the text that plain_drafts gathers from a draft as a
grammar, with positions in characters, and is asked the same there. What it answers is carried outward by plain_drafts, and must be the
answer in the draft, in each of the three encodings. The edits of each rename that is granted are made in the draft: then the text that is
gathered must be that with the edits in it. So it must be once an example is inserted. Some drafts in RFCXML are at fault: then the grammar is
what stands before the fault. Each way in which an answer in a draft is another one must have been met often.

Then it is typed into a draft in Markdown, one in RFCXML and a grammar in turn: marks of blocks and what stands in them are put in, taken out
and put back. What is published of each version must be what the plain readings find in the text that is gathered from it, byte for byte, with
one worker, two and four (replayed_typing has how). Of a sample of the versions a new session must publish the same.

At last there are rows by value: which names and endings make a draft, and of which initializationOptions; what is published of drafts, and
what is answered in them, in each of the encodings. Without the options a text in Markdown has, byte for byte, what it has as a grammar. A fault
is told with the draft.
"""
import argparse
import collections
import itertools
import json
import random
import re
import sys

import draft_values
import encoding_rows
import plain_drafts
import replayed_typing
import rows
import runs
import session_rows
from drawn_drafts import MARKS, grammar, markdown, random_draft, span, xml
from plain_drafts import Draft, gathered
from random_texts import NEW_NAMES, UNITS, Reading, as_json
from refused_sessions import key_of
from typed_edits import Document

# How many drafts are asked about in each encoding, and how many edits are typed in each session, of which there are so many
COUNT, EDITS, TYPISTS, SEED = 200, 120, 9, 1
# One of so many of the versions is opened in a new session.
ANEW = 5
READ_PLAINLY = ("hover", "documentSymbol", "semanticTokens/full")
AT_POSITION = ("hover", "definition", "references", "rename", "codeAction")
# How often each of these is asked about a draft, how many documents a session has, and how long it waits for a document's answers
ASKED, AT_ONCE, SECONDS = 6, 20, 20
# Margins, and the marks of blocks
OUTSIDE_OF_LINES = re.compile("(?:(?<=[\r\n])|\\A)[ \t>]+|[`~]{3,}.*|<[^<>]*>|&[^;\\s]*;|\\]\\]>")


def initialize(encoding, options=None, **beside):
    """An initialize of a client that knows this encoding, with these initializationOptions, if it has any, and these parameters beside."""
    has_options = {} if options is None else {"initializationOptions": options}
    params = {"capabilities": {"general": {"positionEncodings": [encoding]}}, **has_options, **beside}
    return replayed_typing.body_of(id=1, method="initialize", params=params)


# ---- questions


def positions(dice, draft):
    """Places to ask at: offsets of names, of margins, of the ends of blocks, and any; and positions past the ends and inside characters."""
    places = Reading(draft.grammar.text, "utf-32").places
    starts = [{"line": it.line, "character": dice.choice((it.start, it.end - 1, it.end))} for it in places]
    names = [draft.outward(draft.grammar.offset(it)) for it in starts]
    marks = [dice.randrange(it.start(), it.end() + 1) for it in OUTSIDE_OF_LINES.finditer(draft.text)]
    ends = [at + dice.choice((-1, 0, 1, 2)) for at in draft.origins if at - 1 not in draft.places or at + 1 not in draft.places]
    anywhere = [dice.randrange(len(draft.text) + 1) for _ in range(4)]
    while True:
        some = dice.choices((names, marks, ends, anywhere), (6, 2, 2, 1))[0]
        at = draft.position(max(0, min(dice.choice(some or anywhere), len(draft.text))))
        yield dice.choice((at, at, at, at, {**at, "character": at["character"] + 1}, {**at, "character": 2**32}, {**at, "line": 2**33}))


def questions(dice, draft):
    """The method and the parameters of each question about a draft, but for the document."""
    at = positions(dice, draft)
    yield from (("documentSymbol", {}), ("semanticTokens/full", {}))
    for method in AT_POSITION * ASKED:
        if method == "codeAction":
            yield method, {"range": {"start": next(at), "end": next(at)}}
        else:
            beside = {"newName": dice.choice(NEW_NAMES)} if method == "rename" else {"context": {"includeDeclaration": dice.random() < 0.5}}
            yield method, {"position": next(at), **beside}


class Opened:
    """A draft, the questions about it, and their numbers."""

    def __init__(self, seed, number, encoding):
        dice = random.Random(f"sessions {seed} {number}")
        self.form, self.uri = ("markdown", "xml")[number % 2], f"file:///{number}"
        self.draft = Draft(random_draft(dice, self.form), self.form, encoding)
        self.asked = {100 * number + at: it for at, it in enumerate(questions(dice, self.draft), 10)}
        self.inner = {at: self.draft.inner(params) for at, (_, params) in self.asked.items()}

    def messages(self, is_draft):
        """The messages about the draft, or about its grammar, and what is waited for."""
        text, language = (self.draft.text, self.form) if is_draft else (self.draft.grammar.text, "abnf")
        document = {"uri": self.uri, "languageId": language, "version": 1, "text": text}
        said, keys = [replayed_typing.notice("didOpen", document)], {(self.uri, 1)}
        for number, (method, params) in self.asked.items():
            params = params if is_draft else self.inner[number]
            if params is not None:
                about = {"textDocument": {"uri": self.uri}, **params}
                said.append(replayed_typing.body_of(id=number, method=f"textDocument/{method}", params=about))
                keys.add(json.dumps(number))
        return said, keys

    def wanted(self, inside):
        """What must be told, by the number of the question or by the version, where this is told of the grammar."""
        found = self.draft.findings(inside[self.uri, 1]["params"]["diagnostics"])
        yield (self.uri, 1), {"method": PUBLISHED, "params": {"diagnostics": found, "uri": self.uri, "version": 1}}
        for number, (method, params) in self.asked.items():
            at = json.dumps(number)
            is_inside = self.inner[number] is not None
            answer = self.draft.answer(method, inside[at]) if is_inside else plain_drafts.outside(method, params)
            yield at, {"id": number, **{key: answer[key] for key in ("error", "result") if key in answer}}

    def missing(self, inside, told):
        """What isn't there of that which must come."""
        return (self.messages(False)[1] - inside.keys()) | (self.messages(True)[1] - told.keys())

    def faults(self, inside, told):
        if missing := self.missing(inside, told):
            yield self.form, self.draft.text, self.draft.encoding, "no answer", missing
            return
        for key, wanted in self.wanted(inside):
            found = {name: it for name, it in told[key].items() if name != "jsonrpc"}
            if found != wanted:
                question = key if isinstance(key, tuple) else self.asked[int(key)]
                yield self.form, self.draft.text, self.draft.encoding, question, found, wanted

    def made(self, inside, told):
        """What the answers come to; of each edit that is granted, whether the draft has the grammar with it."""
        yield from self.published(inside, told)
        for number, (method, _) in self.asked.items():
            if self.inner[number] is None:
                yield f"{method} outside", True
                continue
            before, after = inside[json.dumps(number)], told[json.dumps(number)]
            if method in ("rename", "codeAction") and before.get("result"):
                yield from self.edited(method, before["result"], after)
            elif method == "semanticTokens/full" and len(after["result"]["data"]) < len(before["result"]["data"]):
                yield "tokens left out", True
            elif after.get("result"):
                yield f"{method} in {self.form}", True

    def published(self, inside, told):
        """What is found otherwise in the draft than in its grammar."""
        before, after = (it[self.uri, 1]["params"]["diagnostics"] for it in (inside, told))
        codes, repeats = [it["code"] for it in after], sum(it["code"] == "duplicate" for it in before)
        yield from ((it, True) for it in ("differs",) if it in codes)
        yield from ((it["message"], True) for it in after if it["code"] == "xml")
        yield from (("flood", True) for it in after if "(the first of " in it["message"])
        if repeats > codes.count("differs") and not any("(the first of " in it["message"] for it in after):
            yield "copy left out", True

    def edited(self, method, before, after):
        """What comes of edits that are granted in the grammar."""
        if "error" in after:
            yield after["error"]["message"], True
        elif not after["result"]:
            yield f"{method} left out", True
        else:
            edits, by = (edits_of(it) for it in (before, after["result"]))
            yield f"{method} in {self.form}", self.has(edits, by) or (self.form, self.draft.text, by)
            ends = {self.draft.text[self.draft.offset(it["range"]["end"]) - 1] for it in by}
            yield from [(f"{method} behind a reference", True)] * (";" in ends and method == "rename")
            yield from [(f"{method} with CR LF", True)] * ("\r\n" in by[0]["newText"])

    def has(self, edits, by):
        """Whether the draft with the second edits has the grammar with the first ones, but for the line ends that these put in."""
        edited = Draft(self.draft.with_edits(by), self.form, self.draft.encoding)
        grammars = edited.grammar.text, self.draft.grammar.with_edits(edits)
        return len({it.replace("\r\n", "\n") for it in grammars}) == 1 and bool(edited.fault) == bool(self.draft.fault)


def edits_of(result):
    """The edits of a rename, or of a code action, in one document."""
    (edits,) = (result[0]["edit"] if isinstance(result, list) else result)["changes"].values()
    return edits


PUBLISHED = "textDocument/publishDiagnostics"
# What must have been found often, and what less often
COMES_TO = (
    *("rename in markdown", "rename in xml", "tokens left out", "the draft's XML is at fault", "differs", "copy left out", "flood"),
    *("codeAction in markdown", "codeAction in xml", "codeAction left out", "codeAction with CR LF"),
    *(f"{method} outside" for method in AT_POSITION),
    *(f"{method} in {form}" for method in ("hover", "definition", "references", "documentSymbol") for form in ("markdown", "xml")),
)
RARE = ("rename behind a reference", "name split by markup", *plain_drafts.XML_FAULTS.values(), plain_drafts.NO_END_TAG)


def told_in(program, first, opened, is_draft):
    """What a session tells of these drafts, one behind another, or of their grammars: by what it is about."""
    client, found = replayed_typing.Client(program, None), {}
    client.says(runs.frames([first]), {"1"}, SECONDS)
    for it in opened:
        said, keys = it.messages(is_draft)
        came, bodies = client.says(runs.frames(said), keys, SECONDS)
        client.says(runs.frames([session_rows.closed(it.uri)]), set(), SECONDS)
        found |= {key_of(body): json.loads(body) for body in bodies}
        if not came:
            break
    status, said, _ = client.outcome()
    return found if (status, said) == (1, b"") else {}


def question_cases(program, count, seed):
    came_to, edits = collections.Counter(), []
    for at, encoding in enumerate(UNITS):
        opened = [Opened(seed, count * at + number, encoding) for number in range(count)]
        groups = [opened[start : start + AT_ONCE] for start in range(0, count, AT_ONCE)]
        faults = []
        for group in groups:
            inside = told_in(program, initialize("utf-32"), group, False)
            told = told_in(program, initialize(encoding, {"drafts": True}), group, True)
            faults += [fault for it in group for fault in it.faults(inside, told)]
            made = [it for one in group if not one.missing(inside, told) for it in one.made(inside, told)]
            came_to.update(name for name, _ in made)
            edits += [is_kept for _, is_kept in made if is_kept is not True]
        asked = sum(len(it.asked) for it in opened)
        yield f"{asked} questions about {count} drafts, in {encoding}", sorted(faults, key=lambda it: len(it[1]))[:2], [], asked
    yield "the grammars after the edits that are granted", edits[:2], []
    too_seldom = [it for some, share in ((COMES_TO, 12), (RARE, 40)) for it in some if came_to[it] < count / share]
    yield f"what the answers come to: {replayed_typing.said_of(came_to)}", too_seldom, []


# ---- typing


class Typing:
    """What a client says that types in a draft of each kind and in a grammar, in the form of replayed_typing's sessions."""

    def __init__(self, seed, number):
        self.number, self.dice = number, random.Random(f"typing {seed} {number}")
        self.encoding, self.label = [*UNITS][number % len(UNITS)], 0
        agreed = encoding_rows.agreed(self.encoding).encode()
        self.messages, self.leads, self.bodies, self.waits = [initialize(self.encoding, {"drafts": True})], ["1"], {"1": agreed}, set()
        forms = dict(zip(("file:///typed.md", "file:///typed.XML", "file:///typed"), MARKS))
        texts = [markdown(self.dice), xml(self.dice), grammar(self.dice)]
        self.docs = [Document(self.dice, uri, text, self.encoding) for uri, text in zip(forms, texts)]
        self.forms, self.texts, self.undone = forms, {}, {uri: [text] for uri, text in zip(forms, texts)}
        for doc in self.docs:
            self.version(doc, "didOpen", languageId="text", text=doc.text)
        for _ in range(EDITS):
            doc = self.dice.choice((*self.docs, *self.docs[:2]))
            changes = [self.change(doc) for _ in range(self.dice.choice((1, 1, 1, 2)))]
            self.version(doc, "didChange", contentChanges=changes)
            if doc is not self.docs[-1] and self.dice.random() < 0.25:
                self.ask(doc)

    def version(self, doc, method, contentChanges=None, **beside):
        self.label += 1
        document, key = {"uri": doc.uri, "version": self.label, **beside}, (doc.uri, self.label)
        self.messages.append(replayed_typing.notice(method, document, **({"contentChanges": contentChanges} if contentChanges else {})))
        self.leads.append(key)
        self.bodies[key], self.texts[key] = self.published(doc, self.label), doc.text

    def published(self, doc, label):
        """What is published of a document by the plain readings."""
        if self.forms[doc.uri] == "abnf":
            found = Reading(doc.text, self.encoding).findings()
        else:
            draft = Draft(doc.text, self.forms[doc.uri], self.encoding)
            found = draft.findings(Reading(draft.grammar.text, "utf-32").findings())
        return replayed_typing.body_of(method=PUBLISHED, params={"diagnostics": found, "uri": doc.uri, "version": label})

    def ask(self, doc):
        """Something about a draft, and the answer by the plain readings."""
        draft = Draft(doc.text, self.forms[doc.uri], self.encoding)
        reading, number, method = Reading(draft.grammar.text, "utf-32"), 1000 + self.label, self.dice.choice(READ_PLAINLY)
        at = reading.start_of(self.dice.choice(reading.places)) if reading.places else (0, 0)
        told = {"hover": reading.hover(at), "documentSymbol": reading.outline(), "semanticTokens/full": {"data": reading.numbers()}}[method]
        position = draft.position(draft.outward(draft.grammar.offset(as_json(at))))
        params = {"textDocument": {"uri": doc.uri}, "position": position}
        self.messages.append(replayed_typing.body_of(id=number, method=f"textDocument/{method}", params=params))
        self.leads.append(str(number))
        self.bodies[str(number)] = replayed_typing.body_of(id=number, **draft.answer(method, {"result": told}))

    def change(self, doc):
        """Puts a mark in or takes one out; or makes the text what it was some edits ago, at times as a whole."""
        before, form = self.undone[doc.uri], self.forms[doc.uri]
        blocks, fault = gathered(doc.text, form) if form != "abnf" else ([doc.text], None)
        if len(before) > 1 and self.dice.random() < (0.4 if fault else 0.2 if blocks else 0.8):
            text = before.pop()
            return doc.whole(text) if self.dice.random() < 0.1 else doc.back_to(text)
        before.append(doc.text)
        start, end = span(self.dice, doc.text)
        return doc.put(start, end, self.dice.choice(MARKS[form]) if start == end or self.dice.random() < 0.3 else "")

    def fault(self, heard, due):
        """What is wrong with a session, with the text of the version; None where nothing is."""
        wrong = replayed_typing.fault(self, heard, due)
        return wrong and (*wrong, [self.texts[it] for it in wrong[1:2] if isinstance(it, tuple)])

    def fault_anew(self, program, key):
        """What is wrong with what a new session publishes of the text of a version; None where nothing is."""
        document = {"uri": key[0], "languageId": "text", "version": key[1], "text": self.texts[key]}
        wrote = runs.outcome(program, runs.frames([self.messages[0], replayed_typing.notice("didOpen", document)]))
        wanted = (1, b"", runs.frames([self.bodies["1"], self.bodies[key]]))
        return None if wrote == wanted else (self.texts[key], wrote, self.bodies[key])


def typing_cases(program, seed):
    typists = [Typing(seed, number) for number in range(TYPISTS)]
    versions = sum(len(it.texts) for it in typists)
    for form in MARKS:
        found = {it.bodies[key].partition(b',"uri"')[0] for it in typists for key in it.texts if it.forms[key[0]] == form}
        yield f"{len(found)} lists of findings while it is typed in {form}", len(found) > versions / 20, True
    with rows.library(replayed_typing.LIBRARY) as held:
        for workers, way in ((1, replayed_typing.one_by_one), *((it, replayed_typing.in_bursts) for it in (1, 2, 4))):
            run = replayed_typing.ran_by(program, held, way, working_threads=workers + 1)
            must_come = [set().union(*(due for _, _, due in way(it))) for it in typists]
            faults = [wrong for it, due in zip(typists, must_come) if (wrong := it.fault(run(it), due))]
            words = "each waited for" if way is replayed_typing.one_by_one else "some at once"
            yield f"{versions} versions, {workers} working, {words}", faults[:2], [], versions
    anew = [(it, key) for it in typists for key in [*it.texts][::ANEW]]
    faults = [wrong for it, key in anew if (wrong := it.fault_anew(program, key))]
    yield f"{len(anew)} of these versions in new sessions", faults[:2], [], len(anew)


# ---- rows by value

# A text with a rule of another name in each of its languages, and the names that its outline has in each
IN_EACH = 'g = "z"\n```abnf\nm = "x"\n```\n<artwork type="abnf">\nx = "y"\n</artwork>\n'
MARKDOWN, XML, ABNF = ["m"], ["x"], ["g", "m", "x"]
NO_LANGUAGE = object()
# Uris and languages of documents, and what these are where a client asks for drafts
OPENED = (
    *(("file:///g", "markdown", MARKDOWN), ("file:///g", "xml", XML), ("file:///g", "abnf", ABNF), ("file:///g.abnf", "xml", XML)),
    *(("file:///g.md", "abnf", ABNF), ("file:///g.XML", "abnf", ABNF), ("file:///g.md", "xml", XML), ("file:///g.xml", "markdown", MARKDOWN)),
    *(("file:///g", "Markdown", ABNF), ("file:///g.xml", "ABNF", XML), ("file:///g.md", "plaintext", MARKDOWN), ("file:///g.md", "", MARKDOWN)),
    *(("file:///g.mkd", 7, MARKDOWN), ("file:///g.markdown", None, MARKDOWN), ("file:///g.xml", "markdown ", XML)),
    *((f"file:///g.{end}", NO_LANGUAGE, MARKDOWN) for end in ("md", "MD", "mD", "mkd", "Mkd", "MARKDOWN", "markDown", "abnf.md")),
    *((f"file:///g.{end}", NO_LANGUAGE, XML) for end in ("xml", "xMl", "XML", "md.xml")),
    *((f"file:///g{end}", NO_LANGUAGE, ABNF) for end in (".md.abnf", "md", ".mdx", ".md/", ".md ", ".xml.txt", "xml", ".xhtml")),
    *((f"file:///g.{end}", NO_LANGUAGE, ABNF) for end in ("m\u212ad", "txt", "abnf", "")),
    *(("md", NO_LANGUAGE, ABNF), (".md", NO_LANGUAGE, MARKDOWN), ("", NO_LANGUAGE, ABNF), ("", "xml", XML)),
)
NOT_ASKING = (
    *(None, {}, True, [True], {"Drafts": True}, {"x": {"drafts": True}}),
    *({"drafts": it} for it in (False, "true", 1, None, {})),
)
# Parameters beside the capabilities by which nothing is asked for either
NOT_ASKING_BESIDE = ({"initializationOptions": None}, {"drafts": True})


def outlines(program, options, **beside):
    """The names in the outline of each of these documents, where the client has these initializationOptions and parameters beside."""
    turns = [(initialize("utf-8", options, **beside), 1)]
    for number, (uri, language, _) in enumerate(OPENED, 10):
        document = {"uri": uri, "version": 1, "text": IN_EACH, **({} if language is NO_LANGUAGE else {"languageId": language})}
        asked = replayed_typing.body_of(id=number, method="textDocument/documentSymbol", params={"textDocument": {"uri": uri}})
        turns += [(replayed_typing.notice("didOpen", document), 1), (asked, 1), (session_rows.closed(uri), 0)]
    bodies = map(json.loads, runs.bodies_of(runs.by_turns(program, turns)[2])[0])
    return [[symbol["name"] for symbol in it["result"]] for it in bodies if it.get("id", 1) != 1]


def valued(program, encoding, form, text, asked):
    """What is published of a draft, and what is answered to these questions, where this encoding is agreed."""
    document = {"uri": draft_values.URI, "languageId": form, "version": 1, "text": text}
    turns = [(initialize(encoding, {"drafts": True}), 1), (replayed_typing.notice("didOpen", document), 1)]
    for number, (method, params, _) in enumerate(asked, 10):
        about = {"textDocument": {"uri": draft_values.URI}, **params}
        turns.append((replayed_typing.body_of(id=number, method=f"textDocument/{method}", params=about), 1))
    bodies = [json.loads(it) for it in runs.bodies_of(runs.by_turns(program, turns)[2])[0][1:]]
    answers = [{key: body[key] for key in ("error", "result") if key in body} for body in bodies[1:]]
    return bodies[0]["params"]["diagnostics"] if bodies else None, answers


def value_cases(program):
    for encoding, (form, text, found, asked) in itertools.product(UNITS, draft_values.ROWS):
        told, answers = valued(program, encoding, form, text, asked)
        yield f"what is published of {text[:60]!r}, in {encoding}", told, found
        for (method, params, wanted), answer in itertools.zip_longest(asked, answers):
            yield f"{method} at {json.dumps(params)[:60]} in it", answer, wanted


def without_drafts(program, text, language):
    """What is written of a text with an ending of Markdown, where the client doesn't ask for drafts."""
    document = {"uri": "file:///g.md", "languageId": language, "version": 1, "text": text}
    reading = Reading(text, "utf-16")
    at = as_json(reading.start_of(reading.places[-1]) if reading.places else (0, 0))
    params = {"textDocument": {"uri": "file:///g.md"}, "position": at, "newName": "q", "range": {"start": at, "end": at}}
    methods = ("documentSymbol", "semanticTokens/full", *AT_POSITION)
    asked = [replayed_typing.body_of(id=2, method=f"textDocument/{it}", params=params) for it in methods]
    return runs.by_turns(program, [(it, 1) for it in (initialize("utf-16"), replayed_typing.notice("didOpen", document), *asked)])


def row_cases(program, count, seed):
    for (uri, language, wanted), found in itertools.zip_longest(OPENED, outlines(program, {"drafts": True})):
        yield f"{uri}, {'no language' if language is NO_LANGUAGE else repr(language)}", found, wanted
    for options in NOT_ASKING:
        yield f"the same with {json.dumps(options)}", outlines(program, options), [ABNF] * len(OPENED), len(OPENED)
    for beside in NOT_ASKING_BESIDE:
        yield f"the same with the parameters {json.dumps(beside)}", outlines(program, None, **beside), [ABNF] * len(OPENED), len(OPENED)
    texts = [markdown(random.Random(f"rows {seed} {number}")) for number in range(count)]
    differing = [text for text in texts if without_drafts(program, text, "markdown") != without_drafts(program, text, "abnf")]
    yield f"{count} texts in Markdown that are no drafts", differing[:2], [], count
    yield from value_cases(program)


def cases(program, count=COUNT, seed=SEED):
    yield from question_cases(program, count, seed)
    yield from typing_cases(program, seed)
    yield from row_cases(program, count // 3, seed)


def main():
    parser = argparse.ArgumentParser(usage="tools/draft_sessions.py [PROGRAM] [--count N] [--seed N]")
    parser.add_argument("program", nargs="?", default=rows.SERVER)
    parser.add_argument("--count", type=int, default=COUNT)
    parser.add_argument("--seed", type=int, default=SEED)
    return rows.report(cases(**vars(parser.parse_args())))


if __name__ == "__main__":
    sys.exit(main())

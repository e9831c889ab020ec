"""The trial of one crate's edits: what each of them comes to."""
import os
import shutil
import signal
import tempfile
import threading

from edits import checks, copies, kit
from edits.files import BAD_NAME, edits_in, read
from edits.functions import ANSWERS, Source, is_in
from edits.verdict import IS_FINAL, TIMED_OUT, against, against_named, is_lemma, read_check, refusal, verdict_alone, why_unclean
from workspace import write

SAME = "MEANS THE SAME AS BEFORE"
# The kinds of edits that mean the same of which there must be one each, as the tool has ways of its own for them.
DEFINITION, BODY, WITH_ANSWERS, WITH_INVARIANTS = "a definition", "a body", "a method with answers", "a function with invariants"
KINDS = (DEFINITION, BODY, WITH_ANSWERS, WITH_INVARIANTS)
# What rattle said in the last check of each thread that `rt` asked for.
HEARD = threading.local()


def run_for_rt(crate, texts, flags, kept):
    """What `rt` calls to check a crate with these texts in place of its own: in bounded time."""
    with copies.room() as folder:
        copies.copied(crate.folder, folder)
        for path, text in texts.items():
            write(f"{folder}/{path}", text)
        ended = checks.run(crate, folder, [it for it in flags if it not in checks.ONE_JOB], kept)
    HEARD.log = ended.stdout
    return ended


kit.RT.checked = run_for_rt


class Trial:
    """The edits of one crate, and what each came to: whether that is well, and what is said of it."""

    def __init__(self, crate, given, store, same_meaning=None):
        self.crate, self.given, self.store, self.results, self.checks = crate, given, store, {}, 0
        self.source = Source(crate.name, crate.folder)
        self.maker = copies.Maker(self.source, given.unedited)
        # (the functions that are shown to be proved where all others are left out, and the edits that mean the same and are found refused)
        self.shown, self.refused_too = set(), {}
        self.edits = [*self.edits_in(same_meaning, True), *self.edits_in(f"{crate.folder}/edits", False)]

    def length(self):
        """How long the trial takes beside others, by a guess."""
        return self.crate.count(rb"\n") * len(self.edits)

    def edits_in(self, folder, is_same):
        good, bad = edits_in(folder) if folder else ([], [])
        is_meant = not self.given.names or self.crate.name in self.given.names
        self.results.update({it: (False, BAD_NAME) for it in bad if is_meant})
        names = [it for it in good if is_meant or f"{self.crate.name}/{it}" in self.given.names]
        found = {f"{folder}/{it}": read(f"{folder}/{it}", self.source.folder) for it in names}
        self.source.read([text for texts, _, _ in found.values() for path, text in texts.items() if path in self.source.files])
        return [copies.Edit(file, self.source, is_same, it) for file, it in found.items()]

    def kinds(self, edit):
        """Of which kinds an edit is."""
        found = {BODY} if edit.functions else {DEFINITION} if edit.checked else set()
        for name in edit.functions:
            files = {os.path.basename(it) for it in self.source.proofs_of(name)}
            is_method = any(it[:1].isupper() for it in name.split("::")[:-1])
            found |= {WITH_ANSWERS} if is_method and ANSWERS[0] in files else set()
            found |= {WITH_INVARIANTS} if ANSWERS[1] in files else set()
        return found

    def unfit(self):
        """What is said of each edit that can't be made."""
        self.results.update({it.name: (False, f"BAD EDIT: {it.why}") for it in self.edits if it.why})
        return self.lines()

    def lines(self):
        return [f"{self.crate.name}/{name}: {text}" for name, (_, text) in sorted(self.results.items())]

    def not_tried(self, edits, why):
        """Notes that there is no verdict of edits, where no other copy gave one."""
        for it in edits:
            self.results.setdefault(it.name, (False, f"NOT TRIED: {why}"))

    def check(self, made, kept, named=()):
        """Checks a copy: what it said, and why it doesn't count, or None."""
        with copies.room() as folder:
            could_be, flags, whole = self.maker.make(folder, made, named)
            if not could_be:
                return None, "its edits can't be made together"
            with checks.MEMORY.of(self.crate):
                ended = checks.run(self.crate, folder, flags, kept)
                if ended.returncode == -signal.SIGKILL:
                    # most likely for memory
                    ended = checks.run(self.crate, folder, flags, kept)
            self.checks += 1
            said, why = read_check(ended.returncode, ended.stdout, self.crate.name, lambda *at: self.source.function_at(folder, *at))
            edited = made.edited() | self.source.with_cycles(named)
            if flags and not why:
                # (what a function stands on that an edit of something else names may be lemmas of that)
                why = why_unclean(said, lambda name: is_in(name, edited) or bool(named) and is_lemma(name), whole, made.is_direct())
            if self.given.log:
                with open(f"{self.given.log}/{self.crate.name}", "a", encoding="utf-8") as it:
                    names = " ".join(it.name for it in made.edits)
                    it.write(f"== {names}\n{ended.stdout}== status {ended.returncode}: {why or 'it counts'}\n")
            return said, why

    def judge(self, made, edit, lines):
        """Finds an edit refused where what is said of it in a copy shows that."""
        text = refusal(lines)
        if text and edit.is_same:
            self.refused_too[edit.name] = text
        elif text:
            self.results[edit.name] = True, text
            made.refused.add(edit.name)

    def together(self, made, kept):
        """Tries edits of bodies on one copy, and where it doesn't count on two, with half of them each."""
        said, why = self.check(made, kept)
        if not why:
            made.has_counted = True
            self.shown |= made.whole
            for edit in made.edits:
                # (what is edited itself must be proved without it)
                if edit.twins or edit.functions <= self.shown:
                    self.judge(made, edit, against(said, edit.functions))
        elif why in IS_FINAL:
            self.not_tried(made.edits, f"of its copy, {why}")
        elif len(made.edits) > 1:
            half = len(made.edits) // 2
            self.together(copies.Copy(made.edits[:half], made.whole), kept)
            self.together(copies.Copy(made.edits[half:]), kept)

    def by_itself_on_a_copy(self, edit, kept):
        """Tries an edit of something else than bodies: of the functions that it names, which must be proved without it, or of all."""
        made = copies.Copy([edit])
        said, why = self.check(made, kept, edit.checked)
        if why in IS_FINAL:
            self.not_tried([edit], f"of its copy, {why}")
        elif not why and {*edit.checked} <= self.shown:
            made.has_counted = True
            self.judge(made, edit, against_named(said, edit.checked))
        if edit.is_same and not made.has_counted:
            self.results[edit.name] = False, f"{SAME}, and its copy doesn't count: {why or 'what it names is not shown to be proved'}"

    def by_copies(self, edits, kept):
        """Tries edits on copies. Gives what to say of how many went together."""
        others = [it for it in edits if not it.functions]
        named = {name for it in others for name in it.checked}
        self.shown |= {it for it in named if self.store.has_shown(self.crate, it)}
        shared = self.maker.shared_out([it for it in edits if it.functions], named - self.shown)
        for made in shared:
            self.together(made, kept)
        for edit in others:
            self.by_itself_on_a_copy(edit, kept)
        self.look_at_same(edits, shared)
        return f"{' + '.join(str(len(it.edits)) for it in shared) or 'none'} in copies, {len(others)} by themselves"

    def look_at_same(self, edits, shared):
        """Sees that edits that mean the same are found not refused by copies in which real ones are."""
        for edit in (it for it in edits if it.is_same):
            stood_in = [it for it in shared if edit.name in (other.name for other in it.edits)]
            beside = min((len(it.refused) for it in stood_in if it.has_counted), default=0)
            if edit.name in self.refused_too:
                self.results[edit.name] = False, f"{SAME}, and is found refused: {self.refused_too[edit.name]}"
            elif edit.functions and (not beside or not all(it.has_counted for it in stood_in)):
                self.results[edit.name] = False, f"{SAME}, and did not stand among refused edits in copies that count"
            elif edit.functions:
                self.results[edit.name] = True, f"means the same as before, and is not found refused where {beside} others are"

    def by_itself(self, edit):
        """Tries an edit alone and from nothing."""
        with checks.MEMORY.of(self.crate):
            HEARD.log = ""
            kind, text = kit.alone(self.crate, edit.file)
        is_well, text = verdict_alone(kind, text, HEARD.log, edit.is_same)
        self.results[edit.name] = is_well, text.replace(f"ended with status {TIMED_OUT}", f"had not ended after {checks.MINUTES} minutes")

    def run_unedited(self):
        """Checks each copy of which something is left out, with no edit made."""
        others = [it for it in self.edits if not it.functions and it.checked]
        shared = self.maker.shared_out([it for it in self.edits if it.functions], {name for it in others for name in it.checked})
        with tempfile.TemporaryDirectory() as kept:
            tried = [(it, ()) for it in shared] + [(copies.Copy([it]), it.checked) for it in others]
            for number, (made, named) in enumerate(tried, 1):
                said, why = self.check(made, kept, named)
                lacking = [] if why else sorted({*made.edited(), *named} - said.proved)
                self.results[f"copy {number}"] = not why and not lacking, why or "; ".join(lacking) or "all of it is proved"
        return self.lines()

    def remembered(self):
        """The names of the edits in the store, of all that are tried; and those that are left to be tried."""
        names = {it: self.store.name(self.crate, it) for it in self.edits}
        kept_texts = {it: self.store.kept_text(name, it.is_same) for it, name in names.items()}
        if any(it.is_same and not text for it, text in kept_texts.items()):
            # (they are to stand among real ones)
            kept_texts = {}
        self.results.update({it.name: (True, text) for it, text in kept_texts.items() if text})
        return names, [it for it in names if not kept_texts.get(it)]

    def run(self):
        if self.given.unedited:
            return self.run_unedited()
        names, left = self.remembered()
        with tempfile.TemporaryDirectory() as kept:
            if self.given.kept and os.path.isdir(f"{self.given.top}/crates/{self.crate.name}/out/incremental"):
                shutil.copytree(f"{self.given.top}/crates/{self.crate.name}/out/incremental", kept, dirs_exist_ok=True)
            counts = self.by_copies(left, kept)
        alone = [it for it in left if it.name not in self.results]
        for edit in alone:
            self.by_itself(edit)
        self.not_tried(left, "nothing came of it")
        if not self.given.kept:
            self.store.keep(self.crate, {names[it]: (it, self.results[it.name][1]) for it in left if self.results[it.name][0]}, self.shown)
        earlier = len(names) - len(left)
        return [*self.lines(), f"{self.crate.name}: {counts}, {len(alone)} alone, {earlier} by earlier runs; {self.checks} checks"]

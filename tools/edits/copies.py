"""Copies of a crate in which many edits stand, each in a function, or a twin of one, of its own."""
import collections
import copy
import os
import shutil
import tempfile
import time
import zlib

from edits.functions import put
from edits.kit import PARTS, RT
from workspace import text_of, write

# In so many days each function with twins is a control once.
DAYS = 30
# The proof of a function that is left out.
HOLE = """use Rattle.{crate}.proofs.{module}.Statement.{{statement}}

pub {name}_spec : {{M : Type 1}} → statement M
{name}_spec = ?
"""


class Edit:
    """An edit, and the functions whose bodies alone it changes, or none where it changes something else."""

    def __init__(self, file, source, is_same, found):
        self.file, self.name, self.is_same, self.twins = file, os.path.basename(file), is_same, {}
        self.texts, others, self.why = found
        self.functions, self.checked = source.changed(self.texts), others["checked"]
        unknown = [it for it in self.checked if not source.has_function(it)]
        if not self.why and unknown:
            self.why = f"the crate has no function {unknown[0]}, which its line 'checked:' names"
        elif not self.why and self.checked and self.functions:
            self.why = "its line 'checked:' isn't read, since it changes bodies of functions alone"

    def in_twins(self, number):
        """The same edit, of twins of its functions in place of these."""
        made = copy.copy(self)
        made.twins = {it: f"{it}_twin{number}" for it in self.functions}
        made.functions = {*made.twins.values()}
        return made


def today():
    """The number of the day."""
    return int(time.time()) // 86_400


def days_left(name):
    """In how many days a function with twins is to be shown as it stands: each is, once in so many days."""
    return -(zlib.crc32(name.encode()) + today()) % DAYS


class Copy:
    """Edits that stand in one copy, and the functions that stand there as they are and must be proved.

    It may have counted, and edits in it been found refused.
    """

    def __init__(self, edits, whole=()):
        self.edits, self.whole, self.has_counted, self.refused = edits, {*whole}, False, set()

    def bases(self):
        """The functions that twins were made of."""
        return {name for it in self.edits for name in it.twins}

    def edited(self):
        return {name for it in self.edits for name in it.functions}

    def is_direct(self):
        return any(it.functions and not it.twins for it in self.edits)


def copied(folder, to):
    """Copies what a check reads of a crate."""
    for part in PARTS:
        if os.path.isdir(f"{folder}/{part}"):
            shutil.copytree(f"{folder}/{part}", f"{to}/{part}")


def room():
    """A temporary folder to check something in. (tools/gate_minutes.py tells checks of edits by its name.)"""
    return tempfile.TemporaryDirectory(prefix=f"rt-edit-{os.getpid()}-")


def are_made(edits, folder):
    """Makes edits in a copy's folder, one after the other, but for those of twins. Gives whether each could be made."""
    for edit in (it for it in edits if not it.twins):
        texts, why = RT.read_edit(edit.file, folder)
        if why:
            return False
        for path, text in texts.items():
            write(f"{folder}/{path}", text)
    return True


class Maker:
    """Makes the copies of one crate."""

    def __init__(self, source, is_unedited):
        self.source, self.is_unedited = source, is_unedited

    def are_apart(self, edits):
        """Whether each of these edits can be made where the others are."""
        with tempfile.TemporaryDirectory() as folder:
            for path in {path for edit in edits for path in edit.texts}:
                os.makedirs(os.path.dirname(f"{folder}/{path}"), exist_ok=True)
                shutil.copyfile(f"{self.source.folder}/{path}", f"{folder}/{path}")
            return are_made(edits, folder)

    def is_added(self, edits, edit):
        """Adds an edit to those of a copy, if there is room: in functions that none of them changes, and made where the others are."""
        has_room = not any(edit.functions & it.functions for it in edits) and self.are_apart([*edits, edit])
        if has_room:
            edits.append(edit)
        return has_room

    def shared_out(self, edits, whole):
        """The copies for edits of bodies. In the first one all are in twins that can have some, and all functions stand as they are.

        In the others edits are of the functions themselves. The functions that are edited there, and those that are to stand whole, must be
        proved in the first.
        """
        twins = [it.in_twins(number) for number, it in enumerate(edits) if self.source.without_twins.isdisjoint(it.functions)]
        direct = [it for it in edits if not self.source.without_twins.isdisjoint(it.functions)]
        others = []
        for edit in direct:
            if not any(self.is_added(it, edit) for it in others):
                others.append([edit])
        # (those that mean the same stand in each copy, and real ones beside them)
        same_first = sorted(edits, key=lambda it: not it.is_same) if any(it.is_same for it in edits) else []
        others = others or [[]] * bool(same_first)
        for some in others:
            for edit in (it for it in same_first if it not in some):
                self.is_added(some, edit)
        whole = {*whole, *(name for some in others for it in some for name in it.functions)}
        return [*([Copy(twins, whole)] if twins or whole else []), *(Copy(it) for it in others)]

    def make_twins(self, folder, edits):
        """Makes edits in twins of their functions, each of which stands behind the function itself and has a copy of its answers."""
        twins = collections.defaultdict(list)
        for edit in edits:
            for path, text in edit.texts.items():
                made = self.source.functions(path, self.source.texts[path] if self.is_unedited else text)
                for name in edit.twins.keys() & made.keys():
                    twins[path, name].append(made[name].renamed(edit.twins[name].rpartition("::")[2]))
        for path in dict.fromkeys(path for path, _ in twins):
            text = text_of(f"{folder}/{path}")
            functions = self.source.functions(path, text).items()
            behind = [(it.place.end, it.place.end, f"\n\n{twin}") for name, it in functions for twin in twins.get((path, name), ())]
            write(f"{folder}/{path}", put(text, behind))
        for name, twin in (it for edit in edits for it in edit.twins.items()):
            own, other = (f"{folder}/proofs/{it.replace('::', '/')}" for it in (name, twin))
            for file in os.listdir(own) if os.path.isdir(own) else []:
                os.makedirs(other, exist_ok=True)
                inside, beside = (f"proofs.{it.replace('::', '.')}." for it in (name, twin))
                write(f"{other}/{file}", text_of(f"{own}/{file}").replace(inside, beside))

    def leave_out(self, folder, functions):
        """Takes all functions but these out of a copy's folder, so that the prover spends little on them.

        In place of a body stands one that never returns, and in place of its proof a hole: what calls the function is proved against its
        contract, as before.
        """
        source, left = self.source, {*self.source.bodies()} - {*functions}
        texts = {path: text_of(f"{folder}/{path}") for path, own in source.files.items() if not left.isdisjoint(own)}
        source.read([*texts.values()])
        for path, text in texts.items():
            out = [it for name, it in source.functions(path, text).items() if name in left]
            write(f"{folder}/{path}", put(text, [(it.place.start, it.place.end, it.without_body()) for it in out]))
        for name in left:
            at, short = f"{folder}/proofs/{name.replace('::', '/')}", name.rpartition("::")[2]
            shutil.rmtree(at, ignore_errors=True)
            os.makedirs(at)
            write(f"{at}/Proof.antt", HOLE.format(crate=source.name, module=name.replace("::", "."), name=short))

    def controls(self, made):
        """Those of the functions with twins that stand as they are beside these, and must be proved: those whose turn it is today, or else the
        one whose turn comes next.

        A twin is made of its function's body and answers, of contracts, definitions and lemmas. All these but the edit stand in the copy as
        they are, so what is proved in the crate is proved here: unless answers name the proof of another function, which is left out. So each
        function with such answers is a control too.
        """
        bases = sorted(made.bases())
        soonest = min(map(days_left, bases), default=0)
        return {it for it in bases if self.source.rests_on_others(it) or days_left(it) == soonest}

    def witness(self, functions):
        """A function beside these that a copy leaves whole, so that it must be proved there: that with the shortest body of some lines, or in a
        crate of laws the law with the shortest proof.
        """
        bodies = {name: body for name, body in self.source.bodies().items() if name not in functions}
        some = sorted((it for it in bodies if bodies[it].count("\n") > 4), key=lambda it: len(bodies[it]))
        laws = sorted({*self.source.laws()} - {*functions}, key=lambda it: (self.source.proof_length(it), it)) if not some else []
        return [*some, *laws][:1]

    def make(self, folder, made, named=()):
        """Makes a copy in a folder. Gives whether that could be, the flags of its check, and the functions that must be proved in it.

        Beside what is edited, and what stands whole, the named functions are checked; where there is none of these, all of the crate.
        """
        copied(self.source.folder, folder)
        if not self.is_unedited and not are_made(made.edits, folder):
            return False, [], []
        if not made.edited() | made.whole | {*named}:
            return True, [], []
        self.make_twins(folder, [it for it in made.edits if it.twins])
        controls = self.controls(made)
        stand = {*made.edited(), *made.whole, *controls, *named}
        witness = self.witness(stand | made.bases())
        self.leave_out(folder, {*stand, *witness})
        flags = ["--allow-holes", *(word for name in sorted({*stand, *witness}) for word in ("--only", name))]
        return True, flags, [*made.whole, *controls, *witness]

"""The functions of a crate's source, by the names that rattle gives them, and their bodies."""
import collections
import os
import re

from edits import syntax
from workspace import text_of

CYCLE = re.compile(r"cycle\((\w+)\)")
ANSWERS = ("Answers.antt", "Invariants.antt")


def module_of(path):
    """The module that a file of src/ holds, as the names of its functions begin."""
    return [it for it in path[len("src/") : -len(".rt")].split("/") if it not in ("lib", "main", "mod")]


def is_in(name, functions):
    """Whether something that rattle names is one of these functions, or stands in one, as a closure does."""
    return any(f"{name}::".startswith(f"{it}::") for it in functions)


class Function:
    """A function of a crate: where it stands in a text, its name, and whether it is proved by itself."""

    def __init__(self, text, place, module, block, is_own):
        self.text, self.place, self.module, self.block = text, place, module, block
        # (a cycle's functions have one proof, a trait's one at each impl)
        self.is_own = is_own and block is not None and not self.cycles()
        self.name = "::".join([*module, *filter(None, ["".join(block or [])]), place.name])

    def cycles(self):
        return [it[1] for it in map(CYCLE.fullmatch, self.place.attributes) if it]

    def body(self):
        return self.text[self.place.body_start : self.place.body_end]

    def is_law(self):
        """Whether its contract is all: it takes nothing, and has nothing in its body."""
        return not self.place.blocks and not self.place.has_parameters and not self.body().strip()

    def has_body(self):
        return bool(self.body().strip())

    def renamed(self, name):
        """The whole function by another name."""
        return self.text[self.place.start : self.place.name_start] + name + self.text[self.place.name_end : self.place.end]

    def without_body(self):
        """The whole function, with a body that never returns in place of its own."""
        return f"{self.text[self.place.start : self.place.body_start]} loop {{}} }}"


class Source:
    """The source of a crate: its functions by file and name, and which of them can have no twin."""

    def __init__(self, name, folder):
        self.name, self.folder, self.items = name, folder, {}
        found = sorted(f"{at}/{it}" for at, _, names in os.walk(f"{folder}/src") for it in names)
        self.texts = {os.path.relpath(it, folder): text_of(it) for it in found}
        self.read([*self.texts.values()])
        # (where each type stands, but for one of which there are several)
        homes = collections.defaultdict(list)
        for path, text in self.texts.items():
            for type_name in self.items[text].types if self.items[text] else ():
                homes[type_name].append(module_of(path))
        self.homes = {it: modules[0] for it, modules in homes.items() if len(modules) == 1}
        self.files = {path: self.functions(path, text) or {} for path, text in self.texts.items()}
        self.proofs = {f"{at}/{it}": text_of(f"{at}/{it}") for at, _, names in os.walk(f"{folder}/proofs") for it in names}
        self.without_twins = {it.name for it in self.all() if not self.can_have_twin(it)}

    def all(self):
        return [it for functions in self.files.values() for it in functions.values()]

    def read(self, texts):
        """Reads the items of texts that weren't read before, all at once."""
        new = [it for it in dict.fromkeys(texts) if it not in self.items]
        self.items.update(zip(new, syntax.read(new)))

    def functions(self, path, text):
        """The functions with bodies of a file's text by their names; None where it is no source.

        A method's module is that of its type, where its impl has no trait. Two impls can give their functions the same names: then it is none
        that is proved by itself.
        """
        self.read([text])
        if not self.items[text]:
            return None
        made = {}
        for place in self.items[text].functions:
            block = syntax.name_of_block(*place.blocks[-1]) if place.blocks else []
            module = self.homes.get(block[0], module_of(path)) if block and len(block) == 1 else module_of(path)
            it = Function(text, place, module, block, len(place.blocks) < 2)
            it.is_own = it.is_own and it.name not in made
            made[it.name] = it
        return made

    def bodies(self):
        """The bodies of the functions that are proved by themselves, by name."""
        return {it.name: it.body() for it in self.all() if it.is_own and it.has_body()}

    def proof_length(self, name):
        return sum(map(len, self.proofs_of(name).values()))

    def laws(self):
        """The names of the laws."""
        return [it.name for it in self.all() if it.is_law()]

    def proofs_of(self, name):
        """The files of a function's own proof, and their texts."""
        own = f"{self.folder}/proofs/{name.replace('::', '/')}/"
        return {at: text for at, text in self.proofs.items() if at.startswith(own)}

    def rests_on_others(self, name):
        """Whether the proof of a function names that of another one, and not only lemmas, which stand in files right below proofs/."""
        own = f"proofs.{name.replace('::', '.')}."
        cited = [it for text in self.proofs_of(name).values() for it in re.findall(rf"\bRattle\.{self.name}\.(proofs\.[a-z]\S*)", text)]
        return any(not it.startswith(own) for it in cited)

    def has_function(self, name):
        """Whether the crate has a function of this name."""
        return any(it.name == name for it in self.all())

    def with_cycles(self, names):
        """These functions, and those of each cycle that one of them is in, as a goal of a cycle is one of each."""
        cycles = collections.defaultdict(set)
        for it in self.all():
            for cycle in it.cycles():
                cycles[cycle].add(it.name)
        return {*names}.union(*(members for members in cycles.values() if not members.isdisjoint(names)))

    def changed(self, texts):
        """The functions whose bodies alone these texts of files change, or none where they change something else."""
        changed = set()
        for path, text in texts.items():
            own = self.files.get(path)
            now = self.functions(path, text) if own else None
            if not now or around(self.texts[path], own) != around(text, now) or own.keys() != now.keys():
                return set()
            different = {it for it in own if own[it].body() != now[it].body()}
            if not all(now[it].is_own and now[it].has_body() and not now[it].place.reaches_out for it in different):
                return set()
            changed |= different
        return changed

    def function_at(self, folder, path, number):
        """The module and the function that a line of a file below a folder is in; no function for one of a cycle."""
        text = text_of(f"{folder}/{path}")
        for it in (self.functions(path, text) or {}).values():
            if text.count("\n", 0, it.place.start) < number <= text.count("\n", 0, it.place.end) + 1:
                return it.module, None if it.cycles() else it.place.name
        return module_of(path), None

    def can_have_twin(self, function):
        """Whether a function can have a twin.

        It can't in an impl of a trait, as `drop`, nor where its proof isn't all in the answers in its own folder, which nothing else names.
        """
        own = f"{self.folder}/proofs/{function.name.replace('::', '/')}/"
        named = [at for at, proof in self.proofs.items() if at.startswith(own) or f"proofs.{function.name.replace('::', '.')}." in proof]
        has_closures = any(f"/fn/{function.place.name}/" in it for it in self.proofs)
        is_plain = function.block is not None and len(function.block) < 2 and function.place.name != "drop"
        return is_plain and not has_closures and {*named} <= {f"{own}{file}" for file in ANSWERS}


def around(text, functions):
    """The parts of a text around the bodies of its functions."""
    ends = [0, *(end for it in functions.values() for end in (it.place.body_start, it.place.body_end)), len(text)]
    return [text[start:end] for start, end in zip(ends[::2], ends[1::2])]


def put(text, pieces):
    """A text with other pieces in the place of some: each with where that begins and ends, in their order."""
    made, at = [], 0
    for start, end, piece in pieces:
        made += [text[at:start], piece]
        at = end
    return "".join([*made, text[at:]])

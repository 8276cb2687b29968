"""What an edit's refusal rests on, as a sum: while it stays, the edit needn't be tried again.

Of a wrong body that is the edit; the function that it turns, whole; the contracts of what that calls; and
the definitions and types that all these name, and what these name, and so on, over the crates. Bodies of
what is called and proofs are left out: a wrong body stays wrong whatever else is proved. Of a law, which has
no body, the proof counts, with the lemmas that it reaches and what is stated of those in other crates.
Comments, layout, an edit's `why:` and derives of Debug are left out.
"""
import glob
import hashlib
import os
import re

import edits
import kit
from logic import Logic, Unit
from names import Names

# Raise this where the way in which edits are judged or summed changes, so that all are tried anew.
FORM = 3
# Functions that signs, loops, `?` and the end of a scope call.
BY_SIGNS = set(
    "eq ne lt le gt ge cmp partial_cmp add sub mul div rem neg not bitand bitor bitxor shl shr"
    " add_assign sub_assign mul_assign index index_mut deref deref_mut from into next into_iter drop".split()
)
WRITES = set("write writeln print println eprint eprintln format".split())


class Sums:
    """The sums of the edits of all crates."""

    def __init__(self, crates):
        self.crates, self.names = crates, Names(crates)
        self._reached, self._functions, self._owns = {}, {}, {}

    def of_folder(self, crate, folder):
        """Returns the crate's edits, and the sum of each by its name; of one that can't be made None."""
        its = edits.read(crate, folder)
        return its, {it.name: None if it.fault else self.of(it) for it in its}

    def of(self, edit):
        units = self.rests_on(edit)
        made = [FORM, kit.IDENTITY.partition(" ")[2], sorted(edit.only)]
        made += [(" ".join(old.split()), " ".join(new.split())) for _, old, new in edit.pairs]
        made += sorted({*map(self._own, units)})
        return hashlib.sha256(repr(made).encode()).hexdigest()[:16]

    def _own(self, unit):
        """Returns the sum of a unit's text, and of where the names in it come from."""
        if unit not in self._owns:
            text = repr((unit.text, self.names.origins(unit)))
            self._owns[unit] = hashlib.sha256(text.encode()).hexdigest()[:16]
        return self._owns[unit]

    def rests_on(self, edit):
        """Returns the units that an edit's refusal rests on."""
        crate = edit.crate
        by_name, spans = self._functions_of(crate)
        turned, new = self._turned(edit, spans)
        wanted = [*edit.functions, *edit.bodies]
        if edit.takes_any:
            wanted = [it for it in wanted if it in by_name and self._meets(crate, by_name[it], turned)]
        functions = dict.fromkeys(by_name[it] for it in wanted if it in by_name)
        starts, calls = [*turned], {*BY_SIGNS}.union(*(it.body.calls for it in functions))
        for it in new:
            starts += [*self._starts(it), *self._in_scope(it.file, it.calls)]
            calls |= it.calls
        found = set().union(*(self.reach(crate, it) for it in functions))
        found = self._closed(crate, found, starts, calls)
        return found.union(*((it.seen, it.body) for it in functions))

    def _functions_of(self, crate):
        """Returns the crate's functions by a check's names, and where each item of its code stands."""
        if crate.name not in self._functions:
            names, by_name = edits.Names(crate), {}
            files = {key[1]: it for key, it in self.names.programs.items() if key[0] == crate.name}
            by_end = {(path, it.places[1]): it for path, file in files.items() for it in file.functions}
            for f in names.functions:
                if (f.file, f.end) in by_end:
                    by_name[names.name(f)] = by_end[f.file, f.end]
                    by_end[f.file, f.end].checked = names.name(f)
            self._functions[crate.name] = by_name, {path: it.spans for path, it in files.items()}
        return self._functions[crate.name]

    def _turned(self, edit, spans):
        """Returns what an edit turns but functions, and what it writes."""
        turned, new = [], []
        for path in dict.fromkeys(path for path, _, _ in edit.pairs):
            if path.startswith("specs/"):
                was = self.names.logic_of(edit.crate.name, path)
                now = Logic(edit.crate.name, path, edit.made({})[0][path])
                before, after = {it.text for it in was.units}, {it.text for it in now.units}
                turned += [it for it in was.units if it.text not in after]
                new += [it for it in now.units if it.text not in before]
        for path, old, written in edit.pairs:
            if path.startswith("src/"):
                file = self.names.programs[edit.crate.name, path]
                at = file.text.find(old.encode())
                around = [it for it in spans[path] if it[0] <= at < it[1]]
                unit = min(around, key=lambda it: it[1] - it[0])[2] if around else None
                turned += [unit] if isinstance(unit, Unit) else [unit.seen, unit.body] if unit else []
                new.append(as_code(file, written))
        return turned, new

    def _meets(self, crate, function, turned):
        """Returns whether the function's contract reaches something of these."""
        return bool({*turned} & self._closed(crate, set(), [function.seen], set()))

    def reach(self, crate, function):
        """Returns what a function's proof can speak of; of a law with its proof."""
        if function not in self._reached:
            body = function.body
            starts = [function.seen, *self._starts(body)]
            if is_law(function):
                starts += self._proof(crate, function)
            calls = {*body.calls, *BY_SIGNS, function.name, *(["fmt"] if body.words & WRITES else [])}
            starts += self._in_scope(function.file, calls)
            self._reached[function] = self._closed(crate, set(), starts, calls)
        return self._reached[function]

    def _starts(self, unit):
        """Returns what a body names. A path that begins with a type's parameter or Self is a call."""
        unit.calls |= {path[-1] for path in unit.paths if self.names.path(unit.file, path) is None}
        return self.names.next(unit)

    def _in_scope(self, file, calls):
        """Returns the functions of these names of the traits that the file declares or imports: they can
        be called without a word of the trait."""
        words = [*file.by_name, *file.imports] if calls else ()
        found = {it for word in words for it in self.names.find(file, word)}
        its = [self.names.methods.get(it, {}) for it in found if it.text.startswith("trait ")]
        return [f.seen for of in its for name in calls for f in of.get(name, ())]

    def _proof(self, crate, function):
        """Returns the lemmas and answers of a law's own folder, and the lemmas that its attributes name."""
        folder = "/".join(["proofs", *function.checked.split("::")[1:]])
        paths = sorted(glob.glob(f"{glob.escape(crate.folder)}/{folder}/*.antt"))
        files = [self.names.logic_of(crate.name, os.path.relpath(it, crate.folder)) for it in paths]
        found = [unit for file in files for unit in file.units]
        for whole in re.findall(r"(\w+) : : proofs : : (\w[\w :]*)", " ".join(function.hints)):
            name = crate.name if whole[0] == "crate" else whole[0]
            *parts, lemma = re.findall(r"\w+", whole[1])
            taken = (name, ("proofs", *parts), lemma)
            found += self.names.of_logic(function.file, *taken)
        return found

    def _closed(self, crate, found, starts, calls):
        """Returns the units with all that they name, and the methods of these names of types among them."""
        names, left, found = self.names, [*starts], {*found}
        for unit in [*found]:
            left += self._called(crate, unit, calls)
        while left:
            unit = left.pop()
            if unit in found or not names.sees(crate.name, unit):
                continue
            found.add(unit)
            left += [it for it in names.next(unit) if not it.is_function]
            left += names.heads.get(unit, ())
            left += self._called(crate, unit, calls)
            left += self._around(unit)
        return found

    def _called(self, crate, unit, calls):
        its = self.names.methods.get(unit)
        return [f.seen for name in calls & its.keys() for f in its[name]] if its else ()

    def _around(self, unit):
        """Returns the head of the impl or trait that a function stands in, and what the trait says of it."""
        block = unit.block
        if not block:
            return ()
        traits = self.names.types(block.file, block.trait) if block.trait else ()
        its = [self.names.methods.get(it, {}) for it in traits]
        said = [f.seen for of in its for name in unit.names for f in of.get(name, ())]
        return [block.unit if block.has_members else block.head, *said]


def is_law(function):
    return not function.body.text.strip("{} ;")


def as_code(file, text):
    """Returns what an edit writes as a unit of the file."""
    calls = set(re.findall(r"\.\s*(\w+)\s*(?:\(|::)", text))
    paths = {tuple(re.split(r"\s*::\s*", it)) for it in re.findall(r"\w+(?:\s*::\s*\w+)+", text)}
    return Unit(file, set(), "", set(re.findall(r"\w+", text)), paths, calls)

"""Which definitions, types and functions a name means, over all crates.

A name means what its file declares or imports. Of a path the modules are followed, and what they pass on.
Where a name that was imported isn't found, every unit of that name in the crates below is taken.
"""
import glob
import os

import kit
from logic import Logic
from program import Program


class Names:
    """The units of all crates, and what a name means in a file."""

    def __init__(self, crates):
        self.crates, self._found, self._next, self._statements = crates, {}, {}, {}
        below = lambda crate: {crate.name, *(it.name for it in crate.below())}
        self._seen_by = {name: below(crate) for name, crate in crates.items()}
        self.programs, self.logic, self._modules, self._named = {}, {}, {}, {}
        self._roots = {"crate", "self", "super", *crates}
        for crate in crates.values():
            self._read(crate)
        # Of each type and trait: its functions by name, and the heads of impls that have ghost members.
        self.methods, self.heads = {}, {}
        for file in self.programs.values():
            for block in file.blocks:
                self._place(file, block)

    def _read(self, crate):
        for path, (rows, text) in kit.tokens(crate.folder).items():
            file = Program(crate.name, path, rows, text)
            self.programs[crate.name, path] = file
            self._modules[crate.name, file.module] = file
            self._note(file)
        for path in glob.glob(f"{glob.escape(crate.folder)}/specs/**/*.antt", recursive=True):
            self._note(self.logic_of(crate.name, os.path.relpath(path, crate.folder)))

    def _note(self, file):
        for name, units in file.by_name.items():
            self._named.setdefault(name, []).extend(units)

    def _place(self, file, block):
        """Notes a block's functions under its type, or under its trait where the type is no crate's."""
        units = [block.unit] if block.is_trait else self.types(file, block.type)
        units = units or self.types(file, block.trait)
        for unit in units:
            if block.has_members and unit is not block.unit:
                self.heads.setdefault(unit, []).append(block.unit)
            for it in file.functions:
                if it.block is block:
                    self.methods.setdefault(unit, {}).setdefault(it.name, []).append(it)

    def types(self, file, name):
        """Returns the types and traits that the name means in a file of code."""
        return [it for it in self.find(file, name) if not it.is_function] if name else []

    def sees(self, crate, unit):
        """Returns whether the crate is above the unit's crate, or that crate itself."""
        return unit.file.crate in self._seen_by[crate]

    def logic_of(self, crate, path):
        """Returns the crate's file of definitions or lemmas, or None where there is none."""
        if (crate, path) not in self.logic:
            whole = f"{self.crates[crate].folder}/{path}"
            made = None
            if os.path.isfile(whole):
                with open(whole, encoding="utf-8") as it:
                    made = Logic(crate, path, it.read())
            self.logic[crate, path] = made
        return self.logic[crate, path]

    def find(self, file, word):
        """Returns the units that a word means in a file."""
        if (file, word) not in self._found:
            self._found[file, word] = ()
            found = [*file.by_name.get(word, ())]
            for crate, parts, name in file.imports.get(word, ()):
                is_code = crate is None
                found += self._of_code(file, parts) if is_code else self.of_logic(file, crate, parts, name)
            self._found[file, word] = tuple(dict.fromkeys(found))
        return self._found[file, word]

    def everything(self, file, name):
        """Returns each unit of this name that the file's crate sees."""
        return [it for it in self._named.get(name, ()) if self.sees(file.crate, it)]

    def path(self, file, path):
        """Returns the units that a path of code means, or None where its first name means nothing here."""
        first, rest = path[0], path[1:]
        if first in self._roots or (*file.module, first) in self._inside(file):
            return self._of_code(file, path)
        taken = [it for it in file.imports.get(first, ()) if it[0] is None]
        if taken:
            return [it for _, parts, _ in taken for it in self._of_code(file, (*parts, *rest))]
        own = file.by_name.get(first)
        return [*own, *self._members(own, rest)] if own else None

    def _inside(self, file):
        return {(*file.module, it) for it in file.modules}

    def _of_code(self, file, path):
        """Returns the units that a whole path of code means."""
        crate, module, rest = self._start(file, tuple(path))
        if crate not in self.crates:
            return []
        while rest and (crate, (*module, rest[0])) in self._modules:
            module, rest = (*module, rest[0]), rest[1:]
        here = self._modules.get((crate, module))
        if not rest:
            return []
        if here and (here, rest[0]) != (file, path[0]):
            found = self.find(here, rest[0])
            if found:
                return [*found, *self._members(found, rest[1:])]
        return self.everything(file, rest[-1])

    def _start(self, file, path):
        """Returns the crate and the module at which a path begins, and the rest of it."""
        module = file.module
        if path[0] == "crate":
            return file.crate, (), path[1:]
        if path[0] == "self":
            return file.crate, module, path[1:]
        while path[:1] == ("super",):
            module, path = module[:-1], path[1:]
        if path[:1] and path[0] in self.crates and (*file.module, path[0]) not in self._inside(file):
            return path[0], (), path[1:]
        is_here = module != file.module or (*module, path[0]) in self._inside(file) or path[0] in file.by_name
        return (file.crate, module, path) if is_here else (None, (), path)

    def _members(self, units, rest):
        its = [self.methods.get(it, {}).get(rest[0], ()) for it in units] if rest else []
        return [it.seen for found in its for it in found]

    def of_logic(self, file, crate, parts, name):
        """Returns the units that a name of a module of definitions means, or of what code declares."""
        if crate not in self.crates:
            return []
        if parts[1:2] in (("declared",), ("contracts",)):
            return self._declared(file, crate, parts[2:], name)
        for end in range(len(parts), 0, -1):
            here = self.logic_of(crate, "/".join(parts[:end]) + ".antt")
            if here:
                asked = [*parts[end:], *([name] if name else [])]
                words = [part for it in asked for part in it.strip("«»").split("◌") if part]
                found = [it for word in words for it in self.find(here, word)] or here.units
                return [self._seen(file, it) for it in found]
        return self.everything(file, name or parts[-1])

    def _declared(self, file, crate, parts, name):
        """Returns the types or functions of code behind a module that the kit makes of it."""
        module = ()
        while parts and (crate, (*module, parts[0])) in self._modules:
            module, parts = (*module, parts[0]), parts[1:]
        here = self._modules.get((crate, module))
        asked = [it for it in (*parts, name) if it]
        found = [it for word in asked[:2] for it in (self.find(here, word) if here else ())]
        found += self._members(found, tuple(asked[1:2]))
        return found or self.everything(file, asked[0] if asked else "")

    def _seen(self, file, unit):
        """Returns what a file sees of a unit: of another crate's lemma only what it states."""
        if unit.file.crate == file.crate or not unit.file.path.startswith("proofs/"):
            return unit
        if unit not in self._statements:
            self._statements[unit] = unit.statement()
        return self._statements[unit]

    def next(self, unit):
        """Returns the units that a unit names."""
        if unit not in self._next:
            found = [it for word in unit.words for it in self.find(unit.file, word)]
            for path in unit.paths:
                found += self.path(unit.file, path) or ()
            self._next[unit] = [it for it in dict.fromkeys(found) if it is not unit]
        return self._next[unit]

    def origins(self, unit):
        """Returns which names of the unit its file imports from where."""
        taken = {word: unit.file.imports[word] for word in unit.words if word in unit.file.imports}
        return sorted(map(repr, taken.items()))

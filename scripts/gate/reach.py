"""Which definitions a law's statement and proof can speak of, so that edits of others can be tried at once.

A law is a function without a body. What is written of it names definitions and lemmas of its crate, as
its file declares or imports them; what is written of these names others, and so on. All that is the
law's reach. An edit outside of it changes nothing that the law's check reads.
"""
import glob
import os
import re

# What stands between names. (a name may have dashes, ticks and signs of its own)
WORD = re.compile(r"[^\s()\[\]{},.;:|\\=→×∷λ∙«»]+")
# A module that is imported, the names that are taken from it, or the name that it gets.
IMPORT = re.compile(r"^(?:ghost |pub )*use +Rattle\.(\w+)\.([^\s{;]+?)(?:\.\{([^}]*)\}| as (\S+?))?;?$", re.M)
KEYWORDS = {"abbrev", "pub", "record", "data", "opaque", "module", "mod", "instance"}


class Unit:
    """A definition or a lemma: where it stands, what it declares, and which words are in it."""

    def __init__(self, path, first, lines):
        self.path, self.first, self.last = path, first, first + len(lines) - 1
        self.words = {word for line in lines for word in WORD.findall(line)}
        head = [it for it in WORD.findall(lines[0]) if it not in KEYWORDS]
        self.declared = set(head[:1])
        if {"record", "data", "module"} & set(lines[0].split()):
            inside = [re.match(r"\s+(?:\| *)?(?:[a-z]+ )*?(\S+)[^:=]* :", it) for it in lines[1:]]
            self.declared |= {it[1].strip("«»") for it in inside if it}


def units_of(path, text):
    """Returns the text's definitions and lemmas. Each ends where the next line without a space begins."""
    found, begun = [], None
    lines = text.split("\n")
    for at, line in enumerate([*lines, "end"]):
        if line and not line[0].isspace():
            if begun is not None:
                found.append(Unit(path, begun + 1, lines[begun:at]))
            begun = None if line.startswith(("use ", "--", "pub mod ", "mod ")) else at
    return found


class File:
    """A file of definitions, lemmas or code: its units by what they declare, and its imports."""

    def __init__(self, crate, path, text):
        self.units, self.by_name, self.imports, self.wholes = [], {}, [], []
        if path.endswith(".antt"):
            self.units = units_of(path, text)
        else:
            # (of code all is taken together)
            self.units = [Unit(path, 1, text.split("\n"))]
        for unit in self.units:
            for it in unit.declared:
                self.by_name.setdefault(it, []).append(unit)
        for found in IMPORT.finditer(text):
            if found[1] == crate and found[3] is None:
                self.wholes.append(found[2])
            elif found[1] == crate:
                names = [it.split(" as ") for it in found[3].split(",")]
                self.imports += [(it[-1].strip(), found[2], it[0].strip()) for it in names]


class Reach:
    """What each law of a crate reaches."""

    def __init__(self, names):
        self.folder, self.files = names.crate.folder, {}
        for path in self._paths("specs", "antt") + self._paths("proofs", "antt") + self._paths("src", "rt"):
            self.files[path] = File(names.crate.name, path, self._text(path))
        self.laws = {}
        for f in names.functions:
            source = self._text(f.file).encode()
            if f.has_body and not source[f.opens : f.end].strip(b"{} \n"):
                written = source[f.first : f.end].decode().split("\n")
                self.laws[names.name(f)] = Unit(f.file, 1, written)

    def _paths(self, part, end):
        found = glob.glob(f"{glob.escape(self.folder)}/{part}/**/*.{end}", recursive=True)
        return sorted(os.path.relpath(it, self.folder) for it in found)

    def _text(self, path):
        with open(f"{self.folder}/{path}", encoding="utf-8") as it:
            return it.read()

    def _module(self, module):
        """Returns the units of a module of the crate: of the file that has it, or of the code behind it."""
        parts = module.split(".")
        if parts[-1] in ("Goals", "Given", "Lts"):
            law = self.laws.get("::".join([os.path.basename(self.folder), *parts[1:-1]]))
            return [law] if law else []
        if parts[:2] == ["specs", "declared"]:
            parts = ["src", *parts[2:]]
        for end in range(len(parts), 0, -1):
            path = "/".join(parts[:end]) + (".rt" if parts[0] == "src" else ".antt")
            if path in self.files:
                return self.files[path].units
        return []

    def _next(self, unit):
        """Returns the units that this one names."""
        file = self.files[unit.path]
        found = [it for word in unit.words for it in file.by_name.get(word, ())]
        for word, module, name in file.imports:
            if word in unit.words:
                units = self._module(module)
                found += [it for it in units if name in it.declared] or units
        return found + [it for module in file.wholes for it in self._module(module)]

    def _named_in(self, path, new):
        """Returns the units that an edit's new text names, by what it imports too."""
        found = self._next(Unit(path, 1, [new])) if path in self.files else []
        taken = [it for it in IMPORT.finditer(new) if it[1] == os.path.basename(self.folder)]
        return found + [it for words in taken for it in self._module(words[2])]

    def of(self, edit):
        """Returns the units that the edit's laws reach, or None if it names others than laws."""
        if edit.takes_any or not edit.functions or not all(it in self.laws for it in edit.functions):
            return None
        left = [it for path, _, new in edit.pairs for it in self._named_in(path, new)]
        for law in edit.functions:
            folder = "/".join(["proofs", *law.split("::")[1:], ""])
            left += [it for path, file in self.files.items() if path.startswith(folder) for it in file.units]
            left.append(self.laws[law])
        reached = set()
        while left:
            unit = left.pop()
            if unit not in reached:
                reached.add(unit)
                left += self._next(unit)
        return reached

    def touched(self, edit):
        """Returns the units that the edit changes, or None where it changes more than definitions."""
        found = set()
        for path, old, _ in edit.pairs:
            at = self._text(path).find(old) if path.startswith("specs/") else -1
            if at < 0:
                return None
            line = self._text(path)[:at].count("\n") + 1
            found |= {it for it in self.files[path].units if it.first <= line <= it.last}
        return found

"""Reads files of definitions and lemmas (.antt): their texts, the words in them, and their imports."""
import re

from reach import IMPORT, KEYWORDS, WORD

COMMENT = re.compile(r"(?m)(^|\s)--(\s.*)?$")
# The head of what is declared without a word before it: its names, then a colon.
HEAD = re.compile(r"([^\s:=(){}]+(?: [^\s:=(){}]+)*)\s*:(?:\s|$)")
NO_UNIT = re.compile(r"(?:pub )?(?:use|mod)\s|infix")


class Unit:
    """What can be named: its text without layout and comments, and the words by which it names others.
    Of code the paths and the calls of methods stand beside them."""

    # Whether it is a function whose body its callers don't see. A clause can't name such a one.
    is_function = False
    # The impl or trait that it stands in.
    block = None

    def __init__(self, file, names, text, words, paths=(), calls=()):
        self.file, self.names, self.text = file, names, text
        self.words, self.paths, self.calls = words, set(paths), set(calls)


class Lemma(Unit):
    """A definition or a lemma. Its head is what it states; of a definition all is head."""

    def __init__(self, file, names, lines, front):
        joined = " ".join(" ".join([*front, *lines]).split())
        super().__init__(file, names, joined, set(WORD.findall(joined)))
        self.lines, self.front = lines, front

    def statement(self):
        """Returns the lemma without its proof, which nobody above its crate reads."""
        if {*self.lines[0].split()} & KEYWORDS - {"pub", "opaque"}:
            return self
        clause = next((at for at, it in enumerate(self.lines) if at and not it[0].isspace()), None)
        return Lemma(self.file, self.names, self.lines[:clause], self.front)


class Imports:
    """Where the names that a file imports come from: a crate, the path of a module, and a name there,
    which is None where the module itself gets the name."""

    def __init__(self, text):
        self.of = {}
        for crate, path, names, alias in IMPORT.findall(text):
            parts = tuple(path.split("."))
            for it in names.split(",") if names else ():
                name, _, other = it.strip().partition(" as ")
                for part in parts_of(other or name):
                    self.add(part, crate, parts, name)
            if not names:
                self.add(alias or parts[-1], crate, parts, None)

    def add(self, word, crate, parts, name):
        self.of.setdefault(word, []).append((crate, parts, name))


def parts_of(name):
    """Returns the words by which a name with holes, as `◌+◌`, shows in a text."""
    return [it for it in name.strip("«»").split("◌") if it]


class Logic:
    """A file of definitions and lemmas."""

    def __init__(self, crate, path, text):
        self.crate, self.path = crate, path
        text = COMMENT.sub(r"\1", text)
        self.imports, self.by_name, self.units = Imports(text).of, {}, []
        self._read([it for it in text.split("\n") if it.strip()], [])
        for unit in self.units:
            for it in unit.names:
                self.by_name.setdefault(it, []).append(unit)

    def _read(self, lines, front):
        """Reads the units that begin at these lines' own depth. front: the heads of modules around them."""
        found = []
        for block in _blocks(lines):
            words = [it for it in block[0].split() if it not in KEYWORDS - {"module"}]
            if NO_UNIT.match(block[0]):
                continue
            if words[:1] == ["module"]:
                self._module(block, front)
                continue
            names = _declared(block)
            if names or not found:
                found.append((names or words[:1], block))
            else:
                # (what it states stands before it)
                same = [it for it in found if words[0] in it[0]]
                (same or found)[-1][1].extend(block)
        for names, block in found:
            its = {part for it in names for part in parts_of(it)} | _inside(block)
            self.units.append(Lemma(self, its, block, front))

    def _module(self, block, front):
        ends = [at for at, it in enumerate(block) if re.search(r"\bwhere\s*$", it)]
        end = (ends or [len(block) - 1])[0] + 1
        rest = block[end:]
        depth = min((len(it) - len(it.lstrip()) for it in rest), default=0)
        self._read([it[depth:] for it in rest], [*front, *block[:end]])


def _blocks(lines):
    """Returns the lines in parts, each from one that begins with no space."""
    found = []
    for line in lines:
        if found and line[0].isspace():
            found[-1].append(line)
        else:
            found.append([line])
    return found


def _declared(block):
    """Returns the names that a block declares, or none where it is a clause of what was declared."""
    words = block[0].split()
    is_marked = words[0] in KEYWORDS | {"unfoldable"}
    while words and words[0] in KEYWORDS | {"unfoldable"}:
        words = words[1:]
    head = HEAD.match(" ".join(words) or " ".join(block[1:2]).strip())
    if head:
        return head[1].split()
    return words[:1] if is_marked else []


def _inside(block):
    """Returns the names of a type's cases. (a record's fields are met only behind its type)"""
    if "data" not in block[0].split():
        return set()
    found = [re.match(r"\s+(?:\| *)?(?:pub )?([^:=]+?) *:(?:\s|$)", it) for it in block[1:]]
    return {name.strip("«»") for it in found if it for name in it[1].split()}

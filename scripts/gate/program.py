"""Reads files of code (.rt): functions, types, traits and heads of impls, their texts and what they name."""
import re

from logic import Imports, Unit

BRACED = {"fn", "struct", "enum", "union", "trait", "impl", "mod"}
QUALIFIERS = {"const", "unsafe", "extern", "final"}
BRACKETS = {"(": ")", "[": "]", "{": "}"}
NAME = re.compile(r"[^\W\d]\w*\Z")
# Attributes that say nothing of what an item means.
HINTS = {"inline", "cold", "must_use", "allow", "doc"}


class Item:
    """An item of code: its attributes, its head up to the body, and its body, as places of tokens."""

    def __init__(self, rows, first, attributes, at, opens, close):
        self.rows, self.first, self.attributes = rows, first, attributes
        self.at, self.opens, self.close = at, opens, close
        words = [it.text for it in rows[at : opens + 1] if it.kind != "Literal"]
        place = next((at for at, it in enumerate(words) if it not in QUALIFIERS), 0)
        # Whether callers may compute with its body.
        self.is_constant = "const" in words[:place]
        if words[place] not in BRACED and self.is_constant:
            place = 0
        self.word, self.name = [*words[place : place + 2], "", ""][:2]

    def bytes(self):
        return self.rows[self.first].first, self.rows[self.close - 1].end

    def head(self):
        return self.rows[self.at : self.opens]

    def inside(self):
        return self.rows[self.opens : self.close]


def _is(row, text):
    return row.kind == "Code" and row.text == text


def _behind(rows, at):
    """Returns the place behind the bracket that closes this one."""
    stack = []
    while True:
        row = rows[at]
        if row.kind == "Code" and row.text in BRACKETS:
            stack.append(BRACKETS[row.text])
        elif row.kind == "Code" and stack and row.text == stack[-1]:
            stack.pop()
        at += 1
        if not stack or at == len(rows):
            return at


def items(rows, at, end):
    """Returns the items between these places of a file's tokens."""
    found = []
    while at < end:
        first, attributes = at, []
        while at < end and (_is(rows[at], "#") or rows[at].kind == "Literal"):
            is_inner = rows[at + 1].text == "!"
            close = _behind(rows, at + 1 + is_inner) if _is(rows[at], "#") else at + 1
            if _is(rows[at], "#") and not is_inner:
                attributes.append(rows[at + 2 : close - 1])
            at = close
            first = close if is_inner else first
        if at >= end:
            break
        # (who may name an item says nothing of what it means)
        at += _is(rows[at], "pub")
        at = _behind(rows, at) if _is(rows[at], "(") else at
        opens, close = _body(rows, at, end)
        found.append(Item(rows, first, attributes, at, opens, close))
        at = close
    return found


def _body(rows, at, end):
    """Returns where the body of the item that begins here begins and ends; or its last sign."""
    is_braced = False
    while at < end:
        row = rows[at]
        if row.kind == "Code" and row.text == ";":
            return at, at + 1
        is_braced = is_braced or row.kind == "Code" and row.text in BRACED
        if is_braced and _is(row, "{"):
            return at, _behind(rows, at)
        at = _behind(rows, at) if row.kind == "Code" and row.text in BRACKETS else at + 1
    return end - 1, end


def written(rows):
    return " ".join(it.text for it in rows)


def attribute(rows):
    """Returns an attribute's text, without Debug among what is derived, or nothing where it says nothing."""
    words = [it.text for it in rows]
    if words[:1] == ["derive"]:
        names = sorted(it for it in words[2:-1] if NAME.match(it) and it != "Debug")
        return f"# derive {' '.join(names)}" if names else ""
    return "" if words[0] in HINTS | {"tactic"} else f"# {' '.join(words)}"


def named(rows):
    """Returns the names in code and in clauses, the paths in code, and the names of called methods."""
    words, paths, calls, at = set(), set(), set(), 0
    while at < len(rows):
        row, path = rows[at], []
        if row.kind in ("Antt", "Head"):
            words |= {it for it in row.text.split(".") if it}
        if row.kind == "Code" and NAME.match(row.text):
            before = [it.text for it in rows[max(0, at - 2) : at]]
            path, at = _path(rows, at)
            is_called = at + 1 < len(rows) and rows[at + 1].text in ("(", ":")
            if before[-1:] == ["."] and before != [".", "."]:
                calls |= {path[0]} if is_called else set()
            elif before == [":", ":"]:
                calls.add(path[-1])
            elif len(path) > 1:
                paths.add(tuple(path))
            else:
                words.add(path[0])
        at += 1
    return words, paths, calls


def _path(rows, at):
    """Returns the names of the path that begins here, and the place of the last."""
    path = [rows[at].text]
    while [it.text for it in rows[at + 1 : at + 3]] == [":", ":"] and len(rows) > at + 3:
        if rows[at + 3].kind != "Code" or not NAME.match(rows[at + 3].text):
            break
        path.append(rows[at + 3].text)
        at += 3
    return path, at


class Block:
    """The head of an impl or a trait, and its ghost members, types and constants."""

    def __init__(self, file, item):
        self.file, self.is_trait = file, item.word == "trait"
        head, others = item.head(), []
        self.members = items(item.rows, item.opens + 1, item.close - 1)
        for it in self.members:
            if it.word != "fn" and not _is_import(it):
                others += item.rows[it.at : it.close]
        self.has_members = bool(others)
        words = [it.text for it in head]
        self.trait, self.type = (item.name, None) if self.is_trait else _of_impl(words)
        self.head = Unit(file, set(), written(head), *named(head))
        name = {item.name} if self.is_trait else set()
        self.unit = Unit(file, name, written([*head, *others]), *named([*head, *others]))


def _is_import(item):
    return item.word == "use" or item.word == "ghost" and item.rows[item.at + 1].text == "use"


def _of_impl(words):
    """Returns the names of an impl's trait, or None, and of its type."""
    rest = words[1:]
    if rest[:1] == ["<"]:
        rest = rest[_angles(rest) :]
    depth, parts = 0, [[]]
    for at, it in enumerate(rest):
        is_arrow = it == ">" and rest[at - 1] == "-"
        depth += (it == "<") - (it == ">" and not is_arrow)
        if depth == 0 and it == "where":
            break
        if depth == 0 and it == "for":
            parts.append([])
        elif depth == 0 and NAME.match(it):
            parts[-1].append(it)
    last = [it[-1] if it else None for it in parts]
    return (last[0], last[1]) if len(last) > 1 else (None, last[0])


def _angles(words):
    depth = 0
    for at, it in enumerate(words):
        depth += (it == "<") - (it == ">" and words[at - 1] != "-")
        if depth == 0:
            return at + 1
    return len(words)


class Function:
    """A function: what callers see of it, and all of it."""

    def __init__(self, file, item, block):
        self.file, self.name, self.block, self.places = file, item.name, block, item.bytes()
        front = [block.head.text] if block else []
        seen = item.head() + (item.inside() if item.is_constant else [])
        self.seen = Unit(file, {item.name}, " ".join([*front, written(seen)]), *named(seen))
        self.seen.is_function, self.seen.block = not item.is_constant, block
        self.body = Unit(file, set(), written(item.inside()), *named(item.inside()))
        self.hints = [written(it) for it in item.attributes]
        self.has_body = item.inside()[0].text == "{"


class Program:
    """A file of code: what it declares, by name, its imports, its blocks, and where each item stands."""

    def __init__(self, crate, path, rows, text):
        self.crate, self.path, self.text = crate, path, text
        self.module = _module(path)
        self.imports, self.by_name, self.modules = {}, {}, set()
        self.functions, self.blocks, self.spans = [], [], []
        rows = [it for it in rows if it.kind != "Literal" or not it.text.startswith(("///", "//!", "/**"))]
        self._read(items(rows, 0, len(rows)), None)

    def _read(self, its, block):
        for it in its:
            if _is_import(it):
                self._import(it)
            elif it.word == "mod":
                self.modules.add(it.name)
                inside = items(it.rows, it.opens + 1, it.close - 1) if it.close > it.opens + 1 else []
                self._read(inside, None)
            elif it.word in ("impl", "trait"):
                self._block(it)
            elif it.word == "fn":
                made = Function(self, it, block)
                self.functions.append(made)
                self.spans.append((*it.bytes(), made))
                if not block:
                    self.by_name.setdefault(it.name, []).append(made.seen)
            elif not block:
                self._declared(it)

    def _declared(self, item):
        """Notes a type or a constant."""
        front = [text for text in map(attribute, item.attributes) if text]
        rows = item.rows[item.at : item.close]
        unit = Unit(self, {item.name}, " ".join([*front, written(rows)]), *named(rows))
        self.by_name.setdefault(item.name, []).append(unit)
        self.spans.append((*item.bytes(), unit))

    def _block(self, item):
        block = Block(self, item)
        self.blocks.append(block)
        self.spans.append((*item.bytes(), block.unit))
        if block.is_trait:
            self.by_name.setdefault(item.name, []).append(block.unit)
        self._read(block.members, block)

    def _import(self, item):
        rows = item.rows[item.at : item.close]
        if item.word == "ghost":
            # (a clause's names are imported as in a file of definitions)
            taken = "".join(f" {it.text} " if NAME.match(it.text) else it.text for it in rows[1:])
            taken = re.sub(r" *([.{},;]) *", r"\1", taken.replace(" as ", "\0")).replace("\0", " as ")
            for word, its in Imports(taken.strip()).of.items():
                self.imports.setdefault(word, []).extend(its)
            return
        words = [it.text for it in rows]
        self._tree(words[words.index("use") + 1 : -1], ())

    def _tree(self, words, front):
        """Notes what a use names: a path, or paths in braces behind one."""
        path, at = list(front), 0
        while at < len(words) and words[at] not in ("{", "as"):
            path += [words[at]] if NAME.match(words[at]) else []
            at += 1
        if words[at : at + 1] == ["{"]:
            for part in _parts(words[at + 1 : -1]):
                self._tree(part, path)
            return
        path = path[:-1] if path[-1] == "self" and len(path) > 1 else path
        alias = words[at + 1] if at < len(words) else path[-1]
        self.imports.setdefault(alias, []).append((None, tuple(path), None))


def _parts(words):
    """Returns the parts between the commas that no brace holds."""
    found, depth = [[]], 0
    for it in words:
        depth += (it == "{") - (it == "}")
        if it == "," and not depth:
            found.append([])
        else:
            found[-1].append(it)
    return [it for it in found if it]


def _module(path):
    """Returns the path of the module that a file of code is."""
    parts = path.removesuffix(".rt").split("/")[1:]
    return tuple(parts[:-1] if parts[-1] in ("lib", "main", "mod") else parts)

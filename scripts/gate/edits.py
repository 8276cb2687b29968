"""Edits: wrong bodies as files, and the functions that a check has to refuse with them.

An edit has a line 'file: PATH' and pairs of lines 'old: TEXT' and 'new: TEXT', as a must-fail edit
of rt. It may have a line 'why: ..', what a user would lose, and lines 'only: CRATE::PATH': the
functions that must be refused, where these aren't just those whose bodies are turned. An edit that
turns a definition and has no such line is refused where any function of the crate is.
"""
import glob
import os
import re

import kit


class Edit:
    """A wrong body: what it turns, and the functions that must be refused with it."""

    def __init__(self, crate, file):
        self.crate, self.file = crate, file
        self.name = f"{crate.name}/{os.path.basename(file).removesuffix('.edit')}"
        with open(file, encoding="utf-8") as it:
            text = it.read()
        self.pairs, self.fault = _pairs(text)
        self.only = self.functions = tuple(re.findall(r"(?m)^only: *(\S+)", text))
        # The functions whose bodies it turns, or none where it turns something else too.
        self.bodies = ()
        # Whether it is enough that one of its functions is refused.
        self.takes_any = False

    def made(self, texts):
        """Returns the files' texts with this edit made too, or None and why it can't be made."""
        texts = dict(texts)
        for path, old, new in self.pairs:
            if path not in texts:
                text = text_of(self.crate, path)
                if text is None:
                    return None, f"there is no file {path}"
                texts[path] = text
            found = texts[path].count(old)
            if found != 1:
                return None, f"an old text is in {path} {found} times, and not once"
            texts[path] = texts[path].replace(old, new)
        return texts, None


def text_of(crate, path):
    """Returns the text of the crate's file, or None where there is none."""
    try:
        with open(f"{crate.folder}/{path}", encoding="utf-8") as it:
            return it.read()
    except OSError:
        return None


def _pairs(text):
    path, old, pairs = None, None, []
    for line in text.split("\n"):
        if line.startswith("file: "):
            path = line[len("file: ") :].strip()
            if os.path.normpath(path) != path or not path.startswith(("src/", "specs/")):
                return [], f"{path} is no file below src/ or specs/"
        elif line.startswith("old: "):
            old = line[len("old: ") :]
        elif line.startswith("new:"):
            if not path or not old:
                return [], "a line new: stands before any line file: or old:"
            pairs.append((path, old, line[len("new:") :].removeprefix(" ")))
            old = None
        elif line and not line.startswith(("why: ", "only: ")):
            return [], f"nothing reads its line '{line[:60]}': an old text and a new one are one line each"
    if any(old == new for _, old, new in pairs):
        return [], "it changes nothing"
    return pairs, None if pairs else "it has no pair of lines old: and new:"


def unfit(crate, folder):
    """Returns which of the crate's edits can't be made, each with the reason."""
    found = [Edit(crate, it) for it in sorted(glob.glob(f"{glob.escape(folder)}/*.edit"))]
    whys = [(it.name, it.fault or it.made({})[1]) for it in found]
    return [f"{name} can't be made: {why}" for name, why in whys if why]


def read(crate, folder):
    """Returns the crate's edits, each with the functions that must be refused."""
    found = [Edit(crate, it) for it in sorted(glob.glob(f"{glob.escape(folder)}/*.edit"))]
    names = Names(crate) if found else None
    for it in found:
        it.fault = it.fault or it.made({})[1]
        if not it.fault:
            it.bodies = names.turned(it)
            it.functions = it.functions or it.bodies
            # (a turned definition that names nobody: some function of the crate must be refused)
            it.takes_any = not it.functions and all(path.startswith("specs/") for path, _, _ in it.pairs)
            if it.takes_any:
                it.functions = tuple(map(names.name, names.functions))
    return found


class Names:
    """Which function a place in the crate's sources belongs to, by its name in a check."""

    def __init__(self, crate):
        self.crate = crate
        self.functions, self.modules = kit.functions(crate)

    def turned(self, edit):
        """Returns the functions whose bodies the edit turns, or none where it turns more."""
        files = {path: File(self, path) for path, _, _ in edit.pairs}
        found = [files[path].turn(old.encode(), new.encode()) for path, old, new in edit.pairs]
        return tuple(dict.fromkeys(found)) if all(found) else ()

    def name(self, f):
        """Returns a check's name for the function, by the kit's rule: of an impl of a trait the
        words of the type, the trait's name and the words of its arguments."""
        block, module, owner = f.block, f.module, []
        if block and block.is_trait:
            owner = block.trait[:1]
        elif block and block.trait:
            owner = [_words(block.ty, block.generics) + _words(block.trait, block.generics)]
        elif block:
            given = [it for it in block.ty[1:] if re.match(r"\w", it)]
            if any(it not in block.generics for it in given):
                # (such an impl is named by all that the type is given, where it stands)
                owner = ["+".join([block.ty[0], *given])]
            else:
                # (any other by its type, in that one's module)
                here = self.modules.get(block.ty[0], [module])
                owner, module = [block.ty[0]], module if module in here else here[0]
        return "::".join([self.crate.name, *module, *owner, f.name])


class File:
    """A file's text as an edit's pairs turn it, with the places of the functions' bodies."""

    def __init__(self, names, path):
        self.text = text_of(names.crate, path).encode()
        here = [f for f in names.functions if f.file == path and f.has_body]
        self.bodies = [(f.opens, f.end, names.name(f)) for f in here]

    def turn(self, old, new):
        """Makes the change, and returns the function whose body holds it whole, or None."""
        at = self.text.find(old)
        front = _common(old, new)
        back = min(_common(old[::-1], new[::-1]), len(old) - front)
        start, end, behind = at + front, at + len(old) - back, at + len(old)
        found = [name for a, b, name in self.bodies if a < start <= end < b]
        self.text = self.text[:at] + new + self.text[behind:]
        longer = len(new) - len(old)
        self.bodies = [
            (a + longer * (a >= behind), b + longer * (b >= behind), name)
            for a, b, name in self.bodies
        ]
        return found[0] if found else None


def _common(one, other):
    """Returns how many bytes the two have in common at their front."""
    return len(os.path.commonprefix([one, other]))


def _words(tokens, parameters):
    """Returns a type's words as they stand in an impl's name, less the impl's own parameters."""
    found = []
    for at, it in enumerate(tokens):
        if it == "&":
            found.append("Ref")
        elif it == "[":
            found.append("Slice")
        elif it == "(":
            found.append(f"Tuple{tokens[at : tokens.index(')', at)].count(',') + 1}")
        elif re.match(r"\w", it) and it not in parameters:
            found.append(it[:1].upper() + it[1:])
    return "".join(found)

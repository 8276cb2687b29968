"""The kit's own scripts, which know how a crate is checked, and what try_edits asks of them."""
import collections
import functools
import glob
import importlib.machinery
import importlib.util
import json
import os
import re
import subprocess
import sys

sys.dont_write_bytecode = True


def _load(name, file):
    loader = importlib.machinery.SourceFileLoader(name, file)
    made = importlib.util.module_from_spec(importlib.util.spec_from_loader(name, loader))
    sys.modules[name] = made
    loader.exec_module(made)
    return made


def _said(*words):
    return subprocess.run(words, capture_output=True, text=True, check=True).stdout.strip()


FOLDER = os.path.dirname(_said("rt", "doc"))
IDENTITY = _said("rt", "version")
rt = _load("rt", f"{FOLDER}/bin/rt")
rtlib = rt.rtlib
_bodies = _load("rt_plant_bodies", f"{FOLDER}/bin/rt-plant-bodies")


_stamp, _stamps = rtlib.Crate.stamp, {}


def _remembered_stamp(crate):
    """The sum of a crate's sources and of all below, which the kit makes anew along each path from
    the crate down. Sources stay while edits are tried, so each crate's is made once."""
    if crate.folder not in _stamps:
        _stamps[crate.folder] = _stamp(crate)
    return _stamps[crate.folder]


rtlib.Crate.stamp = _remembered_stamp
_below, _belows = rtlib.Crate.below, {}


def _remembered_below(crate):
    """The libraries below a crate, which the kit finds anew along each path down."""
    if crate.folder not in _belows:
        _belows[crate.folder] = _below(crate)
    return [*_belows[crate.folder]]


rtlib.Crate.below = _remembered_below

# A token of code: its line, its first byte and the byte behind it, its kind and its text.
Token = collections.namedtuple("Token", "line first end kind text")


@functools.lru_cache(None)
def tokens(folder):
    """Returns the tokens of each .rt file below src/, without comments, and the file's bytes."""
    paths = sorted(glob.glob(f"{glob.escape(folder)}/src/**/*.rt", recursive=True))
    words = [rtlib.RATTLE, "fmt", "--tokens", *paths]
    said = subprocess.run(words, capture_output=True, encoding="utf-8", check=True).stdout if paths else ""
    found = {}
    for path, rows in zip(paths, re.split(r"(?m)^file \d+\n", said)[1:]):
        rows = [it.split(" ", 4) for it in rows.split("\n") if it]
        # (most texts have nothing that JSON would write otherwise)
        said = lambda it: json.loads(it) if "\\" in it else it[1:-1]
        its = [Token(int(a), int(b), int(c), kind, said(it)) for a, b, c, kind, it in rows]
        with open(path, "rb") as it:
            found[os.path.relpath(path, folder)] = its, it.read()
    return found


_bodies.Source.tokens = lambda source, file: tokens(source.folder)[file]


def crates(top):
    """Returns the repository's crates by their names, lowest first."""
    found = sorted(rtlib.crates_below(top), key=lambda it: len(it.below()))
    return {it.name: it for it in found}


def functions(crate):
    """Returns the crate's functions as the kit reads them, and the modules that declare each type."""
    source = _bodies.Source(crate.folder)
    source.read("src/main.rt" if crate.is_program else "src/lib.rt")
    return source.functions, {name: [it[0] for it in found] for name, found in source.declared.items()}


def _is_of_ci(crate):
    """Returns whether rt ci left the library here. It leaves no stamp."""
    has_stamp = os.path.exists(f"{crate.folder}/out/rlib/stamp")
    return os.path.isfile(f"{crate.rlib}/format") and not has_stamp


def build_below(crate, after_ci):
    """Builds the libraries below the crate where they aren't. after_ci: whether rt ci has just passed
    here, so that what it built serves, and nothing is built anew. Returns what went wrong, or None."""
    for it in crate.below():
        if it.is_built() or after_ci and _is_of_ci(it):
            continue
        if after_ci:
            return f"the library {it.name} isn't there as rt ci leaves it"
        print(f"building the library {it.name}", flush=True)
        how = {"cwd": it.folder, "stdin": subprocess.DEVNULL, "stdout": subprocess.PIPE}
        how |= {"stderr": subprocess.STDOUT, "text": True, "errors": "replace"}
        ran = subprocess.run(["rt", "lib", "--jobs", "1"], **how)
        if ran.returncode or not it.is_built():
            return f"the library {it.name} isn't built: {ran.stdout[-600:]}"
    return None

"""Tries edits of a tiny crate, most of which must be told as not refused, and why. Without this a
program that takes every edit for refused would look well."""
import os
import tempfile

import edits
import kit
import reach
import record
import rounds
import sums_test
from clock import Clock

SOURCE = """//! A tiny crate.
#![tactic(auto)]
ghost use Rattle.std.specs.Prelude.{◌≡◌, ◌+◌, ◌<◌};
ghost use Rattle.tiny.specs.Low.{apart, low, twice};

/// The next number.
pub fn next(number: u8) -> u8
    requires { number < 9 }
    ensures { result ≡ number + 1 }
{
    1 + number
}

/// The number after the next one.
pub fn after_next(number: u8) -> u8
    requires { number < 8 }
    ensures { result ≡ number + 2 }
{
    next(next(number))
}

/// A number below nine, whichever.
pub fn small() -> u8
    ensures { result < low }
{
    let small = 3;
    small
}

/// A law.
pub fn low_is_nine()
    ensures { low ≡ 9 }
{}

/// A law of two definitions.
pub fn twice_is_eighteen()
    ensures { twice ≡ 18 }
{}

/// A law of a definition that nothing else names.
pub fn apart_is_nine()
    ensures { apart ≡ 9 }
{}
"""

DEFINITIONS = """use Rattle.std.specs.Prelude.{ℕ, ◌+◌}

abbrev pub low : ℕ
low = 9

abbrev pub other : ℕ
other = 9

abbrev pub apart : ℕ
apart = 9

abbrev pub twice : ℕ
twice = low + low
"""

# Each edit's lines, and how what is said of it begins (None: it is refused).
WANTED = {
    "a_step_of_two": ("old: 1 + number\nnew: 2 + number", None),
    "beside_one_that_is_refused": (
        "only: tiny::apart_is_nine\nfile: specs/Low.antt\nold: apart = 9\nnew: apart = 4 + 5",
        "is NOT REFUSED",
    ),
    "harmless": ("old: = 3;\nnew: = 4;", "is NOT REFUSED"),
    "twice_in_other_words": (
        "only: tiny::twice_is_eighteen\nfile: specs/Low.antt\nold: low + low\nnew: low + (low + 0)",
        "is NOT REFUSED",
    ),
    "lacks_its_text": ("old: = 5;\nnew: = 4;", "can't be made"),
    "names_no_function": ("only: tiny::last\nold: = 3;\nnew: = 9;", "names a function"),
    "refuses_a_caller_alone": ("only: tiny::after_next\nold: 1 + n\nnew: 2 + n", "is NOT REFUSED"),
    "turns_a_contract": ("old: result < low\nnew: result < 3", "turns no body"),
    "turns_a_definition": ("file: specs/Low.antt\nold: low = 9\nnew: low = 3", None),
    "turns_a_law": (
        "only: tiny::low_is_nine\nfile: specs/Low.antt\nold: low = 9\nnew: low = 3",
        None,
    ),
    "turns_an_unused_definition": ("file: specs/Low.antt\nold: other = 9\nnew: other = 3", "is NOT REFUSED"),
    "unreadable": ("old: next(next(number))\nnew: next(next(nummer))", "doesn't read"),
}


# What a check says of a function that it refuses.
REFUSAL = "note: src/a.rt:1:1: it is not proved that it holds (`x`)\nfn {}: no proof: of `x`\n"


def write(file, text):
    os.makedirs(os.path.dirname(file), exist_ok=True)
    with open(file, "w", encoding="utf-8") as it:
        it.write(text)


def with_the_prover(top):
    """Returns what is wrong in how the edits of a tiny crate are told, and the seconds it took."""
    write(f"{top}/crates.txt", "tiny:\n")
    write(f"{top}/crates/tiny/src/lib.rt", SOURCE)
    write(f"{top}/crates/tiny/specs/Lib.antt", "pub mod Low\n")
    write(f"{top}/crates/tiny/specs/Low.antt", DEFINITIONS)
    for name, (lines, _) in WANTED.items():
        file = "" if lines.startswith("file: ") else "file: src/lib.rt\n"
        write(f"{top}/edits/{name}.edit", f"{file}{lines}\n")
    crate = kit.crates(top)["tiny"]
    tries = rounds.Tries(crate, edits.read(crate, f"{top}/edits"), reach=reach.Reach(edits.Names(crate)))
    tries.run()
    told = {it.name: None for it in tries.refused}
    told.update({it.name: why for it, why in tries.failed.items()})
    wrong = []
    for name, (_, wanted) in WANTED.items():
        said = told.get(f"tiny/{name}", "nothing")
        if said != wanted and not (wanted and said and said.startswith(wanted)):
            wrong.append(f"{name}: wanted {wanted or 'refused'}, and not {said or 'refused'}")
    return wrong, tries.seconds


class _Edit:
    """An edit that needs no crate."""

    def __init__(self, name):
        self.name, self.fault, self.functions, self.bodies = name, None, (f"a::{name}",), (name,)
        self.takes_any = False

    def made(self, texts):
        return {**texts, self.name: ""}, None


def without_it():
    """Returns what is wrong where checks are killed, or end early, or say too little."""
    killed = lambda only: rounds.Ran(-9, "", 0)
    silent = lambda only: rounds.Ran(1, f"only={len(only)} proved=0\n", 0)
    refused = lambda only: rounds.Ran(
        1, "".join(REFUSAL.format(it) for it in only) + "only=1 proved=0\n", 0
    )
    cases = {
        "a killed round": (lambda only: killed(only) if len(only) > 1 else refused(only), None),
        "killed checks": (killed, "was not tried"),
        "a check that ends early": (lambda _: rounds.Ran(0, "fn a::x: proved", 0), "doesn't read"),
        "a check that is silent": (silent, "is NOT REFUSED"),
    }
    wrong = []
    for case, (check, wanted) in cases.items():
        tries = rounds.Tries(None, [_Edit(it) for it in "xyz"], lambda _, __, only, **___: check(only))
        tries.run()
        whys = list(tries.failed.values())
        well = len(whys) == 3 * bool(wanted) and len(tries.refused) == 3 - len(whys)
        if not well or not all(it.startswith(wanted) for it in whys):
            wrong.append(f"{case}: wanted {wanted or 'refused'}, and not {whys}")
    return wrong


def by_the_clock():
    """Returns what is wrong where time runs out: two edits of one function, which are two rounds of ten
    minutes each, behind so many minutes; and how many of them are refused."""
    wrong = []
    for minutes, wanted in {0: 2, 129: 2, 131: 1, 139: 1, 140: 0, 141: 0, 164.9: 0}.items():
        now = [minutes * 60]

        def check(_, __, only, **___):
            now[0] += 600
            return rounds.Ran(1, "".join(map(REFUSAL.format, only)) + "only=1 proved=0\n", 0)

        tries = rounds.Tries(None, [_Edit("x"), _Edit("x")], check, clock=Clock(0, lambda now=now: now[0]))
        tries.run()
        found = len(tries.refused), len(tries.left), len(tries.failed)
        if found != (wanted, 2 - wanted, 0):
            wrong.append(f"behind {minutes} minutes refused, left, failed are {found}")
    slow = Clock(0, lambda: 139 * 60)
    had_room = slow.has_room(20)
    slow.took(20, 3000)
    if not had_room or slow.has_room(20) or slow.has_room(1000):
        wrong.append("a check is begun that can't be expected to end")
    return wrong


def of_the_record(top):
    """Returns what is wrong in how a run's words are noted."""
    said = record.lines_of("a", {"a/x": "1f", "a/y": "2e"}, ["a/z"])
    if record.said_in("\n".join(["other words", *said])) != ({"a/x": "1f", "a/y": "2e"}, ["a/z"]):
        return [f"what a run says can't be read: {said}"]
    noted = {"a/x": "1f", "a/y": "2e", "a/z": None, "a/gone": "3d"}
    record.Tried(f"{top}/TRIED").note(noted, {"a/x", "a/y", "a/z"})
    tried = record.Tried(f"{top}/TRIED")
    now = {"a/x": "1f", "a/y": "3d", "a/z": "1f", "a/gone": "3d"}
    stand = [it for it, made in now.items() if tried.stands(it, made)]
    first = {*sorted(["a/x", "a/y", "a/z", "a/new"], key=tried.place)[:2]}
    is_well = stand == ["a/x"] and first == {"a/z", "a/new"}
    return [] if is_well else [f"of TRIED stand {stand}, first are {first}"]


def run():
    """Returns what is wrong in how edits are told, and the seconds of one core that it took."""
    with tempfile.TemporaryDirectory(prefix="try-edits-self-test-") as top:
        wrong, seconds = with_the_prover(top)
        wrong += without_it() + by_the_clock() + of_the_record(top) + sums_test.wrong()
        return wrong, seconds

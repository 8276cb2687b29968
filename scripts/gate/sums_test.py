"""Changes three tiny crates, and looks which edits' sums change with that."""
import os
import tempfile

import kit
import sums

FILES = {
    "crates.txt": "low:\nmid: low\ntop: low mid\n",
    "crates/low/specs/Lib.antt": "pub mod Low\n",
    "crates/low/specs/Low.antt": """-- what is low
abbrev pub limit : ℕ
limit = 9

module _ {K : Type 0} where
  abbrev pub IsLow : ℕ → Type 0
  IsLow n = n < limit

  abbrev pub IsHigh : ℕ → Type 0
  IsHigh n = 100 < n
""",
    "crates/low/src/lib.rt": """//! Low numbers.
#![tactic(auto)]
ghost use Rattle.low.specs.Low.{IsLow, limit};

pub mod number;

pub use number::Number;

/// A law.
pub fn limit_is_nine()
    ensures { limit ≡ 9 }
{}
""",
    "crates/low/src/number.rt": """ghost use Rattle.low.specs.Low.{IsLow, IsHigh};

/// A number.
#[derive(Clone, Debug, Drop)]
pub struct Number {
    // what it is worth
    value: u8,
}

impl Number {
    pub fn value(&self) -> u8
        ensures { IsLow result }
    {
        self.value
    }

    pub fn height(&self) -> u8
        ensures { IsHigh result }
    {
        let height = 101;
        height
    }
}
""",
    "crates/low/proofs/Lib.antt": "mod Nine\nmod Ten\n",
    "crates/low/proofs/Nine.antt": "pub nine : 9 ≡ 9\nnine = refl\n",
    "crates/low/proofs/Ten.antt": "pub ten : 10 ≡ 10\nten = refl\n",
    "crates/low/proofs/limit_is_nine/Answers.antt": """use Rattle.low.proofs.Nine.{nine}
pub returns : goal
returns = nine
""",
    "crates/mid/src/lib.rt": """//! Sums.
#![tactic(auto)]
ghost use Rattle.low.specs.Low.{IsLow};
use low::Number;

pub fn first(number: &Number) -> u8
    ensures { IsLow result }
{
    number.value()
}

pub fn least() -> u8
    ensures { result ≡ 1 }
{
    0 + 1
}
""",
    "crates/top/src/lib.rt": """//! What is above.
#![tactic(auto)]
ghost use Rattle.low.specs.Low.{IsLow};
use low::Number;
use mid::{first, least};

pub fn shown(number: &Number) -> u8
    ensures { IsLow result }
{
    first(number)
}

pub fn shown_or_least(number: Option<&Number>) -> u8
    ensures { 0 < result }
{
    match number {
        Some(_) => 2,
        None => least(),
    }
}
""",
    "edits/low/law.edit": "only: low::limit_is_nine\nfile: specs/Low.antt\nold: limit = 9\nnew: limit = 8\n",
    "edits/low/value.edit": "file: src/number.rt\nold: self.value\nnew: self.value + 1\n",
    "edits/low/height.edit": "file: src/number.rt\nold: = 101;\nnew: = 0;\n",
    "edits/mid/first.edit": "why: it is lost\nfile: src/lib.rt\nold: number.value()\nnew: number.height()\n",
    "edits/mid/least.edit": "file: src/lib.rt\nold: 0 + 1\nnew: 0 + 2\n",
    "edits/top/shown.edit": "file: src/lib.rt\nold: first(number)\nnew: 100\n",
    "edits/top/least.edit": "file: src/lib.rt\nold: None => least(),\nnew: None => 0,\n",
}
LOW, MID, TOP = ("crates/low/src/number.rt", "crates/mid/src/lib.rt", "crates/top/src/lib.rt")
# What is changed, in which file, and whose sums change with it.
CHANGES = {
    "a comment": (LOW, "// what it is worth", "// its worth", ""),
    "documentation": (LOW, "/// A number.", "/// A low number.", ""),
    "layout": (TOP, "        Some(_) => 2,\n        None", "        Some(_)   => 2,\n\n        None", ""),
    "a derived Debug": (LOW, "Clone, Debug, Drop", "Clone, Drop", ""),
    "who may call": (MID, "pub fn least", "pub(crate) fn least", ""),
    "a comment of definitions": ("crates/low/specs/Low.antt", "-- what is low", "-- Low", ""),
    "an edit's why": ("edits/mid/first.edit", "it is lost", "it is found; refused by `first`", ""),
    "a lemma that no law reaches": ("crates/low/proofs/Ten.antt", "ten = refl", "ten = cc", ""),
    "a lemma that a law reaches": ("crates/low/proofs/Nine.antt", "nine = refl", "nine = cc", "low/law"),
    "a law's proof": (
        "crates/low/proofs/limit_is_nine/Answers.antt",
        "returns = nine",
        "returns = refl",
        "low/law",
    ),
    "an edit": ("edits/top/shown.edit", "new: 100", "new: 200", "top/shown"),
    "a body": (MID, "0 + 1", "1 + 0", "mid/least"),
    "another body": (LOW, "let height = 101;", "let height = 102;", "low/height"),
    "a clause": (MID, "result ≡ 1", "result ≡ 0 + 1", "mid/least top/least"),
    "a clause of a method": (LOW, "IsLow result }", "IsLow result × ⊤ }", "low/value mid/first"),
    "a clause of what an edit calls": (LOW, "{ IsHigh result }", "{ 100 < result }", "low/height mid/first"),
    "a definition two crates down": (
        "crates/low/specs/Low.antt",
        "limit = 9",
        "limit = 3 + 6",
        "low/law low/value mid/first top/shown",
    ),
    "a definition beside it": ("crates/low/specs/Low.antt", "100 < n", "99 < n", "low/height mid/first"),
    "a type": (LOW, "value: u8,", "value: u16,", "low/value low/height mid/first top/shown top/least"),
    "where a name comes from": (TOP, "Low.{IsLow}", "Low.{IsHigh as IsLow}", "top/shown"),
}


def sums_of(top, changed=None):
    """Returns the sums of the edits of the tiny crates, with a change in one file."""
    for file, text in FILES.items():
        if changed and file == changed[0]:
            assert text.count(changed[1]) == 1, changed
            text = text.replace(changed[1], changed[2])
        os.makedirs(os.path.dirname(f"{top}/{file}"), exist_ok=True)
        with open(f"{top}/{file}", "w", encoding="utf-8") as it:
            it.write(text)
    crates = kit.crates(top)
    made, found = sums.Sums(crates), {}
    for name in ("low", "mid", "top"):
        found |= made.of_folder(crates[name], f"{top}/edits/{name}")[1]
    return found


def wrong():
    """Returns which changes don't make just the right edits stale."""
    found = []
    with tempfile.TemporaryDirectory(prefix="try-edits-sums-") as top:
        before = sums_of(f"{top}/0")
        for at, (what, (*change, wanted)) in enumerate(CHANGES.items()):
            after = sums_of(f"{top}/{at + 1}", change)
            stale = {it for it in before if None in (before[it], after[it]) or before[it] != after[it]}
            if stale != {*wanted.split()}:
                found.append(f"{what} changes the sums of {sorted(stale)}, and not of {wanted or 'none'}")
    return found

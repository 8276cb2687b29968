"""The self test of scripts/pages: a small tree, right and with one fault of each kind."""
import os
import tempfile

SOURCE = """//! A crate.
pub trait Box {
    fn open(&self) -> bool
        ensures opened { IsOpen self.now result };
}

impl Box for Chest {
    fn open(&self) -> bool {
        true
    }
}

impl Chest {
    pub fn close(&mut self)
        ensures closed { self.new ≡ shut }
        ensures* stays { IsKept self.old }
    {
    }
}

pub fn many_lids() -> u64
    ensures { result ≡ lids_of 3 }
{
}
"""
SPECS = """-- Chests.
abbrev pub IsOpen : Chest → Bool → Type 0
IsOpen chest answer = (answer ≡ true) × HasLid chest

-- a lid
pub record HasLid (chest : Chest) : Type 0 where
  pub lid_there : chest.lid ≡ Some lid

abbrev pub IsKept : Chest → Type 0
IsKept chest = chest ≡ chest

abbrev pub shut : Chest
shut = none

abbrev pub lids_of : ℕ → ℕ
lids_of n = n

abbrev pub stranger_to_all : ℕ
stranger_to_all = 7
"""
TABLE = "| Promise | Function | Clause |\n|---|---|---|\n"
EDITS = "| What | Edit |\n|---|---|\n"
THEMES = "| What | Crates | Wrong bodies |\n|---|---|---|\n"
FILES = "| File | What it defines |\n|---|---|\n"
TREE = {
    "crates.txt": "# floors\nraft_low:\nraft_chest: raft_low thiserror\nraft_chest_rows: raft_chest\n",
    "README.md": "# Top\n\n[arch](docs/ARCHITECTURE.md#the-crates), scripts/edits and `scripts/edits/CRATE`.\n",
    "docs/GATE.md": "# Gate\n\n| Crate | proof |\n|---|---|\n| raft_gone | 1.0 |\n",
    "docs/GUIDE.md": "# Guide\n\n`1 open -> open`\n\n```rust\nfn lid() {}\n```\n",
    "docs/ARCHITECTURE.md": f"# Plan\n\n## The crates\n\n{FILES}| raft_chest/specs/Chest | `IsOpen`, `lid_there` |\n",
    "docs/PROMISES.md": f"# Promises\n\n## Chests (raft_chest)\n\n{TABLE}| a | `impl Box for Chest`, `many_lids` | `opened` |\n"
                        f"\n{EDITS}| b | `a_lid_stays` (raft_chest) |\n"
                        f"\n{THEMES}| c | raft_chest | some 1 |\n| d | all others | some 0 |\n",
    "docs/TESTED.md": "| What | Program | Count | Date | What would fail |\n|---|---|---|---|---|\n"
                      "| c | raft_chest_rows | 3 rows | 2026-01-31 | d |\n"
                      "| c | raft_low, raft_chest_rows | 2 tests; raft_chest_rows: 5 lines | 2026-01-30 | |\n"
                      "| c | raft_chest_rows | 2 rows behind its mark | 2026-01-29 | |\n\nIt tries some 1 wrong bodies.\n",
    "crates/raft_chest/README.md": f"# raft_chest\n\ndocs/PROMISES.md, \"Chests (raft_chest)\", `specs/Chest`, `src/{{lib,lib}}.rt`.\n\n{TABLE}"
                                   "| a | `Chest::{open, close}` | `opened` (`HasLid`), `closed`; `stays` |\n"
                                   "| b | the same | `lids_of`, its `ensures` |\n",
    "crates/raft_chest/src/lib.rt": SOURCE,
    "crates/raft_chest/specs/Chest.antt": SPECS,
    "crates/raft_low/src/lib.rt": "//! Low.\npub fn low_one()\n    ensures { true }\n{}\n" + "\n#[test]\nfn low() {}\n" * 2,
    "crates/raft_chest_rows/src/main.rt": "//! Rows.\n",
    "crates/raft_chest_rows/stdout": "# one\na -> 1\n# From here on rows are written by scripts/chest.\nb -> 2\nc -> 3\n",
    "crates/raft_embedding/src/main.rt": "//! Embeds.\nfn lid() {}\n",
    "crates/raft_embedding/stdout": "1 open -> open\n",
    "scripts/edits/raft_chest/a_lid_stays.edit": "why: a\n",
}
# What is turned, in which file, and words of the fault that has to be found then.
FAULTS = [
    ("docs/ARCHITECTURE.md#the", "docs/ARCHITECTUR.md#the", "README.md", "leads nowhere"),
    ("#the-crates", "#the-boxes", "README.md", "leads to no heading"),
    ("and `scripts/edits/CRATE`", "and `scripts/edit/raft_chest`", "README.md", "scripts/edit/raft_chest isn't there"),
    ("scripts/edits and", "scripts/editors and", "README.md", "scripts/editors isn't there"),
    ("`specs/Chest`", "`specs/Box`", "crates/raft_chest/README.md", "specs/Box isn't there"),
    ("{lib,lib}", "{lib,box}", "crates/raft_chest/README.md", "src/box.rt isn't there"),
    ("\"Chests (raft_chest)\"", "\"Chest\"", "crates/raft_chest/README.md", "no heading"),
    ("{open, close}", "{open, shut}", "crates/raft_chest/README.md", "no function Chest::shut"),
    ("`Chest::{open, close}`", "`many_boxes`", "crates/raft_chest/README.md", "no function many_boxes"),
    ("`impl Box for Chest`", "`impl Lid for Chest`", "docs/PROMISES.md", "no function impl Lid for Chest"),
    ("`many_lids`", "`low_one` (raft_chest)", "docs/PROMISES.md", "no function low_one in raft_chest"),
    ("`closed`; ", "`close_d`; ", "crates/raft_chest/README.md", "no clause or definition close_d"),
    ("`opened` (`HasLid`)", "`opened` (`stranger_to_all`)", "crates/raft_chest/README.md", "no clause or definition stranger_to_all"),
    ("`opened` |", "`closed` |", "docs/PROMISES.md", "no clause or definition closed"),
    ("`lids_of`, ", "`lids_off`, ", "crates/raft_chest/README.md", "no clause or definition lids_off"),
    ("| a | `impl Box for Chest`, ", "| a | b | `impl Box for Chest`, ", "docs/PROMISES.md", "the row has 4 cells"),
    ("`a_lid_stays` (raft_chest)", "`a_lid_stays` (raft_low)", "docs/PROMISES.md", "no edit a_lid_stays of raft_low"),
    ("raft_chest | some 1", "raft_chest | some 2", "docs/PROMISES.md", "there are 1 wrong bodies, not some 2"),
    ("raft_chest | some 1", "raft_chest | 1", "docs/PROMISES.md", "the row has no number"),
    ("all others", "raft_chest", "docs/PROMISES.md", "raft_chest stands in more than one row"),
    ("raft_chest | some 1 |\n| d | all others", "raft_low", "docs/PROMISES.md", "no row has the wrong bodies of raft_chest"),
    ("raft_chest/specs/Chest", "raft_chest/specs/Lid", "docs/ARCHITECTURE.md", "raft_chest/specs/Lid isn't there"),
    ("`lid_there`", "`lid_where`", "docs/ARCHITECTURE.md", "no definition lid_where"),
    ("3 rows", "1 rows", "docs/TESTED.md", "raft_chest_rows has 3 rows, not 1"),
    ("5 lines", "1,005 lines", "docs/TESTED.md", "raft_chest_rows has 5 lines, not 1,005"),
    ("behind its", "before its", "docs/TESTED.md", "raft_chest_rows has 1 rows before its mark, not 2"),
    ("2 tests", "3 tests", "docs/TESTED.md", "raft_low has 2 tests, not 3"),
    ("raft_low, raft_chest_rows", "scripts/edits", "docs/TESTED.md", "no crate has no tests"),
    ("| raft_chest_rows | 3 rows", "| | 3 rows", "docs/TESTED.md", "the row names no program"),
    ("| 3 rows |", "| some |", "docs/TESTED.md", "the row has no count"),
    ("2026-01-31", "2026-02-30", "docs/TESTED.md", "2026-02-30 is no date"),
    ("2026-01-30", "", "docs/TESTED.md", "an empty cell is no date"),
    ("2026-01-29 |", "|", "docs/TESTED.md", "an empty cell is no date"),
    ("| 2026-01-29 |", "|", "docs/TESTED.md", "the row has 4 cells"),
    ("| Count | Date |", "| Count | Day |", "docs/TESTED.md", "the columns aren't"),
    ("| Program |", "| Where |", "docs/TESTED.md", "there is no table"),
    ("some 1 wrong", "some 2 wrong", "docs/TESTED.md", "there are 1 wrong bodies"),
    ("1 open -> open", "1 open -> shut", "docs/GUIDE.md", "raft_embedding prints no row 1 open -> shut"),
    ("fn lid()", "fn lids()", "docs/GUIDE.md", "the sources of raft_embedding have no line fn lids() {}"),
    ("`specs/Chest`", "`HasNoLid`", "crates/raft_chest/README.md", "nothing is named HasNoLid"),
    ("raft_low, raft_chest_rows", "raft_low, raft_lid_rows", "docs/TESTED.md", "there is no crate raft_lid_rows"),
]


def run(faults):
    """Fails where the tree as it is has a fault, or where one that is made isn't found, or isn't the only kind."""
    right = _found(faults, TREE)
    if right:
        raise SystemExit("\n".join(["pages: self test: faults of a right tree", *right]))
    for old, new, path, words in FAULTS:
        if TREE[path].count(old) != 1:
            raise SystemExit(f"pages: self test: {old!r} doesn't stand once in {path}")
        found = _found(faults, TREE | {path: TREE[path].replace(old, new)})
        if not any(it.startswith(path) and words in it for it in found):
            raise SystemExit("\n".join([f"pages: self test: not found: {words}", *found]))


def _found(faults, tree):
    """What is found in a tree of files."""
    with tempfile.TemporaryDirectory() as top:
        for path, text in tree.items():
            os.makedirs(os.path.dirname(f"{top}/{path}"), exist_ok=True)
            with open(f"{top}/{path}", "w", encoding="utf-8") as file:
                file.write(text)
        return list(faults(top))

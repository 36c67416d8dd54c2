"""Checks the must-fail edits and edits/refused against the tree, and how states of crates are found."""

import shutil

import edits as tries
from lib import edits
from lib.checks import check, expect
from lib.programs import CRATES, ROOT
from lib.parts import declared, definitions_of, parts_of, tokens_of
from lib.sources import PARTS, Sources

# Whose states are compared: the lowest crate, two that stand on it, one of them through others, and
# one that does not.
LOWEST, ABOVE, BESIDE = "nj_text", {"nj_manifest", "nj_cli"}, "nj_names"
CODE = """\
/// A comment, with an apostrophe's quote.
#[tactic(auto, using(one_more))]
pub fn last<'a>(text: &'a [u8], end: u8) -> Option<&'a u8>
    requires { text.now ≡ [] }
    ensures found { result ≡ (record { a = '{' }) }
{
    if end == b'}' { "\\"}" } else { 'a' }
}
trait Taken {
    fn take(&self) -> bool;
}
"""
DECLARED = """\
pub fn last < ' a > ( text : & ' a [ u8 ] , end : u8 ) - > Option < & ' a u8 > requires { text . now ≡ [ ] }
ensures found { result ≡ ( record { a = '{' } ) } trait Taken { fn take ( & self ) - > bool ; }"""


PARTS_OF_CODE = """\
mod inside;
pub use inside::{first, second};
use std::alloc::Global;
/// A comment with a struct Other.
#[derive(Drop)]
pub struct Taken<'a> { first: &'a u8 }
impl<T: Drop> From<T> for Taken<'_> {
    ghost from_gives = { λ _ t. t ≡ None };
    fn from(_t: T) -> Taken<'static> { unreachable!() }
}
pub trait Takes { fn take(&self) { 1 } }
const MOST: usize = 3;
"""
# The names of each part, and how many pieces it has.
NAMES_OF_CODE = [
    ("first", "second", 5),
    ("Global", 7),
    ("Taken", 22),
    ("Taken", 16),
    ("Taken", 13),
    ("from", 14),
    ("Takes", 11),
    ("MOST", 7),
]
PARTS_OF_LOGIC = """\
-- What is here.
use Rattle.std.specs.Prelude.{ℕ, Bool}

-- a definition
abbrev pub first : ℕ
first = 0

pub data Kind : Type 0 where
  Small : Kind
  Great : (by : ℕ) → Kind

◌<+◌ : ℕ → ℕ
"""
NAMES_OF_LOGIC = [("ℕ", "Bool"), ("first",), ("Kind", "Small", "Great"), ()]


@check
def each_edit_is_listed():
    """The file has each crate with edits and each edit once. Whether a state fits is for the gate,
    which tries all edits where there is no file."""
    record, having = edits.Record(), {it.parent.name for it in ROOT.glob("edits/*/*.edit")}
    if not record.file.is_file():
        return
    yield from expect("lines without a form of their own", record.wrong, [])
    yield from expect("crates in edits/refused", sorted(record.crates), sorted(having))
    for name, known in record.crates.items():
        names = [file.stem for file in edits.edits_of(ROOT, name)]
        yield from expect(f"the edits of {name}", [*known.places], names)


@check
def each_edit_applies():
    for edit in sorted(ROOT.glob("edits/*/*.edit")):
        crate, problem = CRATES / edit.parent.name, None
        try:
            changes = edits.changed(edit, crate)
            same = [file for file, text in changes.items() if text == (crate / file).read_text()]
            problem = "it changes nothing" if same or not changes else None
        except (OSError, ValueError) as error:
            problem = error
        if problem:
            yield f"{edit.relative_to(ROOT)}: {problem}"


@check
def declarations_are_without_bodies():
    yield from expect("declared", " ".join(declared(tokens_of(CODE))), DECLARED.replace("\n", " "))


@check
def parts_have_the_names_by_which_they_are_used():
    code = [(*it.names, len(it.pieces)) for it in parts_of(tokens_of(PARTS_OF_CODE))]
    yield from expect("parts of code", code, NAMES_OF_CODE)
    logic = [it.names for it in definitions_of(PARTS_OF_LOGIC)]
    yield from expect("parts of definitions", logic, NAMES_OF_LOGIC)


def states_of(top):
    sources = Sources(top)
    return {name: sources.state(name) for name in (LOWEST, *ABOVE, BESIDE)}


def planted(before, top, file, old, new):
    """The crates whose state another text of a file changes."""
    text = (top / file).read_text()
    if text.count(old) != 1:
        raise ValueError(f"{file} has {old} {text.count(old)} times")
    (top / file).write_text(text.replace(old, new))
    after = states_of(top)
    (top / file).write_text(text)
    return {name for name, state in before.items() if after[name] != state}


@check
def states_follow_what_is_read(folder):
    """A body of the lowest crate is read by no crate above, a comment by none, and so is what no other
    crate names; a definition that they name is read by all."""
    for name in ("crates.txt", "HANDLES"):
        shutil.copyfile(ROOT / name, folder / name)
    for crate in CRATES.iterdir():
        for part in PARTS:
            if (crate / part).is_dir():
                shutil.copytree(crate / part, folder / "crates" / crate.name / part)
    before = states_of(folder)
    code, logic = f"crates/{LOWEST}/src/numbers.rt", f"crates/{LOWEST}/specs/Numbers.antt"
    rows = (
        (code, "unwrap_or(0), *byte", "unwrap_or(0), byte.min(&9)", {LOWEST}),
        (code, "-> (u64, u64)", "-> (u32, u64)", {LOWEST, "nj_manifest"}),
        (code, "//! ", "//! Another comment. ", set()),
        (code, "//! ", "fn nobody_calls_this(byte: u8) -> u8 { byte }\n//! ", {LOWEST}),
        (code, "//! ", "use crate::letters::nobody_uses_this;\n//! ", {LOWEST}),
        (logic, "number_of [] = None", "number_of [] = Some 0", {LOWEST, *ABOVE}),
        (logic, "-- the greatest", "abbrev pub nobody : ℕ\nnobody = 0\n\n-- the greatest", {LOWEST}),
    )
    for file, old, new, wanted in rows:
        found = planted(before, folder, file, old, new)
        yield from expect(f"{file} with {new}", sorted(found), sorted(wanted))


@check
def two_crates_are_chosen():
    known, halves = [f"crate_{number}" for number in range(9)], set()
    for number in range(2048):
        found = tries.chosen(known, f"{number:x}")
        halves.add((found[0] in known[:5], len({*found})))
    yield from expect("one of the lower half and another", halves, {(True, 2)})
    edits, some = [f"edit_{number}" for number in range(6)], set()
    for number in range(0, 1 << 16, 512):
        some.add(tuple(tries.some_of(edits, f"{number:x}")))
    yield from expect("edits of a crate", {len({*it}) for it in some}, {4})
    yield from expect("edits that are never tried", {*edits} - {name for it in some for name in it}, set())
    yield from expect("edits of a crate with few", tries.some_of(edits[:3], "9a"), edits[:3])
    yield from expect("of one", tries.chosen(["only"], "9a"), ["only"])
    yield from expect("of none", tries.chosen([], "9a"), [])

"""Checks that each public struct with a private field has an `impl Model`, so that contracts, and
proofs of other crates, are about its value and not about its fields. No crate is above a static
library, so that may do without; so may a struct that is `Copy` and has a lifetime, which can have no
model: a ghost field holds its invariant, and a definition of its crate reads it.
"""

import re

from lib.checks import check
from lib.programs import CRATES, ROOT

COPY = re.compile(r"\bCopy\b")
STRUCT = re.compile(r"^(?:#\[derive\((.*?)\)\]\n)?pub struct (\w+(<'\w+)?).*?(?:\{(.*?)^\}|\(([^;]*)\);|;$)", re.M | re.S)
NAMED_FIELD = re.compile(r"^    (?!pub |ghost )\w[\w()]* ?\w*:", re.M)
FIELD_BY_PLACE = re.compile(r"(?:^|,)\s*(?!pub )[^\s,]")


def without_model(text):
    """The public structs of a file that have a private field and no model."""
    for derived, named, lifetime, fields, by_place in STRUCT.findall(text):
        name = named.removesuffix(lifetime)
        if lifetime and COPY.search(derived):
            continue
        has_private = NAMED_FIELD.search(fields) or FIELD_BY_PLACE.search(by_place)
        if has_private and not re.search(rf"^impl\b.* Model for {name}\b", text, re.M):
            yield name


@check
def private_fields_have_models():
    static = re.findall(r"^(\w+) staticlib:", (ROOT / "crates.txt").read_text(), re.M)
    for crate in sorted(CRATES.iterdir()):
        if crate.name not in static:
            sources = (file.read_text() for file in sorted(crate.glob("src/**/*.rt")))
            found = {name for source in sources for name in without_model(source)}
            yield from (f"{crate.name}: {name} has no model" for name in sorted(found))

"""Looks for `unsafe` code outside the library for C."""

import re

from lib.checks import check
from lib.programs import CRATES

# A reason in PROOFS.md is that callers have only what a type lends, which `unsafe` code could get round.
ALLOWED = "nj_c"


@check
def unsafe_in_one_crate():
    """No crate but nj_c has `unsafe` code."""
    for file in sorted(CRATES.glob("*/src/**/*.rt")):
        code = re.sub(r"//.*", "", file.read_text())
        if file.relative_to(CRATES).parts[0] != ALLOWED and re.search(r"\bunsafe\b", code):
            yield f"{file.relative_to(CRATES)}: unsafe code"

"""Checks the layout of definitions and proofs."""

import re

from cited import Crate, crates
from lay_out_proofs import WIDTH, laid_out, proofs
from lib.checks import check
from lib.programs import CRATES

DEFINITION = re.compile(r"(?:(?:unfoldable|abbrev|pub|data|record) )+(?!use |mod )(\S+)")


def is_comment(line):
    return line.startswith("--") and not line.startswith("-- ----")


def wordless(text):
    """The definitions of a file that no comment precedes."""
    before = ""
    for line in text.splitlines():
        found = DEFINITION.match(line)
        if found and not is_comment(before):
            yield found[1]
        before = line


@check
def proofs_are_narrow():
    """No line of a proof is too wide, where a line break can help."""
    for file in proofs():
        for number, line in enumerate(file.read_text().splitlines(), 1):
            if len(laid_out(line)) > 1:
                place = f"{file.relative_to(CRATES)}:{number}"
                yield f"{place}: over {WIDTH} columns, which scripts/lay_out_proofs.py breaks"


@check
def definitions_have_words():
    """Each definition that must be believed has a comment before it that says what it means."""
    for file in sorted(CRATES.glob("*/specs/*.antt")):
        for name in wordless(file.read_text()):
            yield f"{file.relative_to(CRATES)}: {name} has no comment"


@check
def contracts_cite_by_one_file():
    """The sources of a crate import what their contracts cite by specs/Cited.antt."""
    for folder in crates():
        for file, text in Crate(folder).written():
            if not file.exists() or text != file.read_text():
                yield f"{file.relative_to(CRATES)}: run scripts/cited.py {folder.name}"

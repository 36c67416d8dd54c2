"""Compares the version in VERSION with the places that name it.

The first section of CHANGELOG.md is that version's, and the foot of each man page has it, and the
output of `ninja-graph --version`. The C interface has a version of its own.
"""

import re

from lib.checks import check, expect
from lib.programs import ROOT

VERSION = ROOT / "VERSION"
CHANGES = ROOT / "CHANGELOG.md"
WORDS = ROOT / "crates/nj_questions/src/command_line.rt"
# The line of a man page with its name, section, date and foot.
TITLE = re.compile(r'^\.TH \S+ 1 \d{4}-\d{2}-\d{2} "([^"]*)" "User Commands"$', re.M)


def version():
    return VERSION.read_text().removesuffix("\n")


@check
def is_three_numbers():
    if not re.fullmatch(r"(0|[1-9]\d*)(\.(0|[1-9]\d*)){2}", version()):
        yield f"{VERSION.name}: {version()!r} is not three numbers"


@check
def changes_begin_with_it():
    sections = re.findall(r"^## (.*)$", CHANGES.read_text(), re.M)
    yield from expect(f"{CHANGES.name}, the first section", sections[:1], [version()])


@check
def man_pages_have_it():
    for page in sorted((ROOT / "man").glob("*.1")):
        wanted = [f"{page.stem} {version()}"]
        yield from expect(f"{page.name}, its foot", TITLE.findall(page.read_text()), wanted)


@check
def ninja_graph_writes_it():
    found = re.findall(r'^const VERSION: &str = "(.*)";$', WORDS.read_text(), re.M)
    yield from expect(f"{WORDS.name}, its version", found, [version()])

"""Compares the README.md of each library crate with the crate.

It has the subject, calls to know, the definition to read first and the crates below it.
"""

import re

from lib.checks import check, expect
from lib.programs import CRATES
from map import crates, reduced

MOST_LINES = 15
STANDS = re.compile(r"^Stands on (.*)\.$", re.M | re.S)


def pages():
    for crate in crates():
        if (CRATES / crate / "src/lib.rt").is_file():
            yield crate, CRATES / crate / "README.md"


def unknown_calls(crate, text):
    """The calls and types in the list that the crate's source does not declare."""
    source = "\n".join(file.read_text() for file in (CRATES / crate).glob("src/**/*.rt"))
    for names in re.findall(r"^- ([^:]*(?:::[^:]*)?):", text, re.M):
        for name in re.findall(r"`(?:\w+::)?(\w+)`", names):
            if not re.search(rf"\b(?:fn|struct|enum|trait) {name}\b", source):
                yield name


@check
def libraries_have_pages():
    for crate, page in pages():
        if not page.is_file():
            yield f"{crate} has no README.md"
            continue
        text = page.read_text()
        yield from expect(f"{crate}, its heading", text.splitlines()[0], f"# {crate}")
        if len(text.splitlines()) > MOST_LINES:
            yield f"{crate}: its README.md has more than {MOST_LINES} lines"
        yield from (f"{crate}: {name} is not declared" for name in unknown_calls(crate, text))
        for link in re.findall(r"\]\(([^)#]+)", text):
            if not (page.parent / link).exists():
                yield f"{crate}: there is no {link}"


@check
def pages_name_the_crates_below():
    below = reduced(crates())
    for crate, page in pages():
        stands = STANDS.search(page.read_text()) if page.is_file() else None
        found = re.findall(r"\[`(\w+)`\]", stands[1]) if stands else None
        yield from expect(f"{crate}, what it stands on", found, below[crate])

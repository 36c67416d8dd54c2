"""Checks that the generated parts of pages match the sources."""

import re

import headline
import map
import one_answer
import reference
from lib.checks import check, expect


# The scripts that write parts of a page, and not all of it.
PARTED = (map, one_answer)


def is_old(script, text):
    """Whether a page with this text differs from its script's output."""
    return text != (script.with_parts(text) if script in PARTED else script.page())


def old_references(kept):
    """The names of the pages in docs/reference/ that differ from the script's output, of those kept."""
    written = reference.pages()
    return sorted(name for name in kept.keys() | written.keys() if kept.get(name) != written.get(name))


@check
def pages_are_generated():
    """docs/ARCHITECTURE.md has the crates and layers, docs/reference/ the public calls, docs/HEADLINE.md
    the definitions, and docs/PROOFS.md what contracts leave free, that there are."""
    for script in map, headline, one_answer:
        if not script.PAGE.is_file() or is_old(script, script.PAGE.read_text()):
            yield f"{script.PAGE.name} is old: run make pages"
    for name in old_references(reference.kept()):
        yield f"docs/reference/{name} is old: run make pages"


@check
def calls_are_listed_once():
    """On each crate's page in docs/reference/ each call has one heading."""
    for name, text in reference.pages().items():
        heads = re.findall(r"^### (.*)$", text, re.M)
        repeated = sorted({head for head in heads if heads.count(head) > 1})
        yield from expect(f"{name}, calls that are listed twice", repeated, [])


@check
def calls_have_one_answer():
    """Of each public call something proves that its contract allows one answer."""
    yield from one_answer.untold()


# The plants: the script of the page, the text replaced there, and its replacement.
PLANTED = [
    (map, "`nj_text`", "`nj_texts`"),
    (map, "nj_manifest nj_names", "nj_manifest nj_edges"),
    (headline, "record IsAnswered", "record IsAnswer"),
    (one_answer, "| whether memory lacks |", "| |"),
]


@check
def planted_mistakes_are_seen():
    """A crate that is named wrongly, an arrow to another crate, a changed definition and a freedom that
    is not named; a clause that says something else, and the page of a crate that is gone."""
    for script, old, new in PLANTED:
        parted = script in PARTED
        text = script.with_parts(script.PAGE.read_text()) if parted else script.page()
        planted = text.replace(old, new, 1)
        if planted == text or not is_old(script, planted):
            yield f"`{new}` in place of `{old}` is not seen in {script.PAGE.name}"
    kept = reference.kept()
    changed = kept["nj_cli.md"].replace("RunsWords", "RunsWord", 1)
    yield from expect("the pages with another clause", old_references(kept | {"nj_cli.md": changed}), ["nj_cli.md"])
    yield from expect("the pages of crates that are gone", old_references(kept | {"gone.md": ""}), ["gone.md"])

#!/usr/bin/env python3
"""Writes docs/reference/, a page for each library: its public calls with their documentation, their
contracts, and the edits and tests that show what the contracts say. Calls that the crate for clients
re-exports are on its page alone.

    reference.py            writes the pages, and removes those of crates that are gone
    reference.py --check    ends with status 1 if a page is out of date

A call is a public function of a library, or a method of a public type. Below its contract are links to
the definitions of ours that it cites. The must-fail edits of a call are those that change its body. The
crates that make a call in a test or an example are named where no other public call has its name.
Functions below `one_answer` make a call twice, and are left out.
"""

import argparse
import re
import sys
from collections import Counter
from dataclasses import dataclass, field

from lib.composed import TESTS, test_crates
from lib.edits import edits_of
from lib.programs import CRATES, ROOT
from map import crates, first_sentence, root_of, table

FOLDER = ROOT / "docs/reference"
# The way from a page to the top.
TOP = "../.."
# The crates that make calls to show or test them, with their sources.
CALLERS = {name: TESTS / name / "src" for name in test_crates()}
CALLERS["library_example"] = CRATES / "library_example/src"
HEAD = re.compile(r'^( *)pub (?:extern "C" |unsafe |const )*fn (\w+)', re.M)
IMPL = re.compile(r"^impl\b(?:<[^{]*?>)? (?:[\w:<>, ']+ for )?(\w+)[^{]*\{", re.M)
TYPE = re.compile(r"^pub (struct|enum|trait) (\w+)", re.M)
CLAUSE = re.compile(r"^ *(requires|ensures)(?: (\w+))? \{", re.M)
# The crate that clients name, and the crates whose calls it re-exports, in the order of the page.
CLIENTS = "ninja"
REEXPORTED = ("nj_graph", "nj_needs", "nj_tools", "nj_disk", "nj_deps")
# The crate whose functions make calls of the others twice: docs/PROOFS.md lists them.
LAWS = "nj_one_answer"
# The import of definitions that a crate's contracts cite, in `specs/Cited.antt` and in `src/`.
IMPORT = re.compile(r"use Rattle\.(nj_\w+)\.specs\.([\w.]+)\.\{([^}]*)\}")


@dataclass
class Call:
    crate: str
    file: str
    line: int
    owner: str
    name: str
    documentation: list
    contract: str
    cited: list
    text: str
    edits: list = field(default_factory=list)

    @property
    def title(self):
        return f"{self.owner}::{self.name}" if self.owner else self.name


def exported(crate):
    """The names that a library exports."""
    text = root_of(crate).read_text()
    uses = re.findall(r"^pub use ([\w:]+)::(?:\{(.*?)\}|(\w+));", text, re.M | re.S)
    own = {path: f"{several} {one}" for path, several, one in uses if not path.startswith("nj_")}
    return set(filter(None, re.split(r"[,\s]+", " ".join(own.values()))))


def documentation(lines, row):
    """The lines of `///` above a line, without attributes and without links to other items."""
    found = []
    while row > 0 and re.match(r"\s*(///|#\[)", lines[row - 1]):
        row -= 1
        if lines[row].strip().startswith("///"):
            line = lines[row].strip().removeprefix("///").removeprefix(" ")
            found.append(re.sub(r"\[(`[^`]+`)\](?:\((?:crate|self|super|\w+)::[^)]*\))?", r"\1", line))
    return found[::-1]


def definitions(crate):
    """The definitions of ours that the crate's contracts cite, each with its file."""
    found = {}
    cited = CRATES / crate / "specs/Cited.antt"
    for name, module, listed in IMPORT.findall(cited.read_text() if cited.is_file() else ""):
        file = CRATES / name / f"specs/{module.replace('.', '/')}.antt"
        for item in listed.split(",") if file.is_file() else ():
            found[item.split(" as ")[-1].strip()] = str(file.relative_to(ROOT))
    return found


def cited(contract, known):
    """The definitions of ours that a contract names, in its order, each with its file."""
    words = dict.fromkeys(re.findall(r"[A-Za-z_]\w*", contract))
    return [(word, known[word]) for word in words if word in known]


def end_of(text, start, indent):
    """Where the function ends that begins here."""
    closing = re.compile(rf"^{indent}}}$|^{indent}\{{\}}$", re.M).search(text, start)
    return closing.end() if closing else len(text)


def reexported():
    """The names that the crate for clients re-exports."""
    uses = re.findall(r"^pub use nj_\w+::\{(.*?)\};", root_of(CLIENTS).read_text(), re.M | re.S)
    return set(filter(None, re.split(r"[,\s]+", " ".join(uses))))


def for_clients(found):
    """What clients name of these calls and types, which no other crate has then, and first the crate
    that re-exports them."""
    names, calls, types = reexported(), [], {}
    for crate in (*REEXPORTED, *(it for it in found if it not in REEXPORTED)):
        own_calls, own_types = found[crate]
        calls += [call for call in own_calls if (call.owner or call.name) in names]
        types |= {name: text for name, text in own_types.items() if name in names}
        found[crate] = (
            [call for call in own_calls if (call.owner or call.name) not in names],
            {name: text for name, text in own_types.items() if name not in names},
        )
    return {CLIENTS: (calls, types)} | {it: had for it, had in found.items() if it != CLIENTS}


def calls_in(crate, file, public, known=None):
    text = file.read_text()
    known = known or {}
    impls = list(IMPL.finditer(text))
    for found in HEAD.finditer(text):
        indent, name = found.groups()
        owner = [impl[1] for impl in impls if impl.start() < found.start()][-1] if indent else ""
        if (owner or name) not in public:
            continue
        whole = text[found.start() : end_of(text, found.start(), indent)]
        body = re.search(rf"^{indent}\{{|\{{$", whole, re.M)
        before = whole[: body.start()] if body else whole
        first = CLAUSE.search(before)
        row = text.count("\n", 0, found.start())
        yield Call(
            crate,
            str(file.relative_to(CRATES / crate)),
            row + 1,
            owner,
            name,
            documentation(text.splitlines(), row),
            re.sub(rf"^{indent}", "", before, flags=re.M).strip(),
            cited(before[first.start() :], known) if first else [],
            whole,
        )


def types_in(file, public):
    """The public types of a file, each with its documentation."""
    text = file.read_text()
    lines = text.splitlines()
    for found in TYPE.finditer(text):
        if found[2] in public:
            yield found[2], documentation(lines, text.count("\n", 0, found.start()))


def add_edits(crate, calls):
    """Notes for each must-fail edit of the crate which calls it changes."""
    for edit in edits_of(ROOT, crate):
        changes = re.findall(r"^file:\s*(\S+)\n(?:old:\s*(.*)\n)", edit.read_text(), re.M)
        for file, old in changes:
            for call in calls:
                if call.file == file and old.strip() in call.text and edit.stem not in call.edits:
                    call.edits.append(edit.stem)


def callers():
    """The text of each crate that makes calls to show or test them."""
    files = {name: sorted(source.glob("**/*.r[ts]")) for name, source in CALLERS.items()}
    return {name: "\n".join(it.read_text() for it in of) for name, of in files.items()}


def quoted(names):
    return ", ".join(f"`{name}`" for name in names)


def link(text, path):
    return f"[`{text}`]({TOP}/{path})"


def section(call, makers):
    place = f"{call.file}:{call.line}"
    yield from [f"### `{call.title}`", ""]
    if call.documentation:
        yield from ["\n".join(call.documentation).replace("\n# Errors", "\nErrors:"), ""]
    yield from ["```", call.contract, "```", ""]
    facts = [f"{link(place, f'crates/{call.crate}/{call.file}#L{call.line}')}."]
    if call.cited:
        facts.append(f"Definitions: {', '.join(link(name, file) for name, file in call.cited)}.")
    if call.edits:
        facts.append(f"Must fail: {quoted(call.edits)}.")
    if makers:
        facts.append(f"Called by {quoted(makers)}.")
    yield from [" ".join(facts), ""]


def library(crate, calls, types, texts, counts):
    about = f" Its [README]({TOP}/crates/{crate}/README.md) names the definition to read first."
    about = " [LIBRARY.md](../LIBRARY.md) shows how its calls are used." if crate == CLIENTS else about
    has_page = (CRATES / crate / "README.md").is_file()
    yield from [f"# `{crate}`", "", f"{first_sentence(root_of(crate), '//!')}.{about * has_page}", ""]
    for owner in dict.fromkeys(["", *types, *(call.owner for call in calls)]):
        mine = [call for call in calls if call.owner == owner]
        if owner and (mine or types.get(owner)):
            yield from [f"## `{owner}`", "", "\n".join(types.get(owner, [])), ""]
        elif mine:
            yield from ["## Functions", ""]
        for call in mine:
            used = re.compile(rf"\b{call.name}\(")
            makers = [it for it, text in texts.items() if counts[call.name] == 1 and used.search(text)]
            yield from section(call, makers)


def described():
    """The calls and the types of each library, for clients first."""
    found = {}
    for crate in crates():
        if root_of(crate).name == "lib.rt" and crate not in CALLERS and crate != LAWS:
            public, known = exported(crate), definitions(crate)
            files = sorted((CRATES / crate).glob("src/**/*.rt"))
            files = [file for file in files if file.parent.name != "one_answer"]
            calls = [call for file in files for call in calls_in(crate, file, public, known)]
            types = dict(it for file in files for it in types_in(file, public))
            add_edits(crate, calls)
            found[crate] = calls, types
    return for_clients(found)


def index(found):
    rows = [[f"[`{crate}`]({crate}.md)", len(calls), first_sentence(root_of(crate), "//!")]
            for crate, (calls, _) in found.items()]
    return [
        "# Reference",
        "",
        "The public calls of the libraries, as `scripts/reference.py` reads them from the sources: do not",
        "edit these pages. A program names the crate `ninja`, whose page has the calls that it re-exports;",
        "the others follow from the top down. The contract of each call stands below its signature, and",
        "[ARCHITECTURE.md](../ARCHITECTURE.md#how-to-read-a-contract) shows how to read it. *Definitions*",
        "links to the files in `specs/` that define its words. *Must fail* names the wrong bodies that the",
        "gate tries, each of which the proof refuses.",
        "",
        *table(["Crate", "Calls ", "Subject"], rows),
    ]


def pages():
    """The text of each page, by its name."""
    found = described()
    counts = Counter(call.name for calls, _ in found.values() for call in calls)
    texts = callers()
    rows = {crate: library(crate, *of, texts, counts) for crate, of in found.items()}
    rows = {"README": index(found)} | rows
    return {
        f"{name}.md": re.sub(r"\n{3,}", "\n\n", "\n".join(it)).rstrip() + "\n"
        for name, it in rows.items()
    }


def kept():
    """The text of each page in the repository."""
    return {file.name: file.read_text() for file in sorted(FOLDER.glob("*.md"))}


def main():
    parser = argparse.ArgumentParser(description=__doc__.split("\n")[0])
    parser.add_argument("--check", action="store_true")
    if parser.parse_args().check:
        sys.exit(pages() != kept())
    FOLDER.mkdir(exist_ok=True)
    written = pages()
    for name in kept().keys() - written.keys():
        (FOLDER / name).unlink()
    for name, text in written.items():
        (FOLDER / name).write_text(text)


if __name__ == "__main__":
    main()

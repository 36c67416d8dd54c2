#!/usr/bin/env python3
"""Writes the generated parts of docs/ARCHITECTURE.md: which crates there are, and on what each stands.
What changes with each commit is printed and not kept: how long each crate is, and the subject of each
of its files, those of the crates in tests/ included.

    map.py            writes the parts, between the marks that name them
    map.py --check    ends with status 1 if they are out of date
    map.py --print    prints the crates with their counts of lines, and their files

The subject of a crate or a file is the first sentence of its comment: of `//!` in `src/`, and of the
comment at the top of a definition file. So a crate that is added, renamed or removed is in the page
once this has run.
"""

import argparse
import re
import sys
from pathlib import Path

from lib.composed import TESTS, test_crates
from lib.edits import edits_of
from lib.programs import CRATES, ROOT

PAGE = ROOT / "docs/ARCHITECTURE.md"
NAMING = {"Lib.antt", "Inside.antt"}


def crates():
    """The crates of crates.txt from the top down, each with those on which it stands."""
    rows = {}
    for line in (ROOT / "crates.txt").read_text().splitlines():
        head, _, uses = line.partition(":")
        rows[head.split()[0]] = uses.split()
    return dict(reversed(rows.items()))


def first_sentence(file, sign):
    """The first sentence of the comment at the top of a file."""
    paragraph = []
    for line in file.read_text().splitlines():
        if not line.startswith(sign) or not line.removeprefix(sign).strip():
            break
        paragraph.append(line.removeprefix(sign).strip())
    text = " ".join(paragraph).replace("[`", "`").replace("`]", "`").replace("|", "\\|")
    sentence = re.match(r".*?[.:](?= [A-Z]|$)", text)
    return (sentence[0] if sentence else text).rstrip(".:")


def root_of(crate):
    library = CRATES / crate / "src/lib.rt"
    return library if library.is_file() else CRATES / crate / "src/main.rt"


def code_of(crate):
    """The text of its modules without the parts that are only there for contracts."""
    text = "\n".join(file.read_text() for file in sorted((CRATES / crate).glob("src/**/*.rt")))
    return re.sub(r"ghost use [^;]*;|//.*", "", text)


def used_in_code(crate, uses):
    code = code_of(crate)
    return [name for name in uses if re.search(rf"\b{name}::|\buse {name}\b", code)]


def lines(crate, *patterns):
    files = {file for pattern in patterns for file in (CRATES / crate).glob(pattern)}
    return sum(len(file.read_text().splitlines()) for file in files if file.name not in NAMING)


def names(found):
    return ", ".join(f"`{name}`" for name in found)


def table(head, rows):
    rules = ["--:" if name.endswith(" ") else "---" for name in head]
    return [f"| {' | '.join(map(str, row))} |" for row in [[n.strip() for n in head], rules, *rows]]


def crate_row(crate, uses):
    code = used_in_code(crate, uses)
    edits = len(edits_of(ROOT, crate))
    counts = [
        lines(crate, "src/**/*.rt"),
        lines(crate, "specs/*.antt"),
        lines(crate, "specs/Inside/**/*.antt"),
        lines(crate, "proofs/**/*.antt"),
        edits,
    ]
    others = [name for name in uses if name not in code]
    return [f"`{crate}`", names(code), names(others), *(f"{it:,}" if it else "" for it in counts)]


def sum_of(cells):
    return f"{sum(int(cell.replace(',', '') or 0) for cell in cells):,}"


def of_crates():
    rows = [[f"`{crate}`", first_sentence(root_of(crate), "//!")] for crate in crates()]
    return table(["Crate", "Subject"], rows)


def counts():
    """The crates with their lines of `src`, of the definitions to believe (`specs`), of the plumbing
    (`Inside`) and of the hand-written parts of the proofs, and with their must-fail edits."""
    rows = [crate_row(crate, uses) for crate, uses in crates().items()]
    sums = [sum_of(row[at] for row in rows) for at in range(3, 8)]
    head = ["Crate", "Its code uses", "Only its proofs use"]
    head += ["`src` ", "`specs` ", "`Inside` ", "`proofs` ", "Edits "]
    return table(head, [*rows, ["all", "", "", *sums]])


def reduced(uses):
    """For each crate those of ours on which it stands, without those that follow from others."""
    ours = {crate: [name for name in below if name in uses] for crate, below in uses.items()}
    reach = {}
    for crate in reversed(ours):
        reach[crate] = set(ours[crate]).union(*(reach[name] for name in ours[crate]))
    return {
        crate: [name for name in below if not any(name in reach[it] for it in below)]
        for crate, below in ours.items()
    }


def of_layers():
    """The crates by how many stand below one another under them, and on which each stands."""
    below, level = reduced(crates()), {}
    for crate in reversed(below):
        level[crate] = 1 + max((level[name] for name in below[crate]), default=0)
    width = max(map(len, below))
    ordered = sorted(below, key=lambda crate: -level[crate])
    rows = [f"{level[it]:2}  {it:{width}}  {' '.join(below[it])}".rstrip() for it in ordered]
    return ["```", *rows, "```"]


def spec_rows(crate):
    """Its definition files: those to believe, and then the plumbing in italics."""
    specs = CRATES / crate / "specs"
    for folder, mark in (specs, ""), (specs / "Inside", "*"):
        for file in sorted(folder.glob("*.antt")):
            if file.name not in NAMING:
                name = file.relative_to(specs).with_suffix("").as_posix()
                yield [f"`{name}`", f"{mark}{first_sentence(file, '--')}{mark}"]


def module_rows(crate):
    source = CRATES / crate / "src"
    for file in sorted(source.glob("**/*.rt")):
        if file != root_of(crate):
            yield [f"`{file.relative_to(source).as_posix()}`", first_sentence(file, "//!")]


def files():
    """The files of each crate with their subjects: definitions, plumbing in italics, and modules."""
    rows = []
    for crate in crates():
        rows += [[f"**`{crate}`**", ""], *spec_rows(crate), *module_rows(crate)]
    return table(["File", "Subject"], rows)


def of_tests():
    """The files of the crates in tests/ with their subjects."""
    rows = []
    for crate in reversed(test_crates()):
        files = {file.stem: file for file in sorted((TESTS / crate / "src").glob("*.rs"))}
        root = files.pop("lib", None) or files.pop("main")
        rows.append([f"**`{crate}`**", first_sentence(root, "//!")])
        rows += [[f"`{file.name}`", first_sentence(file, "//!")] for file in files.values()]
    return table(["File", "Subject"], rows)


PARTS = {"crates": of_crates, "layers": of_layers}


def with_parts(page):
    """The page with its generated parts as they should be."""
    for name, part in PARTS.items():
        marks = re.compile(rf"(<!-- map: {name} -->\n).*?(<!-- end -->)", re.S)
        page, count = marks.subn(lambda found: f"{found[1]}{chr(10).join(part())}\n{found[2]}", page)
        if count != 1:
            raise SystemExit(f"{PAGE.name} has {count} parts `{name}`")
    return page


def main():
    parser = argparse.ArgumentParser(description=__doc__.split("\n")[0])
    parser.add_argument("--check", action="store_true")
    parser.add_argument("--print", action="store_true")
    words = parser.parse_args()
    if words.print:
        print("\n".join([*counts(), "", *files(), "", *of_tests()]))
        return
    old = PAGE.read_text()
    new = with_parts(old)
    if words.check:
        sys.exit(old != new)
    PAGE.write_text(new)


if __name__ == "__main__":
    main()

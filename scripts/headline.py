#!/usr/bin/env python3
"""Writes docs/HEADLINE.md: the definition of each word of the theorem on `commands`.

    headline.py            writes the page
    headline.py --check    ends with status 1 if the page is out of date

The definitions are shown as they stand in the specs, each with the comment above it.
"""

import argparse
import re
import sys

from lib.programs import CRATES, ROOT

PAGE = ROOT / "docs/HEADLINE.md"
# The phrases of the headline, each with the definitions that give its meaning.
PHRASES = {
    "For every accepted set of files": [
        "nj_cli/Runs IsAnswered",
        "nj_cli/Runs AreStatements",
        "nj_graph/Loads IsWhole",
        "nj_cli/Targets NoEdgeNeedsItself",
    ],
    "and every list of targets,": ["nj_cli/Targets targets_of"],
    "`commands` writes the commands of": [
        "nj_cli/Runs RunEnds",
        "nj_cli/Headline WritesTheNeeded",
        "nj_cli/Answers output_of",
        "nj_cli/Answers asked_targets",
        "nj_cli/Answers output_for",
        "nj_tools/CommandStrings command_lines",
        "nj_cli/Answers EndsWith",
        "nj_cli/Answers EndsFor",
        "nj_cli/Answers PageEnds",
    ],
    "exactly the edges that are not phony and that the targets need through any chain of inputs,"
    " each exactly once, after all edges that make its inputs,": [
        "nj_cli/Headline AreNeeded",
        "nj_needs/Needs Reached",
        "nj_cycles/Cycles NeedsByChain",
        "nj_needs/Laws ComesBefore",
        "nj_edges/Needs makers_of_inputs",
    ],
    "in the order of first completion from left to right;": [
        "nj_needs/Order needed_commands",
        "nj_needs/Order order",
        "nj_needs/Order unfolded",
    ],
    "stopped after any number of commands and resumed from its mark, it writes exactly the rest.": [
        "nj_cli/Headline PageStringsJoin",
        "nj_cli/Headline ArePageStrings",
        "nj_cli/Headline IsRun",
        "nj_cli/Headline StoppedRunsContinue",
        "nj_cli/Headline OneEnding",
    ],
}


def definition(place):
    """Where a definition is, and its lines with the comment above it."""
    path, name = place.split()
    crate, module = path.split("/")
    file = CRATES / crate / f"specs/{module}.antt"
    lines = file.read_text().splitlines()
    head = re.compile(rf"(?:(?:abbrev|unfoldable|pub|record|data) )*{name} (?::|\()|.* {name} :")
    start = next(row for row, line in enumerate(lines) if re.match(r"\w", line) and head.match(line))
    end = next((row for row in range(start, len(lines)) if not lines[row].strip()), len(lines))
    first = start
    while first and lines[first - 1].startswith("--") and not lines[first - 1].startswith("-- ----"):
        first -= 1
    return f"crates/{crate}/specs/{module}.antt", lines[first:end]


def page():
    rows = [
        "# What the headline says",
        "",
        "The definitions that give the phrases of the headline their meaning, as `scripts/headline.py`",
        "copies them from the specs: do not edit this page. `commands_law` of `nj_cli` is the theorem, on",
        "the output and the ending of a run; the contract of `run_words` says that a run has these.",
        "`python3 scripts/believed.py commands_law` lists all definitions on which both rest, with",
        "those that these name in turn.",
        "",
    ]
    for phrase, places in PHRASES.items():
        rows += [f"**{phrase}**", ""]
        for place in places:
            file, lines = definition(place)
            rows += [f"`{place.split()[1]}`, [{file}](../{file}):", "", "```", *lines, "```", ""]
    return "\n".join(rows).rstrip() + "\n"


def main():
    parser = argparse.ArgumentParser(description=__doc__.split("\n")[0])
    parser.add_argument("--check", action="store_true")
    if parser.parse_args().check:
        sys.exit(not PAGE.is_file() or page() != PAGE.read_text())
    PAGE.write_text(page())


if __name__ == "__main__":
    main()

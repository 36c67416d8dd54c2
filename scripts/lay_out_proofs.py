#!/usr/bin/env python3
"""Breaks the lines of proofs that are too wide: lay_out_proofs.py [FILE..]

Without a FILE it takes all proofs. A line is broken where the fewest brackets are open, and continues
four columns further in. Only spaces become line breaks, so the words of a file stay the same. A long
`use` line becomes several.
"""

import re
import sys
from pathlib import Path

from lib.programs import ROOT

# How wide a line may be.
WIDTH = 110
# How well a line is broken before a word, or after a word; any other place is worse.
BEFORE = {"→": 0, "in": 0, "∙": 1, "×": 1, "⊎": 1, "↔": 1, "|": 1, "&&": 2, "||": 2, "≡": 2, "++": 3}
AFTER = {";": 0, "=": 0, "↦": 0, ",": 1}
WORST = 4
# The words that begin a line which continues another, and those after which no line is broken.
SIGNS = ("→", "∙", "×", "⊎", "↔", "≡", "++")
APART = {"", "λ", "|", "let", "in", "&&", "||", *SIGNS}


def indent_of(line):
    return len(line) - len(line.lstrip(" "))


def places(line):
    """The spaces at which a line may be broken: how many brackets are open there, and how badly it
    is broken there, and where."""
    start, depth, in_text = indent_of(line), 0, False
    for at, char in enumerate(line):
        if char == '"' and line[at - 1] != "\\":
            in_text = not in_text
        elif not in_text and char in "([{":
            depth += 1
        elif not in_text and char in ")]}":
            depth -= 1
        elif char == " " and not in_text and at > start:
            before, after = line[start:at].split(" ")[-1], line[at + 1 :].split(" ")[0]
            if before in APART or after in ("", "=", ":", "↦"):
                continue
            ending = min(AFTER.get(before, WORST), AFTER.get(before[-1], WORST))
            yield depth, min(BEFORE.get(after, WORST), ending), at


def broken(line):
    """The lines of one that is too wide."""
    indent = indent_of(line)
    if not line.lstrip().startswith(SIGNS):
        indent += 4
    lines = []
    while len(line) > WIDTH:
        found = list(places(line))
        within = [it for it in found if it[2] <= WIDTH]
        least = indent_of(line) + 0.35 * (WIDTH - indent_of(line))
        found = [it for it in within if it[2] >= least] or within[-1:] or found[:1]
        if not found:
            break
        _, _, at = min(found, key=lambda it: (it[0], it[1], -it[2]))
        lines.append(line[:at])
        line = " " * indent + line[at + 1 :]
    return [*lines, line]


def filled(head, words, tail="", between=" "):
    """Words in as many lines as they need, each with this head and tail."""
    lines = []
    for word in words:
        longer = f"{lines[-1]}{between}{word}" if lines else ""
        if lines and len(head + longer + tail) <= WIDTH:
            lines[-1] = longer
        else:
            lines.append(word)
    return [head + line + tail for line in lines]


def laid_out(line):
    """The lines of a line."""
    if len(line) <= WIDTH:
        return [line]
    if found := re.match(r"( *-- )(.*)", line):
        return filled(found[1], found[2].split())
    if found := re.fullmatch(r"( *(?:unfoldable )?(?:pub )?use .*\.\{)(.*)(\})", line):
        return filled(found[1], found[2].split(", "), found[3], ", ")
    return broken(line)


def proofs():
    return sorted(ROOT.glob("crates/*/proofs/**/*.antt"))


def main():
    for file in [Path(word) for word in sys.argv[1:]] or proofs():
        text = file.read_text()
        new = "\n".join(it for line in text.split("\n") for it in laid_out(line))
        if new != text:
            file.write_text(new)


if __name__ == "__main__":
    main()

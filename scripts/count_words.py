#!/usr/bin/env python3
"""Counts the phrases of lib/phrases.py, for which there are better words, by kind of file:

    count_words.py [--at COMMIT] [--before COMMIT] [--show PHRASE]

Without options it counts in the files of the working directory, with --at in those of a commit, and
with --before in both, one beside the other. --show prints each place of the phrases that contain a
text. The generated pages are left out, since the comments from which they come are counted.
"""

import argparse
import io
import re
import subprocess
import sys
import tarfile
from collections import Counter

from lib.phrases import IN_PAGES, NEVER, SELDOM, finds, prose
from lib.programs import ROOT

# The kinds of files, each with the paths of its files; the first that fits counts.
KINDS = {
    "generated": r"docs/(reference/.*|HEADLINE)\.md",
    "pages": r".*\.md|man/.*",
    "source": r"crates/.*/src/.*\.rt",
    "definitions": r"crates/.*/specs/.*\.antt",
    "proofs": r"crates/.*/proofs/.*\.antt",
    "scripts": r"(scripts|bench|python|examples)/.*\.(py|sh|c|h)|Makefile|include/.*\.h",
}
COUNTED = list(KINDS)[1:]
PHRASES = NEVER | IN_PAGES | SELDOM


def kind_of(name):
    return next((kind for kind, paths in KINDS.items() if re.fullmatch(paths, name)), None)


def files_now():
    listed = subprocess.run(
        ["git", "ls-files", "-z", "--cached", "--others", "--exclude-standard"],
        cwd=ROOT, capture_output=True, text=True, check=True,
    ).stdout
    for name in filter(None, listed.split("\0")):
        if kind_of(name) and (ROOT / name).is_file():
            yield name, (ROOT / name).read_text(errors="replace")


def files_at(commit):
    packed = subprocess.run(["git", "archive", commit], cwd=ROOT, capture_output=True, check=True)
    with tarfile.open(fileobj=io.BytesIO(packed.stdout)) as archive:
        for item in archive:
            if item.isfile() and kind_of(item.name):
                yield item.name, archive.extractfile(item).read().decode(errors="replace")


def counted(files):
    """How often each phrase is in each kind of file."""
    counts = Counter()
    for name, text in files:
        for _, _, phrase in finds(PHRASES, prose(name, text)):
            counts[phrase, kind_of(name)] += 1
    return counts


def print_table(*columns):
    def row(cells, label):
        print("  ".join(f"{cell:>11}" for cell in cells) + f"  {label}")

    def cell(key):
        return " -> ".join(str(counts[key]) for counts in columns)

    row(COUNTED, "phrase")
    for phrase in PHRASES:
        row([cell((phrase, kind)) for kind in COUNTED], phrase[:60])


def main():
    parser = argparse.ArgumentParser(description=__doc__.split("\n")[0])
    parser.add_argument("--at", metavar="COMMIT", help="count in the files of a commit")
    parser.add_argument("--before", metavar="COMMIT", help="count in those of another commit too")
    parser.add_argument("--show", metavar="PHRASE", help="print each place of phrases with this text")
    words = parser.parse_args()
    files = list(files_at(words.at) if words.at else files_now())
    if words.show is None:
        print_table(*([counted(files_at(words.before))] if words.before else []), counted(files))
        return 0
    phrases = [phrase for phrase in PHRASES if words.show in phrase]
    for name, text in files:
        if kind_of(name) in COUNTED:
            for line, found, _ in finds(phrases, prose(name, text)):
                print(f"{name}:{line}: {found}")
    return 0


if __name__ == "__main__":
    sys.exit(main())

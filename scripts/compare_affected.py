#!/usr/bin/env python3
"""Compares the targets that a change affects with those that follow from Ninja's `query`:

    compare_affected.py [--edges N] [--changes N] [--seed N] -- PROGRAM [WORD..]

PROGRAM, with its arguments, reads changed paths from standard input. It has to print all targets of
build.ninja in its working directory that they affect, one per line. It runs on manifests like the ones
of CMake and LLVM with N edges, and on each for N changes, which are random files. The outputs that
Ninja's `query` lists for a file belong to the edges that have it as an input. So the affected
targets are those outputs, what `query` lists for them, and so on. Each difference is printed. The last
line has the counts.
"""

import argparse
import pathlib
import random
import subprocess
import sys
import tempfile

sys.path.insert(0, str(pathlib.Path(__file__).resolve().parent.parent / "bench"))

from manifest import SHAPES, write_manifest  # noqa: E402
from projects import write_project  # noqa: E402

PER_QUERY = 2000


def lines_of(words, folder, given=b""):
    """The lines that a run prints."""
    run = subprocess.run(words, cwd=folder, input=given, stdout=subprocess.PIPE, check=True)
    return run.stdout.decode().splitlines()


def users(folder):
    """The outputs of the edges that have a file as an input, for each file."""
    outputs = lines_of(["ninja", "-t", "targets", "all"], folder)
    targets = [line.rsplit(":", 1)[0] for line in outputs]
    files = sorted(set(targets + lines_of(["ninja", "-t", "targets", "rule"], folder)))
    found = {}
    for start in range(0, len(files), PER_QUERY):
        under = None
        for line in lines_of(["ninja", "-t", "query"] + files[start : start + PER_QUERY], folder):
            if not line.startswith(" "):
                found[line[:-1]] = under = []
                is_output = False
            elif not line.startswith("   "):
                is_output = line == "  outputs:"
            elif is_output:
                under.append(line[4:])
    return found


def reached(outputs, files):
    """The targets that a change of these files affects."""
    seen, left = set(), list(files)
    while left:
        new = set(outputs[left.pop()]) - seen
        seen |= new
        left += new
    return seen


def compare(shape, folder, words):
    """Tries the changes on one manifest. Returns how many differ."""
    outputs = users(folder)
    chance = random.Random(f"{shape} {words.seed}")
    files = sorted(outputs)
    affected = differences = 0
    for number in range(words.changes):
        changed = chance.sample(files, chance.randint(1, 3))
        wanted = reached(outputs, changed)
        given = "".join(path + "\n" for path in changed).encode()
        found = lines_of(words.program, folder, given)
        affected += len(wanted)
        if sorted(found) != sorted(wanted):
            differences += 1
            more, fewer = sorted(set(found) - wanted), sorted(wanted - set(found))
            print(f"{shape}, change {number}: {changed}\n  more: {more}\n  fewer: {fewer}")
    print(f"{shape}: {words.changes} changes affect {affected} targets; {differences} differences")
    return differences


def main():
    parser = argparse.ArgumentParser(description=__doc__.split("\n", maxsplit=1)[0])
    parser.add_argument("--edges", type=int, default=3000, help="how many edges a manifest has")
    parser.add_argument("--changes", type=int, default=100, help="how many changes of each")
    parser.add_argument("--seed", type=int, default=0, help="the seed of the changes")
    parser.add_argument("program", nargs="+", help="the program, with its words")
    words = parser.parse_args()
    words.program[0] = str(pathlib.Path(words.program[0]).resolve())
    found = 0
    for shape in ["llvm", *SHAPES]:
        with tempfile.TemporaryDirectory(prefix=f"compare-affected-{shape}-") as folder:
            if shape == "llvm":
                write_project(shape, folder, words.edges)
            else:
                with open(pathlib.Path(folder) / "build.ninja", "w", encoding="utf-8") as file:
                    write_manifest(words.edges, file, shape)
            found += compare(shape, folder, words)
    raise SystemExit(1 if found else 0)


if __name__ == "__main__":
    main()

#!/usr/bin/env python3
"""Compares each subcommand of ninja-graph with `ninja-explain -t rules`:

    questions.py GRAPH EXPLAIN [--edges N] [--shapes cmake,dense] [--rounds N]

GRAPH is ninja-graph and EXPLAIN ninja-explain. They read the same manifest, of N edges or 100,000 in
the shapes of manifest.py, and run in turn, five times or N times; median CPU times count, and the
greatest memory. All write to a file. The aims are twice the CPU time of `rules`, and three times for
`keys`, which hashes. No source is on the disk, so `audit` looks for each and reports it.
"""

import argparse
import os
import subprocess
import tempfile

from manifest import dense_object, object_file, source
from reports import load_shown, print_missed
from runs import MB, Run, middle
from tools import make

ROUNDS, EDGES = 5, 100_000
AIM = 2
OTHER_AIMS = {"keys": 3.5, "keys --json": 3.5, "affected --since": 6}
KEYS = "old.keys"
DONE, LOOK = 0, 3


def files_of(shape, count):
    """An object in the middle of a manifest, and its source."""
    target = count // 40
    if shape == "dense":
        return dense_object(target, 2), f"src/base_{target:05}/source/unit_02.cc"
    return object_file(target, 2), source(target, 2)


def questions(shape, count):
    """The words of each subcommand, its status, and its standard input."""
    made, changed = files_of(shape, count)
    return {
        "affected": (["affected"], DONE, f"{changed}\n"),
        "affected --since": (["affected", "--since", KEYS], DONE, f"{changed}\n"),
        "why": (["why", made, changed], DONE, ""),
        "draw": (["draw", "--limit", "40"], DONE, ""),
        "json": (["json"], DONE, ""),
        "keys": (["keys"], DONE, ""),
        "keys --json": (["keys", "--json"], DONE, ""),
        "audit, every kind": (["audit", "--all"], LOOK, ""),
        "audit": (["audit"], None, ""),
    }


def runs_in_turn(programs, rounds, folder):
    """The runs of each program, in turn."""
    runs = {name: [] for name in programs}
    for _ in range(rounds):
        for name, (words, status, text) in programs.items():
            given = os.path.join(folder, "input")
            with open(given, "w") as file:
                file.write(text)
            runs[name].append(Run(words, folder, status, os.path.join(folder, "out"), given))
    return runs


def compare(words, shape):
    """Prints a row of each subcommand. Returns the aims that were missed."""
    missed = []
    with tempfile.TemporaryDirectory() as room:
        folder = make(room, shape, words.edges)
        with open(os.path.join(folder, KEYS), "w") as file:
            subprocess.run([words.graph, "keys", "--all"], cwd=folder, stdout=file, check=True)
        programs = {"rules": ([words.explain, "-t", "rules"], DONE, "")}
        for name, (arguments, status, text) in questions(shape, words.edges).items():
            programs[name] = [words.graph, *arguments], status, text
        figures = {name: middle(runs) for name, runs in runs_in_turn(programs, words.rounds, folder).items()}
    _, rules, memory_of_rules = figures["rules"]
    print(f"{shape}: rules take {rules:.3f} s and {memory_of_rules / MB:.0f} MB")
    for name, (_, seconds, memory) in figures.items():
        ratio, aim = seconds / rules, OTHER_AIMS.get(name, AIM)
        print(f"  {name:<32} {ratio:5.2f} of its time ({seconds:.3f} s) {memory / memory_of_rules:5.2f} of its memory")
        if ratio > aim:
            missed.append(f"{shape}, {name}: {ratio:.2f} of the time of rules, aim {aim}")
    return missed


def main():
    parser = argparse.ArgumentParser(description=__doc__.splitlines()[0])
    parser.add_argument("graph", type=os.path.abspath)
    parser.add_argument("explain", type=os.path.abspath)
    parser.add_argument("--edges", type=int, default=EDGES)
    parser.add_argument("--shapes", default="cmake,dense")
    parser.add_argument("--rounds", type=int, default=ROUNDS)
    words = parser.parse_args()
    with load_shown():
        print_missed([line for shape in words.shapes.split(",") for line in compare(words, shape)])


if __name__ == "__main__":
    main()

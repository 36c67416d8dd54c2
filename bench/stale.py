#!/usr/bin/env python3
"""Compares `ninja-graph stale` with `ninja -n`, on trees that are up to date:

    stale.py GRAPH EXPLAIN [--objects N] [--lines N] [--rounds N]

GRAPH is ninja-graph and EXPLAIN ninja-explain. The tree has 100,000 objects or N, each with ten
headers in the deps log, and Ninja built it. Both programs have to find it up to date, first with the
build log that Ninja wrote, and then with a log of 1,000,000 lines or N in which its lines are
repeated; a pass that counts the lines of that log is measured beside them. The aim is half of the
time of `ninja -n`. Memory is beside Ninja's too.

Then come shapes of N/10 and of N edges: a chain of phony edges, an edge with all others as inputs,
and a log whose lines all have one output. Their aim is that the time grows by no more than the
number of edges.

The runs are in turn, five times or N times. Median CPU times count, and the greatest memory.
"""

import argparse
import os
import tempfile
from pathlib import Path

from logged_trees import Tree, write_built
from reports import load_shown, missed_growth, print_missed
from runs import MB, measure, middle

OBJECTS, LINES, ROUNDS, EACH, AIM = 100_000, 1_000_000, 5, 10, 0.5
BUILD_LOG = ".ninja_log"
STALE = 3


def touched(folder, names):
    for name in names:
        Path(folder, name).touch()


def longer(folder, count):
    """Repeats the lines of the build log until it has as many as are given."""
    log = Path(folder, BUILD_LOG)
    opening, *lines = log.read_text().splitlines(keepends=True)
    with log.open("w") as file:
        file.write(opening)
        for place in range(max(count, len(lines))):
            file.write(lines[place % len(lines)])


def print_figures(title, figures):
    print(title)
    _, base, base_memory = figures["ninja -n"]
    for name, (_, seconds, memory) in figures.items():
        beside = f"{seconds / base:5.2f} of Ninja's time, {memory / base_memory:5.2f} of its memory"
        print(f"  {name:<12} CPU {seconds:7.3f} s {memory / MB:6.0f} MB  {beside}")


def on_tree(words, folder):
    """Measures the programs on a tree. Returns the aims that were missed."""
    tree = Tree(objects=words.objects, headers=max(words.objects // 10, EACH), each=EACH)
    write_built(folder, tree)
    missed = []
    for title, more in ("the log of Ninja", {}), (
        f"a log of {words.lines} lines",
        {"wc -l": ["wc", "-l", BUILD_LOG]},
    ):
        if more:
            longer(folder, words.lines)
        programs = {
            "ninja -n": ["ninja", "-n"],
            "stale": [words.graph, "stale"],
            "rules": [words.explain, "-t", "rules"],
            **more,
        }
        figures = {it: middle(runs) for it, runs in measure(programs, words.rounds, folder).items()}
        print_figures(title, figures)
        ratio = figures["stale"][1] / figures["ninja -n"][1]
        if ratio > AIM:
            missed.append(f"{title}: {ratio:.2f} of the time of ninja -n, aim {AIM}")
    return missed


def chain(folder, count):
    """A chain of phony edges, which leads to an edge that is stale."""
    lines = (f"build p{number}: phony p{number - 1}\n" for number in range(1, count))
    text = "rule r\n  command = r\nbuild p0: r\n" + "".join(lines) + f"default p{count - 1}\n"
    Path(folder, "build.ninja").write_text(text)


def wide(folder, count):
    """An edge with all others as inputs, of which none is built."""
    lines = (f"build o{number}: r\n" for number in range(1, count))
    names = " ".join(f"o{number}" for number in range(1, count))
    text = "rule r\n  command = r\n" + "".join(lines) + f"build all: r {names}\ndefault all\n"
    Path(folder, "build.ninja").write_text(text)


def one_output(folder, count):
    """A log in which every line has the same output."""
    Path(folder, "build.ninja").write_text("rule r\n  command = r\nbuild o: r i\n")
    touched(folder, ["i", "o"])
    line = "0\t1\t1\to\t0123456789abcdef\n"
    Path(folder, BUILD_LOG).write_text("# ninja log v5\n" + line * count)


def growth(words, shape, room):
    """Measures a shape in two sizes. Returns the aim if it was missed."""
    few, many, times = words.objects // 10, words.objects, []
    for count in few, many:
        folder = os.path.join(room, f"{shape.__name__}-{count}")
        os.mkdir(folder)
        shape(folder, count)
        programs = {"stale": [words.graph, "stale"]}
        _, seconds, memory = middle(measure(programs, words.rounds, folder, STALE)["stale"])
        print(f"  {shape.__name__:<12} {count:>8}: CPU {seconds:7.3f} s {memory / MB:6.0f} MB")
        times.append(seconds)
    return missed_growth(shape.__name__, times[1] / times[0], few, many)


def main():
    parser = argparse.ArgumentParser(description=__doc__.splitlines()[0])
    parser.add_argument("graph", type=os.path.abspath)
    parser.add_argument("explain", type=os.path.abspath)
    parser.add_argument("--objects", type=int, default=OBJECTS)
    parser.add_argument("--lines", type=int, default=LINES)
    parser.add_argument("--rounds", type=int, default=ROUNDS)
    words = parser.parse_args()
    with load_shown(), tempfile.TemporaryDirectory() as room:
        tree = os.path.join(room, "tree")
        os.mkdir(tree)
        missed = on_tree(words, tree)
        for shape in chain, wide, one_output:
            missed += growth(words, shape, room)
    print_missed(missed)


if __name__ == "__main__":
    main()

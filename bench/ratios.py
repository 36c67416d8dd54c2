#!/usr/bin/env python3
"""Writes a table of a program's CPU time and greatest memory as ratios to ninja's:

    ratios.py PROGRAM [--before OLD] [--shapes llvm,cmake_100000,..] [--rounds N]

Each row is a manifest like a large project's: LLVM by CMake and many files by GN
(projects.py), and 100,000 or 10,000 statements by CMake or in a dense form (manifest.py). Each
column is a tool. PROGRAM is compared with ninja, and with OLD, the program of an earlier commit, on
the same files. They are run in turn, five times or N times. The median times count, and the
greatest memory.
"""

import argparse
import os
import tempfile

from manifest import write_statements
from projects import write_project
from reports import load_shown
from runs import MB, measure, middle

ROUNDS = 5
TOOLS = ["rules", "commands", "compdb", "inputs"]


def manifest_of(shape, count):
    """Writes a manifest without its `default` line, so that the tools write about all its edges."""

    def write(folder):
        with open(os.path.join(folder, "build.ninja"), "w") as file:
            write_statements(count, file, shape)

    return write


def project_of(shape, count=None):
    return lambda folder: write_project(shape, folder, count)


SHAPES = {
    "llvm": project_of("llvm"),
    "cmake_100000": manifest_of("cmake", 100_000),
    "dense_100000": manifest_of("dense", 100_000),
    "folders_1500": project_of("folders", 1_500),
    "folders_9000": project_of("folders", 9_000),
    "chromium": project_of("chromium"),
    "cmake_10000": manifest_of("cmake", 10_000),
}


def words_of(program, tool, folder):
    """The arguments of a run. Ninja writes its working directory as `directory`."""
    return [program, "-t", tool] + (["--directory", folder] if tool == "compdb" and program != "ninja" else [])


def figures_of(words, tool, folder):
    """The median CPU time and the greatest memory of each program."""
    programs = {"now": words.program, "ninja": "ninja"}
    if words.before:
        programs["before"] = words.before
    commands = {name: words_of(program, tool, folder) for name, program in programs.items()}
    runs = measure(commands, words.rounds, folder=folder, out=os.path.join(folder, "out"))
    return {name: middle(of_one)[1:] for name, of_one in runs.items()}


def cell(figures, other):
    """Time and memory as ratios to another program's."""
    (time, memory), (time_of, memory_of) = figures["now"], figures[other]
    return f"{time / time_of:.2f}, {memory / memory_of:.2f}"


def row(words, shape):
    with tempfile.TemporaryDirectory() as folder:
        SHAPES[shape](folder)
        by_tool = [figures_of(words, tool, folder) for tool in TOOLS]
    cells = [cell(figures, "ninja") for figures in by_tool]
    if words.before:
        cells += [cell(figures, "before") for figures in by_tool]
    time, memory = by_tool[0]["now"]
    return f"| {shape} | {' | '.join(cells)} | {time:.3f} s, {memory / MB:.0f} MB |"


def main():
    parser = argparse.ArgumentParser()
    parser.add_argument("program", type=os.path.abspath)
    parser.add_argument("--before", type=os.path.abspath)
    parser.add_argument("--shapes", default=",".join(SHAPES))
    parser.add_argument("--rounds", type=int, default=ROUNDS)
    words = parser.parse_args()
    with load_shown():
        print("time, memory as ratios to ninja's")
        columns = TOOLS + ([f"{tool} / before" for tool in TOOLS] if words.before else [])
        print(f"| shape | {' | '.join(columns)} | rules |")
        print("|" + "---|" * (len(columns) + 2))
        for shape in words.shapes.split(","):
            print(row(words, shape), flush=True)


if __name__ == "__main__":
    main()

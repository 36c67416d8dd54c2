#!/usr/bin/env python3
"""Counts how a program's instructions grow with its manifest:

    growth.py PROGRAM [--shapes cmake,llvm,..] [--tools rules,..]

Each shape is written at four sizes, each twice the one before, and each tool is run under `valgrind
--tool=callgrind`, which counts instructions. The counts are the same in each run, however busy the
machine is. A row has the count at the smallest size. For each other size it has the ratio to the
size before, in instructions and, in brackets, in bytes of the manifest.
"""

import argparse
import os
import re
import subprocess
import tempfile

from ratios import TOOLS, manifest_of, project_of, words_of
from runs import MB

# The smallest size of each shape.
SHAPES = {"cmake": 2_500, "dense": 2_500, "llvm": 1_500, "folders": 25}
SIZES = 4


def write(shape, count, folder):
    make = manifest_of if shape in ("cmake", "dense") else project_of
    make(shape, count)(folder)


def bytes_in(folder):
    return sum(os.path.getsize(os.path.join(place, name)) for place, _, names in os.walk(folder) for name in names)


def instructions(program, tool, folder):
    counting = ["valgrind", "--tool=callgrind", "--callgrind-out-file=/dev/null", *words_of(program, tool, folder)]
    run = subprocess.run(counting, cwd=folder, stdout=subprocess.DEVNULL, stderr=subprocess.PIPE, text=True, check=True)
    return int(re.search(r"I +refs: +([\d,]+)", run.stderr).group(1).replace(",", ""))


def figures_of(words, shape):
    """The bytes of each size, and the instructions of each tool on it."""
    for step in range(SIZES):
        with tempfile.TemporaryDirectory() as folder:
            write(shape, SHAPES[shape] << step, folder)
            yield bytes_in(folder), {tool: instructions(words.program, tool, folder) for tool in words.tools}


def main():
    parser = argparse.ArgumentParser()
    parser.add_argument("program", type=os.path.abspath)
    parser.add_argument("--shapes", type=lambda text: text.split(","), default=list(SHAPES))
    parser.add_argument("--tools", type=lambda text: text.split(","), default=TOOLS)
    words = parser.parse_args()
    for shape in words.shapes:
        figures = list(figures_of(words, shape))
        for tool in words.tools:
            line = f"{shape} {SHAPES[shape]}, {tool}: {figures[0][1][tool] / MB:.1f} million"
            for (old_size, old), (size, new) in zip(figures, figures[1:]):
                line += f" | {new[tool] / old[tool]:.3f} ({size / old_size:.3f})"
            print(line, flush=True)


if __name__ == "__main__":
    main()

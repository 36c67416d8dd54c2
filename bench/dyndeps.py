#!/usr/bin/env python3
"""Measures how long it takes to join dyndep files, compared with loading:

    dyndeps.py PROGRAM [--sizes N,M] [--rounds N]

The manifest has N edges, and every other one is bound to a dyndep file. A dyndep file has entries
for 100 edges; each entry discovers an output and, except in the first, an input. `rules` is run
with and without `--dyndep`, in turn, five times or N times, and the median CPU times count.
The difference is the time of joining. The aim is half of the time without `--dyndep`, and that time
and memory grow no faster than N.
"""

import argparse
import os
import tempfile

from reports import missed_growth, numbers, print_missed
from runs import MB, measure, middle

SIZES = [10_000, 100_000]
ROUNDS = 5
PER_FILE = 100
AIM = 0.50

HEAD = """rule FC
  command = gfortran $FLAGS -c $in -o $out
  dyndep = $dyndep
rule CC
  command = cc $FLAGS -c $in -o $out
"""


def folder(number):
    return f"CMakeFiles/target{number}.dir"


def object_file(number):
    return f"{folder(number // (2 * PER_FILE))}/src/object_{number}.o"


def edge(number):
    """A build statement: of a Fortran object where the number is even, else of a C object."""
    common = "/home/user/project/include/common.h"
    if number % 2:
        inputs = f"CC /home/user/project/src/object_{number}.c | {common}"
        return f"build {object_file(number)}: {inputs}\n  FLAGS = -g -O2\n"
    dyndep = f"{folder(number // (2 * PER_FILE))}/Fortran.dd"
    inputs = f"FC /home/user/project/src/object_{number}.f90 | {common} || {dyndep}"
    return f"build {object_file(number)}: {inputs}\n  dyndep = {dyndep}\n  FLAGS = -g -O2\n"


def entry(number):
    inputs = f" | modules/mod_{number - 2}.mod" if number else ""
    head = f"build {object_file(number)} | modules/mod_{number}.mod: dyndep{inputs}"
    return f"{head}\n  restat = 1\n\n"


def write(count):
    """Writes the manifest and its dyndep files into the working directory."""
    with open("build.ninja", "w", encoding="ascii") as manifest:
        manifest.write(HEAD)
        manifest.writelines(edge(number) for number in range(count))
    for first in range(0, count, 2 * PER_FILE):
        where = folder(first // (2 * PER_FILE))
        os.makedirs(where, exist_ok=True)
        with open(f"{where}/Fortran.dd", "w", encoding="ascii") as dyndeps:
            dyndeps.write("ninja_dyndep_version = 1.0\n")
            dyndeps.writelines(entry(number) for number in range(first, first + 2 * PER_FILE, 2))


def costs(program, count, rounds):
    """The CPU time and the memory of a run without `--dyndep`, and of one with it."""
    with tempfile.TemporaryDirectory() as place:
        os.chdir(place)
        write(count)
        words = [program, "-t", "rules"]
        runs = measure({"load": words, "join": [*words, "--dyndep"]}, rounds, folder=place)
        os.chdir("/")
    _, load, load_memory = middle(runs["load"])
    _, join, join_memory = middle(runs["join"])
    return load, join - load, load_memory, join_memory


def main():
    parser = argparse.ArgumentParser(description=__doc__.split("\n", maxsplit=1)[0])
    parser.add_argument("program")
    parser.add_argument("--sizes", type=numbers, default=SIZES)
    parser.add_argument("--rounds", type=int, default=ROUNDS)
    options = parser.parse_args()
    program = os.path.abspath(options.program)
    print(f"{'edges':>9} {'load s':>8} {'join s':>8} {'ratio':>6} {'load MB':>8} {'with it':>8}")
    missed = []
    before = None
    for size in options.sizes:
        load, join, memory, joined = costs(program, size, options.rounds)
        line = f"{size:>9} {load:>8.3f} {join:>8.3f} {join / load:>6.2f}"
        print(f"{line} {memory / MB:>8.0f} {joined / MB:>8.0f}")
        if join > AIM * load:
            missed.append(f"joining at {size} edges: {join / load:.2f} of the load, aim {AIM}")
        if before:
            missed += missed_growth(f"joining at {size} edges", join / before[1], before[0], size)
        before = size, join
    print_missed(missed)


if __name__ == "__main__":
    main()

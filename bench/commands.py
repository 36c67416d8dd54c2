#!/usr/bin/env python3
"""Measures whole runs of `ninja-explain -t commands`:

    commands.py PROGRAM [--sizes N,M] [--chain N,M] [--inputs N,M] [--references N,M] [--rounds N]

PROGRAM is compared with `ninja -t commands` on the same files. Both write to a file, and have to
write the same bytes. Each program is run three times, or N times, in turn. The best wall-clock and
CPU times count, and the greatest memory. The files are in a temporary directory.

The manifests are the shapes of manifest.py with the numbers of edges in --sizes, without their
`default` line, and three shapes of shapes.py: a chain (--chain), on which Ninja recurses for each
edge and may run out of stack; one edge with many inputs (--inputs); and edges of a rule whose
command has 1,000 references (--references).

On the shapes of manifest.py the run is also divided: half of the commands by `--take`, and the rest
by `--resume` from the mark. The rest should take no longer than the whole.

At the end the missed aims are listed.
"""

import argparse
import filecmp
import os
import shutil
import tempfile

from manifest import SHAPES as MANIFESTS, write_statements
from reports import load_shown, missed_beside_ninja, missed_growth, numbers, print_missed, print_runs
from runs import MB, Run, best, measure
from shapes import write_shape

NINJA = "ninja -t commands"
STOPPED = 3
TIME_AIM = 0.40
MEMORY_AIM = 0.9


def programs_of(program, folder):
    """The arguments of the programs. Ninja is left out if it runs out of stack."""
    programs = {"program": [program, "-t", "commands"]}
    if shutil.which("ninja"):
        try:
            Run(NINJA.split(), folder=folder, out=os.path.join(folder, NINJA))
            programs[NINJA] = NINJA.split()
        except SystemExit as refused:
            print(f"  Ninja is left out: {refused}")
    return programs


def lines_in(path):
    """The number of lines of a file."""
    with open(path, "rb") as file:
        return sum(1 for _ in file)


def check(programs, folder):
    """Checks that all programs write the same. Returns the number of lines."""
    for name, words in programs.items():
        Run(words, folder=folder, out=os.path.join(folder, name))
    ours = os.path.join(folder, "program")
    if NINJA in programs and not filecmp.cmp(ours, os.path.join(folder, NINJA), shallow=False):
        raise SystemExit("the program and Ninja write other commands")
    return lines_in(ours)


def divided(program, folder, lines, rounds):
    """The figures of the whole run, of the first half of the commands, and of the rest."""
    out = os.path.join(folder, "out")
    whole = [program, "-t", "commands"]
    first = [*whole, "--take", str(lines // 2)]
    mark = Run(first, folder=folder, status=STOPPED, out=out).errors.decode().split()[1]
    rest = [*whole, "--resume", mark]
    runs = {"the whole": [], "the first half": [], "the rest": []}
    for _ in range(rounds):
        runs["the whole"].append(Run(whole, folder=folder, out=out))
        runs["the first half"].append(Run(first, folder=folder, status=STOPPED, out=out))
        runs["the rest"].append(Run(rest, folder=folder, out=out))
    return {name: best(all_runs) for name, all_runs in runs.items()}


def report(shape, count, size, lines, figures, before):
    """Prints the figures of one size. Returns the missed aims."""
    print(f"{shape}: N = {count}, {size / MB:.1f} MB, {lines} commands")
    print_runs(figures, before)
    missed = []
    if NINJA in figures:
        _, time, memory = (mine / other for mine, other in zip(figures["program"], figures[NINJA]))
        print(f"  {time:.2f} of Ninja's processor time, {memory:.2f} of its memory")
        missed += missed_beside_ninja(f"{shape} {count}", time, memory, TIME_AIM, MEMORY_AIM)
    if "the rest" in figures:
        rest = figures["the rest"][1] / figures["the whole"][1]
        print(f"  the rest takes {rest:.2f} of the whole's processor time")
        if rest > 1:
            missed.append(f"{shape} {count}: the rest takes {rest:.2f} of the whole, aim 1")
    return missed


def measure_size(words, shape, count, before):
    """The figures of one size, and the missed aims."""
    with tempfile.TemporaryDirectory() as folder:
        path = os.path.join(folder, "build.ninja")
        with open(path, "w") as file:
            write = write_statements if shape in MANIFESTS else write_shape
            write(count, file, shape)
        programs = programs_of(words.program, folder)
        lines = check(programs, folder)
        out = os.path.join(folder, "out")
        runs = measure(programs, words.rounds, folder=folder, out=out)
        figures = {name: best(all_runs) for name, all_runs in runs.items()}
        if shape in MANIFESTS:
            figures.update(divided(words.program, folder, lines, words.rounds))
        return figures, report(shape, count, os.path.getsize(path), lines, figures, before)


def measure_shape(words, shape, counts):
    """Measures one shape at these sizes. Returns the missed aims."""
    before, few, missed = {}, None, []
    for count in counts:
        figures, more = measure_size(words, shape, count, before)
        missed += more
        if before:
            growth = figures["program"][1] / before["program"][1]
            missed += missed_growth(shape, growth, few, count)
        before, few = figures, count
    return missed


def main():
    parser = argparse.ArgumentParser()
    parser.add_argument("program", type=os.path.abspath)
    parser.add_argument("--sizes", type=numbers, default="100000,1000000")
    parser.add_argument("--chain", type=numbers, default="100000,1000000")
    parser.add_argument("--inputs", type=numbers, default="100000,1000000")
    parser.add_argument("--references", type=numbers, default="1000,10000")
    parser.add_argument("--rounds", type=int, default=3)
    words = parser.parse_args()
    shapes = {shape: words.sizes for shape in MANIFESTS}
    shapes |= {"chain": words.chain, "inputs": words.inputs, "references": words.references}
    missed = []
    with load_shown():
        for shape, counts in shapes.items():
            missed += measure_shape(words, shape, counts)
    print_missed(missed)


if __name__ == "__main__":
    main()

#!/usr/bin/env python3
"""Compares runs that follow validations with runs that do not:

    validations.py PROGRAM [--sizes N,M] [--rounds N]

`PROGRAM -t commands --validations` is compared with `PROGRAM -t commands` on the same files, and so
is `inputs`. The files are in a temporary directory:

    chain   N edges, each the validation of the one before. Each round of validations
            adds one edge, so code that looks at the whole list in each round takes time in N^2
    tests   N edges: libraries of 18 sources, each with a test that validates it and needs it

The target of the chain is its first edge. In the tests a `default` line names all libraries. What
the runs write is checked. Each is run three times, or N times, in turn. The best wall-clock and CPU
times count, and the greatest memory. The end lists the figures that grew by more than the manifest did.
"""

import argparse
import os
import tempfile

from reports import load_shown, missed_growth, numbers, print_missed, print_runs
from runs import MB, Run, best, measure

RULES = """\
rule cc
  command = cc -c $in -o $out
rule ar
  command = ar $out $in
rule test
  command = $in && touch $out
"""
SOURCES = 18
PER_LIBRARY = SOURCES + 2


def step(number):
    return f"out/step_{number:07}.o"


def chain(count):
    """The manifest, the arguments, and the commands without and with validations."""
    lines = [RULES]
    for number in range(count):
        validation = f" |@ {step(number + 1)}" if number + 1 < count else ""
        lines.append(f"build {step(number)}: cc src/step.c{validation}\n")
    commands = [f"cc -c src/step.c -o {step(number)}\n" for number in range(count)]
    return lines, [step(0)], commands[:1], commands


def tests(count):
    numbers = range(count // PER_LIBRARY)
    lines, built, tested = [RULES], [], []
    for number in numbers:
        library, test = f"lib/lib_{number:06}.a", f"lib/test_{number:06}.stamp"
        objects = [f"lib/{number:06}/part_{part:02}.o" for part in range(SOURCES)]
        for name in objects:
            lines.append(f"build {name}: cc {name}.c\n")
            built.append(f"cc -c {name}.c -o {name}\n")
        lines.append(f"build {library}: ar {' '.join(objects)} |@ {test}\n")
        built.append(f"ar {library} {' '.join(objects)}\n")
        lines.append(f"build {test}: test {library}\n")
        tested.append(f"{library} && touch {test}\n")
    lines.append(f"default {' '.join(f'lib/lib_{number:06}.a' for number in numbers)}\n")
    return lines, [], built, built + tested


SHAPES = {"chain": chain, "tests": tests}


def check(words, folder, wanted):
    written = Run(words, folder=folder).output
    if written != "".join(wanted).encode():
        raise SystemExit(f"{' '.join(words)} does not write the right commands")


def measure_size(program, shape, count, rounds, before):
    """The best figures of each run at one size."""
    lines, targets, without, with_all = SHAPES[shape](count)
    with tempfile.TemporaryDirectory() as folder:
        path = os.path.join(folder, "build.ninja")
        with open(path, "w") as file:
            file.writelines(lines)
        words = [program, "-t"]
        check([*words, "commands", *targets], folder, without)
        check([*words, "commands", "--validations", *targets], folder, with_all)
        programs = {
            f"{tool}{flag}": [*words, tool, *flag.split(), *targets]
            for tool in ("commands", "inputs")
            for flag in ("", " --validations")
        }
        runs = measure(programs, rounds, folder=folder, out=os.path.join(folder, "out"))
        figures = {name: best(all_runs) for name, all_runs in runs.items()}
        print(f"{shape}: N = {count}, {os.path.getsize(path) / MB:.1f} MB, {len(with_all)} commands")
    print_runs(figures, before)
    for tool in ("commands", "inputs"):
        with_flag, plain = figures[f"{tool} --validations"], figures[tool]
        print(
            f"  {tool}: {with_flag[1] / plain[1]:.2f} of the processor time without the option,"
            f" {with_flag[2] / plain[2]:.2f} of the memory"
        )
    return figures


def main():
    parser = argparse.ArgumentParser()
    parser.add_argument("program", type=os.path.abspath)
    parser.add_argument("--sizes", type=numbers, default="100000,1000000")
    parser.add_argument("--rounds", type=int, default=3)
    words = parser.parse_args()
    missed = []
    with load_shown():
        for shape in SHAPES:
            before, few = {}, None
            for count in words.sizes:
                figures = measure_size(words.program, shape, count, words.rounds, before)
                for name in before:
                    growth = figures[name][1] / before[name][1]
                    missed += missed_growth(f"{shape}, {name}", growth, few, count)
                before, few = figures, count
    print_missed(missed)


if __name__ == "__main__":
    main()

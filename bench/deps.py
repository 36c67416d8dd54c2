#!/usr/bin/env python3
"""Compares `ninja-graph affected --deps` with `ninja -n`, on trees with a deps log:

    deps.py PROGRAM [--objects N] [--rounds N]

PROGRAM is ninja-graph. The first tree, of 10,000 objects or N, is up to date, and its log of 25 MB
names 600 headers for each object. Both programs load the same. One header has changed, and few
outputs are listed, so that loading dominates. The answer is compared with what Ninja makes again once
the header is touched. The aims are 1.2 times the time of `ninja -n`, and three times its memory.

The second tree has ten times as many objects, which are not on the disk, with 60 headers each. All
headers have changed, without `CMakeLists.txt` and with it. The aim is 1.3 times the time without it.

The runs are in turn, five times or N times. The least wall-clock and CPU times count, and the greatest
memory.
"""

import argparse
import os
import tempfile
from collections import namedtuple
from pathlib import Path

from logged_trees import ARCHIVE, CMAKE, LOG, Tree, header, would_touch, write_built, write_log, write_manifest
from reports import load_shown, print_missed
from runs import MB, Run, best

ROUNDS, OBJECTS = 5, 10_000
TIME_AIM, MEMORY_AIM, MANIFEST_AIM = 1.2, 3, 1.3
DONE, LOOK = 0, 3
# A header that is a source.
CHANGED = header(1)

# A program with its arguments, changed paths for its standard input, and the expected status.
Question = namedtuple("Question", "words paths status")


def answers(questions, rounds, folder):
    """Runs the programs in turn. Returns the times, the memory and the lines of each."""
    runs = {name: [] for name in questions}
    given = os.path.join(folder, "changed")
    for _ in range(rounds):
        for name, question in questions.items():
            Path(given).write_text("".join(f"{path}\n" for path in question.paths))
            runs[name].append(Run(question.words, folder, question.status, given=given))
    return {name: (*best(of_one), of_one[0].output.decode().splitlines()) for name, of_one in runs.items()}


def print_answers(found):
    for name, (seconds, processor, memory, outputs) in found.items():
        print(f"  {name:<24} {seconds:7.3f} s, CPU {processor:7.3f} s, {memory / MB:6.0f} MB, {len(outputs)} lines")


def check_answer(outputs, folder):
    """Fails unless the outputs are the archives that Ninja makes again once the header is touched."""
    Path(folder, CHANGED).touch()
    wanted = [path for path in would_touch(folder) if path.endswith(".a")]
    if not wanted or sorted(outputs) != sorted(wanted):
        raise SystemExit(f"{len(outputs)} archives are affected, and Ninja makes {len(wanted)}")


def beside_ninja(program, tree, rounds):
    """Compares an answer with `ninja -n` on a tree that is up to date. Yields the missed aims."""
    affected = [program, "affected", "--rule", ARCHIVE]
    questions = {
        "ninja -n": Question(["ninja", "-n"], [], DONE),
        "affected --deps": Question([*affected, "--deps"], [CHANGED], DONE),
        "affected": Question([*affected, "--ignore-unknown"], [CHANGED], DONE),
    }
    with tempfile.TemporaryDirectory() as folder:
        write_built(folder, tree)
        found = answers(questions, rounds, folder)
        check_answer(found["affected --deps"][-1], folder)
        size = os.path.getsize(os.path.join(folder, LOG))
    print(f"{tree.objects} objects, {tree.each} headers each, a log of {size / MB:.1f} MB")
    print_answers(found)
    theirs, ours = found["ninja -n"], found["affected --deps"]
    time, processor, memory = (ours[place] / theirs[place] for place in range(3))
    print(f"  of ninja -n: {time:.2f} of its time, {processor:.2f} of its CPU time, {memory:.2f} of its memory")
    if time > TIME_AIM:
        yield f"affected --deps: {time:.2f} of the time of ninja -n, aim {TIME_AIM}"
    if memory > MEMORY_AIM:
        yield f"affected --deps: {memory:.2f} of the memory of ninja -n, aim {MEMORY_AIM}"


def with_manifest(program, tree, rounds):
    """Compares a change of all headers with one of CMakeLists.txt as well. Yields a missed aim."""
    words = [program, "affected", "--deps", "--rule", ARCHIVE]
    paths = [*map(header, range(tree.headers))]
    questions = {
        "headers": Question(words, paths, DONE),
        f"and {CMAKE}": Question(words, [*paths, CMAKE], LOOK),
    }
    with tempfile.TemporaryDirectory() as folder:
        write_manifest(folder, tree)
        write_log(folder, tree)
        found = answers(questions, rounds, folder)
    print(f"{tree.objects} objects, {tree.each} headers each, {tree.headers} changed headers")
    print_answers(found)
    (time, *_, few), (with_it, *_, more) = found.values()
    if few != more or not few:
        raise SystemExit(f"{len(few)} archives are affected, and with {CMAKE} {len(more)}")
    print(f"  with {CMAKE}: {with_it / time:.2f} of the time")
    if with_it > MANIFEST_AIM * time:
        yield f"{CMAKE}: {with_it / time:.2f} of the time without it, aim {MANIFEST_AIM}"


def main():
    parser = argparse.ArgumentParser(description=__doc__.split("\n", maxsplit=1)[0])
    parser.add_argument("program", type=os.path.abspath)
    parser.add_argument("--objects", type=int, default=OBJECTS)
    parser.add_argument("--rounds", type=int, default=ROUNDS)
    options = parser.parse_args()
    up_to_date = Tree(options.objects, options.objects // 2, 600)
    many = Tree(10 * options.objects, options.objects, 60)
    with load_shown():
        missed = [*beside_ninja(options.program, up_to_date, options.rounds)]
        missed += with_manifest(options.program, many, options.rounds)
        print_missed(missed)


if __name__ == "__main__":
    main()

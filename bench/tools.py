#!/usr/bin/env python3
"""Compares whole runs of each tool of ninja-explain with the same tool of Ninja:

    tools.py PROGRAM [--sizes N,M] [--shapes cmake,dense] [--only TOOL,TOOL] [--rounds N]

`PROGRAM -t TOOL` and `ninja -t TOOL` run on the same files. Both write to a file, and have to write
the same bytes. For compdb they have to write the same objects, except for phony edges, which
some versions of Ninja write too. `inputs --dependency-order` and `inputs --no-shell-escape` are
compared with Ninja's `inputs`, and have to list the same paths; they are skipped if the program
does not have the option. Then all runs take turns, five times or N times. The median times count,
and the greatest memory. The ratios are of CPU time and of memory. Without Ninja the
program is measured alone.

The manifests are the shapes of manifest.py with the numbers of edges in --sizes, without their
`default` line and with a response file for each link. They are in a temporary directory. `query many`
queries 10,000 files, or fewer if the manifest has fewer. `compdb many rules` names 1,000 rules;
only the last exists. At the end are listed: figures that missed their aim (0.40 of Ninja's time, 0.90
of its memory), runs with another output, and figures that grew by more than the manifest did.
"""

import argparse
import filecmp
import itertools
import os
import shlex
import shutil
import tempfile

from manifest import PER_TARGET, SHAPES, dense_object, object_file, source
from reports import load_shown, missed_beside_ninja, missed_growth, numbers, print_missed
from runs import MB, Run, measure, middle

SIZES = [10_000, 100_000]
ROUNDS = 5
MANY_FILES = 10_000
MANY_RULES = 1_000
TIME_AIM = 0.40
MEMORY_AIM = 0.90

# The options of `inputs` that change how the list is written.
STYLES = {"--dependency-order", "--no-shell-escape"}

# The compiler's rule of each shape, and the command of its links without and with a response file.
RULES = {
    "cmake": (
        "CXX_COMPILER",
        "$LINK_FLAGS $in && $POST_BUILD\n",
        "$LINK_FLAGS @$TARGET_FILE.rsp && $POST_BUILD\n"
        "  rspfile = $TARGET_FILE.rsp\n  rspfile_content = $in_newline\n",
    ),
    "dense": (
        "cxx",
        "ar qc $out $in\n",
        "ar qc $out @$out.rsp\n  rspfile = $out.rsp\n  rspfile_content = $in_newline\n",
    ),
}


def head_of(shape):
    """The head of a manifest, in which links have response files."""
    head, (_, plain, by_response) = SHAPES[shape][0], RULES[shape]
    if plain not in head:
        raise SystemExit(f"manifest.py has no such link in {shape}")
    return head.replace(plain, by_response)


def make(folder, shape, count):
    """Writes build.ninja into a new directory. Returns this directory."""
    place = os.path.join(os.path.realpath(folder), str(count))
    os.mkdir(place)
    with open(os.path.join(place, "build.ninja"), "w") as file:
        file.write(head_of(shape))
        file.writelines(map(SHAPES[shape][1], range(count)))
    return place


def files_of(shape, count):
    """Objects and sources from everywhere in the manifest, except paths that need escapes."""
    targets = count // PER_TARGET
    for number in range(1, PER_TARGET - 1):
        for target in range(targets):
            if shape == "dense":
                yield dense_object(target, number)
                yield f"src/base_{target:05}/source/unit_{number:02}.cc"
            elif "$" not in source(target, number):
                yield object_file(target, number)
                yield source(target, number)


def tools_of(shape, count):
    """The arguments of each tool."""
    rule = RULES[shape][0]
    files = list(itertools.islice(files_of(shape, count), MANY_FILES))
    rules = [*(f"no_rule_{number:03}" for number in range(MANY_RULES - 1)), rule]
    return {
        "commands": ["commands"],
        "inputs": ["inputs"],
        "inputs as needed": ["inputs", "--dependency-order"],
        "inputs unquoted": ["inputs", "--no-shell-escape"],
        "targets all": ["targets", "all"],
        "targets depth 1": ["targets", "depth", "1"],
        "targets depth 2": ["targets", "depth", "2"],
        "targets rule": ["targets", "rule", rule],
        "query 1": ["query", files[len(files) // 2]],
        "query many": ["query", *files],
        "rules": ["rules"],
        "compdb": ["compdb"],
        "compdb 1 rule": ["compdb", rule],
        "compdb many rules": ["compdb", *rules],
        "compdb -x": ["compdb", "-x"],
    }


def command_of(program, words, place):
    """The arguments of a run. Ninja writes its working directory as `directory`, and runs `inputs`
    without a style."""
    here = []
    if program == "ninja":
        words = [word for word in words if word not in STYLES]
    elif words[0] == "compdb":
        here = ["--directory", place]
    return [program, "-t", words[0], *here, *words[1:]]


def objects_in(path):
    """The objects of a compilation database as lists of lines, except those without a command."""
    members = []
    with open(path, "rb") as file:
        for line in file:
            if line.startswith(b"    "):
                members.append(line.rstrip(b",\n"))
            elif members:
                if b'    "command": ""' not in members:
                    yield members
                members = []


def inputs_in(path, quoted):
    """The paths of a list of inputs, in its order."""
    with open(path, "rb") as file:
        lines = file.read().split(b"\n")[:-1]
    if not quoted:
        return lines
    return [shlex.split(line.decode())[0].encode() if b"'" in line else line for line in lines]


def are_same_inputs(words, ours, theirs):
    """Whether both list the same paths, sorted or not, as the style requires."""
    listed = inputs_in(ours, "--no-shell-escape" not in words)
    if "--dependency-order" in words:
        listed.sort()
    return listed == sorted(inputs_in(theirs, quoted=True))


def is_same(words, ours, theirs):
    if STYLES.intersection(words):
        return are_same_inputs(words, ours, theirs)
    if words[0] != "compdb":
        return filecmp.cmp(ours, theirs, shallow=False)
    pairs = itertools.zip_longest(objects_in(ours), objects_in(theirs))
    return all(mine == other for mine, other in pairs)


def commands_of(tool, words, program, place):
    """The arguments of the runs of a tool, by program, and whether both write the same. Ninja is left
    out if it is not installed or fails, and the tool if the program does not know a style of
    `inputs`."""
    ours, theirs = os.path.join(place, "program"), os.path.join(place, "ninja")
    commands = {"program": command_of(program, words, place)}
    try:
        Run(commands["program"], folder=place, out=ours)
    except SystemExit as refused:
        if not STYLES.intersection(words):
            raise
        print(f"  {tool} is left out: {refused}")
        return {}, True
    if not shutil.which("ninja"):
        return commands, True
    try:
        Run(command_of("ninja", words, place), folder=place, out=theirs)
    except SystemExit as refused:
        print(f"  Ninja is left out of {tool}: {refused}")
        return commands, True
    commands["ninja"] = command_of("ninja", words, place)
    return commands, is_same(words, ours, theirs)


def runs_of(words, shape, count, place):
    """The runs of the requested tools, by tool and program, all in turn; and the tools
    that write something else than Ninja's."""
    commands, other = {}, []
    for tool, of_tool in tools_of(shape, count).items():
        if words.only and of_tool[0] not in words.only and tool not in words.only:
            continue
        by_program, same = commands_of(tool, of_tool, words.program, place)
        commands |= {(tool, who): command for who, command in by_program.items()}
        if not same:
            other.append(tool)
    return measure(commands, words.rounds, folder=place, out=os.path.join(place, "out")), other


def report(shape, count, size, figures):
    """Prints the figures of one size, tool by tool. Returns the missed aims."""
    print(f"{shape}: N = {count}, {size / MB:.1f} MB")
    missed = []
    for tool, of_tool in figures.items():
        line = f"  {tool:<18}"
        for who, (seconds, processor, memory) in of_tool.items():
            line += f" {who} {seconds:6.3f} s, {processor:6.3f} s, {memory / MB:6.1f} MB |"
        if "ninja" in of_tool:
            time, memory = (of_tool["program"][of] / of_tool["ninja"][of] for of in (1, 2))
            line += f" time {time:.2f}, memory {memory:.2f}"
            where = f"{shape} {count}, {tool}"
            missed += missed_beside_ninja(where, time, memory, TIME_AIM, MEMORY_AIM)
        print(line)
    return missed


def report_growth(shape, few, many, before, after):
    """Prints how the program's figures grow with the size. Returns the missed aims."""
    print(f"{shape}: from {few} to {many} statements, {many / few:.0f} times as many")
    missed = []
    for tool, old in before.items():
        time, memory = (after[tool]["program"][of] / old["program"][of] for of in (1, 2))
        print(f"  {tool:<18} {time:6.2f} of the processor time, {memory:6.2f} of the memory")
        missed += missed_growth(f"{shape}, {tool}", time, few, many)
    return missed


def measure_size(words, shape, count):
    """The figures of one size, by tool and program, and the missed aims."""
    with tempfile.TemporaryDirectory() as folder:
        place = make(folder, shape, count)
        size = os.path.getsize(os.path.join(place, "build.ninja"))
        runs, other = runs_of(words, shape, count, place)
    figures = {}
    for (tool, who), of_both in runs.items():
        figures.setdefault(tool, {})[who] = middle(of_both)
    missed = [f"{shape} {count}, {tool}: Ninja writes something else" for tool in other]
    return figures, missed + report(shape, count, size, figures)


def measure_shape(words, shape):
    """Measures one shape at all sizes. Returns the missed aims."""
    before, few, missed = None, None, []
    for count in words.sizes:
        figures, more = measure_size(words, shape, count)
        missed += more
        if before:
            missed += report_growth(shape, few, count, before, figures)
        before, few = figures, count
    return missed


def main():
    parser = argparse.ArgumentParser()
    parser.add_argument("program", type=os.path.abspath)
    parser.add_argument("--sizes", type=numbers, default=SIZES)
    parser.add_argument("--shapes", default=",".join(RULES))
    parser.add_argument("--only", type=lambda text: text.split(","), default=[])
    parser.add_argument("--rounds", type=int, default=ROUNDS)
    words = parser.parse_args()
    missed = []
    with load_shown():
        print("by the clock, of the processor, and the greatest memory:")
        for shape in words.shapes.split(","):
            missed += measure_shape(words, shape)
    print_missed(missed)


if __name__ == "__main__":
    main()

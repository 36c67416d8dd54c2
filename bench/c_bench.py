#!/usr/bin/env python3
"""Measures the library for C in lib/: c_bench.py PROGRAM [--edges N] [--shape SHAPE] [--rounds N]

On a manifest of manifest.py it compares a process that loads by the library with the program's
`-t rules`, which loads as well, and one that runs `-t commands` by the library with the program's:
the median of the CPU times of five rounds, in turn, and the greatest memory. Then it prints
the time of calls, from C (c_bench.c) and from Python (python): the least of five rounds,
divided by the calls, or by the items of `nx_inputs`. The same follows for a manifest with as many
edges and inputs as that of QEMU, and the time of reading all its inputs and users from Python, by a
call for each and by one for many: the median of the CPU times of five rounds, in turn. The tables are
as in docs/BENCHMARKS.md.
"""

import argparse
import os
import statistics
import subprocess
import sys
import tempfile
import time
from ctypes import POINTER, byref, c_int32, c_size_t
from pathlib import Path

from manifest import SHAPES, write_statements
from reports import load_shown
from runs import MB, measure, middle

ROOT = Path(__file__).resolve().parent.parent
os.environ["NINJA_EXPLAIN_LIBRARY"] = str(ROOT / "lib/libninja_explain.so.1")
sys.path.insert(0, str(ROOT / "python"))
sys.dont_write_bytecode = True
from ninja_explain import Edge, File, Graph, Input, Kind  # noqa: E402
from ninja_explain._calls import _library  # noqa: E402

ROUNDS = 5
COMPILER = ["cc", "-std=c11", "-O2", f"-I{ROOT / 'include'}", str(ROOT / "bench/c_bench.c")]


def processes(program, compiled, folder, rounds):
    """The middle figures of a load and of a run, by the library and by the program."""
    commands = {
        "library, load": [compiled, "load", "build.ninja"],
        "program, `-t rules`": [program, "-t", "rules"],
        "library, run of `-t commands`": [compiled, "run", "build.ninja"],
        "program, `-t commands`": [program, "-t", "commands"],
    }
    return {name: middle(runs) for name, runs in measure(commands, rounds, folder=folder).items()}


def least(calls):
    """How many calls were made, and the nanoseconds for each."""
    figures = []
    for _ in range(ROUNDS):
        start = time.perf_counter_ns()
        count = calls()
        figures.append((time.perf_counter_ns() - start) / count)
    return count, min(figures)


def calls_by_c(compiled, folder):
    words = [compiled, "calls", "build.ninja"]
    lines = subprocess.run(words, cwd=folder, stdout=subprocess.PIPE, text=True, check=True).stdout
    rows = (line.split() for line in lines.splitlines())
    return {name: (int(count), float(taken)) for name, count, taken in rows}


def calls_by_python(folder):
    with Graph.load(folder=folder) as graph:
        files, edges, defaults = list(graph.files), list(graph.edges), graph.defaults()
        paths = [file.path for file in files]
        kinds = {
            "nx_path": lambda: len([file.path for file in files]),
            "nx_file_named": lambda: len([graph.file(path) for path in paths]),
            "nx_maker": lambda: len([file.maker for file in files]),
            "nx_inputs": lambda: sum(len(edge.inputs) for edge in edges),
            "nx_command": lambda: len([edge.command for edge in edges]),
            "nx_page": lambda: bool(graph.page(defaults)),
            "nx_affected": lambda: bool(graph.affected([files[len(files) // 2]])) or 1,
            "nx_needed": lambda: bool(graph.needed(graph.roots()[:1])) or 1,
        }
        return {name: least(calls) for name, calls in kinds.items()}


# ---- many inputs


# How many edges, inputs and sources there are.
MANY = 3_796, 925_141, 23_800


def write_many(file):
    """Writes edges with all these inputs, the first one explicit."""
    edges, inputs, sources = MANY
    file.write("rule cc\n  command = cc -c $in -o $out\n")
    for edge in range(edges):
        count = inputs // edges + (edge < inputs % edges)
        names = [f"include/part/{(edge * 97 + at * 31) % sources}.h" for at in range(count)]
        file.write(f"build out/{edge}.o: cc {names[0]} | {' '.join(names[1:])}\n")


def inputs_by_calls(graph, edge):
    """The inputs of an edge, by a call for each."""
    file, kind, inputs = c_size_t(), c_int32(), []
    while graph._session.is_there("nx_input", edge.number, len(inputs), byref(file), byref(kind)):
        inputs.append(Input(File._of(graph, file.value), Kind(kind.value)))
    return inputs


def users_by_calls(graph, file):
    """The users of a file, by a call for each."""
    edge, users = c_size_t(), []
    while graph._session.is_there("nx_user", file.number, len(users), byref(edge)):
        users.append(Edge._of(graph, edge.value))
    return users


def lists_by_python(folder, rounds):
    """For each kind of lists how many items there are, and the CPU seconds by a call for each, and by
    one for many."""
    _library.nx_input.argtypes = [*_library.nx_maker.argtypes[:1], c_size_t, c_size_t, POINTER(c_size_t), POINTER(c_int32)]
    _library.nx_user.argtypes = _library.nx_validation_user.argtypes
    with Graph.load(folder=folder) as graph:
        kinds = {
            "`edge.inputs` of each edge": (graph.edges, inputs_by_calls, lambda edge: edge.inputs),
            "`file.users` of each file": (graph.files, users_by_calls, lambda file: file.users),
        }
        for name, (items, single, many) in kinds.items():
            ways, taken = (lambda it: single(graph, it), many), ([], [])
            for _ in range(rounds):
                for way, seconds in zip(ways, taken):
                    start = time.process_time()
                    count = sum(len(way(it)) for it in items)
                    seconds.append(time.process_time() - start)
            yield name, count, *map(statistics.median, taken)


def print_lists(figures):
    print("| All of them, from Python | Items | A call for each | Many in one call |")
    print("|---|---|---|---|")
    for name, count, single, many in figures:
        print(f"| {name} | {count:,} | {single:.2f} s | {many:.2f} s |")


def print_processes(figures):
    print("| Process | Processor time | Memory |")
    print("|---|---|---|")
    for name, (_, processor, memory) in figures.items():
        print(f"| {name} | {processor:.3f} s | {memory / MB:.0f} MB |")


def print_calls(by_c, by_python):
    print("| Call | Calls | From C | From Python |")
    print("|---|---|---|---|")
    for name, (count, taken) in by_c.items():
        python = f"{by_python[name][1]:,.0f} ns" if name in by_python else ""
        print(f"| `{name}` | {count:,} | {taken:,.0f} ns | {python} |")


def main():
    parser = argparse.ArgumentParser()
    parser.add_argument("program", type=os.path.abspath)
    parser.add_argument("--edges", type=int, default=100_000)
    parser.add_argument("--shape", choices=SHAPES, default="cmake")
    parser.add_argument("--rounds", type=int, default=ROUNDS)
    words = parser.parse_args()
    with tempfile.TemporaryDirectory() as folder, load_shown():
        compiled = os.path.join(folder, "c_bench")
        archive = str(ROOT / "lib/libninja_explain.a")
        subprocess.run([*COMPILER, archive, "-o", compiled], check=True)
        with open(os.path.join(folder, "build.ninja"), "w") as file:
            write_statements(words.edges, file, words.shape)
        print(f"{words.shape}, {words.edges:,} statements")
        print_processes(processes(words.program, compiled, folder, words.rounds))
        print_calls(calls_by_c(compiled, folder), calls_by_python(folder))
        with open(os.path.join(folder, "build.ninja"), "w") as file:
            write_many(file)
        print(f"{MANY[0]:,} statements with {MANY[1]:,} inputs")
        print_processes(processes(words.program, compiled, folder, words.rounds))
        print_calls(calls_by_c(compiled, folder), calls_by_python(folder))
        print_lists(lists_by_python(folder, words.rounds))


if __name__ == "__main__":
    main()

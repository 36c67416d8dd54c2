#!/usr/bin/env python3
"""Measures the figures of docs/BENCHMARKS.md, and writes its tables and pictures:

    figures.py PROGRAM [--only runs,tools,..] [--rounds N]
    figures.py PROGRAM --again [--only runs,tools,..] [--rounds N]
    figures.py --draw

PROGRAM is ninja-explain. It runs beside ninja on the same files, in turn, five times or N times; medians count, and the greatest
memory. The figures of each question are kept in bench/figures.json as soon as they are measured, so a part of them can be measured
again, and --draw writes the tables and pictures again without measuring. --again measures once more, keeps nothing but how far the
ratios of each question are from those that are kept, and writes that. Take a quiet machine: all of it takes about half an hour.
"""

import argparse
import json
import os
import platform
import re
import subprocess
import tempfile
from pathlib import Path

import dyndeps
import flood
import growth
import ratios
import tools
import validations
from bindings import FLAGS, write_far, write_near, write_tree
from plots import bars
from runs import MB, measure, middle
from shapes import SHAPES as HOSTILE, cycle_line, write_shape

ROOT = Path(__file__).resolve().parent.parent
FIGURES = ROOT / "bench/figures.json"
DOCUMENT = ROOT / "docs/BENCHMARKS.md"
PICTURES = ROOT / "docs"
ROUNDS = 5

# Of the shapes in which N edges have a rule with N references, fewer are made.
FEWER = {"bound": 10, "pool-line": 200, "references": 10}
HOSTILE_SIZES = [100_000, 1_000_000]
FILES, BINDINGS = 2_000, 200_000
PICTURED = {"llvm": "LLVM, 44,570 edges", "cmake_100000": "CMake, 100,000 edges", "folders_1500": "GN, 1,501 files", "chromium": "Chromium, 5,002 files"}


def figures_of(programs, words, folder, **more):
    """The median CPU time and the greatest memory of each program."""
    runs = measure(programs, words.rounds, folder=folder, out=os.path.join(folder, "out"), **more)
    return {name: middle(of_one)[1:] for name, of_one in runs.items()}


def beside_ninja(tool, words, folder):
    return figures_of({"ours": [words.program, "-t", *tool], "ninja": ["ninja", "-t", *tool]}, words, folder)


def share(figures, place):
    return figures["ours"][place] / figures["ninja"][place]


def runs(words):
    """Whole runs on manifests like real ones."""
    for shape, write in ratios.SHAPES.items():
        with tempfile.TemporaryDirectory() as folder:
            write(folder)
            of_tools = {}
            for tool in ratios.TOOLS:
                programs = {name: ratios.words_of(of, tool, folder) for name, of in (("ours", words.program), ("ninja", "ninja"))}
                of_tools[tool] = figures_of(programs, words, folder)
        rules = of_tools["rules"]
        yield [shape, *(share(of_tools[tool], 0) for tool in ratios.TOOLS), share(rules, 1), rules["ours"][0], rules["ours"][1] / MB]


def compiled_floor(folder):
    """The program of floor.c."""
    program = os.path.join(folder, "floor")
    subprocess.run([os.environ.get("CC", "cc"), "-O2", "-o", program, ROOT / "bench/floor.c"], check=True)
    return program


def manifests_in(folder):
    """The paths of the manifests, and how many edges they have."""
    paths = [os.path.join(place, name) for place, _, names in os.walk(folder) for name in names if name.endswith(".ninja")]
    return paths, sum(Path(path).read_bytes().count(b"\nbuild ") for path in paths)


def limits(words):
    """How far a run is from reading the bytes alone, and the cost of a million edges."""
    with tempfile.TemporaryDirectory() as room:
        floor, listed = compiled_floor(room), os.path.join(room, "list")
        for shape, write in ratios.SHAPES.items():
            with tempfile.TemporaryDirectory() as folder:
                write(folder)
                paths, edges = manifests_in(folder)
                Path(listed).write_text("".join(f"{path}\n" for path in paths))
                size = sum(map(os.path.getsize, paths))
                figures = figures_of({"ours": [words.program, "-t", "rules"], "floor": [floor, listed]}, words, folder)
            (time, memory), millions = figures["ours"], edges / 1_000_000
            yield [shape, edges, len(paths), size / MB, time / figures["floor"][0], time / millions, memory / MB / millions]


def every_tool(words):
    """Each tool with its options, on two shapes of 100,000 statements."""
    rows = {}
    for shape in ("cmake", "dense"):
        with tempfile.TemporaryDirectory() as folder:
            place = tools.make(folder, shape, 100_000)
            for tool, of_tool in tools.tools_of(shape, 100_000).items():
                programs = {"ours": tools.command_of(words.program, of_tool, place), "ninja": tools.command_of("ninja", of_tool, place)}
                figures = figures_of(programs, words, place)
                rows.setdefault(tool, [tool]).extend([share(figures, 0), share(figures, 1)])
    return rows.values()


def hostile(words):
    """Shapes that hurt a careless reader, each at two sizes."""
    for shape in HOSTILE:
        before = None
        for count in (size // FEWER.get(shape, 1) for size in HOSTILE_SIZES):
            with tempfile.TemporaryDirectory() as folder:
                with open(os.path.join(folder, "build.ninja"), "w") as file:
                    write_shape(count, file, shape)
                if cycle_line(shape, count):
                    figures = figures_of({"ours": [words.program, "-t", "rules"]}, words, folder, status=1)
                else:
                    figures = beside_ninja(["rules"], words, folder)
            time, memory = figures["ours"]
            ninja = [share(figures, 0), share(figures, 1)] if "ninja" in figures else [None, None]
            yield [shape, count, time, ninja[0], time / before if before else None, memory / MB, ninja[1]]
            before = time


def loading(words):
    """Many files, and many bindings in one."""
    kinds = {f"{FILES:,} files of 100 bindings": (write_tree, FILES), f"{BINDINGS:,} bindings, near": (write_near, BINDINGS)}
    kinds[f"{BINDINGS:,} bindings, far"] = write_far, BINDINGS
    for flags, length in ((FLAGS, "long"), ("", "short")):
        for name, (write, count) in kinds.items():
            with tempfile.TemporaryDirectory() as folder:
                size = write(folder, count, flags)
                figures = beside_ninja(["rules"], words, folder)
            time, memory = figures["ours"]
            yield [f"{name}, {length}", size / MB, time, share(figures, 0), memory / size, share(figures, 1)]


def doubling(words):
    """Instructions for twice the manifest, at each of three doublings."""
    for shape in growth.SHAPES:
        counted = argparse.Namespace(program=words.program, tools=ratios.TOOLS)
        figures = list(growth.figures_of(counted, shape))
        for tool in ratios.TOOLS:
            counts = [of_tool[tool] for _, of_tool in figures]
            yield [f"{shape}, {tool}", counts[0] / MB, *(new / old for old, new in zip(counts, counts[1:]))]


def chosen_names(words):
    """Names that collide where the number of a run is known, beside others."""
    with tempfile.TemporaryDirectory() as folder:
        chosen = flood.chosen_names(folder, 5_000)
        for table, collide, usual in flood.seconds([words.program, "-t", "rules"], folder, chosen, flood.LINES, words.rounds):
            yield [table, collide, usual, collide / usual]


def joining(words):
    for size in (10_000, 100_000):
        load, join, memory, joined = dyndeps.costs(words.program, size, words.rounds)
        yield [size, load, join, join / load, memory / MB, joined / MB]


def apart(section, kept, rows):
    """The greatest difference between the ratios of two runs, and where it is."""
    _, head, _ = SECTIONS[section]
    places = RATIOS[section]
    pairs = [(abs(old[place] - new[place]), f"{new[0]}, {head[place]}") for old, new in zip(kept, rows, strict=True)
             for place in places if old[place] is not None]
    return [section, len(pairs), sum(difference > 0.03 for difference, _ in pairs), *max(pairs)]


def validating(words):
    for shape in validations.SHAPES:
        figures = validations.measure_size(words.program, shape, 100_000, words.rounds, {})
        plain, grown = figures["commands"], figures["commands --validations"]
        yield [shape, plain[1], grown[1] / plain[1], plain[2] / MB, grown[2] / MB]


# For each question the heads of its columns, and how its figures are written.
SECTIONS = {
    "runs": (runs, ["Manifest", "`rules`", "`commands`", "`compdb`", "`inputs`", "Memory", "Time of `rules`", "its memory"],
             ["{}", "{:.2f}", "{:.2f}", "{:.2f}", "{:.2f}", "{:.2f}", "{:.3f} s", "{:.0f} MB"]),
    "limits": (limits, ["Manifest", "Edges", "Files", "Read", "Time, of reading alone", "For a million edges", "their memory"],
               ["{}", "{:,}", "{:,}", "{:.1f} MB", "{:.1f}", "{:.2f} s", "{:,.0f} MB"]),
    "tools": (every_tool, ["Tool", "`cmake`, time", "memory", "`dense`, time", "memory"], ["`{}`", "{:.2f}", "{:.2f}", "{:.2f}", "{:.2f}"]),
    "hostile": (hostile, ["Shape", "N", "Time", "of Ninja's", "Growth", "Memory", "of Ninja's"],
                ["`{}`", "{:,}", "{:.3f} s", "{:.2f}", "{:.1f}", "{:.1f} MB", "{:.2f}"]),
    "loading": (loading, ["Bindings", "Read", "Time", "of Ninja's", "Memory, of the bytes", "of Ninja's"],
                ["{}", "{:.1f} MB", "{:.3f} s", "{:.2f}", "{:.2f}", "{:.2f}"]),
    "doubling": (doubling, ["Shape and tool", "Instructions", "twice", "four times", "eight times"],
                 ["{}", "{:.1f} million", "{:.2f}", "{:.2f}", "{:.2f}"]),
    "names": (chosen_names, ["Table of", "Chosen names", "Other names", "Ratio"], ["{}", "{:.3f} s", "{:.3f} s", "{:.2f}"]),
    "dyndeps": (joining, ["Edges", "Loading", "Joining", "to loading", "Memory", "with joining"],
                ["{:,}", "{:.3f} s", "{:.3f} s", "{:.2f}", "{:.0f} MB", "{:.0f} MB"]),
    "validations": (validating, ["Shape", "`commands`", "with the option", "Memory", "with it"],
                    ["`{}`", "{:.3f} s", "{:.2f} times", "{:.1f} MB", "{:.1f} MB"]),
}


# The columns of each question that are ratios of two programs in one run.
RATIOS = {"runs": range(1, 6), "tools": range(1, 5), "hostile": (3, 6), "loading": (3, 5)}

AGAIN = (None, ["Table", "Ratios", "more than 0.03 apart", "Greatest difference", "of"], ["{}", "{}", "{}", "{:.3f}", "{}"])


def table(section, rows):
    _, head, forms = AGAIN if section == "again" else SECTIONS[section]
    lines = [head, ["---"] * len(head)]
    lines += [["" if value is None else form.format(value) for form, value in zip(forms, row)] for row in rows]
    return "\n".join(f"| {' | '.join(line)} |" for line in lines)


def draw(figures):
    """Writes the tables into the document, between the comments that name them, and the pictures beside it."""
    document = DOCUMENT.read_text()
    for section, rows in figures["rows"].items():
        marks = re.compile(rf"(<!-- {section} -->\n).*?(<!-- end -->)", re.DOTALL)
        document = marks.sub(lambda found: f"{found[1]}{table(section, rows)}\n{found[2]}", document)
    machine = re.compile(r"(<!-- machine -->\n).*?(<!-- end -->)", re.DOTALL)
    DOCUMENT.write_text(machine.sub(lambda found: f"{found[1]}{figures['machine']}\n{found[2]}", document))
    by_shape = {row[0]: row for row in figures["rows"].get("runs", [])}
    pictured = {name: [by_shape[shape][1], by_shape[shape][5]] for shape, name in PICTURED.items() if shape in by_shape}
    title = "CPU time and memory of ninja-explain -t rules (Ninja = 1.0)"
    (PICTURES / "beside-ninja.svg").write_text(bars(title, ["CPU time", "memory"], pictured))
    of_tools = {row[0]: [row[1], row[3]] for row in figures["rows"].get("tools", [])}
    title = "CPU time of each tool (the same tool of Ninja = 1.0)"
    (PICTURES / "tools.svg").write_text(bars(title, ["cmake, 100,000 edges", "dense, 100,000 edges"], of_tools))


def machine():
    """The machine, the versions, and the load."""
    model = re.search(r"model name\s*: (.*)", Path("/proc/cpuinfo").read_text())
    ninja = subprocess.run(["ninja", "--version"], capture_output=True, text=True, check=True).stdout.strip()
    kit = subprocess.run(["rt", "version"], capture_output=True, text=True, check=True).stdout.strip()
    name = model[1] if model else platform.machine()
    return f"{os.cpu_count()} processors ({name}), Ninja {ninja},\n`{kit}`; the load was {os.getloadavg()[0]:.1f} at the end."


def main():
    parser = argparse.ArgumentParser()
    parser.add_argument("program", type=os.path.abspath, nargs="?")
    parser.add_argument("--only", default=",".join(SECTIONS))
    parser.add_argument("--rounds", type=int, default=ROUNDS)
    parser.add_argument("--again", action="store_true")
    parser.add_argument("--draw", action="store_true")
    words = parser.parse_args()
    figures = json.loads(FIGURES.read_text()) if FIGURES.exists() else {"rows": {}}
    for section in [] if words.draw else words.only.split(","):
        print(section, flush=True)
        if words.again and section not in RATIOS:
            continue
        rows = [list(row) for row in SECTIONS[section][0](words)]
        if words.again:
            others = [row for row in figures["rows"].get("again", []) if row[0] != section]
            figures["rows"]["again"] = [*others, apart(section, figures["rows"][section], rows)]
        else:
            figures["rows"][section] = rows
            figures["machine"] = machine()
        FIGURES.write_text(json.dumps(figures, indent=1) + "\n")
    draw(figures)


if __name__ == "__main__":
    main()

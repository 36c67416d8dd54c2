#!/usr/bin/env python3
"""Compares the discoveries of dyndep files with Ninja's, on generated files.

Ninja's `query` loads the dyndep file of the edge that makes the file in question, and lists the
inputs of that edge. They are compared with those that `query --dyndep` lists. If Ninja refuses the
dyndep file, ninja-explain has to refuse it too. Ninja's `query` does not look for cycles, so edges
of graphs with a cycle are left out. Each difference is printed, and its directory is kept. The last
line has the counts.
"""

import argparse
import collections
import pathlib
import random
import shutil
import subprocess
import tempfile

SOURCES = ["a", "b", "c d", "e:f", "./g", "x/../h", "i"]
VERSIONS = ["1"] * 8 + ["1.0"] * 4 + ["2", "1.1", "0.9", "1.0-x", "$v"]


def escaped(paths):
    """The paths as words of a line, each after a space."""
    return "".join(
        " " + path.replace("$", "$$").replace(" ", "$ ").replace(":", "$:") for path in paths
    )


class Project:
    """A random manifest, with edges bound to the dyndep file `dd`, and that file."""

    def __init__(self, chance):
        self.chance = chance
        self.outputs = []
        self.bound = []
        self.others = []
        self.manifest = ["rule r", "  command = cc $in -o $out"]
        for number in range(chance.randint(1, 6)):
            self.edge(number)
        self.dyndep = self.version() + [line for edge in self.listed() for line in self.entry(edge)]

    def edge(self, number):
        outputs = [self.chance.choice(["o%d", "d/o%d", "o %d", "./p%d"]) % number]
        if self.chance.random() < 0.3:
            outputs.append(f"q{number}")
        known = SOURCES + self.outputs
        inputs = self.chance.choices(known, k=self.chance.randint(0, 2))
        order_only = self.chance.choices(known, k=self.chance.randint(0, 1))
        is_bound = self.chance.random() < 0.8
        if is_bound:
            self.chance.choice([inputs, order_only]).append("dd")
        self.manifest.append(f"build{escaped(outputs)}: r{escaped(inputs)} ||{escaped(order_only)}")
        if is_bound:
            self.manifest.append("  dyndep = dd")
        (self.bound if is_bound else self.others).append(outputs)
        self.outputs += outputs

    def version(self):
        if self.chance.random() < 0.03:
            return []
        return [f"ninja_dyndep_version = {self.chance.choice(VERSIONS)}"]

    def listed(self):
        """The edges with an entry, which are mostly those that are bound to the file."""
        edges = list(self.bound)
        self.chance.shuffle(edges)
        kind = self.chance.random()
        if kind < 0.05:
            return edges[1:]
        if kind < 0.1:
            return edges + [self.chance.choice(self.others + self.bound + [["no output"]])]
        return edges

    def entry(self, outputs):
        new = [f"m{self.chance.randint(0, 99)}", f"./n {self.chance.randint(0, 99)}", "a"]
        implicit = self.chance.choices(new, weights=[8, 8, 1], k=self.chance.choice([0, 0, 1, 2]))
        inputs = self.chance.choices(SOURCES + ["h1", "h2"], k=self.chance.choice([0, 0, 1, 2]))
        line = f"build{escaped([self.chance.choice(outputs)])}"
        line += f" |{escaped(implicit)}" if implicit else ""
        line += ": dyndep" if self.chance.random() < 0.98 else ": r"
        line += f" |{escaped(inputs)}" if inputs else ""
        blocks = [[], ["  restat = 1"], ["  restat ="], ["  depth = 1"]]
        return [line] + self.chance.choices(blocks, weights=[12, 2, 1, 1])[0]


def query(program, options, path, folder):
    """Standard error of a run, and the lines before the users of the file."""
    words = [program, "-t", "query", path] + options
    run = subprocess.run(words, cwd=folder, capture_output=True, check=False, timeout=60)
    return run.stderr, run.stdout.split(b"  outputs:")[0]


def compare(program, seed, counts):
    project = Project(random.Random(seed))
    folder = pathlib.Path(tempfile.mkdtemp(prefix=f"compare-dyndeps-{seed}-"))
    (folder / "build.ninja").write_text("".join(line + "\n" for line in project.manifest))
    (folder / "dd").write_text("".join(line + "\n" for line in project.dyndep))
    differences = 0
    for outputs in project.bound:
        theirs = query("ninja", [], outputs[0], folder)
        ours = query(program, ["--dyndep"], outputs[0], folder)
        if b"dependency cycle" in ours[0]:
            counts["edges left out, as the graph has a cycle"] += 1
            continue
        counts["edges refused by both" if theirs[0] and ours[0] else "edges joined"] += 1
        if bool(theirs[0]) != bool(ours[0]) or (not ours[0] and theirs[1] != ours[1]):
            differences += 1
            print(f"{folder}: query {outputs[0]}\n  Ninja: {theirs}\n  ninja-explain: {ours}")
    if not differences:
        shutil.rmtree(folder)
    return differences


def main():
    parser = argparse.ArgumentParser(description=__doc__.split("\n")[0])
    parser.add_argument("program", help="the program ninja-explain")
    parser.add_argument("--projects", type=int, default=1000, help="how many projects")
    parser.add_argument("--seed", type=int, default=0, help="the seed of the first project")
    words = parser.parse_args()
    program = str(pathlib.Path(words.program).resolve())
    counts = collections.Counter()
    found = sum(compare(program, words.seed + i, counts) for i in range(words.projects))
    print(", ".join(f"{count} {what}" for what, count in sorted(counts.items())), end="; ")
    print(f"{found} differences")
    raise SystemExit(1 if found else 0)


if __name__ == "__main__":
    main()

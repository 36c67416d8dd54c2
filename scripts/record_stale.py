#!/usr/bin/env python3
"""Writes tests/nj_call_rows/data/stale.rows: random builds, and which of their edges Ninja would run.

    scripts/record_stale.py NINJA

NINJA is a program of Ninja 1.13 or later. Each build has edges with implicit outputs, inputs of all
kinds, depfiles, `restat` and `generator`, and phony edges; files are there with random times or are not
there, and the build log has lines with random times and some commands that were changed. The wanted
lines of a row are the edges that `ninja -n -v -d explain` runs, each with its first explanation.
"""

import os
import random
import re
import shutil
import sys
import tempfile
from pathlib import Path

from lib.composed import TESTS
from lib.programs import Program

FILE = TESTS / "nj_call_rows/data/stale.rows"
BUILDS = 60
SEED = 1130
SECOND = 10**9
START = 1_700_000_000
HEAD = """\
# stale: the edges of `build.ninja` that are stale and not phony, each with its first reason. The file
#     `build-log` is a build log, `times` has lines `TIME PATH`; other files are depfiles.
#
# Random builds, and what Ninja {version} would run (`ninja -n -v -d explain`). scripts/record_stale.py
# writes this file.
"""
RULES = """\
rule run
  command = : $word
rule discover
  command = : $word
  depfile = $out.d
"""
RUN = re.compile(r"\[\d+/\d+\] : w(\d+)")
EXPLAINED = "ninja explain: "
# What a row shows of an explanation.
SHORT = re.compile(r"^(output \S+|recorded mtime of \S+) older .*$")
NO_DEPFILE = re.compile(r"^depfile '.*' is missing$")


def chosen(random_, pool, most):
    return list(dict.fromkeys(random_.choice(pool) for _ in range(random_.randint(0, most))))


class Edge:
    """A random edge, whose inputs are sources and outputs of edges before it."""

    def __init__(self, random_, number, pool):
        self.number = number
        self.outputs = [f"o{number}"] + ([f"p{number}"] if random_.random() < 0.3 else [])
        self.is_phony = random_.random() < 0.25
        self.discovers = not self.is_phony and random_.random() < 0.25
        self.explicit = chosen(random_, pool, 3)
        self.implicit = [it for it in chosen(random_, pool, 2) if it not in self.explicit]
        counted = self.explicit + self.implicit
        self.order_only = [it for it in chosen(random_, pool, 2) if it not in counted]
        self.restat = random_.random() < 0.3
        self.generator = random_.random() < 0.2
        self.word = f"w{number}"
        self.found = chosen(random_, pool, 2) if random_.random() < 0.8 else None

    def lines(self):
        rule = "phony" if self.is_phony else "discover" if self.discovers else "run"
        outputs = " | ".join(self.outputs)
        parts = (("", self.explicit), (" |", self.implicit), (" ||", self.order_only))
        inputs = "".join(mark + "".join(f" {it}" for it in them) for mark, them in parts if them)
        yield f"build {outputs}: {rule}{inputs}"
        if not self.is_phony:
            yield f"  word = {self.word}"
            yield from ["  restat = 1"] * self.restat
            yield from ["  generator = 1"] * self.generator


def manifest(edges):
    return RULES + "".join(f"{line}\n" for edge in edges for line in edge.lines())


class Build:
    """A random build in a directory, with a log of Ninja's own hashes."""

    def __init__(self, random_, ninja, folder):
        self.random, self.ninja, self.folder = random_, ninja, folder
        self.sources = [f"s{number}" for number in range(random_.randint(1, 4))]
        pool = list(self.sources)
        self.edges = []
        for number in range(random_.randint(2, 9)):
            self.edges.append(Edge(random_, number, pool))
            pool += self.edges[-1].outputs
        self.log = self.random_log()
        for edge in self.edges:
            edge.word += "x" * (random_.random() < 0.1)
        self.times = dict(self.random_times())
        self.depfiles = {f"{it.outputs[0]}.d": it for it in self.edges if it.discovers and it.found is not None}
        self.write()

    def random_log(self):
        """A log with random times, and without some outputs."""
        (self.folder / "build.ninja").write_text(manifest(self.edges))
        for source in self.sources:
            (self.folder / source).touch()
        self.ninja.run([], self.folder)
        path = self.folder / ".ninja_log"
        first, *lines = path.read_text().splitlines() if path.exists() else ["# ninja log v7"]
        hashes = {line.split("\t")[3]: line.split("\t")[4] for line in lines}
        kept = [it for it in hashes if self.random.random() < 0.85]
        return [first, *(f"0\t1\t{self.random_time()}\t{it}\t{hashes[it]}" for it in kept)]

    def random_time(self):
        return (START + self.random.randint(0, 6)) * SECOND

    def random_times(self):
        for source in self.sources:
            if self.random.random() < 0.98:
                yield source, self.random_time()
        for edge in self.edges:
            for output in edge.outputs:
                if self.random.random() < (0.2 if edge.is_phony else 0.9):
                    yield output, self.random_time()

    def depfile(self, edge):
        return f"{edge.outputs[0]}: {' '.join(edge.found)}\n"

    def write(self):
        shutil.rmtree(self.folder)
        self.folder.mkdir()
        (self.folder / "build.ninja").write_text(manifest(self.edges))
        (self.folder / ".ninja_log").write_text("".join(f"{line}\n" for line in self.log))
        for name, edge in self.depfiles.items():
            (self.folder / name).write_text(self.depfile(edge))
        for path, time in self.times.items():
            (self.folder / path).touch()
            os.utime(self.folder / path, ns=(time, time))

    def run(self):
        """The edges that Ninja would run, each with its first explanation; `None` where it refuses."""
        ran = self.ninja.run_by_shell(["-n", "-v", "-d", "explain"], self.folder, after="2>&1")
        return None if ran.status else explained(ran.output.decode().splitlines())

    def row(self, reasons):
        files = {
            "build.ninja": manifest(self.edges).splitlines(),
            "times": [f"{time} {path}" for path, time in self.times.items()],
            "build-log": [line.replace("\t", "<09>") for line in self.log],
            **{name: [self.depfile(edge).strip()] for name, edge in self.depfiles.items()},
        }
        texts = "".join(f"file {name}\n{indented(lines)}" for name, lines in files.items())
        wanted = [f"{self.edges[it].outputs[0]}: {reasons[it]}" for it in sorted(reasons)]
        return f"{texts}stale\n{indented(wanted)}"


def explained(lines):
    """The first explanation before each edge that is run."""
    reasons, told = {}, []
    for line in lines:
        if line.startswith(EXPLAINED):
            told.append(line.removeprefix(EXPLAINED))
        elif run := RUN.match(line):
            reasons[int(run[1])] = NO_DEPFILE.sub("depfile is missing", SHORT.sub(r"\1 older", told[0]))
            told = []
    return reasons


def indented(lines):
    return "".join(f"    {line}\n" for line in lines)


def main():
    ninja = Program(sys.argv[1])
    version = ninja.run(["--version"], ".").output.decode().strip()
    random_ = random.Random(SEED)
    parts = [HEAD.format(version=version)]
    with tempfile.TemporaryDirectory() as place:
        while len(parts) <= BUILDS:
            folder = Path(place) / "build"
            folder.mkdir()
            build = Build(random_, ninja, folder)
            reasons = build.run()
            shutil.rmtree(folder)
            if reasons:
                parts.append(f"== build {len(parts)}\n\n{build.row(reasons)}")
    FILE.write_text("\n".join(parts))
    print(f"{FILE.name}: {len(parts) - 1} rows")


if __name__ == "__main__":
    main()

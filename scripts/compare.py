#!/usr/bin/env python3
"""Compares the output of the tools with the output of Ninja's, on generated manifests.

A manifest has rules, pools, bindings, build statements, defaults, includes and subninjas, with
escapes, references, joined lines and paths that are not clean. The outputs are compared if both
programs accept the manifest. The known differences, which the man page lists, are left out or
evened out first. Each difference is printed, and its directory is kept. The last line has the counts.
"""

import argparse
import collections
import json
import pathlib
import random
import shutil
import subprocess
import tempfile

SOURCES = [
    "a", "b", "x.c", "dir/a", "dir/../a", "./b", "a//b", "../up", "dir/sub/c", "z y", "q:r", "p$v",
    "A-b.c", "_u", "é", "it's", "a b c", "100%", "x=1", "n|p", "h#1",
]
OUTPUTS = ["o%d", "d/o%d", "./o%d", "d/../o%d", "o %d", "o:%d", "o'%d", "o%d.o", "..//o%d", "é%d"]
VARIABLES = ["v", "w", "flags", "x1", "cc", "in_dir", "out-dir", "a.b", "in", "out"]
RULE_KEYS = ["description", "depfile", "generator", "restat", "deps", "msvc_deps_prefix"]
COMMANDS = [
    "cc $in -o $out", "cc $flags -c $in", "$cc $in_newline > $out", "x @$rspfile $in",
    "echo $description",
]
PARTS = ["foo", "-O2", "bar baz", "  ", '"q"', "'", "|", ":", "#", "a/b", "=", "$$", "$ ", "$:"]


class Manifest:
    """The files of a random manifest."""

    def __init__(self, chance):
        self.chance = chance
        self.files = {}
        self.rules = ["phony"]
        self.pools = ["console", ""]
        self.outputs = []
        self.count = 0
        self.files["build.ninja"] = self.text(0)

    def number(self):
        self.count += 1
        return self.count

    def blanks(self):
        return " " * self.chance.choice([0, 1, 1, 1, 2])

    def reference(self, names):
        return self.chance.choice(["${%s}", "${%s}/", "${%s} "]) % self.chance.choice(names)

    def value(self, names=VARIABLES):
        parts = []
        for _ in range(self.chance.randint(0, 4)):
            kind = self.chance.random()
            if kind < 0.5:
                parts.append(self.chance.choice(PARTS))
            elif kind < 0.85:
                parts.append(self.reference(names))
            else:
                parts.append("$\n" + " " * self.chance.randint(0, 4))
        return "".join(parts)

    def binding(self, names):
        name = self.chance.choice(names)
        return f"{name}{self.blanks()}={self.blanks()}{self.value()}"

    def escaped(self, path):
        return path.replace("$", "$$").replace(" ", "$ ").replace(":", "$:")

    def input(self):
        kind = self.chance.random()
        if self.outputs and kind < 0.55:
            return self.escaped(self.chance.choice(self.outputs))
        if kind < 0.95:
            return self.escaped(self.chance.choice(SOURCES))
        return "d/" + self.reference(VARIABLES).strip() + "t"

    def inputs(self, counts):
        return [self.input() for _ in range(self.chance.choice(counts))]

    def new_outputs(self, counts):
        paths = [
            self.chance.choice(OUTPUTS) % self.number()
            for _ in range(self.chance.choice(counts))
        ]
        self.outputs += paths
        return [self.escaped(path) for path in paths]

    def rule(self):
        name = self.chance.choice(["cc%d", "r.%d", "R-%d"]) % self.number()
        lines = [("command", self.chance.choice(COMMANDS + [self.value() + "x"]))]
        lines += [(key, self.value()) for key in RULE_KEYS if self.chance.random() < 0.15]
        if self.chance.random() < 0.15:
            lines.append(("pool", self.chance.choice(self.pools)))
        if self.chance.random() < 0.2:
            lines += [("rspfile", "$out.rsp"), ("rspfile_content", "$in_newline" + self.value())]
        self.chance.shuffle(lines)
        self.rules.append(name)
        return [f"rule {name}"] + [f"  {key}{self.blanks()}= {value}" for key, value in lines]

    def build(self):
        inputs = self.inputs([0, 1, 1, 2, 3, 4])
        sections = [("|", [0, 0, 1, 2]), ("||", [0, 0, 0, 1, 2]), ("|@", [0, 0, 0, 0, 1])]
        for sign, counts in sections:
            paths = self.inputs(counts)
            if paths:
                inputs += [sign] + paths
        outputs = self.new_outputs([1, 1, 1, 1, 2, 3])
        implicit = self.new_outputs([0, 0, 0, 1, 2])
        if implicit:
            outputs += ["|"] + implicit
        rule = self.chance.choice(self.rules)
        line = " ".join(["build"] + outputs + [self.chance.choice([":", " :"])]).replace(" :", ":")
        lines = [" ".join([line, rule] + inputs)]
        for _ in range(self.chance.choice([0, 0, 1, 2])):
            lines.append("  " + self.binding(VARIABLES + ["description", "rspfile", "command"]))
        return lines

    def included(self, depth):
        name = f"f{self.number()}.ninja"
        keyword = self.chance.choice(["include", "subninja"])
        rules = list(self.rules)
        self.files[name] = self.text(depth + 1)
        if keyword == "subninja":
            self.rules = rules
        return [f"{keyword} {name}"]

    def text(self, depth):
        lines = []
        for _ in range(self.chance.randint(1, 8)):
            kind = self.chance.random()
            if kind < 0.2:
                lines += self.rule()
            elif kind < 0.32:
                lines.append(self.binding(VARIABLES))
            elif kind < 0.8:
                lines += self.build()
            elif kind < 0.84 and self.outputs:
                lines.append("default " + self.escaped(self.chance.choice(self.outputs)))
            elif kind < 0.88:
                pool = f"p{self.number()}"
                self.pools.append(pool)
                lines += [f"pool {pool}", f"  depth = {self.chance.randint(0, 4)}"]
            elif kind < 0.95 and depth < 3:
                lines += self.included(depth)
            else:
                lines.append(self.chance.choice(["# a comment", "  # indented", "", "   "]))
        end = "\r\n" if self.chance.random() < 0.05 else "\n"
        return "".join(line.replace("\n", end) + end for line in lines)


def without_repeated_users(output):
    """The lines of `query`, each user once: Ninja lists an edge for each input that it names."""
    kept, users = [], None
    for line in output.split(b"\n"):
        if not line.startswith(b"    "):
            users = set() if line == b"  outputs:" else None
        elif users is not None:
            if line in users:
                continue
            users.add(line)
        kept.append(line)
    return kept


def objects(output, phony):
    """The objects of `compdb` except for phony edges, without their directory."""
    return [
        {key: value for key, value in each.items() if key != "directory"}
        for each in json.loads(output)
        if each["output"].encode() not in phony
    ]


class Comparison:
    """The two programs, and the counts."""

    def __init__(self, program):
        self.program = str(pathlib.Path(program).resolve())
        self.counts = collections.Counter()
        self.differences = []

    def run(self, program, words, folder):
        run = subprocess.run(
            [program, "-t"] + words, cwd=folder, capture_output=True, check=False, timeout=60
        )
        return run.returncode, run.stdout

    def compare(self, words, folder, form=lambda output: output):
        theirs = self.run("ninja", words, folder)
        ours = self.run(self.program, words, folder)
        self.counts["outputs compared"] += 1
        same = (theirs[0] == 0) == (ours[0] == 0)
        if not same or (ours[0] == 0 and form(theirs[1]) != form(ours[1])):
            self.differences.append((words, theirs, ours))

    def tools(self, manifest, folder, chance):
        outputs = self.run("ninja", ["targets", "all"], folder)[1].split(b"\n")
        phony = {line[: -len(b": phony")] for line in outputs if line.endswith(b": phony")}
        for words in ([], ["all"], ["depth", "1"], ["depth", "3"]):
            self.compare(["targets"] + words, folder)
        self.compare(["targets", "rule"], folder, lambda text: sorted(set(text.split(b"\n"))))
        for rule in manifest.rules:
            self.compare(["targets", "rule", rule], folder)
        self.compare(["rules"], folder)
        self.compare(["rules", "-d"], folder)
        self.compare(["commands"], folder)
        if manifest.outputs:
            paths = [chance.choice(manifest.outputs) for _ in range(2)]
            self.compare(["commands"] + paths, folder)
            self.compare(["commands", "-s"] + paths, folder)
            self.compare(["inputs"] + paths, folder, lambda text: sorted(text.split(b"\n")))
            self.compare(["query"] + paths, folder, without_repeated_users)
            self.compare(["commands", paths[0] + "^"], folder)
        rules = [rule for rule in manifest.rules if rule != "phony"]
        for options in ([], ["-x"]):
            self.compare(["compdb"] + options + rules, folder, lambda text: objects(text, phony))

    def manifest(self, seed):
        chance = random.Random(seed)
        manifest = Manifest(chance)
        folder = pathlib.Path(tempfile.mkdtemp(prefix=f"compare-{seed}-"))
        for name, text in manifest.files.items():
            (folder / name).write_bytes(text.encode())
        theirs = self.run("ninja", ["rules"], folder)[0] == 0
        ours = self.run(self.program, ["rules"], folder)[0] == 0
        accepted = {(True, True): "both", (True, False): "only Ninja", (False, False): "neither"}
        who = accepted.get((theirs, ours), "only ninja-explain")
        self.counts[f"accepted by {who}"] += 1
        self.differences = []
        if theirs and ours:
            self.tools(manifest, folder, chance)
        elif ours:
            self.differences.append((["rules"], "refused", "accepted"))
        for words, theirs, ours in self.differences:
            print(f"{folder}: {' '.join(words)}\n  Ninja: {theirs}\n  ninja-explain: {ours}")
        if not self.differences:
            shutil.rmtree(folder)
        return len(self.differences)


def main():
    parser = argparse.ArgumentParser(description=__doc__.split("\n")[0])
    parser.add_argument("program", help="the program ninja-explain")
    parser.add_argument("--manifests", type=int, default=1000, help="how many manifests")
    parser.add_argument("--seed", type=int, default=0, help="the seed of the first manifest")
    words = parser.parse_args()
    comparison = Comparison(words.program)
    found = sum(comparison.manifest(words.seed + i) for i in range(words.manifests))
    counts = ", ".join(f"{count} {what}" for what, count in sorted(comparison.counts.items()))
    print(f"{counts}; {found} differences")
    raise SystemExit(1 if found else 0)


if __name__ == "__main__":
    main()

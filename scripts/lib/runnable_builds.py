"""Random projects that Ninja builds: a manifest, its files, and a script that compiles them.

Sources and headers are lines such as `#include "h1.h"`, so the script and `cc` find the same headers.
Each command begins with `: OUTPUT;`, its edge's first output: what Ninja prints names the edges.
"""

import shutil
from dataclasses import dataclass, field

from lib.random_builds import Build, Edge, some

SCRIPT, DYNDEPS = "compile.sh", ["dd", "dd2"]
PLAIN_HEADERS = ["h0.h", "h1.h", "h2.h", "h3.h", "sub/h4.h"]
# A phony edge on the generated ones.
HEADERS = "headers"
# Writes the headers that the sources include into a depfile, and makes the outputs.
COMPILE = """\
set -e
out=$1 more=$2 found= listed=
shift 2
scan() {{
  while read -r word path; do
    path=${{path#?}} path=${{path%?}}
    case " $found " in *" $path "*) continue;; esac
    found="$found $path"
    scan "$path"
  done < "$1"
}}
for source; do
  found="$found $source"
  scan "$source"
done
for it in $more; do case $it in *.mod) ;; *) listed="$listed $it";; esac; done
{{
  printf '%s:%s\\n' "{targets}" "{end}$found"
  {others}
}} > "$out.d"
for it in $out $more; do echo "$found" > "$it"; done
"""
# How a depfile names its outputs, what comes before the inputs, and what other lines it has.
TARGETS = ["$out", "./$out", "$out$listed"]
ENDS = ["", " \\\\\n"]
OTHERS = [":", "for it in $found; do printf '\\n%s:\\n' $it; done"]
# The rules that compile: Ninja keeps what the depfile says in its log, or the file, or there is none.
DEPENDENCIES = {"cc_log": ["depfile", "deps"], "cc_file": ["depfile"], "cc_none": []}
BOUND = {"depfile": "$out.d", "deps": "gcc"}
BY_SCRIPT = ": $out; sh compile.sh '$out' '$more' $in"
BY_CC = ": $out; cc -MMD -MF $out.d -I. -c $in -o $out; for it in $more; do : > $$it; done"
RULES = {
    "generate": {"command": ": $out; cp $in $out"},
    "generate_new": {"command": ": $out; cmp -s $in $out || cp $in $out", "restat": "1"},
    "join": {"command": ": $out; cat $in > $out"},
    "join_new": {"command": ": $out; echo $in > $out.t; cmp -s $out.t $out || cp $out.t $out", "restat": "1"},
    "regenerate": {"command": ": $out; cp $in $out", "generator": "1"},
}
VERSION = "ninja_dyndep_version = 1\n"
# The files of a small project.
SMALL = {
    "gen0.in": '#include "h1.h"\n',
    "s0.c": '#include "h0.h"\n',
    "s1.c": '#include "gen0.h"\n',
    "s2.c": '#include "h2.h"\n',
    "s3.c": '#include "h0.h"\n#include "h2.h"\n',
    "h0.h": "",
    "h1.h": "",
    "h2.h": "",
    "h3.h": "",
}


@dataclass
class Project:
    """A build with its files."""

    build: Build
    files: dict = field(default_factory=dict)
    folder_of_logs: str = ""
    # The dyndep files by the files that have their texts: each by itself, or by its source.
    dyndeps: dict = field(default_factory=dict)
    # The output that a dyndep file adds to an edge, by the first output of the edge.
    added: dict = field(default_factory=dict)

    def edges(self):
        """The edges that run commands."""
        return [edge for edge in self.build.edges if not edge.is_phony()]

    def outputs(self):
        return [path for edge in self.build.edges for path in edge.outputs]

    def phony(self):
        """The outputs that no command makes."""
        return [path for edge in self.build.edges if edge.is_phony() for path in edge.outputs]

    def firsts(self):
        return {edge.outputs[0]: edge for edge in self.edges()}

    def made_from(self, firsts):
        """The first outputs of these edges, and of those that are made from their outputs."""
        reached = {path for first in firsts for path in self.firsts()[first].outputs}
        for _ in self.build.edges:
            for edge in self.build.edges:
                if reached & {path for bars, path in edge.inputs if bars != "||"}:
                    reached.update(edge.outputs)
        return reached & {*self.firsts()}

    def without(self, dyndeps):
        """The edges that neither make nor need these dyndep files. An edge may need each other one that
        has the same dyndep file."""
        barred = {*dyndeps}
        for _ in self.build.edges:
            for edge in self.build.edges:
                dyndep = edge.bound.get("dyndep")
                joined = [it for it in self.build.edges if dyndep and it.bound.get("dyndep") == dyndep]
                needed = [path for it in [edge, *joined] for _, path in it.inputs]
                if barred & {*edge.outputs, *needed}:
                    barred.update(edge.outputs)
        return [edge for edge in self.build.edges if not barred & {*edge.outputs}]

    def sources(self):
        """The files that no edge makes, without the manifest and the script."""
        return [path for path in self.files if path not in (SCRIPT, "build.ninja")]

    def log(self, name):
        return f"{self.folder_of_logs}/{name}".lstrip("/")

    def manifest(self):
        opening = f"builddir = {self.folder_of_logs}\n" if self.folder_of_logs else ""
        return opening + self.build.text()


def includes(chance, paths, most=2):
    """Lines that include some of these files."""
    found = [chance.choice(["", "", "", "./"]) + path for path in some(chance, paths, most)]
    return "".join(f'#include "{path}"\n' for path in found)


def add_headers(chance, project):
    """Headers, which include later ones, and edges that generate others. Returns those."""
    for number, path in enumerate(PLAIN_HEADERS):
        project.files[path] = includes(chance, PLAIN_HEADERS[number + 1 :])
    made = []
    for number in range(chance.choice([0, 1, 2, 2])):
        source, path = f"gen{number}.in", f"gen{number}.h"
        project.files[source] = includes(chance, PLAIN_HEADERS)
        rule = chance.choice(["generate", "generate", "generate_new"])
        project.build.edges.append(Edge(rule, [path], [("", source)]))
        made.append(path)
    if made and chance.random() < 0.3:
        project.build.edges.append(Edge("phony", [HEADERS], [("", path) for path in made]))
    return made


def add_dyndeps(chance, project, generated):
    """Dyndep files, or none: each a file of its own, or one that an edge makes, perhaps after headers."""
    for path in DYNDEPS[: chance.choice([0, 0, 1, 2])]:
        if chance.random() < 0.3:
            project.dyndeps[path] = path
        else:
            source = f"{path}.in"
            project.dyndeps[source] = path
            after = [("||", path) for path in some(chance, generated, 1)]
            project.build.edges.append(Edge("generate", [path], [("", source), *after]))


def compiling_edge(chance, project, number, generated, earlier):
    """An edge that compiles a new source, whose order-only inputs are most generated headers, or all
    by the name of a phony edge."""
    source = f"s{number}.c"
    project.files[source] = includes(chance, PLAIN_HEADERS) + includes(chance, generated)
    outputs = [f"o{number}.o", f"o{number}.lst"][: chance.choice([1, 1, 2])]
    inputs = [("", source)]
    inputs += [("|", path) for path in some(chance, [*PLAIN_HEADERS, *earlier], 1)]
    first = [HEADERS] if HEADERS in project.outputs() else generated
    inputs += [("||", path) for path in first if chance.random() < 0.8]
    inputs += [("||", path) for path in some(chance, earlier, 1)]
    edge = Edge(chance.choice([*DEPENDENCIES]), outputs, sorted(inputs, key=lambda it: len(it[0])))
    edge.bound = {"more": " ".join(outputs[1:])}
    return edge


def bind_dyndep(chance, project, edge, dyndep):
    """Has the edge read this dyndep file, perhaps with an output of which only that file tells."""
    edge.inputs.append(("||" if chance.random() < 0.7 else "|", dyndep))
    edge.inputs.sort(key=lambda it: len(it[0]))
    edge.bound["dyndep"] = dyndep
    if chance.random() < 0.6:
        path = edge.outputs[0][:-1] + "mod"
        project.added[edge.outputs[0]] = path
        edge.bound["more"] += f" {path}"


def dyndep_text(chance, project, dyndep):
    """What this dyndep file says. A discovered output is an input of edges with the same file alone:
    others could be visited before that file was read."""
    lines, before = [], []
    for edge in project.build.edges:
        if edge.bound.get("dyndep") == dyndep:
            added = project.added.get(edge.outputs[0])
            found = some(chance, PLAIN_HEADERS, 1) + some(chance, before, 2)
            outputs = f"{edge.outputs[0]} | {added}" if added else edge.outputs[0]
            lines.append(f"build {outputs}: dyndep{' | ' * bool(found)}{' '.join(found)}\n")
            lines += ["  restat = 1\n"] * (chance.random() < 0.1)
            before += [added] if added else []
    return VERSION + "".join(lines)


def add_ends(chance, project, compiled):
    """Edges on what was compiled, with phony edges between them."""
    files, phony = [*compiled], []
    for number in range(chance.randint(1, 4)):
        if chance.random() < 0.4:
            kinds = ["", "", "|", "||"]
            inputs = [(chance.choice(kinds), path) for path in chance.sample(files, min(2, len(files)))]
            inputs += [("", path) for path in some(chance, phony, 1)]
            edge = Edge("phony", [f"all{number}"], sorted(inputs, key=lambda it: len(it[0])))
            phony += edge.outputs
        else:
            inputs = [("", path) for path in chance.sample(files, min(len(files), chance.randint(1, 3)))]
            inputs += [(chance.choice(["|", "||"]), path) for path in some(chance, phony, 1)]
            rule = chance.choice(["join", "join", "join_new"])
            edge = Edge(rule, [f"lib{number}"], sorted(inputs, key=lambda it: len(it[0])))
            files += edge.outputs
        project.build.edges.append(edge)
    if chance.random() < 0.03:
        always = Edge("join", ["libx"], [("", files[0]), ("|", "always")])
        project.build.edges += [Edge("phony", ["always"], []), always]


def rules_of(by_cc):
    """The rules, whose commands are those of a script or of `cc`."""
    rules = {name: {**bound} for name, bound in RULES.items()}
    for name, variables in DEPENDENCIES.items():
        command = BY_CC if by_cc else BY_SCRIPT
        rules[name] = {"command": command} | {it: BOUND[it] for it in variables}
    return rules


def script(chance):
    """The script that compiles, with one of the ways to write a depfile."""
    how = {"targets": chance.choice(TARGETS), "end": chance.choice(ENDS), "others": chance.choice(OTHERS)}
    return COMPILE.format(**how)


def random_project(chance):
    """A project of some 5 to 15 edges; a few are compiled by `cc`, where it is installed."""
    by_cc = chance.random() < 0.04 and bool(shutil.which("cc"))
    project = Project(Build(rules_of(by_cc), [], [], []))
    project.files[SCRIPT] = script(chance)
    project.folder_of_logs = chance.choice(["", "", "logs"])
    generated = add_headers(chance, project)
    add_dyndeps(chance, project, generated)
    dyndeps = [*project.dyndeps.values()]
    compiled = []
    for number in range(chance.randint(2, 5)):
        edge = compiling_edge(chance, project, number, generated, compiled)
        if dyndeps and (number < len(dyndeps) or chance.random() < 0.6):
            dyndep = dyndeps[number] if number < len(dyndeps) else chance.choice(dyndeps)
            bind_dyndep(chance, project, edge, dyndep)
        project.build.edges.append(edge)
        compiled += edge.outputs
    add_ends(chance, project, compiled)
    for path, dyndep in project.dyndeps.items():
        project.files[path] = dyndep_text(chance, project, dyndep)
    if chance.random() < 0.1:
        project.build.edges.append(Edge("regenerate", ["build.ninja"], [("", "build.in")]))
        project.files["build.in"] = project.manifest()
    if chance.random() < 0.3:
        chance.shuffle(project.build.edges)
    project.files["build.ninja"] = project.manifest()
    return project


def small_project():
    """A project of few edges, some with their dependencies in the log."""
    edges = [
        Edge("generate", ["gen0.h"], [("", "gen0.in")]),
        Edge("cc_log", ["o0.o"], [("", "s0.c"), ("||", "gen0.h")], bound={"more": ""}),
        Edge("cc_log", ["o1.o"], [("", "s1.c"), ("||", "gen0.h")], bound={"more": ""}),
        Edge("cc_file", ["o2.o"], [("", "s2.c")], bound={"more": ""}),
        Edge("cc_log", ["o3.o"], [("", "s3.c"), ("|", "h3.h")], bound={"more": ""}),
        Edge("join", ["lib0"], [("", "o0.o"), ("", "o2.o")]),
    ]
    project = Project(Build(rules_of(False), [], edges, []), dict(SMALL))
    project.files[SCRIPT] = COMPILE.format(targets=TARGETS[0], end=ENDS[0], others=OTHERS[0])
    project.files["build.ninja"] = project.manifest()
    return project

"""Compares what ninja-graph reads in deps logs with Ninja's reading of them.

A small project in C is built by `ninja` and `cc`. Its deps log after a build, after another one
with other includes and after `ninja -t recompact`, and the second of these cut off at every byte,
are joined by `ninja-graph json`: the implicit inputs of an edge have to be those that it declares,
and then those that `ninja -t deps` lists for a copy of the log. tests/nj_call_rows/data/logs.rows has
what else a log says: its times, and up to which byte Ninja keeps it.
"""

import json
import re

from lib.checks import check, expect
from lib.programs import DONE, FAULT, LOOK, Program
from lib.projects import MAIN, Project, write_files

NINJA = Program("ninja")
LOG = ".ninja_deps"
MANIFEST = """\
rule cc
  command = cc -MMD -MF $out.d -c $in -o $out
  depfile = $out.d
  deps = gcc
rule generate
  command = echo '#define COUNT 2' > $out
rule mark
  command = touch $out && echo '$out:' > $out.d
  depfile = $out.d
  deps = gcc
build gen/count.h: generate
build a.o: cc a.c || gen/count.h
build b$ c.o: cc b$ c.c
build alone.o: cc alone.c
build stamp: mark
"""
SOURCES = {
    "a.c": '#include "a.h"\n#include "gen/count.h"\nint a = A + COUNT;\n',
    "b c.c": '#include "a.h"\n#include "sub/b.h"\nint b = A + B;\n',
    "alone.c": "int alone = 0;\n",
    "a.h": "#define A 1\n",
    "c.h": "#define C 3\n",
    "sub/b.h": '#include "../a.h"\n#define B A\n',
}
CHANGED = {"a.c": '#include "c.h"\n#include "gen/count.h"\nint a = C + COUNT;\n'}
# The inputs of the outputs, by hand; and after the change.
BEFORE = {
    "a.o": {"a.c", "a.h", "gen/count.h"},
    "b c.o": {"b c.c", "a.h", "sub/b.h"},
    "alone.o": {"alone.c"},
    "stamp": set(),
}
AFTER = {**BEFORE, "a.o": {"a.c", "c.h", "gen/count.h"}}
# How `ninja -t deps` begins the lines of an output, and how it warns of a log.
OUTPUT = re.compile(r"(.*): #deps \d+, deps mtime (\d+) \(\w+\)")
NOT_FOUND = ": deps not found"
NO_LOG, CUT_OFF = "starting over", "recovering"


def run_ninja(words, folder):
    ran = NINJA.run(words, folder).as_text()
    if ran.status != DONE:
        raise RuntimeError(f"ninja {' '.join(words)} ends with {ran}")
    return ran


def log_after(words, folder):
    """The deps log after a run of Ninja."""
    run_ninja(words, folder)
    return (folder / LOG).read_bytes()


def logs_of_project(made):
    """The manifest of the project, which is built in a directory, and its deps logs: after a build,
    after one with other files, and after that one is made compact."""
    Project({MAIN: MANIFEST, **SOURCES}, {}).write_to(made)
    first = log_after([], made)
    Project(CHANGED, {}).write_to(made)
    (made / "a.o").unlink()
    second = log_after([], made)
    return {MAIN: MANIFEST.encode()}, [first, second, log_after(["-t", "recompact"], made)]


def listed(text):
    """The outputs that `ninja -t deps` lists, each with its time and its inputs."""
    outputs = []
    for line in filter(None, text.splitlines()):
        if found := OUTPUT.fullmatch(line):
            outputs.append((*found.groups(), []))
        elif line.startswith("    "):
            outputs[-1][2].append(line[4:])
        elif not line.endswith(NOT_FOUND):
            raise RuntimeError(f"ninja -t deps writes {line!r}")
    return outputs


def read_by_ninja(log, folder):
    """The outputs that Ninja finds in a log, its warning, and how much of the log it keeps."""
    path = folder / LOG
    path.write_bytes(log)
    ran = run_ninja(["-t", "deps"], folder)
    return listed(ran.output), ran.error, path.stat().st_size if path.exists() else 0


# ---- by ninja-graph

READ_LOG = ["json", "--deps-log-file", LOG]
NOT_A_LOG = FAULT, "", f"ninja-graph: {LOG}: not a deps log\n"
INPUTS = "inputs", "implicit_inputs", "order_only_inputs"
# Those of an edge that a log does not add again.
COUNTED = INPUTS[:2]


def edges_of(ending):
    """The edges that `json` writes; their numbers are in order."""
    return [json.loads(line) for line in ending.output.splitlines()]


def stated_edges(graph, folder):
    """The edges without any log."""
    ran = graph.run(["json"], folder).as_text()
    if (ran.status, ran.error) != (DONE, ""):
        raise RuntimeError(f"json ends with {ran}")
    return edges_of(ran)


def joined(edges, outputs):
    """The edges with the inputs that a log with these outputs has for the first output of each, as
    docs/DEPS.md describes it."""
    logged = {path: inputs for path, _, inputs in outputs}
    for edge in edges:
        own = {path for kind in COUNTED for path in edge[kind]}
        output = (edge["outputs"] + edge["implicit_outputs"])[0]
        paths = logged.get(output, []) if edge["deps"] else []
        added = [path for path in dict.fromkeys(paths) if path not in own]
        state = "known" if not edge["deps"] or output in logged else "no-record"
        yield {**edge, "discovered_inputs": added, "discovered": state}


def content_differs(graph, folder, edges, log, read, end):
    """Compares the edges to which ninja-graph joins a log with what Ninja reads in it, which is up to a byte."""
    outputs, warning, _ = read
    (folder / LOG).write_bytes(log)
    ran = graph.run(READ_LOG, folder).as_text()
    name = f"a log of {len(log)} bytes"
    if NO_LOG in warning:
        yield from expect(name, ran, NOT_A_LOG)
        return
    caveat = f"{LOG}: {end} of its {len(log)} bytes were read\n" if end < len(log) else ""
    yield from expect(f"{name}, its end", (ran.status, ran.error), (LOOK if caveat else DONE, caveat))
    yield from expect(name, edges_of(ran), [*joined(edges, outputs)])


def cut_off(log):
    """A log that is cut off at each byte."""
    return [log[:size] for size in range(len(log) + 1)]


def contents_differ(graph, folder, logs):
    """The same for logs that Ninja reads whole, and for the second of them cut off at each byte. Ninja truncates
    a log to its last whole record, unless at most three bytes are left."""
    edges = stated_edges(graph, folder)
    for log in logs:
        yield from content_differs(graph, folder, edges, log, read_by_ninja(log, folder), len(log))
    cut = [(log, read_by_ninja(log, folder)) for log in cut_off(logs[1])]
    ends = {len(logs[1]), *(kept for _, (_, warning, kept) in cut if CUT_OFF in warning)}
    for log, read in cut:
        end = max((it for it in ends if it <= len(log)), default=0)
        yield from content_differs(graph, folder, edges, log, read, end)


@check(needs=["ninja", "cc"])
def logs_of_ninja(graph, folder):
    made, copy = folder / "made", folder / "copy"
    files, logs = logs_of_project(made)
    write_files(copy, files)
    first, second, third = logs
    sizes = len(first) < len(second), len(third) < len(second), second.startswith(first)
    yield from expect("the logs", sizes, (True, True, True))
    for log, wanted in (first, BEFORE), (second, AFTER), (third, AFTER):
        outputs, warning, kept = read_by_ninja(log, copy)
        found = {path: {*inputs} for path, _, inputs in outputs}
        yield from expect("by Ninja", (found, warning, kept), (wanted, "", len(log)))
    yield from contents_differ(graph, copy, logs)

#!/usr/bin/env python3
"""Tests the library for C in lib/: c_test.py [--cases N] PROGRAM GRAPH_PROGRAM

The example examples/c and the Python package python/ have to write what the program writes: on
examples/project, on what CMake writes for examples/cmake, and on a manifest of 2,000 included files;
whole, in pages, and with a fault. So have runs of the program's arguments by the library, tool by
tool. Names that collide under a known key may take at most four times as long as others. A deps log
that Ninja wrote has to add the inputs that are known of it, the undeclared inputs that Ninja reports,
and the edges that Ninja would run. c_calls.c makes every call on N changed manifests
(`lib/strangers.py` makes them), and while allocations are refused, with 256 KB of stack. Valgrind, if
installed, may find nothing in the C example, nor in some of the cases.

Prints how much was tried, and the problems. The status is 1 if anything is wrong.
"""

import argparse
import json
import os
import random
import re
import shutil
import subprocess
import sys
import tempfile
from functools import partial
from pathlib import Path
from unittest import mock

from lib.programs import DONE, EXAMPLES, FAULT, ROOT, USAGE, Ending, Program
from lib.projects import MAIN, PROJECTS, as_bytes, write_cmake, write_files
from lib.strangers import Maker
from lib.sweeps import Sweep
from lint import header
from smoke import deps, flood, missing

LIBRARY = ROOT / "lib/libninja_explain.so.1"
ARCHIVE = ROOT / "lib/libninja_explain.a"
PYTHON = ROOT / "python"
os.environ.update(NINJA_EXPLAIN_LIBRARY=str(LIBRARY), PYTHONPATH=str(PYTHON))
sys.path.insert(0, str(PYTHON))
sys.dont_write_bytecode = True
import ninja_explain  # noqa: E402
from ninja_explain import Graph, Kind  # noqa: E402
from ninja_explain._calls import WANTED, Session, text_arguments  # noqa: E402

COMPILER = ["cc", "-std=c11", "-Wall", "-Wextra", "-Werror", "-O1", "-g", f"-I{ROOT / 'include'}"]
WRAPPED = ["-Wl,--wrap=malloc", "-Wl,--wrap=realloc", "-Wl,--wrap=free"]
VALGRIND = ["valgrind", "-q", "--leak-check=full", "--show-leak-kinds=all"]
VALGRIND += ["--errors-for-leak-kinds=all", "--error-exitcode=9"]
# The stack that docs/C.md requires, in KB.
LITTLE_STACK = ["sh", "-c", 'ulimit -s 256; exec "$0" "$@"']
COMMANDS = ["-t", "commands"]
FILES, PER_GROUP, MOST_DEEP = 2000, 40, 32
# How many projects a run of c_calls.c takes, how many of them below valgrind, and how many words
# `query` gets.
TASK, UNDER_VALGRIND, PER_QUERY = 50, 6, 500
AROUND = 50
REFUSED = ["dyndep file", "response file", "validation", "cycle", "generated"]
KINDS = dict(re.findall(r"NX_FAULT_(\w+) = (\d+)", header.HEADER.read_text()))

RULE = "rule r\n  command = c\n"
POOL = "pool p\n  depth = 1\n"
# Manifests with a fault of each kind, and dyndep files with one, which are joined.
FAULTS = {
    "BAD_BYTE": "x = \0\n",
    "TAB": "rule r\n\tcommand = c\n",
    "BAD_ESCAPE": "x = $!\n",
    "EXPECTED": "build a\n",
    "UNEXPECTED_INDENT": "  x = 1\n",
    "MISSING_COMMAND": "rule r\n",
    "RSP_PAIR": f"{RULE}  rspfile = f\n",
    "UNKNOWN_KEY": f"{POOL}  x = 1\n",
    "MISSING_DEPTH": "pool p\n",
    "EMPTY_PATH": "build $x: phony\n",
    "BAD_DEPTH": "pool p\n  depth = x\n",
    "DUPLICATE_RULE": RULE + RULE,
    "DUPLICATE_POOL": POOL + POOL,
    "VERSION_TOO_NEW": "ninja_required_version = 1.13\n",
    "MISSING": "x = 1\nsubninja nothing\n",
    "PATH_NOT_TEXT": b"include \xff\n",
    "TOO_DEEP": f"include {MAIN}\n",
    "UNKNOWN_RULE": "build a: r\n",
    "TWO_MAKERS": "build \xe9 \xe9: phony\n".encode("latin-1"),
    "UNKNOWN_TARGET": "default a\n",
    "RULE_VARIABLE_CYCLE": "rule r\n  command = $command\nbuild a: r\n",
    "UNKNOWN_POOL": f"{RULE}build a: r\n  pool = p\n",
    "DYNDEP_NOT_INPUT": f"{RULE}build a: r\n  dyndep = d\n",
    "CYCLE": "build a: phony b\nbuild b: phony a\n",
}
DYNDEP_FAULTS = {
    "DYNDEP_VERSION": "build a: dyndep\n",
    "DYNDEP_SHAPE": "ninja_dyndep_version = 1\nbuild a: r\n",
    "DYNDEP_NO_STATEMENT": "ninja_dyndep_version = 1\n",
    "DYNDEP_TWICE": "ninja_dyndep_version = 1\nbuild a: dyndep\nbuild a: dyndep\n",
    "DYNDEP_EXTRA": "ninja_dyndep_version = 1\nbuild a: dyndep\nbuild b: dyndep\n",
}
BOUND = f"{RULE}build a: r i || d\n  dyndep = d\n"


class Tests:
    """The built files for the tests, and the results."""

    def __init__(self, folder, program, graph, cases):
        self.sweep, self.folder = Sweep("c_test"), Path(folder)
        self.program, self.graph = Program(program), Program(graph)
        self.cases = cases
        source, driver = ROOT / "examples/c/commands.c", ROOT / "scripts/c_calls.c"
        self.static = self.compiled("static", source, ARCHIVE)
        self.shared = self.compiled("shared", source, LIBRARY, f"-Wl,-rpath,{LIBRARY.parent}")
        self.driver = self.compiled("driver", driver, ARCHIVE, *WRAPPED)
        self.why = self.compiled("why", ROOT / "examples/c/why.c", ARCHIVE)
        self.undeclared = self.compiled("undeclared", ROOT / "examples/c/undeclared.c", ARCHIVE)
        self.loads = self.compiled("loads", ROOT / "scripts/c_loads.c", ARCHIVE)

    def compiled(self, name, *words):
        path = self.folder / name
        subprocess.run([*COMPILER, *words, "-o", path], check=True)
        return Program(path)

    def expect(self, kind, name, found, wanted):
        """Counts a comparison, and keeps a difference."""
        wrong = [] if found == wanted else [f"{name}: {difference(repr(found), repr(wanted))}"]
        self.sweep.take({kind: 1}, wrong)


def difference(found, wanted):
    """Where two strings differ first, with some of both."""
    start = max(len(os.path.commonprefix([found, wanted])) - AROUND, 0)
    end = start + 4 * AROUND
    return f"from character {start}, {found[start:end]!r} is not {wanted[start:end]!r}"


# ---- names


def exported_names():
    words = ["nm", "--dynamic", "--defined-only", "--format=posix", str(LIBRARY)]
    lines = subprocess.run(words, stdout=subprocess.PIPE, text=True, check=True).stdout
    return sorted(line.split()[0].split("@")[0] for line in lines.splitlines())


def try_names(tests):
    text = header.HEADER.read_text()
    declared = sorted(dict(header.declared(text)))
    tests.expect("comparisons", "nm", exported_names(), declared)
    (tests.folder / "example.c").write_text(header.example(text))
    example = tests.compiled("example", tests.folder / "example.c", ARCHIVE)
    wanted = Ending(DONE, b"cc -c a.c -o a.o\n", b"")
    tests.expect("comparisons", "the header's example", example.run([], tests.folder), wanted)


# ---- commands


def plain(ending):
    """How a run of the program ends, with a fault that has no place as its text alone."""
    return ending._replace(error=ending.error.removeprefix(b"ninja-explain: "))


def try_commands(tests, name, folder, words):
    """Compares whole commands, by C and by Python."""
    wanted = tests.program.run([*COMMANDS, *words], folder)
    for example in tests.static, tests.shared:
        tests.expect("comparisons", f"{name}, {words}", example.run(words, folder), plain(wanted))
    with Graph.load(folder=folder) as graph:
        targets = [graph.target(word) for word in words] if words else graph.defaults()
        lines = "".join(f"{edge.command}\n" for edge in graph.commands(targets))
    tests.expect("comparisons", f"{name}, {words}, Python", encoded(lines), wanted.output)
    return wanted.output


def encoded(text):
    return text.encode("utf-8", "surrogateescape")


def try_pages(tests, name, folder, words, size):
    """Compares pages with those of the program, which begin at its mark, and joins them."""
    mark, pages, wanted = [], [], tests.program.run([*COMMANDS, *words], folder).output
    while mark is not None:
        options = ["--take", str(size), *mark, *words]
        page = tests.shared.run(options, folder)
        same = tests.program.run([*COMMANDS, *options], folder)
        tests.expect("pages", f"{name}, {options}", page, same)
        pages.append(page.output)
        found = re.fullmatch(rb"mark (.*)\n", page.error)
        mark = ["--resume", found[1].decode()] if found else None
    tests.expect("comparisons", f"{name}, pages of {size}", b"".join(pages), wanted)


def pages_of(graph, targets, size):
    """All pages, by Python."""
    page = graph.page(targets, size)
    yield page
    while page.mark is not None:
        page = graph.page(targets, size, page.mark)
        yield page


# ---- facts


def query(graph, word):
    """The output of the tool `query` for a file."""
    file, signs = graph.target(word), ["", "| ", "|| "]
    yield f"{file.path}:"
    if maker := file.maker:
        yield f"  input: {maker.rule}"
        yield from (f"    {signs[it.kind]}{it.path}" for it in maker.inputs)
        checks = [f"    {validation.path}" for validation in maker.validations]
        yield from ["  validations:", *checks] if checks else []
    yield "  outputs:"
    yield from (f"    {output.path}" for user in file.users for output in user.outputs)
    users = list(file.validation_users)
    yield from ["  validation for:"] if users else []
    yield from (f"    {output.path}" for user in users for output in user.outputs)


def try_facts(tests, name, folder):
    """Compares the known facts of each file and edge."""
    with Graph.load(folder=folder) as graph:
        words = [file.path for file in graph.files]
        for at in range(0, len(words), PER_QUERY):
            some = words[at : at + PER_QUERY]
            lines = [line for word in some for line in query(graph, word)]
            ran = tests.program.run(["-t", "query", *some], folder)
            text = "".join(f"{line}\n" for line in lines)
            tests.expect("comparisons", f"{name}, query", encoded(text), ran.output)
        rules = [f"{file.path}: {edge.rule}\n" for edge in graph.edges for file in edge.outputs]
        ran = tests.program.run(["-t", "targets", "all"], folder)
        tests.expect("comparisons", f"{name}, targets", encoded("".join(rules)), ran.output)
        ran = tests.program.run(["-t", "rules"], folder)
        lines = "".join(f"{rule}\n" for rule in graph.rules())
        tests.expect("comparisons", f"{name}, rules", encoded(lines), ran.output)
        roots = [f"{file.path}: {file.maker.rule}\n" for file in graph.roots()]
        ran = tests.program.run(["-t", "targets", "depth", "1"], folder)
        tests.expect("comparisons", f"{name}, roots", encoded("".join(roots)), ran.output)
        same = [graph.file(word).number for word in words]
        tests.expect("comparisons", f"{name}, paths", same, list(range(len(words))))
        for size in 1, 3, 1000:
            defaults = graph.defaults()
            edges = [edge for page in pages_of(graph, defaults, size) for edge in page.edges]
            whole = graph.commands(defaults)
            tests.expect("comparisons", f"{name}, pages of {size}, Python", edges, whole)


# ---- whole runs


def requests(word):
    """Words of runs that end in each way."""
    tools = ["commands"], ["commands", word], ["inputs", word], ["targets", "all"], ["targets"]
    tools += ["rules", "-d"], ["query", word], ["compdb", "--directory", "/w"], ["query", "nothing"]
    pages = ["commands", "--take", "2"], ["commands", "--resume", "0.0"], ["commands", "--take", "x"]
    yield from (["-t", *tool] for tool in (*tools, *pages, ["nothing"]))
    yield from (["--dyndep", *COMMANDS], ["-f", "nothing", *COMMANDS], ["--nothing"], ["-t"], [""])


def try_runs(tests, name, folder, word):
    """Compares runs by Python with those of the program, and that a graph stays loaded."""
    with Graph.load(folder=folder) as graph:
        count = len(list(graph.edges))
        for words in requests(word):
            ran = graph.run(words, folder)
            found = Ending(ran.status, encoded(ran.output), encoded(ran.errors))
            tests.expect("runs", f"{name}, run {words}", found, tests.program.run(words, folder))
        tests.expect("runs", f"{name}, edges after runs", len(list(graph.edges)), count)


# ---- the recipes of docs/PYTHON.md


def recipes(tests):
    """The programs of docs/PYTHON.md in its order, each in a file named by its heading."""
    text = (ROOT / "docs/PYTHON.md").read_text()
    for section in text.split("\n### ")[1:]:
        title, code = section.split("\n", 1)[0], section.split("```python\n")[1].split("```")[0]
        path = tests.folder / f"{title.split()[-1]}.py"
        path.write_text(code)
        yield path


def try_recipes(tests, name, folder, paths, chains):
    """Compares the output of the recipes with that of programs."""
    database, affected, pages, sources, chain, _, _, users = recipes(tests)
    python = Program(sys.executable)
    wanted = tests.program.run(["-t", "compdb", "--directory", os.path.realpath(folder)], folder)
    found = python.run([str(database)], folder)
    same = json.loads(found.output) == json.loads(wanted.output)
    tests.expect("recipes", f"{name}, compdb", (found.status, same), (DONE, True))
    given = "".join(f"{path}\n" for path in paths).encode()
    found = python.run([str(affected)], folder, given)
    wanted = tests.graph.run(["affected"], folder, given)
    tests.expect("recipes", f"{name}, affected {paths[:5]}", found, wanted)
    found, wanted = python.run([str(pages)], folder), tests.program.run(COMMANDS, folder)
    tests.expect("recipes", f"{name}, pages", found, wanted)
    made = tests.program.run(["-t", "targets", "all"], folder).output
    made = {line.rpartition(b": ")[0] for line in made.splitlines()}
    inputs = tests.program.run(["-t", "inputs", "--no-shell-escape"], folder).output
    wanted = [path for path in inputs.splitlines() if path not in made]
    found = python.run([str(sources)], folder).output.splitlines()
    tests.expect("recipes", f"{name}, sources", found, wanted)
    for start, end in chains:
        try_chain(tests, name, folder, chain, start, end)
    lines = python.run([str(users)], folder).output.splitlines()
    for line in lines:
        count, path = line.split(None, 1)
        listed = tests.program.run(["-t", "query", os.fsdecode(path)], folder).output
        tests.expect("recipes", f"{name}, users of {path}", user_count(listed), int(count))


def try_chain(tests, name, folder, recipe, start, end):
    """Checks the chain that the recipe prints: each file is an input of the edge that makes the one
    before it, and no search in the lists of inputs comes to the last one sooner."""
    ran = Program(sys.executable).run([str(recipe), start, end], folder)
    with Graph.load(folder=folder) as graph:
        steps = step_count(graph, start, end)
        lines = os.fsdecode(ran.output).splitlines()
        found = ran.status, len(lines)
        tests.expect("recipes", f"{name}, {start} to {end}", found, (DONE, steps + 1) if steps else (1, 0))
        path = lines[0] if lines else None
        for line in lines[1:]:
            step = re.fullmatch(r"  (.*) \((.*), (\w+)\)", line)
            edge = graph.file(path).maker
            inputs = [(it.path, edge.rule, it.kind.name.lower()) for it in edge.inputs]
            tests.expect("recipes", f"{name}, step {line}", step.groups() in inputs, True)
            path = step[1]


def step_count(graph, start, end):
    """How many steps a shortest chain has between two words; 0 without a chain."""
    try:
        files, last = {graph.target(start)}, graph.target(end)
    except ninja_explain.Fault:
        return 0
    seen = set(files)
    for steps in range(1, len(graph.files)):
        makers = {file.maker for file in files} - {None}
        files = {it.file for edge in makers for it in edge.inputs} - seen
        if last in files:
            return steps
        seen |= files
    return 0


def user_count(listed):
    """How many edges `query` lists as users of a file. It names all outputs of each, of which the
    second one of an edge of these projects ends in `.d`."""
    outputs = listed.partition(b"\n  outputs:\n")[2].partition(b"\n  validation for:\n")[0]
    return sum(not line.endswith(b".d") for line in outputs.splitlines())


# ---- deps logs


# The output of examples/c/why.c there, by hand.
WHY = {
    ("b c.o", "sub/b.h"): (DONE, b"b c.o\n  sub/b.h (implicit)\nof 1 needed edges\n"),
    ("a.o", "gen/count.h"): (DONE, b"a.o\n  gen/count.h (implicit)\nof 2 needed edges\n"),
    ("alone.o", "a.h"): (FAULT, b""),
}


def try_deps_log(tests):
    """Compares the inputs that edges have with a deps log that Ninja wrote with what is known of them,
    by hand."""
    folder = tests.folder / "deps"
    write_files(folder, {MAIN: deps.MANIFEST.encode()})
    write_files(folder, {path: as_bytes(text) for path, text in deps.SOURCES.items()})
    log = deps.log_after([], folder)
    with Graph.load(folder=folder) as plain, Graph.load(folder=folder, deps_log=deps.LOG) as joined:
        for output, wanted in deps.BEFORE.items():
            before, after = (it.file(output).maker.inputs for it in (plain, joined))
            all_of_them = {each.path for each in before} | wanted
            tests.expect("deps logs", f"{output}, all", {each.path for each in after}, all_of_them)
            counted = [each.path for each in after if each.kind != Kind.ORDER_ONLY]
            tests.expect("deps logs", f"{output}, without duplicates", len(counted), len(set(counted)))
            stated = {each.path for each in before if each.kind != Kind.ORDER_ONLY}
            named = {each.path for each in after if each.kind == Kind.IMPLICIT}
            tests.expect("deps logs", f"{output}, implicit", named, wanted - stated)
        chain = joined.path_between(joined.target("b c.o"), joined.target("sub/b.h"))
        tests.expect("deps logs", "a chain", [(it.file.path, it.kind) for it in chain], [("sub/b.h", Kind.IMPLICIT)])
        tests.expect("deps logs", "no file", plain.file("sub/b.h"), None)
        affected = [edge.outputs[0].path for edge in joined.affected([joined.target("a.h")])]
        tests.expect("deps logs", "affected", affected, ["a.o", "b c.o"])
    for words, (status, text) in WHY.items():
        found = tests.why.run([*words], folder)
        tests.expect("deps logs", f"why {words}", found, Ending(status, text, b""))
    files = {MAIN: deps.MANIFEST}
    for size in range(len(log)):
        try:
            Graph.from_files(files, deps_log=log[:size]).close()
            is_log = True
        except ninja_explain.BadDepsLog:
            is_log = False
        tests.expect("deps logs", f"cut off at {size}", is_log, size >= 16)


# ---- discovered inputs


# The edges of the project of smoke/deps.py that are to be built again where a file changed, by hand.
# The header that is generated is an order-only input, and the compiler found it.
DIRTY = {
    "a.h": ["a.o", "b c.o"],
    "sub/b.h": ["b c.o"],
    "gen/count.h": ["gen/count.h", "a.o"],
    "alone.c": ["alone.o"],
}


def firsts(edges):
    return [edge.outputs[0].path for edge in edges]


def built(folder):
    """The project of smoke/deps.py in a directory, after a build. Returns the deps log."""
    write_files(folder, {MAIN: deps.MANIFEST.encode()})
    write_files(folder, {path: as_bytes(text) for path, text in deps.SOURCES.items()})
    return deps.log_after([], folder)


def would_run(folder):
    """The first outputs of the edges that Ninja would run, in the manifest's order."""
    ran = Program("ninja").run(["-n", "-v"], folder).as_text().output
    with Graph.load(folder=folder) as graph:
        return firsts(edge for edge in graph.edges if f"] {edge.command}\n" in ran)


def stale_now(folder):
    """The first outputs of the stale edges, in the manifest's order."""
    with Graph.load(folder=folder, joins_discovered=True) as graph:
        there = [it.path for it in graph.files if (folder / it.path).exists()]
        times = {path: (folder / path).stat().st_mtime_ns for path in there}
        found = graph.stale((folder / ".ninja_log").read_bytes(), times)
        return firsts(sorted((it.edge for it in found), key=lambda edge: edge.number))


def try_dirty(tests, folder, path, wanted):
    """Compares the edges that a change makes dirty with what is known by hand, and with what Ninja would
    run; it runs no edge because an output of it is newer. The stale edges are those that it would run."""
    log = built(folder)
    with Graph.load(folder=folder, joins_discovered=True) as graph:
        tests.expect("discovered inputs", f"{path}, none", firsts(graph.dirtied([])), [])
        tests.expect("discovered inputs", f"{path}, read", graph.log_read, (len(log), True))
        tests.expect("discovered inputs", path, firsts(graph.dirtied([graph.target(path)])), wanted)
    tests.expect("stale edges", f"{path}, none", stale_now(folder), [])
    time = (folder / deps.LOG).stat().st_mtime_ns + 10**9
    os.utime(folder / path, ns=(time, time))
    wanted = [output for output in wanted if output != path]
    tests.expect("discovered inputs", f"{path}, by ninja -n", would_run(folder), wanted)
    tests.expect("stale edges", path, stale_now(folder), wanted)


def try_unknown(tests, folder):
    """A log that is cut off, and an output that is newer than its record."""
    log = built(folder)
    (folder / deps.LOG).write_bytes(log + b"\0")
    time = (folder / deps.LOG).stat().st_mtime_ns + 10**9
    os.utime(folder / "alone.o", ns=(time, time))
    with Graph.load(folder=folder, joins_discovered=True) as graph:
        tests.expect("discovered inputs", "cut off", graph.log_read, (len(log), False))
        unknown = firsts(edge for edge in graph.edges if edge.is_unknown)
        tests.expect("discovered inputs", "unknown", unknown, ["alone.o"])
        tests.expect("discovered inputs", "unknown, dirty", firsts(graph.dirtied([])), ["alone.o"])
    tests.expect("discovered inputs", "unknown, by ninja -n", would_run(folder), ["alone.o"])
    tests.expect("stale edges", "unknown", stale_now(folder), ["alone.o"])
    recipe = [path for path in recipes(tests) if path.stem == "now"]
    found = Program(sys.executable).run([str(recipe[0])], folder)
    tests.expect("stale edges", "recipe", found, Ending(3, b"alone.o UNKNOWN_INPUTS \n", b""))


def try_discovered(tests):
    for number, (path, wanted) in enumerate(DIRTY.items()):
        try_dirty(tests, tests.folder / f"dirty{number}", path, wanted)
    try_unknown(tests, tests.folder / "unknown")


# ---- undeclared inputs


# What the project of smoke/missing.py lacks, by hand, as examples/c/undeclared.c and the recipe write it.
LACKING = b"third.o uses gen/kind.h\n"


def try_undeclared(tests):
    """Compares the undeclared inputs by a deps log that Ninja wrote with those that `ninja -t missingdeps`
    reports, and with what is known by hand; from C and from Python, for the log cut off at each byte."""
    folder, copy = tests.folder / "lacking", tests.folder / "cut"
    log = missing.built_by_hand(folder)
    recipe = [path for path in recipes(tests) if path.stem == "inputs"]
    found = tests.undeclared.run([], folder)
    tests.expect("undeclared inputs", "C", found, Ending(missing.REPORTED, LACKING, b""))
    found = Program(sys.executable).run([str(recipe[0])], folder)
    tests.expect("undeclared inputs", "recipe", found, Ending(missing.REPORTED, LACKING, b""))
    write_files(copy, {MAIN: missing.BY_HAND[MAIN]})
    outputs = missing.outputs_of(copy)
    with Graph.load(folder=copy) as graph:
        for size in range(16, len(log) + 1):
            pairs = {(it.edge.outputs[0].path, it.file.path) for it in graph.undeclared(log[:size])}
            wanted = missing.missing_by_ninja(log[:size], copy, outputs)
            tests.expect("undeclared inputs", f"cut off at {size}", pairs, wanted)


# ---- the package


def try_package(tests):
    """Installs the wheel in a virtual environment and runs its tests there, and with mypy where it is."""
    folder = tests.folder / "package"
    run = partial(subprocess.run, capture_output=True, text=True)
    packed = run([sys.executable, str(ROOT / "scripts/wheel.py"), str(folder)])
    tests.expect("packages", f"wheel: {packed.stderr}", packed.returncode, 0)
    run([sys.executable, "-m", "venv", str(folder / "env")], check=True)
    python = folder / "env/bin/python"
    install = [python, "-m", "pip", "install", "--no-index", "--quiet", packed.stdout.strip()]
    installed = run(install)
    tests.expect("packages", f"pip: {installed.stderr}", installed.returncode, 0)
    ours = "NINJA_EXPLAIN_LIBRARY", "PYTHONPATH"
    alone = {key: value for key, value in os.environ.items() if key not in ours}
    words = [python, "-m", "unittest", "discover", "-s", str(PYTHON / "tests")]
    ran = run(words, cwd=folder, env=alone)
    count = re.search(r"^Ran (\d+) tests", ran.stderr, re.M)
    passed = ran.returncode == 0 and count and int(count[1]) > 0
    tests.expect("packages", f"tests of the wheel: {ran.stderr}", bool(passed), True)
    if shutil.which("mypy"):
        checked = [str(PYTHON / part) for part in ("ninja_explain", "tests")]
        ran = run(["mypy", "--strict", "--cache-dir", str(folder / "mypy"), *checked])
        tests.expect("packages", f"mypy: {ran.stdout}", ran.returncode, 0)
    else:
        print("c_test: mypy is not installed, so the annotations were not checked")


# ---- projects


def many_files():
    """A main file that includes 50 files, each including 39 more."""
    groups = range(FILES // PER_GROUP)
    opening = [f"{'include' if group % 3 else 'subninja'} g{group}/0.ninja\n" for group in groups]
    files = {MAIN: f"x = top\nrule mk\n  command = mk $x $in $out\n{''.join(opening)}"}
    for group in groups:
        others = [f"include g{group}/{place}.ninja\n" for place in range(1, PER_GROUP)]
        files[f"g{group}/0.ninja"] = f"x = $x.{group}\n{''.join(others)}"
        for place in range(1, PER_GROUP):
            out, before = f"out/{group}.{place}", f"out/{group}.{place - 1}"
            needed = f"| {before} || order.{group}" if place > 1 else f"|| order.{group}"
            files[f"g{group}/{place}.ninja"] = (
                f"build {out} | {out}.d: mk src/{group}.{place} {needed} |@ {out}.check\n"
                f"build {out}.check: mk {out}\n  x = check\n"
            )
        files[f"g{group}/0.ninja"] += f"build order.{group}: phony common\n"
    return {name: text.encode() for name, text in files.items()}


def try_project(tests, name, folder, words, sizes):
    whole = try_commands(tests, name, folder, [])
    for word in words:
        try_commands(tests, name, folder, [word])
    for size in sizes:
        try_pages(tests, name, folder, [], size)
    try_facts(tests, name, folder)
    try_runs(tests, name, folder, words[0])
    return whole


def try_projects(tests):
    project = EXAMPLES / "project"
    try_project(tests, "project", project, ["test", "main.c^", "./out//count"], [1, 2, 3, 4, 5, 9])
    chains = ("test", "text/lines.c"), ("main.c", "test"), ("test", "test"), ("test", "nothing")
    try_recipes(tests, "project", project, ["text/lines.c", "README.md", "main.c"], chains)
    many = tests.folder / "many"
    write_files(many, many_files())
    lines = try_project(tests, "2,000 files", many, ["out/7.20", "out/3.9.check"], [97, 1900, 3899])
    tests.expect("comparisons", "2,000 files, commands", lines.count(b"\n") > 1900, True)
    chains = ("out/7.20", "src/7.3"), ("out/7.20.check", "common"), ("common", "out/7.20")
    try_recipes(tests, "2,000 files", many, ["src/1.1", "common", "src/none", "out/1.1"], chains)
    if shutil.which("cmake") and shutil.which("ninja"):
        build = Path(os.path.realpath(tests.folder)) / "build"
        write_cmake(build)
        try_project(tests, "CMake", build, ["count", "text"], [1, 2, 3])
        words = str(EXAMPLES / "cmake/src/words.c")
        try_recipes(tests, "CMake", build, [words, "words.h"], [("all", words)])


# ---- how many loads


def bound_edge(name, file):
    """An edge that is bound to a dyndep file."""
    return f"build {name}: r || {file}\n  dyndep = {file}\n"


def dyndep(name):
    return f"ninja_dyndep_version = 1\nbuild {name}: dyndep | {name}.h\n"


def nested(count):
    """Files that include one another."""
    names = [MAIN, *(f"{number}.ninja" for number in range(1, count))]
    return {name: f"include {below}\n" for name, below in zip(names, names[1:])} | {names[-1]: ""}


def many_dyndeps(count):
    """Edges, each bound to a dyndep file of its own."""
    names = [f"o{number}" for number in range(count)]
    edges = "".join(bound_edge(name, f"{name}.dd") for name in names)
    return {MAIN: RULE + edges} | {f"{name}.dd": dyndep(name) for name in names}


def included_dyndeps(count):
    """The same in a file of its own for each edge, and a file to which two edges are bound."""
    files = {f"{number}.ninja": bound_edge(f"o{number}", f"{number}.dd") for number in range(count)}
    opening = "".join(f"subninja {name}\n" for name in files)
    files |= {f"{number}.dd": dyndep(f"o{number}") for number in range(1, count)}
    files |= {MAIN: f"{RULE}{opening}{bound_edge('last', '0.dd')}"}
    return files | {"0.dd": dyndep("o0") + dyndep("last").split("\n", 1)[1]}


def named_in_turn(count):
    """Files, each binding the name of the next one."""
    opening = "include $next\n" * count
    files = {f"{number}.ninja": f"next = {number + 1}.ninja\n" for number in range(1, count)}
    return {MAIN: f"next = 1.ninja\n{opening}"} | files | {f"{count}.ninja": ""}


# For each kind of files how many loads they may take, whether dyndep files are joined, and which file
# is still wanted after the last load.
LOADS = {
    "one file": ({MAIN: RULE}, 2, False, None),
    "nested includes": (nested(MOST_DEEP), MOST_DEEP + 1, False, None),
    "a tree of includes": (many_files, 4, False, None),
    "200 dyndep files": (many_dyndeps(200), 3, True, None),
    "5,000 dyndep files": (many_dyndeps(5000), 3, True, None),
    "5,000 dyndep files, not joined": (many_dyndeps(5000), 2, False, None),
    "dyndep files of included edges": (included_dyndeps(100), 4, True, None),
    "998 files in turn": (named_in_turn(998), 1000, False, None),
    "1,200 files in turn": (named_in_turn(1200), 1000, False, "999.ninja"),
}


def python_loads(folder, joins):
    """How many loads a directory takes by Python, how many files are supplied, and which file is still
    wanted then."""
    calls, call = [], Session._call

    def counted(session, name, *arguments):
        calls.append(name)
        return call(session, name, *arguments)

    wanted = None
    with mock.patch.object(Session, "_call", counted):
        try:
            Graph.load(folder=folder, joins_dyndeps=joins)
        except OSError as error:
            wanted = error.filename
    return calls.count("nx_load"), calls.count("nx_add_file"), wanted


def try_loads(tests):
    """Counts the loads of each kind of files, by C and by Python."""
    for name, (files, most, joins, wanted) in LOADS.items():
        folder = tests.folder / "counted"
        shutil.rmtree(folder, ignore_errors=True)
        files = files() if callable(files) else files
        write_files(folder, {path: as_bytes(text) for path, text in files.items()})
        count = most - 1 if wanted else len(files) if joins else len(files) - dyndep_count(files)
        end = f"{wanted} is wanted after too many loads" if wanted else "status 0"
        text = f"{most} loads of {count} files: {end}\n".encode()
        ran = tests.loads.run([str(folder), str(int(joins))], tests.folder)
        tests.expect("loads", f"{name}, C", ran, Ending(FAULT if wanted else DONE, text, b""))
        loads, supplied, last = python_loads(folder, joins)
        tests.expect("loads", f"{name}, Python", (loads, last), (most, wanted))
        tests.expect("loads", f"{name}, Python", supplied - bool(wanted), count)


def dyndep_count(files):
    return sum(path.endswith(".dd") for path in files)


def try_wanted(tests):
    """Dyndep files are wanted in the order of their first edges, without duplicates, but for those that
    were supplied; and only when no other file is."""
    edges = [bound_edge(name, file) for name, file in zip("abcd", ["2", "1", "2", "3"])]
    session = Session()
    supply(session, MAIN, f"{RULE}include 0\n{''.join(edges)}")
    supply(session, "1", dyndep("b"))
    for wanted in ["0"], ["2", "3"]:
        status = session.call("nx_load", *text_arguments(MAIN), 1)
        tests.expect("loads", "what is wanted", (status, session.texts("nx_wanted")), (WANTED, wanted))
        for path in wanted:
            supply(session, path, "")


def supply(session, path, text):
    session.call("nx_add_file", *text_arguments(path), text.encode(), len(text))


# ---- faults


def fault_of(folder, joins):
    """The first fault of a load: its kind, its file, line and column, and its text."""
    try:
        Graph.load(folder=folder, joins_dyndeps=joins)
    except ninja_explain.Fault as fault:
        return fault.kind, (fault.file, fault.line, fault.column), str(fault)
    return None


def try_fault(tests, kind, files, joins):
    folder = tests.folder / "faults"
    shutil.rmtree(folder, ignore_errors=True)
    write_files(folder, {name: as_bytes(text) for name, text in files.items()})
    options = ["--dyndep"] if joins else []
    line = plain(tests.program.run([*options, *COMMANDS], folder)).error.rstrip(b"\n")
    text = line.decode("utf-8", "surrogateescape")
    found = re.fullmatch(r"(.*?):(\d+):(\d+): .*", text, re.S)
    place = (found[1], int(found[2]), int(found[3])) if found else None
    wanted = int(KINDS[kind]), place, text
    tests.expect("faults", f"fault {kind}", fault_of(folder, joins), wanted)
    if not joins:
        ending = Ending(FAULT, b"", line + b"\n")
        tests.expect("faults", f"fault {kind}, C", tests.static.run([], folder), ending)


def try_faults(tests):
    for kind, text in FAULTS.items():
        try_fault(tests, kind, {MAIN: text}, False)
    for kind, text in DYNDEP_FAULTS.items():
        try_fault(tests, kind, {MAIN: BOUND, "d": text}, True)
    project = EXAMPLES / "project"
    for words in ["nothing"], ["out/count^"], [""]:
        ran = plain(tests.program.run([*COMMANDS, *words], project))
        tests.expect("faults", f"target {words}", tests.static.run(words, project), ran)
    for words in ["--resume", "x"], ["--resume", "9.9"]:
        ending = Ending(FAULT, b"", b"commands: bad mark\n")
        tests.expect("faults", f"{words}", tests.static.run(words, project), ending)
    for words in ["--take", "x"], ["--nothing"]:
        tests.expect("faults", f"{words}", tests.static.run(words, project).status, USAGE)


# ---- the key of a session


def try_flood(tests):
    """Checks that the key is used: names which collide under a known one cost little more."""
    folder = tests.folder / "flood"
    folder.mkdir()
    for reasons in flood.slow_tables([str(tests.static.path)], str(folder)):
        tests.sweep.take({"tables of names": 1}, reasons)
    words = [str(tests.why.path), "a.o", "a.c"]
    tests.sweep.take({"tables of names": 1}, [*flood.slow_logs(words, folder, ".ninja_deps")])


# ---- every call


def stream(files):
    """A project as c_calls.c reads it."""
    parts = [len(files).to_bytes(4, "little")]
    for name, content in files.items():
        for part in name.encode(), content:
            parts += [len(part).to_bytes(4, "little"), part]
    return b"".join(parts)


def changed(maker, seed):
    maker.chance = random.Random(seed)
    return maker.changed()


def run_driver(driver, task):
    """Runs c_calls.c on some projects. Returns the counts, and the problems."""
    name, mode, valgrind, given = task
    words = [*(VALGRIND if valgrind else LITTLE_STACK), driver.path, mode]
    how = {"stdout": subprocess.PIPE, "stderr": subprocess.STDOUT}
    ran = subprocess.run(words, input=given, **how)
    lines = ran.stdout.decode(errors="replace").splitlines()
    last = lines[-1] if lines else ""
    counts = re.fullmatch(r"(\d+) projects, (\d+) calls, (\d+) allocations refused", last)
    wrong = [f"{name}: {line}" for line in (lines[:-1] if counts else lines)]
    if ran.returncode and not wrong:
        wrong = [f"{name}: status {ran.returncode}"]
    kinds = "projects", "calls", "allocations refused"
    if valgrind:
        kinds = "projects under valgrind", "calls under valgrind", "allocations refused"
    found = dict(zip(kinds, map(int, counts.groups()))) if counts else {}
    return {kind: count for kind, count in found.items() if count}, wrong


def deep_files():
    """Files that include one another as deep as they may."""
    names = [MAIN, *(f"{number}.ninja" for number in range(1, MOST_DEEP))]
    files = {name: f"subninja {below}\n" for name, below in zip(names, names[1:])}
    files |= {names[-1]: BOUND, "d": "ninja_dyndep_version = 1\nbuild a | b: dyndep | c\n"}
    return {name: text.encode() for name, text in files.items()}


def driver_tasks(tests):
    maker, has_valgrind = Maker(), shutil.which("valgrind")
    for at in range(0, tests.cases, TASK):
        seeds = range(at, min(at + TASK, tests.cases))
        given = b"".join(stream(changed(maker, seed)) for seed in seeds)
        yield f"seeds {at}..", "cases", False, given
    yield "deep files", "cases", False, stream(deep_files())
    for name in REFUSED:
        yield name, "refused", False, stream(PROJECTS[name].files)
    for seed in range(UNDER_VALGRIND if has_valgrind else 0):
        yield f"seed {seed}, valgrind", "cases", True, stream(changed(maker, seed))


def try_valgrind(tests):
    """Runs the C example under valgrind."""
    project = EXAMPLES / "project"
    for words in [], ["--take", "2", "test"], ["--resume", "9"], ["nothing"], ["-f", "nothing"]:
        wanted = tests.static.run(words, project)
        example = Program(shutil.which("valgrind"))
        found = example.run([*VALGRIND[1:], tests.static.path, *words], project)
        tests.expect("runs under valgrind", f"valgrind {words}", found, wanted)


def main():
    parser = argparse.ArgumentParser(description=__doc__.split("\n")[0])
    parser.add_argument("program", help="the built program")
    parser.add_argument("graph", help="the built program ninja-graph")
    parser.add_argument("--cases", type=int, default=1000, help="how many changed manifests")
    parser.add_argument("--jobs", type=int, default=os.cpu_count(), help="how many run at once")
    words = parser.parse_args()
    with tempfile.TemporaryDirectory() as folder:
        tests = Tests(folder, words.program, words.graph, words.cases)
        try_names(tests)
        try_projects(tests)
        try_loads(tests)
        try_wanted(tests)
        try_faults(tests)
        try_flood(tests)
        if shutil.which("ninja"):
            try_deps_log(tests)
            try_discovered(tests)
            try_undeclared(tests)
        else:
            print("c_test: ninja is not installed, so no deps log was joined or looked through")
        try_package(tests)
        if shutil.which("valgrind"):
            try_valgrind(tests)
        run = partial(run_driver, tests.driver)
        tests.sweep.in_parallel(words.jobs, run, driver_tasks(tests))
        wrong = tests.sweep.problems()
    for case in wrong:
        print(f"c_test: {case}")
    return 1 if wrong else 0


if __name__ == "__main__":
    sys.exit(main())

"""Runs ninja-graph with arguments and outputs of all kinds; the output of each subcommand is checked
beside this file.
"""

import re
import shutil

from lib.checks import check, expect
from lib.programs import EXAMPLES, ROOT, compiled, shown
from lib.projects import write_files
from lib.random_builds import deps_log
from lib.tools import GRAPH, PROGRAMS
from smoke.system import KILOBYTES, MOST_OPEN, nested

PROJECT = EXAMPLES / "project"
# Its statuses.
DONE, FAULT, USAGE, LOOK, OUTPUT_FAILED = range(5)
# The subcommands, each with the options that it has besides those of all, and arguments with which it
# answers on examples/project.
ROWS = PROGRAMS[GRAPH]
SUBCOMMANDS = {name: (list(tool.options), list(tool.words)) for name, tool in ROWS.tools.items()}
# Of those whose answer there is something to look at.
LOOKS = {"audit", "stale"}
EVERY_SUBCOMMAND = [*ROWS.every, "-h, --help"]
# A changed path for those who read some.
CHANGED = b"main.c\n"


# The sources of examples/project, which are not there.
SOURCES = ["main.c", "text/words.c", "text/words_test.c", "text/lines.c"]


def with_sources(folder):
    """A copy of examples/project in which the sources exist: without them Ninja would not build."""
    copy = folder / "project"
    shutil.copytree(PROJECT, copy)
    write_files(copy, dict.fromkeys(SOURCES, b""))
    return copy


def run(graph, folder, words, text=CHANGED):
    return graph.run(words, folder, text).as_text()


def named_options(text):
    """The options that a help names."""
    return re.findall(r"^ +(-[\w-]+(?:, --[\w-]+)?)", text, re.M)


@check
def help_and_version(graph, folder):
    """They read no file: the directory is empty."""
    for word in "-h", "--help":
        status, output, error = run(graph, folder, [word])
        yield from expect(word, (status, error), (DONE, ""))
        found = re.findall(r"^  ([a-z]+) ", output, re.M)
        yield from expect(f"subcommands of {word}", found, list(SUBCOMMANDS))
        for name, (options, _) in SUBCOMMANDS.items():
            status, output, error = run(graph, folder, [name, word])
            yield from expect(f"{name} {word}", (status, error), (DONE, ""))
            usage = f"Usage: ninja-graph {name} ["
            yield from expect(f"usage of {name} {word}", usage in output, True)
            wanted = sorted([*options, *EVERY_SUBCOMMAND])
            yield from expect(f"options of {name} {word}", sorted(named_options(output)), wanted)
    version = f"ninja-graph {(ROOT / 'VERSION').read_text()}"
    for word in "-V", "--version":
        yield from expect(word, run(graph, folder, [word]), (DONE, version, ""))


@check
def wrong_words(graph):
    for words in [], ["nothing"], ["--nothing"], ["-f", "build.ninja"], ["help"]:
        status, output, error = run(graph, PROJECT, words)
        yield from expect(words, (status, output, error == ""), (USAGE, "", False))
    for name, (_, answered) in SUBCOMMANDS.items():
        for words in ["--nothing"], ["-f"], ["-C"], ["-f", "a", "-f", "b"], ["-V"], ["--dyndep=x"], ["--deps=x"]:
            status, output, error = run(graph, PROJECT, [name, *words, *answered])
            yield from expect([name, *words], (status, output, error == ""), (USAGE, "", False))
    ran = graph.run_by_shell(["affected"], PROJECT, after="$(printf '\\377')")
    yield from expect("not UTF-8", ran, (USAGE, b"", b"ninja-graph: cannot read the arguments\n"))


@check
def faults(graph, folder):
    (folder / "bad.ninja").write_text("build a: nothing b\n")
    for name, (_, words) in SUBCOMMANDS.items():
        fault = "none.ninja:1:1: cannot find 'none.ninja'\n"
        ran = run(graph, PROJECT, [name, "-f", "none.ninja", *words])
        yield from expect(f"{name}, no file", ran, (FAULT, "", fault))
        status, output, error = run(graph, folder, [name, "-f", "bad.ninja", *words])
        yield from expect(f"{name}, a fault", (status, output), (FAULT, ""))
        yield from expect(f"{name}, its place", error.startswith("bad.ninja:1:"), True)
        status, output, error = run(graph, folder, [name, "-C", "none", *words])
        yield from expect(f"{name}, no folder", (status, output), (FAULT, ""))
        start = "ninja-graph: cannot change to 'none': "
        yield from expect(f"{name}, its text", error.startswith(start), True)


@check
def folders(graph, folder):
    """A run with `-C`, before or after the subcommand, is one in that directory, and so is `-f`."""
    complete = with_sources(folder)
    for name, (_, words) in SUBCOMMANDS.items():
        project = complete if name == "stale" else PROJECT
        wanted = run(graph, project, [name, *words])
        status = LOOK if name in LOOKS else DONE
        yield from expect(f"{name}, answer", (wanted.status, wanted.output == ""), (status, False))
        yield from expect(f"-C {name}", run(graph, folder, ["-C", str(project), name, *words]), wanted)
        ran = run(graph, folder, [name, "-C", str(project), "-f", ".//build.ninja", *words])
        found = ran._replace(output=ran.output.replace(".//build.ninja", "build.ninja"))
        yield from expect(name, found, wanted)


@check
def outputs(graph, folder):
    """Outputs that are full or closed."""
    complete = with_sources(folder)
    asked = [["--help"], ["--version"], *([name, *words] for name, (_, words) in SUBCOMMANDS.items())]
    for words in asked:
        project = complete if words[0] == "stale" else PROJECT
        with open("/dev/full", "wb") as full:
            ran = graph.run(words, project, CHANGED, output=full)
        yield from expect(f"full, {words}", ran, (OUTPUT_FAILED, b"", b""))
        ran = graph.run_by_shell(words, project, CHANGED, after=">&-")
        yield from expect(f"closed, {words}", ran, (OUTPUT_FAILED, b"", b""))
    with open("/dev/full", "wb") as full:
        ran = graph.run(["affected"], PROJECT, b"none.c\n", error=full)
    yield from expect("full error output", ran, (OUTPUT_FAILED, b"", b""))


# ---- memory

# How a run without memory ends.
NO_MEMORY = FAULT, b"ninja-graph: out of memory\n"
# As many allocations as any run has.
ALL = 1 << 40
# Runs that end before any file is read, and at the first one.
ENDED_EARLY = [
    [],
    ["--help"],
    ["--version"],
    ["nothing"],
    ["keys", "--help"],
    ["audit", "--nothing"],
    ["audit", "--only", "typo"],
    ["audit", "--except", "typo"],
    ["draw", "--limit", "x"],
    ["keys", "--base", "out"],
    ["keys", "--resume", "0."],
    ["why", "a"],
    ["json", "-C", "none"],
    ["affected", "-f", "none.ninja"],
]


def without_memory(graph, folder, words, times=1):
    """Refuses each allocation of a run in turn, and as many of those after it: the run ends as usual, or
    for want of memory after a part of its output. Returns how many allocations the run has."""
    report, library = folder / "report", compiled("fail_alloc", folder)
    fails = {"LD_PRELOAD": library, "FAIL_ALLOC_REPORT": str(report), "FAIL_ALLOC_TIMES": str(times)}
    usual, count, lacked = graph.run(words, folder, CHANGED), 0, 0
    while count == 0 or report.exists():
        report.unlink(missing_ok=True)
        ran = graph.run(words, folder, CHANGED, **fails, FAIL_ALLOC=str(count + 1))
        lacks = (ran.status, ran.error) == NO_MEMORY and usual.output.startswith(ran.output)
        lacked += lacks
        if ran != usual and not lacks:
            yield f"{words}, allocation {count + 1}: {shown(ran)}"
        count += 1
    yield from expect(f"{words}, allocations were refused", lacked > 0, True)
    return count - 1


@check(needs=["cc"])
def ended_early_without_memory(graph, folder):
    for words in ENDED_EARLY:
        for times in 1, ALL:
            yield from without_memory(graph, folder, words, times)


# ---- the stack

# In the deepest of 32 files an edge with `deps` has a log.
LOGGED = {".ninja_deps": deps_log({"a": ["h", "d"]})}
ON_NESTED = [
    ["affected"],
    ["affected", "--rule", "deep", "--no-phony"],
    ["audit", "--only=missing-source"],
    ["audit", "--all"],
    ["draw"],
    ["draw", "--affected", "--fold", "d"],
    ["json"],
    ["keys"],
    ["keys", "--take", "1", "--base", "/"],
    ["why", "all", "d"],
    ["why", "--validations", "all", "a"],
]


@check
def stack_of_subcommands(graph, folder):
    """Every subcommand has the same output with little stack as with much, with 32 files open."""
    nested(MOST_OPEN).write_to(folder)
    write_files(folder, LOGGED)
    for options in [], ["--dyndep"], ["--deps"], ["--dyndep", "--deps"]:
        for name, *words in ON_NESTED:
            asked = [name, *options, *words]
            usual = graph.run(asked, folder, b"d\nh\n")
            limit = f"ulimit -s {KILOBYTES};"
            ran = graph.run_by_shell(asked, folder, b"d\nh\n", before=limit)
            if ran != usual or ran.status not in (DONE, LOOK) or not ran.output:
                yield f"{asked}, in {KILOBYTES} KB of stack: it ends with {shown(ran)}"

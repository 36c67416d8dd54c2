"""Compares the report of ninja-graph's `times` with builds whose times are known.

Ninja builds commands that sleep, so the critical path is known before. The sums and the durations are those
of `.ninja_log`, which a few lines read here.
"""

import json
import re
from collections import namedtuple

from lib.checks import check, expect
from lib.histories import NINJA
from lib.programs import DONE, ROOT
from lib.projects import MAIN, write_files

# Edges that sleep for so many hundredths of a second, each with its inputs. `path` is the chain that sleeps longest;
# `long` alone sleeps longer than any edge on it.
SLEEPS = {
    "a": (10, []),
    "b": (30, []),
    "long": (60, []),
    "c": (35, ["a", "b"]),
    "d": (5, ["a"]),
    "app": (20, ["c", "d"]),
    "doc": (2, ["a", "b", "c", "d"]),
}
PATH = ["b", "c", "app"]
# Edges of another rule.
DOZES = ["d", "doc"]
FIRST_LINE = re.compile(r"commands: (\d+), unknown: (\d+), sum: (\d+\.\d{3}) s, critical path: (\d+\.\d{3}) s")
LINE = re.compile(r"(\d+\.\d{3}|unknown)(?: s)? (.+)")

# What a report says: the four numbers of its first line, and the time of each output in the others; in milliseconds.
Report = namedtuple("Report", "commands unknown sum critical lines")


def milliseconds(text):
    return None if text == "unknown" else int(text.replace(".", ""))


def report(graph, folder, *words):
    """The report, whose lines all have the form that the page shows."""
    ran = graph.run(["times", *words], folder).as_text()
    first, *others = ran.output.splitlines()
    commands, unknown, total, critical = FIRST_LINE.fullmatch(first).groups()
    lines = [LINE.fullmatch(line).groups() for line in others]
    found = [(output, milliseconds(time)) for time, output in lines]
    return ran.status, Report(int(commands), int(unknown), milliseconds(total), milliseconds(critical), found)


def logged(folder):
    """How long each output took, by the last line that names it."""
    lines = (folder / ".ninja_log").read_text().splitlines()[1:]
    fields = [line.split("\t") for line in lines]
    return {output: max(0, int(end) - int(start)) for start, end, _, output, _ in fields}


def sleeping():
    """A manifest of the edges that sleep."""
    lines = []
    for rule in "sleep", "doze":
        lines += [f"rule {rule}", "  command = sleep $seconds && touch $out"]
    for output, (hundredths, inputs) in SLEEPS.items():
        rule = "doze" if output in DOZES else "sleep"
        lines += [f"build {output}: {rule} {' '.join(inputs)}", f"  seconds = {hundredths / 100}"]
    lines += ["build all: phony app long doc", "default all"]
    return "".join(f"{line}\n" for line in lines)


def by_rule(graph, folder, times):
    """Both rules, the one with the greater sum first; what each has is summed up here by the log."""
    wanted = []
    for rule in "sleep", "doze":
        mine = {output: times[output] for output in SLEEPS if (rule == "doze") == (output in DOZES)}
        slowest = max(mine, key=lambda output: (mine[output], -list(SLEEPS).index(output)))
        wanted.append((sum(mine.values()), rule, len(mine), mine[slowest], slowest))
    wanted.sort(reverse=True)
    ran = graph.run(["times", "--by-rule", "--json"], folder).as_text()
    names = "sum", "rule", "commands", "milliseconds", "output"
    found = [tuple(json.loads(line)[name] for name in names) for line in ran.output.splitlines()[1:]]
    yield from expect("--by-rule", found, wanted)


@check(needs=["ninja"], alone=True)
def sleeps(graph, folder):
    """The critical path is the chain that sleeps longest, though another edge is slower than each of its edges."""
    write_files(folder, {MAIN: sleeping()})
    count = len(SLEEPS)
    yield from expect("before", report(graph, folder), (DONE, Report(count, count, 0, 0, [])))
    NINJA.run(["-j", str(count)], folder)
    times = logged(folder)
    path = [(output, times[output]) for output in PATH]
    head = count, 0, sum(times.values()), sum(time for _, time in path)
    yield from expect("after", report(graph, folder), (DONE, Report(*head, path)))
    for output, (hundredths, _) in SLEEPS.items():
        if times[output] < 10 * hundredths:
            yield f"{output} slept for {times[output]} ms"
    slowest = sorted(times.items(), key=lambda item: (-item[1], list(SLEEPS).index(item[0])))
    yield from expect("--top 2", report(graph, folder, "--top", "2"), (DONE, Report(*head, slowest[:2])))
    yield from by_rule(graph, folder, times)
    ran = graph.run(["times", "--json", "d"], folder).as_text()
    chain = [{"milliseconds": times[output], "output": output} for output in ("a", "d")]
    both = times["a"] + times["d"]
    first = {"commands": 2, "unknown": 0, "sum": both, "critical_path": both}
    yield from expect("--json", [json.loads(line) for line in ran.output.splitlines()], [first, *chain])


@check(needs=["ninja"])
def dead_outputs(graph, folder):
    """The outputs that --dead writes are those that Ninja deletes."""
    rule = "rule mk\n  command = touch $out\n"
    outputs = "old", "kept", "input", "check", "gone"
    write_files(folder, {MAIN: rule + "".join(f"build {output}: mk\n" for output in outputs)})
    NINJA.run([], folder)
    write_files(folder, {MAIN: rule + "build kept: mk input |@ check\n"})
    (folder / "gone").unlink()
    before = {path.name for path in folder.iterdir()}
    ran = graph.run(["times", "--dead"], folder).as_text()
    found = sorted(ran.output.splitlines())
    yield from expect("--dead", (ran.status, found), (DONE, ["check", "old"]))
    NINJA.run(["-t", "cleandead"], folder)
    yield from expect("deleted by Ninja", sorted(before - {path.name for path in folder.iterdir()}), found)


# The example of the page: its manifest, the times that the text states, and what the program writes.
MANIFEST = re.compile(r"^```ninja\n(rule cc\n.*?)^```$", re.M | re.S)
LOG = "# ninja log v5\n0\t500\t1\tmain.o\t1\n0\t1250\t1\twords.o\t1\n1250\t1553\t1\tapp\t1\n"
SHOWN = re.compile(r"^```text\n\$ ninja-graph (times[^\n]*)\n(.*?)^```$", re.M | re.S)


@check
def example_of_the_page(graph, folder):
    page = (ROOT / "docs/NINJA-GRAPH.md").read_text()
    write_files(folder, {MAIN: MANIFEST.search(page)[1], ".ninja_log": LOG})
    shown = SHOWN.findall(page)
    yield from expect("examples", len(shown), 3)
    for words, wanted in shown:
        yield from expect(words, graph.run(words.split(), folder).as_text().output, wanted)


@check(needs=["ninja"])
def builds_again(graph, folder):
    """Of a command that ran twice the last time counts, and a command that fails keeps the time before."""
    manifest = "rule mk\n  command = %s touch $out\nbuild a: mk\nbuild b: mk a\n"
    for command in "sleep 0.2 &&", "", "sleep 0.2 && false &&":
        write_files(folder, {MAIN: manifest % command})
        NINJA.run([], folder)
        _, found = report(graph, folder, "--top", "2")
        yield from expect(f"with '{command}'", dict(found.lines), logged(folder))
        if command == "" and found.sum > 200:
            yield f"the first build counts: {found}"

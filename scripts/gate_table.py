"""Writes the measurements of `gate_processes` as tables, with the machine and its load."""

import os
import re
import subprocess
import time
from collections import defaultdict
from dataclasses import dataclass
from pathlib import Path

from gate_processes import BESIDE, EDIT, LAYOUT, PHASES, PROOF, RUN, TESTS, TICKS

# The crate by whose proof machines are compared.
MEASURE = "nj_text"
# The most crates that have a line of their own in the short form.
MOST_LINES = 30
HEADS = {
    PROOF: "Proof",
    TESTS: "Proof of tests",
    BESIDE: "Checks beside edits",
    EDIT: "Edits",
    "build": "Builds",
    RUN: "Runs",
    LAYOUT: "Layout",
}
BUILDS = ("as LLVM built it", "as Rattle's compiler built it")
BESIDES = ("check before the first edit", "check after the last edit")


def text_of(file):
    """The text of a file, or an empty one where it cannot be read."""
    try:
        return Path(file).read_text(encoding="utf-8", errors="replace")
    except OSError:
        return ""


def said_by(*words, folder="."):
    """The first line that a command writes, or an empty one where it fails."""
    try:
        ran = subprocess.run(words, cwd=folder, capture_output=True, text=True, timeout=60)
    except (OSError, subprocess.TimeoutExpired):
        return ""
    return ran.stdout.strip().partition("\n")[0] if ran.returncode == 0 else ""


def seconds(number):
    """A number of seconds as text."""
    return f"{number:.1f}" if number < 99.95 else f"{number:.0f}"


def minutes(number):
    """A number of seconds as text, in minutes where there are many."""
    return f"{number:.1f} s" if number < 99.95 else f"{number / 60:.1f} min"


class Machine:
    """The machine, its load, and the CPU time that all its processes took so far."""

    def __init__(self):
        self.clock = time.monotonic()
        self.load = " ".join(text_of("/proc/loadavg").split()[:3])
        fields = [int(it) / TICKS for it in text_of("/proc/stat").split("\n")[0].split()[1:9]]
        user, nice, system, _, _, interrupts, soft_interrupts, self.stolen = fields
        self.busy = user + nice + system + interrupts + soft_interrupts

    def described(self):
        """The processors and the memory as text."""
        model = re.search(r"model name\s*: (.*)", text_of("/proc/cpuinfo"))
        memory = re.search(r"MemTotal:\s*(\d+)", text_of("/proc/meminfo"))
        gigabytes = int(memory[1]) / (1 << 20) if memory else 0
        number = len(os.sched_getaffinity(0))
        return f"{number} processors ({model[1] if model else 'unknown'}), {gigabytes:.1f} GB"


@dataclass
class Sum:
    """CPU time, wall-clock time, and the most memory of one process."""

    used: float = 0.0
    clock: float = 0.0
    resident: int = 0
    number: int = 0

    def add(self, part):
        self.used += part.used
        self.clock += part.end - part.start
        self.resident = max(self.resident, part.resident)
        self.number += 1

    def cell(self):
        return f"{seconds(self.used)} / {seconds(self.clock)}" if self.number else ""


def crates_below(folder):
    """For each crate of crates.txt, in that order, the crates that it names."""
    rows = [it.partition("#")[0] for it in text_of(Path(folder, "crates.txt")).split("\n")]
    rows = [it.partition(":") for it in rows if ":" in it]
    named = {head.split()[0]: below.split() for head, _, below in rows}
    return {name: [it for it in below if it in named] for name, below in named.items()}


def longest_chain(below, clocks):
    """The crates that follow each other for the longest wall-clock time, and that time.

    A crate takes its proof, and the last one that of its tests too where that takes longer.
    """
    chains = {}

    def chain(name):
        if name not in chains:
            under = max((chain(it) for it in below[name]), default=(0.0, []))
            chains[name] = under[0] + clocks(name, PROOF), [*under[1], name]
        return chains[name]

    def with_tests(name):
        time_of_tests = max(clocks(name, TESTS) - clocks(name, PROOF), 0.0)
        return chain(name)[0] + time_of_tests, chain(name)[1]

    return max(map(with_tests, below), default=(0.0, []))


def row(*cells):
    """A row of a table in Markdown."""
    return f"| {' | '.join(cells)} |"


class Table:
    """The time of each step of each crate, and of the whole."""

    def __init__(self, meter, usage, before, top):
        self.before, self.after, self.top, self.usage = before, Machine(), top, usage
        self.took = usage.ru_utime + usage.ru_stime
        meter.finish(self.took)
        self.meter, self.below = meter, crates_below(top)
        self.steps, self.sums, seen = defaultdict(Sum), defaultdict(Sum), defaultdict(int)
        for part in sorted(meter.attributed(), key=lambda it: it.start):
            crate, phase, step = part.label
            names = {BESIDE: BESIDES, RUN: BUILDS}.get(phase) if step != "tests" else None
            step = names[min(seen[part.label], len(names) - 1)] if names else step
            seen[part.label] += 1
            self.steps[crate, phase, step].add(part)
            self.sums[crate, phase].add(part)
            self.sums[crate].add(part)
        # The order of crates.txt, and then others.
        self.crates = [*dict.fromkeys([*self.below, *(crate for crate, _, _ in self.steps)])]

    def whole(self):
        """All tables, in Markdown."""
        return "\n".join([*self.by_step(), "", *self.by_crate(), "", *self.of_all(), ""])

    def by_step(self):
        yield "## The gate by step"
        yield ""
        yield "The proof of tests includes their build, and that of a library what is kept of it."
        yield ""
        yield row("Crate", "", "Step", "Processor, s", "Clock, s", "Largest, MB")
        yield row(*["---"] * 3, *["--:"] * 3)
        places = {crate: place for place, crate in enumerate(self.crates)}
        ordered = sorted(self.steps, key=lambda it: (places[it[0]], PHASES.index(it[1])))
        for crate, phase, step in ordered:
            it = self.steps[crate, phase, step]
            told = f"{step} ({it.number} times)" if phase == EDIT and it.number > 1 else step
            times = seconds(it.used), seconds(it.clock)
            yield row(crate, phase, told, *times, str(it.resident >> 20))

    def by_crate(self):
        yield "## The gate by crate"
        yield ""
        yield "Seconds of processor time / by the clock, for steps side by side their sum."
        yield ""
        yield row("Crate", *HEADS.values(), "All")
        yield row("---", *["--:"] * (len(HEADS) + 1))
        for crate in self.crates:
            cells = [self.sums[crate, phase].cell() for phase in PHASES]
            yield row(crate, *cells, self.sums[crate].cell())
        yield row("all", *[self.over(self.crates, phase).cell() for phase in PHASES], "")

    def over(self, crates, phase):
        """The sum of a phase over crates."""
        found = Sum()
        for it in (self.sums[crate, phase] for crate in crates):
            found.used, found.clock = found.used + it.used, found.clock + it.clock
            found.number += it.number
        return found

    def of_all(self):
        yield "## The gate in all"
        yield ""
        yield row("", "")
        yield row("---", "---")
        for name, text in self.facts():
            yield row(name, text)

    def facts(self):
        """The figures of the whole, as names and texts."""
        clock = self.after.clock - self.before.clock
        others = self.after.busy - self.before.busy - self.took
        stolen = self.after.stolen - self.before.stolen
        measure = self.sums[MEASURE, PROOF]
        time_of_chain, chain = longest_chain(self.below, lambda *key: self.sums[key].clock)
        own = time.process_time()
        commit = said_by("git", "log", "-1", "--format=%h of %cs", folder=self.top)
        yield "Commit", commit or "unknown"
        yield "Toolchain", said_by("rt", "version") or "unknown"
        yield "Machine", self.before.described()
        yield "Load at the start, at the end", f"{self.before.load}, {self.after.load}"
        yield "Work of others meanwhile", f"{minutes(others)} of processor time"
        yield "Stolen by the machine's host", minutes(stolen)
        yield "By the clock", minutes(clock)
        yield "Processor time", minutes(self.took)
        yield "Of it `rt` itself", minutes(self.meter.own)
        yield "Of it not attributed", minutes(self.meter.not_attributed())
        yield "The largest process", f"{self.usage.ru_maxrss >> 10} MB"
        yield f"`{MEASURE}` alone, its proof", f"{measure.cell() or 'none in this run'}"
        yield "The longest chain of proofs", f"{minutes(time_of_chain)}: {', '.join(chain)}"
        yield "The measuring itself", f"{minutes(own)}, {100 * own / clock:.1f} % of a processor"

    def short(self):
        """The sums by crate and the whole, a line for each, as text."""
        shown = [it for it in self.crates if self.sums[it].number]
        shown = sorted(shown, key=lambda it: -self.sums[it].used)[:MOST_LINES]
        rows = [["seconds of processor time", *HEADS.values(), "All", "clock"]]
        for crate in (it for it in self.crates if it in shown):
            cells = [self.sums[crate, phase] for phase in PHASES] + [self.sums[crate]]
            texts = [seconds(it.used) if it.number else "" for it in cells]
            rows.append([crate, *texts, seconds(self.sums[crate].clock)])
        widths = [max(map(len, column)) for column in zip(*rows)]
        lines = ["  ".join(map(str.rjust, it[1:], widths[1:])) for it in rows]
        lines = [f"{it[0].ljust(widths[0])}  {line}".rstrip() for it, line in zip(rows, lines)]
        told = ("By the clock", "Processor time", "The largest process", "Work of others meanwhile")
        facts = [f"{name}: {text}" for name, text in self.facts() if name in told]
        return "\n".join([*lines, *facts, ""])

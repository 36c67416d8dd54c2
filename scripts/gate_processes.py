"""Follows the processes that `rt ci` starts, by /proc, and sums the time and memory of each.

A `Meter` looks a few times a second. The time of a process after the last look at it is in the times
that its parent has of ended children, so it is not lost: it goes to the processes that ended since.
`label_of` tells from a process's arguments which step of which crate it is.
"""

import os
import re
import time
from dataclasses import dataclass
from pathlib import Path
from typing import NamedTuple

TICKS = os.sysconf("SC_CLK_TCK")
PAGE = os.sysconf("SC_PAGE_SIZE")
# How often a look is repeated where a process ended meanwhile.
TRIES = 3

PROOF, TESTS, BESIDE, EDIT, BUILD, RUN, LAYOUT = PHASES = (
    "proof",
    "tests' proof",
    "check beside edits",
    "edit",
    "build",
    "run",
    "layout",
)
# The directories that `rt ci` makes: a crate with an edit, the seed of such checks, and a run.
EDITED, SEEDS = re.compile(r"/rt-edit-\d+-[^/]*$"), re.compile(r"/rt-edits-\d+-[^/]*/(\w+)$")
STARTED = re.compile(r"/rt-run-\d+-[^/]*/bin/(\w+?)(_tests)?$")
IN_CRATE = re.compile(r"/crates/(\w+)(/|$)")
# The line that `rt ci` prints after each run.
RAN = re.compile(
    rb"^rt: (\w+)(?: \(built by[^)]*\))?"
    rb"(?: ran|: (?:what )?the program|: its (tests) (?:passed|FAILED))",
    re.M,
)


class Label(NamedTuple):
    """The crate and the phase of a process, and which step of the phase it is."""

    crate: str
    phase: str
    step: str = ""


class Stat(NamedTuple):
    """The state of a process by /proc: times in seconds, and memory in bytes."""

    parent: int
    own: float
    of_ended_children: float
    start: float
    resident: int


@dataclass
class Part:
    """A process with those below it; `label` is `None` as long as nothing is known of it."""

    label: Label
    start: float
    end: float
    used: float = 0.0
    resident: int = 0


def value_after(words, flag):
    """The argument after a flag, or an empty text."""
    return words[words.index(flag) + 1] if flag in words[:-1] else ""


def edit_of(words, crate, root):
    """The label of a check of a crate in a copy, with or without an edit."""
    names = sorted(file.stem for file in Path(root, "crates", crate, "must-fail").glob("*.edit"))
    begun = SEEDS.search(value_after(words, "--incremental"))
    if begun and not begun[1].isdigit():
        return Label(crate, BESIDE)
    number = int(begun[1]) if begun else 0
    is_known = number < len(names) and (begun or len(names) == 1)
    return Label(crate, EDIT, names[number] if is_known else "one from nothing")


def prover_of(words, folder, root):
    """The label of a process of the prover, whose arguments begin with its own name."""
    crate, jobs = value_after(words, "--crate-name"), value_after(words, "--jobs")
    if not crate:
        found = IN_CRATE.search(words[-1]) if words[1:2] == ["fmt"] else None
        return Label(found[1], LAYOUT) if found else None
    if EDITED.search(folder):
        return edit_of(words, crate, root)
    if "--crate-checked" in words:
        by_llvm = value_after(words, "--backend") == "llvm"
        return Label(crate, BUILD, "by LLVM" if by_llvm else "by Rattle's compiler")
    step = f"{jobs} job" if jobs == "1" else f"{jobs} jobs"
    return Label(crate, TESTS if "--test" in words else PROOF, step)


def label_of(words, folder, root):
    """The label of a process with these arguments in this directory, or `None` where they tell nothing."""
    names = [os.path.basename(word) for word in words]
    if "rattle" in names:
        at = names.index("rattle")
        return prover_of(words[at:], folder, root)
    crate = IN_CRATE.search(folder)
    if crate and {"rattle-link", "llvm-nm"} & {*names}:
        return Label(crate[1], BUILD, "linked")
    if names[:1] == ["llvm-nm"]:
        crate = IN_CRATE.search(words[-1])
        return Label(crate[1], BUILD, "linked") if crate else None
    started = next(filter(None, map(STARTED.search, words)), None)
    return Label(started[1], RUN, "tests" if started[2] else "") if started else None


def read_label(pid, root):
    """The label of a running process."""
    try:
        with open(f"/proc/{pid}/cmdline", "rb") as file:
            words = file.read().decode(errors="replace").split("\0")[:-1]
        return label_of(words, os.readlink(f"/proc/{pid}/cwd"), root)
    except OSError:
        return None


def stat_of(pid):
    """The state of a process by /proc, or `None` where it is gone."""
    try:
        with open(f"/proc/{pid}/stat", "rb") as file:
            text = file.read()
    except OSError:
        return None
    fields = [int(it) for it in text[text.rindex(b")") + 4 :].split()[:21]]
    return Stat(
        parent=fields[0],
        own=(fields[10] + fields[11]) / TICKS,
        of_ended_children=(fields[12] + fields[13]) / TICKS,
        start=fields[18] / TICKS,
        resident=fields[20] * PAGE,
    )


def now():
    """The clock by which /proc says when a process started."""
    return time.clock_gettime(time.CLOCK_BOOTTIME)


class Family:
    """The processes that descend from a process."""

    def __init__(self, root):
        self.members, self.strangers = {root}, set()

    def look(self):
        """The stat of each that runs now."""
        there = {int(name) for name in os.listdir("/proc") if name.isdigit()}
        self.members &= there
        self.strangers &= there
        stats = {pid: stat_of(pid) for pid in sorted(there - self.strangers)}
        stats = {pid: stat for pid, stat in stats.items() if stat}
        new = self.members
        while new:
            new = {pid for pid, it in stats.items() if it.parent in new} - self.members
            self.members |= new
        self.strangers |= stats.keys() - self.members
        return {pid: stat for pid, stat in stats.items() if pid in self.members}


class Meter:
    """Follows all that the process `pid` starts, in the repository `root`."""

    def __init__(self, pid, root):
        self.pid, self.root, self.family = pid, root, Family(pid)
        self.running, self.ended = {}, []
        # Of the process itself, of its children that ended, and of those that no look saw.
        self.own = self.settled = self.unseen = 0.0

    def look(self, printed=b""):
        """Takes the state of /proc, and `printed`, the latest output of the process."""
        for _ in range(TRIES):
            first, found = stat_of(self.pid), self.family.look()
            again = stat_of(self.pid)
            if not first or not again or self.pid not in found:
                return self
            if first.of_ended_children == again.of_ended_children:
                break
        clock, below = now(), {}
        for pid, stat in found.items():
            below.setdefault(stat.parent, []).append(pid)
        for pid in below.get(self.pid, []):
            self.see(pid, found, below, clock)
        self.own = again.own
        self.settle(again.of_ended_children, found, clock, printed)
        return self

    def see(self, pid, found, below, clock):
        """Takes the times of a process and of those below it."""
        part = self.running.get(pid)
        if not part or part.start != found[pid].start:
            part = Part(None, found[pid].start, clock)
            self.ended += [self.running.pop(pid)] if pid in self.running else []
            self.running[pid] = part
        part.label = part.label or read_label(pid, self.root)
        inside = [pid]
        for member in inside:
            inside += below.get(member, [])
        part.used = sum(found[it].own + found[it].of_ended_children for it in inside)
        part.resident = max(part.resident, *(found[it].resident for it in inside))
        part.end = clock

    def settle(self, total, found, clock, printed):
        """Adds the time of children after the last look at them to those that ended since."""
        gone = [self.running.pop(pid) for pid in [*self.running] if pid not in found]
        rest = max(total - self.settled - sum(part.used for part in gone), 0.0)
        self.settled = total
        ran = RAN.findall(printed)
        if ran and not any(part.label and part.label.phase == RUN for part in gone):
            crate, tests = ran[-1]
            gone.append(Part(Label(crate.decode(), RUN, tests.decode()), clock, clock))
        for part in gone:
            part.end = (part.end + clock) / 2
            part.used += rest / len(gone)
        self.unseen += 0.0 if gone else rest
        self.ended += gone

    def finish(self, whole):
        """Closes the books: `whole` is the time of the process with all of its children."""
        self.settle(max(whole - self.own, self.settled), {}, now(), b"")

    def attributed(self):
        """The processes whose crate and phase are known, in the order in which they ended."""
        return [part for part in self.ended if part.label]

    def not_attributed(self):
        """The CPU time of all others, but for the process itself."""
        return self.unseen + sum(part.used for part in self.ended if not part.label)

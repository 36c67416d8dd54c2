"""The must-fail edits, and what is known of them.

An edit is a wrong body: a text in the place of another one in the sources of a crate, for which its
check must fail. Those of a crate stand in edits/NAME/. The file edits/refused has for each of these
crates the state in which all of its edits were last refused, and for each edit where.
"""

import re
import shutil
from dataclasses import dataclass, field
from pathlib import Path

from lib.programs import ROOT
from lib.sources import PARTS

HEAD = """\
# Where each must-fail edit was refused, below the state of its crate: a checksum of the toolchain's
# logic and of all that a check of the crate reads. Written by `make edits` alone; see docs/GATE.md.
"""
CRATE = re.compile(r"(\w+) ([0-9a-f]{64})")
EDIT = re.compile(r"    ([\w.-]+): (\S.*)")
# What a program is run on, beside its sources.
RUN = ("stdin", "stdout", "args", "status", "data")
# How `rt` reports an edit, and how it names a goal that is open with it.
TOLD = re.compile(r"^(?:rt: )?must-fail (\w+)/([\w.-]+)\.edit: (.*)$", re.M)
REFUSED = "refused, as it must be"
OPEN = re.compile(r"((?:src|proofs|specs)/\S+)\.\w+:(\d+):\d+: (?:error: )?(.*)")
GOAL = re.compile(r"^`([^`]+)`|\(`([^`]+)`\)")
# `rt` cuts what it tells, at a place that depends on the number of the line.
SURE = 60
FUNCTION = re.compile(r"\bfn (\w+)")


def edits_of(top, crate):
    """The files of a crate's edits."""
    return sorted(Path(top, "edits", crate).glob("*.edit"))


def edited_crates(sources):
    """The crates that have edits, the lowest first."""
    having = [name for name in sources.below if edits_of(sources.top, name)]
    return sorted(having, key=lambda name: len(sources.crates_under(name)))


@dataclass
class Refusals:
    """The state of a crate, and where each of its edits was refused."""

    state: str
    places: dict = field(default_factory=dict)

    def lines(self, crate):
        return [f"{crate} {self.state}", *(f"    {it}: {at}" for it, at in self.places.items())]


class Record:
    """The file edits/refused."""

    def __init__(self, top=ROOT):
        self.file, self.crates = Path(top, "edits/refused"), {}
        lines = self.file.read_text().split("\n") if self.file.is_file() else []
        self.wrong = [line for line in lines if line and not self.takes(line)]

    def takes(self, line):
        """Takes a line, and returns whether it is a line of the file."""
        if found := CRATE.fullmatch(line):
            self.latest = self.crates[found[1]] = Refusals(found[2])
        elif (found := EDIT.fullmatch(line)) and self.crates:
            self.latest.places[found[1]] = found[2]
        return bool(found) or line.startswith("#")

    def write(self):
        lines = [line for name, it in sorted(self.crates.items()) for line in it.lines(name)]
        self.file.write_text(HEAD + "".join(f"{line}\n" for line in lines))

    def fits(self, crate, sources):
        """Whether the edits of a crate as it stands were refused."""
        known, edits = self.crates.get(crate), edits_of(sources.top, crate)
        is_listed = known and [*known.places] == [file.stem for file in edits]
        return bool(is_listed) and known.state == sources.state(crate, edits)


def changed(edit, folder):
    """The texts of the files of a crate that an edit changes, by their paths in the crate. Raises
    `ValueError` where a text to be replaced does not stand there once."""
    texts, path, old = {}, "", ""
    for line in edit.read_text().split("\n"):
        kind, _, rest = line.partition(": ")
        if kind == "file":
            path = rest.strip()
        elif kind == "old":
            old = rest
        elif kind.startswith("new"):
            text = texts.get(path) or Path(folder, path).read_text()
            if text.count(old) != 1:
                raise ValueError(f"{edit.name}: its text is in {path} {text.count(old)} times: {old}")
            texts[path] = text.replace(old, rest)
    return texts


def function_at(file, line, edit, folder):
    """The function in a line of the code, or the one whose proof has the line."""
    part, *names = file.split("/")
    if part == "proofs":
        return "::".join(names[:-1])
    path = f"{file}.rt"
    text = changed(edit, folder).get(path) or Path(folder, path).read_text()
    above = FUNCTION.findall("\n".join(text.split("\n")[:line]))
    return "::".join([*names, *above[-1:]])


def place_of(said, edit, folder):
    """Where an edit was refused: the function and the goal that `rt` names, or else its words."""
    found = OPEN.search(said)
    if not found:
        return said.removeprefix(REFUSED).lstrip(" :")[:SURE] or "refused"
    file, line, words = found.groups()
    goal = GOAL.search(words)
    goal = next(filter(None, goal.groups())) if goal else words[:SURE].rstrip()
    return f"{function_at(file, int(line), edit, folder)}: {goal}"


def copy_with_edits(sources, tried, to):
    """Copies the crates to be tried and those below them, as `rt` wants a repository, with the edits
    that `tried` has for each crate in place."""
    wanted = set(tried).union(*(sources.crates_under(name) for name in tried))
    for name in wanted:
        for part in (*PARTS, *RUN):
            copy = shutil.copytree if (sources.crates / name / part).is_dir() else shutil.copyfile
            if (sources.crates / name / part).exists():
                Path(to, "crates", name).mkdir(parents=True, exist_ok=True)
                copy(sources.crates / name / part, to / "crates" / name / part)
        for edit in tried.get(name, []):
            folder = to / "crates" / name / "must-fail"
            folder.mkdir(exist_ok=True)
            shutil.copyfile(edit, folder / edit.name)
    lines = [line for name in sources.below if name in wanted for line in sources.lines(name)]
    Path(to, "crates.txt").write_text("".join(f"{line}\n" for line in lines))
    shutil.copyfile(sources.top / "HANDLES", to / "HANDLES")

"""The verdict of `rt` on each crate, as its last line about the crate says it."""

import re
import subprocess

from gate_table import crates_below
from lib.programs import CRATES, ROOT
from lib.states import changes

HEAD = re.compile(r"== (\w+)$")
VERDICT = re.compile(r"logic=proved .*")
# Where `make` keeps them: for each crate the files that were proved, and the verdict.
KEPT = ROOT / "bin/verdicts"


class Reader:
    """Reads the output of `rt all check` or `rt ci`."""

    def __init__(self, crate=None):
        self.crate = crate

    def take(self, line):
        """The crate and its verdict, if the line is one of a crate without its tests."""
        if head := HEAD.match(line):
            self.crate = head[1]
        verdict = VERDICT.match(line)
        if self.crate and verdict and " tests=" not in line:
            return self.crate, verdict[0]
        return None


def read(log):
    """The verdicts in a whole log."""
    reader = Reader()
    return dict(filter(None, map(reader.take, log.splitlines())))


def state_of(crate):
    """Git's name for the files of a crate, or nothing if they differ from the commit."""
    folder = f"crates/{crate}"
    named = subprocess.run(["git", "rev-parse", f"HEAD:{folder}"], cwd=ROOT, capture_output=True)
    if named.returncode or set(changes(folder, ignored=True)) - {f"!! {folder}/out/"}:
        return ""
    return named.stdout.decode().strip()


def keep(crate, verdict):
    if (CRATES / crate).is_dir():
        KEPT.mkdir(parents=True, exist_ok=True)
        (KEPT / crate).write_text(f"{state_of(crate)}\n{verdict}\n")


def kept(crates):
    """The verdicts that were kept, of crates whose files are still the same."""
    found = {}
    for crate in crates:
        if (KEPT / crate).is_file():
            state, verdict = (KEPT / crate).read_text().splitlines()
            if state and state == state_of(crate):
                found[crate] = verdict
    return found


def with_those_below(crates):
    """Crates and those on which they stand, in the order of crates.txt."""
    below, found, open_ones = crates_below(ROOT), set(), list(crates)
    while open_ones:
        name = open_ones.pop()
        if name not in found:
            found.add(name)
            open_ones += below[name]
    return [name for name in below if name in found]


def lacking(crate):
    """The crates, from one down, whose verdict on the files that are committed was not kept."""
    names = with_those_below([crate])
    return [name for name in names if name not in kept(names) and state_of(name)]

"""The origins of a release, as text: the commit, the toolchain, the logic that each binary names, the
verdict on each crate, and when all must-fail edits were tried."""

import re
import subprocess

from dist.binaries import Refused
from dist.contents import LIBRARY_CRATE, PROGRAMS
from lib import states, verdicts
from lib.programs import ROOT

LINE = re.compile(r"rattle-kit-\S+ logic ([0-9a-f]{16})")
# How the gate says that it tried all must-fail edits.
TRIED = re.compile(r"^All \d+ edits were tried on .*$", re.M)


def output_of(*words):
    ran = subprocess.run(words, cwd=ROOT, capture_output=True, text=True, check=True)
    return ran.stdout.strip()


def toolchain():
    return output_of("rt", "version")


def commit():
    """The commit, with a word if files differ from it, and its time in seconds."""
    name, time = output_of("git", "log", "-1", "--format=%H %ct").split()
    return name + " and changes that are not committed" * bool(states.changes()), int(time)


def packed_crates():
    """The crates of the programs and the library, in the order of crates.txt."""
    return verdicts.with_those_below([*PROGRAMS.values(), LIBRARY_CRATE])


def verdicts_told(log):
    """The verdict on each packed crate: of the log, if any, or else the one that was kept."""
    names = packed_crates()
    told = verdicts.kept(names) | verdicts.read(log)
    if lacking := [name for name in names if name not in told]:
        advice = "`make` and `make c` keep them for files as they are committed; or give a log of the gate"
        raise Refused(f"there is no verdict on {', '.join(lacking)}: {advice}")
    return {name: told[name] for name in names}


def text(release, sums):
    """The file PROVENANCE of a release; `sums` has the lines of the checksums of its binaries."""
    logics, told = release.logics, release.verdicts
    width = max(map(len, logics))
    lines = [f"ninja-explain {release.version}", ""]
    lines += [f"commit {release.commit}", f"toolchain {release.toolchain}", ""]
    lines += ["The logic in which each was proved, by its section .comment:", ""]
    lines += [f"    {name:{width}}  {logic}" for name, logic in logics.items()]
    lines += ["", "The verdict on each crate:", ""]
    lines += [f"    {name:{width}}  {verdict}" for name, verdict in told.items()]
    tried = TRIED.search(release.log)
    lines += ["", "Must-fail edits:", ""]
    lines += [f"    {tried[0] if tried else 'the log of the gate does not say that all were tried'}"]
    lines += ["", "Checksums by SHA-256:", ""]
    lines += [f"    {line}" for line in sums.splitlines()]
    return "\n".join([*lines, ""])

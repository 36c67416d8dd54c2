#!/usr/bin/env python3
"""Runs the checks that a change of one crate needs before a commit: check_crate.py CRATE

Its check, its tests and stored run without proof, the tests that name it in crates.txt, the rows if
they stand on it, its must-fail edits, for which edits/refused is written, and the layout of its
files, which is only compared. Then the crates above it are named, which the change reaches and which
nothing here checks. A crate of tests/ is not proved: its rows are run, and those of the crates above
it.

The last line is `N passed, M failed`, and the status is 1 if anything failed.
"""

import shutil
import subprocess
import sys
import tempfile
from pathlib import Path

from lib.composed import TESTS, below_all, laid_out, test_crates
from lib.edits import edits_of
from run_tests import has_tests

TOP = Path(__file__).resolve().parent.parent
PARTS = ("src", "specs", "proofs")


def above(crate, below):
    """The crates that stand on this one, in the order of crates.txt."""
    found, new = set(), {crate}
    while new:
        new = {name for name, named in below.items() if new & {*named}} - found
        found |= new
    return [name for name in below if name in found]


def to_run(crate, below):
    """The crates whose tests, rows or stored runs are run."""
    found = [name for name in below if crate in below[name] and has_tests(TOP / "crates" / name)]
    found += (name for name in programs_of_rows() if name in above(crate, below))
    folder = TOP / "crates" / crate
    is_run = has_tests(folder) or (folder / "src/main.rt").is_file() or crate in programs_of_rows()
    return [crate, *found] if is_run else found


def programs_of_rows():
    """The crates of tests/ that run rows."""
    return [name for name in test_crates() if (TESTS / name / "src/main.rs").is_file()]


def runs_well(name, command, folder):
    """Runs a step, and returns whether it ended well."""
    print(f"== {name}", flush=True)
    is_well = subprocess.run(command, cwd=folder).returncode == 0
    print(f"{name}: {'passed' if is_well else 'FAILED'}", flush=True)
    return is_well


def changed_by_layout(crate):
    """The files that `rt fmt` changes, tried on a copy, and its mistakes."""
    with tempfile.TemporaryDirectory() as room:
        for part in PARTS:
            if (TOP / "crates" / crate / part).is_dir():
                shutil.copytree(TOP / "crates" / crate / part, Path(room, part))
        ran = subprocess.run(["rt", "fmt"], cwd=room, capture_output=True, text=True)
    changed = [it.partition("formatted ")[2] for it in ran.stdout.split("\n") if "formatted" in it]
    return [f"crates/{crate}/{file}" for file in changed], ran.stderr.strip() if ran.returncode else ""


def is_in_layout(crate):
    """Whether `rt fmt` would change no file."""
    if crate in test_crates():
        changed, error = [file.relative_to(TOP) for file, _ in laid_out(crate)], ""
    else:
        changed, error = changed_by_layout(crate)
    for file in changed:
        print(f"rt fmt would change {file}")
    is_well = not changed and not error
    print(f"layout: {'passed' if is_well else 'FAILED'} {error}".rstrip(), flush=True)
    return is_well


def main():
    below = below_all()
    if len(sys.argv) != 2 or sys.argv[1] not in below:
        raise SystemExit("usage: check_crate.py CRATE, as crates.txt or tests/crates.list names it")
    crate, top = sys.argv[1], TOP / "crates" / sys.argv[1]
    runs = to_run(crate, below)
    results = [is_in_layout(crate)]
    if runs:
        script = [sys.executable, TOP / "scripts/run_tests.py", *runs]
        results.append(runs_well(f"tests and rows of {', '.join(runs)}", script, TOP))
    if top.is_dir():
        results.append(runs_well("check", ["rt", "check"], top))
    if edits_of(TOP, crate):
        script = [sys.executable, TOP / "scripts/edits.py", crate]
        results.append(runs_well("edits", script, TOP))
    reached = [name for name in above(crate, below) if name not in test_crates()]
    print(f"Not checked, and above {crate}: {', '.join(reached) or 'no crate'}")
    print(f"{sum(results)} passed, {len(results) - sum(results)} failed")
    return 0 if all(results) else 1


if __name__ == "__main__":
    sys.exit(main())

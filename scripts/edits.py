#!/usr/bin/env python3
"""Tries must-fail edits: edits.py [--all] [CRATE..], and for the gate edits.py --gate [--all]

Tries the edits of each crate whose state is not the one in which they were last refused, or those of
the crates that are named, or all; and writes in edits/refused where each was refused. It does so in a
copy outside the repository, by `rt must-fail`, which begins with what `rt check` kept.

--gate writes nothing. It tries the edits of the crates whose state is another by `rt ci`, over what
that proved before, and up to four edits of each of two crates whose state is the same: they have to
be refused where the file says. The hash of the commit chooses them among crates that are checked in
a few minutes, one from the lower half. With --all it tries all edits. --table FILE writes what each step took.

The last line is `N passed, M failed`, and the status is 1 if an edit was not refused.
"""

import argparse
import contextlib
import subprocess
import sys
import tempfile
from datetime import date
from pathlib import Path

from lib import edits
from lib.programs import ROOT
from lib.sources import Sources

MEASURED = [sys.executable, ROOT / "scripts/measure_gate.py"]
# The most edits that the gate tries of a crate whose state is the recorded one.
MOST_AGAIN = 4
# Crates whose check takes more than five minutes of CPU time (docs/GATE.md), which the gate does not
# choose.
LARGE = {"nj_ask", "nj_audit", "nj_c", "nj_edges", "nj_graph", "nj_statements", "nj_tools"}


def passed_on(command, folder):
    """Runs a command, prints what it says but for its last counts, and returns its text."""
    text = []
    how = {"stdout": subprocess.PIPE, "stderr": subprocess.STDOUT, "text": True, "errors": "replace"}
    with subprocess.Popen(command, cwd=folder, **how) as running:
        for line in running.stdout:
            text.append(line)
            print(line, end="", flush=True)
    return "".join(text)


def told_in(text):
    """What was told of each edit, by its crate and its name."""
    return {(crate, name): said for crate, name, said in edits.TOLD.findall(text)}


def places(sources, crate, files, told):
    """Where each of these edits of a crate was refused, or `None` and what was told of it instead."""
    for file in files:
        said = told.get((crate, file.stem), "it was not tried")
        is_refused = said.startswith(edits.REFUSED)
        at = edits.place_of(said, file, sources.crates / crate) if is_refused else None
        yield file.stem, at, said


def tried(sources, wanted, command):
    """What was told of the edits of crates, which a command tries in a copy."""
    with tempfile.TemporaryDirectory(prefix="edits-") as room:
        copy = Path(room).resolve()
        edits.copy_with_edits(sources, wanted, copy)
        return told_in(passed_on([*command, *(["--top", copy] if command[0] != "rt" else [])], copy))


def chosen(fitting, commit):
    """Two of the crates, one of them from their lower half, by the hash of a commit."""
    number, lower = int(commit, 16), fitting[: (len(fitting) + 1) // 2]
    first = lower[number % len(lower) :][:1] if lower else []
    others = [name for name in fitting if name not in first]
    return first + others[number // 64 % len(others) :][:1] if others else first


def some_of(files, commit):
    """At most `MOST_AGAIN` of a crate's edits, by the hash of a commit."""
    first = int(commit, 16) // 4096 % max(len(files), 1)
    return sorted((files[first:] + files[:first])[:MOST_AGAIN])


def commit():
    """The hash of the commit, or of the empty tree where there is no checkout."""
    ran = subprocess.run(["git", "rev-parse", "HEAD"], cwd=ROOT, capture_output=True, text=True)
    return ran.stdout.strip() or "0"


def summed(passed, failures):
    for failure in failures:
        print(f"FAILED {failure}")
    print(f"{passed} passed, {len(failures)} failed")
    return 1 if failures else 0


def renew(crates, sources, record):
    """Tries the edits of crates, and writes where they were refused."""
    wanted = {it: edits.edits_of(ROOT, it) for it in crates}
    states = {it: sources.state(it, files) for it, files in wanted.items()}
    told = tried(sources, wanted, ["rt", "must-fail", *crates]) if crates else {}
    failures, passed, after = [], 0, Sources(ROOT)
    for crate, state in states.items():
        found = list(places(sources, crate, wanted[crate], told))
        failed = [f"{crate}/{name}: {said}" for name, at, said in found if not at]
        if after.state(crate, edits.edits_of(ROOT, crate)) != state:
            failed.append(f"{crate}: its files changed meanwhile")
        if not failed:
            record.crates[crate] = edits.Refusals(state, {name: at for name, at, _ in found})
        passed, failures = passed + len(found) - len(failed), failures + failed
    known = edits.edited_crates(after)
    record.crates = {name: it for name, it in record.crates.items() if name in known}
    record.write()
    return summed(passed, failures)


def gate(everything, table, sources, record):
    """Tries what the gate has to try."""
    known = edits.edited_crates(sources)
    fitting = [it for it in known if record.fits(it, sources)]
    others = [it for it in known if it not in fitting]
    again = fitting if everything else chosen([it for it in fitting if it not in LARGE], commit())
    print(f"Edits of crates that changed since theirs were refused: {', '.join(others) or 'none'}")
    print(f"Edits that are tried again, of {len(fitting)} crates: {', '.join(again) or 'none'}")
    crates = [it for it in known if it in others or it in again]
    wanted = {it: edits.edits_of(sources.top, it) for it in crates}
    if not everything:
        wanted |= {it: some_of(wanted[it], commit()) for it in again}
    measured = [*MEASURED, *(["--table", table] if table else [])]
    told = tried(sources, wanted, measured) if crates else {}
    failures, passed = [f"edits/refused: {line}" for line in record.wrong], 0
    for crate, files in wanted.items():
        for name, at, said in places(sources, crate, files, told):
            known_at = record.crates[crate].places[name] if crate in again else at
            if not at:
                failures.append(f"{crate}/{name}: {said}")
            elif at != known_at:
                failures.append(f"{crate}/{name}: refused at {at}, and edits/refused says {known_at}")
            passed += bool(at) and at == known_at
    if crates == known and (everything or not again) and not failures:
        print(f"All {passed} edits were tried on {date.today()}, at {commit()}.")
    return summed(passed, failures)


def main():
    layout = argparse.RawDescriptionHelpFormatter
    words = argparse.ArgumentParser(description=__doc__, formatter_class=layout)
    words.add_argument("--gate", action="store_true")
    words.add_argument("--all", action="store_true")
    words.add_argument("--table", metavar="FILE")
    words.add_argument("crates", nargs="*", metavar="CRATE")
    words = words.parse_args()
    sources, record = Sources(ROOT), edits.Record()
    if words.gate:
        return gate(words.all, words.table, sources, record)
    known = edits.edited_crates(sources)
    unknown = [name for name in words.crates if name not in known]
    if unknown:
        raise SystemExit(f"edits.py: {unknown[0]} has no edits")
    differing = [it for it in known if words.all or not record.fits(it, sources)]
    return renew(words.crates or differing, sources, record)


if __name__ == "__main__":
    with contextlib.suppress(KeyboardInterrupt):
        sys.exit(main())

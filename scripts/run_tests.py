#!/usr/bin/env python3
"""Runs all tests and rows without any proof: run_tests.py [--jobs N] [--rows NAME | --before-gate] [CRATE..]

The crates of the repository and of tests/ are copied to one directory (lib/composed.py). Each crate
with tests, and each program on the files that lie beside its `src/` (`args`, `stdin` and `data/`), is
built there with run-time checks and run by `rt try`, several side by side. A program has to write the
text of its file `stdout` and to end with the status in its file `status`. Where it ends with the line
`N rows, M differ`, each of its rows counts. The layout of the sources in tests/ is compared, and
`make lint` runs. With names of crates only those crates are run, and with --rows only the
rows of tests/*/data/NAME.rows. With --before-gate the crates of the repository are left out: `rt ci`
proves them, and runs their tests and programs by two compilers. With --lay-out the sources in tests/
are laid out, as by `rt fmt`.

A failure is told with the name of its test or row. A run that does not say how it ended fails. The
last line is `N passed, M failed`, and the status is 1 if anything failed.
"""

import argparse
import contextlib
import os
import re
import signal
import subprocess
import sys
import threading
import time
from concurrent.futures import ThreadPoolExecutor, as_completed
from dataclasses import dataclass, field
from pathlib import Path

from gate_processes import Family
from lib.composed import TESTS, below_all, composed, laid_out, test_crates

TOP = Path(__file__).resolve().parent.parent
# The script that reads files alone, and how it reports how much passed.
LINT = "lint"
LINTED = re.compile(r"^(\d+) checks passed, (\d+) failed")
# They take longest, so they begin first.
LONGEST = ("nj_call_rows", "nj_run_rows")
# How `rt try` reports that a program ended, and a program of rows how many rows differ.
ENDED = re.compile(r"^run=ended status=(\d+) .*proved=no$", re.M)
ROWS = re.compile(r"^(\d+) rows, (\d+) differ$")
ROW = re.compile(r"\S+:\d+: wanted ")
TEST = re.compile(r"^test (\S+) \.\.\. (\w+)", re.M)
RESULT = re.compile(r"^test result: (\w+)\. (\d+) passed; (\d+) failed", re.M)
MOST_LINES = 20
# How long a program or a test may take, with run-time checks and with others beside it.
SECONDS = "900"
# An argument of the checks that `rt try` makes beside a run.
HINT = b"\0no function\0"


@dataclass
class Outcome:
    """The result of a run: how much passed, and the failures."""

    name: str
    passed: int = 0
    failures: list = field(default_factory=list)
    seconds: float = 0.0

    def told(self):
        """The lines to print."""
        counts = f"{self.passed} passed, {len(self.failures)} failed"
        yield f"{self.name}: {counts} ({self.seconds:.0f} s)"
        for failure in self.failures:
            yield f"FAILED {self.name}: {failure}"


def last_lines(text):
    """The end of a run's output, indented."""
    return "\n".join(f"    {line}" for line in text.rstrip("\n").split("\n")[-MOST_LINES:])


def tried(folder, *words, given=b""):
    """Runs `rt try` in a crate's directory."""
    how = {"cwd": folder, "env": {"RT_SECONDS": SECONDS, **os.environ}}
    ran = subprocess.run(["rt", "try", *words], input=given, capture_output=True, **how)
    return ran.returncode, ran.stdout, ran.stderr.decode(errors="replace")


def run_tests(folder):
    """Runs the tests of a crate."""
    status, output, error = tried(folder, "--test")
    text = output.decode(errors="replace")
    outcome, said = Outcome(folder.name), f"{text}\n{error}"
    results = TEST.findall(said)
    outcome.passed = sum(result == "ok" for _, result in results)
    outcome.failures = [f"test {name}" for name, result in results if result != "ok"]
    ended = RESULT.search(said)
    is_well = ended and results and int(ended[2]) == outcome.passed
    if not is_well or (status != 0) != bool(outcome.failures):
        why = "the tests did not end as they should" if ended else "the tests have no summary line"
        outcome.failures.append(f"{why} (status {status})")
    if outcome.failures:
        others = [line for line in said.split("\n") if line and not line.endswith(" ... ok")]
        outcome.failures[-1] += "\n" + last_lines("\n".join(others))
    return outcome


def bytes_of(file):
    """The contents of a file; nothing if it is missing."""
    return file.read_bytes() if file.is_file() else b""


def first_difference(wanted, came):
    """The first line in which an output differs, in words."""
    wanted, came = wanted.split(b"\n"), came.split(b"\n")
    for number, (line, other) in enumerate(zip(wanted, came), 1):
        if line != other:
            return f"line {number} of the output is {other!r}, and not {line!r}"
    return f"the output has {len(came) - 1} lines, and not {len(wanted) - 1}"


def run_program(folder):
    """Runs a program on its stored arguments and files."""
    data = sorted(path for path in folder.glob("data/**/*") if path.is_file())
    data = [f"{path.relative_to(folder / 'data')}={path.relative_to(folder)}" for path in data]
    words = bytes_of(folder / "args").decode(errors="surrogateescape").splitlines()
    handed = [word for it in data for word in ("--data", it)]
    _, output, error = tried(folder, *handed, "--", *words, given=bytes_of(folder / "stdin"))
    wanted, status = bytes_of(folder / "stdout"), int(bytes_of(folder / "status") or 0)
    outcome = Outcome(folder.name)
    ended = ENDED.search(error)
    if not ended:
        outcome.failures = [f"the run did not end\n{last_lines(error)}"]
        return outcome
    lines = output.decode(errors="replace").rstrip("\n").split("\n")
    rows = ROWS.match(lines[-1])
    if rows:
        outcome.passed = int(rows[1]) - int(rows[2])
        outcome.failures = [f"row {line}" for line in lines if ROW.match(line)]
        if len(outcome.failures) != int(rows[2]):
            outcome.failures.append(f"its rows and their number differ: {lines[-1]}")
    if int(ended[1]) != status and not outcome.failures:
        outcome.failures.append(f"its status is {ended[1]}, and not {status}\n{last_lines(error)}")
    if output != wanted and not outcome.failures:
        outcome.failures.append(first_difference(wanted, output))
    outcome.passed += not rows and not outcome.failures
    return outcome


def take_rows(folder, name):
    """Leaves a program of rows those of one file alone, with their number."""
    for file in (folder / "data").iterdir():
        if file.name != name:
            file.unlink()
    counts = bytes_of(folder / "stdout").decode().splitlines()
    count = next((it.partition(": ")[2] for it in counts if it.startswith(f"{name}: ")), "no rows")
    (folder / "args").write_text(f"{name}\n")
    (folder / "stdout").write_text(f"{name}: {count}\n{count}, 0 differ\n")


def check_layout(folder):
    """Compares the layout of the sources of each crate of tests/."""
    outcome = Outcome("layout")
    for crate in test_crates():
        changed = [str(file.relative_to(folder)) for file, _ in laid_out(crate)]
        outcome.passed += not changed
        if changed:
            why = f"{', '.join(changed)}: run python3 scripts/run_tests.py --lay-out"
            outcome.failures.append(why)
    return outcome


def run_lint(script):
    """Runs the checks that read files alone."""
    command = [sys.executable, script]
    ran = subprocess.run(command, cwd=TOP, capture_output=True, text=True)
    lines = [line for line in f"{ran.stdout}\n{ran.stderr}".split("\n") if line]
    ended = next(filter(None, map(LINTED.match, lines)), None)
    outcome = Outcome(script.name, passed=int(ended[1]) if ended else 0)
    if ran.returncode or not ended:
        outcome.failures = [f"status {ran.returncode}\n{last_lines(chr(10).join(lines))}"]
        outcome.failures += ["another check"] * (int(ended[2]) - 1 if ended else 0)
    return outcome


def timed(call, path):
    """The result of a run, also where it could not be started."""
    start = time.monotonic()
    try:
        outcome = call(path)
    except (OSError, RuntimeError, ValueError) as error:
        outcome = Outcome(path.name, failures=[f"it was not run: {error}"])
    outcome.seconds = time.monotonic() - start
    return outcome


def end_hints(is_over):
    """Ends the checks of names that `rt try` makes beside its runs.

    They give only hints, which are not told here, and would take as much as the runs.
    """
    family = Family(os.getpid())
    while not is_over.wait(0.5):
        for pid in family.look():
            with contextlib.suppress(OSError):
                if HINT in Path(f"/proc/{pid}/cmdline").read_bytes():
                    os.kill(pid, signal.SIGKILL)


def has_tests(folder):
    """Whether the crate in a directory has a test in code."""
    files = (folder / "src").rglob("*.rt")
    return any(b"#[test]" in file.read_bytes() for file in files)


def work_for(folders):
    """The runs, as calls and directories of crates, the longest first."""
    work = [(run_tests, it) for it in folders if has_tests(it)]
    work += [(run_program, it) for it in folders if (it / "src/main.rt").is_file()]
    return sorted(work, key=lambda it: it[1].name not in LONGEST)


def run_all(work, jobs):
    """Runs all, prints the result of each, and returns how much passed and failed."""
    passed = failed = 0
    with ThreadPoolExecutor(jobs) as pool:
        runs = [pool.submit(timed, *it) for it in work]
        try:
            for run in as_completed(runs):
                outcome = run.result()
                print(*outcome.told(), sep="\n", flush=True)
                passed, failed = passed + outcome.passed, failed + len(outcome.failures)
        except KeyboardInterrupt:
            for run in runs:
                run.cancel()
            raise SystemExit("run_tests.py: interrupted") from None
    return passed, failed


def crate_of_rows(name):
    """The crate of tests/ that has the file of rows with the given name."""
    found = sorted(TESTS.glob(f"*/data/{name}.rows"))
    if not found:
        known = " ".join(sorted(file.stem for file in TESTS.glob("*/data/*.rows")))
        raise SystemExit(f"there is no file of rows {name}; there are {known}")
    return found[0].parent.parent.name


def lay_out():
    """Lays out the sources of the crates of tests/."""
    for crate in test_crates():
        for file, text in laid_out(crate):
            file.write_bytes(text)
            print(f"formatted {file.relative_to(TOP)}")
    return 0


def main():
    layout = argparse.RawDescriptionHelpFormatter
    words = argparse.ArgumentParser(description=__doc__, formatter_class=layout)
    words.add_argument("--jobs", type=int, default=len(os.sched_getaffinity(0)))
    words.add_argument("--rows", metavar="NAME", help="of the rows, only those of this file")
    words.add_argument("--before-gate", action="store_true", help="leave out what the gate runs")
    words.add_argument("--lay-out", action="store_true", help="lay out the sources in tests/")
    words.add_argument("crates", nargs="*", metavar="CRATE")
    words = words.parse_args()
    if words.lay_out:
        return lay_out()
    crates = [*below_all()]
    unknown = [name for name in words.crates if name not in crates]
    if unknown:
        raise SystemExit(f"crates.txt and tests/crates.list name no crate {unknown[0]}")
    is_over = threading.Event()
    threading.Thread(target=end_hints, args=[is_over], daemon=True).start()
    with composed() as top:
        whole = test_crates() if words.before_gate else crates
        names = [crate_of_rows(words.rows)] if words.rows else words.crates or whole
        folders = [top / "crates" / name for name in names]
        if words.rows:
            take_rows(folders[0], f"{words.rows}.rows")
        work = work_for(folders)
        if names is whole:
            work += [(run_lint, TOP / "scripts" / LINT), (check_layout, TESTS)]
        passed, failed = run_all(work, words.jobs)
    is_over.set()
    print("Nothing was proved: `make gate` proves, and runs what was proved.")
    print(f"{passed} passed, {failed} failed")
    return 1 if failed else 0


if __name__ == "__main__":
    sys.exit(main())

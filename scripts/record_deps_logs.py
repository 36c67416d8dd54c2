#!/usr/bin/env python3
"""Writes tests/nj_call_rows/data/logs.rows: deps logs that Ninja wrote, and how Ninja reads them.

The logs are those that smoke/deps.py and smoke/missing.py build with `ninja`, `cc` and `cmake`. The
wanted lines of a row are the output of `ninja -t deps` for a copy of the log, and up to which byte
Ninja keeps the copy, as a whole and cut off at each byte. So they come from Ninja alone.
"""

import tempfile
from itertools import groupby
from pathlib import Path

from lib.composed import TESTS
from smoke.deps import CUT_OFF, NINJA, NO_LOG, logs_of_project, read_by_ninja
from smoke.missing import logs_by_cmake, logs_by_hand

FILE = TESTS / "nj_call_rows/data/logs.rows"
PROJECTS = {
    "a project whose objects are changed": logs_of_project,
    "generated headers, by rules": logs_by_hand,
    "generated headers, by CMake": logs_by_cmake,
}
NAMES = "after a build", "after another build", "after `ninja -t recompact`"
# How many numbers a line has.
MOST = 25
HEAD = """\
# Deps logs that Ninja {version} wrote, and how it reads them. scripts/record_deps_logs.py writes this
# file; deps.rows describes its rows. After the time of an output come its inputs, as `ninja -t deps`
# lists them. Where Ninja warns of a log, it truncates it to the bytes that it read.
"""


def said(outputs, size, is_whole):
    """The contents of a log with these outputs, if so many bytes of it are read."""
    lines = []
    for path, time, inputs in outputs:
        lines += [f"{path} at {time}:", *(f"  {it}" for it in inputs)]
    return [*lines, f"{size} bytes, {'whole' if is_whole else 'not whole'}"]


def cuts(log, folder):
    """The contents of a log that is cut off at each byte.

    Where Ninja warns, it truncates the log to the end of the last record. Up to three bytes after
    that it keeps without a word. So records end where it truncates, and at the log's end.
    """
    read = [read_by_ninja(log[:size], folder) for size in range(len(log) + 1)]
    ends = {len(log), *(kept for _, warning, kept in read if CUT_OFF in warning)}
    for size, (outputs, warning, kept) in enumerate(read):
        end = kept if CUT_OFF in warning else max((it for it in ends if it <= size), default=0)
        yield ["not a deps log"] if NO_LOG in warning else said(outputs, end, end == size)


def compact(contents):
    """The contents for each size, those of sizes with the same contents once."""
    for lines, sizes in groupby(enumerate(contents), lambda it: it[1]):
        sizes = [size for size, _ in sizes]
        yield from [f"{sizes[0]} to {sizes[-1]}:", *lines]


def indented(lines):
    return "".join(f"    {line}\n" for line in lines)


def given(log):
    """The file of a log."""
    rows = [log[at : at + MOST] for at in range(0, len(log), MOST)]
    return "file log\n" + indented(f"bytes {' '.join(map(str, row))}" for row in rows)


def whole(log, folder):
    """The row of a log that Ninja reads whole."""
    outputs, warning, kept = read_by_ninja(log, folder)
    if warning or kept != len(log):
        raise RuntimeError(f"Ninja does not read the log: {warning}")
    return f"deps-log\n{indented(said(outputs, len(log), True))}"


def sections():
    for title, logs_of in PROJECTS.items():
        with tempfile.TemporaryDirectory() as folder:
            files, logs = logs_of(Path(folder) / "made")
            copy = Path(folder) / "copy"
            for name, text in files.items():
                (copy / name).parent.mkdir(parents=True, exist_ok=True)
                (copy / name).write_bytes(text)
            for name, log in zip(NAMES, logs):
                yield f"== {title}: {name}\n\n{given(log)}{whole(log, copy)}"
                if log is logs[1]:
                    yield f"cut-log\n{indented(compact(cuts(log, copy)))}"


def main():
    version = NINJA.run(["--version"], ".").output.decode().strip()
    text = "\n".join([HEAD.format(version=version), *sections()])
    FILE.write_text(text)
    rows = sum(line.startswith(("deps-log", "cut-log")) for line in text.splitlines())
    print(f"{FILE.name}: {rows} rows")


if __name__ == "__main__":
    main()

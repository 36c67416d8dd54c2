"""Runs the rows of ninja-graph on the built program, with their files in a directory.

They are the rows of tests/nj_ask_rows, which `make test` runs over files, times and sinks in memory.
Here each file of the file `times` is on a disk, and was last changed then. A row is left to `make test`
if a reading fails in it, or a sink or a time, or if it is about a directory or names the one in which
it runs.
"""

import os
import shlex
from collections import Counter

from lib.checks import check, expect
from lib.composed import TESTS
from lib.programs import OUTPUT_FAILED
from lib.projects import write_files
from lib.rows import rows_of
from smoke.rows import ending_text, files_of_at_most

ROWS = TESTS / "nj_ask_rows/data"
# At least so many rows of each kind are run.
LEAST = {"ask": 240, "ask-cut-off": 7}
TIMES = "times"
# The working directory of rows.
FOLDER = b"/w/"


def times_of(files):
    """The files that have a time, by their paths."""
    lines = files.get(TIMES, b"").decode().splitlines()
    return {path: time for time, _, path in (line.partition(" ") for line in lines)}


def is_run(files, row):
    """Whether a row is run here."""
    is_plain = not row.limits and "fails" not in times_of(files).values() and not any(word.startswith(b"-C") for word in row.words())
    return row.kind in LEAST and is_plain and not any(FOLDER in text for text in files.values())


def write_timed_files(files, folder):
    """Writes files, and sets the times of those that have one."""
    times = times_of(files)
    write_files(folder, {path: b"" for path in times} | {it: files[it] for it in files if it != TIMES})
    for path, time in times.items():
        os.utime(folder / path, ns=(int(time), int(time)))


def outcome(graph, row, folder):
    """How a row ends."""
    words = row.words()
    ran = graph.run(words, folder, row.input)
    if row.kind == "ask":
        return ending_text(ran)
    (folder.parent / "input").write_bytes(row.input)
    after, count = f"< {shlex.quote(str(folder.parent / 'input'))}", 0
    for size in range(len(ran.output)):
        with files_of_at_most(size):
            cut = graph.run_by_shell(words, folder, after=after)
        count += cut == (OUTPUT_FAILED, ran.output[:size], b"")
    return ran.output + b"%d fail\n" % count


def all_rows():
    """The rows that are run, each with its place and its files."""
    for file in sorted(ROWS.glob("*.rows")):
        for files, row in rows_of(file.read_text()):
            if is_run(files, row):
                yield f"{file.name}:{row.line}", files, row


@check
def rows_of_ninja_graph(graph, folder):
    run = Counter()
    for number, (place, files, row) in enumerate(all_rows()):
        here = folder / str(number) / "files"
        here.mkdir(parents=True)
        write_timed_files(files, here)
        came = outcome(graph, row, here)
        yield from expect(f"{place}: {row.kind} {row.rest}", came, row.text)
        run[row.kind] += 1
    for kind, least in LEAST.items():
        yield from expect(f"{run[kind]} rows `{kind}`, at least {least}", run[kind] >= least, True)


@check
def wrong_rows_of_ninja_graph_are_seen(graph, folder):
    """The first row of each kind with one more byte, and with another status or count."""
    seen = set()
    for place, files, row in all_rows():
        if row.kind in seen:
            continue
        seen.add(row.kind)
        here = folder / row.kind / "files"
        here.mkdir(parents=True)
        write_timed_files(files, here)
        came = outcome(graph, row, here)
        yield from expect(f"{place}: {row.kind}", came, row.text)
        planted = {b"x" + row.text, row.text.replace(b"[", b"[1"), row.text.replace(b" fail", b"0 fail")}
        for text in planted - {row.text}:
            yield from expect(f"{place} planted, {text}", came == text, False)
    yield from expect("kinds", seen, {*LEAST})

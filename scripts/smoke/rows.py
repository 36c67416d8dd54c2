"""Runs the rows of runs on the built ninja-explain, with their files in a directory.

They are the rows of tests/nj_run_rows, which `make test` runs over files and sinks in memory. Here
their files are on a disk, and a row is run where that can be done from outside: a run, a run by a
request, pages that are resumed, an output that is cut off at each byte, and arguments that are
refused. It has to end as the row wants. A row with a failing reading or a limited sink is left to
`make test`, and so is a row that only calls a library.
"""

import contextlib
import resource
import shlex
from collections import Counter

from lib.checks import check, expect
from lib.composed import TESTS
from lib.programs import DONE, OUTPUT_FAILED, STOPPED
from lib.projects import MAIN, write_files
from lib.rows import rows_of

ROWS = TESTS / "nj_run_rows/data"
# At least so many rows of each kind are run.
LEAST = {"run": 284, "run-request": 2, "pages": 19, "cut-off": 1, "request": 35}
COMMANDS = b"-t", b"commands"
# Why a row is not run here.
LIMITED = "a reading fails or a sink is limited"
LIBRARY = "a call of a library"
REQUEST = "a request that is shown, and not carried out"
NO_INPUT = "no standard input, which a built program always has"
# So many rows have no file that standard input stands for.
WITHOUT_INPUT = 1
REFUSED = b"ninja-explain: "


def name_of_input(words):
    """The name of the file that standard input stands for, if these arguments read it."""
    if words and b"--stdin" not in words:
        return None
    return words[words.index(b"-f") + 1].decode() if b"-f" in words else MAIN


def reason_to_leave(files, row):
    """Why a row is not run here, or `None`."""
    if row.limits or row.kind == "cut-off-errors":
        return LIMITED
    if row.kind == "request":
        return None if row.wanted(files).startswith(REFUSED) else REQUEST
    if row.kind == "run" and name_of_input(row.words()) not in (None, *files):
        return NO_INPUT
    return None if row.kind in LEAST else LIBRARY


def ending_text(ran):
    """How a run ended, as a row has it."""
    lacks_end = ran.error and not ran.error.endswith(b"\n")
    end = b"" if ran.error else b"\n"
    space = b" " if ran.error else b""
    return b"%b[%d]%b%b%b" % (ran.output, ran.status, space, ran.error, b"<end>\n" if lacks_end else end)


@contextlib.contextmanager
def files_of_at_most(size):
    """Lets no file grow beyond a size."""
    usual = resource.getrlimit(resource.RLIMIT_FSIZE)
    resource.setrlimit(resource.RLIMIT_FSIZE, (size, usual[1]))
    try:
        yield
    finally:
        resource.setrlimit(resource.RLIMIT_FSIZE, usual)


class Runs:
    """The runs of a row in a directory with its files."""

    def __init__(self, program, files, folder):
        self.program, self.files, self.folder = program, files, folder
        write_files(folder, files)

    def run(self, words):
        """A run. What standard input stands for is not on the disk meanwhile."""
        name = name_of_input(words)
        if name is None:
            return self.program.run(words, self.folder)
        (self.folder / name).unlink()
        ran = self.program.run(words, self.folder, self.files[name])
        write_files(self.folder, {name: self.files[name]})
        return ran

    def pages(self, takes):
        """The outputs of pages, and the mark that the last one reports."""
        text, mark = b"", b"start"
        for take in takes:
            ran = self.run([*COMMANDS, b"--take", take, b"--resume", mark])
            mark = ran.error.removeprefix(b"mark ").rstrip()
            if ran.status != (STOPPED if mark else DONE):
                raise RuntimeError(f"a page ends with {ran}")
            text += ran.output
        return text + (mark + b"\n" if mark else b"")

    def cut_off(self, words):
        """The output of a run, and how many of the outputs that take fewer bytes fail as they should."""
        whole, count = self.run(words).output, 0
        name = name_of_input(words)
        after = f"< {shlex.quote(name)}" if name else ""
        for size in range(len(whole)):
            with files_of_at_most(size):
                ran = self.program.run_by_shell(words, self.folder, after=after)
            count += ran == (OUTPUT_FAILED, whole[:size], b"")
        return whole + b"%d fail\n" % count

    def outcome(self, row):
        words = row.words()
        if row.kind == "pages":
            return self.pages(words)
        if row.kind == "cut-off":
            return self.cut_off(words)
        if row.kind == "run-request":
            words = [b"-f", words[0], *COMMANDS, b"--take", b"2", *words[1:]]
        return ending_text(self.run(words))


def wanted_of(files, row):
    """How a row has to end; arguments that are refused have a fault line alone."""
    wanted = row.wanted(files)
    return b"[2] " + wanted if row.kind == "request" else wanted


def all_rows():
    """The rows, each with its place and its files."""
    for file in sorted(ROWS.glob("*.rows")):
        yield from ((f"{file.name}:{row.line}", files, row) for files, row in rows_of(file.read_text()))


@check
def rows_of_runs(program, folder):
    run, left = Counter(), Counter()
    for number, (place, files, row) in enumerate(all_rows()):
        if why := reason_to_leave(files, row):
            left[why] += 1
            continue
        here = folder / str(number)
        here.mkdir()
        came = Runs(program, files, here).outcome(row)
        yield from expect(f"{place}: {row.kind} {row.rest}", came, wanted_of(files, row))
        run[row.kind] += 1
    for kind, least in LEAST.items():
        yield from expect(f"{run[kind]} rows `{kind}`, at least {least}", run[kind] >= least, True)
    yield from expect(f"rows with {NO_INPUT}", left[NO_INPUT], WITHOUT_INPUT)


@check
def wrong_rows_are_seen(program, folder):
    """The first row of each kind with one more byte, with one less, and with another status."""
    seen = set()
    for place, files, row in all_rows():
        if row.kind in seen or reason_to_leave(files, row):
            continue
        seen.add(row.kind)
        here = folder / row.kind
        here.mkdir()
        came, wanted = Runs(program, files, here).outcome(row), wanted_of(files, row)
        yield from expect(f"{place}: {row.kind}", came, wanted)
        planted = {b"x" + wanted, wanted[:-1], wanted.replace(b"[", b"[1"), wanted.replace(b" fail", b"0 fail")}
        for text in planted - {wanted}:
            yield from expect(f"{place} planted, {text}", came == text, False)
    yield from expect("kinds", seen, {*LEAST})

"""Checks that each file of rows is one that its program reads: the program reads its arguments alone."""

from pathlib import Path

from lib.checks import check, expect
from lib.composed import TESTS


def not_run(program):
    """The files of rows of a program that are not among its arguments."""
    named = {*(program / "args").read_text().split()}
    return sorted(it.name for it in (program / "data").glob("*.rows") if it.name not in named)


@check
def each_file_of_rows_is_run():
    for args in sorted(TESTS.glob("*/args")):
        yield from expect(f"{args.parent.name}, files that nothing reads", not_run(args.parent), [])


@check
def a_forgotten_file_is_seen(folder):
    program = Path(folder)
    (program / "data").mkdir()
    for name in "a.rows", "b.rows", "c.txt":
        (program / "data" / name).touch()
    (program / "args").write_text("a.rows\n")
    yield from expect("the files", not_run(program), ["b.rows"])

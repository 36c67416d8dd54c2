"""Compares ninja-graph's `affected --deps` with `ninja -n` on a tree whose deps log names many headers.

bench/deps.py measures the same on a large tree. This one is small and up to date. Each comparison
touches a file and sets its time back afterwards.
"""

import contextlib
import os
import sys

from lib.checks import check, expect
from lib.programs import DONE, ROOT
from smoke.affected import run

sys.path.append(str(ROOT / "bench"))
import logged_trees  # noqa: E402

TREE = logged_trees.Tree(objects=250, headers=240, each=60)
DEPS = ["--deps", "--no-phony"]


def changes():
    """Some headers, which objects include; the sources of generated headers; and two sources of objects."""
    for number in range(0, TREE.headers, 8):
        path = logged_trees.header(number)
        yield f"{path}.in" if logged_trees.is_generated(number) else path
    yield from map(logged_trees.source, (0, TREE.objects - 1))


@contextlib.contextmanager
def touched(path):
    time = path.stat().st_mtime_ns
    path.touch()
    try:
        yield
    finally:
        os.utime(path, ns=(time, time))


@check(needs=["ninja"])
def touched_headers(graph, folder):
    """The affected outputs are exactly those that Ninja makes again; without a change there are none."""
    logged_trees.write_built(folder, TREE)
    yield from expect("no change", run(graph, folder, [*DEPS, "--allow-empty"], []), (DONE, "", ""))
    for change in changes():
        status, output, error = run(graph, folder, DEPS, [change])
        with touched(folder / change):
            wanted = logged_trees.would_touch(folder)
        yield from expect(change, (status, sorted(output.splitlines()), error), (DONE, sorted(wanted), ""))
        yield from expect(f"{change}, objects", any(path.endswith(".o") for path in wanted), True)

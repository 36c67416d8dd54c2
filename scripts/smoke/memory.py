"""Counts the allocations of a walk.

A walk takes its memory when it begins, and none after that, however many edges it passes. No
contract states this; the types of `nj_needs` do (docs/PROOFS.md). The allocations of `-t commands`,
less those of a tool that only loads the same file, have to be as many in a long chain as in a short
one. In a chain of phony edges the search for the first command passes all of them; in a chain of
other edges each command is a step of the walk. (lib/fail_alloc.c, which is compiled with `cc`,
counts them.)
"""

from lib.checks import check, expect
from lib.programs import DONE, compiled, shown
from lib.projects import MAIN, targets_differ, write_files

SHORT, LONG = 1_000, 100_000
WALKS, LOADS = ["-t", "commands"], ["-t", "targets", "rule", "none"]
# Output is written in blocks of 64 KB, from one buffer. It grows no further after the first block,
# which the commands of the short chain fill too.
COMMAND = "c" * 99
LINES = {"phony": b"", "mk": f"{COMMAND}\n".encode()}
# No run has as many allocations, so none fails.
NEVER = str(1 << 40)


def chain(rule, edges):
    """A manifest of edges of a rule, each needing the one before it. The last one is the root."""
    front = f"rule mk\n  command = {COMMAND}\nbuild e0: {rule} s\n"
    return front + "".join(f"build e{i}: {rule} e{i - 1}\n" for i in range(1, edges))


def allocations(program, library, folder, words, output):
    """How many allocations a run with this output has."""
    count = folder / "count"
    counts = {"LD_PRELOAD": library, "FAIL_ALLOC": NEVER, "FAIL_ALLOC_COUNT": str(count)}
    ran = program.run(words, folder, **counts)
    if ran != (DONE, output, b"") or not count.exists():
        raise RuntimeError(f"{' '.join(words)} ends with {shown(ran)}")
    number = int(count.read_text())
    count.unlink()
    return number


def of_walk(program, library, folder, rule, edges):
    """How many allocations `commands` has more than loading, in a chain of so many edges. The words
    of that tool may take more memory than the walk."""
    write_files(folder, {MAIN: chain(rule, edges).encode()})
    walks = allocations(program, library, folder, WALKS, LINES[rule] * edges)
    return walks - allocations(program, library, folder, LOADS, b"")


@check(needs=["cc"])
def allocations_of_a_walk(program, folder):
    yield from targets_differ(program, folder)
    library = compiled("fail_alloc", folder)
    for rule in LINES:
        short, long = (of_walk(program, library, folder, rule, edges) for edges in (SHORT, LONG))
        yield from expect(f"allocations of a walk over {LONG:,} edges, {rule}", long, short)

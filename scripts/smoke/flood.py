"""Checks that colliding names cost no more than other names.

The program has to draw the number from which the hashes of a run start; no contract can state this.
For each table of names the program reads two manifests (from bench/flood.py): one whose names
collide if the number is 0, as in `HashKeys::default`, and one of other names. It reads two more for
near paths, whose pairs collide more often than others. The least CPU time of several runs
counts. The first manifest may take at most four times as long as the second.

The chosen names have to collide, or this would show nothing. So each first manifest is read once
with the number 0, which a preloaded library supplies in place of random bytes, and then it has to take
more than four times as long. The same is tried with the paths of a deps log.
"""

import sys

from lib.checks import check
from lib.programs import ROOT, compiled
from lib.projects import targets_differ
from lib.random_builds import deps_log

sys.path.append(str(ROOT / "bench"))
import flood  # noqa: E402

# A table of this many names has 512 groups. They are found in two seconds.
NAMES, BITS = 6000, 9
ROUNDS = 10
TIMES = 3
MOST = 4
LOGGED = "rule cc\n  command = cc $in\n  deps = gcc\nbuild a.o: cc a.c\n"


def with_known_number(words, folder):
    """A command that runs a program with the number 0."""
    return ["env", f"LD_PRELOAD={compiled('known_number', folder)}", *words]


def reasons(table, chosen, usual, known, least=MOST):
    """Why a table is too slow, or its names do not collide: with a known number they take less than
    `least` times as long as others."""
    if chosen > MOST * usual:
        yield f"{table}: chosen names take {chosen:.3f} s, others {usual:.3f} s"
    if known is not None and known <= least * usual:
        yield f"{table}: with a known number chosen names take {known:.3f} s, so they do not collide"


def slow_tables(words, folder):
    """For each table the reasons why it is too slow or shows nothing, as a list. The arguments run a
    program that loads build.ninja in its working directory."""
    chosen = flood.chosen_names(folder, NAMES, BITS)
    preloaded = with_known_number(words, folder)
    for table, seconds, usual in flood.seconds(words, folder, chosen, ROUNDS, TIMES):
        # of near paths only pairs collide, whatever the number is
        place = f"{folder}/{table}/chosen"
        known = flood.least_seconds(preloaded, place, 1) if table in flood.TABLES else None
        yield [*reasons(table, seconds, usual, known)]


@check(needs=["cc"], alone=True)
def colliding_names(program, folder):
    yield from targets_differ(program, folder)
    for found in slow_tables([program.path, "-t", "rules"], folder):
        yield from found


def slow_logs(words, folder, log):
    """The same for the paths of a deps log, which the program reads under this name in its working
    directory, and joins to the edge of a.o."""
    found, chosen = {}, flood.chosen_names(folder, NAMES, BITS)["paths"]
    for kind, names in flood.names_of_kinds(chosen).items():
        place = folder / "logs" / kind
        flood.write(place, [LOGGED])
        (place / log).write_bytes(deps_log({"a.o": names}, flood.ENCODING))
        found[kind] = flood.least_seconds(words, place, TIMES)
    known = flood.least_seconds(with_known_number(words, folder), folder / "logs/chosen", 1)
    yield from reasons("paths of a log", found["chosen"], found["other"], known)


@check(needs=["cc"], alone=True)
def colliding_paths_of_logs(graph, folder):
    """The same for a deps log whose paths collide, read by ninja-graph."""
    words = [graph.path, "why", "--deps-log-file", "log", "a.o", "a.c"]
    yield from slow_logs(words, folder, "log")

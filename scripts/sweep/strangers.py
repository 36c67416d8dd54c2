"""Runs the programs on hostile manifests.

Each case has a seed, from which `lib/strangers.py` makes it. Each run gets 256 MB, 10 seconds, and
an output that takes 16 MB, or in one run of ten nothing. It has to end by itself, with a status of
the man page. A fault has to be one that exists, and its place has to contain the subject of such a
fault. Only trees of targets, and manifests with values that grow without bound, may run out of
time.

A run that did not end as it should is printed with its seed.
"""

import collections
import resource
import tempfile
from functools import partial

from lib.checks import check, expect
from lib.faults import ending_is_wrong
from lib.programs import OUTPUT_FAILED
from lib.projects import answer_differs, write_files
from lib.strangers import Maker, colliding_names, flood
from lib.sweeps import Sweep
from lib.tools import PROGRAMS
from smoke.flood import TIMES, reasons, with_known_number

MOST_MEMORY = 256 << 20
MOST_OUTPUT = 16 << 20
SECONDS = 10
# How often each name is looked up where it is tried whether the names collide, and how many times as
# long as others so few have to take at least.
LOOK_UPS, SLOWER = 300, 2
# The number of cases in a task.
TASK = 250


def try_case(name, program, case, folder, is_full):
    """Runs the program with the given name on a case. Returns how it ended, and the problem, if any."""
    files, words, text, may_take_any_time = case
    write_files(folder, files)
    with open("/dev/full", "wb") as full:
        ran = program.run(words, folder, text, seconds=SECONDS, output=full if is_full else None)
    if ran.status is None and may_take_any_time:
        return "ran out of time, as they may", None
    how = f"ended with {ran.status}"
    if ran.status == OUTPUT_FAILED and (is_full or len(ran.output) == MOST_OUTPUT):
        return how, "the output failed, and there is an error line" if ran.error else None
    return how, ending_is_wrong(name, words, ran, files)


def try_cases(name, program, maker, seeds):
    """Runs the program on some cases. Returns the counts, and the problems."""
    resource.setrlimit(resource.RLIMIT_AS, (MOST_MEMORY, resource.RLIM_INFINITY))
    resource.setrlimit(resource.RLIMIT_FSIZE, (MOST_OUTPUT, resource.RLIM_INFINITY))
    counts, wrong = collections.Counter(), []
    for seed in seeds:
        case = maker.case(name, seed)
        with tempfile.TemporaryDirectory() as folder:
            how, fault = try_case(name, program, case, folder, is_full=seed % 10 == 0)
        counts[how] += 1
        counts[f"of {PROGRAMS[name].tool_of(case[1])}"] += 1
        if fault:
            wrong.append(f"seed {seed}, {case[1]}: it {how}: {fault}")
    return counts, wrong


@check(needs=["cc"], alone=True)
def names_collide(program, folder):
    """Without `cc`, which finds them, the cases have other names. With the number 0 they are slow."""
    chosen = colliding_names()
    yield from expect("tables", set(chosen), set(flood.TABLES))
    preloaded = with_known_number([program.path, "-t", "rules"], folder)
    for table, manifest in flood.TABLES.items():
        found = {}
        for kind, names in flood.names_of_kinds(chosen[table]).items():
            flood.write(folder / table / kind, manifest(names, LOOK_UPS))
            found[kind] = flood.least_seconds(preloaded, folder / table / kind, TIMES)
        yield from reasons(table, 0, found["other"], found["chosen"], SLOWER)


@check(alone=True)
def hostile_manifests(programs, seeds, folder, jobs):
    starts, maker = range(seeds.start, seeds.stop, TASK), Maker()
    tasks = [range(at, min(at + TASK, seeds.stop)) for at in starts]
    for name, program in programs.items():
        sweep = Sweep("strangers", name)
        sweep.in_parallel(jobs, partial(try_cases, name, program, maker), tasks)
        sweep.wants(*(f"of {tool}" for tool in PROGRAMS[name].tools))
        yield from [*answer_differs(name, program, folder), *sweep.problems()]

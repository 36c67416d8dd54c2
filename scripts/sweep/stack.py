"""Runs the programs in little stack.

All runs of lib/tools.py, on small projects, on a chain of 100,000 edges and while 32 files are open, have
to end in 128 KB of stack as they do with more. Then each gets less and less: the sweep prints the
greatest need.
"""

import tempfile
from collections import Counter
from functools import partial

from lib.checks import check
from lib.programs import shown
from lib.projects import EVERY_PROJECT, MAIN, Project, answer_differs, input_of
from lib.random_builds import deps_log
from lib.sweeps import Sweep, lacks_runs
from lib.tools import EXPLAIN, PROGRAMS, run_of
from smoke.system import KILOBYTES, MOST_OPEN, nested

EDGES = 100_000
CHAIN, NESTED = "a chain", "nested files"
STEP = 4


def projects():
    """The projects: in the chain each edge needs the one before it, and the nested files have a log."""
    edges = "".join(f"build e{n}: mk e{n - 1}\n" for n in range(1, EDGES))
    chain = f"rule mk\n  command = mk $out\nbuild e0: mk\n{edges}"
    logs = dict.fromkeys(["log", ".ninja_deps"], deps_log({"b": ["d", "h"]}))
    files = {**nested(MOST_OPEN).files, **logs}
    return {**EVERY_PROJECT, CHAIN: Project({MAIN: chain}, {}), NESTED: Project(files, {})}


ALL_PROJECTS = projects()


def runs_of(name):
    rows = PROGRAMS[name]
    found = [*rows.runs_on(), *(run_of(CHAIN, line) for line in rows.chain)]
    for run in (run_of(NESTED, line) for line in rows.nested):
        # a subcommand comes first
        front = 0 if name == EXPLAIN else 1
        words = [*run.words[:front], "--dyndep", *run.words[front:]]
        found += [run, run._replace(words=words)]
    return found


def try_run(program, run):
    """Makes a run with less and less stack. Returns the counts, in which the least stack counts with
    which it ends as usual, and the problems."""
    with tempfile.TemporaryDirectory() as folder:
        ALL_PROJECTS[run.project].write_to(folder)
        text = input_of(run, ALL_PROJECTS)

        def within(kilobytes):
            return program.run_by_shell(run.words, folder, text, before=f"ulimit -s {kilobytes};")

        usual, ran = program.run(run.words, folder, text), within(KILOBYTES)
        if ran != usual:
            return {"runs": 1}, [f"{run}, in {KILOBYTES} KB: it ends with {shown(ran)}"]
        low, high = 0, KILOBYTES
        while high - low > STEP:
            middle = (low + high) // 2
            low, high = (low, middle) if within(middle) == usual else (middle, high)
    return {"runs": 1, high: 1}, []


@check(alone=True)
def little_stack(programs, folder, jobs):
    for name, program in programs.items():
        sweep, runs = Sweep("stack", name), runs_of(name)
        sweep.wrong += lacks_runs(name, [run for run in runs if run.project == NESTED])
        sweep.in_parallel(jobs, partial(try_run, program), runs)
        needed = [it for it in sweep.counts if it != "runs"]
        sweep.counts = Counter({"runs": len(runs), "KB for the run that needs most": max(needed, default=0)})
        yield from [*answer_differs(name, program, folder), *sweep.problems()]

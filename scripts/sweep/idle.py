"""Runs the sweeps of both programs with one that does nothing in place of each: none of them may pass."""

import contextlib
import io

from lib.checks import CHECKS, check, results
from lib.programs import Program
from lib.tools import PROGRAMS

# The hostile manifests that it gets.
SEEDS = range(500)


@check(alone=True)
def nothing_passes(jobs):
    names = [each.name for each in CHECKS if each.name.startswith("sweep.") and "programs" in each.parameters()]
    for name in PROGRAMS:
        given = {"programs": {name: Program("true")}, "seeds": SEEDS, "jobs": jobs}
        with contextlib.redirect_stdout(io.StringIO()):
            found = list(results(names, given, jobs))
        for each, problems, why in found:
            if not problems and not why:
                yield f"{each.name} passes with a program that does nothing as {name}"

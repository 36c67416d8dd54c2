"""Runs the checks of this directory with a program that does nothing: none of them may pass."""

from lib.checks import CHECKS, check, results
from lib.programs import Program
from lib.tools import EXPLAIN, GRAPH

PROGRAMS = ["program", "graph"]


@check(alone=True)
def nothing_passes(jobs):
    programs = dict.fromkeys([EXPLAIN, GRAPH], Program("true"))
    given = {**dict.fromkeys(PROGRAMS, Program("true")), "programs": programs, "jobs": jobs}
    own, here = f"{__name__}.", __name__.partition(".")[0] + "."
    names = [each.name for each in CHECKS if each.name.startswith(here)]
    names = [name for name in names if not name.startswith(own)]
    for each, problems, why in results(names, given, jobs):
        if not problems and not why:
            yield f"{each.name} passes with a program that does nothing"

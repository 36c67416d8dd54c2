"""Watches the system calls of ninja-graph's runs, as smoke/system.py does those of ninja-explain's.

Where there is `strace`, all its runs of lib/tools.py are traced: a run opens files for reading alone, writes to
its two outputs alone, and starts no program. With `-C` it changes its directory.
"""

import itertools

from lib.checks import Skipped, check
from lib.programs import Program, shown
from lib.projects import EVERY_PROJECT, answer_differs, input_of
from lib.tools import GRAPH, PROGRAMS
from smoke.system import TRACE, changes, traced

FOLDER = " chdir("


@check(needs=["strace"])
def graph_changes_nothing(graph, folder):
    """No run opens a file but for reading, or starts a program."""
    if Program(TRACE[0]).run([*TRACE[1:], "-o", "/dev/null", "true"], folder).status:
        raise Skipped("strace may not trace here")
    yield from answer_differs(GRAPH, graph, folder)
    for number, run in enumerate(PROGRAMS[GRAPH].runs_on()):
        place, text = folder / str(number), input_of(run)
        EVERY_PROJECT[run.project].write_to(place)
        usual = graph.run(run.words, place, text)
        ran, trace = traced(graph, run.words, place, text)
        if ran != usual:
            yield f"{run}: traced it ends with {shown(ran)}"
        if "execve" not in trace:
            yield f"{run}: there is no trace"
        found = [line for line in changes(trace) if FOLDER not in line or "-C" not in run.words]
        for line in itertools.islice(found, 1):
            yield f"{run}: {line[:200]}"

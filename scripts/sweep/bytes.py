"""Changes each byte of small projects.

One project has a dyndep file, one has two files with lines that end in CR LF, and for ninja-graph one
has a deps log and one has depfiles. Each file is cut off after each of its bytes, and each byte is replaced in turn by NUL,
a tab, CR and `$`. All runs on the project (lib/tools.py) have to succeed or to report one fault, and
the place of the fault has to contain the subject of such a fault.
"""

import contextlib
import tempfile
from functools import partial

from lib.checks import check
from lib.faults import ending_is_wrong
from lib.programs import DONE, FAULT, LOOK, Ending, Repeated, compiled, shown
from lib.projects import EVERY_PROJECT, MAIN, answer_differs, input_of, write_files
from lib.sweeps import Sweep
from lib.tools import EXPLAIN, GRAPH, PROGRAMS

BYTES = {"NUL": b"\0", "a tab": b"\t", "CR": b"\r", "$": b"$"}
CHANGED = {
    EXPLAIN: ["dyndep file", "generated"],
    GRAPH: ["dyndep file", "generated", "logged", "depfile"],
}
ENDINGS = DONE, FAULT, LOOK
LAST_DOLLAR = {EXPLAIN: ["-t", "commands"], GRAPH: ["json"]}
BAD_ESCAPE = b"build.ninja:1:5: bad $-escape (literal $ must be written as $$)\n"


def changed(text):
    """Each change of a text: its description, and the new text."""
    for size in range(len(text)):
        yield f"its first {size} bytes", text[:size]
    for name, byte in BYTES.items():
        for place in range(len(text)):
            yield f"{name} as byte {place}", text[:place] + byte + text[place + 1 :]


def try_file(name, program, library, task):
    """Runs the program on each change of a file. Returns the counts, and the problems."""
    project, changed_file = task
    files, runs = dict(EVERY_PROJECT[project].files), PROGRAMS[name].runs_on(project)
    tried, wrong = 0, []
    with tempfile.TemporaryDirectory() as folder, contextlib.ExitStack() as all_runs:
        write_files(folder, files)
        repeated = [
            all_runs.enter_context(Repeated(program, run.words, folder, input_of(run), library))
            for run in runs
        ]
        for tried, (what, text) in enumerate(changed(files[changed_file]), start=1):
            write_files(folder, {changed_file: text})
            for run, again in zip(runs, repeated):
                ran = again.run()
                fault = ending_is_wrong(name, run.words, ran, {**files, changed_file: text})
                if fault or ran.status not in ENDINGS:
                    why = fault or "the status is wrong"
                    wrong.append(f"{changed_file}, {what}, {run}: {why}: {shown(ran)}")
    return {"changed files": tried, "runs": tried * len(runs)}, wrong


def last_dollar(name, program, folder):
    """A text that ends in `$` has a bad escape there."""
    write_files(folder, {MAIN: b"x = $"})
    ran = program.run(LAST_DOLLAR[name], folder)
    wrong = [] if ran == Ending(FAULT, b"", BAD_ESCAPE) else [f"x = $: it ends with {ran}"]
    return {"changed files": 1, "runs": 1}, wrong


@check(needs=["cc"], alone=True)
def every_byte(programs, folder, jobs):
    library = compiled("repeated", folder)
    for name, program in programs.items():
        sweep = Sweep("bytes", name)
        tasks = [(each, file) for each in CHANGED[name] for file in EVERY_PROJECT[each].files]
        sweep.in_parallel(jobs, partial(try_file, name, program, library), tasks)
        sweep.take(*last_dollar(name, program, folder))
        yield from [*answer_differs(name, program, folder), *sweep.problems()]

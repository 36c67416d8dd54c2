"""Refuses the programs memory.

In runs of every tool and subcommand, each allocation in turn is refused: in one run that allocation
alone, in another one it and all after it. (This is done by fail_alloc.c, which is compiled with
`cc`.) Then runs get a limited address space, as by `ulimit -v`, from the least in which the program
starts to that which the run needs. A run has to end as it does with ample memory, or to write a
prefix of its output and the line `ninja-explain: out of memory`, or `ninja-graph: out of memory`,
with status 1.

The runs of ninja-explain are rows of tests/nj_run_rows too, and ninja-graph has those of
tests/nj_ask_rows. These crates run them over sinks in memory. Each is built by `rt try`, with run-time
checks and without any proof, and one allocation is refused there: after more, the rows could not report
their outcome. A sink without memory fails like any other sink: a failed output is status 4 with nothing
on standard error, a lost mark line or lost warnings are status 4, and a lost fault line does not change
the status. With ample memory such a run ends as the program does, or as the row wants.
"""

import contextlib
import os
import re
import subprocess
import tempfile
import threading
from concurrent.futures import ThreadPoolExecutor
from functools import partial
from pathlib import Path

from lib.checks import check, expect
from lib.composed import TESTS, composed
from lib.programs import FAULT, OUTPUT_FAILED, STOPPED, USAGE, Ending, Repeated, compiled, shown
from lib.projects import EVERY_PROJECT, MAIN, PROJECTS, Project, answer_differs, input_of
from lib.rows import came_of, ending_of, lossy, marked, row_of, single_rows
from lib.sweeps import Sweep, lacks_runs
from lib.tools import EXPLAIN, GRAPH, PROGRAMS, run_of
from run_tests import SECONDS, end_hints

# In KB: the steps, and the most that a run of one of the small projects can need.
STEP, LARGE_STEP = 4, 64
MOST_KB = 1 << 20
# This argument is refused before any file is read.
REFUSED = ["--nothing"]
EDGES = 20_000
LARGE = "rule mk\n  command = mk $out\nbuild e0: mk\n" + "".join(
    f"build e{number}: mk e{number - 1}\n" for number in range(1, EDGES)
)
CHAIN = "a chain"
ALL_PROJECTS = {**EVERY_PROJECT, CHAIN: Project({MAIN: LARGE}, {})}
# The projects of which runs get little address space, and a run on the chain beside those of lib/tools.py.
SMALL = {EXPLAIN: ["generated", "dyndep file"], GRAPH: ["generated", "dyndep file", "logged"]}
DEEPEST = {EXPLAIN: ["-t targets depth 0"], GRAPH: ["draw"]}


def is_wrong(name, ran, ample):
    """Whether a run that was refused memory must not end like this, by the name of the program."""
    lacks = (ran.status, ran.error) == (FAULT, b"%b: out of memory\n" % name.encode())
    return ran != ample and not (lacks and ample.output.startswith(ran.output))


# ---- allocations

# How many allocations are refused, from one on: it alone, or it and all after it.
ALONE, ALL = 1, 1 << 62
REFUSALS = {ALONE: "alone", ALL: "with all after it"}


class Runs:
    """A run on its project, which is made again with allocations refused."""

    def __init__(self, program, run, folder):
        self.program, self.words, self.folder = program, run.words, folder
        self.text = input_of(run)
        EVERY_PROJECT[run.project].write_to(folder)
        self.ample = self.run()

    def run(self):
        return self.program.run(self.words, self.folder, self.text)

    def refusals(self, libraries, times):
        """How a run ends to which so many allocations are refused, from each one on in turn."""
        report, number = Path(self.folder) / "report", 1
        fails = {"FAIL_ALLOC_REPORT": str(report), "FAIL_ALLOC_TIMES": str(times)}
        with Repeated(self.program, self.words, self.folder, self.text, *libraries, **fails) as runs:
            while True:
                ran = runs.run(FAIL_ALLOC=str(number))
                if not report.exists():
                    break
                report.unlink()
                yield number, ran
                number += 1


def try_allocations(programs, libraries, task):
    """Refuses allocations to a run. Returns the counts, and the problems."""
    name, run, times = task
    number, wrong = 0, []
    with tempfile.TemporaryDirectory() as folder:
        runs = Runs(programs[name], run, folder)
        for number, ran in runs.refusals(libraries, times):
            if is_wrong(name, ran, runs.ample):
                wrong.append(f"{run}, allocation {number} {REFUSALS[times]}: it ends with {shown(ran)}")
    # One that runs to its end with all refused has none that counts.
    return {"runs": int(times == ALONE), f"allocations refused {REFUSALS[times]}": number}, wrong


@check(needs=["cc"], alone=True)
def allocations(programs, folder, jobs):
    libraries = [compiled("repeated", folder), compiled("fail_alloc", folder)]
    task = partial(try_allocations, programs, libraries)
    for name, program in programs.items():
        sweep, runs = Sweep("memory", name), PROGRAMS[name].runs_on()
        sweep.wrong += lacks_runs(name, runs)
        sweep.in_parallel(jobs, task, ((name, run, times) for run in runs for times in REFUSALS))
        yield from [*answer_differs(name, program, folder), *sweep.problems()]


# ---- sinks in memory

# The crates of rows by the names of their programs.
ROWS_OF = {EXPLAIN: "nj_run_rows", GRAPH: "nj_ask_rows"}
# `rt try` refuses the allocation with one number, with which it builds the program. A case allocates
# some times before its row is run, so that this is another allocation of the row.
REFUSED_AT = {EXPLAIN: 800, GRAPH: 1600}
# Of a run, each allocation of so many is refused, and each of the last ones, where its sinks grow.
STEP_OF_ROWS, LAST = 16, 40
# So many runs of each status are taken: `rt try` takes half a second for a case.
OF_EACH = 2
ENDED = re.compile(r"(?:allocations: [^\n]*\n)?(.*?)^case=(\S+) run=ended status=(\d+) [^\n]*\n", re.M | re.S)
OUTPUT = re.compile(r"^== (\S+)\n", re.M)


def run_cases(name, crate, data, cases):
    """How the rows of cases come, each with how many allocations were made before the refused one."""
    with tempfile.TemporaryDirectory() as folder:
        for number, (row, at) in enumerate(cases):
            Path(folder, str(number)).touch()
            Path(folder, f"{number}.args").write_text(f"spend={REFUSED_AT[name] - at}\n{row}\n")
        words = ["rt", "try", "--fail-alloc", str(REFUSED_AT[name]), "--cases", folder]
        words += [word for row, file in data.items() for word in ("--data", f"{row}={file}")]
        ran = subprocess.run(words, cwd=crate, capture_output=True, text=True)
    parts = OUTPUT.split(ran.stdout)
    outputs, endings = dict(zip(parts[1::2], parts[2::2])), {}
    for part in re.findall(r".*?^case=.*?\n", ran.stderr, re.M | re.S):
        if found := ENDED.fullmatch(part):
            error, number, status = found.groups()
            ending = Ending(int(status), outputs[number].encode(), error.encode())
            endings[cases[int(number)]] = came_of(ending)
    if len(endings) != len(cases):
        raise RuntimeError(f"{len(cases) - len(endings)} cases did not end: {ran.stderr[-500:]}")
    return endings


def run_all_cases(name, crate, data, cases, jobs):
    """The same in parallel; each process builds the program."""
    found, parts = {}, [cases[at::jobs] for at in range(jobs)]
    with ThreadPoolExecutor(jobs) as pool:
        for endings in pool.map(partial(run_cases, name, crate, data), filter(None, parts)):
            found |= endings
    return found


def failed_sink(name, ran, ample):
    """Which sink in memory failed in a run, or `None`, by the name of the program."""
    if ran.status == OUTPUT_FAILED and ran.output == ample.output and ample.status == STOPPED:
        if name == GRAPH and ample.error.startswith(ran.error):
            return "warnings lost"
        return "mark lines lost" if not ran.error else None
    if (ran.status, ran.error) == (OUTPUT_FAILED, b""):
        return "outputs failed" if ample.output.startswith(ran.output) else None
    lost = ran.status == ample.status in (FAULT, USAGE) and ran.output == ample.output
    return "fault lines lost" if lost and not ran.error else None


def take_ending(sweep, program, name, ran, ample):
    """Counts how a run of a program ended that was refused an allocation."""
    if ran is None:
        sweep.counts["allocations of rows themselves"] += 1
        return
    sweep.counts["allocations refused alone"] += 1
    if sink := failed_sink(program, ran, ample):
        sweep.counts[sink] += 1
    elif is_wrong(program, ran, ample):
        sweep.wrong.append(f"a row, {name}: it ends with {shown(ran)}")


def write_rows(program, folder, runs):
    """Writes a file with one row for each run. Returns the files, and how the program ends."""
    data, usual = {}, {}
    for number, run in enumerate(runs):
        row = f"{number}.rows"
        data[row] = folder / row
        data[row].write_text(row_of(PROJECTS[run.project].files, run.words))
        with tempfile.TemporaryDirectory() as room:
            usual[row] = lossy(Runs(program, run, room).ample)
    return data, usual


def sample(usual, seed):
    """The names of some of the rows that end with each status, others for other seeds."""
    for status in sorted({ending.status for ending in usual.values()}):
        of_status = [name for name, ending in usual.items() if ending.status == status]
        turn = seed * OF_EACH % len(of_status)
        yield from (of_status[turn:] + of_status)[:OF_EACH]


@contextlib.contextmanager
def program_of_rows(name=EXPLAIN):
    """The directory of the rows of a program. The checks that `rt try` makes beside runs are ended."""
    is_over = threading.Event()
    threading.Thread(target=end_hints, args=[is_over], daemon=True).start()
    try:
        with composed() as top:
            yield top / "crates" / ROWS_OF[name]
    finally:
        is_over.set()


def runs_without_input():
    return [run for run in PROGRAMS[EXPLAIN].runs_on() if not input_of(run)]


def rows_of_program(folder, program):
    """Files of rows of the runs in memory without standard input, and how the program ends."""
    return write_rows(program, folder, runs_without_input())


def rows_of_questions(folder):
    """Files with one row of ninja-graph each, without a limit, and the ending that each wants."""
    data, usual = {}, {}
    for file in sorted((TESTS / ROWS_OF[GRAPH] / "data").glob("*.rows")):
        for text, (files, row) in single_rows(file.read_text()):
            if row.kind == "ask" and not row.limits:
                name = f"{file.stem}-{row.line}.rows"
                data[name], usual[name] = folder / name, ending_of(row.wanted(files))
                data[name].write_text(text)
    return data, usual


def endings_in_memory(name, data, usual, jobs):
    """How rows of a program end where one allocation is refused, by the row and the allocation."""
    with program_of_rows(name) as crate:
        cases = [(row, at) for row in data for at in range(0, REFUSED_AT[name] + 1, STEP_OF_ROWS)]
        endings = run_all_cases(name, crate, data, cases, jobs)
        # those before the first to which a run does not come
        for row in data:
            refused = [at for case, at in cases if case == row and endings[case, at] != usual[row]]
            last = max(refused, default=0)
            cases += [(row, at) for at in range(max(last - LAST, 0), last + STEP_OF_ROWS)]
        return endings | run_all_cases(name, crate, data, [it for it in cases if it not in endings], jobs)


def try_sinks_in_memory(name, data, usual, seed, jobs):
    """Refuses an allocation to some rows of a program, and returns the sweep."""
    sweep, chosen = Sweep("memory of sinks", name), list(sample(usual, seed))
    endings = endings_in_memory(name, {row: data[row] for row in chosen}, usual, jobs)
    for (row, at), ran in endings.items():
        text = data[row].read_text().splitlines()[-1]
        take_ending(sweep, name, f"{text}, allocation {at}", ran, usual[row])
    for row in chosen:
        ends = endings[row, 0], endings[row, REFUSED_AT[name]]
        sweep.wrong += expect(f"{row}, before and after all allocations", ends, (usual[row], usual[row]))
    return sweep


@check(alone=True)
def sinks_in_memory(program, seeds, folder, jobs):
    """It builds the program of rows without any proof: `seeds`, which only `make sweep` gives, keeps it
    from `make smoke`."""
    data, usual = rows_of_program(folder, program)
    sweep = try_sinks_in_memory(EXPLAIN, data, usual, seeds.start, jobs)
    sweep.wants("outputs failed", "mark lines lost", "fault lines lost")
    return sweep.problems()


@check(alone=True)
def sinks_of_questions_in_memory(seeds, folder, jobs):
    """The same with rows of ninja-graph."""
    sweep = try_sinks_in_memory(GRAPH, *rows_of_questions(folder), seeds.start, jobs)
    sweep.wants("outputs failed", "warnings lost", "fault lines lost")
    return sweep.problems()


def indented(text):
    """The lines of a text that a row wants; it ends with a line end."""
    return "".join(f"    {marked(line)}\n" for line in text.split(b"\n")[:-1])


def rows_with_limits(run, ending):
    """Rows that want the ending of a run, and that each limit of a sink loses no more than it must."""
    text = row_of(PROJECTS[run.project].files, run.words)
    error = b" " + ending.error if ending.error else b"\n"
    yield text + indented(b"%b[%d]%b" % (ending.output, ending.status, error))
    words = " ".join(run.words)
    yield f"cut-off {words}\n" + indented(b"%b%d fail\n" % (ending.output, len(ending.output)))
    yield f"cut-off-errors {words}\n" + indented(b"%b%d lost\n" % (ending.error, len(ending.error)))


@check(alone=True)
def limited_sinks(program, seeds, folder):
    """The same runs end in memory as those of the program, and with sinks that take fewer bytes, down to
    none, as they should. `seeds` is as above."""
    file, count = folder / "run.rows", 0
    with file.open("w") as rows:
        for run in runs_without_input():
            with tempfile.TemporaryDirectory() as room:
                ending = Runs(program, run, room).ample
            for row in rows_with_limits(run, ending):
                rows.write("== runs\n" * row.startswith(("file ", "unended ")) + row)
                count += 1
    with program_of_rows() as crate:
        words = ["rt", "try", "--data", f"{file.name}={file}", "--", file.name]
        how = {"cwd": crate, "env": {"RT_SECONDS": SECONDS, **os.environ}}
        ran = subprocess.run(words, capture_output=True, text=True, **how)
    sweep = Sweep("limits of sinks")
    sweep.counts["rows of runs with limited sinks"] = count
    if ran.returncode:
        sweep.wrong.append(f"{ran.stdout[-2000:]}{ran.stderr[-2000:]}".rstrip())
    wanted = f"{file.name}: {count} rows\n{count} rows, 0 differ\n"
    sweep.wrong += expect("the rows", ran.stdout[-len(wanted) :], wanted)
    return sweep.problems()


# ---- address space


def run_within(program, kilobytes, words, folder, text):
    """How a run ends with this much address space."""
    return program.run_by_shell(words, folder, text, before=f"ulimit -v {kilobytes};")


def starts_within(name, program, kilobytes, folder):
    """Whether the program gets far enough to refuse its arguments, or to report the lack of memory."""
    ran = run_within(program, kilobytes, REFUSED, folder, b"")
    return ran.status == USAGE or not is_wrong(name, ran, program.run(REFUSED, folder))


def least_space(name, program, folder):
    """The least address space in which the program starts, in KB and whole steps."""
    low, high = 0, MOST_KB
    while high - low > STEP:
        middle = (low + high) // 2 // STEP * STEP
        low, high = (low, middle) if starts_within(name, program, middle, folder) else (middle, high)
    return high


def try_spaces(programs, task):
    """Gives a run more and more address space, until it ends as usual. Returns the counts, and the
    problems."""
    name, run, least, step = task
    program, text = programs[name], input_of(run, ALL_PROJECTS)
    tried, wrong, kilobytes = 0, [], least
    with tempfile.TemporaryDirectory() as folder:
        ALL_PROJECTS[run.project].write_to(folder)
        ample, ran = program.run(run.words, folder, text), None
        while ran != ample and kilobytes < MOST_KB:
            ran = run_within(program, kilobytes, run.words, folder, text)
            tried += 1
            if is_wrong(name, ran, ample):
                wrong.append(f"{run}, in {kilobytes} KB: it ends with {shown(ran)}")
            kilobytes += step
        if ran != ample:
            wrong.append(f"{run}: it does not end as usual in {MOST_KB} KB")
    return {"runs": 1, "limits of address space": tried}, wrong


def space_tasks(name, program):
    with tempfile.TemporaryDirectory() as folder:
        least = least_space(name, program, folder)
    for run in PROGRAMS[name].runs_on(*SMALL[name]):
        yield name, run, least, STEP
    for line in [*PROGRAMS[name].chain, *DEEPEST[name]]:
        yield name, run_of(CHAIN, line), least, LARGE_STEP


@check(alone=True)
def address_space(programs, folder, jobs):
    for name, program in programs.items():
        sweep = Sweep("address space", name)
        sweep.in_parallel(jobs, partial(try_spaces, programs), space_tasks(name, program))
        yield from [*answer_differs(name, program, folder), *sweep.problems()]

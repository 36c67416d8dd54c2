"""Makes each system call of the programs fail once.

In runs of every tool and subcommand, each call of the kinds in `ERRORS` in turn fails with one of several
errors, or transfers fewer bytes than requested. In some runs every call transfers fewer bytes. (This is
done by fail_calls.c, which is compiled with `cc`.) How such a run may differ from a normal one is in
`wanted_open` and the functions after it.

It is wrong too if a call was never made to fail that the program makes.
"""

import errno
import math
import re
import tempfile
from functools import partial
from pathlib import Path

from lib.checks import check
from lib.programs import DONE, FAULT, LOOK, OUTPUT_FAILED, STOPPED, Ending, Repeated, compiled, shown
from lib.projects import EVERY_PROJECT, MAIN, RECORDS, Project, input_of
from lib.sweeps import Sweep, lacks_runs
from lib.tools import EXPLAIN, GRAPH, JOINING, PROGRAMS, run_of

# The errors with which a call fails, and the numbers of bytes to which it is cut short.
ERRORS = {
    "open": "ENOENT EINTR EACCES EIO EMFILE ENFILE ENOTDIR EISDIR ELOOP ENAMETOOLONG ENOMEM ENXIO",
    "read": "EINTR EIO EAGAIN EISDIR EBADF ENOMEM",
    "statx": "EIO EACCES ENOSYS ENOMEM EINTR",
    "close": "EIO EINTR EBADF",
    "getentropy": "EIO ENOSYS EFAULT EINTR",
    "chdir": "ENOENT EACCES ENOTDIR EIO ELOOP ENAMETOOLONG ENOMEM",
    "getcwd": "ENOENT EACCES ENOMEM",
    "output": "EINTR EAGAIN EIO ENOSPC EPIPE EBADF EFBIG",
    "error": "EINTR EAGAIN EIO ENOSPC EPIPE EBADF EFBIG",
}
MOST_BYTES = {"read": [1, 7], "output": [0, 1, 7], "error": [0, 1, 7]}
# Those that only ninja-graph makes.
OF_GRAPH = {"chdir", "getcwd"}
EVERY = "each"
EDGES = 8_000
CHAIN = "a chain"
# They read the build log, and join what builds discovered, but for `times --dead`.
OF_BUILDS = {"stale", "times"}
STANDARD_INPUT = "0"
LACKS_MEMORY = rb"out of memory"


def long_chain():
    """A chain of edges, whose files are read and written in many pieces."""
    edges = "".join(f"build e{i}: mk e{i - 1}\n" for i in range(1, EDGES))
    return Project({MAIN: f"rule mk\n  command = mk $in $out\nbuild e0: mk\n{edges}"}, {})


PROJECTS = {**EVERY_PROJECT, CHAIN: long_chain()}


def ways():
    """Each call with each way in which it can fail: the name of an error, or a number of bytes."""
    for call, names in ERRORS.items():
        for name in names.split():
            yield call, name
    for call, counts in MOST_BYTES.items():
        for count in counts:
            yield call, count


# ---- how a run may end


def own_log(runs):
    """Ninja's log of the project."""
    folder = re.search(rb"^builddir = (.*)$", runs.project.files[MAIN], re.M)
    return f"{folder[1].decode()}/.ninja_deps" if folder else ".ninja_deps"


def joins_discovered(runs):
    """Whether a run joins what builds discovered without being asked to: `times --dead` does not."""
    return bool(OF_BUILDS & {*runs.words}) and "--dead" not in runs.words


def log_of(runs):
    """The deps log that a run requests, or `None`."""
    if "--deps-log-file" in runs.words:
        return runs.words[runs.words.index("--deps-log-file") + 1]
    return own_log(runs) if "--deps" in runs.words or joins_discovered(runs) else None


def build_log_of(runs):
    """The build log that a run reads, or `None`."""
    return own_log(runs).replace(".ninja_deps", ".ninja_log") if OF_BUILDS & {*runs.words} else None


def depfiles_of(runs):
    """The depfiles that a run reads, in the order of their edges."""
    return [name for name in runs.project.files if name.endswith(".d")] if log_of(runs) else []


def dyndep_of(runs):
    """The dyndep file that a run joins if it is there, or `None`."""
    names = [name for name in runs.project.files if name == "dd"]
    return names[0] if names and (JOINING & {*runs.words} or joins_discovered(runs)) else None


def named_files_of(runs):
    """The files that options name and a run reads before all others: lists of tests and of targets, files whose
    contents go into keys, and the keys of an older manifest."""
    words = " ".join(map(str, runs.words))
    of_meson = (
        f"{folder}/meson-info/intro-{name}.json"
        for folder in re.findall(r"--meson[ =](\S+)", words)
        for name in ("tests", "targets")
    )
    named, older = (re.findall(rf"--(?:{it})[ =](\S+)", words) for it in ("ctest|with-file", "since"))
    return [*named, *of_meson, *older]


def opened_files(runs):
    """The files that a run may open, in this order: each with the place of the statement that opens it,
    or `None` for a file that an option names, a log and a depfile."""
    places, words = list(runs.project.places.items()), runs.words
    if "-f" in words:
        name = words[words.index("-f") + 1]
        places[0] = name, f"{name}:1:1"
    log = log_of(runs)
    others = [log, *depfiles_of(runs)] if log else []
    others += [it for it in [build_log_of(runs)] if it]
    return [*((name, None) for name in named_files_of(runs)), *places, *((name, None) for name in others)]


def fault_of_file(runs, number, text, text_of_log):
    """How a run ends in which a file cannot be opened or read; its number counts from 1."""
    name, place = opened_files(runs)[number - 1]
    line = f"{place}: {text} '{name}'" if place else f"{GRAPH}: {name}: {text_of_log}"
    return Ending(FAULT, b"", f"{line}\n".encode())


def with_caveat(runs, ending, caveat):
    """How a run ends like this one and says something of what builds discovered: `affected` first, others last.
    A fault comes alone."""
    if ending.status == FAULT:
        return ending
    line = f"{caveat}\n".encode()
    error = line + ending.error if "affected" in runs.words else ending.error + line
    return Ending(LOOK, ending.output, error)


def for_another_reason(ending, was, now):
    """The same ending of a run, with another reason in `json` why the discovered inputs are unknown."""
    word = b'"discovered":"%b"'
    return Ending(ending.status, ending.output.replace(word % was, word % now), ending.error)


def asks_about_targets(runs):
    """Whether a run is about some targets, and not about all edges."""
    return bool(({"why", "keys", "draw"} | OF_BUILDS) & {*runs.words}) and "--affected" not in runs.words


def unread(runs, number):
    """How a run ends in which a file cannot be read. A depfile whose edge the targets need ends it; otherwise there is
    a caveat, and the edge of the depfile is not known."""
    name, _ = opened_files(runs)[number - 1]
    if name not in depfiles_of(runs):
        return fault_of_file(runs, number, "cannot read", "the file could not be read")
    ending, text = runs.run_with(name, None), f"{name}: it cannot be read"
    if ending.status != FAULT and asks_about_targets(runs):
        return Ending(FAULT, b"", f"{GRAPH}: {text}\n".encode())
    return with_caveat(runs, for_another_reason(ending, b"no-depfile", b"depfile-fault"), text)


def wanted_open(runs, opened, way):
    """A file that does not exist cannot be found; Ninja's own log is empty then, and of a depfile the edge is not
    known. An interrupted call is tried again. After any other error the file cannot be read."""
    if way == "EINTR":
        return runs.usual
    if way != "ENOENT":
        return unread(runs, opened)
    name, place = opened_files(runs)[opened - 1]
    if not place and name in {own_log(runs), build_log_of(runs), *depfiles_of(runs)}:
        return runs.run_with(name, None)
    return fault_of_file(runs, opened, "cannot find", "there is no such file")


def is_fault(ran, text):
    """Whether a run ends with one line of ninja-graph, which this pattern has."""
    line = rb"ninja-graph: %b\n" % text
    return (ran.status, ran.output) == (FAULT, b"") and bool(re.fullmatch(line, ran.error))


def read_is_wrong(runs, failed, way, ran):
    """After any error the file cannot be read. Fewer bytes change nothing. ninja-graph takes changed paths
    from standard input, which is not a file of the manifest, and tries an interrupted call again there."""
    is_of_paths = runs.name == GRAPH and failed.file == STANDARD_INPUT
    if isinstance(way, int) or is_of_paths and way == "EINTR":
        return ran != runs.usual
    if is_of_paths:
        text = LACKS_MEMORY if way == "ENOMEM" else rb"cannot read standard input: [^\n]+"
        return not is_fault(ran, text)
    return ran != unread(runs, max(failed.opened, 1))


def wanted_statx(runs, path):
    """How a run ends in which a path of what builds discovered cannot be looked up, or `None`. The type of a log
    or a depfile is not known before it is read. A dyndep file is not joined. An output counts as one that is newer
    than its record, with a caveat."""
    log = log_of(runs)
    if path in {log, *named_files_of(runs), build_log_of(runs), *depfiles_of(runs)} - {None}:
        return runs.usual
    if path == dyndep_of(runs):
        return runs.run_with(path, None)
    if path in RECORDS and log in runs.project.files:
        newer = for_another_reason(runs.run_with(path, b""), b"newer-output", b"no-time")
        return with_caveat(runs, newer, f"{path}: its time cannot be read")
    return None


def lacks_time(ran, path):
    """Whether a run of `stale` reports that the time of a file cannot be read. That is a fault, or a caveat
    where the time is looked up for the inputs that builds discovered."""
    text = f"{path}: its time cannot be read".encode()
    return is_fault(ran, re.escape(text)) or ran.status == LOOK and text + b"\n" in ran.error


def statx_is_wrong(runs, failed, way, ran):
    """Sizes of files are only guesses. A source that a command needs and that cannot be looked up is not
    reported as missing, but on standard error."""
    if not failed.file:
        return ran != runs.usual
    if way == "ENOMEM":
        return not is_fault(ran, LACKS_MEMORY)
    wanted = wanted_statx(runs, failed.file)
    if "stale" in runs.words and ran != wanted:
        return not lacks_time(ran, failed.file)
    if wanted:
        return ran != wanted
    lines = runs.usual.output.decode().splitlines(True)
    ends = f"missing source '{failed.file}'\n", f'"missing-source","name":"{failed.file}"}}\n'
    left = "".join(line for line in lines if not line.endswith(ends)).encode()
    told = re.compile(rb"[^\n]+: cannot look up source '%b'\n" % re.escape(failed.file.encode()))
    others = b"".join(line for line in ran.error.splitlines(True) if not told.fullmatch(line))
    is_told = (ran.status, ran.output, others) == (LOOK, left, runs.usual.error) and others != ran.error
    return not is_told and (left != runs.usual.output or ran != runs.usual)


def chdir_is_wrong(way, ran):
    """The directory of `-C` cannot be entered."""
    return not is_fault(ran, LACKS_MEMORY if way == "ENOMEM" else rb"cannot [^\n]+: [^\n]+")


def getcwd_is_wrong(runs, way, ran):
    """Without the name of the working directory, no absolute path is known to be below it. Tests name
    files below it, so `tests` fails."""
    if way != "ENOMEM" and "tests" in runs.words and runs.usual.status in (DONE, LOOK):
        return not is_fault(ran, b"the working directory is not known")
    return not is_fault(ran, LACKS_MEMORY) if way == "ENOMEM" else ran != runs.usual


def output_is_wrong(ran, way, usual):
    """After an error only a prefix of the output is written. Fewer bytes change nothing."""
    if isinstance(way, int) and way > 0:
        return ran != usual
    ended = (ran.status, ran.error) == (OUTPUT_FAILED, b"")
    return not (ended and usual.output.startswith(ran.output) and ran.output != usual.output)


def error_is_wrong(ran, way, usual):
    """After an error only a prefix of the text is written, and the output is the same. If the text is
    a mark, or has what there is to look at, the status is the one of a failed output. If it is a fault,
    the status is the same."""
    if isinstance(way, int) and way > 0:
        return ran != usual
    status = OUTPUT_FAILED if usual.status == STOPPED else usual.status
    ended = (ran.status, ran.output) == (status, usual.output)
    return not (ended and usual.error.startswith(ran.error) and ran.error != usual.error)


def is_wrong(runs, call, way, failed, ran):
    if call == "open":
        return ran != wanted_open(runs, failed.opened, way)
    if call == "read":
        return read_is_wrong(runs, failed, way, ran)
    if call == "statx":
        return statx_is_wrong(runs, failed, way, ran)
    if call == "chdir":
        return chdir_is_wrong(way, ran)
    if call == "getcwd":
        return getcwd_is_wrong(runs, way, ran)
    if call == "output":
        return output_is_wrong(ran, way, runs.usual)
    if call == "error":
        return error_is_wrong(ran, way, runs.usual)
    return ran != runs.usual


# ---- runs


class Failed:
    """A call that failed: how many files were opened before it, and its descriptor or its path."""

    def __init__(self, report):
        opened, _, self.file = report.rstrip("\n").partition(" ")
        self.opened = int(opened)


class Runs:
    """A run of a program on its project, which is made again with calls that fail."""

    def __init__(self, name, program, run, libraries, folder):
        self.name, self.program, self.words = name, program, run.words
        self.folder, self.text = folder, input_of(run, PROJECTS)
        self.project = PROJECTS[run.project]
        self.project.write_to(folder)
        self.report = Path(folder) / "report"
        self.usual, self.made = self.run(), {}
        fails = {"FAIL_REPORT": str(self.report)}
        self.repeated = Repeated(program, run.words, folder, self.text, *libraries, **fails)

    def __enter__(self):
        return self

    def __exit__(self, *_):
        self.repeated.close()

    def run(self):
        return self.program.run(self.words, self.folder, self.text)

    def run_with(self, name, text):
        """How the run ends where a file has this text, or is not there."""
        file = Path(self.folder, name)
        own = file.read_bytes() if file.exists() else None
        file.unlink(missing_ok=True)
        if text is not None:
            file.write_bytes(text)
        ran = self.run()
        file.unlink(missing_ok=True)
        if own is not None:
            file.write_bytes(own)
        return ran

    def run_failing(self, call, way, number):
        """How a run ends, and the call that failed, which is `None` if no call has the number."""
        how = "FAIL_MOST" if isinstance(way, int) else "FAIL_ERRNO"
        value = way if isinstance(way, int) else getattr(errno, way)
        fails = {"FAIL_CALL": call, "FAIL_AT": str(number), how: str(value)}
        self.report.unlink(missing_ok=True)
        ran = self.repeated.run(**fails)
        return ran, Failed(self.report.read_text()) if self.report.exists() else None

    def failures_of(self, call, way):
        """How a run ends in which a call of this kind fails, for each such call in turn. Runs are the same up to
        the call that fails, so the first way shows how many calls there are."""
        number, last = 1, self.made.get(call, math.inf)
        while number <= last and (failed := self.run_failing(call, way, number))[1] is not None:
            yield number, *failed
            number += 1
        self.made[call] = number - 1
        if isinstance(way, int) and way > 0 and number > 1:
            yield EVERY, *self.run_failing(call, way, 0)


def try_run(name, program, libraries, run):
    """Makes each call of a run fail in each way. Returns the counts, and the problems."""
    counts, wrong = {"runs": 1, **dict.fromkeys(ERRORS, 0)}, []
    with tempfile.TemporaryDirectory() as folder, Runs(name, program, run, libraries, folder) as runs:
        for call, way in ways():
            for number, ran, failed in runs.failures_of(call, way):
                counts[call] += 1
                if is_wrong(runs, call, way, failed, ran):
                    wrong.append(f"{run}, {call} {number} by {way}: it ends with {shown(ran)}")
    return counts, wrong


def runs_of(name):
    """All runs but `stale` on a chain, which looks up thousands of files."""
    rows = PROGRAMS[name]
    chain = [line for line in rows.chain if not line.startswith("stale")]
    return [*rows.runs_on(), *(run_of(CHAIN, line) for line in chain)]


@check(needs=["cc"], alone=True)
def every_call(programs, folder, jobs):
    libraries = [compiled("repeated", folder), compiled("fail_calls", folder)]
    for name, program in programs.items():
        sweep, runs = Sweep("calls", name), runs_of(name)
        sweep.wrong += lacks_runs(name, runs)
        sweep.in_parallel(jobs, partial(try_run, name, program, libraries), runs)
        made = set(ERRORS) - (OF_GRAPH if name == EXPLAIN else set())
        sweep.wants(*(call for call in ERRORS if call in made))
        sweep.wrong += [f"it calls {call}" for call in ERRORS if call not in made and sweep.counts[call]]
        yield from sweep.problems()

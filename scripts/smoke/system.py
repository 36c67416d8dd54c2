"""Watches the system calls of runs.

Where there is `strace`, runs of every tool are traced, which no contract can state: a run opens
files for reading alone, writes to its two outputs alone, and starts no program. Other runs get 128
KB of stack while 32 files are open, and have to end as they do with more.
"""

import itertools
import re
import subprocess
import tempfile

from lib.checks import Skipped, check
from lib.programs import DONE, STOPPED, Program, shown
from lib.projects import MAIN, PROJECTS, RUNS, Project, runs_of, targets_differ

# ---- system calls

# All calls that have to do with files, descriptors, programs and sockets.
TRACE = ["strace", "-f", "-qq", "-e", "signal=none", "-e", "trace=%file,%desc,%process,%network"]
CALL = re.compile(r"\d+ +(\w+)\((.*)\) += .*")
# These only look, or end the run.
HARMLESS = set(
    """access faccessat faccessat2 stat lstat fstat newfstatat statx statfs fstatfs readlink
    readlinkat getcwd read readv pread64 lseek close poll arch_prctl exit exit_group""".split()
)
OPENING = {"open", "openat", "openat2"}
CHANGING = re.compile(r"O_(?!RDONLY\b|CLOEXEC\b|LARGEFILE\b|NOCTTY\b|NOFOLLOW\b|DIRECTORY\b)\w+")


def changes_something(call, words):
    """Whether a call could change a file or start a program, given its arguments as text."""
    if call in OPENING:
        return "O_RDONLY" not in words or bool(CHANGING.search(words))
    if call in ("write", "writev"):
        return not words.startswith(("1, ", "2, "))
    if call == "ioctl":
        return not words.startswith("0, TCGETS,")
    if call == "mmap":
        return "MAP_SHARED" in words and "PROT_WRITE" in words
    return call not in HARMLESS


def changes(trace):
    """The lines of a trace that could change something. The first line starts the program."""
    for number, line in enumerate(trace.splitlines()):
        found = CALL.fullmatch(line)
        if number == 0 and found and found[1] == "execve":
            continue
        if not found or changes_something(found[1], found[2]):
            yield line


def traced(program, words, folder, text):
    """How a run under `strace` ends, and its trace."""
    with tempfile.NamedTemporaryFile("r", errors="replace") as trace:
        words = [*TRACE[1:], "-o", trace.name, program.path, *words]
        return Program(TRACE[0]).run(words, folder, text), trace.read()


@check(needs=["strace"])
def runs_change_nothing(program, folder):
    """No run opens a file but for reading, or starts a program."""
    words = [*TRACE, "-o", "/dev/null", "true"]
    if subprocess.run(words, stderr=subprocess.DEVNULL).returncode:
        raise Skipped("strace may not trace here")
    yield from targets_differ(program, folder)
    for number, (name, words) in enumerate(runs_of(RUNS)):
        project, case, place = PROJECTS[name], f"{name}, {words}", folder / str(number)
        project.write_to(place)
        usual = program.run(words, place, project.input_for(words))
        ran, trace = traced(program, words, place, project.input_for(words))
        if ran != usual:
            yield f"{case}: traced it ends with {shown(ran)}"
        if "open" not in trace:
            yield f"{case}: there is no trace"
        for line in itertools.islice(changes(trace), 1):
            yield f"{case}: {line[:200]}"


# ---- the stack

KILOBYTES = 128
# In the last file each variable of a rule refers to the next one.
KEYS = """command description depfile deps msvc_deps_prefix rspfile rspfile_content restat
    generator""".split()
DEEPEST = "rule deep\n" + "".join(
    f"  {key} = x ${below}\n" for key, below in zip(KEYS, [*KEYS[1:], "in"])
)
DEEPEST += """\
pool p
  depth = 2
build a | a2: deep b || dd |@ v
  dyndep = dd
  pool = p
build b: deep c d
build v: deep a
build all: phony a v
"""
DD = "ninja_dyndep_version = 1\nbuild a | a3: dyndep | d\n"
MOST_OPEN = 32
NESTED_RUNS = [
    "--stdin -t commands",
    "-t commands",
    "-t commands --validations",
    "-t commands --take 1",
    "-t commands --resume 0",
    "-t commands -s a b",
    "-t inputs",
    "-t inputs --dependency-order --no-shell-escape --print0 --validations",
    "-t targets",
    "-t targets depth 0",
    "-t targets all",
    "-t targets rule deep",
    "-t targets rule",
    "-t query a b c d v",
    "-t rules -d",
    "-t compdb -x --directory /w",
]


def nested(count):
    """Files that each include the next one, or have it as a file of its own scope."""
    files = {MAIN: "include f1\n", "dd": DD}
    for number in range(1, count - 1):
        kind = "subninja" if number % 2 else "include"
        files[f"f{number}"] = f"x = 1\n{kind} f{number + 1}\n"
    files[f"f{count - 1}"] = DEEPEST
    return Project(files, {})


@check
def stack_of_32_files(program, folder):
    """Every tool has the same output with little stack as with much."""
    project = nested(MOST_OPEN)
    project.write_to(folder)
    for line in [*NESTED_RUNS, *(f"--dyndep {line}" for line in NESTED_RUNS)]:
        words = line.split()
        text = project.input_for(words)
        usual = program.run(words, folder, text)
        ran = program.run_by_shell(words, folder, text, before=f"ulimit -s {KILOBYTES};")
        if ran != usual or ran.status not in (DONE, STOPPED) or not ran.output:
            yield f"{line}, in {KILOBYTES} KB of stack: it ends with {shown(ran)}"

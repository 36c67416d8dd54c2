#!/usr/bin/env python3
"""Feeds the library for C with libFuzzer's mutations of seeds: fuzz_c.py [--seconds N] [--jobs N]

fuzz_c.c describes the form of an input, and the conditions that have to hold. The seeds are the projects of examples/ and of
lib/projects.py, and the rows of tests/ with the files that they run on; the dictionary
has texts with a meaning in a manifest (`lib/strangers.py`), and the arguments of the program. New
inputs are kept in lib/fuzz_c/corpus, from which the next run begins.

Needs clang with libFuzzer's runtime, and lib/libninja_explain.a. Prints how many inputs were tried;
for each process that found something, the problem, and the file that has the input. The status is
1 then, and where a call of the header was never made. With --tools it only looks for what it needs.
With --planted it checks that a wrong expectation, which all seeds meet, is found.
"""

import argparse
import contextlib
import os
import re
import shutil
import subprocess
import sys
import tempfile
import time
from dataclasses import dataclass
from pathlib import Path

from lib.composed import TESTS
from lib.options import EVERY_TOOL, TOOLS
from lib.programs import EXAMPLES, ROOT
from lib.projects import MAIN, PROJECTS, RUNS, files_below
from lib.rows import projects_of
from lib.strangers import LINES, PIECES
from lint import header

SOURCE = ROOT / "scripts/fuzz_c.c"
ARCHIVE = ROOT / "lib/libninja_explain.a"
FOLDER = ROOT / "lib/fuzz_c"
CORPUS, SEEDS, DICTIONARY = FOLDER / "corpus", FOLDER / "seeds", FOLDER / "dictionary"
# Where c_calls.c has the library's memory.
RENAMED = {name: f"__wrap_{name}" for name in ("malloc", "realloc", "free")}
COMPILED = ["-std=c11", "-O1", "-g", "-Wall", "-Wextra", "-fsanitize=fuzzer"]
EMPTY = "int LLVMFuzzerTestOneInput(const char *bytes, unsigned long size) { return 0; }\n"
# The most bytes of an input, and seconds that one may take.
MOST_BYTES, SLOW = 4096, 30


class Missing(Exception):
    """Something that is needed and not there."""


# ---- building


def compiler():
    """The path of clang, which has libFuzzer."""
    clang = shutil.which(os.environ.get("CLANG", "clang"))
    if not clang:
        raise Missing("there is no clang; on Debian, `apt-get install clang` gives it")
    with tempfile.TemporaryDirectory() as folder:
        words = [clang, "-fsanitize=fuzzer", "-xc", "-", "-o", f"{folder}/empty"]
        ran = subprocess.run(words, input=EMPTY, capture_output=True, text=True)
    if ran.returncode:
        asked = subprocess.run([clang, "-dumpversion"], capture_output=True, text=True)
        package = f"libclang-rt-{asked.stdout.split('.')[0].strip()}-dev"
        how = f"on Debian, `apt-get install {package}` gives it"
        raise Missing(f"{clang} cannot link libFuzzer's runtime; {how}\n{ran.stderr.rstrip()}")
    if not shutil.which("objcopy"):
        raise Missing("there is no objcopy; on Debian, `apt-get install binutils` gives it")
    return clang


def counted(text):
    """C that counts the calls of a header, by a macro for each."""
    calls = dict(header.declared(text))
    for number, (name, (result, parameters)) in enumerate(calls.items()):
        typed = ", ".join(f"{kind} {word}" for kind, word in parameters)
        given = ", ".join(word for _, word in parameters)
        yield f"static inline {result} counted_{name}({typed})"
        yield f"{{\n    return counted({number}, {name}({given}));\n}}\n#define {name} counted_{name}"
    names = ", ".join(f'"{name}"' for name in calls)
    yield f"static const char *const call_names[] = {{ {names} }};\n"


def build(clang, name, *options):
    """Compiles the fuzzer, and returns its path."""
    if not ARCHIVE.is_file():
        raise Missing(f"there is no {ARCHIVE.relative_to(ROOT)}; `make c` gives it")
    FOLDER.mkdir(parents=True, exist_ok=True)
    library, fuzzer = FOLDER / ARCHIVE.name, FOLDER / name
    renamed = [f"--redefine-sym={old}={new}" for old, new in RENAMED.items()]
    subprocess.run(["objcopy", *renamed, ARCHIVE, library], check=True)
    (FOLDER / "counted.h").write_text("\n".join(counted(header.HEADER.read_text())))
    included = [f"-I{folder}" for folder in (ROOT / "include", FOLDER)]
    words = [clang, *COMPILED, *options, *included, SOURCE, library, "-o", fuzzer]
    subprocess.run(words, check=True)
    return fuzzer


# ---- seeds

ZERO = b"\0"
# The calls of fuzz_c.c for a row, by the kind of the row.
CALLS = {
    "run": lambda words: [b"r" + ZERO.join(words)],
    "request": lambda words: [b"R" + ZERO.join(words)],
    "load": lambda words: [b"l0" + words[0]],
    "cause": lambda words: [b"l1" + words[0]],
    "pick": lambda words: [b"l0", *(b"p" + word for word in words)],
    "affected": lambda words: [b"l0", b"0", *(b"p" + word for word in words), b"A"],
    "affected-joined": lambda words: [b"l1", b"0", *(b"p" + word for word in words), b"A"],
    "pages": lambda words: [b"l0", *(b"G" + word for word in words)],
    "users": lambda words: [b"l0", *(b"n" + word for word in words), b"A"],
    "variable": lambda words: [b"l0", *(b"v%d " % edge + words[0] for edge in range(4))],
}
# The end of every seed, and each kind of call.
LAST = [b"l1", b"G0", b"A", b"q"]
EACH = [b"i", b"L0", b"w0", b"h", b"L1", b"h", b"l1", b"f0", b"e0", b"v1 out", b"t0", b"t1", b"g2"]
EACH += [b"m0", b"g1 0.0", b"d", b"0", b"nout", b"pout^", b"k", b"a0 1", b"xd", b"R-t" + ZERO + b"rules"]
EACH += [b"j", b"l1", b"j0", b"l1", b"D", b"l1", b"D0"]
FAILING = [b"z5", b"l0", b"q", b"z9 1", b"l1", b"r-t" + ZERO + b"commands", b"o7", b"z", b"l0"]
FAILING += [b"s2 0 5", b"s4 0 9", b"s7 0 2", b"c", b"l0", b"q", b"o"]
# How many rows a seed takes, and of what a row repeats how many.
ROWS, MOST_REPEATED = 6, 40


def seed(files, lines):
    """An input as fuzz_c.c reads it."""
    named = (b"%%" + (b"" if name == MAIN.encode() else name) + b"\n" + text for name, text in files.items())
    return b"\n".join([*lines, *named])


def seeds_of_rows():
    for path in sorted(TESTS.glob("*/data/*.rows")):
        for files, rows in projects_of(path.read_text(), MOST_REPEATED):
            rows = [row for row in rows if row.kind in CALLS]
            for at in range(0, len(rows), ROWS):
                lines = [line for row in rows[at : at + ROWS] for line in CALLS[row.kind](row.words())]
                yield seed(files, [*lines, *LAST])


def seeds_of_projects():
    projects = {name: project.files for name, project in PROJECTS.items()}
    projects["hello"] = files_below(EXAMPLES / "hello")
    for name, files in projects.items():
        files = {path.encode(): text for path, text in files.items()}
        runs = [b"r" + ZERO.join(line.encode().split()) for line in RUNS.get(name, [])]
        for lines in EACH, FAILING, *(runs[at : at + ROWS] for at in range(0, len(runs), ROWS)):
            yield seed(files, [*lines, *LAST])


def write_seeds():
    """Writes the seeds, and returns how many there are."""
    shutil.rmtree(SEEDS, ignore_errors=True)
    SEEDS.mkdir(parents=True)
    found = {*seeds_of_projects(), *seeds_of_rows()}
    taken = sorted(each for each in found if len(each) <= MOST_BYTES)
    for number, each in enumerate(taken):
        (SEEDS / f"{number:04}").write_bytes(each)
    return len(taken)


def quoted(word):
    """A word as the dictionary of libFuzzer has it."""
    plainly = (chr(byte) if 32 <= byte < 127 and byte not in b'"\\' else f"\\x{byte:02X}" for byte in word)
    return f'"{"".join(plainly)}"'


def write_dictionary():
    options = EVERY_TOOL.union(*(tool.options for tool in TOOLS.values()))
    words = {*PIECES, *(line + b"\n" for line in LINES), b"\n%%", b"\n%%\n"}
    words |= {option.encode() + ZERO for option in options}
    words |= {b"-t" + ZERO + tool.encode() + ZERO for tool in TOOLS}
    words |= {b"\n" + line for line in [*LAST, *EACH, *FAILING]}
    DICTIONARY.write_text("".join(f"{quoted(word)}\n" for word in sorted(words)))


# ---- running

EXECUTED = re.compile(r"^stat::number_of_executed_units: +(\d+)", re.M)
KEPT = re.compile(r"Test unit written to (.*)$", re.M)
WRONG = re.compile(r"^project \d+, allocation \d+: (.*)$|ERROR: (libFuzzer: .*)$", re.M)
MADE, FAULTS = re.compile(r"^calls:(.*)$", re.M), re.compile(r"^faults:(.*)$", re.M)
COUNTERS = " Extra Counters\n"
LAST_LINES = 15


@dataclass
class Run:
    """How a process of the fuzzer ended."""

    status: int
    log: str

    def executed(self):
        found = EXECUTED.search(self.log)
        return int(found[1]) if found else 0

    def calls(self):
        """How many times each call was made; nothing if the process did not end by itself."""
        found = MADE.search(self.log)
        counts = (word.split("=") for word in found[1].split()) if found else ()
        return {name: int(count) for name, count in counts}

    def faults(self):
        """The kinds of faults that came."""
        found = FAULTS.search(self.log)
        return set(found[1].split()) if found else set()

    def kept(self):
        """The file that has the input on which it ended."""
        found = KEPT.search(self.log)
        return found and found[1]

    def reasons(self):
        """The problem, as the process reported it."""
        found = ["".join(each) for each in WRONG.findall(self.log)]
        return list(dict.fromkeys(found)) or self.log.splitlines()[-LAST_LINES:]


def run(fuzzer, seconds, jobs, corpus, kept):
    """Runs as many processes for some seconds. Each adds to the corpus, which all read."""
    corpus.mkdir(parents=True, exist_ok=True)
    words = [fuzzer, f"-max_total_time={seconds}", f"-max_len={MOST_BYTES}", f"-dict={DICTIONARY}"]
    words += [f"-timeout={SLOW}", f"-artifact_prefix={kept}/", "-print_final_stats=1", corpus, SEEDS]
    with contextlib.ExitStack() as stack:
        logs = [stack.enter_context(tempfile.TemporaryFile()) for _ in range(jobs)]
        started = [subprocess.Popen(words, stdout=log, stderr=subprocess.STDOUT) for log in logs]
        for each in started:
            stack.callback(each.wait)
            stack.callback(each.kill)
        statuses = [each.wait() for each in started]
        return [Run(status, text_of(log)) for status, log in zip(statuses, logs)]


def text_of(log):
    log.seek(0)
    return log.read().decode(errors="replace")


def problems(fuzzer, runs):
    """The findings of the processes, and whether results of calls counted as coverage."""
    for each in runs:
        if COUNTERS not in each.log:
            yield "libFuzzer has no counters of what calls return"
        if each.status == 0:
            continue
        yield from each.reasons()
        if each.kept():
            path = os.path.relpath(each.kept(), ROOT)
            yield f"the input is kept in {path}; {fuzzer.relative_to(ROOT)} {path} runs it again"
        else:
            yield f"a process ended with status {each.status}"


def total(runs):
    """How many times each call was made by all processes."""
    counts = {}
    for each in runs:
        for name, count in each.calls().items():
            counts[name] = counts.get(name, 0) + count
    return counts


def fuzz(clang, seconds, jobs):
    """Runs the fuzzer, and prints its results. Returns the exit status."""
    fuzzer, seeds, start = build(clang, "fuzz_c"), write_seeds(), time.monotonic()
    write_dictionary()
    runs = run(fuzzer, seconds, jobs, CORPUS, FOLDER)
    taken, executed = time.monotonic() - start, sum(each.executed() for each in runs)
    crashes = sum(each.status != 0 for each in runs)
    tried = f"{executed:,} inputs in {taken:.0f} s, processes: {jobs}, seeds: {seeds}"
    print(f"fuzz_c: {tried}, crashes: {crashes}")
    wrong, calls = list(problems(fuzzer, runs)), total(runs)
    if calls:
        least = min(calls, key=calls.get)
        kinds = len(set().union(*(each.faults() for each in runs)))
        made = f"{sum(calls.values()):,} calls, fewest of {least}, {calls[least]:,}"
        print(f"fuzz_c: {made}; faults of {kinds} kinds")
        wrong += [f"{name} was never called" for name, count in calls.items() if not count]
    for each in wrong:
        print(f"fuzz_c: {each}")
    return 1 if wrong else 0


def try_planted(clang, seconds):
    """Checks that the fuzzer finds planted mistakes, and no seed does. Returns the exit status."""
    fuzzer, start = build(clang, "planted", "-DPLANTED"), time.monotonic()
    seeds = write_seeds()
    write_dictionary()
    met = subprocess.run([fuzzer, "-runs=0", SEEDS], capture_output=True)
    if met.returncode:
        print("fuzz_c: a seed does not meet what is planted", file=sys.stderr)
        return 1
    with tempfile.TemporaryDirectory() as folder:
        start = time.monotonic()
        found = run(fuzzer, seconds, 1, Path(folder, "corpus"), folder)[0]
        taken = time.monotonic() - start
    is_found = any("planted" in reason for reason in found.reasons())
    what = "was found" if is_found else "was not found"
    how = f"in {taken:.1f} s, with {found.executed():,} inputs from {seeds} seeds that meet it"
    print(f"fuzz_c: what is planted {what} {how}")
    return 0 if is_found else 1


def main():
    parser = argparse.ArgumentParser(description=__doc__.split("\n")[0])
    parser.add_argument("--seconds", type=int, default=60, help="how long it runs")
    parser.add_argument("--jobs", type=int, default=1, help="how many processes run at once")
    parser.add_argument("--tools", action="store_true", help="only look for what is needed")
    parser.add_argument("--planted", action="store_true", help="find what is planted")
    words = parser.parse_args()
    try:
        clang = compiler()
        if words.tools:
            return 0
        if words.planted:
            return try_planted(clang, words.seconds)
        return fuzz(clang, words.seconds, words.jobs)
    except Missing as missing:
        print(f"fuzz_c: {missing}", file=sys.stderr)
        return 1


if __name__ == "__main__":
    sys.exit(main())

"""Runs programs, and measures their wall-clock time, their CPU time, and their memory."""

import contextlib
import os
import shutil
import statistics
import subprocess
import tempfile
import time

MB = 1_000_000

# A program that Python starts begins with the memory of Python, which counts in its peak. A program
# that `time` starts does not.
TIME = shutil.which("time")


class Run:
    """A run of a program in a directory, with the file `given` as standard input, or without one. The
    output goes to the file `out`, or else is kept. The program has to end with the status, if any."""

    def __init__(self, words, folder=None, status=0, out=None, given=os.devnull):
        with contextlib.ExitStack() as files:
            peak = files.enter_context(tempfile.NamedTemporaryFile("r"))
            errors = files.enter_context(tempfile.TemporaryFile())
            stdout = files.enter_context(open(out, "wb")) if out else subprocess.PIPE
            stdin = files.enter_context(open(given, "rb"))
            counting = [TIME, "-q", "-f", "%M", "-o", peak.name] if TIME else []
            start = time.perf_counter()
            streams = {"stdin": stdin, "stdout": stdout, "stderr": errors}
            process = subprocess.Popen([*counting, *words], cwd=folder, **streams)
            self.output = b"" if out else process.stdout.read()
            _, ended, usage = os.wait4(process.pid, 0)
            self.seconds = time.perf_counter() - start
            process.returncode = os.waitstatus_to_exitcode(ended)
            errors.seek(0)
            self.errors = errors.read()
            if status is not None and process.returncode != status:
                raise SystemExit(f"{words[0]} ended with status {process.returncode}: {self.errors.decode(errors='replace')}")
            self.processor_seconds = usage.ru_utime + usage.ru_stime
            self.memory = 1024 * int(peak.read() if TIME else usage.ru_maxrss)


def measure(programs, rounds, folder=None, status=0, out=None):
    """Runs the programs in turn. Returns the runs of each."""
    runs = {name: [] for name in programs}
    for _ in range(rounds):
        for name, words in programs.items():
            runs[name].append(Run(words, folder, status, out))
    return runs


def best(runs):
    """The least wall-clock time, the least CPU time, and the greatest memory."""
    return min(run.seconds for run in runs), min(run.processor_seconds for run in runs), max(run.memory for run in runs)


def middle(runs):
    """The median wall-clock time, the median CPU time, and the greatest memory."""
    seconds = statistics.median(run.seconds for run in runs)
    return seconds, statistics.median(run.processor_seconds for run in runs), max(run.memory for run in runs)

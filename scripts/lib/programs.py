"""The places of the repository, and runs of built programs."""

import collections
import os
import shutil
import signal
import struct
import subprocess
from pathlib import Path

ROOT = Path(__file__).resolve().parents[2]
EXAMPLES = ROOT / "examples"
CRATES = ROOT / "crates"

# The statuses of ninja-explain, and that of ninja-graph where there is something to look at.
DONE, FAULT, USAGE, STOPPED, OUTPUT_FAILED = range(5)
LOOK = STOPPED
SECONDS = 60


def built(crate):
    """Where `rt run` leaves the program of a crate."""
    return CRATES / crate / "out" / crate


class Ending(collections.namedtuple("Ending", "status output error")):
    """How a run ended. The status is `None` if the time ran out."""

    def as_text(self):
        return Ending(self.status, self.output.decode(), self.error.decode())


def shown(ending):
    """How a run ended, with at most 200 bytes of each output."""
    return tuple(
        part[:200] + b".." if isinstance(part, bytes) and len(part) > 200 else part
        for part in ending
    )


class NoProgram(Exception):
    """A program that was not built."""


class OutOfTime(Exception):
    pass


def stop_waiting(*_):
    raise OutOfTime


class Program:
    """A built program, or one that is on the PATH."""

    def __init__(self, path):
        self.path = os.path.abspath(shutil.which(path) or path)

    def require(self):
        """Raises `NoProgram` if it was not built."""
        if not os.path.isfile(self.path):
            raise NoProgram(f"there is no program {self.path}")

    def run(
        self, words, folder, text=b"", seconds=SECONDS, output=None, error=None, **environment
    ):
        """Runs the program in the directory to its end, with the text as its standard input. If files
        are given, the outputs go there."""
        self.require()
        with memory_file(text) as input, memory_file() as out, memory_file() as err:
            how = {"stdin": input, "stdout": output or out, "stderr": error or err, "cwd": folder}
            # Signals that Python ignores remain ignored. So `write` returns an error when a file
            # gets too large.
            how |= {"env": {**os.environ, **environment}, "restore_signals": False}
            status = wait_for(subprocess.Popen([self.path, *words], **how), seconds)
            return Ending(status, all_bytes(out), all_bytes(err))

    def run_by_shell(self, words, folder, text=b"", before="", after=""):
        """Runs the program in a shell, after a command and with redirections."""
        script = f'{before} exec "$0" "$@" {after}'
        return Program("sh").run(["-c", script, self.path, *words], folder, text)


class Repeated:
    """A run of a program on some standard input that is made again and again, each time with other
    variables or files. A library before `main` makes each run in a child (repeated.c), which takes a
    fraction of the time of a new process."""

    def __init__(self, program, words, folder, text, *libraries, **environment):
        program.require()
        self.files = [memory_file(text), memory_file(), memory_file()]
        requests, self.requests = os.pipe()
        self.statuses, statuses = os.pipe()
        variables = {"LD_PRELOAD": " ".join(libraries), "REPEATED": f"{requests} {statuses}"}
        how = dict(zip(("stdin", "stdout", "stderr"), self.files), cwd=folder, restore_signals=False)
        how |= {"pass_fds": (requests, statuses), "start_new_session": True}
        how |= {"env": {**os.environ, **environment, **variables}}
        self.process = subprocess.Popen([program.path, *words], **how)
        os.close(requests)
        os.close(statuses)

    def __enter__(self):
        return self

    def __exit__(self, *_):
        self.close()

    def close(self):
        os.close(self.requests)
        os.close(self.statuses)
        self.process.wait()
        for file in self.files:
            file.close()

    def run(self, seconds=SECONDS, **environment):
        """How a run with more variables ends."""
        request = b"".join(b"%b=%b\0" % (name.encode(), value.encode()) for name, value in environment.items())
        input, out, err = self.files
        input.seek(0)
        for file in (out, err):
            file.seek(0)
            file.truncate()
        os.write(self.requests, struct.pack("I", len(request)) + request)
        status = within(seconds, lambda: os.read(self.statuses, 4))
        if status is None:
            os.killpg(self.process.pid, signal.SIGKILL)
            return Ending(None, all_bytes(out), all_bytes(err))
        code = os.waitstatus_to_exitcode(struct.unpack("i", status)[0])
        return Ending(code, all_bytes(out), all_bytes(err))


def memory_file(text=b""):
    """A file in memory with this text, to be read from its start."""
    file = open(os.memfd_create("run"), "wb+", buffering=0)
    if text:
        file.write(text)
        file.seek(0)
    return file


def all_bytes(file):
    return os.pread(file.fileno(), os.fstat(file.fileno()).st_size, 0)


def within(seconds, call):
    """What a call returns, or `None` if it takes longer."""
    signal.signal(signal.SIGALRM, stop_waiting)
    signal.setitimer(signal.ITIMER_REAL, seconds)
    try:
        return call()
    except OutOfTime:
        return None
    finally:
        signal.setitimer(signal.ITIMER_REAL, 0)


def wait_for(program, seconds):
    """The exit status of the program, or `None` if it had to be killed."""
    status = within(seconds, program.wait)
    if status is None:
        program.kill()
        program.wait()
    return status


def compiled(name, folder):
    """Compiles a C file of this directory into a library in another one. Returns its path."""
    library = Path(folder) / f"{name}.so"
    source = Path(__file__).with_name(f"{name}.c")
    compiler = ["cc", "-O2", "-Wall", "-shared", "-fPIC", "-o", library, source]
    subprocess.run(compiler, check=True)
    return str(library)

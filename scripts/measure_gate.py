#!/usr/bin/env python3
"""Runs the gate and measures it: measure_gate.py [--top FOLDER] [--table FILE] [--print] [WORD..]

Runs `rt ci` with these arguments, as `--anew`, at the top of the repository, or of the copy that is
FOLDER, and follows the processes that it starts. Its output passes through, and the status is its own. A failure of the measuring
changes neither; it is reported on standard error.

--table writes to FILE, in Markdown, the CPU and wall-clock time of each step of each crate, the sums
by crate, and those of the whole, with the machine and its load. --print prints the sums by crate, a
line for each, before the last line of `rt ci`.
"""

import argparse
import contextlib
import os
import select
import signal
import subprocess
import sys
import time
import traceback
from pathlib import Path

from gate_processes import RAN, Meter
from gate_table import Machine, Table

TOP = Path(__file__).resolve().parent.parent
# Seconds between two looks at the processes.
INTERVAL = 0.2


def write_all(text):
    """Writes to the standard output, and returns whether it could be written."""
    try:
        while text:
            text = text[os.write(1, text) :]
    except OSError:
        return False
    return True


def guarded(call, *given):
    """Calls a measuring function, and reports its exception: that must not end the gate."""
    try:
        return call(*given)
    except Exception:
        print("measure_gate.py: nothing more is measured:", file=sys.stderr)
        traceback.print_exc()
        return None


class Gate:
    """`rt ci`, its output, and the meter that follows it."""

    def __init__(self, words, top, holds_last):
        self.meter = self.usage = None
        self.next_look = 0.0
        self.holds_last, self.last, self.is_read = holds_last, b"", True
        self.run = subprocess.Popen(["rt", "ci", *words], cwd=top, stdout=subprocess.PIPE)

    def measure(self, printed):
        """Looks at the processes if it is time, unless an earlier look failed."""
        if self.meter and (RAN.search(printed) or time.monotonic() >= self.next_look):
            self.next_look = time.monotonic() + INTERVAL
            self.meter = guarded(self.meter.look, printed)

    def pass_on(self, text):
        """Writes the output, but for the last line where that is held back."""
        if self.holds_last:
            text = self.last + text
            at = text.rfind(b"\n", 0, -1) + 1
            text, self.last = text[:at], text[at:]
        if self.is_read and not write_all(text):
            # As if nobody read what `rt ci` itself writes.
            self.is_read = False
            self.run.stdout.close()

    def has_ended(self):
        """Whether `rt ci` has ended. It is not waited for yet."""
        return os.waitid(os.P_PID, self.run.pid, os.WEXITED | os.WNOHANG | os.WNOWAIT) is not None

    def follow(self):
        """Passes on the output of `rt ci` until it has ended, measures it, and returns its status."""
        is_open, ended = True, False
        while True:
            ready = []
            if is_open and self.is_read:
                ready = select.select([self.run.stdout], [], [], 0 if ended else INTERVAL)[0]
            elif not ended:
                time.sleep(INTERVAL)
            text = os.read(self.run.stdout.fileno(), 1 << 16) if ready else b""
            is_open = is_open and not (ready and not text)
            if text:
                self.pass_on(text)
            elif ended:
                break
            self.measure(text)
            ended = self.has_ended()
        self.next_look = 0.0
        self.measure(b"")
        _, status, self.usage = os.wait4(self.run.pid, 0)
        code = -os.WTERMSIG(status) if os.WIFSIGNALED(status) else os.WEXITSTATUS(status)
        self.run.returncode = code
        return code


def end_as(code):
    """Ends as the gate did, by the same signal, if any."""
    if code < 0:
        # (that of SIGKILL cannot be set)
        with contextlib.suppress(OSError):
            signal.signal(-code, signal.SIG_DFL)
        os.kill(os.getpid(), -code)
    return code


def report(gate, machine, words):
    """Writes the table and prints the sums by crate."""
    table = Table(gate.meter, gate.usage, machine, words.top)
    if words.table:
        Path(words.table).parent.mkdir(parents=True, exist_ok=True)
        Path(words.table).write_text(table.whole(), encoding="utf-8")
    if words.print:
        write_all(table.short().encode())


def parsed():
    """The options of this script, and the arguments of `rt ci`."""
    layout = argparse.RawDescriptionHelpFormatter
    words = argparse.ArgumentParser(description=__doc__, formatter_class=layout, allow_abbrev=False)
    words.add_argument("--top", metavar="FOLDER", type=Path, default=TOP)
    words.add_argument("--table", metavar="FILE")
    words.add_argument("--print", action="store_true")
    return words.parse_known_args()


def main():
    words, of_gate = parsed()
    # A terminal sends an interrupt to `rt ci` too, which then ends.
    signal.signal(signal.SIGINT, lambda *_: None)
    machine = guarded(Machine)
    try:
        gate = Gate(of_gate, words.top, words.print)
    except OSError as error:
        print(f"measure_gate.py: rt does not start: {error}", file=sys.stderr)
        return 127
    for number in (signal.SIGTERM, signal.SIGHUP):
        signal.signal(number, lambda number, _: os.kill(gate.run.pid, number))
    gate.meter = guarded(Meter, gate.run.pid, words.top)
    code = gate.follow()
    if gate.meter and machine:
        guarded(report, gate, machine, words)
    write_all(gate.last)
    return end_as(code)


if __name__ == "__main__":
    sys.exit(main())

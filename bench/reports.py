"""The common parts of the measuring scripts: how they read their arguments and print their results."""

import contextlib
import os

from runs import MB

GROWTH_AIM = 1.15


def numbers(text):
    """The numbers in a word such as 1000,20000."""
    return [int(word) for word in text.split(",")] if text else []


@contextlib.contextmanager
def load_shown():
    """Prints the load of the machine before and after the measurements."""
    print(f"load before: {os.getloadavg()[0]:.2f} on {os.cpu_count()} processors")
    yield
    print(f"load after: {os.getloadavg()[0]:.2f}")


def print_runs(figures, before):
    """Prints the figures of each program, and how its CPU time grew since the size before."""
    for name, (seconds, processor, memory) in figures.items():
        growth = f" x{processor / before[name][1]:.2f}" if name in before else ""
        print(
            f"  {name:<22} {seconds:7.3f} s | processor {processor:7.3f} s{growth}"
            f" | memory {memory / MB:7.1f} MB"
        )


def missed_beside_ninja(where, time, memory, time_aim, memory_aim):
    """The aims that a run missed, as ratios to Ninja's time and memory."""
    figures = ("time", time, time_aim), ("memory", memory, memory_aim)
    return [
        f"{where}: {ratio:.2f} of Ninja's {what}, aim {aim}"
        for what, ratio, aim in figures
        if ratio > aim
    ]


def missed_growth(where, growth, few, many):
    """The missed aim, if the time grew by more than the manifest did."""
    aim = GROWTH_AIM * many / few
    if growth <= aim:
        return []
    return [f"{where}: {growth:.2f} of the time for {many / few:.0f} times N, aim {aim:.2f}"]


def print_missed(missed):
    print("aims missed:" if missed else "no aim was missed")
    for line in missed:
        print(f"  {line}")

"""The common parts of sweeps. A sweep tries one thing on many cases, several at once."""

import collections
import multiprocessing

from lib.tools import PROGRAMS

# The most wrong cases that a sweep prints.
MOST_PRINTED = 40


class Sweep:
    """The cases that a sweep tried, by kind, and those that are wrong."""

    def __init__(self, name, program=None):
        self.name = f"{name}, {program}" if program else name
        self.counts, self.wrong = collections.Counter(), []

    def take(self, counts, wrong):
        self.counts.update(counts)
        self.wrong += wrong

    def wants(self, *kinds):
        """It is wrong if one of these kinds never occurred."""
        self.wrong += [f"no {kind}" for kind in kinds if not self.counts[kind]]

    def in_parallel(self, jobs, function, tasks):
        """Takes the counts and the wrong cases that the function returns for each task."""
        with multiprocessing.get_context("fork").Pool(jobs) as pool:
            for counts, wrong in pool.imap(function, list(tasks)):
                self.take(counts, wrong)

    def problems(self):
        """Prints how much was tried, and returns the problems. A sweep that tried nothing shows
        nothing."""
        counts = ", ".join(f"{count:,} {what}" for what, count in self.counts.items())
        print(f"{self.name}: {counts or 'nothing was tried'}", flush=True)
        more = len(self.wrong) - MOST_PRINTED
        wrong = [f"{self.name}: {problem}" for problem in self.wrong[:MOST_PRINTED]]
        wrong += [f"{self.name}: {more} more are wrong"] if more > 0 else []
        return wrong if self.counts.total() else [*wrong, f"{self.name}: nothing was tried"]


def lacks_runs(name, runs):
    """The tools and options of the program with the given name that none of the runs has."""
    return [f"no run of {lacking}" for lacking in PROGRAMS[name].lacking(runs)]

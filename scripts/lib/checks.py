"""A registry of checks, and how they are run.

A check is a function under `@check`. It yields a text for each thing that is wrong, or raises. Its
parameters are named after their arguments: those of the main, and `folder`, an empty directory of its
own. A main runs the checks that take no more than it supplies. A check is skipped, and counted, if a
program that it needs is not installed, or if it raises `Skipped`.
"""

import argparse
import functools
import importlib
import inspect
import multiprocessing
import os
import shutil
import tempfile
import traceback
from pathlib import Path

from lib.programs import NoProgram

CHECKS = []


class Skipped(Exception):
    """Why a check cannot be made here."""


class Check:
    """A check: its name, the programs that it needs, and whether it has to run alone: because it
    measures time, or uses many processes itself."""

    def __init__(self, function, needs, alone):
        self.function, self.needs, self.alone = function, needs, alone
        self.name = f"{function.__module__}.{function.__name__}"

    def is_meant(self, words, given):
        """Whether one of the arguments is the name of the check or of a module of it, and all that it
        takes is given."""
        is_named = not words or any(f".{word}." in f".{self.name}." for word in words)
        return is_named and self.parameters() <= {*given, "folder"}

    def parameters(self):
        return set(inspect.signature(self.function).parameters)

    def problems(self, given):
        """The problems, and why the check was skipped, or `None`."""
        try:
            for program in self.needs:
                if not shutil.which(program):
                    raise Skipped(f"there is no {program}")
            with tempfile.TemporaryDirectory() as folder:
                given = {**given, "folder": Path(folder).resolve()}
                found = self.function(**{name: given[name] for name in self.parameters()})
                return list(found or ()), None
        except Skipped as skipped:
            return [], str(skipped)
        except NoProgram as missing:
            return [str(missing)], None
        except (Exception, SystemExit):
            return [traceback.format_exc().rstrip()], None


def check(function=None, *, needs=(), alone=False):
    """Registers a function as a check."""
    if function is None:
        return functools.partial(check, needs=needs, alone=alone)
    CHECKS.append(Check(function, needs, alone))
    return function


def load(*names):
    """Imports modules below scripts/, and of a directory each module in it: their checks count."""
    for name in names:
        folder = Path(__file__).resolve().parents[1] / name
        files = sorted(file.stem for file in folder.glob("[a-z]*.py"))
        for module in [f"{name}.{file}" for file in files] if folder.is_dir() else [name]:
            importlib.import_module(module)


def expect(name, found, wanted):
    """The problem if a value is not the wanted one."""
    if found != wanted:
        yield f"{name}: {short(found)} is not {short(wanted)}"


def short(value):
    text = repr(value)
    return text if len(text) <= 400 else text[:400] + ".."


def problems_at(given, index):
    return CHECKS[index].problems(given)


def results(words, given, jobs):
    """The checks that the arguments name, with the problems that each found: first several at once, and then each
    that has to run alone."""
    meant = [index for index, each in enumerate(CHECKS) if each.is_meant(words, given)]
    together = [index for index in meant if not CHECKS[index].alone]
    with multiprocessing.get_context("fork").Pool(jobs) as pool:
        found = pool.imap(functools.partial(problems_at, given), together)
        yield from ((CHECKS[index], *each) for index, each in zip(together, found))
    for index in meant:
        if CHECKS[index].alone:
            yield CHECKS[index], *CHECKS[index].problems(given)


def run(words, given, jobs):
    """Runs the checks that the arguments name, or all. Prints the problems, and last how many passed,
    failed and were skipped, and why. Returns the exit status: 1 if one failed, or there was none. A
    argument that names no check counts as one that failed."""
    unknown = [word for word in words if not any(each.is_meant([word], given) for each in CHECKS)]
    for word in unknown:
        print(f"{word}: there is no such check")
    passed, failed, skipped = 0, len(unknown), {}
    for each, problems, why in results(words, given, jobs):
        for problem in problems:
            print(f"{each.name}: {problem}", flush=True)
        failed += bool(problems)
        passed += not problems and not why
        if why:
            skipped.setdefault(why, []).append(each.name)
    reasons = "; ".join(f"{why}: {', '.join(names)}" for why, names in skipped.items())
    count = sum(map(len, skipped.values()))
    print(
        f"{passed} checks passed, {failed} failed, {count} skipped" + f" ({reasons})" * bool(count)
    )
    return 1 if failed or not passed + count else 0


def parser_of(description):
    """The arguments that lint, smoke and sweep share."""
    parser = argparse.ArgumentParser(description=description.split("\n")[0])
    parser.add_argument("names", nargs="*", help="names of checks or modules; by default all")
    parser.add_argument("--jobs", type=int, default=os.cpu_count(), help="how many run at once")
    return parser

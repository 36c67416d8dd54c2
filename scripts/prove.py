#!/usr/bin/env python3
"""Proves a crate and those below it, and keeps their verdicts: prove.py CRATE [--jobs N]

Runs `rt all check`, whose output passes through and whose status is its own. The last line of each
crate that is proved remains in bin/verdicts, for `make dist`. A crate that was proved before has no
such line there, so it is checked again, which takes some seconds.
"""

import argparse
import subprocess
import sys

from lib.programs import CRATES
from lib.verdicts import Reader, keep, lacking


def run(command, folder, reader):
    """Runs a command of `rt`, and keeps the verdicts that it prints. Returns its status."""
    with subprocess.Popen(command, cwd=folder, stdout=subprocess.PIPE, text=True) as running:
        for line in running.stdout:
            print(line, end="", flush=True)
            if found := reader.take(line.rstrip("\n")):
                keep(*found)
    return running.returncode


def main():
    words = argparse.ArgumentParser(description=__doc__.split("\n")[0])
    words.add_argument("crate")
    words.add_argument("--jobs", default="1")
    words = words.parse_args()
    status = run(["rt", "all", "check", "--jobs", words.jobs], CRATES / words.crate, Reader())
    for name in lacking(words.crate) if status == 0 else []:
        status = status or run(["rt", "check"], CRATES / name, Reader(name))
    return status


if __name__ == "__main__":
    sys.exit(main())

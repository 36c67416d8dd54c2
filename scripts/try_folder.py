#!/usr/bin/env python3
"""Runs the unproved program on a directory: try_folder.py FOLDER [WORDS]

`rt try` builds the program without any proof, and runs it with WORDS, by default `-t commands`, in a
new directory with a copy of each `*.ninja` file in FOLDER and below it. It has no other files of
FOLDER, such as dyndep files. WORDS is split as a shell does it, so an argument may have quotes; after
an argument `;` comes another question, for which nothing is built again.

`rt try` refuses runs that take more than a minute or write more than 1 MiB. This script then prints
which of the two it was. It ends with the status of `rt try`.
"""

import shlex
import subprocess
import sys
import tempfile
from itertools import groupby
from pathlib import Path

PROGRAM = Path(__file__).resolve().parent.parent / "crates/ninja_explain"
# Parts of the messages with which `rt try` refuses a run, and their meaning.
LIMITS = {
    "did not end within the time limit": "takes more than a minute",
    "the program wrote more than 1048576 bytes": "writes more than 1 MiB",
}
NEXT = ";"


def data(folder):
    """The arguments of `rt try` that pass the files."""
    files = sorted(path for path in folder.rglob("*.ninja") if path.is_file())
    return [word for path in files for word in ("--data", f"{path.relative_to(folder)}={path}")]


def questions(words):
    """The arguments of each question."""
    words = shlex.split(words)
    return [list(it) for is_next, it in groupby(words, NEXT.__eq__) if not is_next]


def write_cases(asked, room):
    """Writes a file for each question, with its arguments beside it, as `rt try --cases` takes them."""
    for number, words in enumerate(asked, 1):
        (room / str(number)).touch()
        (room / f"{number}.args").write_text("".join(f"{word}\n" for word in words))


def run(words):
    """Runs `rt try`, and says which limit it met. Returns its status."""
    command = ["rt", "try", *words]
    with subprocess.Popen(command, cwd=PROGRAM, stderr=subprocess.PIPE, text=True) as run:
        met = set()
        for line in run.stderr:
            sys.stderr.write(line)
            met |= {limit for message, limit in LIMITS.items() if message in line}
    for limit in sorted(met):
        print(f"This run {limit}, which 'rt try' does not allow.")
        print("The program that 'make' proves and builds has no such limit.")
    return run.returncode


def main():
    if len(sys.argv) not in (2, 3):
        raise SystemExit("usage: try_folder.py FOLDER [WORDS]")
    folder = Path(sys.argv[1]).expanduser().resolve()
    asked = questions("".join(sys.argv[2:])) or [["-t", "commands"]]
    handed = data(folder)
    if not handed:
        raise SystemExit(f"there is no *.ninja file in {folder}")
    if len(asked) == 1:
        return run([*handed, "--", *asked[0]])
    with tempfile.TemporaryDirectory() as room:
        write_cases(asked, Path(room))
        return run([*handed, "--cases", room])


if __name__ == "__main__":
    sys.exit(main())

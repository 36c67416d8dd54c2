#!/usr/bin/env python3
"""Explains a C project of CMake to clang-tidy: try.py [PROGRAM]

PROGRAM is ninja-explain, by default bin/ninja-explain. It needs cmake, ninja, cc, jq and clang-tidy.

CMake writes a manifest for the project of this directory, in a temporary build directory. From it
`PROGRAM -t compdb` writes a compilation database. The database has to be an array as jq sees it, the
same as `ninja -t compdb` writes, and to have the commands that CMake itself writes for the sources.
Then clang-tidy reads it: it has to find the project's header, for which it knows only the command,
and has to fail if the command lacks the include path.

Prints the problems, or that all is well. The status is 1 if anything is wrong.
"""

import json
import os
import shlex
import shutil
import subprocess
import sys
import tempfile
from pathlib import Path

PROJECT = Path(__file__).resolve().parent
BUILT = PROJECT.parent.parent / "bin/ninja-explain"
PROGRAM = os.path.abspath(sys.argv[1]) if len(sys.argv) > 1 else str(BUILT)
NEEDED = ["cmake", "ninja", "cc", "jq", "clang-tidy"]
SOURCES = {str(PROJECT / "src/main.c"), str(PROJECT / "src/words.c")}
INCLUDE = f"-I{PROJECT / 'include'}"
IS_DATABASE = """\
type == "array" and length > 0
and all(.[]; keys == ["command", "directory", "file", "output"] and all(.[]; type == "string"))
"""


def output_of(words, folder):
    """The output of a program, which has to succeed."""
    ran = subprocess.run(words, cwd=folder, capture_output=True, text=True)
    if ran.returncode:
        said = ran.stdout + ran.stderr
        raise SystemExit(f"{words[0]} ended with status {ran.returncode}:\n{said}")
    return ran.stdout


def configure(build):
    generate = ["cmake", "-G", "Ninja", "-DCMAKE_EXPORT_COMPILE_COMMANDS=ON"]
    output_of([*generate, "-S", str(PROJECT), "-B", str(build)], build)


def without_phony(entries, build):
    """Some versions of Ninja write phony edges too, with an empty command."""
    phony = set(output_of(["ninja", "-t", "targets", "rule", "phony"], build).splitlines())
    return [entry for entry in entries if entry["output"] not in phony]


def without_depfile(command):
    """The words of a command, without those that make the compiler write a depfile. CMake leaves
    them out of its own database. The output and the source may come in any order."""
    words, kept = iter(shlex.split(command)), []
    for word in words:
        if word in ("-MT", "-MF"):
            next(words)
        elif word != "-MD":
            kept.append(word)
    return sorted(kept)


def commands_of_sources(entries):
    return {
        os.path.join(entry["directory"], entry["file"]): without_depfile(entry["command"])
        for entry in entries
        if entry["file"].endswith(".c")
    }


def finds_header(entries, folder):
    """Whether clang-tidy can read the sources by a database of the entries, and its output."""
    (folder / "compile_commands.json").write_text(json.dumps(entries))
    words = ["clang-tidy", "--quiet", "--checks=-*,bugprone-*", "-p", str(folder)]
    ran = subprocess.run([*words, *sorted(SOURCES)], cwd=folder, capture_output=True, text=True)
    return ran.returncode == 0, ran.stdout + ran.stderr


def check(build, folder):
    """The problems of the database of the build directory."""
    text = output_of([PROGRAM, "-t", "compdb", "--directory", str(build)], build)
    written = folder / "written.json"
    written.write_text(text)
    if output_of(["jq", IS_DATABASE, str(written)], build) != "true\n":
        return ["jq sees no compilation database"]
    wrong, entries = [], json.loads(text)
    if entries != without_phony(json.loads(output_of(["ninja", "-t", "compdb"], build)), build):
        wrong.append("Ninja writes another database")
    commands = commands_of_sources(entries)
    if commands.keys() != SOURCES:
        wrong.append(f"the sources are {sorted(commands)}")
    if commands != commands_of_sources(json.loads((build / "compile_commands.json").read_text())):
        wrong.append("CMake writes other commands")
    found, said = finds_header(entries, folder)
    if not found:
        wrong.append(f"clang-tidy cannot read the sources:\n{said}")
    bare = [{**entry, "command": entry["command"].replace(INCLUDE, "")} for entry in entries]
    found, said = finds_header(bare, folder)
    if found or "'text/words.h' file not found" not in said:
        wrong.append(f"clang-tidy finds the header without its path:\n{said}")
    return wrong


def main():
    missing = [word for word in (*NEEDED, PROGRAM) if not shutil.which(word)]
    if missing:
        print(f"try.py needs {', '.join(NEEDED)} and the program; missing: {', '.join(missing)}")
        return 1
    with tempfile.TemporaryDirectory() as room:
        build, folder = Path(os.path.realpath(room)) / "build", Path(room) / "database"
        build.mkdir()
        folder.mkdir()
        configure(build)
        wrong = check(build, folder)
    for line in wrong or [f"clang-tidy reads {len(SOURCES)} sources by what {PROGRAM} writes"]:
        print(line)
    return 1 if wrong else 0


if __name__ == "__main__":
    sys.exit(main())

"""Runs ninja-graph's `affected --since` on a manifest that a script makes, before and after changes of
its input.
"""

import os
import subprocess
import sys

from lib.checks import check, expect
from lib.programs import EXAMPLES
from lib.projects import write_files
from smoke.graph import DONE, FAULT, LOOK, USAGE

# Writes a manifest by the lines of its input: a name and the flags of its object.
GENERATOR = """\
import sys

lines = [line.split() for line in open("build.txt") if not line.startswith("#")]
names = [name for name, *_ in lines]
with open("build.ninja", "w") as out:
    out.write("rule cc\\n  command = cc $flags -c $in -o $out\\nrule link\\n  command = cc $in -o $out\\n")
    out.write("rule make\\n  command = python3 make.py\\n  generator = 1\\n")
    for name, *flags in lines:
        out.write(f"build {name}.o: cc {name}.c\\n  flags = {' '.join(flags)}\\n")
    out.write(f"build app: link {' '.join(f'{name}.o' for name in names)}\\n")
    out.write("build build.ninja: make build.txt | make.py\\n")
"""
FIRST = b"main -O2\nwords -O2 -DWORDS\nlines -O2\n"


def make(folder, text):
    write_files(folder, {"make.py": GENERATOR.encode(), "build.txt": text})
    subprocess.run([sys.executable, "make.py"], cwd=folder, check=True)


def since(graph, folder, *words, text=b"build.txt\n"):
    return graph.run(["affected", "--since", "base.keys", *words], folder, text).as_text()


@check
def changes_of_a_generated_manifest(graph, folder):
    make(folder, FIRST)
    keys = graph.run(["keys", "app", "build.ninja"], folder, b"").as_text()
    yield from expect("keys", (keys.status, len(keys.output.splitlines())), (DONE, 5))
    (folder / "base.keys").write_text(keys.output)
    warned = "build.txt: the manifest is made from it\n"
    yield from expect("no change", since(graph, folder), (DONE, "build.ninja\n", ""))
    make(folder, b"# a comment\n" + FIRST)
    yield from expect("a comment", since(graph, folder), (DONE, "build.ninja\n", ""))
    make(folder, FIRST.replace(b"WORDS", b"OTHERS"))
    others = "words.o\napp\nbuild.ninja\n"
    yield from expect("another define", since(graph, folder), (DONE, others, ""))
    ran = since(graph, folder, text=b"lines.c\nbuild.txt\n")
    yield from expect("beside a file", ran, (DONE, "words.o\nlines.o\napp\nbuild.ninja\n", ""))
    make(folder, FIRST + b"more\n")
    yield from expect("one more", since(graph, folder), (DONE, "more.o\napp\nbuild.ninja\n", ""))
    later = (folder / "build.ninja").stat().st_mtime + 10
    os.utime(folder / "build.txt", (later, later))
    ran = since(graph, folder)
    yield from expect("not made again", ran, (LOOK, "more.o\napp\nbuild.ninja\n", warned))


@check
def files_that_have_no_keys(graph, folder):
    project = EXAMPLES / "project"
    old = folder / "base.keys"
    words = ["affected", "--since", str(old)]
    ran = graph.run(words, project, b"main.c\n").as_text()
    yield from expect("no file", ran, (FAULT, "", f"ninja-graph: {old}: there is no such file\n"))
    old.write_text("\nmain.o\n")
    ran = graph.run(words, project, b"main.c\n").as_text()
    yield from expect("a name", ran, (FAULT, "", f"ninja-graph: {old}:2: not a key and an output\n"))
    ran = graph.run(["affected", "--base", "/"], project, b"main.c\n").as_text()
    yield from expect("no keys", ran, (USAGE, "", "ninja-graph: --base requires --since\n"))

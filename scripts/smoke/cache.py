"""Tries the cache of examples/cache on a library and a program that loads it, in two directories."""

import os
import shutil
import subprocess
import sys

from lib.checks import check, expect
from lib.programs import EXAMPLES
from lib.projects import write_files

SCRIPT = EXAMPLES / "cache" / "cache.py"

FILES = {
    "main.c": b'#include "greet.h"\nint main(void) { return greet(); }\n',
    "greet.c": b'#include <stdio.h>\n#include "greet.h"\nint greet(void) { return puts(TEXT) < 0; }\n',
    "greet.h": b'#define TEXT "hello"\nint greet(void);\n',
    "notes.txt": b"none\n",
    # A compiler that can be replaced in place.
    "../cc": b'#!/bin/sh\nexec cc "$@"\n',
}
# The command of the program names its directory, and the program then has that as its RUNPATH.
MANIFEST = """\
rule cc
  command = ../cc -fPIC -MD -MF $out.d -c $in -o $out
  depfile = $out.d
rule so
  command = ../cc -shared -Wl,-soname,libgreet.so $in -o $out
rule link
  command = ../cc @$out.rsp -Wl,--enable-new-dtags,-rpath,FOLDER/lib -o $out
  rspfile = $out.rsp
  rspfile_content = $in
build main.o: cc main.c
build greet.o: cc greet.c || checked
build checked: phony notes.txt
build lib/libgreet.so: so greet.o
build main: link main.o lib/libgreet.so
"""
OUTPUTS = ["main.o", "greet.o", "lib/libgreet.so", "main"]


class Builds:
    """Builds by the cache with one store, in directories beside each other."""

    def __init__(self, graph, folder):
        self.graph, self.folder = graph, folder

    def write(self, name):
        folder = self.folder / name
        folder.mkdir()
        write_files(folder, {**FILES, "build.ninja": MANIFEST.replace("FOLDER", str(folder)).encode()})
        (self.folder / "cc").chmod(0o755)

    def run(self, name, *words):
        """What is done for each output, in the order of the commands."""
        words = [str(self.folder / "store"), str(self.folder / name), "--with-file", "../cc", *words]
        environment = {**os.environ, "NINJA_GRAPH": self.graph.path}
        ran = subprocess.run(
            [sys.executable, str(SCRIPT), *words], env=environment, stdout=subprocess.PIPE, text=True, check=True
        )
        return [line.split(" ", 1)[0] for line in ran.stdout.splitlines()]

    def bytes_of(self, name):
        return [(self.folder / name / output).read_bytes() for output in OUTPUTS]

    def greets(self, name):
        return subprocess.run([self.folder / name / "main"], stdout=subprocess.PIPE, check=True).stdout

    def change(self, path, old, new):
        file = self.folder / path
        file.write_bytes(file.read_bytes().replace(old, new))


@check(needs=["ninja", "cc"])
def two_folders(graph, folder):
    """In a second directory all hit but the program, whose RUNPATH names its own. What changed misses."""
    builds = Builds(graph, folder)
    builds.write("a")
    builds.write("b")
    yield from expect("first", builds.run("a"), ["run", "run", "run", "own"])
    ninja = subprocess.run(["ninja", "-C", folder / "a", "-t", "commands"], stdout=subprocess.PIPE, check=True)
    yield from expect("commands", len(ninja.stdout.splitlines()), len(OUTPUTS))
    yield from expect("second folder", builds.run("b"), ["hit", "hit", "hit", "own"])
    yield from expect("same bytes", builds.bytes_of("a")[:3], builds.bytes_of("b")[:3])
    for name in "a", "b":
        runpath = str(folder / name / "lib").encode()
        yield from expect(f"RUNPATH of {name}", runpath in builds.bytes_of(name)[3], True)
    yield from expect("again", [builds.run(name) for name in "ab"], [["hit"] * 4] * 2)

    builds.change("b/greet.h", b"hello", b"goodbye")
    yield from expect("a changed header", builds.run("b"), ["run", "run", "run", "own"])
    yield from expect("own libraries", [builds.greets(name) for name in "ab"], [b"hello\n", b"goodbye\n"])
    yield from expect("an old header", builds.run("a"), ["hit"] * 4)
    builds.change("b/greet.h", b"goodbye", b"hello")
    yield from expect("the header as it was", builds.run("b"), ["hit"] * 4)

    builds.change("b/notes.txt", b"none", b"some")
    yield from expect("an input of a phony edge", builds.run("b")[1], "run")
    yield from expect("another environment", builds.run("a", "--with", "CPATH=/x"), ["run", "run", "run", "own"])
    builds.change("cc", b"exec cc", b"exec cc -O1")
    yield from expect("another compiler", builds.run("a"), ["run", "run", "run", "own"])
    shutil.rmtree(folder / "store")
    yield from expect("an empty store", builds.run("a"), ["run", "run", "run", "own"])

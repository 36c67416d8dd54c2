"""Small projects, on which the runs of lib/tools.py are made."""

import subprocess
from pathlib import Path

from lib.checks import expect
from lib.programs import DONE, EXAMPLES
from lib.random_builds import OPENING, deps_log
from lib.tools import EXPLAIN, GRAPH, PROGRAMS

MAIN = "build.ninja"


class Project:
    """Files by their names, and for each one the place of a fault in opening it."""

    def __init__(self, files, places):
        self.files = {name: as_bytes(text) for name, text in files.items()}
        self.places = {MAIN: f"{MAIN}:1:1", **places}

    def write_to(self, folder):
        write_files(folder, self.files)

    def input_for(self, words):
        """The standard input of a run with these arguments."""
        return self.files[MAIN] if not words or "--stdin" in words else b""


def as_bytes(text):
    return text.encode() if isinstance(text, str) else text


def write_files(folder, files):
    """Writes files, given as contents by name, as bytes or as text, into a directory."""
    for name, text in files.items():
        path = Path(folder, name)
        path.parent.mkdir(parents=True, exist_ok=True)
        path.write_bytes(as_bytes(text))


DIAMOND = """\
rule mk
  command = mk $out
build a: mk
build b1: mk a
build b2: mk a
build d: mk b1 b2
"""
TWO_SCOPES = """\
x = p
y = 1
rule r
  command = r $x $y
subninja s
build P: r
y = 2
"""
TWO_SCOPES_S = """\
x = c
rule r
  command = s $x $y
build C: r
"""
KINDS = """\
rule cc
  command = cc $in
build o: cc a | dd || z |@ v
  dyndep = dd
"""
KINDS_DD = """\
ninja_dyndep_version = 1
build o | o2: dyndep | extra
"""
RESPONSE = """\
rule l
  command = ld @$out.rsp "$out"
  rspfile = $out.rsp
  rspfile_content = $in_newline
build p: l a b
"""
DESCRIPTION = """\
rule cc
  command = c
  description = CC $out done
"""
VALIDATION = """\
rule mk
  command = mk $out
build t: mk |@ v
build v: mk t
"""
GENERATED = """\
# generated
ninja_required_version = 1.5

include r

build obj: phony || .
build o/a.o: C ../a.c || obj
  FLAGS = -g
  DEP_FILE = o/a.o.d
pool lp
  depth = 2
build app: L o/a.o
  pool = lp
default app"""
GENERATED_R = """\
rule C
  depfile = $DEP_FILE
  deps = gcc
  command = cc $FLAGS -MF $DEP_FILE -c $in -o $out

rule L
  command = cc $in -o $out"""


# A log names headers of both objects; of one the generated header is not declared.
LOGGED = """\
builddir = out
rule cc
  command = cc -c $in -o $out
  deps = gcc
rule gen
  command = gen $out
build gen.h: gen
build a.o: cc a.c
build b.o: cc b.c || gen.h
build app: phony a.o b.o
"""
RECORDS = {"a.o": ["a.c", "a.h", "gen.h"], "b.o": ["./gen.h", "/usr/b.h"], "old.o": ["a.h"]}
LOG = deps_log(RECORDS)
LOG_OF_NINJA = "out/.ninja_deps"
# The depfiles of edges without `deps`, one of which waits for a generated header.
DEPFILES = """\
builddir = out
rule cc
  command = cc -c $in -o $out
  depfile = $out.d
rule gen
  command = gen $out
build gen.h: gen
build a.o: cc a.c || gen.h
build b.o: cc b.c
build all: phony a.o b.o
"""
DEPFILE_A = """\
a.o: a.c a.h \\
  gen.h
"""
DEPFILE_B = "./b.o: b.c ./b.h\n"

# An input that is the single byte FF.
NOT_UTF8 = as_bytes(RESPONSE).replace(b" a b", b" \xff b")


def files_below(folder):
    """The contents of the Ninja files in a directory and below, by name."""
    files = sorted(folder.rglob("*.ninja"))
    return {str(file.relative_to(folder)): file.read_bytes() for file in files}


def with_two_byte_ends(text):
    """The text with CR LF instead of LF."""
    return text.replace("\n", "\r\n")


PROJECTS = {
    "diamond": Project({MAIN: DIAMOND}, {}),
    "two scopes": Project({MAIN: TWO_SCOPES, "s": TWO_SCOPES_S}, {"s": f"{MAIN}:5:10"}),
    "dyndep file": Project({MAIN: KINDS, "dd": KINDS_DD}, {"dd": f"{MAIN}:3:1"}),
    "response file": Project({MAIN: RESPONSE}, {}),
    "description": Project({MAIN: DESCRIPTION}, {}),
    "validation": Project({MAIN: VALIDATION}, {}),
    "generated": Project(
        {MAIN: with_two_byte_ends(GENERATED), "r": with_two_byte_ends(GENERATED_R)},
        {"r": f"{MAIN}:4:9"},
    ),
    "example": Project(
        files_below(EXAMPLES / "project"),
        {"rules.ninja": f"{MAIN}:7:9", "text/build.ninja": f"{MAIN}:8:10"},
    ),
    "not UTF-8": Project({MAIN: NOT_UTF8}, {}),
    "cycle": Project({MAIN: "rule c\n  command = c\nbuild a: c b\nbuild b: c a\n"}, {}),
}
TESTED = """\
rule cc
  command = cc $in
build app: cc a.c
build other: cc b.c
"""
TESTS = """\
{"kind": "ctestInfo", "version": {"major": 1, "minor": 0}, "tests": [
  {"name": "app", "command": ["app"], "properties": [{"name": "FIXTURES_SETUP", "value": ["db"]}]},
  {"name": "user", "command": ["other"], "properties": [{"name": "FIXTURES_REQUIRED", "value": ["db"]}]},
  {"name": "other", "command": ["other"]},
  {"name": "never built"}
]}
"""
# For ninja-graph alone: logs that are cut off, make a cycle, and have a version that is not read.
OTHER_LOGS = {
    "cut": LOG[:-4],
    "cycle": deps_log({"a.o": ["app"]}),
    "old": OPENING[:-4] + b"\3\0\0\0",
}
LOGGED_PROJECTS = {
    "depfile": Project({MAIN: DEPFILES, "a.o.d": DEPFILE_A, "b.o.d": DEPFILE_B}, {}),
    "logged": Project({MAIN: LOGGED, LOG_OF_NINJA: LOG}, {}),
    "other logs": Project({MAIN: LOGGED, **OTHER_LOGS}, {}),
    "tests": Project({MAIN: TESTED, "tests.json": TESTS, "none.json": "{}\n"}, {}),
}
EVERY_PROJECT = {**PROJECTS, **LOGGED_PROJECTS}
RUNS = PROGRAMS[EXPLAIN].runs


def input_of(run, projects=EVERY_PROJECT):
    """The standard input of a run of lib/tools.py."""
    return run.changed or projects[run.project].input_for(run.words)


def runs_of(table):
    """The runs of a table such as `RUNS`, each as the name of a project and arguments."""
    return [(name, line.split()) for name, lines in table.items() for line in lines]


# An answer of each program on the diamond: the arguments, the standard input, and the output.
ANSWERS = {
    EXPLAIN: ("-t targets all", b"", b"a: mk\nb1: mk\nb2: mk\nd: mk\n"),
    GRAPH: ("affected", b"a\n", b"b1\nb2\nd\n"),
}


def answer_differs(name, program, folder):
    """The problem if the program with the given name does not answer on a project. A comparison of runs of
    a program with one another would not see that it does nothing."""
    PROJECTS["diamond"].write_to(folder)
    words, text, output = ANSWERS[name]
    yield from expect(f"{name} {words}", program.run(words.split(), folder, text), (DONE, output, b""))


def targets_differ(program, folder):
    """The same for ninja-explain."""
    return answer_differs(EXPLAIN, program, folder)


def write_cmake(folder, sources=EXAMPLES / "cmake"):
    """Writes the build files of CMake for a project, by default examples/cmake, into a directory."""
    words = ["cmake", "-G", "Ninja", "-S", str(sources), "-B", str(folder)]
    subprocess.run(words, stdout=subprocess.DEVNULL, check=True)

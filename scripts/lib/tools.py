"""The tools of ninja-explain and the subcommands of ninja-graph, and runs of them.

The checks and sweeps of both programs are made from this list. `make lint` compares it with the
sources (lint/tools.py): a tool, a subcommand or an option that has no row and no run here fails.
"""

from dataclasses import dataclass
from pathlib import Path
from typing import NamedTuple

EXPLAIN, GRAPH = "ninja-explain", "ninja-graph"
# A list of tests, as CTest writes it.
LIST = Path(__file__).with_name("tests.json")
# A build directory of Meson, as far as its lists.
MESON = Path(__file__).with_name("meson_lists")
# What begins the changed paths of a run, which its standard input has as lines.
CHANGED = "<"
MARK = rb"mark v?(?:start|\d+(?:\.\d+)*)\n"
NOTHING, ANYTHING, LINES = rb"", rb".*", rb"(?:[^\n]+\n)+"
NOT_LOOKED_UP = rb"(?:[^\n]+: cannot look up source '[^\n]*'\n)+"
# With these options standard error may end in caveats: lines about a deps log, a depfile, the time of an output
# and a dyndep file.
JOINING = {"--deps", "--deps-log-file"}
DEPFILE_FAULT = (
    rb"it cannot be read|expected ':' in depfile|inputs may not also have inputs|no outputs declared"
    rb"|depfile mentions '[^\n]*' as an output, but no such output was declared"
)
CAVEATS = (
    rb"(?:[^\n]+: (?:\d+ of its \d+ bytes were read|not a deps log|deps log of version \d+"
    rb"|%b|its time cannot be read|a dyndep file, may change)\n)+" % DEPFILE_FAULT
)


class Run(NamedTuple):
    """A run: the name of a project, the arguments, and the changed paths on standard input."""

    project: str
    words: list
    changed: bytes

    def __str__(self):
        paths = [CHANGED, *self.changed.decode().split("\n")[:-1]] if self.changed else []
        words = (word if len(word) < 40 else f"{word[:40]}.." for word in [*self.words, *paths][:12])
        return f"{self.project}, {' '.join(words)}"


def run_of(project, line):
    """A run by its line, whose arguments are split at spaces."""
    words = line.split()
    at = words.index(CHANGED) if CHANGED in words else len(words)
    return Run(project, words[:at], "".join(f"{path}\n" for path in words[at + 1 :]).encode())


@dataclass(frozen=True)
class Tool:
    """A tool or a subcommand.

    `options` are those that not all of them have, each with the name of its value, or `None`. `words`
    are arguments that it takes. `looks` has patterns of standard output and standard error, any pair
    of which it may have with status 3; without them it never ends so.
    """

    options: dict
    words: tuple = ()
    looks: tuple = ()


@dataclass(frozen=True)
class Rows:
    """What a program has: `every` option that all its tools have, the tools by their names, and runs.

    `runs` are lines of arguments by the project on which they run; some are refused. `chain` are lines
    for a chain of edges `e0`, `e1` and so on, of which each needs the one before it, and `nested` for 32
    files of which each includes the next one (smoke/system.py).
    """

    every: dict
    tools: dict
    runs: dict
    chain: tuple
    nested: tuple

    def runs_on(self, *projects):
        """The runs on these projects, or on all."""
        names = projects or self.runs
        return [run_of(name, line) for name in names for line in self.runs[name]]

    def looks_of(self, words):
        """The patterns of both outputs with which a run of these arguments may end with status 3."""
        tool = self.tools.get(self.tool_of(words))
        looks = tool.looks if tool else ()
        if tool and JOINING & {word.partition("=")[0] for word in words}:
            looks += tuple((output, error + CAVEATS) for output, error in [(ANYTHING, NOTHING), *looks])
        return looks

    def tool_of(self, words):
        """The name of the tool that arguments name; `None` if they name none."""
        named = words[words.index("-t") + 1 :] if "-t" in words else words
        return named[0] if named and named[0] in self.tools else None

    def lacking(self, runs):
        """Which tools, and which options, none of these runs has."""
        found, every = {}, set()
        for run in runs:
            options = {word.partition("=")[0] for word in run.words if word.startswith("-")}
            found.setdefault(self.tool_of(run.words), set()).update(options)
            every |= options
        for name, tool in self.tools.items():
            if name not in found:
                yield name
            own = found.get(name, ())
            yield from (f"{name} {option}" for option in tool.options if option not in own)
        yield from (option for option in self.every if option not in every)


# ---- ninja-explain

EXPLAIN_TOOLS = {
    "commands": Tool(
        {"-s": None, "--take": "N", "--resume": "MARK", "--validations": None},
        looks=((ANYTHING, MARK),),
    ),
    "inputs": Tool(
        dict.fromkeys(["--validations", "--dependency-order", "--no-shell-escape", "--print0"])
    ),
    "targets": Tool({}, ("all",)),
    "query": Tool({}, ("file",)),
    "rules": Tool({"-d": None}),
    "compdb": Tool({"-x": None, "--directory": "DIR"}),
}
EXPLAIN_RUNS = {
    "diamond": [
        "",
        "--stdin -f build.ninja -t targets all",
        "-t commands d",
        "-t commands --take 0 d",
        "-t commands --take 2 d",
        "-t commands --take 9 d",
        "-t commands --resume 0.0 d",
        "-t commands --resume 0.1.0 --take 1 d",
        "-t commands --resume 0.2 d",
        "-t commands -s d b1",
        "-t commands nothing",
        "-t commands d^",
        "-t inputs d",
        "-t inputs --dependency-order d",
        "-t inputs --no-shell-escape d",
        "-t inputs --print0 d",
        "-t inputs --dependency-order --no-shell-escape --print0",
        "-t targets",
        "-t targets depth 0",
        "-t targets depth 2",
        "-t targets all",
        "-t targets rule mk",
        "-t targets rule",
        "-t query d a b1^",
        "-t rules",
        "-t compdb --directory /w",
        "-t compdb mk",
        "--help",
        "-t graph",
        "-t rules -s",
        "-t query",
        "-t commands --take x",
        "-t commands --resume 00",
        "-f nothing -t commands",
    ],
    "two scopes": ["-t commands", "-t inputs", "-t targets all", "-t rules", "-t query C P"],
    "dyndep file": [
        "--dyndep -t commands",
        "--dyndep -t commands --take 0 o2",
        "--dyndep -t inputs o",
        "--dyndep -t inputs --dependency-order --print0 o",
        "--dyndep -t targets depth 0",
        "--dyndep -t targets all",
        "--dyndep -t targets rule",
        "--dyndep -t query o extra",
        "--dyndep -t rules -d",
        "--dyndep -t compdb",
        "-t query extra",
    ],
    "response file": [
        "-t compdb -x --directory /w",
        "-t compdb -x l",
        "-t compdb",
        "-t commands",
        "-t inputs --no-shell-escape p",
    ],
    "description": ["-t rules -d", "-t rules", "-t commands", "-t compdb"],
    "validation": [
        "-t commands t",
        "-t commands --validations t",
        "-t commands --validations --take 0 t",
        "-t commands --validations --take 1 t",
        "-t commands --validations --resume v1.0 t",
        "-t commands --validations --resume v2 t",
        "-t commands --validations --resume 0 t",
        "-t inputs t",
        "-t inputs --validations t",
        "-t inputs --validations --dependency-order --no-shell-escape --print0 t",
        "-t query t v",
        "-t targets depth 0",
    ],
    "generated": [
        "-t commands",
        "-t commands --take 1 app",
        "-t inputs",
        "-t targets",
        "-t targets rule",
        "-t query o/a.o obj",
        "-t rules -d",
        "-t compdb C L",
    ],
    "example": [
        "-t commands --take 2",
        "-t commands --resume 0.0 test",
        "-t commands --validations --take 2",
        "-t commands -s main.c^",
        "-t commands nothing",
        "-t inputs test",
        "-t inputs --dependency-order --no-shell-escape --print0",
        "-t targets depth 0",
        "-t targets all",
        "-t targets rule cc",
        "-t targets rule",
        "-t query out/libtext.a main.c^",
        "-t rules -d",
        "-t compdb -x cc link",
    ],
    "not UTF-8": ["-t compdb", "-t compdb -x", "-t commands"],
    "cycle": ["-t commands", "-t targets all"],
}
EXPLAIN_CHAIN = (
    "",
    "-t commands",
    "-t commands --take 6000",
    "-t inputs",
    "-t targets all",
    "-t query e7",
    "-t rules -d",
    "-t compdb",
)

EXPLAIN_NESTED = (
    "--stdin -t commands",
    "-f build.ninja -t commands --validations",
    "-t commands --take 1",
    "-t commands --resume 0",
    "-t commands -s a b",
    "-t inputs --dependency-order --no-shell-escape --print0 --validations",
    "-t targets depth 0",
    "-t targets all",
    "-t query a b c d v",
    "-t rules -d",
    "-t compdb -x --directory /w",
)

# ---- ninja-graph

GRAPH_TOOLS = {
    "affected": Tool(
        {
            "--source-dir": "DIR",
            "-z": None,
            "--ignore": "GLOB",
            "--rule": "NAME",
            "--prefix": "TEXT",
            "--no-phony": None,
            "--ignore-unknown": None,
            "--allow-empty": None,
            "--since": "FILE",
            "--base": "DIR",
        },
        looks=((ANYTHING, LINES),),
    ),
    "audit": Tool(
        {"--all": None, "--only": "KIND", "--except": "KIND", "--json": None, "--list": None},
        ("--only=missing-source",),
        looks=((LINES, NOTHING), (ANYTHING, NOT_LOOKED_UP)),
    ),
    "draw": Tool({"--affected": None, "--fold": None, "--limit": "N", "--inputs": "K"}),
    "json": Tool({}),
    "keys": Tool(
        {
            "--base": "DIR",
            "--with": "TEXT",
            "--with-file": "FILE",
            "--take": "N",
            "--resume": "MARK",
            "--all": None,
            "--json": None,
        },
        looks=((ANYTHING, MARK),),
    ),
    "stale": Tool({"--why": None, "--json": None, "--no-manifest": None}, looks=((LINES, ANYTHING), (NOTHING, LINES))),
    "tests": Tool(
        {
            "--ctest": "FILE",
            "--meson": "DIR",
            "--source-dir": "DIR",
            "-z": None,
            "--ignore": "GLOB",
            "--ignore-unknown": None,
            "--allow-empty": None,
            "--since": "FILE",
            "--base": "DIR",
            "--format": "FORMAT",
            "--why": None,
            "--json": None,
            "--unnamed": "skip",
        },
        (f"--ctest={LIST}",),
        looks=((ANYTHING, LINES),),
    ),
    "times": Tool({"--top": "N", "--by-rule": None, "--dead": None, "--json": None}, looks=((LINES, CAVEATS),)),
    "why": Tool({"--validations": None, "--no-order-only": None}, ("test", "text/words.c"), ((NOTHING, NOTHING),)),
}
GRAPH_RUNS = {
    "diamond": [
        "affected < a",
        "affected --no-phony --prefix b < ./a",
        "affected --rule mk < nothing b1 build.ninja",
        "affected --ignore build.ninja --ignore noth?ng < nothing b1 build.ninja",
        "affected --ignore [a < a",
        "affected -z --ignore-unknown < a",
        "affected --rule nothing < a",
        "affected",
        "affected --allow-empty",
        "affected --since nothing < a",
        "affected --base /w < a",
        "audit --all",
        "audit --only unused-output --except repeated-command",
        "draw d",
        "draw --affected --limit 3 a",
        "json -C .",
        "keys",
        "keys --take 0",
        "keys --take 2 d",
        "keys --resume 0.1.0 --take 1 d",
        "keys --resume 0.2 d",
        "keys --base /w --with gcc a b1^",
        "keys --with-file build.ninja --take 1 d",
        "keys --with-file nothing d",
        "keys --all",
        "keys --all d",
        "keys --all --json --base /w",
        "keys d^",
        "stale",
        "stale --why --no-manifest b1 a^",
        "stale --json b1",
        "stale --json --why",
        "stale nothing",
        "times",
        "times --top 2 --json b1 a^",
        "times --by-rule",
    "times --dead",
        "times --by-rule --json b1 a^",
        "times --by-rule --top 2",
        "times --dead",
        "times --dead --json",
        "times --dead --by-rule",
        "times nothing",
        "why d a",
        "why a d",
        "why d nothing",
        "why --no-order-only d a",
        "",
        "--version",
        "why --help",
        "nothing",
        "why d",
        "keys --take x",
        "keys --resume 00",
        "keys --resume 9",
        "keys --base w",
        "audit --only nothing",
        "json -f nothing",
        "json -C nothing",
    ],
    "two scopes": ["affected < s", "json", "keys P", "why C P"],
    "dyndep file": [
        "affected --dyndep < extra",
        "affected --deps < extra a",
        "affected < extra dd",
        "audit --dyndep",
        "draw --dyndep --inputs 2",
        "json --dyndep",
        "keys --dyndep --take 0 o2",
        "why --dyndep o extra",
        "why o extra",
    ],
    "response file": ["audit --only missing-source --json", "json", "keys --base /w"],
    "validation": ["affected < v", "why --validations t v", "why t v"],
    "generated": [
        "affected --source-dir .. < a.c r",
        "audit --only unused-variable --only unused-output",
        "draw --fold",
        "json",
        "keys --take 1 app",
        "why app ../a.c",
    ],
    "example": [
        "affected --rule cc --rule link < main.c README.md",
        "affected --source-dir text --prefix out/ < words.c build.ninja",
        "audit",
        "audit --all --json --except undeclared-input",
        "audit --list",
        "draw --limit 4 --inputs 1 test",
        "draw --affected --fold text/lines.c",
        "json -C text -f build.ninja",
        "json",
        "keys --resume 0.0 test",
        "stale --why test",
        "times test",
        "why test text/words.c",
    ],
    "not UTF-8": ["audit --all", "draw", "json", "keys"],
    "cycle": ["json", "affected < c"],
    "logged": [
        "affected --deps < a.h",
        "audit --deps --all --except missing-source",
        "draw --deps --affected gen.h",
        "json --deps",
        "keys --deps b.o",
        "times --top 9 app",
        "why --deps app /usr/b.h",
    ],
    "other logs": [
        "affected --deps < a.h",
        "audit --deps-log-file cut",
        "json --deps-log-file cut --deps",
        "json --deps-log-file cycle",
        "json --deps-log-file old",
        "keys --deps-log-file build.ninja",
        "why --deps-log-file nothing app a.c",
        "json --deps-log",
    ],
    "depfile": [
        "affected --deps < a.h",
        "affected --deps --ignore-unknown < b.h none build.ninja",
        "audit --deps",
        "json --deps",
        "why --deps all b.h",
    ],
    "tests": [
        "tests --ctest tests.json < a.c",
        "tests --ctest tests.json --why --ignore-unknown < b.c none",
        "tests --ctest tests.json --format ctest --unnamed skip < a.c",
        "tests --ctest tests.json --json < nothing build.ninja",
        "tests --ctest tests.json --source-dir src --ignore src/* -z < a.c",
        "tests --ctest tests.json --allow-empty --deps",
        "tests --ctest tests.json",
        "tests --ctest tests.json --since nothing --base /w < a.c",
        "tests --ctest none.json < a.c",
        "tests --ctest nothing < a.c",
        "tests --ctest tests.json --format nothing",
        "tests --ctest tests.json --format meson",
        "tests --meson none < a.c",
        "tests --meson . --format meson",
        "tests --meson . --ctest tests.json",
        "tests",
    ],
}
GRAPH_CHAIN = (
    "affected --prefix e1 < e7",
    "audit",
    "draw e2000",
    "json",
    "keys --take 6000",
    "stale",
    "times",
    "why e6999 e0",
)

GRAPH_NESTED = (
    "affected --rule deep --prefix a --no-phony --source-dir . < d",
    "affected --deps --ignore-unknown < h f7",
    "affected --allow-empty",
    "affected --since /dev/null --base /w < d",
    "affected -z --ignore none < d",
    "audit --all",
    "audit --deps-log-file log --only unused-output --except missing-source --json",
    "audit --list",
    "audit",
    "draw --limit 9 --inputs 1 --fold all",
    "draw --affected d",
    "json -C . -f build.ninja",
    "keys --base /w --with gcc --with-file build.ninja --take 1",
    "keys --resume 0 all",
    "keys --all --json",
    "stale --why",
    "stale --no-manifest all",
    "stale --json",
    "times",
    "times --top 2 all",
    "times --json",
    "times --by-rule",
    "times --dead",
    f"tests --ctest {LIST} --source-dir . -z --ignore none --ignore-unknown --allow-empty < d",
    f"tests --ctest {LIST} --format lines --why --unnamed skip < d",
    f"tests --ctest {LIST} --json < d",
    f"tests --ctest {LIST} --since /dev/null --base /w < d",
    f"tests --meson {MESON} --format meson < d",
    "why --validations --no-order-only all d",
    "why v d",
)

PROGRAMS = {
    EXPLAIN: Rows(
        {"-t": "TOOL", "-f": "FILE", "--stdin": None, "--dyndep": None},
        EXPLAIN_TOOLS,
        EXPLAIN_RUNS,
        EXPLAIN_CHAIN,
        EXPLAIN_NESTED,
    ),
    GRAPH: Rows(
        {"-C": "DIR", "-f": "FILE", "--dyndep": None, "--deps": None, "--deps-log-file": "FILE"},
        GRAPH_TOOLS,
        GRAPH_RUNS,
        GRAPH_CHAIN,
        GRAPH_NESTED,
    ),
}

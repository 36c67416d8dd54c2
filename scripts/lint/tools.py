"""Compares the list of tools and subcommands (lib/tools.py) with the sources of both programs.

Those of ninja-graph are read off the table of nj_questions (lib/subcommands.py), and those of
ninja-explain off `tool_named` and `options_of` in crates/nj_args/specs/Tools.antt. All runs of the list
together have each tool, each subcommand and each option.
"""

import re

from lib.checks import check, expect
from lib.options import compare, options_of_clap
from lib.programs import CRATES
from lib.projects import EVERY_PROJECT
from lib.subcommands import subcommands, subcommands_in
from lib.tools import EXPLAIN, GRAPH, PROGRAMS, Rows, Tool, run_of

LIST = "lib/tools.py"
ARGUMENTS = CRATES / "nj_args/specs"
NAMED_TOOL = re.compile(r'bytes_eq name \(codes "(\w+)"\) then Some (\w+)')
OPTIONS_OF = re.compile(r"^options_of (\w+) (?:false|is_single) = (.*) \[\]$", re.M)
OPTION_TEXT = re.compile(r'^option_text option\.(\w+) = codes "(--?[\w-]+)"$', re.M)


# ---- the sources


def tools_of_explain(text, texts):
    """The tools in the definitions, each with its options."""
    own = {tool: re.findall(r"\w+", options) for tool, options in OPTIONS_OF.findall(text)}
    names = dict(OPTION_TEXT.findall(texts))
    return {name: {names[it] for it in own.get(tool, [])} for name, tool in NAMED_TOOL.findall(text)}


# ---- the list beside them


def differences(rows, every, tools):
    """How the rows differ from these options of every tool, and from these tools with their options."""
    yield from compare(LIST, "the tool", set(rows.tools), set(tools))
    for name in sorted(rows.tools.keys() & tools.keys()):
        yield from compare(LIST, f"the option of {name}", set(rows.tools[name].options), set(tools[name]))
    yield from compare(LIST, "the option of every tool", set(rows.every), set(every))
    yield from (f"{LIST}: no run of {lacking}" for lacking in rows.lacking(rows.runs_on()))
    yield from (f"{LIST}: no project {name}" for name in rows.runs if name not in EVERY_PROJECT)


@check
def tools_of_ninja_explain():
    own = tools_of_explain(
        (ARGUMENTS / "Tools.antt").read_text(), (ARGUMENTS / "FaultLines.antt").read_text()
    )
    every = options_of_clap() - set().union(*own.values())
    yield from differences(PROGRAMS[EXPLAIN], every, own)
    source = (CRATES / "nj_args/src/tools.rt").read_text()
    named = set(re.findall(r'^        "(\w+)" => Some\(Tool::', source, re.M))
    yield from expect("tools.rt, the tools", named, set(own))


@check
def subcommands_of_ninja_graph():
    (own, every), rows = subcommands(), PROGRAMS[GRAPH]
    yield from differences(rows, every, own)
    yield from expect(f"{LIST}, values of every subcommand", rows.every, every)
    for name, tool in rows.tools.items():
        yield from expect(f"{LIST}, values of {name}", tool.options, own.get(name))


# ---- planted mistakes

TABLE = """\
pub const GRAPH_OPTIONS: [Entry; 1] = [
    ("file", Form::Short('f', "FILE"), "Read FILE"),
];

pub const ONE: Topic = Topic {
    name: "one",
};

pub const ONE_OPTIONS: [Entry; 3] = [
    ("a", Form::Flag, "Do it"),
    (
        "b",
        Form::Long("N"),
        "Do it N times",
    ),
    ("A", Form::Word, "A word"),
];

pub const TWO: Topic = Topic {
    name: "two",
};
"""
PLANTED = Rows(
    {"-f": "FILE"},
    {"one": Tool({"--a": None, "--b": "N"}), "two": Tool({})},
    {"diamond": ["one --a -f x", "one --b=1", "two"]},
    (),
    (),
)


@check
def planted_mistakes_are_seen():
    """A subcommand and an option without a row, rows without a source, and one that no run has."""
    found, every, others = subcommands_in(TABLE)
    yield from expect("found", found, {"one": {"--a": None, "--b": "N"}, "two": {}})
    yield from expect("of every one", (every, others), ({"-f": "FILE"}, {}))
    yield from expect("none", list(differences(PLANTED, ["-f"], found)), [])
    planted = {
        "a subcommand": (["-f"], {**found, "three": {}}),
        "no subcommand": (["-f"], {"one": found["one"]}),
        "an option": (["-f"], {**found, "two": {"--c": None}}),
        "an option of every one": (["-f", "-C"], found),
    }
    for name, (every, own) in planted.items():
        yield from expect(name, len(list(differences(PLANTED, every, own))), 1)
    for line in PLANTED.runs["diamond"]:
        left = [run_of("diamond", other) for other in PLANTED.runs["diamond"] if other != line]
        yield from expect(f"without {line}", list(PLANTED.lacking(left)) != [], True)

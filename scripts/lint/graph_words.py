"""Compares the subcommands and options of ninja-graph with its man page and its completions.

The subcommands are those of lib/tools.py, and the options those of lib/subcommands.py; smoke/graph.py
compares them with the output of `--help`. The bash completion is run, if bash is installed; the other
two are read.
"""

import re

from lib.checks import check
from lib.options import END, compare, offered_by_bash
from lib.programs import ROOT
from lib.subcommands import subcommands
from lib.tools import GRAPH, PROGRAMS

NAME = GRAPH
SUBCOMMANDS = list(PROGRAMS[GRAPH].tools)
OPTIONS, EVERY = subcommands()
PAGE = ROOT / f"man/{NAME}.1"
ZSH, FISH = ROOT / f"completions/_{NAME}", ROOT / f"completions/{NAME}.fish"
HELP = {"-h", "--help"}
VERSION = {"-V", "--version"}


def options_in(name):
    """The options of a subcommand."""
    return set(OPTIONS[name])


def every_subcommand():
    return set(EVERY) | HELP


def tagged(section):
    """The tags of a section's paragraphs, without fonts and escapes, and the line after each."""
    text = re.search(rf"^\.SH {section}\n(.*?)^\.SH ", PAGE.read_text(), re.M | re.S)[1]
    tags = re.findall(r"^\.TP\n\.B[IR]* (.*)\n(.*)$", text, re.M)
    return [(re.sub(r"\\f.", "", tag.replace("\\-", "-")), after) for tag, after in tags]


@check
def page():
    text = PAGE.read_text()
    heads = set(re.findall(rf"^\.B {NAME} (\w+)$", text, re.M))
    yield from compare(PAGE.name, "the subcommand", heads, set(SUBCOMMANDS))
    every, found = set(), {name: set() for name in SUBCOMMANDS}
    for tag, after in tagged("OPTIONS"):
        options = set(re.findall(r"(?<![\w-])--?[A-Za-z][\w-]*|--$", tag))
        owners = re.fullmatch(r'\.RB \( (\w+(?: ", " \w+)*) \)', after)
        for owner in owners[1].split(' ", " ') if owners else ():
            found.setdefault(owner, set()).update(options)
        every |= set() if owners else options
    wanted = every_subcommand() | VERSION | {END}
    yield from compare(PAGE.name, "the option of every subcommand", every, wanted)
    for name in SUBCOMMANDS:
        yield from compare(PAGE.name, f"with {name}, the option", found[name], options_in(name))


@check(needs=["bash"])
def bash(folder):
    def offered(*words):
        return set(offered_by_bash([*words], folder, name=NAME))

    yield from compare("bash", "the subcommand", offered(""), set(SUBCOMMANDS))
    yield from compare("bash", "without a subcommand, the option", offered("-"), HELP | VERSION)
    for name in SUBCOMMANDS:
        wanted = every_subcommand() | options_in(name) | {END}
        yield from compare("bash", f"with {name}, the option", offered(name, "-"), wanted)


@check
def zsh():
    text = ZSH.read_text()
    listed = re.search(r"subcommands=\(\n(.*?)\n  \)", text, re.S)[1]
    found = set(re.findall(r"'(\w+):", listed))
    yield from compare(ZSH.name, "the subcommand", found, set(SUBCOMMANDS))
    every, owned, owner = set(), {}, None
    for line in text[text.index("arguments=(") :].splitlines():
        if head := re.fullmatch(r"\s*\((\w+)\)", line):
            owner = head[1]
        elif option := re.match(r"\s*'(?:\([^)]*\)|\*)?(--?[\w-]+)[+=]?\[", line):
            (owned.setdefault(owner, set()) if owner else every).add(option[1])
    yield from compare(ZSH.name, "the option of every subcommand", every, every_subcommand())
    for name in SUBCOMMANDS:
        yield from compare(ZSH.name, f"with {name}, the option", owned.get(name, set()), options_in(name))


@check
def fish():
    text = FISH.read_text().replace("\\\n", "")
    every, owned = set(), {}
    for line in re.findall(rf"^complete -c {NAME} .*", text, re.M):
        options = {f"-{short}" for short in re.findall(r" -s (\w)", line)}
        options |= {f"--{long}" for long in re.findall(r" -l ([\w-]+)", line)}
        owner = re.search(r"-n '__ninja_graph_is (\w+)'", line)
        (owned.setdefault(owner[1], set()) if owner else every).update(options)
    yield from compare(FISH.name, "the option of every subcommand", every, every_subcommand() | VERSION)
    for name in SUBCOMMANDS:
        yield from compare(FISH.name, f"with {name}, the option", owned.get(name, set()), options_in(name))
    listed = re.search(r"function __ninja_graph_subcommands\n(.*?)\nend", text, re.S)[1]
    found = set(re.findall(r"(\w+) '", listed.split("' ", 1)[1]))
    yield from compare(FISH.name, "the subcommand", found, set(SUBCOMMANDS))

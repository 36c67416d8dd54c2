"""The subcommands of ninja-graph and their options, as crates/nj_questions/src/subcommands.rt has them."""

import re

from lib.programs import CRATES

SOURCE = CRATES / "nj_questions/src/subcommands.rt"
# A subcommand's name, and the name of the list of its options.
TOPIC = re.compile(r'^pub const (\w+): Topic = Topic \{\n    name: "(\w+)",', re.M)
ENTRIES = re.compile(r"^pub const (\w+_OPTIONS): \[Entry; (\d+)\] = \[\n(.*?)^\];", re.M | re.S)
ENTRY = re.compile(r"\(\s*\"([\w-]+)\",\s*Form::(\w+)(?:\((?:'(\w)')?(?:, )?(?:\"(\w+)\")?\))?,")
# The forms of options; the others are those of words.
OPTIONS = {"Short", "Letter", "Flag", "Long", "Required", "Repeated", "Number"}
GRAPH_OPTIONS = "GRAPH_OPTIONS"


def options_in(text):
    """The options of each list, each with the name of its value, or `None`."""
    for name, count, entries in ENTRIES.findall(text):
        found = ENTRY.findall(entries)
        if len(found) != int(count):
            raise ValueError(f"{SOURCE.name}: {name} has {count} entries, and {len(found)} are found")
        yield (
            name,
            {
                f"-{letter}" if letter else f"--{word}": value or None
                for word, form, letter, value in found
                if form in OPTIONS
            },
        )


def subcommands_in(text):
    """The options of each subcommand, and those of every one."""
    lists = dict(options_in(text))
    own = {name: lists.pop(f"{topic}_OPTIONS", {}) for topic, name in TOPIC.findall(text)}
    return own, lists.pop(GRAPH_OPTIONS, {}), lists


def subcommands():
    """The same of the source, where each list of options belongs to a subcommand."""
    own, every, others = subcommands_in(SOURCE.read_text())
    if others:
        raise ValueError(f"{SOURCE.name}: no subcommand has the options {', '.join(others)}")
    return own, every

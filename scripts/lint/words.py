"""Compares the options and tools of the man page and of the completions with the program's.

The options are those that crates/nj_args/specs/CommandLine.antt passes to `clap`. lib/tools.py has
the tools, and the options of each; smoke/options.py tries both with the program.
The bash completion is run, if bash is installed; the other two are read. The man page also has to
have the text of each fault, as in the definitions.
"""

import re

from lib.checks import check
from lib.options import BASH, COMMAND_LINE, END, EVERY_TOOL, FISH, TOOLS, ZSH
from lib.options import compare, offered_by_bash, options_of, options_of_clap
from lib.programs import ROOT

PAGE = ROOT / "man/ninja-explain.1"
# The definitions of the fault lines.
FAULT_STRINGS = {
    "crates/nj_text/specs/Faults.antt": ["out_of_memory_text"],
    "crates/nj_faults/specs/FaultLines.antt": ["cause_text"],
    "crates/nj_faults/specs/Versions.antt": ["reader_version_text"],
    "crates/nj_manifest/specs/Faults.antt": ["wanted_text", "syntax_text"],
    "crates/nj_args/specs/FaultLines.antt": ["fault_text"],
    "crates/nj_cli/specs/Answers.antt": ["PageEnds"],
}


def compare_options(where, found):
    """`found` has a set of options for each tool, which may include those of every tool."""
    for tool in sorted(found.keys() - TOOLS):
        yield f"{where}: the program does not have the tool {tool}"
    for tool in TOOLS:
        own = found.get(tool, set()) - EVERY_TOOL
        yield from compare(where, f"with {tool}, the option", own, options_of(tool))


@check
def table_of_options():
    wanted = EVERY_TOOL.union(*map(options_of, TOOLS))
    yield from compare(COMMAND_LINE.name, "the option", options_of_clap(), wanted)


# ---- the man page


def tagged(section):
    """The tags of a section's paragraphs, without fonts and escapes, and the line after each."""
    text = re.search(rf"^\.SH {section}\n(.*?)^\.SH ", PAGE.read_text(), re.M | re.S)[1]
    tags = re.findall(r'^\.TP\n\.B[IR]? (.*)\n((?:\.RB .*\n)?(?:(?:not with|and)\n.*\n|,\n)*)', text, re.M)
    return [(re.sub(r"\\f.", "", tag.replace("\\-", "-")), about) for tag, about in tags]


@check
def page():
    where = PAGE.name
    yield from compare(where, "the tool", {tag.split()[0] for tag, _ in tagged("TOOLS")}, set(TOOLS))
    found, every = {tool: set() for tool in TOOLS}, set()
    for tag, about in tagged("OPTIONS"):
        option = tag.split()[0]
        tools = re.findall(r"^(?:\.RB \(|and\n\.BR) (\w+)", about, re.M)
        for tool in tools:
            found.setdefault(tool, set()).add(option)
        if not tools:
            every.add(option)
    yield from compare(where, "the option of every tool", every, EVERY_TOOL | {END})
    yield from compare_options(where, found)


def fault_strings(file, name):
    """The fixed parts of the fault lines in a definition."""
    text = (ROOT / file).read_text()
    equations = re.search(rf"^abbrev pub {name} :.*\n((?:.+\n)+)", text, re.M)
    if not equations:
        raise ValueError(f"{file}: there is no {name}")
    parts = re.findall(r'codes "([^"]*)"', equations[1])
    return [text.removeprefix("ninja-explain: ").strip() for text in parts if len(text) > 1]


@check
def page_has_faults():
    section = re.search(r"^\.SH FAULTS\n(.*?)^\.SH ", PAGE.read_text(), re.M | re.S)[1]
    plain = re.sub(r"\\f.", "", section.replace("\\(aq", "'").replace("\\-", "-"))
    for file, names in FAULT_STRINGS.items():
        for text in (text for name in names for text in fault_strings(file, name)):
            if text not in plain:
                yield f"{PAGE.name}: the fault {text} is missing"


# ---- the completions


@check(needs=["bash"])
def bash(folder):
    def compare_offered(what, words, wanted):
        return compare(BASH.name, what, set(offered_by_bash(words, folder)), wanted)

    yield from compare_offered("the tool", ["-t", ""], set(TOOLS))
    yield from compare_offered("without a tool, the option", ["-"], EVERY_TOOL | {END})
    for tool in TOOLS:
        wanted = EVERY_TOOL | options_of(tool) | {END}
        yield from compare_offered(f"with {tool}, the option", ["-t", tool, "-"], wanted)


@check
def zsh():
    where, text = ZSH.name, ZSH.read_text()
    tools = re.search(r"tools=\(\n(.*?)\n  \)", text, re.S)[1]
    yield from compare(where, "the tool", set(re.findall(r"'(\w+):", tools)), set(TOOLS))
    found, every, tool = {}, set(), None
    for line in text.splitlines():
        if head := re.fullmatch(r"\s*\((\w+)\)", line):
            tool = head[1]
        elif option := re.match(r"""\s*['"](?:\([^)]*\))?(--?[\w-]+)[+=]?\[""", line):
            (found.setdefault(tool, set()) if tool else every).add(option[1])
    yield from compare(where, "the option of every tool", every, EVERY_TOOL)
    yield from compare_options(where, found)


@check
def fish():
    where, text = FISH.name, FISH.read_text().replace("\\\n", "")
    tools = re.search(r"function __ninja_explain_tools\n(.*?)\nend", text, re.S)[1]
    yield from compare(where, "the tool", set(re.findall(r"(\w+) '", tools.split("' ", 1)[1])), set(TOOLS))
    found, every = {}, set()
    for line in re.findall(r"^complete -c ninja-explain .*", text, re.M):
        option = re.search(r" -(?:s (\w)|l ([\w-]+))", line)
        if not option:
            continue
        tools = re.search(r"-n '__ninja_explain_tool_is ([\w ]+)'", line)
        option_text = f"-{option[1]}" if option[1] else f"--{option[2]}"
        for tool in tools[1].split() if tools else []:
            found.setdefault(tool, set()).add(option_text)
        if not tools:
            every.add(option_text)
    yield from compare(where, "the option of every tool", every, EVERY_TOOL)
    yield from compare_options(where, found)

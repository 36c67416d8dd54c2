"""Runs the sessions of the README and of docs/NINJA-GRAPH.md, which show commands with their output."""

import os
import re

from lib.checks import check, expect
from lib.programs import ROOT, Program
from smoke.graph import with_sources

BLOCK = re.compile(r"^```\n(\$ .*?)^```$", re.M | re.S)
# A session in examples/project with its sources, which are not in the repository.
WITH_SOURCES = re.compile(r"^```console\n(\$ .*?)^```$", re.M | re.S)
COMMAND = re.compile(r"^\$ (.*)\n((?:(?!\$ ).*\n)*)", re.M)
# Ends the output of a command, and keeps its status for the next one.
MARK = "mark() { status=$?; printf '\\001'; return $status; }"


def sessions(page, block):
    """The commands of such blocks of a page, each with the text that it shows after it."""
    blocks = block.findall((ROOT / page).read_text())
    return [session for block in blocks for session in COMMAND.findall(block)]


def differ(program, graph, folder, page, block=BLOCK, place=ROOT):
    """The commands of a page that do not write what the page shows, run in one shell."""
    for name, each in ("ninja-explain", program), ("ninja-graph", graph):
        (folder / name).symlink_to(each.path)
    shown = sessions(page, block)
    script = "\n".join(["exec 2>&1", MARK, *(f"{command}\nmark" for command, _ in shown)])
    path = os.pathsep.join([str(folder), os.environ["PATH"]])
    found = Program("sh").run(["-c", script], place, PATH=path).output.decode().split("\1")
    yield from expect(f"{page}, commands", len(found), len(shown) + 1)
    for (command, wanted), output in zip(shown, found):
        yield from expect(f"{page}, {command}", output, wanted)


@check
def of_the_readme(program, graph, folder):
    yield from differ(program, graph, folder, "README.md")


@check(needs=["jq"])
def of_ninja_graph(program, graph, folder):
    yield from differ(program, graph, folder, "docs/NINJA-GRAPH.md")


@check
def with_all_sources(program, graph, folder):
    """The sessions in a project whose sources exist."""
    place = with_sources(folder)
    yield from differ(program, graph, folder, "docs/NINJA-GRAPH.md", WITH_SOURCES, place)

"""Runs each subcommand of ninja-graph on examples/meson.

The manifest that Meson wrote for it, in /src/count/build, is kept in its directory `build`, so that most
of this needs no Meson. What is wanted of it was worked out by hand. Where Meson is installed, the
project is configured again and built, and the deps log of that build is read.
"""

import os
import shutil
import subprocess
from collections import Counter

from lib.checks import check, expect
from lib.programs import EXAMPLES
from lib.random_builds import deps_log
from smoke.affected import run as affected
from smoke.audit import audit_differs
from smoke.draw import drawing_differs
from smoke.edge_objects import explained_differs, objects
from smoke.graph import DONE, LOOK
from smoke.keys import Edge, Keys
from smoke.keys import run as keys
from smoke.why import NONE
from smoke.why import run as why

MESON = EXAMPLES / "meson"
BUILD = MESON / "build"
OBJECT = "libtext.a.p/src_words.c.o"
SOURCES = ["../src/version.h.in", "../src/words.c", "../src/main.c", "../test/words_test.c"]
# A change of words.c affects these outputs of edges with commands.
BY_WORDS = [
    OBJECT, "libtext.a", "count", "words_test", "meson-internal__test", "meson-internal__benchmark",
    "meson-internal__install",
]
CHAIN = """\
build.ninja:{link}:1: c_LINKER: words_test needs libtext.a (implicit)
build.ninja:{archive}:1: STATIC_LINKER: libtext.a needs libtext.a.p/src_words.c.o (explicit)
build.ninja:{object}:1: c_COMPILER: libtext.a.p/src_words.c.o needs ../src/words.c (explicit)
"""
ORDERED = """\
build.ninja:{link}:1: c_LINKER: count needs count.p/src_main.c.o (explicit)
build.ninja:{object}:1: c_COMPILER: count.p/src_main.c.o needs version.h (order-only)
build.ninja:{header}:1: CUSTOM_COMMAND: version.h needs ../src/version.h.in (explicit)
"""
UNUSED = """test benchmark install dist scan-build TAGS ctags cscope uninstall clean build.ninja reconfigure""".split()
DRAWN = {
    "../src/words.c > c_COMPILER > libtext.a.p/src_words.c.o",
    "libtext.a.p/src_words.c.o > STATIC_LINKER > libtext.a",
    "../test/words_test.c > c_COMPILER > words_test.p/test_words_test.c.o",
    "words_test.p/test_words_test.c.o libtext.a > c_LINKER > words_test",
}


def lines(items):
    return "".join(f"{item}\n" for item in items)


def line_of(output, folder=BUILD):
    """The line of the build statement that begins with an output."""
    text = (folder / "build.ninja").read_text().splitlines()
    return next(number for number, line in enumerate(text, 1) if line.startswith(f"build {output}:"))


@check
def affected_by_sources(graph):
    for words, wanted in [
        (["--no-phony"], BY_WORDS),
        (["--rule", "c_LINKER"], ["count", "words_test"]),
        (["--prefix", "words"], ["words_test"]),
    ]:
        found = affected(graph, BUILD, ["--source-dir", "..", *words], ["src/words.c"])
        yield from expect(words, found, (DONE, lines(wanted), ""))
    told = "meson.build: the manifest is made from it\n"
    found = affected(graph, BUILD, ["--source-dir", "..", "--no-phony"], ["meson.build"])
    yield from expect("its lists", found, (LOOK, "build.ninja\n", told))


@check
def affected_by_headers(graph, folder):
    header = "include/text/words.h"
    words = ["--source-dir", "..", "--rule", "c_LINKER"]
    yield from expect("no log", affected(graph, BUILD, words, [header]), (LOOK, "", f"{header}\n"))
    (folder / "log").write_bytes(deps_log({OBJECT: ["../src/words.c", f"../{header}"]}))
    found = affected(graph, BUILD, [*words, "--deps-log-file", str(folder / "log")], [header])
    yield from expect("a log", found, (DONE, "count\nwords_test\n", ""))


@check
def chains(graph):
    places = {"link": line_of("words_test"), "archive": line_of("libtext.a"), "object": line_of(OBJECT)}
    found = why(graph, BUILD, "words_test", "../src/words.c")
    yield from expect("a chain", found, (DONE, CHAIN.format(**places), ""))
    places = {"link": line_of("count"), "object": line_of("count.p/src_main.c.o"), "header": line_of("version.h")}
    found = why(graph, BUILD, "count", "../src/version.h.in")
    yield from expect("an order-only input", found, (DONE, ORDERED.format(**places), ""))
    yield from expect("no chain", why(graph, BUILD, "words_test", "version.h"), NONE)


@check
def findings(graph, folder):
    """The manifest is written by one command, asked for by two edges. Nobody uses Meson's own targets."""
    wanted = Counter({("unused output", path): 1 for path in UNUSED})
    wanted["repeated command", "reconfigure"] = 1
    shell = {} if os.path.exists("/usr/bin/sh") else {("missing source", "/usr/bin/sh"): 1}
    yield from audit_differs(graph, BUILD, wanted + Counter(shell))
    build = folder / "build"
    build.mkdir()
    shutil.copy(BUILD / "build.ninja", build)
    missing = Counter({("missing source", path): 1 for path in SOURCES})
    yield from audit_differs(graph, build, wanted + Counter(shell) + missing)


KINDS = [("", "inputs"), ("|", "implicit_inputs"), ("|", "discovered_inputs"), ("||", "order_only_inputs")]


def keys_by_objects(graph, folder):
    """The keys of the edges with commands, by first outputs, as computed from what `json` writes."""
    edges = []
    for it in objects(graph, folder):
        edge = Edge("", "", it["command"], it["rspfile"], it["rspfile_content"])
        edge.outputs = it["outputs"] + it["implicit_outputs"]
        edge.inputs = [(bars, path) for bars, kind in KINDS for path in it[kind]]
        edges.append((edge, it["phony"]))
    known = Keys([edge for edge, _ in edges])
    return {edge.outputs[0]: known.key(edge.outputs[0]).hex() for edge, is_phony in edges if not is_phony}


@check
def keys_of_commands(graph):
    status, output, error = keys(graph, BUILD, ["words_test", "count"])
    yield from expect("keys", (status, error), (DONE, ""))
    found = dict(reversed(line.split(" ", 1)) for line in output.splitlines())
    wanted = keys_by_objects(graph, BUILD)
    needed = [OBJECT, "libtext.a", "words_test.p/test_words_test.c.o", "words_test", "version.h", "count.p/src_main.c.o", "count"]
    yield from expect("each", found, {output: wanted[output] for output in needed})
    based = keys(graph, BUILD, ["--base", "/src/count", "version.h"]).output
    yield from expect("a base", based == f"{wanted['version.h']} version.h\n", False)


@check
def drawing(graph):
    yield from drawing_differs("Meson", graph, BUILD, ["words_test"], DRAWN)


@check
def edge_objects(graph, program):
    yield from explained_differs(graph, program, BUILD)


@check(needs=["meson", "ninja", "cc"])
def configured_anew(graph, program, folder):
    source = folder / "count"
    shutil.copytree(MESON, source, ignore=shutil.ignore_patterns("build"))
    build = source / "build"
    for words in ["meson", "setup", "build"], ["ninja", "-C", "build"]:
        subprocess.run(words, cwd=source, stdout=subprocess.DEVNULL, check=True)
    yield from explained_differs(graph, program, build)
    words = ["--source-dir", "..", "--rule", "c_LINKER", "--deps"]
    for changed, wanted in ("include/text/words.h", ["count", "words_test"]), ("src/main.c", ["count"]):
        found = affected(graph, build, words, [changed])
        yield from expect(changed, found, (DONE, lines(wanted), ""))
    found = affected(graph, build, ["--source-dir", ".."], ["meson.build"])
    yield from expect("its lists", found.status, LOOK)
    found = why(graph, build, "--deps", "count", "../include/text/words.h")
    yield from expect("why", (found.status, found.error, found.output.count("\n")), (DONE, "", 2))
    yield from expect("audit", graph.run(["audit", "--deps"], build).as_text(), (DONE, "", ""))
    found = graph.run(["audit", "--deps", "--only", "repeated-command"], build).as_text()
    wanted = f"build.ninja:{line_of('reconfigure', build)}:1: repeated command 'reconfigure'\n"
    yield from expect("repeated commands", found, (LOOK, wanted, ""))
    yield from drawing_differs("anew", graph, build, ["words_test"], DRAWN)
    found = keys(graph, build, ["words_test", "count"]).output
    wanted = keys_by_objects(graph, build)
    given = dict(reversed(line.split(" ", 1)) for line in found.splitlines())
    yield from expect("keys", given, {output: wanted[output] for output in given})

"""Tests of the module, by unittest: python3 -m unittest discover -s python/tests"""

import copy
import errno
import os
import pickle
import struct
import subprocess
import sys
import tempfile
import threading
import unittest
from collections.abc import Callable
from decimal import Decimal
from fractions import Fraction
from pathlib import Path
from typing import Any, cast
from unittest import mock

from ninja_explain import (
    BadBuildLog,
    BadDepsLog,
    BadMark,
    Edge,
    Fault,
    FaultKind,
    File,
    Graph,
    Kind,
    Place,
    StaleReason,
    run,
)

MANIFEST = """\
rule cc
  command = cc -c $in -o $out
  description = CC $out
rule link
  command = link $in -o $out
build a.o | a.d: cc a.c | a.h || gen |@ check
build b.o: cc b.c
build app: link a.o b.o
build check: cc check.c
build gen: phony
default app
"""


# A manifest with a dyndep file.
BOUND = """\
rule r
  command = c
build a: r || d
  dyndep = d
"""


def graph_of(text: str = MANIFEST) -> Graph:
    return Graph.from_files({"build.ninja": text})


def paths(files: "list[File]") -> "list[str]":
    return [file.path for file in files]


class Reading(unittest.TestCase):
    def setUp(self) -> None:
        self.graph = graph_of()
        self.addCleanup(self.graph.close)

    def test_edge(self) -> None:
        edge = self.graph.edges[0]
        self.assertEqual(paths(edge.outputs), ["a.o", "a.d"])
        self.assertEqual(paths(edge.explicit_outputs), ["a.o"])
        inputs = [(each.path, each.kind) for each in edge.inputs]
        wanted = [("a.c", Kind.EXPLICIT), ("a.h", Kind.IMPLICIT), ("gen", Kind.ORDER_ONLY)]
        self.assertEqual(inputs, wanted)
        self.assertEqual(paths(edge.validations), ["check"])
        self.assertEqual(edge.rule, "cc")
        self.assertEqual(edge.command, "cc -c a.c -o a.o")
        self.assertEqual(edge.variable("description"), "CC a.o")
        self.assertEqual(edge.variable("depfile"), "")
        self.assertEqual(edge.place, Place("build.ninja", 6, 1))
        self.assertFalse(edge.is_phony)
        self.assertTrue(self.graph.edges[4].is_phony)
        self.assertEqual(self.graph.edges[4].command, "")

    def test_file(self) -> None:
        file = self.graph.target("./a.o")
        self.assertEqual(file.path, "a.o")
        self.assertEqual(os.fspath(file), "a.o")
        self.assertEqual(file.maker, self.graph.edges[0])
        self.assertEqual(file.users, [self.graph.edges[2]])
        self.assertEqual(self.graph.target("check").validation_users, [self.graph.edges[0]])
        self.assertIsNone(self.graph.target("a.c").maker)
        self.assertIsNone(self.graph.file("./a.o"))
        self.assertEqual(self.graph.target("a.c^").path, "a.o")

    def test_lists(self) -> None:
        graph = self.graph
        self.assertEqual(paths(graph.defaults()), ["app"])
        self.assertEqual(paths(graph.roots()), ["a.d", "app", "check"])
        self.assertEqual(graph.affected([graph.target("b.c")]), [graph.edges[1], graph.edges[2]])
        self.assertEqual([edge.number for edge in graph.commands(graph.defaults())], [0, 1, 2])
        self.assertEqual([edge.number for edge in graph.needed(graph.defaults())], [2, 0, 1, 4])
        self.assertEqual(graph.needed([graph.target("a.c")]), [])

    def test_path_between(self) -> None:
        graph = self.graph
        app, gen, check = (graph.target(word) for word in ("app", "gen", "check"))
        chain = graph.path_between(app, gen)
        found = [(step.edge.number, step.file.path, step.kind) for step in chain or []]
        self.assertEqual(found, [(2, "a.o", Kind.EXPLICIT), (0, "gen", Kind.ORDER_ONLY)])
        self.assertIsNone(graph.path_between(gen, app))
        self.assertIsNone(graph.path_between(app, app))
        self.assertIsNone(graph.path_between(app, check))
        chain = graph.path_between(app, check, with_validations=True)
        found = [(step.edge.number, step.file.path, step.kind) for step in chain or []]
        self.assertEqual(found, [(2, "a.o", Kind.EXPLICIT), (0, "check", None)])

    def test_long_path(self) -> None:
        """A chain that is longer than one call returns."""
        with graph_of("".join(f"build {at}: phony {at + 1}\n" for at in range(500))) as graph:
            chain = graph.path_between(graph.target("0"), graph.target("500"))
            self.assertEqual([step.file.path for step in chain or []], [f"{at}" for at in range(1, 501)])

    def test_rules(self) -> None:
        self.assertEqual(self.graph.rules(), ["cc", "link", "phony"])

    def test_long_lists(self) -> None:
        """Lists that are longer than one call returns."""
        names = [f"{number}" for number in range(10_000)]
        texts = [f"build {name}: phony all\n" for name in names]
        texts += [f"build {' '.join(f'o{name}' for name in names)}: phony\n"]
        texts += [f"build end: phony {' '.join(names[:4096])} | {' '.join(names[4096:9000])}"]
        texts += [f" || {' '.join(names[9000:])}\n"]
        with graph_of("".join(texts)) as graph:
            end, many = graph.edges[-1], graph.edges[-2]
            self.assertEqual([each.path for each in end.inputs], names)
            kinds = [Kind.EXPLICIT] * 4096 + [Kind.IMPLICIT] * 4904 + [Kind.ORDER_ONLY] * 1000
            self.assertEqual([each.kind for each in end.inputs], kinds)
            self.assertEqual(paths(many.outputs), [f"o{name}" for name in names])
            users = graph.target("all").users
            self.assertEqual([edge.number for edge in users], list(range(10_000)))

    def test_pages(self) -> None:
        graph, seen = self.graph, []
        mark: "str | None" = ""
        while mark is not None:
            page = graph.page(graph.defaults(), 2, mark)
            seen.append([edge.number for edge in page.edges])
            mark = page.mark
        self.assertEqual(seen, [[0, 1], [2]])
        with self.assertRaises(BadMark):
            graph.page(graph.defaults(), 1, "no mark")

    def test_sequences(self) -> None:
        edges = self.graph.edges
        self.assertEqual(len(edges), 5)
        self.assertEqual(edges[-1], edges[4])
        self.assertEqual(edges[1:3], [edges[1], edges[2]])
        self.assertEqual([edge.number for edge in edges], [0, 1, 2, 3, 4])
        with self.assertRaises(IndexError):
            edges[5]

    def test_surrogates(self) -> None:
        with Graph.from_files({"build.ninja": b"build a\xff: phony b\n"}) as graph:
            self.assertEqual(graph.edges[0].outputs[0].path, "a\udcff")
            self.assertEqual(graph.target("a\udcff").path, "a\udcff")


def deps_log(version: int, *paths: str) -> bytes:
    """A deps log in which the first of the paths depends on the others."""
    records = [b"# ninjadeps\n", struct.pack("<I", version)]
    for number, path in enumerate(paths):
        padded = path.encode() + b"\0" * (-len(path) % 4)
        records += [struct.pack("<I", len(padded) + 4), padded, struct.pack("<I", ~number & 0xFFFFFFFF)]
    numbers = [0, 1, 0, *range(1, len(paths))]
    records.append(struct.pack(f"<{len(numbers) + 1}I", 4 * len(numbers) | 1 << 31, *numbers))
    return b"".join(records)


DEPS = """\
rule cc
  command = cc -c $in -o $out
  deps = gcc
build a.o: cc a.c
build a.h: cc a.in
"""


class DepsLogs(unittest.TestCase):
    def test_joined(self) -> None:
        log = deps_log(4, "a.o", "./x/../a.h", "a.c", "b.h")
        with Graph.from_files({"build.ninja": DEPS}, deps_log=log) as graph:
            inputs = [(each.path, each.kind) for each in graph.edges[0].inputs]
            wanted = [("a.c", Kind.EXPLICIT), ("a.h", Kind.IMPLICIT), ("b.h", Kind.IMPLICIT)]
            self.assertEqual(inputs, wanted)
            self.assertEqual(graph.affected([graph.target("a.in")]), [graph.edges[0], graph.edges[1]])

    def test_undeclared(self) -> None:
        log = deps_log(4, "a.o", "./x/../a.h", "a.c", "b.h", "a.h")
        with graph_of(DEPS) as graph:
            found = graph.undeclared(log)
            self.assertEqual([(it.edge, it.file) for it in found], [(graph.edges[0], graph.target("a.h"))])
            self.assertEqual(len(graph.edges[0].inputs), 1)
            for bad in b"", deps_log(3, "a.o", "a.h"):
                with self.assertRaises(BadDepsLog):
                    graph.undeclared(bad)
            with self.assertRaises(TypeError):
                graph.undeclared(".ninja_deps")  # type: ignore[arg-type]
        for declared in " | a.h", " || all", " | b.o":
            text = f"{DEPS.replace('cc a.c', f'cc a.c{declared}')}build all: phony a.h\nbuild b.o: cc b.c || all\n"
            with graph_of(text) as graph:
                self.assertEqual(graph.undeclared(log), [])
        with Graph.from_files({"build.ninja": DEPS}, deps_log=log) as graph:
            self.assertEqual(graph.undeclared(log), [])

    def test_many_undeclared(self) -> None:
        """More than one call returns at first."""
        names = [f"{number}.h" for number in range(1000)]
        with graph_of(DEPS + "".join(f"build {name}: phony\n" for name in names)) as graph:
            found = graph.undeclared(deps_log(4, "a.o", *names))
            self.assertEqual(paths([each.file for each in found]), names)

    def test_cycle(self) -> None:
        with self.assertRaises(Fault) as caught:
            Graph.from_files({"build.ninja": DEPS}, deps_log=deps_log(4, "a.o", "./a.o"))
        self.assertEqual(caught.exception.kind, FaultKind.CYCLE)

    def test_no_log(self) -> None:
        for log in b"", b"# ninjadeps\n", deps_log(3, "a.o", "a.h"):
            with self.assertRaises(BadDepsLog):
                Graph.from_files({"build.ninja": DEPS}, deps_log=log)


DISCOVERING = """\
rule cc
  command = cc -c $in -o $out
  deps = gcc
rule old
  command = cc -c $in -o $out
  depfile = $out.d
rule mk
  command = mk $in -o $out
build a.o: cc a.c || b.h
build c.o: old c.c
build b.h: mk b.in
build app: mk a.o c.o
"""
DEPFILE = {"build.ninja": DISCOVERING, "c.o.d": "c.o: c.c d.h\n"}


class Discovered(unittest.TestCase):
    # (made at one nanosecond after 1970, like each record of `deps_log`)
    log = deps_log(4, "a.o", "b.h")

    def dirtied(self, graph: Graph, *names: str) -> "list[int]":
        return [edge.number for edge in graph.dirtied([graph.target(name) for name in names])]

    def unknown(self, graph: Graph) -> "list[int]":
        return [edge.number for edge in graph.edges if edge.is_unknown]

    def test_joined(self) -> None:
        with Graph.from_files(DEPFILE, deps_log=self.log, times={"a.o": 1}) as graph:
            self.assertEqual(self.unknown(graph), [])
            self.assertEqual(graph.log_read, (len(self.log), True))
            self.assertEqual([each.path for each in graph.edges[1].inputs], ["c.c", "d.h"])
            self.assertEqual(self.dirtied(graph), [])
            self.assertEqual(self.dirtied(graph, "d.h"), [1, 3])
            self.assertEqual(self.dirtied(graph, "b.h"), [0, 2, 3])
            self.assertEqual(self.dirtied(graph, "b.in", "d.h"), [0, 1, 2, 3])

    def test_unknown(self) -> None:
        with Graph.from_files(DEPFILE, deps_log=self.log, times={"a.o": 2}) as graph:
            self.assertEqual(self.unknown(graph), [0])
            self.assertEqual(self.dirtied(graph), [0, 3])
        with Graph.from_files(DEPFILE, times={}) as graph:
            self.assertEqual(self.unknown(graph), [0])
            self.assertEqual(graph.log_read, (0, True))
        without = {"build.ninja": DISCOVERING}
        for depfile in {}, {"c.o.d": ""}, {"c.o.d": "other: c.c\n"}, {"c.o.d": "c.o c.c\n"}:
            with Graph.from_files({**without, **depfile}, deps_log=self.log, times={}) as graph:
                self.assertEqual(self.unknown(graph), [1])
                self.assertEqual(self.dirtied(graph), [1, 3])

    def test_order_only(self) -> None:
        with Graph.from_files(DEPFILE, times={}) as graph:
            self.assertEqual(self.dirtied(graph, "b.in"), [0, 2, 3])
            self.assertFalse(graph.edges[2].is_unknown)
        with graph_of(DISCOVERING) as graph:
            self.assertEqual(self.dirtied(graph, "b.in"), [2])

    def test_without(self) -> None:
        with graph_of(DISCOVERING) as graph:
            self.assertIsNone(graph.edges[0].is_unknown)
            self.assertIsNone(graph.log_read)

    def test_cut_off(self) -> None:
        for times in None, {"a.o": 1}:
            with Graph.from_files(DEPFILE, deps_log=self.log + b"\0", times=times) as graph:
                self.assertEqual(graph.log_read, (len(self.log), False))

    def test_refused(self) -> None:
        for time, error in (-1, ValueError), (1 << 64, ValueError), (1.5, TypeError):
            with self.assertRaises(error):
                Graph.from_files(DEPFILE, times={"a.o": time})  # type: ignore[dict-item]
        with self.assertRaises(BadDepsLog):
            Graph.from_files(DEPFILE, deps_log=b"#", times={})
        with self.assertRaises(Fault) as caught:
            Graph.from_files(DEPFILE, deps_log=deps_log(4, "a.o", "app"), times={})
        self.assertEqual(caught.exception.kind, FaultKind.CYCLE)


STALE = """\
rule plain
  command = make $out
rule made
  command = make $out
  generator = 1
build a.o: made a.c
build b.o: plain b.c
build app: made a.o b.o || order
build all: phony app
"""


def build_log(version: int, *lines: "tuple[str, int]") -> bytes:
    """A build log with outputs, the times that it has for them, and the hash of no command."""
    texts = [f"0\t1\t{time}\t{output}\t0\n" for output, time in lines]
    return "".join([f"# ninja log v{version}\n", *texts]).encode()


class Stale(unittest.TestCase):
    times = {"a.c": 1, "b.c": 1, "order": 9, "a.o": 2, "b.o": 2, "app": 3}

    def stale(
        self, target: str, log: bytes = b"", times: "dict[str, int] | None" = None
    ) -> "list[tuple[str, StaleReason, str | None]]":
        with graph_of(STALE) as graph:
            found = graph.stale(log, {**self.times, **(times or {})}, [graph.target(target)])
            return [
                (each.edge.outputs[0].path, each.reason, each.file.path if each.file else None) for each in found
            ]

    def test_outputs(self) -> None:
        self.assertEqual(self.stale("a.o"), [])
        self.assertEqual(self.stale("a.o", build_log(7, ("a.o", 1))), [])
        self.assertEqual(self.stale("a.o", times={"a.o": 0}), [("a.o", StaleReason.MISSING_OUTPUT, "a.o")])
        self.assertEqual(self.stale("a.o", times={"a.c": 3}), [("a.o", StaleReason.OLDER_OUTPUT, "a.o")])
        earlier = build_log(6, ("a.o", 0))
        self.assertEqual(self.stale("a.o", earlier), [("a.o", StaleReason.EARLIER_BUILD, "a.o")])
        self.assertEqual(self.stale("b.o"), [("b.o", StaleReason.NOT_LOGGED, "b.o")])
        other = build_log(5, ("b.o", 2))
        self.assertEqual(self.stale("b.o", other), [("b.o", StaleReason.OTHER_COMMAND, "b.o")])

    def test_inputs(self) -> None:
        self.assertEqual(self.stale("a.o", times={"a.c": 0}), [("a.o", StaleReason.STALE_INPUT, "a.c")])
        needed = [("b.o", StaleReason.NOT_LOGGED, "b.o"), ("app", StaleReason.STALE_INPUT, "b.o")]
        self.assertEqual(self.stale("app"), needed)
        with graph_of(STALE) as graph:
            found = graph.stale(b"", self.times)
            self.assertEqual([each.edge.number for each in found], [1, 2])

    def test_unknown(self) -> None:
        with Graph.from_files({"build.ninja": DISCOVERING}, times={}) as graph:
            made, found = graph.stale(b"", {"a.c": 1, "a.o": 1}, [graph.target("a.o")])
            self.assertEqual((made.edge, made.reason), (graph.edges[2], StaleReason.STALE_INPUT))
            self.assertEqual(found, (graph.edges[0], StaleReason.UNKNOWN_INPUTS, None))

    def test_refused(self) -> None:
        for log in b"#", build_log(4), deps_log(4, "a.o", "a.h"):
            with self.assertRaises(BadBuildLog):
                self.stale("all", log)
        with self.assertRaises(TypeError):
            self.stale("all", ".ninja_log")  # type: ignore[arg-type]
        for time in -1, 1 << 64:
            with self.assertRaises(ValueError):
                self.stale("all", times={"a.c": time})
        with graph_of(STALE) as graph, graph_of(STALE) as other:
            with self.assertRaises(ValueError):
                graph.stale(b"", {}, [other.target("all")])
        with Graph.from_files({"build.ninja": b"build a\xff: phony b\n"}) as graph:
            with self.assertRaises(ValueError):
                graph.stale(b"", {})


# A manifest that a generator makes again from its inputs, one of which is generated too.
REGENERATED = """\
rule again
  command = again
  generator = 1
rule cp
  command = cp $in $out
include rules.ninja
build build.ninja: again CMakeLists.txt | list.cmake || order
build list.cmake: cp list.in
build order: cp order.in
build stamp: again stamp.in
build app: cp main.c list.cmake
"""


class Manifests(unittest.TestCase):
    def test_made_from(self) -> None:
        files = {"build.ninja": REGENERATED, "rules.ninja": ""}
        with Graph.from_files(files) as graph:
            self.assertEqual(graph.opened(), ["build.ninja", "rules.ninja"])
            self.assertIsNone(graph.file("rules.ninja"))
            self.assertEqual(paths(graph.made_from(graph.files)), paths(self.sources(graph)))
            self.assertEqual(graph.made_from([graph.target("main.c")]), [])
            self.assertEqual(graph.made_from([]), [])
            for file in self.sources(graph):
                self.assertEqual(graph.made_from([graph.target("main.c"), file]), [file])

    def sources(self, graph: Graph) -> "list[File]":
        """By hand: all but what the edge of `app` alone has."""
        return [file for file in graph.files if file.path not in ("app", "main.c", "stamp")]

    def test_plain(self) -> None:
        with Graph.from_files({"./build.ninja": "build a: phony build.ninja\n"}, "./build.ninja") as graph:
            self.assertEqual(graph.opened(), ["./build.ninja"])
            self.assertEqual(paths(graph.made_from(graph.files)), ["build.ninja"])


class Faults(unittest.TestCase):
    def test_fault(self) -> None:
        with self.assertRaises(Fault) as caught:
            graph_of("build a: unknown b\n")
        fault = caught.exception
        self.assertEqual(str(fault), "build.ninja:1:10: unknown build rule 'unknown'")
        self.assertEqual(fault.kind, FaultKind.UNKNOWN_RULE)
        self.assertEqual((fault.file, fault.line, fault.column), ("build.ninja", 1, 10))
        again = pickle.loads(pickle.dumps(fault))
        self.assertEqual((str(again), again.kind), (str(fault), fault.kind))

    def test_fault_without_location(self) -> None:
        with graph_of() as graph, self.assertRaises(Fault) as caught:
            graph.target("nothing")
        fault = caught.exception
        self.assertEqual(fault.kind, FaultKind.UNKNOWN_TARGET)
        self.assertEqual((fault.file, fault.line, fault.column), (None, None, None))

    def test_missing_file(self) -> None:
        with self.assertRaises(Fault) as caught:
            Graph.from_files({"build.ninja": "include rules.ninja\n"})
        self.assertEqual(caught.exception.kind, FaultKind.MISSING)


class Misuse(unittest.TestCase):
    def test_other_graph(self) -> None:
        with graph_of() as one, graph_of() as other:
            self.assertNotEqual(one.edges[0], other.edges[0])
            self.assertNotEqual(one.files[0], one.edges[0])
            with self.assertRaises(ValueError):
                one.affected([other.files[0]])
            with self.assertRaises(TypeError):
                one.needed(["app"])  # type: ignore[list-item]
            with self.assertRaises(TypeError):
                one.needed([one.edges[0]])  # type: ignore[list-item]

    def test_numbers(self) -> None:
        with graph_of() as graph:
            for number in -1, 5:
                with self.assertRaises(ValueError):
                    Edge(graph, number)
            self.assertEqual(Edge(graph, 4), graph.edges[4])
            for take in -1, 1 << 64:
                with self.assertRaises(ValueError):
                    graph.page(graph.defaults(), take)

    def test_no_integers(self) -> None:
        """A number that is not an integer is refused, as by `range`; `__index__` makes an integer."""

        class Two:
            def __index__(self) -> int:
                return 2

        others: "tuple[Any, ...]" = 0.5, 1.0, Decimal(1), Fraction(1), 1j, "1", b"1"
        with graph_of() as graph:
            for number in *others, None:
                for numbered in File, Edge:
                    with self.assertRaises(TypeError):
                        numbered(graph, number)
            for take in others:
                with self.assertRaises(TypeError):
                    graph.page(graph.defaults(), take)
            for index in others:
                with self.assertRaises(TypeError):
                    graph.edges[index]
            self.assertEqual(Edge(graph, Two()), graph.edges[2])
            self.assertEqual(repr(File(graph, True).number), "1")
            pages = graph.page(graph.defaults(), Two()), graph.page(graph.defaults(), True)
            self.assertEqual([len(page.edges) for page in pages], [2, 1])

    def test_flags(self) -> None:
        """Flags are true or false as in `if`, whatever they are."""
        true: "tuple[Any, ...]" = 1, 2, 1 << 32, 0.5, "yes", [0]
        with graph_of() as graph:
            app, check = graph.target("app"), graph.target("check")
            for flag in true:
                chain = graph.path_between(app, check, with_validations=flag)
                self.assertEqual(len(chain or []), 2)
            self.assertIsNone(graph.path_between(app, check, with_validations=cast(bool, None)))
        for flag in true:
            with self.assertRaises(Fault):
                Graph.from_files({"build.ninja": BOUND, "d": "x"}, joins_dyndeps=flag)

    def test_logs(self) -> None:
        logs: "tuple[Any, ...]" = "", ".ninja_deps", bytearray(b"# ninjadeps\n"), 0.5
        for log in logs:
            with graph_of() as graph, self.assertRaises(TypeError):
                graph.undeclared(log)
            with self.assertRaises(TypeError):
                Graph.from_files({"build.ninja": MANIFEST}, deps_log=log)

    def test_sets(self) -> None:
        with graph_of() as graph:
            self.assertEqual(len({graph.edges[0], Edge(graph, 0), graph.edges[1]}), 2)
            self.assertEqual(repr(graph.edges[2]), "<Edge 2 'app'>")
            self.assertEqual(repr(graph.edges[2].inputs[0].file), "<File 0 'a.o'>")

    def test_copies(self) -> None:
        with graph_of() as graph:
            copies: "tuple[Callable[[object], object], ...]" = copy.copy, copy.deepcopy, pickle.dumps
            for kept in graph, graph.edges[0], graph.files[0]:
                for copying in copies:
                    with self.assertRaises(TypeError):
                        copying(kept)

    def test_closed(self) -> None:
        graph = graph_of()
        edge = graph.edges[0]
        graph.close()
        graph.close()
        self.assertEqual(repr(edge), "<Edge 0 of a closed graph>")
        with self.assertRaises(ValueError):
            edge.rule

    def test_threads(self) -> None:
        with graph_of() as graph, graph._session.turn():
            refused = []

            def ask() -> None:
                try:
                    graph.defaults()
                except RuntimeError as error:
                    refused.append(str(error))

            thread = threading.Thread(target=ask)
            thread.start()
            thread.join()
            ask()
            with self.assertRaises(RuntimeError):
                graph.close()
        self.assertEqual(refused, ["the graph is in use by another call"] * 2)


# Prints the number of edges, after bytes that are not a deps log, and the size of a large file.
LIMITED = """
from ninja_explain import BadDepsLog, Graph, _files
try:
    Graph.load(deps_log="build.ninja")
except BadDepsLog:
    print(len(Graph.load().edges), len(_files.Folder(b".", False).required(b"large")))
"""


class Disk(unittest.TestCase):
    def setUp(self) -> None:
        folder = tempfile.TemporaryDirectory()
        self.addCleanup(folder.cleanup)
        self.folder = Path(folder.name) / "out"
        self.folder.mkdir()

    def test_folder(self) -> None:
        (self.folder / "build.ninja").write_text("include rules.ninja\nbuild a: cp b\n")
        (self.folder / "rules.ninja").write_text("rule cp\n command = cp $in $out\n")
        with Graph.load(folder=self.folder) as graph:
            self.assertEqual(graph.edges[0].command, "cp b a")
        self.assertEqual(run(["-t", "rules"], self.folder), (0, "cp\nphony\n", ""))

    def test_discovered(self) -> None:
        for name, text in DEPFILE.items():
            (self.folder / name).write_text(text)
        (self.folder / ".ninja_deps").write_bytes(deps_log(4, "a.o", "b.h"))
        object_file = self.folder / "a.o"
        for change, unknown in (lambda: None, False), (object_file.touch, True):
            change()
            with Graph.load(folder=self.folder, joins_discovered=True) as graph:
                self.assertEqual(graph.edges[0].is_unknown, unknown)
                self.assertIs(graph.edges[1].is_unknown, False)
        # (all of the first second of 1970 is its first nanosecond)
        os.utime(object_file, (0, 0))
        with Graph.load(folder=self.folder, joins_discovered=True) as graph:
            self.assertIs(graph.edges[0].is_unknown, False)
        (self.folder / ".ninja_deps").unlink()
        with Graph.load(folder=self.folder, joins_discovered=True) as graph:
            self.assertIs(graph.edges[0].is_unknown, True)

    def test_deps_log(self) -> None:
        (self.folder / "build.ninja").write_text(DEPS)
        (self.folder / ".ninja_deps").write_bytes(deps_log(4, "a.o", "a.h"))
        with Graph.load(folder=self.folder, deps_log=".ninja_deps") as graph:
            self.assertEqual(graph.edges[0].inputs[1].path, "a.h")
        with self.assertRaises(FileNotFoundError):
            Graph.load(folder=self.folder, deps_log="none")
        with self.assertRaises(PermissionError):
            Graph.load(folder=self.folder, deps_log="../none")

    def test_outside(self) -> None:
        (self.folder / "build.ninja").write_text("include ../rules.ninja\n")
        (self.folder.parent / "rules.ninja").write_text("build a: phony\n")
        with self.assertRaises(PermissionError):
            Graph.load(folder=self.folder)
        with Graph.load(folder=self.folder, allow_outside=True) as graph:
            self.assertEqual(len(graph.edges), 1)

    def test_not_regular(self) -> None:
        (self.folder / "build.ninja").mkdir()
        with self.assertRaises(IsADirectoryError):
            Graph.load(folder=self.folder)
        os.mkfifo(self.folder / "pipe")
        with self.assertRaises(OSError):
            Graph.load("pipe", self.folder)

    def test_memory(self) -> None:
        """Files are read in the memory to which docs/RELIABILITY.md limits a run, and without copies."""
        (self.folder / "build.ninja").write_text(MANIFEST)
        with open(self.folder / "large", "wb") as file:
            file.truncate(500_000_000)
        environment = {**os.environ, "PYTHONPATH": os.pathsep.join(sys.path)}
        words = ["sh", "-c", 'ulimit -v 1000000; exec "$0" "$@"', sys.executable, "-c", LIMITED]
        ran = subprocess.run(words, cwd=self.folder, env=environment, capture_output=True, text=True)
        self.assertEqual((ran.returncode, ran.stdout, ran.stderr), (0, "5 500000000\n", ""))

    def test_large(self) -> None:
        """A file of many pieces is read whole, and a file larger than 1 GiB is refused unread."""
        lines = (f"# {'x' * 90}\n" for _ in range(30_000))
        (self.folder / "build.ninja").write_text(f"{''.join(lines)}{MANIFEST}")
        with Graph.load(folder=self.folder) as graph:
            self.assertEqual(graph.edges[0].place, Place("build.ninja", 30_006, 1))
        with open(self.folder / "large", "wb") as file:
            file.truncate((1 << 30) + 1)
        with self.assertRaises(OSError) as caught:
            Graph.load("large", self.folder)
        self.assertEqual((caught.exception.errno, caught.exception.filename[-5:]), (errno.EFBIG, "large"))

    def test_largest(self) -> None:
        """A file of the greatest size is read, as is a file that states no size; a larger file is refused."""
        (self.folder / "build.ninja").write_text(MANIFEST)
        with mock.patch("ninja_explain._files.LARGEST", len(MANIFEST)):
            Graph.load(folder=self.folder).close()
            (self.folder / "build.ninja").write_text(f"{MANIFEST}\n")
            with self.assertRaises(OSError) as caught:
                Graph.load(folder=self.folder)
            self.assertEqual(caught.exception.errno, errno.EFBIG)
        self.assertEqual(os.stat("/proc/self/maps").st_size, 0)
        with self.assertRaises(Fault), mock.patch("ninja_explain._files.LARGEST", 1 << 20):
            Graph.load("maps", "/proc/self")
        with self.assertRaises(OSError) as caught, mock.patch("ninja_explain._files.LARGEST", 20):
            Graph.load("maps", "/proc/self")
        self.assertEqual(caught.exception.errno, errno.EFBIG)

    def test_words(self) -> None:
        with self.assertRaises(ValueError):
            run(["-t", "rules\0"], self.folder)
        status, output, errors = run(iter(["-t", "rules"]), self.folder)
        self.assertEqual((status, output), (1, ""))
        self.assertIn("build.ninja", errors)


if __name__ == "__main__":
    unittest.main()

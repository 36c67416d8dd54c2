"""Tests of a graph that is asked while it is in use: by the handler of a signal, by a finalizer, by an
argument, by another thread, and in a forked process. Each answer is right, or refused."""

import gc
import os
import signal
import sys
import tempfile
import threading
import time
import unittest
import weakref
from collections.abc import Callable, Iterator
from pathlib import Path
from types import FrameType
from typing import Any, Optional

import ninja_explain
from ninja_explain import Edge, Fault, Graph

PACKAGE = os.path.dirname(ninja_explain.__file__)
EDGES, MOST_INPUTS = 60, 7
# How long a test waits for what depends on time.
SECONDS = 120

Question = Callable[[], object]


def input_paths(number: int) -> "list[str]":
    """The inputs of the edge with the given number, which no other edge has."""
    return [f"in{number}.{at}" for at in range(number % MOST_INPUTS + 1)]


RULES = "rule cc\n  command = cc $in -o $out\n"
BUILDS = [f"build out{number}: cc {' '.join(input_paths(number))}\n" for number in range(EDGES)]
# One edge needs all others.
LAST = f"build all: phony {' '.join(f'out{number}' for number in range(EDGES))}\n"
MANIFEST = RULES + "".join(BUILDS) + LAST


def numbers(edges: "list[Edge]") -> "list[int]":
    return [edge.number for edge in edges]


class Asked:
    """The questions about an edge, and the answers that the manifest has."""

    def __init__(self, graph: Graph, folder: Path, number: int) -> None:
        self.graph, self.folder, self.number = graph, folder, number
        self.inputs = input_paths(number)

    def questions(self) -> "Iterator[tuple[Question, object]]":
        graph, number, inputs = self.graph, self.number, self.inputs
        edge, last = graph.edges[number], graph.edges[EDGES]
        out, first = edge.outputs[0], edge.inputs[0].file
        yield lambda: [each.path for each in edge.inputs], inputs
        yield lambda: edge.command, f"cc {' '.join(inputs)} -o out{number}"
        yield lambda: (out.path, out.users, first.users), (f"out{number}", [last], [edge])
        yield lambda: numbers(graph.affected([first])), [number, EDGES]
        yield lambda: numbers(graph.needed([out])), [number]
        yield lambda: numbers(graph.commands([out, first])), [number]
        yield lambda: self.path_between(last.outputs[0].path), [f"out{number}", inputs[0]]
        yield lambda: graph.rules(), ["cc", "phony"]
        yield self.fault, f"none{number}"
        yield self.run, (0, "".join(f"out{at}: cc\n" for at in range(EDGES)) + "all: phony\n")

    def path_between(self, start: str) -> "list[str]":
        graph = self.graph
        steps = graph.path_between(graph.target(start), graph.target(self.inputs[0]))
        return [step.file.path for step in steps or []]

    def fault(self) -> str:
        """The missing target that a fault names."""
        name = f"none{self.number}"
        try:
            self.graph.target(name)
        except Fault as fault:
            return name if name in str(fault) else str(fault)
        return "no fault"

    def run(self) -> "tuple[int, str]":
        status, output, _ = self.graph.run(["-t", "targets", "all"], self.folder)
        return status, output


class Other:
    """A question that comes in while another one is asked, with its answers that are wrong."""

    def __init__(self, question: Question, wanted: object) -> None:
        self.question, self.wanted = question, wanted
        self.answered = self.refused = 0
        self.wrong: "list[object]" = []

    def __call__(self, *_: object) -> None:
        try:
            found = self.question()
        except RuntimeError:
            self.refused += 1
            return
        self.answered += 1
        if found != self.wanted:
            self.wrong.append(found)


def at_each_instruction(question: Question, other: Callable[[], None]) -> object:
    """The answer to a question, while another one comes in before each instruction of the package, as
    the handler of a signal may."""

    def trace(frame: FrameType, event: str, _: object) -> Any:
        if not frame.f_code.co_filename.startswith(PACKAGE):
            return None
        frame.f_trace_opcodes = True
        if event in ("line", "opcode"):
            other()
        return trace

    before = sys.gettrace()
    sys.settrace(trace)
    try:
        return question()
    finally:
        sys.settrace(before)


class OneGraph(unittest.TestCase):
    """A graph, and questions about it."""

    def setUp(self) -> None:
        folder = tempfile.TemporaryDirectory()
        self.addCleanup(folder.cleanup)
        self.folder = Path(folder.name)
        (self.folder / "build.ninja").write_text(MANIFEST)
        self.graph = Graph.load(folder=self.folder)
        self.addCleanup(self.graph.close)

    def asked(self, number: int) -> "list[tuple[Question, object]]":
        return list(Asked(self.graph, self.folder, number).questions())

    def other(self, number: int = EDGES - 1, at: int = 0) -> Other:
        return Other(*self.asked(number)[at])

    def expect_both(self, *others: Other) -> None:
        """Some questions were refused, some were answered, and none wrongly."""
        self.assertEqual([wrong for other in others for wrong in other.wrong], [])
        self.assertGreater(sum(other.refused for other in others), 0)
        self.assertGreater(sum(other.answered for other in others), 0)

    def expect_right(self, number: int) -> None:
        """The graph still answers, in this thread and in another one."""
        other = self.other(number)
        other()
        thread = threading.Thread(target=other)
        thread.start()
        thread.join()
        self.assertEqual((other.answered, other.refused, other.wrong), (2, 0, []))


class Turns(OneGraph):
    def test_alone(self) -> None:
        for number in range(MOST_INPUTS):
            for question, wanted in self.asked(number):
                self.assertEqual(question(), wanted)

    def test_at_each_instruction(self) -> None:
        """Each question comes in while each other one is asked about another edge."""
        for question, wanted in self.asked(3):
            for at in range(len(self.asked(5))):
                other = self.other(5, at)
                self.assertEqual(at_each_instruction(question, other), wanted)
                self.expect_both(other)

    def test_close_in_use(self) -> None:
        """A graph that is closed meanwhile answers, or is closed; a list is never cut off."""
        close = Other(self.graph.close, None)
        question, wanted = self.asked(3)[3]
        try:
            self.assertEqual(at_each_instruction(question, close), wanted)
        except ValueError:
            self.assertGreater(close.answered, 0)
        self.assertEqual(close.wrong, [])

    def test_timer(self) -> None:
        """The handler of a timer asks about another edge than the main program."""
        others = [self.other(at=at) for at in range(len(self.asked(0)))]
        questions = [asked for number in range(MOST_INPUTS) for asked in self.asked(number)]

        def handler(_: int, frame: Optional[FrameType]) -> None:
            for other in others:
                other()

        before = signal.signal(signal.SIGALRM, handler)
        self.addCleanup(signal.signal, signal.SIGALRM, before)
        self.addCleanup(signal.setitimer, signal.ITIMER_REAL, 0)
        signal.setitimer(signal.ITIMER_REAL, 0.0005, 0.0005)
        end, wrong = time.monotonic() + SECONDS, 0
        while not wrong and not all(other.refused > 10 < other.answered for other in others):
            wrong = sum(question() != wanted for question, wanted in questions)
            self.assertLess(time.monotonic(), end)
        signal.setitimer(signal.ITIMER_REAL, 0)
        self.assertEqual(wrong, 0)
        self.expect_both(*others)

    def test_raising_handler(self) -> None:
        """An exception that a handler raises ends the interrupted call, and no later call."""

        class Stop(Exception):
            pass

        def handler(_: int, frame: Optional[FrameType]) -> None:
            raise Stop

        before = signal.signal(signal.SIGALRM, handler)
        self.addCleanup(signal.signal, signal.SIGALRM, before)
        questions = self.asked(3)
        for tenths in range(500):
            try:
                signal.setitimer(signal.ITIMER_REAL, 0.00005 + tenths / 1e6)
                while True:
                    for question, wanted in questions:
                        self.assertEqual(question(), wanted)
            except Stop:
                self.expect_right(4)

    def test_finalizers(self) -> None:
        """What is freed while a call runs asks, by `__del__` and by `weakref.finalize`."""
        by_del, by_weakref = self.other(), self.other(at=3)

        class Knot:
            def __init__(self) -> None:
                self.itself = self
                weakref.finalize(self, by_weakref)

            def __del__(self) -> None:
                by_del()

        self.addCleanup(gc.set_threshold, *gc.get_threshold())
        questions = self.asked(3)
        gc.set_threshold(1)
        end = time.monotonic() + SECONDS
        while not all(other.refused and other.answered for other in (by_del, by_weakref)):
            for question, wanted in questions:
                Knot()
                self.assertEqual(question(), wanted)
            self.assertLess(time.monotonic(), end)
        gc.collect()
        self.expect_both(by_del)
        self.expect_both(by_weakref)

    def test_collected(self) -> None:
        """A collection of garbage at each instruction, with finalizers that ask."""
        other = self.other()

        class Knot:
            def __init__(self) -> None:
                self.itself = self

            def __del__(self) -> None:
                other()

        def collect() -> None:
            Knot()
            gc.collect(0)

        for question, wanted in self.asked(3):
            self.assertEqual(at_each_instruction(question, collect), wanted)
        self.expect_both(other)

    def test_arguments(self) -> None:
        """Arguments that ask the graph are read before the call."""
        graph = self.graph

        class Asking:
            def __fspath__(self) -> str:
                return graph.edges[3].outputs[0].path

        outputs = (edge.outputs[0] for edge in graph.edges[:2])
        self.assertEqual(numbers(graph.needed(outputs)), [0, 1])
        outputs = (file for file in graph.files if file.path == "in3.1")
        self.assertEqual(numbers(graph.affected(outputs)), [3, EDGES])
        page = graph.page((file for edge in graph.edges[:3] for file in edge.outputs), take=2)
        self.assertEqual(numbers(page.edges), [0, 1])
        self.assertEqual(graph.target(Asking()).path, "out3")
        words = ["-t", "targets", "rule", graph.edges[3].rule]
        ran = graph.run((word for word in words if graph.rules()), self.folder)
        self.assertEqual(ran.output, "".join(sorted(f"out{number}\n" for number in range(EDGES))))

    def test_threads(self) -> None:
        """Threads that ask at the same time."""
        others = [self.other(number, at) for number in range(4) for at in range(len(self.asked(0)))]
        end = time.monotonic() + SECONDS

        def ask(mine: "list[Other]") -> None:
            while not all(other.answered > 20 for other in mine) and time.monotonic() < end:
                for other in mine:
                    other()

        threads = [threading.Thread(target=ask, args=[others[at::4]]) for at in range(4)]
        for thread in threads:
            thread.start()
        for thread in threads:
            thread.join()
        self.assertLess(time.monotonic(), end)
        self.assertEqual([other.wrong for other in others if other.wrong], [])


class Forks(OneGraph):
    """What a forked process makes of a graph."""

    def in_child(self, check: Callable[[], bool]) -> None:
        """Runs a check in a forked process, which has to end well."""
        child = os.fork()
        if not child:
            try:
                os._exit(0 if check() else 3)
            finally:
                os._exit(4)
        self.assertEqual(os.waitstatus_to_exitcode(os.waitpid(child, 0)[1]), 0)

    def test_fork(self) -> None:
        def is_right() -> bool:
            return all(question() == wanted for question, wanted in self.asked(3))

        self.in_child(is_right)
        self.assertTrue(is_right())

        def is_closed() -> bool:
            self.graph.close()
            return not self.graph.is_open

        self.in_child(is_closed)
        self.assertTrue(is_right())

    def test_fork_in_handler(self) -> None:
        """A process that is forked while a call runs continues it, as its parent does."""
        parent = os.getpid()
        children: "list[int]" = []

        def fork() -> None:
            if os.getpid() == parent and len(children) < 50:
                children.append(os.fork())

        for question, wanted in self.asked(3)[3:5]:
            children.clear()
            is_right = at_each_instruction(question, fork) == wanted
            if os.getpid() != parent:
                os._exit(0 if is_right else 3)
            self.assertTrue(is_right)
            ends = [os.waitstatus_to_exitcode(os.waitpid(child, 0)[1]) for child in children]
            self.assertEqual(ends, [0] * 50)

    def test_fork_while_in_use(self) -> None:
        """The call of another thread goes on in the parent alone: the child is refused."""
        is_held, is_done = threading.Event(), threading.Event()

        def hold() -> None:
            with self.graph._session.turn():
                is_held.set()
                is_done.wait(SECONDS)

        other = self.other()
        thread = threading.Thread(target=hold)
        thread.start()
        is_held.wait(SECONDS)

        def is_refused() -> bool:
            other()
            del self.graph
            gc.collect()
            return (other.refused, other.answered) == (1, 0)

        self.in_child(is_refused)
        is_done.set()
        thread.join()
        self.expect_right(3)


if __name__ == "__main__":
    unittest.main()

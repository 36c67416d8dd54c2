"""The graph of a manifest."""

from __future__ import annotations

import operator
import os
from collections.abc import Callable, Iterable, Iterator, Mapping, Sequence
from enum import IntEnum
from typing import (
    TYPE_CHECKING,
    Generic,
    NamedTuple,
    NoReturn,
    SupportsIndex,
    TypeVar,
    Union,
    overload,
)

from ninja_explain._calls import (
    GREATEST,
    TIME_ABSENT,
    TIME_UNKNOWN,
    Files,
    Session,
    encoded,
    number_arguments,
    text_arguments,
)
from ninja_explain._files import NOWHERE, Folder

if TYPE_CHECKING:
    from typing_extensions import Self

AnyPath = Union[str, bytes, os.PathLike[str]]


class Kind(IntEnum):
    """How an edge has an input ("Build statements" in the Ninja manual)."""

    EXPLICIT = 0
    IMPLICIT = 1
    ORDER_ONLY = 2


class StaleReason(IntEnum):
    """Why an edge is stale, as in `enum nx_stale_reason` of the header for C."""

    UNKNOWN_INPUTS = 0
    STALE_INPUT = 1
    MISSING_OUTPUT = 2
    OLDER_OUTPUT = 3
    OTHER_COMMAND = 4
    EARLIER_BUILD = 5
    NOT_LOGGED = 6


_KINDS = tuple(Kind)
# Where Ninja keeps its deps log, in the build directory.
_DEPS_LOG = b".ninja_deps"
# The number that the library returns for a validation in place of a kind.
_VALIDATION = 3


class Place(NamedTuple):
    """A location in a manifest; line and column count from 1, and columns count bytes."""

    file: str
    line: int
    column: int

    def __str__(self) -> str:
        return f"{self.file}:{self.line}:{self.column}"


class Run(NamedTuple):
    """The result of the program for some arguments: its exit status, and its output on standard
    output and standard error."""

    status: int
    output: str
    errors: str


class _Numbered:
    """A numbered part of a graph. Parts with the same type, graph and number are equal."""

    __slots__ = ("_graph", "_number")
    _noun, _count = "", ""

    def __init__(self, graph: Graph, number: SupportsIndex) -> None:
        """The item with the given number. Raises TypeError if the number is not an integer."""
        number = operator.index(number)
        if not 0 <= number < graph._session.count(self._count):
            raise ValueError(f"there is no {self._noun} {number}")
        self._graph, self._number = graph, number

    @classmethod
    def _of(cls, graph: Graph, number: int) -> Self:
        """The item with a number that the graph has returned."""
        known = cls.__new__(cls)
        known._graph, known._number = graph, number
        return known

    @classmethod
    def _each_of(cls, graph: Graph, numbers: Iterable[int]) -> list[Self]:
        """The same of many numbers, without a call of `_of` for each, since lists may be long."""
        new, each = cls.__new__, []
        for number in numbers:
            known = new(cls)
            known._graph, known._number = graph, number
            each.append(known)
        return each

    @property
    def graph(self) -> Graph:
        return self._graph

    @property
    def number(self) -> int:
        """Its number, from 0, in the order in which manifests are read."""
        return self._number

    @property
    def _session(self) -> Session:
        return self._graph._session

    def __eq__(self, other: object) -> bool:
        if not isinstance(other, _Numbered) or type(other) is not type(self):
            return NotImplemented
        return other._graph is self._graph and other._number == self._number

    def __hash__(self) -> int:
        return hash((self._noun, id(self._graph), self._number))

    def __repr__(self) -> str:
        name = self._name() if self._graph.is_open else "of a closed graph"
        return f"<{type(self).__name__} {self._number} {name}>"

    def _name(self) -> str:
        raise NotImplementedError

    def __reduce__(self) -> NoReturn:
        raise TypeError(f"{self._noun} of a graph cannot be pickled")


class File(_Numbered):
    """A path that edges name."""

    __slots__ = ()
    _noun, _count = "file", "nx_file_count"

    @property
    def path(self) -> str:
        return self._session.text("nx_path", self._number)

    @property
    def maker(self) -> Edge | None:
        """The edge that makes it; None for a source."""
        edge = self._session.number("nx_maker", self._number)
        return None if edge is None else Edge._of(self._graph, edge)

    @property
    def users(self) -> list[Edge]:
        """The edges that have it as an input of any kind, by number."""
        return Edge._each_of(self._graph, self._session.items("nx_users", self._number))

    @property
    def validation_users(self) -> list[Edge]:
        """The edges that name it as a validation, by number."""
        return self._graph._edges_at("nx_validation_user", self._number)

    def _name(self) -> str:
        return repr(self.path)

    def __fspath__(self) -> str:
        return self.path


class Input:
    """An input of an edge: a file, and its kind."""

    __slots__ = ("_file", "_kind")

    def __init__(self, file: File, kind: Kind) -> None:
        self._file, self._kind = file, kind

    @property
    def file(self) -> File:
        return self._file

    @property
    def kind(self) -> Kind:
        return self._kind

    @property
    def path(self) -> str:
        return self._file.path

    def __eq__(self, other: object) -> bool:
        if not isinstance(other, Input):
            return NotImplemented
        return other._file == self._file and other._kind == self._kind

    def __hash__(self) -> int:
        return hash((self._file, self._kind))

    def __repr__(self) -> str:
        return f"<Input {self._file!r} {self._kind.name}>"


class Edge(_Numbered):
    """A build statement."""

    __slots__ = ()
    _noun, _count = "edge", "nx_edge_count"

    @property
    def outputs(self) -> list[File]:
        """Its outputs, the explicit ones first."""
        return File._each_of(self._graph, self._session.items("nx_outputs", self._number))

    @property
    def explicit_outputs(self) -> list[File]:
        count = self._session.count("nx_explicit_outputs", self._number)
        return self.outputs[:count]

    @property
    def inputs(self) -> list[Input]:
        """Its inputs: the explicit ones, then the implicit and then the order-only ones."""
        numbers, kinds = self._session.inputs(self._number)
        files = File._each_of(self._graph, numbers)
        return [Input(file, _KINDS[kind]) for file, kind in zip(files, kinds)]

    @property
    def validations(self) -> list[File]:
        return self._graph._files_at("nx_validation", self._number)

    @property
    def rule(self) -> str:
        return self._session.text("nx_rule_name", self._number)

    @property
    def is_phony(self) -> bool:
        return bool(self._session.flag("nx_is_phony", self._number))

    @property
    def is_unknown(self) -> bool | None:
        """Whether its discovered inputs are unknown, so that Ninja runs it again: the deps log lacks a
        record that counts, or its depfile is missing, empty or faulty. None if the graph was loaded
        without discovered inputs."""
        flag = self._session.optional_flag("nx_is_unknown", self._number)
        return None if flag is None else bool(flag)

    @property
    def command(self) -> str:
        """Its command, as it is passed to a shell. Phony edges are never run; their command
        is what their block binds to `command`, usually empty."""
        return self._session.text("nx_command", self._number)

    def variable(self, name: str) -> str:
        """The value of a variable, such as `description`, `depfile` or any other name; empty if it is
        bound nowhere."""
        return self._session.text("nx_variable", self._number, *text_arguments(name))

    @property
    def place(self) -> Place:
        """Where its build statement is."""
        line, column = self._session.place("nx_edge_place", self._number) or (0, 0)
        return Place(self._session.text("nx_edge_file", self._number), line, column)

    def _name(self) -> str:
        return repr(self.outputs[0].path)


class Step(NamedTuple):
    """A step of a chain: an edge, one of its inputs, a file, and the kind of that input, which is None
    for a validation."""

    edge: Edge
    file: File
    kind: Kind | None


class UndeclaredInput(NamedTuple):
    """An edge, and a file that it uses without declaring it."""

    edge: Edge
    file: File


class StaleEdge(NamedTuple):
    """An edge that Ninja would run now, and why: its first reason, and the file that this is about, an
    input for `STALE_INPUT` and else an output. `file` is None for `UNKNOWN_INPUTS`."""

    edge: Edge
    reason: StaleReason
    file: File | None


class LogRead(NamedTuple):
    """How many bytes of a deps log were read, and whether that is the whole log."""

    size: int
    is_whole: bool


class Page(NamedTuple):
    """Some of the edges that targets need, and the mark at which the next page begins: None if no edge
    is left."""

    edges: list[Edge]
    mark: str | None


Item = TypeVar("Item", File, Edge)


class _All(Sequence[Item], Generic[Item]):
    """All files or all edges of a graph, by number."""

    def __init__(self, graph: Graph, kind: type[Item], count: int) -> None:
        self._graph, self._range = graph, range(count)
        self._kind: type[Item] = kind

    def __len__(self) -> int:
        return len(self._range)

    @overload
    def __getitem__(self, at: int) -> Item: ...
    @overload
    def __getitem__(self, at: slice) -> list[Item]: ...

    def __getitem__(self, at: int | slice) -> Item | list[Item]:
        if isinstance(at, slice):
            return [self._kind._of(self._graph, number) for number in self._range[at]]
        return self._kind._of(self._graph, self._range[at])

    def __iter__(self) -> Iterator[Item]:
        return (self._kind._of(self._graph, number) for number in self._range)


class Graph:
    """The graph of a manifest, by `Graph.load` or `Graph.from_files`.

    It keeps memory until it is closed, by `close`, at the end of a `with` block or with its last
    reference. Any thread may use it, for one call at a time: a call that comes during another one is
    refused with RuntimeError, even in the same thread, as from a signal handler or a finalizer. It can
    be neither copied nor pickled.
    """

    def __init__(self) -> None:
        self._session = Session()

    @classmethod
    def load(
        cls,
        path: AnyPath = "build.ninja",
        folder: AnyPath = ".",
        *,
        joins_dyndeps: bool = False,
        joins_discovered: bool = False,
        deps_log: AnyPath | None = None,
        allow_outside: bool = False,
    ) -> Graph:
        """The graph of a manifest and of all files that it includes, which are read in a directory.

        With `joins_dyndeps` its dyndep files are read and joined too. `deps_log` is the path of a deps
        log, which Ninja keeps as `.ninja_deps` in the build directory: each file that it names for the
        first output of an edge with a value of `deps` becomes an implicit input of the edge. With
        `joins_discovered` the inputs that builds discovered are joined as Ninja loads them: by that log,
        or by `.ninja_deps` if any, where a record that is older than its output does not count, and by
        depfiles. Only regular files of at most 1 GiB are read, and only below the directory, unless
        `allow_outside` is true; symbolic links are followed.

        Raises the first Fault of the manifest, or of joining the log: a dependency cycle, if the log
        is older than the manifest; BadDepsLog; PermissionError for a path outside of the directory;
        FileNotFoundError for a missing deps log; another OSError for an existing file that cannot be
        read; MemoryError.
        """
        graph = cls()
        place = Folder(encoded(folder), allow_outside)
        graph._session.call_with(place, "nx_load", *text_arguments(path), bool(joins_dyndeps))
        log = None if deps_log is None else place.required(encoded(deps_log))
        if joins_discovered:
            graph._discover(place, place.content(_DEPS_LOG) if log is None else log, place.time)
        elif log is not None:
            graph._join_deps(log)
        return graph

    @classmethod
    def from_files(
        cls,
        files: Mapping[str, bytes | str],
        path: str = "build.ninja",
        *,
        joins_dyndeps: bool = False,
        deps_log: bytes | None = None,
        times: Mapping[str, int] | None = None,
    ) -> Graph:
        """The graph of a manifest among the given files, by their paths; no other file exists.
        `deps_log` has the bytes of a deps log. With `times`, when outputs were last changed, in
        nanoseconds since 1970, the inputs that builds discovered are joined as by `joins_discovered`
        of `load`; an output without a time does not exist."""
        graph = cls()
        for name, content in files.items():
            graph._session.add(name, encoded(content))
        graph._session.call_with(NOWHERE, "nx_load", *text_arguments(path), bool(joins_dyndeps))
        if times is not None:
            changed = {encoded(name): time for name, time in times.items()}
            graph._discover(NOWHERE, deps_log, lambda name: changed.get(name, TIME_ABSENT))
        elif deps_log is not None:
            graph._join_deps(deps_log)
        return graph

    def _join_deps(self, log: bytes) -> None:
        self._session.call("nx_join_deps", *_log_arguments(log))

    def _discover(self, files: Files, log: bytes | None, time: Callable[[bytes], int]) -> None:
        """Joins what builds discovered, by a log if any, by depfiles and by times of outputs."""
        content, _ = _log_arguments(b"" if log is None else log)
        times = [_checked_time(time(encoded(edge.outputs[0].path))) for edge in self.edges]
        self._session.join_discovered(files, content, times)

    def close(self) -> None:
        """Frees its memory. Closing a closed graph has no effect."""
        self._session.close()

    @property
    def is_open(self) -> bool:
        return self._session.is_open

    def __enter__(self) -> Graph:
        return self

    def __exit__(self, *_: object) -> None:
        self.close()

    def __reduce__(self) -> NoReturn:
        raise TypeError("a graph cannot be copied or pickled")

    def __copy__(self) -> NoReturn:
        self.__reduce__()

    def __deepcopy__(self, _: object) -> NoReturn:
        self.__reduce__()

    def __repr__(self) -> str:
        if not self.is_open:
            return "<Graph, closed>"
        return f"<Graph of {len(self.edges)} edges and {len(self.files)} files>"

    # ---- edges and files

    @property
    def edges(self) -> Sequence[Edge]:
        """All edges, in the order in which build statements are read."""
        return _All(self, Edge, self._session.count("nx_edge_count"))

    @property
    def files(self) -> Sequence[File]:
        """All paths that edges name, without duplicates."""
        return _All(self, File, self._session.count("nx_file_count"))

    def rules(self) -> list[str]:
        """The names of the rules of the manifest's own scope, `phony` among them, in byte order."""
        return self._session.texts("nx_rule_name_at")

    def defaults(self) -> list[File]:
        """The files of the `default` lines or, without such a line, the roots."""
        return self._files_at("nx_default")

    def roots(self) -> list[File]:
        """The outputs that no edge has as an input."""
        return self._files_at("nx_root")

    def file(self, path: AnyPath) -> File | None:
        """The file at a path, which is compared verbatim; None if no edge names it."""
        number = self._session.number("nx_file_named", *text_arguments(path))
        return None if number is None else File._of(self, number)

    def target(self, word: AnyPath) -> File:
        """The file that an argument of Ninja's command line denotes: its path is cleaned, and `FILE^` is
        the first output of the first edge that has FILE as an input. Raises Fault if no file matches."""
        return File._of(self, self._session.count("nx_pick_target", *text_arguments(word)))

    def affected(self, files: Iterable[File]) -> list[Edge]:
        """The edges that a change of the files affects, by number: the edges that need any of the files
        through any chain of inputs."""
        return self._listed("nx_affected", files)

    def dirtied(self, files: Iterable[File]) -> list[Edge]:
        """The edges to build again after a change of the files, by number. Such an edge has unknown
        discovered inputs, or has one of the files as an output or as an explicit or implicit input, or
        has as an explicit or implicit input an output of another edge to build again. Load the graph
        with discovered inputs first: without them, no edge counts as unknown."""
        return self._listed("nx_dirtied", files)

    @property
    def log_read(self) -> LogRead | None:
        """How far the joined deps log was read; None if no log was joined."""
        read = self._session.log_read()
        return None if read is None else LogRead(*read)

    def opened(self) -> list[str]:
        """The paths of the files that were opened: the manifest, and another for each `include` and
        `subninja` statement."""
        return self._session.texts("nx_opened")

    def made_from(self, files: Iterable[File]) -> list[File]:
        """The files among the given ones on which the manifest depends: they were opened, or are inputs
        of an edge that makes an opened file or has a value of `generator`, or of an edge that such an
        edge needs through any chain of inputs. If one of them changes, everything may."""
        numbers = self._numbers(files)
        flags = self._session.made_from(numbers)
        return File._each_of(self, (number for number, is_set in zip(numbers, flags) if is_set))

    def needed(self, files: Iterable[File]) -> list[Edge]:
        """The edges that the files need through any chain of inputs, phony edges included, nearest first:
        the edges that make the files, then the edges that make their inputs, and so on."""
        return self._listed("nx_needed", files)

    def path_between(
        self, start: File, end: File, *, with_validations: bool = False
    ) -> list[Step] | None:
        """The steps of a shortest chain of inputs by which `start` needs `end`; None if it does not,
        or if they are the same file.

        The first step is from the edge that makes `start`, the last step to `end`, and each step from
        the edge that makes the file of the step before it. Of several shortest chains it is the first
        when inputs are tried in their order. Validations count as inputs too, after those of their
        edge, if `with_validations` is true.
        """
        first, last = self._number_of(start), self._number_of(end)
        found = self._session.steps(first, last, bool(with_validations))
        return None if found is None else [self._step(*step) for step in found]

    def _step(self, edge: int, file: int, kind: int) -> Step:
        of = None if kind == _VALIDATION else _KINDS[kind]
        return Step(Edge._of(self, edge), File._of(self, file), of)

    def undeclared(self, log: bytes) -> list[UndeclaredInput]:
        """The inputs that edges use without declaring them, by the bytes of a deps log.

        The log names the file for the first output of the edge, whose value of `deps` is not empty,
        another edge makes the file, and no chain of inputs leads from the edge to that maker. So the
        edge may run before the file is made. The inputs come by edge, then in the order of the log,
        without duplicates; an edge for which the log names `build.ninja` is left out. Nothing is joined.
        Load the graph without `deps_log`, which makes inputs of all that the log names.

        Raises BadDepsLog for other bytes, and MemoryError.
        """
        found = self._session.undeclared(*_log_arguments(log))
        return [UndeclaredInput(Edge._of(self, edge), File._of(self, file)) for edge, file in found]

    def stale(
        self, log: bytes, times: Mapping[str, int], targets: Iterable[File] | None = None
    ) -> list[StaleEdge]:
        """The edges that Ninja would run now for the targets, or without any for the defaults: the stale
        edges among those that `commands` lists, in its order.

        `log` has the bytes of a build log, which Ninja keeps as `.ninja_log` in the build directory; no
        bytes stand for a log without lines. `times` maps the path of a file to when it was last
        changed, in nanoseconds since 1970; a file without a time, or with 0, does not exist. Load the
        graph with discovered inputs first: without them, no edge counts as unknown.

        Raises BadBuildLog for other bytes; ValueError if a path is not UTF-8, or a time is out of range;
        and MemoryError.
        """
        content, _ = _log_arguments(log)
        changed = {encoded(name): time for name, time in times.items()}
        each = [_checked_time(changed.get(encoded(file.path), TIME_ABSENT)) for file in self.files]
        numbers = self._numbers(self.defaults() if targets is None else targets)
        found = self._session.stale(content, each, numbers)
        return [self._stale_edge(*item) for item in found]

    def _stale_edge(self, number: int, reason: int, place: int) -> StaleEdge:
        edge, why = Edge._of(self, number), StaleReason(reason)
        if why is StaleReason.UNKNOWN_INPUTS:
            return StaleEdge(edge, why, None)
        if why is StaleReason.STALE_INPUT:
            return StaleEdge(edge, why, edge.inputs[place].file)
        return StaleEdge(edge, why, edge.outputs[place])

    def commands(self, targets: Iterable[File]) -> list[Edge]:
        """The edges with commands that the targets need, each after all that it needs: the edges whose
        commands `ninja -t commands` lists."""
        return self.page(targets).edges

    def page(
        self, targets: Iterable[File], take: SupportsIndex | None = None, mark: str = ""
    ) -> Page:
        """At most `take` of the edges with commands that the targets need, from a mark on.

        The mark of the first page is empty. A mark fits the same manifest and targets, also in another
        process. Raises BadMark if the mark does not fit, ValueError if `take` is negative, and
        TypeError if it is not an integer.
        """
        most = GREATEST if take is None else operator.index(take)
        if not 0 <= most <= GREATEST:
            raise ValueError(f"take is out of range: {take}")
        numbers = number_arguments(self._numbers(targets))
        edges, end = self._session.page(*numbers, *text_arguments(mark), most)
        return Page(Edge._each_of(self, edges), end)

    # ---- whole runs

    def run(
        self, words: Iterable[str], folder: AnyPath = ".", *, allow_outside: bool = False
    ) -> Run:
        """Runs the program with the given arguments, without its own name, over the files in a directory,
        which are read as `load` reads them. What was read before is not read again. The loaded graph
        stays. Raises ValueError for an argument with a zero byte."""
        return _run(self._session, words, Folder(encoded(folder), allow_outside))

    # ---- lists

    def _numbers(self, files: Iterable[File]) -> list[int]:
        """The numbers of the files, which have to be of this graph."""
        return [self._number_of(file) for file in files]

    def _number_of(self, file: object) -> int:
        if not isinstance(file, File):
            raise TypeError(f"a File is needed, not {type(file).__name__}")
        if file.graph is not self:
            raise ValueError(f"a file of another graph: {file!r}")
        return file.number

    def _listed(self, name: str, files: Iterable[File]) -> list[Edge]:
        """The edges that a call lists for the files, which may be read from this graph meanwhile."""
        numbers = number_arguments(self._numbers(files))
        return Edge._each_of(self, self._session.listed(name, *numbers))

    def _edges_at(self, name: str, *arguments: int) -> list[Edge]:
        return Edge._each_of(self, self._session.numbers(name, *arguments))

    def _files_at(self, name: str, *arguments: int) -> list[File]:
        return File._each_of(self, self._session.numbers(name, *arguments))


def _checked_time(time: SupportsIndex) -> int:
    """A time as a number. Raises ValueError if it is out of range."""
    number = operator.index(time)
    if not 0 <= number <= TIME_UNKNOWN:
        raise ValueError(f"a time is out of range: {time}")
    return number


def _log_arguments(log: object) -> tuple[bytes, int]:
    """The bytes of a log as two arguments."""
    if not isinstance(log, bytes):
        raise TypeError(f"the bytes of a log are needed, not {type(log).__name__}")
    return log, len(log)


def run(words: Iterable[str], folder: AnyPath = ".", *, allow_outside: bool = False) -> Run:
    """Runs the program with the given arguments, without its own name, over the files in a directory,
    which are read as `Graph.load` reads them. Raises ValueError for an argument with a zero byte."""
    return _run(Session(), words, Folder(encoded(folder), allow_outside))


def _run(session: Session, words: Iterable[str], files: Files) -> Run:
    given = [encoded(word) for word in words]
    if any(b"\0" in word for word in given):
        raise ValueError("an argument has a zero byte")
    return Run(*session.run(files, b"".join(word + b"\0" for word in given)))

"""The calls of the library for C, by ctypes."""

from __future__ import annotations

import ctypes
import errno
import functools
import os
import threading
from ctypes import POINTER, c_char_p, c_int32, c_size_t, c_uint32, c_uint64
from pathlib import Path
from typing import Any, Callable, Iterator, Protocol, Sequence, TypeVar, cast

from ninja_explain._errors import STATUS_ERRORS, BadBuildLog, BadDepsLog, Fault, FaultKind

SONAME = "libninja_explain.so.1"
VARIABLE = "NINJA_EXPLAIN_LIBRARY"
# The version of the interface that is called here: a greater minor number works too.
MAJOR, MINOR = 1, 2

DONE, NOTHING, SHORT, FAULT, WANTED = range(5)
# The greatest number that a call takes.
GREATEST = c_size_t(-1).value
# Times of files: of a missing file, and an unknown time.
TIME_ABSENT, TIME_UNKNOWN = 0, c_uint64(-1).value
# How many items of a list one call returns at most.
ROOM = 4096
# How many times a manifest is loaded at most. Each load names all files that it lacks. Only a file
# that one of those files names takes another load.
MOST_LOADS = 1_000


class _Kept(ctypes.Structure):
    _fields_ = [("kept", ctypes.c_void_p)]


class _Step(ctypes.Structure):
    _fields_ = [("edge", c_size_t), ("file", c_size_t), ("kind", c_int32)]


class _EdgeInput(ctypes.Structure):
    _fields_ = [("edge", c_size_t), ("file", c_size_t)]


_NUMBER, _KIND = POINTER(c_size_t), POINTER(c_int32)
_TEXT, _NUMBERS = [c_char_p, c_size_t], [POINTER(c_size_t), c_size_t]
_BUFFER = [c_char_p, c_size_t, _NUMBER]
_AT = [c_size_t, c_size_t, _NUMBER]
_FROM = [c_size_t, c_size_t, *_NUMBERS]
# The arguments of each call after its session.
_CALLS: dict[str, Sequence[Any]] = {
    "nx_close": [],
    "nx_open": [c_uint64],
    "nx_add_file": [*_TEXT, *_TEXT],
    "nx_add_absent": _TEXT,
    "nx_load": [*_TEXT, c_uint32],
    "nx_join_deps": _TEXT,
    "nx_join_discovered": [*_TEXT, POINTER(c_uint64), c_size_t],
    "nx_log_read": [_NUMBER, _KIND],
    "nx_fault_kind": [_KIND],
    "nx_fault_place": [_NUMBER, _NUMBER],
    "nx_fault_file": _BUFFER,
    "nx_fault_line": _BUFFER,
    "nx_edge_count": [_NUMBER],
    "nx_file_count": [_NUMBER],
    "nx_wanted": [c_size_t, *_BUFFER],
    "nx_path": [c_size_t, *_BUFFER],
    "nx_rule_name": [c_size_t, *_BUFFER],
    "nx_rule_name_at": [c_size_t, *_BUFFER],
    "nx_edge_file": [c_size_t, *_BUFFER],
    "nx_command": [c_size_t, *_BUFFER],
    "nx_variable": [c_size_t, *_TEXT, *_BUFFER],
    "nx_file_named": [*_TEXT, _NUMBER],
    "nx_pick_target": [*_TEXT, _NUMBER],
    "nx_maker": [c_size_t, _NUMBER],
    "nx_default": [c_size_t, _NUMBER],
    "nx_root": [c_size_t, _NUMBER],
    "nx_found": [c_size_t, _NUMBER],
    "nx_users": [*_FROM, _NUMBER],
    "nx_validation_user": _AT,
    "nx_outputs": [*_FROM, _NUMBER],
    "nx_validation": _AT,
    "nx_inputs": [*_FROM, _KIND, c_size_t, _NUMBER],
    "nx_explicit_outputs": [c_size_t, _NUMBER],
    "nx_is_phony": [c_size_t, _KIND],
    "nx_is_unknown": [c_size_t, _KIND],
    "nx_edge_place": [c_size_t, _NUMBER, _NUMBER],
    "nx_affected": _NUMBERS,
    "nx_made_from": [*_NUMBERS, _KIND, c_size_t],
    "nx_opened": [c_size_t, *_BUFFER],
    "nx_dirtied": _NUMBERS,
    "nx_needed": _NUMBERS,
    "nx_path_between": [c_size_t, c_size_t, c_uint32, POINTER(_Step), c_size_t, _NUMBER],
    "nx_undeclared": [*_TEXT, POINTER(_EdgeInput), c_size_t, _NUMBER],
    "nx_stale": [*_TEXT, POINTER(c_uint64), c_size_t, *_NUMBERS],
    "nx_stale_edge": [c_size_t, _NUMBER, _KIND, _NUMBER],
    "nx_page": [*_NUMBERS, *_TEXT, c_size_t],
    "nx_page_mark": _BUFFER,
    "nx_run": [*_TEXT, _KIND],
    "nx_run_output": _BUFFER,
    "nx_run_errors": _BUFFER,
}


def _open_library() -> ctypes.CDLL:
    """The library that the environment names, else the library beside this module, as in a wheel, else
    the library that the system's loader finds."""
    packed = Path(__file__).with_name(SONAME)
    name = os.environ.get(VARIABLE) or (str(packed) if packed.is_file() else SONAME)
    advice = (
        f"install a wheel of ninja_explain that carries {SONAME}, or the package libninja-explain-dev, "
        f"or let {VARIABLE} name the file"
    )
    try:
        library = ctypes.CDLL(name)
        _declare(library)
    except (OSError, AttributeError) as error:
        raise ImportError(f"the library of ninja-explain cannot be used: {error}; {advice}") from error
    major, minor = c_size_t(), c_size_t()
    library.nx_version(ctypes.byref(major), ctypes.byref(minor))
    if major.value != MAJOR or minor.value < MINOR:
        found = f"{major.value}.{minor.value}"
        raise ImportError(f"{name} has the interface {found}, and {MAJOR}.{MINOR} is needed; {advice}")
    return library


def _declare(library: ctypes.CDLL) -> None:
    library.nx_version.argtypes = [_NUMBER, _NUMBER]
    for name, arguments in _CALLS.items():
        getattr(library, name).argtypes = [POINTER(_Kept), *arguments]


_library = _open_library()


def encoded(text: str | bytes | os.PathLike[str] | os.PathLike[bytes]) -> bytes:
    """The bytes of a path or a text, in which lone surrogates stand for bytes that are not UTF-8."""
    plain = os.fspath(text)
    return plain if isinstance(plain, bytes) else plain.encode("utf-8", "surrogateescape")


def decoded(content: bytes) -> str:
    return content.decode("utf-8", "surrogateescape")


class Files(Protocol):
    """Where files are read."""

    def content(self, path: bytes) -> bytes | None:
        """The bytes of the file at a path; None if it does not exist."""


Method = TypeVar("Method", bound=Callable[..., Any])


def in_turn(method: Method) -> Method:
    """The method of a session, refused with RuntimeError while the session is in use.

    Any other caller in the meantime, such as a signal handler or a finalizer in the same thread, would
    find a half-read list, and replace it.
    """

    @functools.wraps(method)
    def taken(session: Session, *arguments: Any) -> Any:
        with session.turn():
            return method(session, *arguments)

    return cast(Method, taken)


class Session:
    """A session of the library: a graph, and its last list and run.

    The methods without an underscore are `in_turn`; they call only methods with an underscore.
    """

    def __init__(self) -> None:
        self._turn = threading.Lock()
        self._kept = _Kept(None)
        self._buffer = ctypes.create_string_buffer(256)
        self._items, self._kinds = (c_size_t * ROOM)(), (c_int32 * ROOM)()
        self._call("nx_open", int.from_bytes(os.urandom(8), "little"))

    def turn(self) -> threading.Lock:
        """The lock under which calls are made. Raises RuntimeError while it is held.

        A caller enters it by `with` at once, and not by `acquire`: after `acquire` an exception from a
        signal handler could keep it held for ever. Between the test and the entry only another thread
        can take the lock, and then the caller waits.
        """
        if self._turn.locked():
            raise RuntimeError("the graph is in use by another call")
        return self._turn

    def __del__(self) -> None:
        # (a lock that is still held is that of a thread which a forked process does not have)
        if hasattr(self, "_kept") and not self._turn.locked():
            _library.nx_close(ctypes.byref(self._kept))

    @property
    def is_open(self) -> bool:
        return self._kept.kept is not None

    # ---- one call

    def _call(self, name: str, *arguments: Any) -> int:
        """Makes a call. Returns its status, or raises its exception if that is an error."""
        status: int = getattr(_library, name)(ctypes.byref(self._kept), *arguments)
        if status <= WANTED and status != FAULT:
            return status
        raise self._error(status)

    def _is_there(self, name: str, *arguments: Any) -> bool:
        """Makes a call. Returns whether it found something."""
        return self._call(name, *arguments) == DONE

    def _number(self, name: str, *arguments: Any) -> int | None:
        """The number that a call returns, if any."""
        number = c_size_t()
        return number.value if self._is_there(name, *arguments, ctypes.byref(number)) else None

    def _count(self, name: str, *arguments: Any) -> int:
        return self._number(name, *arguments) or 0

    def _optional_flag(self, name: str, *arguments: Any) -> int | None:
        """The small number that a call returns, if any."""
        flag = c_int32()
        return flag.value if self._is_there(name, *arguments, ctypes.byref(flag)) else None

    def _flag(self, name: str, *arguments: Any) -> int:
        return self._optional_flag(name, *arguments) or 0

    def _place(self, name: str, *arguments: Any) -> tuple[int, int] | None:
        """The line and the column that a call returns; None without a place."""
        line, column = c_size_t(), c_size_t()
        if not self._is_there(name, *arguments, ctypes.byref(line), ctypes.byref(column)):
            return None
        return line.value, column.value

    def _optional_text(self, name: str, *arguments: Any) -> str | None:
        """The text that a call returns, if any."""
        length = c_size_t()
        while True:
            size = len(self._buffer)
            status = self._call(name, *arguments, self._buffer, size, ctypes.byref(length))
            if status != SHORT:
                break
            self._buffer = ctypes.create_string_buffer(2 * length.value)
        if status != DONE:
            return None
        return decoded(ctypes.string_at(self._buffer, length.value))

    def _text(self, name: str, *arguments: Any) -> str:
        return self._optional_text(name, *arguments) or ""

    # ---- lists, which take many calls

    def _numbers(self, name: str, *arguments: Any) -> list[int]:
        """All numbers that a call returns by an index."""
        return list(self._by_index(lambda index: self._number(name, *arguments, index)))

    def _texts(self, name: str) -> list[str]:
        """All texts that a call returns by an index."""
        return list(self._by_index(lambda index: self._optional_text(name, index)))

    @staticmethod
    def _by_index(ask: Callable[[int], Any]) -> Iterator[Any]:
        index = 0
        while (found := ask(index)) is not None:
            yield found
            index += 1

    @in_turn
    def items(self, name: str, of: int) -> list[int]:
        """All numbers of the list that a call returns for an edge or a file, many at a time."""
        items: list[int] = []
        count = c_size_t()
        while True:
            self._call(name, of, len(items), self._items, ROOM, ctypes.byref(count))
            items += self._items[: count.value - len(items)]
            if len(items) == count.value:
                return items

    @in_turn
    def inputs(self, edge: int) -> tuple[list[int], list[int]]:
        """The files of all inputs of an edge, and their kinds."""
        files: list[int] = []
        kinds: list[int] = []
        count = c_size_t()
        rooms = self._items, ROOM, self._kinds, ROOM
        while True:
            self._call("nx_inputs", edge, len(files), *rooms, ctypes.byref(count))
            left = count.value - len(files)
            files += self._items[:left]
            kinds += self._kinds[:left]
            if len(files) == count.value:
                return files, kinds

    @in_turn
    def steps(self, start: int, end: int, with_validations: bool) -> list[tuple[int, int, int]] | None:
        """The steps of a shortest chain from one file to another, each an edge, a file and a kind; None
        without a chain."""
        count, room = c_size_t(), 64
        while True:
            given = (_Step * room)()
            found = given, room, ctypes.byref(count)
            if not self._is_there("nx_path_between", start, end, with_validations, *found):
                return None
            if count.value <= room:
                return [(step.edge, step.file, step.kind) for step in given[: count.value]]
            room = count.value

    @in_turn
    def undeclared(self, log: bytes, length: int) -> list[tuple[int, int]]:
        """The inputs that a deps log has and no edge declares, each an edge and a file."""
        count, room = c_size_t(), 256
        while True:
            given = (_EdgeInput * room)()
            self._call("nx_undeclared", log, length, given, room, ctypes.byref(count))
            if count.value <= room:
                return [(each.edge, each.file) for each in given[: count.value]]
            room = count.value

    @in_turn
    def stale(
        self, log: bytes, times: Sequence[int], targets: Sequence[int]
    ) -> list[tuple[int, int, int]]:
        """The stale edges that targets need, each an edge, the number of its reason, and a place."""
        given = (c_uint64 * len(times))(*times)
        rooms = given, len(times), *number_arguments(targets)
        try:
            self._call("nx_stale", log, len(log), *rooms)
        except BadDepsLog:
            raise BadBuildLog("not a build log of version 5, 6 or 7") from None
        return list(self._by_index(self._stale_edge))

    def _stale_edge(self, index: int) -> tuple[int, int, int] | None:
        edge, reason, place = c_size_t(), c_int32(), c_size_t()
        found = ctypes.byref(edge), ctypes.byref(reason), ctypes.byref(place)
        if not self._is_there("nx_stale_edge", index, *found):
            return None
        return edge.value, reason.value, place.value

    @in_turn
    def listed(self, name: str, *arguments: Any) -> list[int]:
        """The edges that a call lists."""
        self._call(name, *arguments)
        return self._numbers("nx_found")

    @in_turn
    def page(self, *arguments: Any) -> tuple[list[int], str | None]:
        """The edges of a page, and the mark at its end."""
        self._call("nx_page", *arguments)
        return self._numbers("nx_found"), self._optional_text("nx_page_mark")

    # ---- files

    def _add(self, path: str, content: bytes | None) -> None:
        """Supplies the bytes of a file, or records that it is absent."""
        if content is None:
            self._call("nx_add_absent", *text_arguments(path))
        else:
            self._call("nx_add_file", *text_arguments(path), content, len(content))

    def _call_with(self, files: Files, name: str, *arguments: Any) -> None:
        """Repeats a call until it wants no more files, which the given source supplies."""
        for _ in range(MOST_LOADS):
            if self._call(name, *arguments) != WANTED:
                return
            wanted = self._texts("nx_wanted")
            for path in wanted:
                self._add(path, files.content(encoded(path)))
        text = f"wanted after {MOST_LOADS} loads, each of which named another"
        raise OSError(errno.ELOOP, text, wanted[0])

    @in_turn
    def run(self, files: Files, words: bytes) -> tuple[int, str, str]:
        """Runs the program. Returns its exit status, its output and its errors."""
        status = c_int32()
        self._call_with(files, "nx_run", *text_arguments(words), ctypes.byref(status))
        return status.value, self._text("nx_run_output"), self._text("nx_run_errors")

    @in_turn
    def join_discovered(self, files: Files, log: bytes, times: Sequence[int]) -> None:
        """Joins what builds discovered, by a deps log, by depfiles and by times of outputs."""
        given = (c_uint64 * len(times))(*times)
        self._call_with(files, "nx_join_discovered", log, len(log), given, len(times))

    @in_turn
    def log_read(self) -> tuple[int, bool] | None:
        """How many bytes were read of the log joined last, and whether that is the whole log."""
        size, is_whole = c_size_t(), c_int32()
        if not self._is_there("nx_log_read", ctypes.byref(size), ctypes.byref(is_whole)):
            return None
        return size.value, bool(is_whole.value)

    @in_turn
    def made_from(self, files: Sequence[int]) -> list[bool]:
        """For each of the given files, whether the manifest depends on it."""
        flags = (c_int32 * len(files))()
        self._call("nx_made_from", *number_arguments(files), flags, len(files))
        return [bool(flag) for flag in flags]

    @in_turn
    def close(self) -> None:
        self._call("nx_close")

    # ---- the calls above that are questions of their own

    add, call, call_with = in_turn(_add), in_turn(_call), in_turn(_call_with)
    number, count, flag, place = in_turn(_number), in_turn(_count), in_turn(_flag), in_turn(_place)
    text, numbers, texts = in_turn(_text), in_turn(_numbers), in_turn(_texts)
    optional_flag = in_turn(_optional_flag)

    # ---- errors

    def _error(self, status: int) -> Exception:
        if status == FAULT:
            return self._fault()
        error, text = STATUS_ERRORS.get(status, (RuntimeError, f"unknown status {status}"))
        return error(text)

    def _fault(self) -> Fault:
        """The last fault of the session."""
        line, column = self._place("nx_fault_place") or (None, None)
        return Fault(
            self._text("nx_fault_line"),
            FaultKind.of(self._flag("nx_fault_kind")),
            self._optional_text("nx_fault_file"),
            line,
            column,
        )


def text_arguments(text: str | bytes | os.PathLike[str]) -> tuple[bytes, int]:
    """A text as two arguments."""
    content = encoded(text)
    return content, len(content)


def number_arguments(numbers: Sequence[int]) -> tuple[Any, int]:
    """Numbers as two arguments."""
    return (c_size_t * len(numbers))(*numbers), len(numbers)


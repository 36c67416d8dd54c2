"""Errors and faults."""

from __future__ import annotations

from enum import IntEnum


class FaultKind(IntEnum):
    """The kinds of faults, as in `enum nx_fault` of the header for C, whose comments say more."""

    UNKNOWN = 0
    BAD_BYTE = 1
    TAB = 2
    BAD_ESCAPE = 3
    EXPECTED = 4
    UNEXPECTED_INDENT = 5
    MISSING_COMMAND = 6
    RSP_PAIR = 7
    UNKNOWN_KEY = 8
    MISSING_DEPTH = 9
    DYNDEP_VERSION = 10
    DYNDEP_SHAPE = 11
    EMPTY_PATH = 12
    BAD_DEPTH = 13
    DUPLICATE_RULE = 14
    DUPLICATE_POOL = 15
    VERSION_TOO_NEW = 16
    MISSING = 17
    PATH_NOT_TEXT = 18
    TOO_DEEP = 19
    TOO_MANY_OPENINGS = 20
    IO = 21
    UNKNOWN_RULE = 22
    TWO_MAKERS = 23
    UNKNOWN_TARGET = 24
    RULE_VARIABLE_CYCLE = 25
    UNKNOWN_POOL = 26
    DYNDEP_NOT_INPUT = 27
    DYNDEP_NO_STATEMENT = 28
    DYNDEP_TWICE = 29
    DYNDEP_EXTRA = 30
    CYCLE = 31
    NO_OUT_EDGE = 32
    TEXT_NOT_UTF8 = 33
    OUT_OF_MEMORY = 34

    @classmethod
    def of(cls, number: int) -> FaultKind:
        """The kind with the given number; UNKNOWN if a newer library has added it."""
        try:
            return cls(number)
        except ValueError:
            return cls.UNKNOWN


class Fault(Exception):
    """Why a manifest is not a graph, or an argument not a target: FILE:LINE:COLUMN: TEXT, or TEXT alone.

    `line` and `column` count from 1, and columns count bytes. A fault without a location has None
    for `file`, `line` and `column`.
    """

    def __init__(
        self,
        text: str,
        kind: FaultKind = FaultKind.UNKNOWN,
        file: str | None = None,
        line: int | None = None,
        column: int | None = None,
    ) -> None:
        super().__init__(text, kind, file, line, column)
        self.kind, self.file, self.line, self.column = kind, file, line, column

    def __str__(self) -> str:
        return str(self.args[0])


class BadMark(ValueError):
    """A text that is not a mark, or a mark that does not fit the graph and the targets."""


class BadDepsLog(ValueError):
    """Bytes that are not a deps log of version 4, which Ninja has written since 1.9."""


class BadBuildLog(ValueError):
    """Bytes that are not a build log of version 5, 6 or 7."""


# The meaning of a status of the library, beside a fault.
STATUS_ERRORS: dict[int, tuple[type[Exception], str]] = {
    5: (ValueError, "no graph is loaded"),
    6: (ValueError, "no edge or file has this number"),
    7: (BadMark, "bad mark"),
    8: (ValueError, "a path or a word is not UTF-8"),
    9: (ValueError, "the graph is closed"),
    10: (MemoryError, "out of memory"),
    11: (BadDepsLog, "not a deps log of version 4"),
}

"""The files of a manifest, read from the disk."""

from __future__ import annotations

import errno
import os
import stat
from dataclasses import dataclass
from io import BytesIO, FileIO

from ninja_explain._calls import TIME_ABSENT, TIME_UNKNOWN, decoded

# The size of the largest file that is read, in bytes, and how many are read at once.
LARGEST = 1 << 30
PIECE = 1 << 20
# A second in nanoseconds.
SECOND = 1_000_000_000


class _Nowhere:
    """No files."""

    def content(self, path: bytes) -> bytes | None:
        return None


NOWHERE = _Nowhere()


@dataclass(frozen=True)
class Folder:
    """The files of a directory.

    Paths that a manifest names are relative to the directory. A path that is absolute or has a component
    `..` is refused with PermissionError, unless `allow_outside` is true. Symbolic links are followed,
    wherever they lead.
    """

    path: bytes
    allow_outside: bool

    def content(self, path: bytes) -> bytes | None:
        try:
            return self.required(path)
        except FileNotFoundError:
            return None

    def required(self, path: bytes) -> bytes:
        """The bytes of a file; raises FileNotFoundError if it is missing."""
        if self._is_refused(path):
            text = "a file outside of the folder needs allow_outside=True"
            raise PermissionError(errno.EACCES, text, decoded(path))
        return _regular_content(os.path.join(self.path, path))

    def time(self, path: bytes) -> int:
        """When a file was last changed, in nanoseconds since 1970, as Ninja counts them. The time is
        unknown if the file is outside of the directory, or its time cannot be read."""
        if self._is_refused(path):
            return TIME_UNKNOWN
        try:
            time = os.stat(os.path.join(self.path, path)).st_mtime_ns
        except (FileNotFoundError, NotADirectoryError):
            return TIME_ABSENT
        except OSError:
            return TIME_UNKNOWN
        # (all of the first second is one nanosecond, and an earlier time does not count)
        return time if time >= SECOND else int(time >= 0)

    def _is_refused(self, path: bytes) -> bool:
        return not self.allow_outside and (path.startswith(b"/") or b".." in path.split(b"/"))


def _regular_content(path: bytes) -> bytes:
    # (opening a pipe would wait for a writer)
    descriptor = os.open(path, os.O_RDONLY | os.O_CLOEXEC | os.O_NONBLOCK)
    with open(descriptor, "rb", buffering=0) as file:
        found = os.fstat(descriptor)
        if not stat.S_ISREG(found.st_mode):
            raise OSError(errno.EINVAL, "not a regular file", decoded(path))
        if found.st_size > LARGEST:
            raise _too_large(path)
        return _content(file, path)


def _content(file: FileIO, path: bytes) -> bytes:
    """The bytes of a file, read in pieces: it may have more bytes than it states, and a buffer of the
    greatest size would exceed a limit of memory."""
    # (its bytes are not copied when they are taken, unlike those of a list or a bytearray)
    content = BytesIO()
    while piece := file.read(PIECE):
        content.write(piece)
        if content.tell() > LARGEST:
            raise _too_large(path)
    return content.getvalue()


def _too_large(path: bytes) -> OSError:
    return OSError(errno.EFBIG, "larger than 1 GiB", decoded(path))

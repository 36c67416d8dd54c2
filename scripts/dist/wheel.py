"""The wheel of the Python package, which carries the shared library. Its files are given by their
paths below python/: of the commit for a release, or of the directory.

It is written here and not by setuptools, so that the same files give the same bytes, and that the
package `wheel` is not needed.
"""

import base64
import hashlib
import io
import time
import tomllib
import zipfile

from dist.binaries import numbers
from dist.contents import LIBRARY, Item, copy
from lib.programs import ROOT

FOLDER = ROOT / "python"
NAME = "ninja_explain"
SUFFIXES = (".py", ".typed")


def tag(libc):
    """The tag of a wheel whose library needs this version of the C library. On x86-64 pip knows none
    of an older version than 2.5."""
    major, minor = max([2, 5], numbers(libc)[:2])
    return f"py3-none-manylinux_{major}_{minor}_x86_64"


def name(version, libc):
    return f"{NAME}-{version}-{tag(libc)}.whl"


def in_directory():
    """The files of the package in the directory."""
    names = ["pyproject.toml", "README.md", *(f"{NAME}/{it.name}" for it in (FOLDER / NAME).iterdir())]
    return {it: (FOLDER / it).read_bytes() for it in names if (FOLDER / it).is_file()}


def metadata(files, version):
    about = tomllib.loads(files["pyproject.toml"].decode())["project"]
    fields = [
        ("Metadata-Version", "2.1"),
        ("Name", about["name"]),
        ("Version", version),
        ("Summary", about["description"]),
        *(("Classifier", it) for it in about["classifiers"]),
        ("Requires-Python", about["requires-python"]),
        ("Description-Content-Type", "text/markdown"),
    ]
    lines = "".join(f"{field}: {value}\n" for field, value in fields)
    return f"{lines}\n{files[about['readme']].decode()}"


def record(items, path):
    """A line for each file, with its checksum and size; none for the record itself."""
    lines = []
    for item in items:
        digest = base64.urlsafe_b64encode(hashlib.sha256(item.content).digest()).rstrip(b"=")
        lines.append(f"{item.path},sha256={digest.decode()},{len(item.content)}\n")
    return "".join(lines) + f"{path},,\n"


def wheel_items(files, library, version, libc):
    """The files of the wheel, the record last."""
    sources = [it for it in sorted(files) if it.startswith(f"{NAME}/") and it.endswith(SUFFIXES)]
    items = [Item(it, files[it]) for it in sources]
    items.append(copy(library / f"{LIBRARY}.so.1", f"{NAME}/{LIBRARY}.so.1", is_program=True))
    facts = f"{NAME}-{version}.dist-info"
    about = f"Wheel-Version: 1.0\nGenerator: scripts/dist\nRoot-Is-Purelib: false\nTag: {tag(libc)}\n"
    items.append(Item(f"{facts}/METADATA", metadata(files, version).encode()))
    items.append(Item(f"{facts}/WHEEL", about.encode()))
    path = f"{facts}/RECORD"
    return [*items, Item(path, record(items, path).encode())]


def archive(items, seconds):
    """The bytes of a zip archive of these files, in this order."""
    stream = io.BytesIO()
    with zipfile.ZipFile(stream, "w") as archive:
        for item in items:
            entry = zipfile.ZipInfo(item.path, time.gmtime(seconds)[:6])
            entry.external_attr = (0o100000 | item.mode) << 16
            entry.create_system = 3
            archive.writestr(entry, item.content, zipfile.ZIP_DEFLATED, 9)
    return stream.getvalue()

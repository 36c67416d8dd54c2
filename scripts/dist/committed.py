"""The files that are packed as the commit has them, by `git archive`.

Those in the directory may be others: git ignores some, and its status leaves out what its index
hides (`git update-index --assume-unchanged`), while PROVENANCE names the commit.
"""

import functools
import io
import subprocess
import tarfile

from dist.binaries import Refused
from lib.programs import ROOT

# Where they are; whatever else is packed was built.
PLACES = ["CHANGELOG.md", "LICENSE", "README.md", "SECURITY.md", "VERSION"]
PLACES += ["completions", "docs", "examples", "include", "man", "python"]


@functools.cache
def files():
    """Their bytes, by their paths."""
    words = ["git", "archive", "--format=tar", "HEAD", "--", *PLACES]
    ran = subprocess.run(words, cwd=ROOT, capture_output=True)
    if ran.returncode:
        raise Refused(f"git archive failed: {ran.stderr.decode(errors='replace').strip()}")
    with tarfile.open(fileobj=io.BytesIO(ran.stdout)) as archive:
        return {it.name: archive.extractfile(it).read() for it in archive if it.isfile()}


@functools.cache
def names():
    """The paths of all files and directories of the commit."""
    words = ["git", "ls-tree", "-r", "-t", "-z", "--name-only", "HEAD"]
    ran = subprocess.run(words, cwd=ROOT, capture_output=True, text=True, check=True)
    return frozenset(ran.stdout.split("\0"))


def has(path):
    return path in names()


def content(path):
    if path not in files():
        raise Refused(f"the commit has no file {path}")
    return files()[path]


def text(path):
    return content(path).decode()


def version():
    return text("VERSION").removesuffix("\n")


def below(folder, *suffixes):
    """The paths in a directory with one of these suffixes, sorted."""
    parts = {it: it.rpartition("/") for it in files()}
    return sorted(it for it, (place, _, name) in parts.items() if place == folder and name.endswith(suffixes))


def all_below(folder):
    """The paths of all files in a directory and in those below it, sorted."""
    return sorted(it for it in files() if it.startswith(f"{folder}/"))

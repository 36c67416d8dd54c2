"""The crates of the repository and those of tests/, together in a directory outside the repository.

`rt ci` proves each crate that crates.txt lists, and refuses a second list and sources of any other
crate. So tests/crates.list lists the crates of tests, and their sources end in `.rs`. In the
directory, crates.txt is both lists, and all sources end in `.rt`: there `rt try` runs the tests.
"""

import contextlib
import shutil
import subprocess
import tempfile
from pathlib import Path

from gate_table import crates_below
from lib.programs import CRATES, ROOT

TESTS = ROOT / "tests"
LIST = TESTS / "crates.list"
# The parts of a crate that no run without proof reads.
UNREAD = shutil.ignore_patterns("out", "proofs", "must-fail")
HERE, THERE = ".rs", ".rt"
# The crate of the repository with whose files one of tests/ is built and run, and these files.
SHARES = {"library_tour": "library_example"}
SHARED = "src/snippets.rt", "src/snippets", "data"


def copy_tests(crate, to):
    """Copies a crate of tests/, with the names of sources that `rt` reads."""
    shutil.copytree(TESTS / crate, to, ignore=UNREAD)
    for file in (to / "src").rglob(f"*{HERE}"):
        file.rename(file.with_suffix(THERE))
    for name in SHARED if crate in SHARES else ():
        source = CRATES / SHARES[crate] / name
        (shutil.copytree if source.is_dir() else shutil.copy)(source, to / name)


@contextlib.contextmanager
def composed():
    """The directory, while it is there."""
    with tempfile.TemporaryDirectory(prefix="composed-") as folder:
        top = Path(folder).resolve()
        (top / "crates.txt").write_text((ROOT / "crates.txt").read_text() + LIST.read_text())
        shutil.copy(ROOT / "HANDLES", top)
        for crate in crates_below(ROOT):
            shutil.copytree(CRATES / crate, top / "crates" / crate, ignore=UNREAD)
        for crate in test_crates():
            copy_tests(crate, top / "crates" / crate)
        yield top


def test_crates():
    """The crates of tests/, in the order of their list."""
    rows = [line.partition("#")[0].partition(":") for line in LIST.read_text().splitlines()]
    return [head.split()[0] for head, colon, _ in rows if colon]


def below_all():
    """For each crate of the repository, and then each of tests/, the crates that it names."""
    with tempfile.TemporaryDirectory() as folder:
        text = (ROOT / "crates.txt").read_text() + LIST.read_text()
        Path(folder, "crates.txt").write_text(text)
        return crates_below(folder)


def laid_out(crate):
    """The sources of a crate of tests/ that `rt fmt` would change, each with its text after that."""
    with tempfile.TemporaryDirectory() as folder:
        copy = Path(folder, crate)
        copy_tests(crate, copy)
        ran = subprocess.run(["rt", "fmt"], cwd=copy, capture_output=True, text=True)
        if ran.returncode:
            raise RuntimeError(f"rt fmt ends with {ran.returncode}: {ran.stderr.strip()}")
        for source in sorted((TESTS / crate / "src").rglob(f"*{HERE}")):
            file = copy / source.relative_to(TESTS / crate).with_suffix(THERE)
            if source.read_bytes() != file.read_bytes():
                yield source, file.read_bytes()

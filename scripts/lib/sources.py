"""What the check of a crate reads: its own sources, the lemmas of crates below that it cites, and of
these crates the declarations and definitions that it uses, also through others.

Neither comments nor the layout of code count, and of the functions below only what is declared, since
a check reads their contracts and not their bodies. What a crate uses is found by names alone, so two
things of one name count as one.
"""

import collections
import functools
import hashlib
import re
import subprocess
from pathlib import Path

from gate_table import crates_below
from lib.parts import WORD, definitions_of, parts_of, read_of, tokens_of

PARTS = ("src", "specs", "proofs")
LEMMA = re.compile(r"\bRattle\.(\w+)\.proofs\.([\w.]+)")


def without_comments(text):
    """The lines of definitions and lemmas, without comments and empty lines."""
    lines = (line.rstrip() for line in text.split("\n"))
    return "\n".join(line for line in lines if line and not line.lstrip().startswith("--"))


@functools.cache
def toolchain():
    """The line that names the toolchain and its logic."""
    return subprocess.run(["rt", "version"], capture_output=True, check=True).stdout


def checksum(value):
    return hashlib.sha256(repr(value).encode()).hexdigest()


class Sources:
    """The sources of a repository, and the state of each of its crates."""

    def __init__(self, top):
        self.top, self.crates, self.below = Path(top), Path(top) / "crates", crates_below(top)
        self.code_of = functools.cache(lambda file: tokens_of(file.read_text()))
        # What is read of a file whole: its code, or its definitions and lemmas.
        self.logic_of = functools.cache(lambda file: without_comments(file.read_text()))
        self.whole = functools.cache(lambda file: checksum(self.code_of(file)))
        self.logic = functools.cache(lambda file: checksum(self.logic_of(file)))
        self.cited = functools.cache(lambda file: LEMMA.findall(file.read_text()))

    def files(self, crate, *parts):
        found = (file for part in parts for file in (self.crates / crate / part).rglob("*"))
        return [file for file in found if file.suffix in (".rt", ".antt")]

    def lines(self, crate):
        """The lines of crates.txt that name a crate and what it stands on."""
        rows = (self.top / "crates.txt").read_text().split("\n")
        return [row for row in rows if re.split(r"[ :]", row)[0] == crate]

    def own(self, crate):
        """What a check reads in the sources of the crate."""
        files = self.files(crate, *PARTS)
        return {it: self.whole(it) if it.suffix == ".rt" else self.logic(it) for it in files}

    @functools.cache
    def parts(self, crate):
        """The parts of a crate that a check of a crate above may read, by their files."""
        found = {file: [*parts_of(self.code_of(file))] for file in self.files(crate, "src")}
        specs = self.files(crate, "specs")
        return found | {file: [*definitions_of(file.read_text())] for file in specs}

    def words(self, files):
        """The words in files, without their comments."""
        code = (self.code_of(it) if it.suffix == ".rt" else self.logic_of(it).split() for it in files)
        return {word for pieces in code for word in WORD.findall(" ".join(pieces))}

    def under(self, crate, names):
        """What the check of a crate that uses these words reads of the crates below, but for lemmas."""
        parts = {file: it for name in self.crates_under(crate) for file, it in self.parts(name).items()}
        by_name = collections.defaultdict(list)
        for part in (part for found in parts.values() for part in found if not part.is_use):
            for name in part.names or [None]:
                by_name[name].append(part)
        left, known = [None, *names], {None, *names}
        while left:
            new = set().union(*(part.words for part in by_name[left.pop()])) - known
            known |= new
            left += new
        read = {file: read_of(found, known - {None}) for file, found in parts.items()}
        return {file: checksum(it) for file, it in read.items() if it}

    def lemma_file(self, crate, path):
        """The file that a path to a lemma names: `Lists.two` is Lists/two.antt, or in Lists.antt."""
        parts = path.rstrip(".").split(".")
        places = (parts[:count] for count in range(len(parts), 0, -1))
        files = (self.crates.joinpath(crate, "proofs", *it).with_suffix(".antt") for it in places)
        return next(filter(Path.is_file, files), None)

    def lemmas(self, crate):
        """The lemmas of crates below that the crate cites, with those that these cite, by their files."""
        left, found, under = self.files(crate, *PARTS), {}, self.crates_under(crate)
        while left:
            for name, path in self.cited(left.pop()):
                file = self.lemma_file(name, path) if name in under else None
                if file and file not in found:
                    found[file] = self.logic(file)
                    left.append(file)
        return found

    def crates_under(self, crate):
        """The crates on which one stands, also through others."""
        found, left = set(), [crate]
        while left:
            new = {*self.below[left.pop()]} - found
            found |= new
            left += new
        return sorted(found)

    def state(self, crate, others=()):
        """A checksum of all that the check of a crate reads, and of other files whole."""
        read = self.own(crate) | self.lemmas(crate)
        read |= self.under(crate, self.words(read))
        read |= {file: file.read_text() for file in others}
        names = [(str(file.relative_to(self.top)), read[file]) for file in sorted(read)]
        return checksum((toolchain(), self.lines(crate), names))

"""Packs the proved binaries: python3 scripts/dist [--crates FOLDER] [--library FOLDER] [--log FILE]
[--key FILE] [--builder URI] [OUT]

Writes to OUT, an empty directory or by default dist/, an archive and two Debian packages of the programs
that were built below FOLDER, by default crates/, and of the library for C, by default in lib/; a wheel
of the Python package, which carries that library; PROVENANCE, which names their origins, and the same as
an in-toto statement; and SHA256SUMS, signed if a private key of OpenSSH is given. The same programs
and commit give the same bytes. What was not built is packed as the commit has it, and pages of which
links lead nowhere are refused.

The verdicts on the crates are those that `make` and `make c` kept, or that a log of `rt` has; if one
is missing, nothing is packed. A binary that names no logic in which it was proved, or another one
than that of `rt version`, is refused, and so is one that needs more of the system than the C library.
"""

import argparse
import hashlib
import shutil
import sys
from pathlib import Path

sys.path[0] = str(Path(__file__).resolve().parents[1])

from dist import (  # noqa: E402
    committed,
    contents,
    debian,
    packing,
    pages,
    provenance,
    signing,
    statement,
    wheel,
)
from dist.binaries import Refused, libc_needed, numbers  # noqa: E402
from lib.programs import CRATES, ROOT  # noqa: E402
from lib.proved import Unproved, logic  # noqa: E402

OUT = ROOT / "dist"
STATEMENT = "PROVENANCE.intoto.json"


class Release:
    """The packed files and their origins."""

    def __init__(self, crates, library, log):
        self.crates, self.library, self.log = crates, library, log
        self.version = committed.version()
        self.verdicts = provenance.verdicts_told(log)
        self.commit, self.time = provenance.commit()
        self.pages = list(pages.of_archive())
        self.toolchain = provenance.toolchain()
        names = contents.PROGRAMS.items()
        self.programs = {f"bin/{name}": crates / it / "out" / it for name, it in names}
        names = [f"{contents.LIBRARY}.a", f"{contents.LIBRARY}.so.1"]
        self.libraries = {f"lib/{name}": library / name for name in names}
        self.logics = {name: self.logic(it) for name, it in self.binaries().items()}
        self.libc = max(map(libc_needed, self.programs.values()), key=numbers)
        self.library_libc = libc_needed(library / f"{contents.LIBRARY}.so.1")

    def binaries(self):
        return {**self.programs, **self.libraries}

    def logic(self, file):
        """The logic that a binary names, which has to be that of the toolchain."""
        if not file.is_file():
            raise Refused(f"there is no {file}: `make dist` builds it")
        found = logic(file)
        known = provenance.LINE.match(self.toolchain)
        if not known or not found.startswith(f"logic={known[1]}"):
            raise Refused(f"{file} names {found}, and rt version is {self.toolchain}")
        return found

    def archive(self):
        items = contents.of_programs(self.crates)
        items += contents.of_library(self.library, "${pcfiledir}/../..")
        items += self.pages
        name = f"ninja-explain-{self.version}-linux-x86_64"
        return f"{name}.tar.gz", packing.tarball(name, items, self.time)

    def debian(self, package, items, libc, out):
        """Packs for Debian, and returns the name of the package's file."""
        name = f"{package.name}_{self.version}_amd64.deb"
        items = debian.package_items(package, items, self.version, libc, self.time)
        packing.deb(items, self.time, out / name)
        return name

    def wheel(self, out):
        """Writes the wheel, and returns its name."""
        name = wheel.name(self.version, self.library_libc)
        files = {it.removeprefix("python/"): content for it, content in committed.files().items()}
        items = wheel.wheel_items(files, self.library, self.version, self.library_libc)
        (out / name).write_bytes(wheel.archive(items, self.time))
        return name

    def provenance(self):
        items = [contents.copy(file, name) for name, file in self.binaries().items()]
        return provenance.text(self, packing.checksums(items, "sha256"))


def pack(release, out, builder=None):
    """Packs into an empty directory. Returns the names of the files."""
    name, content = release.archive()
    (out / name).write_bytes(content)
    programs = contents.of_programs(release.crates)
    library = contents.of_library(release.library, "/usr", debian.LIBRARIES)
    names = [
        name,
        release.debian(debian.PROGRAM_PACKAGE, programs, release.libc, out),
        release.debian(debian.LIBRARY_PACKAGE, library, release.library_libc, out),
        release.wheel(out),
    ]
    (out / "PROVENANCE").write_text(release.provenance())
    (out / STATEMENT).write_text(statement.text(release, out, names, builder))
    names += ["PROVENANCE", STATEMENT]
    items = [contents.copy(out / name, name) for name in names]
    (out / "SHA256SUMS").write_text(packing.checksums(items, "sha256"))
    return [*names, "SHA256SUMS"]


def emptied(out):
    """The directory OUT, which is only emptied if it is the default one."""
    if out == OUT:
        shutil.rmtree(out, ignore_errors=True)
    out.mkdir(parents=True, exist_ok=True)
    if any(out.iterdir()):
        raise Refused(f"{out} is not empty")
    return out


def parsed():
    layout = argparse.RawDescriptionHelpFormatter
    words = argparse.ArgumentParser(description=__doc__, formatter_class=layout)
    words.add_argument("--crates", type=Path, default=CRATES, metavar="FOLDER")
    words.add_argument("--library", type=Path, default=ROOT / "lib", metavar="FOLDER")
    words.add_argument("--log", type=Path, metavar="FILE")
    words.add_argument("--key", type=Path, metavar="FILE")
    words.add_argument("--builder", metavar="URI")
    words.add_argument("out", nargs="?", type=Path, default=OUT, metavar="OUT")
    return words.parse_args()


def main():
    words = parsed()
    log = words.log.read_text(errors="replace") if words.log else ""
    try:
        release = Release(words.crates, words.library, log)
        names = pack(release, emptied(words.out), words.builder)
        if words.key:
            names.append(signing.sign(words.out / "SHA256SUMS", words.key))
    except (Refused, Unproved) as problem:
        print(f"dist: {problem}", file=sys.stderr)
        return 1
    except FileNotFoundError as missing:
        print(f"dist: {missing.filename} is needed", file=sys.stderr)
        return 1
    for name in names:
        content = (words.out / name).read_bytes()
        print(f"{hashlib.sha256(content).hexdigest()}  {len(content):>8}  {words.out / name}")
    return 0


if __name__ == "__main__":
    sys.exit(main())

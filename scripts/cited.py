#!/usr/bin/env python3
"""Lets one file of a crate, specs/Cited.antt, pass on what its contracts cite: cited.py [CRATE..]

A `ghost use` that names a module of definitions becomes part of the one that names Cited, and that file
passes on each cited name. A file keeps its imports if it declares a type with a ghost member: such a
type imports all that its file does, and what Cited passes on may be about it. So does a name that two
modules have, or one with `as`; and the words of the library's Prelude come from there, as `rt ci` wants
of its operators. Without a CRATE it takes all of them.
"""

import re
import sys

from lib.programs import CRATES

WIDTH = 140
PRELUDE = "Rattle.std.specs.Prelude"
HEAD = "-- What the contracts of this crate cite: each name comes from the module in its line."
USE = re.compile(r"^ghost use (Rattle\.\S+?)\.\{([^}]*)\};\n", re.M)
PASSED = re.compile(r"^pub use (\S+?)\.\{(.*)\}$", re.M)
TYPE = re.compile(r"^(?:pub(?:\([^)]*\))? )?(?:struct|enum|trait) [^;{(]*\{.*?^\}", re.M | re.S)


def names_in(text):
    return [name for name in re.split(r",\s*", text.strip()) if name]


def has_ghost_member(text):
    """Whether a file declares a type with a ghost member, or with clauses."""
    return any(re.search(r"\b(ghost|ensures|requires)\b", found) for found in TYPE.findall(text))


class Crate:
    """A crate: its sources that import by Cited, and the modules of the names there."""

    def __init__(self, folder):
        self.cited = folder / "specs/Cited.antt"
        self.module = f"Rattle.{folder.name}.specs.Cited"
        files = {file: file.read_text() for file in sorted(folder.glob("src/**/*.rt"))}
        self.files = {it: text for it, text in files.items() if not has_ghost_member(text)}
        passed = PASSED.findall(self.cited.read_text()) if self.cited.exists() else []
        self.passed = {name: path for path, names in passed for name in names_in(names)}
        found = [it for text in self.files.values() for it in self.imports(text)]
        self.doubled = {name for name, path in found if any(name == n and path != p for n, p in found)}

    def imports(self, text):
        """The names that a file imports, each with its module."""
        for path, names in USE.findall(text):
            for name in names_in(names):
                yield name, self.passed[name] if path == self.module else path

    def written(self):
        """The texts of the sources and of Cited."""
        modules = {}
        for file, text in self.files.items():
            by_cited, others = {}, {}
            for name, path in self.imports(text):
                if path == PRELUDE or " as " in name or name in self.doubled:
                    others.setdefault(path, {})[name] = path
                else:
                    by_cited[name] = path
                    modules.setdefault(path, {})[name] = path
            if by_cited or others:
                every = {**others, **({self.module: by_cited} if by_cited else {})}
                lines = (f"ghost use {path}.{{{', '.join(it)}}};\n" for path, it in every.items())
                start = USE.search(text).start()
                rest = USE.sub("", text)
                yield file, rest[:start] + "".join(lines) + rest[start:]
        if modules:
            lines = (line for path, names in modules.items() for line in passing(path, names))
            yield self.cited, "\n".join([HEAD, *lines]) + "\n"


def passing(path, names):
    """The lines that pass on the names of a module."""
    part = []
    for name in names:
        if part and len(f"pub use {path}.{{{', '.join([*part, name])}}}") > WIDTH:
            yield f"pub use {path}.{{{', '.join(part)}}}"
            part = []
        part.append(name)
    yield f"pub use {path}.{{{', '.join(part)}}}"


def crates():
    """The crates that have definitions."""
    return [folder.parent for folder in sorted(CRATES.glob("*/specs"))]


def main():
    for folder in [CRATES / name for name in sys.argv[1:]] or crates():
        for file, text in Crate(folder).written():
            file.write_text(text)
        lib = folder / "specs/Lib.antt"
        if (folder / "specs/Cited.antt").exists() and "pub mod Cited" not in lib.read_text():
            lib.write_text(f"{lib.read_text().rstrip()}\n-- what the contracts cite\npub mod Cited\n")


if __name__ == "__main__":
    main()

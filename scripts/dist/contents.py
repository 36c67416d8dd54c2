"""The packed files: those of each program and of the library for C, as below a PREFIX.

A further program is a line of PROGRAMS; it has a man page and completions as the others have.
"""

from dataclasses import dataclass

from dist import committed

# The name of each program, and its crate.
PROGRAMS = {"ninja-explain": "ninja_explain", "ninja-graph": "ninja_graph"}
LIBRARY = "libninja_explain"
LIBRARY_CRATE = "nj_c"
# Where each of the completions of a program is from, and where it goes to.
COMPLETIONS = {
    "{}.bash": "share/bash-completion/completions/{}",
    "_{}": "share/zsh/site-functions/_{}",
    "{}.fish": "share/fish/vendor_completions.d/{}.fish",
}


@dataclass(frozen=True)
class Item:
    """A file of a package, or a link if it has a target."""

    path: str
    content: bytes = b""
    is_program: bool = False
    target: str = ""

    @property
    def mode(self):
        return 0o755 if self.is_program else 0o644


def copy(source, path, is_program=False):
    """A file that was built."""
    return Item(path, source.read_bytes(), is_program)


def of_commit(source, path):
    """A file of the commit."""
    return Item(path, committed.content(source))


def of_program(name, crates):
    """The files of a program that was built below this directory of crates."""
    crate = PROGRAMS[name]
    yield copy(crates / crate / "out" / crate, f"bin/{name}", is_program=True)
    yield of_commit(f"man/{name}.1", f"share/man/man1/{name}.1")
    for source, path in COMPLETIONS.items():
        yield of_commit(f"completions/{source.format(name)}", path.format(name))


def of_programs(crates):
    return [item for name in PROGRAMS for item in of_program(name, crates)]


def of_library(folder, prefix, libraries="lib"):
    """The files of the library for C that was built in a directory."""
    text = committed.text("include/ninja_explain.pc.in").replace("@PREFIX@", prefix)
    text = text.replace("${prefix}/lib", f"${{prefix}}/{libraries}")
    return [
        *(of_commit(it, it) for it in committed.below("include", ".h")),
        copy(folder / f"{LIBRARY}.a", f"{libraries}/{LIBRARY}.a"),
        copy(folder / f"{LIBRARY}.so.1", f"{libraries}/{LIBRARY}.so.1"),
        Item(f"{libraries}/{LIBRARY}.so", target=f"{LIBRARY}.so.1"),
        Item(f"{libraries}/pkgconfig/ninja_explain.pc", text.encode()),
    ]

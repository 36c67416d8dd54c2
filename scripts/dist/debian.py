"""The files of the Debian packages beside those of `make install`."""

import re
import textwrap
from dataclasses import dataclass, replace
from email.utils import formatdate

from dist import committed, pages
from dist.contents import LIBRARY, Item, of_commit
from dist.packing import checksums, compressed

MAINTAINER = "Valerianpost maintainers <maintainers@users.noreply.valerianpost.example>"
LIBRARIES = "lib/x86_64-linux-gnu"
WRAPPED = {"width": 76, "subsequent_indent": "  ", "break_long_words": False}
# Programs and libraries have the bytes with which they were built, and so their symbols.
AS_BUILT = "unstripped-binary-or-object"


@dataclass(frozen=True)
class Package:
    """A Debian package: its name, the fields of its control file, and lintian's findings that are
    to be expected."""

    name: str
    section: str
    title: str
    about: str
    overrides: tuple = ()


PROGRAM_PACKAGE = Package(
    "ninja-explain",
    "devel",
    "answer questions about a Ninja build without building anything",
    "ninja-explain writes what Ninja's own tools write of a manifest: commands,\n"
    "inputs, targets, rules and a compilation database; or the first fault with its\n"
    "file, line and column. ninja-graph tells which outputs a change of files\n"
    "affects, why a target depends on a file, and which command uses a file before\n"
    "it is made. They start no program and change no file. Every function is proved\n"
    "to keep its contract, to be safe, and to end.",
    (AS_BUILT,),
)
LIBRARY_PACKAGE = Package(
    "libninja-explain-dev",
    "libdevel",
    "graph of the build statements of a Ninja manifest, for C",
    "A static and a shared library with a header: a program hands in the files of\n"
    "a manifest and asks for edges, files, commands and variables, without building\n"
    "anything. Every function is proved to keep its contract.",
    # There is no package of the shared library alone.
    (AS_BUILT, "package-name-doesnt-match-sonames", "link-to-shared-library-in-wrong-package"),
)


def changelog(package, version, time):
    """The first section of CHANGELOG.md as Debian has it."""
    text = committed.text("CHANGELOG.md").split("\n## ")[1]
    items = [" ".join(it.split()) for it in re.split(r"^- ", text, flags=re.M)[1:]]
    lines = "\n".join(textwrap.indent(textwrap.fill(f"* {it}", **WRAPPED), "  ") for it in items)
    head = f"{package.name} ({version}) unstable; urgency=medium"
    return f"{head}\n\n{lines}\n\n -- {MAINTAINER}  {formatdate(time)}\n"


def on_debian(item):
    """A file of `make install` where Debian has it."""
    path = item.path.replace("share/zsh/site-functions", "share/zsh/vendor-completions")
    if path.startswith("share/man/"):
        return replace(item, path=f"usr/{path}.gz", content=compressed(item.content))
    return replace(item, path=f"usr/{path}")


def control(package, version, libc, items):
    size = sum(max(1, -(-len(it.content) // 1024)) for it in items)
    about = "\n".join(f" {line}" for line in package.about.split("\n"))
    return f"""\
Package: {package.name}
Version: {version}
Architecture: amd64
Maintainer: {MAINTAINER}
Installed-Size: {size}
Depends: libc6 (>= {libc})
Section: {package.section}
Priority: optional
Description: {package.title}
{about}
"""


def for_linker(package, version):
    """The control files of a package with a shared library."""
    yield Item("DEBIAN/shlibs", f"{LIBRARY} 1 {package.name} (>= {version})\n".encode())
    yield Item("DEBIAN/triggers", b"activate-noawait ldconfig\n")


def package_items(package, items, version, libc, time):
    """All files of a package, with its control files."""
    documents = f"share/doc/{package.name}"
    overrides = "".join(f"{package.name}: {it}\n" for it in package.overrides)
    added = [
        Item(f"{documents}/changelog.gz", compressed(changelog(package, version, time).encode())),
        of_commit("LICENSE", f"{documents}/copyright"),
        *pages.of_package(package.name),
    ]
    if overrides:
        added.append(Item(f"share/lintian/overrides/{package.name}", overrides.encode()))
    items = [on_debian(it) for it in [*items, *added]]
    has_library = any(".so." in it.path for it in items)
    return [
        *items,
        *(for_linker(package, version) if has_library else ()),
        Item("DEBIAN/control", control(package, version, libc, items).encode()),
        Item("DEBIAN/md5sums", checksums(items, "md5").encode()),
    ]

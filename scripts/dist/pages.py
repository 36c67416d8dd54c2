"""Pages as they are packed: their links lead to what is packed beside them.

A link to a packed file leads to its new place. One to a file that the commit has and no package, such
as a source, is left as its text. One to a file that the commit lacks is refused.
"""

import posixpath
import re

from dist import committed
from dist.binaries import Refused
from dist.contents import Item

# A block of code, a link or an image, or code in a line. A link may have code in its text.
PIECE = re.compile(
    r"^```.*?^```$|!?\[((?:[^\[\]`]|`[^`\n]*`)*)\]\(([^)#\s]*)(#[^)\s]*)?\)|`[^`\n]*`", re.M | re.S
)


def place_of(target, places):
    """Where a file or a directory of the commit is packed, or `None`."""
    if target in places:
        return places[target]
    below = next((it for it in sorted(places) if it.startswith(f"{target}/")), None)
    if below is None or not places[below].endswith(below.removeprefix(target)):
        return None
    return places[below].removesuffix(below.removeprefix(target))


def linked(source, piece, places):
    """A piece of a page with its link as it is packed, where `places` has the packed files."""
    text, link, anchor = piece.groups()
    if not link or "://" in link:
        return piece[0]
    target = posixpath.normpath(posixpath.join(posixpath.dirname(source), link))
    if not committed.has(target):
        raise Refused(f"{source} links {link}, and the commit has no file {target}")
    place = place_of(target, places)
    if place is None:
        return text
    way = posixpath.relpath(place, posixpath.dirname(places[source]) or ".")
    return f"{'!' * piece[0].startswith('!')}[{text}]({way}{anchor or ''})"


def page(source, places):
    """A page of the commit as it is packed."""
    text = PIECE.sub(lambda piece: linked(source, piece, places), committed.text(source))
    return Item(places[source], text.encode())


def items(written, others):
    """These files of the commit as they are packed, by their places; their pages may link others."""
    places = {**others, **written}
    for source, place in written.items():
        is_page = source.endswith(".md")
        yield page(source, places) if is_page else Item(place, committed.content(source))


# ---- what is packed

# Pages about work on the repository, which are of no use without it.
OF_REPOSITORY = {"docs/EDITS.md", "docs/GATE.md"}
# The pages of each Debian package, and the directory of their examples.
OF_PACKAGES = {
    "ninja-explain": (["README.md", "docs/DEPS.md", "docs/NINJA-GRAPH.md"], "examples"),
    "libninja-explain-dev": (["docs/C.md", "docs/PYTHON.md"], "examples/c"),
}


def of_archive():
    """The pages and examples of the archive, where the commit has them."""
    names = ["CHANGELOG.md", "LICENSE", "README.md", "SECURITY.md", "VERSION"]
    names += [it for it in committed.below("docs", ".md", ".svg") if it not in OF_REPOSITORY]
    names += committed.all_below("examples")
    others = {it: f"share/man/man1/{posixpath.basename(it)}" for it in committed.below("man", ".1")}
    others |= {it: it for it in committed.below("include", ".h")}
    return items({it: it for it in names}, others)


def of_package(name):
    """The pages and examples of a Debian package, below a PREFIX."""
    pages, examples = OF_PACKAGES[name]
    place = f"share/doc/{name}"
    written = {it: f"{place}/{posixpath.basename(it)}" for it in pages}
    written |= {it: f"{place}/{it}" for it in committed.all_below(examples)}
    others = {it: f"share/man/man1/{posixpath.basename(it)}.gz" for it in committed.below("man", ".1")}
    return items(written, others if name == "ninja-explain" else {})

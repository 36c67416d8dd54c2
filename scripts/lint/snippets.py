"""Compares the Rattle code in README.md and docs/LIBRARY.md with the crate library_example.

Each block has to be consecutive lines of one of its files, indented or not, without the lines that
are marked as hidden. The blocks of README.md are from its `main.rt`, and the first one of
docs/LIBRARY.md is the whole of it. The line that docs/LIBRARY.md adds to crates.txt has to name what
library_example names.
"""

import re
import textwrap

from lib.checks import check, expect
from lib.programs import CRATES, ROOT

PAGE = ROOT / "docs/LIBRARY.md"
SOURCES = CRATES / "library_example/src"
HIDDEN = "// not in README.md"


def plain(text):
    """The text without common indentation, trailing blanks and hidden lines, at most one blank line
    in a row."""
    lines = [line.rstrip() for line in text.splitlines() if not line.rstrip().endswith(HIDDEN)]
    return re.sub(r"\n{3,}", "\n\n", textwrap.dedent("\n".join(lines))).strip("\n")


def blocks(page):
    """The blocks of Rattle code in a page, each with the number of its first line."""
    text = page.read_text()
    for block in re.finditer(r"^```rust\n(.*?)^```$", text, re.M | re.S):
        yield text.count("\n", 0, block.start()) + 2, plain(block[1])


def has(source, block):
    """Whether lines of a source that follow one another are this block."""
    lines, count = plain(source).splitlines(), block.count("\n") + 1
    return any(
        plain("\n".join(lines[at : at + count])) == block for at in range(len(lines) - count + 1)
    )


@check
def blocks_of_readme():
    shown = [block for _, block in blocks(ROOT / "README.md")]
    main = (SOURCES / "main.rt").read_text()
    if not shown or not all(has(main, block) for block in shown):
        yield "a block is not in library_example/src/main.rt, or there is none"


@check
def program_of_library():
    _, first = next(blocks(PAGE))
    if first != plain((SOURCES / "main.rt").read_text()):
        yield "docs/LIBRARY.md: its first block is not the whole of library_example/src/main.rt"


@check
def blocks_of_library():
    sources = [file.read_text() for file in sorted(SOURCES.glob("**/*.rt"))]
    for line, block in blocks(PAGE):
        if not any(has(source, block) for source in sources):
            yield f"docs/LIBRARY.md:{line}: no file of library_example has this block"


@check
def crates_to_name():
    named = re.search(r"^library_example: (.*)$", (ROOT / "crates.txt").read_text(), re.M)
    added = re.search(r"^echo 'my_program: (.*)' >>", PAGE.read_text(), re.M)
    yield from expect("the crates that a client has to name", added[1], named[1])

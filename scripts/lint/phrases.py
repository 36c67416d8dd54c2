"""Refuses phrases that are never right, in the pages that people write and in the comments of crates
and scripts (lib/phrases.py).
"""

from lib.checks import check, expect
from lib.phrases import EXCEPT, NEVER, finds, phrases_of, prose, refused_names
from lib.programs import ROOT

GENERATED = ("HEADLINE.md",)
PAGES = "*.md", "docs/*.md", "crates/*/README.md", "tests/*.md", "man/*.1"
SOURCES = "crates/*/src/**/*.rt", "crates/*/specs/**/*.antt", "crates/*/proofs/**/*.antt"
TESTS = ("tests/*/src/*.rs",)
SCRIPTS = "bench/*.py", "scripts/**/*.py", "examples/**/*.py", "python/**/*.py"
IN_C = "include/*.h", "examples/c/*.c", "scripts/*.c", "scripts/lib/*.c", "bench/*.c"


def pages():
    found = {file for kind in (*PAGES, *SOURCES, *TESTS, *SCRIPTS, *IN_C) for file in ROOT.glob(kind)}
    return sorted(page for page in found if page.name not in {*GENERATED, "phrases.py"})


def refused(name, text):
    """The phrases of a page that are not among its exceptions, each with its line."""
    better = phrases_of(name)
    phrases = [phrase for phrase in better if phrase not in EXCEPT.get(name, ())]
    for line, found, phrase in finds(phrases, prose(name, text)):
        yield line, f"{found} (better: {better[phrase] or 'nothing'})"


@check
def pages_have_none():
    for page in pages():
        name = str(page.relative_to(ROOT))
        for line, found in refused(name, page.read_text()):
            yield f"{name}:{line}: {found}"


@check
def names_have_none():
    for page in sorted({file for kind in SOURCES for file in ROOT.glob(kind)}):
        name = page.relative_to(ROOT)
        for _, found, phrase in refused_names(str(name)):
            yield f"{name}: {found} (better: {NEVER[phrase]})"
        for line, found, phrase in refused_names(page.read_text()):
            yield f"{name}:{line}: {found} (better: {NEVER[phrase]})"


@check
def exceptions_are_used():
    for name, phrases in EXCEPT.items():
        found = {phrase for _, _, phrase in finds(phrases, prose(name, (ROOT / name).read_text()))}
        yield from expect(f"{name}, the exceptions that it needs", found, phrases)


# Texts, each with how many phrases are found there.
PLANTED = [
    ("a.md", "Nothing is on the error\noutput.\n", 1),
    ("a.md", "`error output` is code, and so is\n\n    the error output\n\n```\nfor good\n```\n", 0),
    ("a.md", "After it [the links](for_good.md) are kept for good.\n", 1),
    ("a.md", "<!-- map: crates -->\n| each once |\n<!-- end -->\nEach once.\n", 1),
    ("a.1", ".TP\nIt is written as it\nis, as it is needed.\n", 1),
    ("crates/a/a.rt", "/// Gives out names, each once.\nlet for_good = \"for good\";\n// one file\n// more\n", 3),
    ("crates/nj_ask/a.rt", "/// Each once.\nlet for_good = \"for \\\nfolder\";\nlet a = \"folder\";\n", 2),
    ("a.h", "/* each once */ int folder;\n/* the\n * folder */\nchar *a = \"// folder\";\n", 2),
    ("a.py", '"""The folder."""\nfolder = """\nfolder\n"""  # in\n# a folder\n', 2),
    ("a.md", "The file of this\nnumber, if there is one, is given twice.\nThese files are there once.\n", 3),
    ("a.md", "These are no files, and such\nmay be named as such, but there are no more of\nthese.\n", 4),
    ("a.1", "It writes as many as there are, and\ntells\n.I which\nfile it is that is there.\n", 2),
    ("a.h", "/* the path with this\n * name; `these are` */\n", 1),
    ("crates/a/a.rt", "/// The file of this number, if there is one.\n", 0),
    ("crates/a/README.md", "These are no files.\n", 0),
]


# Names, each with whether it is refused.
PLANTED_NAMES = [("HandedIn", 1), ("all-handed-in", 1), ("hand_over", 1), ("handle_input", 0)]


@check
def planted_phrases_are_found():
    for name, text, wanted in PLANTED:
        yield from expect(f"{name}, {text!r}", len(list(refused(name, text))), wanted)
    for name, wanted in PLANTED_NAMES:
        yield from expect(name, len(list(refused_names(name))), wanted)

"""Checks the pages that people write: their links, the names in them, and how long they are."""

import re
from functools import cache
from pathlib import Path

import headline
from lib.checks import check, expect
from lib.programs import CRATES, ROOT

README, PROOFS, GLOSSARY = ROOT / "README.md", ROOT / "docs/PROOFS.md", ROOT / "docs/GLOSSARY.md"
# Pages whose names have to be declared somewhere.
NAMING = [README, PROOFS, GLOSSARY, ROOT / "docs/ARCHITECTURE.md", ROOT / "docs/NINJA-GRAPH.md"]
MOST_LINES = {README: 150, PROOFS: 250}
# The most words that a sentence may have on average.
MOST_WORDS = 20
CODE = re.compile(r"^```.*?^```$", re.M | re.S)
GENERATED = re.compile(r"<!-- (?:\w+: )?\w+ -->.*?<!-- end -->", re.S)
NAME = re.compile(r"\w*[a-z]\w*(?:::\w+)*")


def pages():
    found = {*ROOT.glob("*.md"), *(ROOT / "docs").glob("*.md"), *CRATES.glob("*/README.md")}
    found |= {*ROOT.glob("tests/*.md")}
    return sorted(found)


# ---- links


def anchors(text):
    """The anchors of the headings of a page."""
    heads = re.findall(r"^#+ (.*)$", CODE.sub("", text), re.M)
    return {re.sub(r"[^\w\- ]", "", head.lower()).replace(" ", "-") for head in heads}


@check
def links_lead_somewhere():
    for page in pages():
        prose = re.sub(r"`[^`\n]*`", "", CODE.sub("", page.read_text()))
        for link, anchor in re.findall(r"\]\(([^)#\s]*)(?:#([^)\s]*))?\)", prose):
            if "://" in link:
                continue
            to = page.parent / link if link else page
            if not to.exists():
                yield f"{page.relative_to(ROOT)}: there is no {link}"
            elif anchor and to.suffix == ".md" and anchor not in anchors(to.read_text()):
                yield f"{page.relative_to(ROOT)}: {to.name} has no heading {anchor}"


# ---- names


@cache
def declared():
    """The words of the sources, and the names of their files."""
    kinds = "crates/*/src/**/*.rt", "crates/*/specs/**/*.antt", "crates/*/proofs/**/*.antt"
    kinds += "edits/*/*.edit", "tests/*/src/*.rs", "tests/*/data/*", "scripts/**/*.py", "bench/*.py"
    kinds += "include/*", "Makefile", "examples/**/*.ninja", "python/**/*.py"
    files = {file for kind in kinds for file in ROOT.glob(kind) if file.is_file()}
    files.discard(Path(__file__))
    words = {name for file in files for name in (file.name, file.stem)}
    words |= {part for file in files for part in file.parent.parts}
    for file in files:
        words.update(re.findall(r"\w+", file.read_text(errors="replace")))
    return words


def undeclared(text):
    """The names in a page that no source has, with a `_`, a `::` or a capital inside."""
    for name in re.findall(r"`([^`\n]+)`", CODE.sub("", GENERATED.sub("", text))):
        is_code = re.search(r"_\w|::|[a-z][A-Z]", name)
        if is_code and NAME.fullmatch(name) and not name.endswith("_"):
            if not set(name.split("::")) <= declared():
                yield name


@check
def names_are_declared():
    for page in NAMING:
        for name in sorted(set(undeclared(page.read_text()))):
            yield f"{page.relative_to(ROOT)}: {name} is not in the sources"


def misplaced(text):
    """The names in the tables of docs/PROOFS.md that the crate of their row does not have."""
    crate = ""
    for cells in re.findall(r"^\| (.*) \|$", text, re.M):
        first, *others = cells.split(" | ")
        named = re.fullmatch(r"`(\w+)`", first)
        if not first.strip() or (named and (CRATES / named[1]).is_dir()):
            crate = named[1] if named else crate
            # the laws are in the second column of a table of three, the clauses in the third of four
            by = others[0] if len(others) == 2 else others[1] if len(others) == 3 else ""
            for name in re.findall(r"`(?:\w+::)?(\w*[a-z]\w*)`", by):
                if crate and not re.search(rf"\b{name}", sources_of(crate)):
                    yield f"{crate} has no {name}"


@cache
def sources_of(crate):
    kinds = "src/**/*.rt", "specs/**/*.antt"
    return "\n".join(it.read_text() for kind in kinds for it in (CRATES / crate).glob(kind))


@check
def rows_name_their_crate():
    text = PROOFS.read_text()
    yield from misplaced(text)
    planted = text.replace("`commands_law` | the headline", "`order_law` | the headline")
    yield from expect("`order_law` in a row of nj_cli", list(misplaced(planted)), ["nj_cli has no order_law"])


@check
def laws_are_listed():
    """docs/PROOFS.md has each law: a public function without parameters and with an empty body."""
    text = PROOFS.read_text()
    for file in sorted(CRATES.glob("*/src/**/*.rt")):
        for law in re.findall(r"^pub fn (\w+)\(\)\n(?: .*\n)+\{\}$", file.read_text(), re.M):
            if f"`{law}`" not in text:
                yield f"{PROOFS.name}: the law {law} of {file.relative_to(CRATES).parts[0]} is missing"


@check
def wrong_names_are_seen():
    text = PROOFS.read_text()
    for old, new in ("`RunsWords`", "`RunsWord_s`"), ("`Mark::read`", "`Mark::read_s`"):
        found = set(undeclared(text.replace(old, new, 1))) - set(undeclared(text))
        yield from expect(new, found, {new.strip("`")})


@check
def glossary_says_where():
    """Each file of definitions in the last column of docs/GLOSSARY.md exists."""
    for row in re.findall(r"^\|.*\| (`nj_[^|]*) \|$", GLOSSARY.read_text(), re.M):
        for crate, name in re.findall(r"`(nj_\w+)`, `([\w/]+)`", row):
            source = "\n".join(file.read_text() for file in (CRATES / crate).glob("src/**/*.rt"))
            is_type = re.search(rf"^pub (?:struct|enum|trait) {name}\b", source, re.M)
            if not (CRATES / crate / f"specs/{name}.antt").is_file() and not is_type:
                yield f"{GLOSSARY.name}: {crate} has no {name}"


@check
def pictures_name_crates():
    for picture in sorted((ROOT / "docs").glob("*.svg")):
        for name in re.findall(r"\bnj_\w+", picture.read_text()):
            if not (CRATES / name).is_dir():
                yield f"{picture.name}: there is no crate {name}"


# ---- lengths


def sentences(text):
    """The sentences of a page and of the cells of its tables, without code and headings."""
    text = re.sub(r"^#.*$", "", CODE.sub("", text), flags=re.M)
    for paragraph in re.split(r"\n\s*\n|\n(?=[-|])", text):
        parts = paragraph.split("|") if paragraph.lstrip().startswith("|") else [paragraph]
        for part in parts:
            yield from filter(str.strip, re.split(r"(?<=[.:;?!])\s", part.strip(" -\n")))


@check
def pages_are_short():
    """What a script writes does not count."""
    for page, most in MOST_LINES.items():
        count = len(GENERATED.sub("", page.read_text()).splitlines())
        if count > most:
            yield f"{page.name} has {count} lines, and may have {most}"


@check
def sentences_are_short():
    prose = re.sub(r"^\|.*$", "", PROOFS.read_text(), flags=re.M)
    words = [len(sentence.split()) for sentence in sentences(prose)]
    if sum(words) > MOST_WORDS * len(words):
        yield f"{PROOFS.name}: {sum(words) / len(words):.1f} words in a sentence on average"


@check
def headline_is_one():
    """README.md has the headline whose words docs/HEADLINE.md explains."""
    bold = re.search(r"^\*\*(For every accepted .*?)\*\*$", README.read_text(), re.M | re.S)
    yield from expect("the headline", " ".join(bold[1].split()), " ".join(headline.PHRASES))


# ---- man pages

MACROS = set("B BI BR EE EX I IB IP IR PP RB RE RI RS SH SS TH TP TQ UE UR br".split())


def hidden(text):
    """The lines of a man page that `man` does not show, since they begin as a macro and name none."""
    for number, line in enumerate(text.splitlines(), 1):
        macro = re.match(r"[.'](\S*)", line)
        if macro and macro[1] not in MACROS:
            yield f"{number}: `man` takes {line} for a macro; \\& before it shows it"


@check
def man_pages_show_each_line():
    for page in sorted((ROOT / "man").glob("*.1")):
        for line in hidden(page.read_text()):
            yield f"{page.relative_to(ROOT)}:{line}"
    yield from expect("a line `.import a b`", len(list(hidden(".EX\n.import a b\n\\&.import a b\n.EE\n"))), 1)

#!/usr/bin/env python3
"""Counts the lines that must be believed for a contract:

    believed.py [--most LINES] [NAME]
    believed.py --for CALL
    believed.py --write | --check

CALL is a public call of a library, as `load`, `Needs::next` or `nj_graph::load`. --write writes how
many lines each call rests on that docs/PROOFS.md names crate by crate, into that page; --check ends
with status 1 if the page says otherwise.

NAME is `run_words` by default; `commands_law` for the headline, with the run that it is about;
`run_read_words`, which `main` of ninja-explain calls; `nj_c` for the exports of the library for C;
or `ninja_graph` for its contracts, those of the calls that `nj_ask` exports, and those of the keys
and findings that it writes. `all` prints a line for each NAME.

It starts at the contract and follows each name in it to its definition, each name in that
definition, and so on. Definitions are those in crates/*/specs and, in crates/*/src, the value and
the view of an `impl Model`, and the state of a trait and its functions with a clause. Comments,
empty lines, `use` and `pub mod` do not count, nor do the definitions of the toolchain's crates. A
variable with the name of a definition in its file counts as a use of it.

Prints how many lines are reached in each crate and file, and the names of their definitions. The
structs and enums of crates/*/src that definitions use are printed too, with a sum of their own.
With --most the status is 1 if there are more than LINES lines of definitions.
"""

import argparse
import re
import sys
from functools import cache
from itertools import groupby
from pathlib import Path

CRATES = Path(__file__).resolve().parent.parent / "crates"
PROOFS = CRATES.parent / "docs/PROOFS.md"
# The functions from which a walk starts, and their files.
RUN, LAWS = "nj_cli/src/run.rt", "nj_cli/src/laws.rt"
STARTS = {
    "run_words": [(RUN, "run_words")],
    "commands_law": [(RUN, "run_words"), (LAWS, "commands_law")],
    "run_read_words": [(RUN, "run_read_words")],
    "nj_c": [],
    "ninja_graph": [
        ("nj_keys/src/pages.rt", "page_from"),
        ("nj_audit/src/auditing.rt", "audit"),
        ("nj_ask/src/status.rt", "code"),
    ],
}
# Which functions of a crate a walk of its name starts from too, and the libraries from whose exported
# functions it starts: the parts of a program that were moved to a library count as before.
OF_CRATE = {"nj_c": 'extern "C" fn', "ninja_graph": "fn"}
OF_LIBRARIES = {"ninja_graph": ["nj_ask"]}
FUNCTION = re.compile(r'^ *(?:pub(?:\(\w+\))? )?(?:extern "C" )?fn (\w+)', re.M)

IMPL = re.compile(r"^impl\b(?:<[^{]*?>)? (?:[\w:<>, ']+ for )?(\w+)", re.M)
# How docs/PROOFS.md names the calls of a crate: in the third column of a row that begins with it.
OF_ROW = re.compile(r"^\| `(nj_\w+)` \|[^|]*\|([^|]*)\|[^|]*\|$", re.M)
# Where the table of calls stands in that page.
TABLE = re.compile(r"(<!-- calls: believed -->\n).*?(<!-- end -->)", re.S)

# A string; a name, with the fields after it; or a field of an expression in parentheses.
TOKEN = re.compile(r'"(?:[^"\\]|\\.)*"|[^\s(){}\[\];,".]+(?:\.[^\s(){}\[\];,".]+)*|\.\w+')
TYPE = re.compile(r"\b[A-Z]\w*")
KEYWORDS = {"abbrev", "unfoldable", "pub", "record", "data"}
# The members of an `impl Model` that must be believed: the value, and how the fields represent it.
MODEL = r"ghost (?:Value|view) ="


class Definition:
    """A definition, or a type in src: its module, its name, and its text."""

    def __init__(self, module, name, text, is_type=False):
        self.module, self.name, self.text, self.is_type = module, name, text, is_type

    @property
    def lines(self):
        return sum(1 for line in self.text.splitlines() if line.strip())


class Module:
    """A file: its definitions, the names that it imports, and its names for other modules."""

    def __init__(self, file):
        self.file, self.defined, self.names, self.modules = file, {}, {}, {}
        self.crate, _, *path = file.relative_to(CRATES).parts
        self.path = "/".join([file.parent.relative_to(CRATES / self.crate).parts[0], *path])

    def import_names(self, module, names):
        """Imports the names of a list such as `a, b as c`."""
        for item in filter(None, (item.strip() for item in names.split(","))):
            self.names[item.split(" as ")[-1]] = module, item.split(" as ")[0]

    def use(self, line):
        """Imports the names of a `use` of definitions."""
        if found := re.match(r"(?:pub )?use (\S+?)\.\{(.*)\}", line, re.S):
            self.import_names(found[1], found[2])
        elif found := re.match(r"(?:pub )?use (\S+)(?: as (\S+))?", line):
            self.modules[found[2] or found[1].split(".")[-1]] = found[1]


# ---- files of definitions


def add_to(of, chunk, name):
    """Adds a part of a file to the file's definitions: a new definition, several that cite each other, or
    an equation of the last one, which is called `name`. Returns the name of the definition."""
    words = chunk.split()
    head = [word for word in words if word not in KEYWORDS]
    if words[0] not in KEYWORDS and words[1] != ":":
        of.defined[name].text += "\n" + chunk
        return name
    if head[0] == "mutual":
        head = re.findall(r"^\s+pub (\S+) :", chunk, re.M)
    definition = Definition(of, head[0], chunk)
    of.defined.update(dict.fromkeys(head if "mutual" in words[:2] else head[:1], definition))
    if "data" in words[:2]:
        constructors = re.findall(r"^\s+(\S+) :", chunk, re.M)
        of.defined.update(dict.fromkeys(constructors, definition))
    return head[0]


@cache
def module(path):
    """The file of definitions of `Rattle.CRATE.specs.A.B`, or `None` if it is not one of ours. If B is
    a type with constructors, it is the file of `A`, and if CRATE re-exports `A` of a crate below it,
    the file there."""
    crate, _, *names = path.split(".")[1:]
    if not (CRATES / crate).is_dir():
        return None
    file = CRATES.joinpath(crate, "specs", *names).with_suffix(".antt")
    if not file.exists():
        given = (CRATES / crate / "specs/Lib.antt").read_text()
        if found := re.search(rf"^pub use (\S+\.{names[0]})$", given, re.M):
            return module(".".join([found[1], *names[1:]]))
        return module(path.rpartition(".")[0])
    of, name, fixity = Module(file), None, ""
    text = re.sub(r"(^|\s)--(\s.*)?$", "", file.read_text(), flags=re.M)
    for chunk in filter(str.strip, re.split(r"\n(?=[^\s})])", text)):
        if re.match(r"(pub )?use ", chunk):
            of.use(chunk)
        elif chunk.startswith("infix"):
            fixity = chunk + "\n"
        elif not chunk.startswith("pub mod "):
            name = add_to(of, chunk, name)
            of.defined[name].text, fixity = fixity + of.defined[name].text, ""
    return of


def defined_in(path, name):
    """The definition of a name in a module, which may import it, or in a crate; `None` if it is not
    one of ours."""
    if "." not in path:
        return declared(path, name)
    if ".declared." in path:
        crate, _, _, *names = [part for part in path.split(".")[1:] if part != "TheVariants"]
        return declared(crate, names[-1])
    if not (of := module(path)):
        return None
    if name in of.names:
        return defined_in(*of.names[name])
    if name not in of.defined:
        sys.exit(f"{of.file}: no definition of {name}")
    return of.defined[name]


def meaning(of, word):
    """The definition that a word of a file refers to, if it is one of ours."""
    first, _, others = word.partition(".")
    if first in of.modules and others:
        return defined_in(of.modules[first], others.split(".")[0])
    for name in {**of.names, **of.defined}:
        if first == name or "◌" in name and first in name.split("◌"):
            return of.defined.get(name) or defined_in(*of.names[name])
    return None


# ---- files of Rust


def block_at(text, start):
    """The text from `start` to the end of the first block in braces, or to a `;` before one."""
    depth = 0
    for found in re.compile(r"[{};]").finditer(text, start):
        depth += {"{": 1, "}": -1, ";": 0}[found[0]]
        if depth == 0:
            return text[start : found.end()]
    return text[start:]


@cache
def rust(file):
    """A file of Rust, and its text without comments and attributes. For a type that it imports, the
    module is the crate. A definition goes before a function of the same name."""
    of = Module(file)
    text = re.sub(r"(^|\s)//(.*)$|^\s*#\[.*\]$", "", file.read_text(), flags=re.M)
    uses = r"^(?:pub )?use (\w+)(?:::\w+)*::(?:\{(.*?)\}|(\w+));"
    for found in re.finditer(uses, text, re.M | re.S):
        of.import_names(of.crate if found[1] == "crate" else found[1], found[2] or found[3])
    for found in re.finditer(r"^\s*ghost (use [^;]*);", text, re.M):
        of.use(found[1])
    return of, text


@cache
def declared(crate, name):
    """The type or trait with the given name that a crate declares, or re-exports from another crate."""
    for file in sorted((CRATES / crate).glob("src/**/*.rt")):
        of, text = rust(file)
        if found := re.search(rf"^pub (struct|enum|trait) {name}\b", text, re.M):
            return type_at(of, name, text, found)
    library = CRATES / crate / "src/lib.rt"
    given = rust(library)[0].names.get(name) if library.is_file() else None
    return declared(*given) if given else None


def type_at(of, name, text, found):
    """A type as contracts see it: its model, if any, or else its declaration."""
    whole = block_at(text, found.start())
    if model := re.search(rf"^impl\b.* Model for {name}\b", text, re.M):
        whole = members(block_at(text, model.start()), MODEL)
    elif found[1] == "trait":
        clauses = r"(?:requires|ensures)\b"
        whole = members(whole, rf"ghost \w+: |fn (?=[^;{{]*{clauses})|{clauses}")
    else:
        return Definition(of, name, whole, is_type=True)
    return Definition(of, name, whole)


def members(text, which):
    """The members of a trait or an impl whose beginning matches `which`."""
    return "\n".join(block_at(text, member.start()) for member in re.finditer(which, text))


def contracts(file):
    """The declarations of the functions of a file that have a clause, by name."""
    of, text = rust(file)
    for found in FUNCTION.finditer(text):
        end = re.compile(r"^ *\{|;$", re.M).search(text, found.start())
        head = text[found.start() : end.start()] if end else ""
        clause = re.search(r"^\s*(?:requires|ensures)\b", head, re.M)
        # without a clause, the brace of the body ends the signature's last line
        if clause and not re.search(r"\{$", head[: clause.start()], re.M):
            yield found[1], Definition(of, found[1], head)


def contracts_of(crate):
    """The contracts of all functions of a crate, each with the function's name."""
    return (it for file in sorted((CRATES / crate / "src").rglob("*.rt")) for it in contracts(file))


def exported(crate):
    """The names that a library exports."""
    text = (CRATES / crate / "src/lib.rt").read_text()
    uses = re.findall(r"^pub use [\w:]+::(?:\{(.*?)\}|(\w+));", text, re.M | re.S)
    names = re.split(r"[,\s]+", " ".join(several + " " + one for several, one in uses))
    return set(filter(None, names))


def starts(name):
    """The contracts from which the walk for a name starts."""
    found = [dict(contracts(CRATES / file))[function] for file, function in STARTS[name]]
    if name in OF_CRATE:
        found += [it for _, it in contracts_of(name) if OF_CRATE[name] in it.text]
    for library in OF_LIBRARIES.get(name, []):
        public = exported(library)
        found += [it for function, it in contracts_of(library) if function in public]
    return found


def calls_of(crate):
    """The contracts of the calls that a library exports, each by its title: its name, or that of its
    type before it."""
    public = exported(crate)
    for file in sorted((CRATES / crate / "src").rglob("*.rt")):
        of, text = rust(file)
        impls = list(IMPL.finditer(text))
        for function, contract in contracts(file):
            at = text.index(contract.text)
            owners = [impl[1] for impl in impls if impl.start() < at] if contract.text[0] == " " else []
            if (owners[-1] if owners else function) in public:
                yield "::".join([*owners[-1:], function]), contract


def libraries():
    """The crates of which others can make calls, but for the one that re-exports them."""
    return sorted(root.parent.parent.name for root in CRATES.glob("nj_*/src/lib.rt"))


def call(word):
    """The contract of the call that a word names, and its title. It stops unless one call has the name."""
    first, _, others = word.partition("::")
    crates, title = ([first], others) if first in libraries() else (libraries(), word)
    known = [(it, had) for crate in crates for it, had in calls_of(crate)]
    found = [(it, had) for it, had in known if title in (it, it.rpartition("::")[2])]
    if len(found) == 1:
        return found[0]
    several = ", ".join(f"{had.module.crate}::{it}" for it, had in found)
    return sys.exit(f"{word}: " + (f"one of {several}" if found else "no public call has this name"))


# ---- the walk


def named_in(definition):
    """The definitions that are named in a definition."""
    of, text = definition.module, definition.text
    words = TOKEN.findall(text) + [">>="] * bool(re.search(r"\bdo$", text, re.M))
    found = [] if definition.is_type else [meaning(of, word) for word in words]
    if of.file.suffix == ".rt":
        variants = re.sub(r"^ +[A-Z]\w*", "", text, flags=re.M) if definition.is_type else text
        found += [meaning(of, name) or declared(of.crate, name) for name in TYPE.findall(variants)]
    return filter(None, found)


def reached(starts):
    """All definitions that are reached from the starts, without duplicates."""
    found, pending = [], list(starts)
    while pending:
        if (definition := pending.pop()) not in found:
            found.append(definition)
            pending += named_in(definition)
    return sorted(found, key=lambda it: (it.module.crate, it.module.path, it.is_type, it.name))


def count(definitions, is_type=False):
    return sum(it.lines for it in definitions if it.is_type == is_type)


def show_all():
    """Prints how many lines each name has, and how many of them `run_words` does not."""
    known = {(it.module.file, it.name) for it in reached(starts("run_words"))}
    for name in STARTS:
        found = reached(starts(name))
        more = [it for it in found if (it.module.file, it.name) not in known]
        print(f"{count(found):5} {name}, {count(more)} of them not of run_words")


def rows(text):
    """The lines of the table of calls, from the rows of the page that name them."""
    yield from ["| Crate | Calls |", "|---|---|"]
    known = {(it.module.file, it.name) for it in reached(starts("run_words"))}

    def counted(title, contract):
        found = reached([contract])
        more = [it for it in found if (it.module.file, it.name) not in known]
        return f"`{title}` {count(found):,} ({count(more):,})"

    for crate, cell in OF_ROW.findall(text):
        of_crate, words = dict(calls_of(crate)), re.findall(r"`([\w:]+)`", cell)
        named = [it for word in words for it in of_crate if word in (it, it.rpartition("::")[2])]
        if named or OF_CRATE.get(crate):
            shown = named or [it for it, had in of_crate.items() if OF_CRATE[crate] in had.text]
            yield f"| `{crate}` | {', '.join(counted(it, of_crate[it]) for it in shown)} |"


def page():
    """The page with the table of calls."""
    text = PROOFS.read_text()
    table = "".join(f"{row}\n" for row in rows(text))
    return TABLE.sub(lambda found: f"{found[1]}{table}{found[2]}", text)


def main():
    parser = argparse.ArgumentParser()
    parser.add_argument("--most", type=int, help="how many lines of definitions there may be")
    parser.add_argument("--for", metavar="CALL", help="the public call to start from", dest="call")
    parser.add_argument("--write", action="store_true", help="write the table of docs/PROOFS.md")
    parser.add_argument("--check", action="store_true", help="compare that table")
    parser.add_argument("name", nargs="?", choices=[*STARTS, "all"], default="run_words")
    words = parser.parse_args()
    if words.check:
        return int(page() != PROOFS.read_text())
    if words.write:
        return PROOFS.write_text(page()) and 0
    if words.name == "all":
        return show_all()
    return show([call(words.call)[1]] if words.call else starts(words.name), words.most)


def show(begun, most):
    """Prints what is reached from these contracts. The status is 1 where it is more than `most`."""
    found = reached(begun)
    for crate, of_crate in groupby(found, key=lambda it: it.module.crate):
        of_crate = list(of_crate)
        print(f"{count(of_crate):5} {crate}")
        for path, group in groupby(of_crate, key=lambda it: (it.module.path, it.is_type)):
            group, (path, is_type) = list(group), path
            names = ", ".join(f"{it.name} {it.lines}" for it in group)
            lines = f"({count(group, True)})" if is_type else count(group)
            print(f"{lines:>9} {path}: {names}")
    print(f"{count(found):5} lines of definitions must be believed")
    print(f"{f'({count(found, True)})':>9} lines of structs and enums that they use")
    return 1 if most is not None and count(found) > most else 0


if __name__ == "__main__":
    sys.exit(main())

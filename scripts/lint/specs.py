"""Checks that each library keeps definitions to believe apart from plumbing.

A definition must be believed if it is named in the contract of a public function, in the value of a
public type, in a type's implementation of a trait, or in another definition that must be believed. In
crates/*/specs such definitions are in the files that Lib.antt lists, and all others are in the
directory Inside. How fields represent a value (`view`) is plumbing.
"""

import re

import believed
from believed import CRATES, Definition, block_at, exported, members, module, reached, rust
from lib.checks import check

FUNCTION = re.compile(r'^( *)pub (?:extern "C" )?fn (\w+)', re.M)
IMPL = re.compile(r"^impl\b[^{]*\{", re.M)


def libraries():
    """The crates that are libraries and have definitions."""
    roots = (specs.parent / "src/lib.rt" for specs in CRATES.glob("*/specs"))
    return sorted(root.parent.parent.name for root in roots if root.is_file())


def type_of(head):
    """The type to which an `impl` belongs."""
    while "<" in head:
        head = re.sub(r"<[^<>]*>", "", head.replace("->", ""))
    return re.findall(r"\w+", head.split(" where ")[0])[-1]


def contract(text, start, indent):
    """The signature and the clauses of a function."""
    brace = text.index("{", start)
    if not re.search(r"^ *(requires|ensures)\b", text[start:brace], re.M):
        return text[start:brace]
    return text[start : text.index(f"\n{indent}{{", start)]


def contracts(crate):
    """The contracts of the public functions of a library, its public types, and their
    implementations of traits."""
    public = exported(crate)
    for file in sorted((CRATES / crate).glob("src/**/*.rt")):
        of, text = rust(file)
        impls = list(IMPL.finditer(text))
        for found in FUNCTION.finditer(text):
            indent, name = found.groups()
            if indent:
                name = type_of([impl[0] for impl in impls if impl.start() < found.start()][-1])
            if name in public:
                yield Definition(of, name, contract(text, found.start(), indent))
        for impl in impls:
            if " for " in impl[0] and " Model for" not in impl[0] and type_of(impl[0]) in public:
                gifts = members(block_at(text, impl.start()), r"ghost \w+ =")
                yield Definition(of, type_of(impl[0]), gifts)
        for name in public & set(re.findall(r"^pub (?:struct|enum|trait) (\w+)", text, re.M)):
            yield believed.declared(crate, name)


def definitions(crate):
    """The definitions of a crate, and whether each is below Inside."""
    specs = CRATES / crate / "specs"
    for file in sorted(specs.rglob("*.antt")):
        path = file.relative_to(specs).with_suffix("").parts
        for definition in set(module(".".join(["Rattle", crate, "specs", *path])).defined.values()):
            yield definition, path[0] == "Inside"


@check
def plumbing_is_inside():
    believed.MODEL = r"ghost Value ="
    found = set(reached(start for crate in libraries() for start in contracts(crate)))
    for crate in libraries():
        for definition, is_inside in definitions(crate):
            if (definition in found) == is_inside:
                side = "must be believed" if is_inside else "is plumbing"
                yield f"{definition.module.file.relative_to(CRATES)}: {definition.name} {side}"

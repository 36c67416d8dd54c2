"""Compares include/ninja_explain.h with the exports of the crate nj_c.

Each export has to be declared with the C types of its parameters, and each declaration has to be
an export. The numbers of `enum nx_status`, `enum nx_fault` and `enum nx_kind` have to be those of the
crate. With a compiler, it and include/ninja_explain_files.h have to compile as C11 and as C++17
without a warning, and so have the programs at their tops.
"""

import re
import subprocess
import textwrap

from lib.checks import check, expect
from lib.programs import CRATES, ROOT

HEADER = ROOT / "include/ninja_explain.h"
FILES = ROOT / "include/ninja_explain_files.h"
PACKAGE = ROOT / "include/ninja_explain.pc.in"
SOURCES = CRATES / "nj_c/src"
OPENING = SOURCES / "sessions.rt"

EXPORT = re.compile(r'^pub extern "C" fn (\w+)\((.*?)\)(?: -> (\w+))?$', re.M | re.S)
DECLARATION = re.compile(r"^(\w+) (\w+)\(([^)]*)\);", re.M)
# The types that are passed to C for a parameter, one for each argument.
ARGUMENTS = {
    "Global": [],
    "&mut Session": ["nx_session *"],
    "&[u8]": ["const void *", "size_t"],
    "&mut [u8]": ["void *", "size_t"],
    "&[usize]": ["const size_t *", "size_t"],
    "&mut [usize]": ["size_t *", "size_t"],
    "&[u64]": ["const uint64_t *", "size_t"],
    "&mut [i32]": ["int32_t *", "size_t"],
    "&mut [PathStep]": ["nx_step *", "size_t"],
    "&mut [EdgeInput]": ["nx_edge_input *", "size_t"],
    "&mut usize": ["size_t *"],
    "&mut i32": ["int32_t *"],
    "&mut u64": ["uint64_t *"],
    "usize": ["size_t"],
    "u64": ["uint64_t"],
    "u32": ["uint32_t"],
    "i32": ["int32_t"],
}
# Each enumeration: how its names begin, the file that numbers them, and their type there.
ENUMERATIONS = {
    "nx_status": ("NX_", "status.rt", "Status"),
    "nx_fault": ("NX_FAULT_", "fault_kinds.rt", "Cause"),
    "nx_kind": ("NX_", "items.rt", "Kind"),
}
WARNINGS = ["-Wall", "-Wextra", "-Wpedantic", "-Wconversion", "-Werror", "-fsyntax-only"]
LANGUAGES = {"cc": ["-xc", "-std=c11"], "c++": ["-xc++", "-std=c++17"]}


def without_comments(text):
    return re.sub(r"/\*.*?\*/", "", text, flags=re.S)


# ---- calls


def exported(text):
    """The exports of a file: for each name the result, and the arguments with their types. An
    argument that only gives a length has no name."""
    for name, parameters, result in EXPORT.findall(text):
        arguments = []
        for parameter in filter(None, re.split(r",\s*", parameters.strip())):
            word, kind = re.fullmatch(r"(\w+): (.*)", parameter).groups()
            types = ARGUMENTS.get(kind, [kind])
            arguments += zip(types, [word, None])
        yield name, (ARGUMENTS.get(result, ["void"])[0], arguments)


def declared(text):
    """The same of the header, where every argument has a name."""
    for result, name, parameters in DECLARATION.findall(without_comments(text)):
        words = [" ".join(parameter.split()) for parameter in parameters.split(",")]
        yield name, (result, [re.fullmatch(r"(.*?) ?(\w+)", word).groups() for word in words])


def shown(call):
    result, arguments = call
    words = ", ".join(f"{kind} {word or 'LENGTH'}" for kind, word in arguments)
    return f"{result} ({words})"


def is_same(call, wanted):
    """Whether a declaration is that of an export."""
    named = [(kind, word if of else None) for (kind, word), (_, of) in zip(call[1], wanted[1])]
    return len(call[1]) == len(wanted[1]) and (call[0], named) == wanted


@check
def calls_are_declared():
    exports = {}
    for file in sorted(SOURCES.rglob("*.rt")):
        exports.update(exported(file.read_text()))
    declarations = dict(declared(HEADER.read_text()))
    for name in sorted(exports.keys() | declarations.keys()):
        if name not in declarations:
            yield f"it does not declare {name}: {shown(exports[name])}"
        elif name not in exports:
            yield f"nj_c does not export {name}"
        elif not is_same(declarations[name], exports[name]):
            yield f"{name}: {shown(declarations[name])} is not {shown(exports[name])}"


# ---- numbers


def constant(variant, prefix):
    """The name in C of a variant."""
    return prefix + re.sub(r"(?<=[a-z0-9])(?=[A-Z])", "_", variant).upper()


def differences(name):
    """The numbers of an enumeration that are not those of the crate."""
    prefix, file, kind = ENUMERATIONS[name]
    header = without_comments(HEADER.read_text())
    body = re.search(rf"enum {name} {{(.*?)}};", header, re.S)[1]
    found = dict(re.findall(r"(\w+) = (\d+)", body))
    text = (SOURCES / file).read_text()
    arms = re.findall(rf"{kind}::(\w+)(?:\([^)]*\))? => (\d+)", text)
    arms += [(word.title(), number) for word, number in re.findall(r"const (\w+): i32 = (\d+)", text)]
    wanted = {constant(variant, prefix): number for variant, number in arms}
    for word in sorted(found.keys() | wanted.keys()):
        if found.get(word) != wanted.get(word):
            yield f"{word} is {found.get(word)}, and {wanted.get(word)} in {file}"


@check
def numbers_are_the_same():
    for name in ENUMERATIONS:
        yield from differences(name)


# ---- structs

# Each struct that is passed in arrays: its name in the crate, and the file that has it.
STRUCTS = {"nx_step": ("PathStep", "paths.rt"), "nx_edge_input": ("EdgeInput", "undeclared_inputs.rt")}
MEMBERS = {"usize": "size_t", "i32": "int32_t"}


@check
def structs_are_the_same():
    header = without_comments(HEADER.read_text())
    for name, (kind, file) in STRUCTS.items():
        text = re.search(rf"pub struct {kind} \{{(.*?)\n\}}", (SOURCES / file).read_text(), re.S)[1]
        wanted = [(MEMBERS[of], word) for word, of in re.findall(r"pub (\w+): (\w+),", text)]
        found = re.search(rf"typedef struct {name} \{{(.*?)\}}", header, re.S)[1]
        yield from expect(name, re.findall(r"(\w+) (\w+);", found), wanted)


# ---- compiling


def example(header):
    """The program in the first comment of a header."""
    lines = header.split("*/")[0].replace("\n *", "\n").splitlines()
    first = next(at for at, line in enumerate(lines) if line.startswith("     #include"))
    last = lines.index("     }", first)
    return textwrap.dedent("\n".join(lines[first : last + 1])) + "\n"


def refusal(compiler, text):
    """The messages of a compiler about a text, or None if it takes it."""
    words = [compiler, *LANGUAGES[compiler], *WARNINGS, f"-I{HEADER.parent}", "-"]
    ran = subprocess.run(words, input=text, capture_output=True, text=True)
    return ran.stderr if ran.returncode or ran.stderr else None


def refusals(compiler):
    for header in HEADER, FILES:
        text = f"#include <{header.name}>\nint main(void) {{ return 0; }}\n"
        yield from filter(None, [refusal(compiler, text)])


@check(needs=["cc"])
def compile_as_c():
    yield from refusals("cc")


@check(needs=["c++"])
def compile_as_cpp():
    yield from refusals("c++")


@check(needs=["cc"])
def their_examples_compile():
    for header in HEADER, FILES:
        yield from filter(None, [refusal("cc", example(header.read_text()))])


@check
def version_is_the_same():
    given = re.findall(r"#define NX_VERSION_\w+ (\d+)", HEADER.read_text())
    yield from expect("NX_VERSION", given, re.findall(r"^    \*(?:major|minor) = (\d+);", OPENING.read_text(), re.M))
    package = re.search(r"^Version: (.*)$", PACKAGE.read_text(), re.M)[1]
    yield from expect(PACKAGE.name, package, ".".join(given))

"""The parts of the files of a crate below that the check of a crate above may read, by their names.

A part is a function without its body, a type, a trait, an `impl` block without its methods, a
constant, a macro, or a definition of `specs/`. What has no name of its own is for everyone.
"""

import functools
import re
from dataclasses import dataclass

# The pieces of code. A quote that begins no character begins the name of a lifetime.
TOKEN = re.compile(
    r"""
    (?P<comment>//[^\n]*|/\*.*?\*/)
    |b?r(?P<marks>\#*)".*?"(?P=marks)
    |b?"(?:\\.|[^"\\])*"
    |b?'(?:\\[^']+|[^'\\])'
    |\w+
    |\S
    """,
    re.X | re.S,
)
# The word that stands before the braces of a clause, or before its name.
CLAUSES = {"requires", "ensures"}
TACTIC = ["#", "[", "tactic"]
OPENING, CLOSING = "([{", ")]}"
# The words that begin an item with a name, which ends at its braces or at a semicolon.
NAMED = {"struct", "enum", "trait", "const", "static", "type"}
WORD = re.compile(r"[^\W\d]\w*")
# How a definition begins that is used by its name.
DEFINITION = re.compile(r"(?:abbrev(?: pub)?|unfoldable(?: pub)?|pub record|record) (\w+)")
# How a datatype begins, and each of its constructors, which are used without its name.
DATATYPE, CONSTRUCTOR = re.compile(r"(?:pub )?data (\w+)"), re.compile(r"  (\w+) :")


def tokens_of(text):
    """The pieces of code, without comments."""
    return [found[0] for found in TOKEN.finditer(text) if not found["comment"]]


def end_of(tokens, at):
    """The place after the bracket that closes the one at a place."""
    depth = 0
    for place in range(at, len(tokens)):
        depth += (tokens[place] in OPENING) - (tokens[place] in CLOSING)
        if depth == 0:
            return place + 1
    return len(tokens)


def declaration_end(tokens, at):
    """Where the declaration of a function ends that begins at a place: at its body or its semicolon."""
    while at < len(tokens) and tokens[at] != ";":
        if tokens[at] == "{" and not CLAUSES & {*tokens[at - 2 : at]}:
            break
        at = end_of(tokens, at) if tokens[at] in OPENING else at + 1
    return at


def declared(tokens):
    """The pieces of code without the bodies of functions and what their proofs use."""
    found, at = [], 0
    while at < len(tokens):
        if tokens[at : at + 3] == TACTIC:
            at = end_of(tokens, at + 1)
            continue
        begins = tokens[at] == "fn" and tokens[at + 1 : at + 2] != ["("]
        end = declaration_end(tokens, at) if begins else at + 1
        found += tokens[at:end]
        has_body = begins and tokens[end : end + 1] == ["{"]
        at = end_of(tokens, end) if has_body else end
    return found


@dataclass(frozen=True)
class Part:
    """A part with the names by which it is used, or none; a `use` has those that it brings, either
    into its file or, where it is an export of code, to whoever uses the crate."""

    names: tuple
    pieces: tuple
    is_use: bool = False
    is_export: bool = False

    @functools.cached_property
    def words(self):
        """The words in it, by which it uses other parts. A `use` uses none by itself."""
        return frozenset() if self.is_use else frozenset(WORD.findall(" ".join(self.pieces)))

    def is_read(self, names):
        """Whether who uses these names reads the part."""
        return not self.names or not names.isdisjoint(self.names)

    def brought(self, names):
        """What is read of a `use` by who uses these names."""
        found = [it for it in self.names if it in names]
        return [*self.pieces, *found] if found else []


def read_of(parts, names):
    """What is read of the parts of a file by who uses these names. A name has one meaning in all
    definitions, so it does not matter which of their files export it."""
    read = [it for it in parts if not it.is_use and it.is_read(names)]
    words = frozenset().union(*(it.words for it in read))
    uses = [it.brought(names if it.is_export else words) for it in parts if it.is_use]
    return [*(it.pieces for it in read), *filter(None, uses)]


def item_end(tokens, at):
    """Where an item ends that begins at a place: after its braces, or after a semicolon."""
    while at < len(tokens) and tokens[at] != ";":
        if tokens[at] == "{":
            return end_of(tokens, at)
        at = end_of(tokens, at) if tokens[at] in OPENING else at + 1
    return at + 1


def use_of(pieces):
    """The part of a `use`: what it brings is what stands in its braces, or last."""
    first = pieces.index("{") if "{" in pieces else len(pieces) - 2
    brought = tuple(it for it in pieces[first:] if WORD.fullmatch(it))
    return Part(brought, tuple(pieces[:first]), is_use=True, is_export=pieces[0] == "pub")


def self_type(header):
    """The name of the type of an `impl` block: the first after `for`, or after its parameters."""
    at = len(header) - header[::-1].index("for") if "for" in header else 1
    depth = 0
    for piece in header[at:]:
        depth += (piece == "<") - (piece == ">")
        if depth == 0 and WORD.fullmatch(piece) and piece not in ("mut", "dyn"):
            return (piece,)
    return ()


def parts_of(tokens, owner=()):
    """The parts of code; of an `impl` block, those without a name have that of its type."""
    pieces, at = [], 0
    while at < len(tokens):
        word, begins = tokens[at], at
        if tokens[at : at + 3] == TACTIC:
            at = end_of(tokens, at + 1)
            continue
        if word == "fn" and tokens[at + 1] != "(":
            at = declaration_end(tokens, at)
            yield Part((tokens[begins + 1],), tuple(pieces + tokens[begins:at]))
            at = end_of(tokens, at) if tokens[at : at + 1] == ["{"] else at + 1
        elif word == "use":
            at = tokens.index(";", at) + 1
            yield use_of(pieces + tokens[begins:at])
        elif word == "mod" and tokens[at + 2 : at + 3] == [";"]:
            at += 3
        elif word == "impl" and not owner:
            brace = tokens.index("{", at)
            at, type_of = end_of(tokens, brace), self_type(tokens[begins:brace])
            yield Part(type_of, tuple(pieces + tokens[begins:brace]))
            yield from parts_of(tokens[brace + 1 : at - 1], type_of)
        elif word in NAMED and tokens[at + 1 : at + 2] != ["fn"]:
            at = item_end(tokens, at)
            yield Part(owner or (tokens[begins + 1],), tuple(pieces + declared(tokens[begins:at])))
        elif word == "macro_rules":
            at = item_end(tokens, at)
            yield Part((tokens[begins + 2],), tuple(pieces + tokens[begins:at]))
        else:
            at = end_of(tokens, at) if word in OPENING else at + 1
            pieces += tokens[begins:at]
            if word != ";":
                continue
            yield Part(owner, tuple(pieces))
        pieces = []
    if pieces:
        yield Part(owner, tuple(pieces))


def names_of(lines):
    """The names by which a definition of these lines is used; none if it is for everyone."""
    if found := DEFINITION.match(lines[0]):
        return found.groups()
    if found := DATATYPE.match(lines[0]):
        return (found[1], *(it[1] for it in map(CONSTRUCTOR.match, lines) if it))
    return ()


def definitions_of(text):
    """The parts of definitions, which empty lines divide."""
    for block in re.split(r"\n\s*\n", text):
        lines = [it.rstrip() for it in block.split("\n") if not it.lstrip().startswith("--")]
        lines = [it for it in lines if it and not it.startswith("pub mod ")]
        uses = [it for it in lines if re.match(r"(?:pub )?use ", it)]
        for line in uses:
            before, _, names = line.rpartition(".")
            yield Part(tuple(WORD.findall(names)), (before,), is_use=True)
        if rest := [it for it in lines if it not in uses]:
            yield Part(names_of(rest), tuple(rest))

#!/usr/bin/env python3
"""Writes a part of docs/PROOFS.md: of each public call of the libraries the function which proves that
its contract allows one answer, and what this leaves free.

    one_answer.py            writes it, between its marks
    one_answer.py --check    ends with status 1 if it is out of date, or if nothing shows that a call
                             has one answer

A call has one answer if it is a law; or if it changes nothing and a clause names its value, as an
equation between the result and a term without it; or else by a function that makes it twice. Such a
function of nj_one_answer has the name of the call, after the type if it is a method: `deps_log_read`
makes `DepsLog::read` twice. For the exports of nj_c they are in its directory `one_answer`:
`load_twice` makes `nx_load` twice. What is free is in its documentation, after `Free:`.
"""

import argparse
import re
import sys
from collections import Counter
from dataclasses import dataclass

from lib.programs import CRATES, ROOT
from map import table
from reference import CLAUSE, LAWS, calls_in, documentation, end_of, exported

PAGE = ROOT / "docs/PROOFS.md"
# The crates whose public calls are listed.
COVERED = ("nj_deps", "nj_needs", "nj_keys", "nj_audit", "nj_graph", "nj_tools", "nj_ask", "nj_c")
# The crate whose exports are made twice in a directory of its own, and that directory.
EXPORTS, TWICE = "nj_c", "one_answer"
MARKS = re.compile(r"(<!-- one_answer -->\n).*?(<!-- end -->)", re.S)
FUNCTION = re.compile(r"^pub fn (\w+)\b(?!\(\))", re.M)
LAW = re.compile(r"pub fn \w+\(\)\n.*\n\{\}$", re.S)
# The export of which a documentation begins to speak.
SPOKEN = re.compile(r"^`nx_\w+`\. ")
# What may not stand in a clause that names the value.
CONDITION = re.compile(r"→|\b(?:IfOk|IfErr|IfSome|OnOk|OnErr|OfEdge|OfStatements)\b")


@dataclass
class Function:
    """A function that makes a call twice: its name, what its documentation says, and its body."""

    name: str
    said: str
    body: str

    def makes_twice(self, call):
        before = r"\b" if call.crate == EXPORTS else r"(?:\.|::)"
        return len(re.findall(rf"{before}{call.name}\(", self.body)) == 2


def files_twice(crate):
    """The sources with the functions that make the calls of a crate twice."""
    below = (EXPORTS, f"src/{TWICE}/**/*.rt") if crate == EXPORTS else (LAWS, "src/**/*.rt")
    return sorted((CRATES / below[0]).glob(below[1]))


def functions(crate):
    """The functions that make the calls of a crate twice, by name."""
    found = {}
    for file in files_twice(crate):
        text = file.read_text()
        lines = text.splitlines()
        for head in FUNCTION.finditer(text):
            said = documentation(lines, text.count("\n", 0, head.start()))
            whole = text[head.start() : end_of(text, head.start(), "")]
            body = whole[whole.rindex("\n{") :]
            found[head[1]] = Function(head[1], SPOKEN.sub("", " ".join(said)), body)
    return found


def clauses(text):
    """The texts of the clauses of a contract that it ensures, and its signature."""
    body = re.search(r"^ *\{\}?$", text, re.M)
    head = text[: body.start()] if body else text
    starts = list(CLAUSE.finditer(head))
    ends = [found.start() for found in starts[1:]] + [len(head)]
    ensured = [head[it.end() : end].strip().removesuffix("}") for it, end in zip(starts, ends) if it[1] == "ensures"]
    return head[: starts[0].start()] if starts else head, ensured


def names_value(clause):
    """Whether a clause is an equation between the result and a term without it."""
    sides = [re.search(r"\bresult\b", side) for side in clause.split("≡")]
    return len(sides) == 2 and bool(sides[0]) != bool(sides[1]) and not CONDITION.search(clause)


def is_named(call):
    signature, ensured = clauses(call.text)
    return "&mut" not in signature and any(names_value(clause) for clause in ensured)


def snake(name):
    return re.sub(r"(?<=[a-z])(?=[A-Z])", "_", name).lower()


def name_for(call):
    if call.crate == EXPORTS:
        return f"{call.name.removeprefix('nx_')}_twice"
    return f"{snake(call.owner)}_{call.name}" if call.owner else call.name


def calls_of(crate):
    public = exported(crate)
    files = [file for file in sorted((CRATES / crate).glob("src/**/*.rt")) if file.parent.name != TWICE]
    return [call for file in files for call in calls_in(crate, file, public)]


def sorted_out():
    """For each crate how many of its calls are laws, how many have a clause that names the value,
    those that a function makes twice, with it, and those of which nothing tells."""
    for crate in COVERED:
        twice = functions(crate)
        laws, named, made, lacking = 0, 0, [], []
        for call in calls_of(crate):
            function = twice.get(name_for(call))
            if LAW.match(call.text):
                laws += 1
            elif function and function.makes_twice(call):
                made.append((call, function))
            elif is_named(call):
                named += 1
            else:
                lacking.append(call.title)
        yield crate, laws, named, made, lacking


def free_in(said):
    """What a documentation says is free, and for what it is said."""
    said = re.sub(r"\[(`\w+`)\]", r"\1", said)
    before, _, free = said.partition("Free:")
    free = free.strip().removesuffix(".") or "nothing"
    of = before.replace("Nothing is free.", "").strip().removesuffix(".")
    return f"{of[:1].lower()}{of[1:]}: {free}" if of else free


def rows():
    for crate, laws, named, made, _ in sorted_out():
        groups = {}
        for call, function in made:
            groups.setdefault(free_in(function.said), []).append((call, function))
        yield [f"**`{crate}`**", f"{named} whose value a clause names, {laws} laws", ""]
        for free, pairs in groups.items():
            titles = ", ".join(f"`{call.title}`" for call, _ in pairs)
            yield [titles, ", ".join(f"`{function.name}`" for _, function in pairs), free]


def with_parts(page):
    """The page with its generated part as it should be."""
    part = "\n".join(table(["Calls", "Proved by", "Free"], rows()))
    page, count = MARKS.subn(lambda found: f"{found[1]}{part}\n{found[2]}", page)
    if count != 1:
        raise SystemExit(f"{PAGE.name} has {count} parts `one_answer`")
    return page


def untold():
    """What is wrong: calls of which nothing shows that they have one answer, and functions that make
    none of the calls twice."""
    used = Counter()
    for crate, _, _, made, lacking in sorted_out():
        yield from (f"nothing tells that {title} of {crate} has one answer" for title in lacking)
        used.update((EXPORTS if crate == EXPORTS else LAWS, function.name) for _, function in made)
    for crate in LAWS, EXPORTS:
        for name in functions(crate):
            if not used[crate, name] and (crate == LAWS or name.endswith("_twice")):
                yield f"{name} of {crate} makes no call twice"


def main():
    parser = argparse.ArgumentParser(description=__doc__.split("\n")[0])
    parser.add_argument("--check", action="store_true")
    check = parser.parse_args().check
    old = PAGE.read_text()
    new = with_parts(old)
    if check:
        wrong = list(untold())
        print(*wrong, sep="\n", end="\n" * bool(wrong), file=sys.stderr)
        sys.exit(bool(wrong) or old != new)
    PAGE.write_text(new)


if __name__ == "__main__":
    main()

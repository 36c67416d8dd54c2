"""Tries pieces of scripts on rows, where nothing else runs them."""

from pathlib import Path

import lay_out_proofs
import try_folder
from lib.checks import check, expect

# The arguments of `make run`, and the questions that they are.
WORDS = {
    "": [],
    "-t rules": [["-t", "rules"]],
    "-t query 'a b' \"c'd\"": [["-t", "query", "a b", "c'd"]],
    "-t rules ; -t query 'a b'": [["-t", "rules"], ["-t", "query", "a b"]],
    " ; -t rules ; ; -t targets a;b ; ": [["-t", "rules"], ["-t", "targets", "a;b"]],
}

# Lines of proofs, and the lines into which each is broken.
LONG = "x" * 45
LINES = {
    "f x = y": ["f x = y"],
    f"f : {LONG} → ({LONG} → {LONG})": [f"f : {LONG}", f"    → ({LONG} → {LONG})"],
    f"  f = g ({LONG} ∙ {LONG}) {LONG}": [f"  f = g ({LONG} ∙ {LONG})", f"      {LONG}"],
    f"    → {LONG} → {LONG} → {LONG}": [f"    → {LONG} → {LONG}", f"    → {LONG}"],
    f"-- {LONG} {LONG} {LONG}": [f"-- {LONG} {LONG}", f"-- {LONG}"],
    f"use a.{{{LONG}, {LONG}, {LONG}}}": [f"use a.{{{LONG}, {LONG}}}", f"use a.{{{LONG}}}"],
    f"use a.{{{LONG}{LONG}{LONG}}}": [f"use a.{{{LONG}{LONG}{LONG}}}"],
}


@check
def wide_lines_are_broken():
    for line, wanted in LINES.items():
        yield from expect(repr(line), lay_out_proofs.laid_out(line), wanted)


@check
def words_of_make_run():
    for words, wanted in WORDS.items():
        yield from expect(repr(words), try_folder.questions(words), wanted)


@check
def cases_of_make_run(folder):
    try_folder.write_cases([["-t", "rules"], ["-t", "query", "a b"]], folder)
    found = {it.name: it.read_text() for it in Path(folder).iterdir()}
    wanted = {"1": "", "1.args": "-t\nrules\n", "2": "", "2.args": "-t\nquery\na b\n"}
    yield from expect("the cases", found, wanted)

"""Compares the numbers of lines in the pages with the definitions."""

import re
import subprocess
import sys

import believed
from lib.checks import check, expect
from lib.programs import ROOT

# The most lines of definitions on which the contract of `run_words` may rest.
MOST = 1963
# How the pages say how many there are.
BELIEVED = re.compile(r"\*\*([\d,]+) lines of definitions\*\*")
PROOFS = ROOT / "docs/PROOFS.md"
PAGES = ROOT / "README.md", PROOFS
# How PROOFS.md has them in a table, and how the script prints them.
ROW = re.compile(r"^\| `(\w+)`[^|]*\| ([\d,]+) \| ([\d,]+) \|$", re.M)
COUNTED = re.compile(r"^ *(\d+) (\w+), (\d+) of them not of run_words$", re.M)


def number(text):
    return int(text.replace(",", ""))


@check
def lines_to_believe():
    """README.md and docs/PROOFS.md say how many lines the contract of `run_words` rests on."""
    words = [sys.executable, believed.__file__, "--most", str(MOST)]
    ran = subprocess.run(words, capture_output=True, text=True)
    if ran.returncode:
        yield f"more than {MOST} lines must be believed, or they were not counted: {ran.stderr}"
    lines = next(int(line.split()[0]) for line in ran.stdout.splitlines() if "must be" in line)
    for page in PAGES:
        said = [number(it) for it in BELIEVED.findall(" ".join(page.read_text().split()))]
        yield from expect(page.name, said, [lines])


@check
def lines_of_other_contracts():
    """docs/PROOFS.md says how many lines each of the contracts rests on."""
    words = [sys.executable, believed.__file__, "all"]
    ran = subprocess.run(words, capture_output=True, text=True, check=True)
    counted = {name: (int(all_), int(more)) for all_, name, more in COUNTED.findall(ran.stdout)}
    rows = ROW.findall(PROOFS.read_text())
    said = {name: (number(all_), number(more)) for name, all_, more in rows}
    yield from expect(PROOFS.name, said, counted)


@check
def lines_of_each_call():
    """docs/PROOFS.md says how many lines each call rests on that it names crate by crate."""
    if subprocess.run([sys.executable, believed.__file__, "--check"]).returncode:
        yield f"{PROOFS.name}: the table of calls is out of date: run `make pages`"

"""Tests believed.py, on which the number of lines to believe rests.

A small repository has a contract and definitions that it reaches. Into each of them something is
planted, and the script's count must grow by the lines that the contract then reaches, and by no other
line.
"""

import shutil
import subprocess
import sys
from unittest.mock import patch

import believed
from lib.checks import check, expect

RUN = "nj_cli/src/run.rt"
RUNS = "nj_cli/specs/Runs.antt"
LIB = "low/specs/Lists.antt"
SINK = "low/src/sink.rt"
FILES = {
    RUN: """\
ghost use Rattle.nj_cli.specs.Runs.{Ends};

use low::Sink;

/// Runs.
pub fn run_words(out: &mut Sink) -> bool
    ensures { Ends out.new result }
{
    true
}
""",
    RUNS: """\
-- how runs end
use Rattle.low.specs.Lists.{whole as all}

-- an ending
abbrev pub Ends : Bool → Type 0
Ends ended = all ended

abbrev pub unnamed : Bool → Bool
unnamed ended = ended
""",
    LIB: """\
use Rattle.std.specs.Prelude.{Bool}

unfoldable pub whole : Bool → Type 0
whole ended = ended
""",
    "low/src/lib.rt": "mod sink;\n\npub use sink::Sink;\n",
    SINK: """\
/// Where output goes.
pub struct Sink {
    taken: usize,
}

impl Model for Sink {
    ghost use Rattle.low.specs.Inside.Held.{held};

    ghost Value = { Bool };

    ghost invariant = { λ s. held s };
}
""",
    "low/specs/Inside/Held.antt": "abbrev pub held : Bool → Bool\nheld s = s\n",
}
# The contract of two lines, two definitions of two lines each, and the value of a model.
USUAL = 2 + 2 + 2 + 1
NAMED = "Ends ended = all ended"
TWO_LINES = "\nabbrev pub planted : Bool → Type 0\nplanted ended = ended\n"
MODEL = "    ghost Value = { Bool };\n"

# The plants: the file, the text replaced there, its replacement, and how many more lines are reached.
PLANTED = [
    ("nothing", RUNS, "", "", 0),
    ("a definition that nothing names", RUNS, "$", TWO_LINES, 0),
    ("one that a definition names", RUNS, NAMED, f"Ends ended = planted ended\n{TWO_LINES}", 0),
    ("one that a definition names too", RUNS, NAMED, f"{NAMED} planted\n{TWO_LINES}", 2),
    ("an equation", RUNS, NAMED, f"{NAMED}\nEnds true = all true", 1),
    ("a comment and an empty line", RUNS, NAMED, f"-- a comment\n\n{NAMED}", 0),
    ("a name in a comment", RUNS, NAMED, f"-- unnamed\n{NAMED}", 0),
    ("one in another crate", LIB, "whole ended = ended", f"whole ended = planted\n{TWO_LINES}", 2),
    ("a clause", RUN, "result }", "result }\n    ensures { unnamed result }", 1),
    ("a clause with its import", RUN, "{Ends};", "{Ends, unnamed};", 0),
    ("the view of a model", SINK, MODEL, f"{MODEL}\n    ghost view = {{ λ s. s }};\n", 1),
    ("plumbing of a model", SINK, "λ s. held s", "λ s.\n        held s", 0),
]


def counted(folder, files, *words):
    """How many lines the script counts in a repository of these files."""
    script = folder / "scripts/believed.py"
    script.parent.mkdir(parents=True, exist_ok=True)
    shutil.copy(believed.__file__, script)
    for name, text in files.items():
        path = folder / "crates" / name
        path.parent.mkdir(parents=True, exist_ok=True)
        path.write_text(text)
    ran = subprocess.run([sys.executable, script, *words], capture_output=True, text=True)
    if ran.returncode:
        raise RuntimeError(ran.stdout + ran.stderr)
    return next(int(line.split()[0]) for line in ran.stdout.splitlines() if "must be" in line)


@check
def planted_lines(folder):
    for name, file, old, new, more in PLANTED:
        text = FILES[file] + new if old == "$" else FILES[file].replace(old, new)
        yield from expect(name, counted(folder, {**FILES, file: text}), USUAL + more)


BODIES = """\
/// The same.
fn same(ended: bool) -> bool {
    ended
}

/// Ends.
fn ends(ended: bool) -> bool
    ensures { Ends ended }
{
    ended
}
"""


@check
def functions_without_clauses(folder):
    """A function without clauses has no contract, whatever the next one has."""
    file = folder / "crates/low/src/bodies.rt"
    file.parent.mkdir(parents=True)
    file.write_text(BODIES)
    with patch.object(believed, "CRATES", folder / "crates"):
        yield from expect("contracts", [name for name, _ in believed.contracts(file)], ["ends"])


@check
def most(folder):
    """With --most the status is 1 where there are more lines."""
    yield from expect("lines", counted(folder, FILES), USUAL)
    for count, status in (USUAL, 0), (USUAL - 1, 1):
        words = [sys.executable, folder / "scripts/believed.py", "--most", str(count)]
        ran = subprocess.run(words, capture_output=True)
        yield from expect(f"--most {count}", ran.returncode, status)


@check
def one_call(folder):
    """With --for the count is that of a public call, by its name or with its crate; another name is refused."""
    public = {**FILES, "nj_cli/src/lib.rt": "mod run;\n\npub use run::run_words;\n"}
    yield from expect("lines", counted(folder, public, "--for", "run_words"), USUAL)
    yield from expect("with a crate", counted(folder, public, "--for", "nj_cli::run_words"), USUAL)
    words = [sys.executable, folder / "scripts/believed.py", "--for", "unnamed"]
    ran = subprocess.run(words, capture_output=True, text=True)
    yield from expect("another", (ran.returncode, ran.stderr), (1, "unnamed: no public call has this name\n"))

"""Runs the built programs: python3 scripts/smoke [--program PROGRAM] [--jobs N] [NAME..]

PROGRAM is ninja-explain, by default as the gate leaves it; ninja-graph is where the gate leaves it
too. The sweeps of memory, calls, bytes, sizes and stack are run as well.

Prints the problems, and last how many checks passed. The exit status is 1 if one failed.
"""

import sys
from pathlib import Path

sys.path[0] = str(Path(__file__).resolve().parents[1])

from lib import checks  # noqa: E402
from lib.programs import Program, built  # noqa: E402
from lib.tools import EXPLAIN, GRAPH  # noqa: E402

SWEEPS = ["sweep.memory", "sweep.calls", "sweep.bytes", "sweep.sizes", "sweep.stack"]

if __name__ == "__main__":
    checks.load("smoke", *SWEEPS)
    parser = checks.parser_of(__doc__)
    parser.add_argument("--program", default=built("ninja_explain"), help="ninja-explain")
    words = parser.parse_args()
    program, graph = Program(words.program), Program(built("ninja_graph"))
    given = {
        "program": program,
        "graph": graph,
        "programs": {EXPLAIN: program, GRAPH: graph},
        "jobs": words.jobs,
    }
    sys.exit(checks.run(words.names, given, words.jobs))

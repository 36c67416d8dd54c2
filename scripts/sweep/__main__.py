"""Makes everything fail once, and runs hostile manifests:

    python3 scripts/sweep [--program PROGRAM] [--graph PROGRAM] [--seed S] [--cases N] [NAME..]

docs/RELIABILITY.md describes the sweeps. Prints the cases of each, the problems, and last how many
checks passed. The exit status is 1 if one failed.
"""

import sys
from pathlib import Path

sys.path[0] = str(Path(__file__).resolve().parents[1])

from lib import checks  # noqa: E402
from lib.programs import Program, built  # noqa: E402
from lib.tools import EXPLAIN, GRAPH  # noqa: E402

if __name__ == "__main__":
    checks.load("sweep")
    parser = checks.parser_of(__doc__)
    parser.add_argument("--program", default=built("ninja_explain"), help="ninja-explain")
    parser.add_argument("--graph", default=built("ninja_graph"), help="ninja-graph")
    parser.add_argument("--seed", type=int, default=0, help="of the first hostile manifest")
    parser.add_argument("--cases", type=int, default=100_000, help="how many hostile manifests")
    words = parser.parse_args()
    program, graph = Program(words.program), Program(words.graph)
    given = {
        "program": program,
        "programs": {EXPLAIN: program, GRAPH: graph},
        "seeds": range(words.seed, words.seed + words.cases),
        "jobs": words.jobs,
    }
    # Some of scripts/smoke are imported.
    sys.exit(checks.run(words.names or ["sweep"], given, words.jobs))

"""Runs the checks that read files alone: python3 scripts/lint [--jobs N] [NAME..]

Prints the problems, and last how many checks passed. The exit status is 1 if one failed.
"""

import sys
from pathlib import Path

sys.path[0] = str(Path(__file__).resolve().parents[1])

from lib import checks  # noqa: E402

if __name__ == "__main__":
    checks.load("lint")
    given = checks.parser_of(__doc__).parse_args()
    sys.exit(checks.run(given.names, {}, given.jobs))

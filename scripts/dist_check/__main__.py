"""Checks the packages of `make dist`: python3 scripts/dist_check [--crates FOLDER] [--library FOLDER]
[--log FILE] [--jobs N] [NAME..]

Packs the programs that were built below FOLDER, by default crates/, and the library for C, by
default in lib/, unpacks them into empty directories, and runs there the commands of a user. Nothing
is packed for checks that need no built program, as those of `proofs` and `commits`.

Prints the problems, and last how many checks passed. The exit status is 1 if one failed.
"""

import sys
import tempfile
from pathlib import Path

sys.path[0] = str(Path(__file__).resolve().parents[1])

from dist_check.packed import Built, pack  # noqa: E402
from lib import checks  # noqa: E402
from lib.programs import CRATES, ROOT  # noqa: E402


def main():
    parser = checks.parser_of(__doc__)
    parser.add_argument("--crates", type=Path, default=CRATES, metavar="FOLDER")
    parser.add_argument("--library", type=Path, default=ROOT / "lib", metavar="FOLDER")
    parser.add_argument("--log", type=Path, metavar="FILE")
    words = parser.parse_args()
    log = words.log and words.log.resolve()
    built = Built(words.crates.resolve(), words.library.resolve(), log)
    checks.load("dist_check")
    with tempfile.TemporaryDirectory() as room:
        given = {"built": built, "packed": Path(room).resolve() / "dist"}
        meant = [each for each in checks.CHECKS if each.is_meant(words.names, given)]
        if any("packed" in each.parameters() for each in meant):
            ran = pack(built, given["packed"])
            if ran.returncode:
                print(ran.stderr, end="")
                return 1
        return checks.run(words.names, given, words.jobs)


if __name__ == "__main__":
    sys.exit(main())

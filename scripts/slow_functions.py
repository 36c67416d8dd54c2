#!/usr/bin/env python3
"""Lists the functions of a crate whose proofs took longest: slow_functions.py CRATE [--most N]

A check writes the parts of each proof to `out/incremental`, one after the other, so the time of a
part is that since the part before it. That holds after `rt check --jobs 1` in a crate without
`out/incremental`, and with no other work on the machine. What many functions share counts for the
first of them. Each line has seconds, a function, and the slowest part of its proof.
"""

import argparse
import collections
import re
import sys

from lib.programs import CRATES

# The parts of proofs have names with a capital, as `Lts`, for the values that a function owns,
# borrows and drops, `Goals` and `Proof`; `decls` is a part of such a part.
PART = re.compile(r"(?:\.(?:[A-Z][\w-]*|decls))+$")


def parts_of(crate):
    """The parts of a crate's proofs, each with its time in seconds, as they were written."""
    before = None
    files = (CRATES / crate / "out" / "incremental").rglob("*.oantt")
    for time, name in sorted((file.stat().st_mtime, file.stem) for file in files):
        if name.startswith(f"Rattle-{crate}-"):
            yield name.split(".", 1)[-1], time - (before or time)
        before = time


def slowest(crate):
    """The functions of a crate, each with its seconds, its slowest part and that part's seconds."""
    functions = collections.defaultdict(list)
    for name, seconds in parts_of(crate):
        function = PART.sub("", name)
        functions[function].append((seconds, name[len(function) + 1 :] or "the rest"))
    sums = {name: sum(seconds for seconds, _ in parts) for name, parts in functions.items()}
    found = [(sums[name], name, max(parts)) for name, parts in functions.items()]
    return sorted(found, reverse=True)


def main():
    words = argparse.ArgumentParser(description=__doc__.split("\n")[0])
    words.add_argument("crate")
    words.add_argument("--most", type=int, default=20, help="lists at most so many functions")
    words = words.parse_args()
    found = slowest(words.crate)
    for total, name, (seconds, part) in found[: words.most]:
        print(f"{total:7.1f}  {name}  ({part} {seconds:.1f})")
    if not found:
        print(f"slow_functions.py: {words.crate} has no proofs", file=sys.stderr)
        return 1
    return 0


if __name__ == "__main__":
    sys.exit(main())

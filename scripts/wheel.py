#!/usr/bin/env python3
"""Packs the Python package with the shared library: wheel.py [--library FOLDER] [OUT]

Writes a wheel to the directory OUT, by default dist/. The package is that in python/, committed or
not. The library is that of FOLDER, by default lib/; one that names no logic in which it was proved is
refused.
"""

import argparse
import sys
from pathlib import Path

from dist import provenance, wheel
from dist.binaries import Refused, libc_needed
from dist.contents import LIBRARY
from lib.programs import ROOT
from lib.proved import Unproved, logic
from lint.version import version


def main():
    words = argparse.ArgumentParser(description=__doc__)
    words.add_argument("--library", type=Path, default=ROOT / "lib", metavar="FOLDER")
    words.add_argument("out", nargs="?", type=Path, default=ROOT / "dist", metavar="OUT")
    words = words.parse_args()
    library = words.library / f"{LIBRARY}.so.1"
    try:
        logic(library)
        libc = libc_needed(library)
    except (Refused, Unproved) as problem:
        print(f"wheel: {problem}", file=sys.stderr)
        return 1
    except FileNotFoundError as missing:
        print(f"wheel: {missing.filename} is needed", file=sys.stderr)
        return 1
    path = words.out / wheel.name(version(), libc)
    words.out.mkdir(parents=True, exist_ok=True)
    _commit, time = provenance.commit()
    items = wheel.wheel_items(wheel.in_directory(), words.library, version(), libc)
    path.write_bytes(wheel.archive(items, time))
    print(path)
    return 0


if __name__ == "__main__":
    sys.exit(main())

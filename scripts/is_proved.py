#!/usr/bin/env python3
"""Refuses a program or a library that names no logic in which it was proved: is_proved.py FILE..

The status is 1 if one does not, and its name is then on standard error.
"""

import sys

from lib.proved import Unproved, logic


def main():
    try:
        for file in sys.argv[1:]:
            logic(file)
    except Unproved as problem:
        print(f"is_proved.py: {problem}", file=sys.stderr)
        return 1
    except FileNotFoundError:
        print("is_proved.py: readelf is needed, of binutils", file=sys.stderr)
        return 1
    return 0


if __name__ == "__main__":
    sys.exit(main())

"""The logic in which a program or a library was proved, as its section .comment names it.

`rt` writes it there when it builds what it has proved. It is not a signature: it shows a mistake, not
a forgery.
"""

import re
import subprocess

NAMED = re.compile(r"\brattle (logic=[0-9a-f]{64})\b")


class Unproved(Exception):
    """A file that names no logic, or more than one."""


def comment(file):
    """The output of readelf for the section .comment, of each object if the file is an archive."""
    words = ["readelf", "--wide", "--string-dump=.comment", str(file)]
    return subprocess.run(words, capture_output=True, text=True, errors="replace").stdout


def logic(file):
    """The logic that a file names."""
    named = set(NAMED.findall(comment(file)))
    if len(named) != 1:
        count = "more than one logic" if named else "no logic"
        raise Unproved(f"{file} names {count} in its section .comment, so it is not as `rt` built it")
    return named.pop()

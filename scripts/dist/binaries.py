"""The system libraries that a program or a shared library needs."""

import re
import subprocess

NEEDED = re.compile(r"^  NEEDED +(\S+)$", re.M)
VERSION = re.compile(r"\(GLIBC_([\d.]+)\)")


class Refused(Exception):
    """Why something cannot be packed."""


def objdump(option, file):
    words = ["objdump", "--wide", option, str(file)]
    return subprocess.run(words, capture_output=True, text=True, check=True).stdout


def numbers(version):
    return [int(part) for part in version.split(".")]


def libc_of(symbols):
    """The newest version of the C library that a table of dynamic symbols names."""
    return max(VERSION.findall(symbols), key=numbers, default=None)


def libc_needed(file):
    """The version of the C library that a file needs. It may link nothing else."""
    others = set(NEEDED.findall(objdump("-p", file))) - {"libc.so.6"}
    if others:
        raise Refused(f"{file} links {', '.join(sorted(others))}")
    version = libc_of(objdump("-T", file))
    if not version:
        raise Refused(f"{file} names no version of the C library")
    return version

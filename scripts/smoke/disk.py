"""Reads files of the system: of several sizes, files that state no size, and paths that are not files.

No contract can state the contents of a disk.
"""

from lib.checks import check, expect
from lib.programs import DONE, FAULT
from lib.projects import write_files

HEAD, TAIL = b"rule r\n  command = ", b"\nbuild o: r\n"
# The program reads at most 131,072 bytes at once.
SIZES = (131_071, 131_072, 131_073, 300_001)
# The contents of a file whose size cannot be known before it is read: "Linux version ..".
VERSION = "/proc/version"


def run_on(program, folder, path):
    return program.run(["-t", "commands", "-f", path], folder)


@check
def sizes_of_files(program, folder):
    """A manifest of each size, whose command is nearly all of it, and files too small for one."""
    for size in SIZES:
        command = b"a" * (size - len(HEAD) - len(TAIL) - 1) + b"z"
        write_files(folder, {"sized": HEAD + command + TAIL})
        yield from expect(size, run_on(program, folder, "sized"), (DONE, command + b"\n", b""))
    for text, ending in {
        b"": (DONE, b"", b""),
        b"z": (FAULT, b"", b"sized:1:2: expected '='\n"),
        b"az": (FAULT, b"", b"sized:1:3: expected '='\n"),
    }.items():
        write_files(folder, {"sized": text})
        yield from expect(text, run_on(program, folder, "sized"), ending)


@check
def files_that_state_no_size(program, folder):
    empty = run_on(program, folder, "/dev/null")
    yield from expect("/dev/null", empty, (DONE, b"", b""))
    fault = (FAULT, b"", f"{VERSION}:1:7: expected '='\n".encode())
    yield from expect(VERSION, run_on(program, folder, VERSION), fault)


@check
def what_is_no_file(program, folder):
    """A missing file is one fault, and a directory, or a path through a file, another one."""
    for path, verb in ("no/such/file", "find"), (".", "read"), ("/dev/null/file", "read"):
        fault = (FAULT, b"", f"{path}:1:1: cannot {verb} '{path}'\n".encode())
        yield from expect(path, run_on(program, folder, path), fault)

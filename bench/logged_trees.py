"""Writes build trees with a deps log that Ninja finds up to date.

Each object has a source of its own, and each archive a hundred objects. A tenth of the headers is
generated, and all objects wait for those through one phony edge. The manifest is regenerated from
CMakeLists.txt. For each object the log names a run of headers that begins at seven times the object's
number. Every command is `touch`. The same arguments give the same files, apart from their times.
"""

import re
import struct
import subprocess
from collections import namedtuple
from pathlib import Path

# The numbers of objects and headers, and of headers that the log names for each object.
Tree = namedtuple("Tree", "objects headers each")

MANIFEST, LOG, CMAKE = "build.ninja", ".ninja_deps", "CMakeLists.txt"
ARCHIVE = "archive"
RULES = """\
rule generate
  command = touch $out
rule archive
  command = touch $out
rule regenerate
  command = touch $out
  generator = 1
build build.ninja: regenerate | CMakeLists.txt
rule compile
  command = touch $out
"""
DEPENDENCIES = "  depfile = $out.d\n  deps = gcc\n"
PER_FOLDER = 100
# The number of headers of which the first is generated.
PER_GENERATED = 10
STEP = 7
OPENING = b"# ninjadeps\n" + struct.pack("<I", 4)
IS_RECORD = 1 << 31
# In nanoseconds. Nothing compares it with the time of a missing output.
ANY_TIME = 1_700_000_000_000_000_000
UP_TO_DATE = "ninja: no work to do.\n"
TOUCH = re.compile(r"touch (\S+)")


def object_file(number):
    return f"objects/part_{number // PER_FOLDER}/object_{number}.o"


def source(number):
    return f"source/part_{number // PER_FOLDER}/object_{number}.c"


def is_generated(number):
    return number % PER_GENERATED == 0


def header(number):
    folder = "generated" if is_generated(number) else "include"
    return f"{folder}/part_{number // PER_FOLDER}/header_{number}.h"


def headers_of(tree, number):
    """The numbers of the headers that the log names for an object."""
    return [(STEP * number + index) % tree.headers for index in range(tree.each)]


def manifest(tree, bindings):
    """The statements of the manifest. The rule of objects ends with the given bindings."""
    made = [header(number) for number in range(tree.headers) if is_generated(number)]
    yield RULES + bindings
    yield from (f"build {path}: generate {path}.in\n" for path in made)
    yield f"build headers: phony {' '.join(made)}\n"
    for number in range(tree.objects):
        yield f"build {object_file(number)}: compile {source(number)} || headers\n"
    for first in range(0, tree.objects, PER_FOLDER):
        objects = map(object_file, range(first, min(first + PER_FOLDER, tree.objects)))
        yield f"build library_{first // PER_FOLDER}.a: {ARCHIVE} {' '.join(objects)}\n"


def write_manifest(folder, tree, bindings=DEPENDENCIES):
    with open(Path(folder, MANIFEST), "w", encoding="ascii") as file:
        file.writelines(manifest(tree, bindings))


def path_record(number, path):
    content = path.encode() + b"\0" * (-len(path) % 4) + struct.pack("<I", 0xFFFF_FFFF - number)
    return struct.pack("<I", len(content)) + content


def output_record(output, time, inputs):
    content = struct.pack(f"<IQ{len(inputs)}I", output, time, *inputs)
    return struct.pack("<I", IS_RECORD | len(content)) + content


def write_log(folder, tree):
    """Writes a log whose records have the times of their objects."""
    with open(Path(folder, LOG), "wb") as log:
        log.write(OPENING)
        log.writelines(path_record(number, header(number)) for number in range(tree.headers))
        for number in range(tree.objects):
            file = Path(folder, object_file(number))
            time = file.stat().st_mtime_ns if file.exists() else ANY_TIME
            output = tree.headers + number
            log.write(path_record(output, object_file(number)))
            log.write(output_record(output, time, headers_of(tree, number)))


def write_sources(folder, tree):
    made = [f"{header(it)}.in" if is_generated(it) else header(it) for it in range(tree.headers)]
    for path in [CMAKE, *made, *map(source, range(tree.objects))]:
        file = Path(folder, path)
        file.parent.mkdir(parents=True, exist_ok=True)
        file.touch()


def ninja(folder, *words):
    """The output of a run of Ninja."""
    words = ["ninja", *words]
    return subprocess.run(words, cwd=folder, capture_output=True, text=True, check=True).stdout


def write_built(folder, tree):
    """Writes a tree and builds it, without `deps`, for which commands would have to write depfiles. Then
    come the manifest with `deps`, whose commands are the same, and the log."""
    write_sources(folder, tree)
    write_manifest(folder, tree, bindings="")
    ninja(folder, "--quiet")
    write_manifest(folder, tree)
    write_log(folder, tree)
    if (found := ninja(folder, "-n")) != UP_TO_DATE:
        raise SystemExit(f"the tree is not up to date: {found[:200]}")


def would_touch(folder):
    """The outputs that a build would touch."""
    return TOUCH.findall(ninja(folder, "-n", "-v"))

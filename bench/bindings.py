#!/usr/bin/env python3
"""Writes Ninja files with many bindings into a directory: bindings.py tree|near|far N FOLDER [--short]

`tree` writes N files of 100 bindings each, which build.ninja includes in groups of 25. `near` and
`far` write only build.ninja, with N bindings. They refer to bindings shortly before them, or to any
earlier ones. A binding is as long as the flags of a compiler; with --short it is a path. The same N
gives the same bytes.
"""

import os
import sys

PER_FILE = 100
PER_GROUP = 25
PER_PLAIN = 10

FLAGS = " -std=c++20 -fno-exceptions -fno-rtti -fvisibility=hidden -O2 -g1 -DNDEBUG -Wall -Wextra -isystem third_party/include"


def file_name(number):
    return f"group_{number // PER_GROUP}/file_{number}.ninja"


def opening(number, is_include):
    return f"{'include' if is_include else 'subninja'} {file_name(number)}\n"


def opened_by(number):
    """The files that a file of a group includes. Every other group is a chain, 25 files deep. In
    the others the first file includes all."""
    group, place = divmod(number, PER_GROUP)
    if group % 2 == 0:
        return [number + 1] if place < PER_GROUP - 1 else []
    return list(range(number + 1, number + PER_GROUP)) if place == 0 else []


def file_binding(number, index, flags):
    """The first of ten bindings is a directory, to which the others refer."""
    folder = index - index % PER_PLAIN
    if index == folder:
        return f"dir_{index} = modules/part_{number}/unit_{index}\n"
    return f"object_{number}_{index} = $root/$dir_{folder}/source_{index}.o{flags}\n"


def file_lines(number, flags):
    """The bindings of a file. In the middle it includes other files, every other one as a scope of
    its own."""
    lines = [file_binding(number, index, flags) for index in range(PER_FILE)]
    lines[PER_FILE // 2 : PER_FILE // 2] = [opening(other, other % 2 == 0) for other in opened_by(number)]
    return lines


def main_lines(count):
    """Includes the groups, two of four by `include`."""
    groups = range(count // PER_GROUP)
    return ["root = build\n", *(opening(group * PER_GROUP, group % 4 < 2) for group in groups)]


def spread(index, count):
    """A number below the count. The numbers of many indexes are spread evenly."""
    return index * 2654435761 % 2**32 * count // 2**32


def single_binding(index, reach, flags):
    """The first of ten bindings is plain. The others refer to it, and to an earlier plain one."""
    plain = index - index % PER_PLAIN
    if index == plain:
        return f"v{index} = {index}\n"
    back = PER_PLAIN * spread(index, min(reach, plain // PER_PLAIN + 1))
    return f"v{index} = x$v{plain}/y$v{plain - back}{flags}\n"


def write(folder, name, lines):
    """Writes the lines into a file. Returns the number of bytes."""
    path = os.path.join(folder, name)
    os.makedirs(os.path.dirname(path), exist_ok=True)
    with open(path, "w") as file:
        file.writelines(lines)
    return os.path.getsize(path)


def write_tree(folder, count, flags=FLAGS):
    """Writes the files, whose number is a multiple of 25, and build.ninja. Returns their size."""
    size = sum(write(folder, file_name(number), file_lines(number, flags)) for number in range(count))
    return size + write(folder, "build.ninja", main_lines(count))


def write_near(folder, count, flags=FLAGS):
    """Writes build.ninja, whose bindings refer to two of the last hundred. Returns its size."""
    return write(folder, "build.ninja", (single_binding(index, 10, flags) for index in range(count)))


def write_far(folder, count, flags=FLAGS):
    """Writes build.ninja, whose bindings refer to any earlier ones. Returns its size."""
    return write(folder, "build.ninja", (single_binding(index, count, flags) for index in range(count)))


if __name__ == "__main__":
    kind, count, folder, *short = sys.argv[1:]
    writers = {"tree": write_tree, "near": write_near, "far": write_far}
    writers[kind](folder, int(count), "" if short else FLAGS)

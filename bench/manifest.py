#!/usr/bin/env python3
"""Writes a large Ninja file with N build statements to standard output: manifest.py N [SHAPE]

    cmake     as CMake writes it, with long values (the default)
    dense     as by generators that list the includes of each file: long lists of short inputs,
              paths of about 34 bytes, and in each block five references and a joined line
    headings  `cmake` with the long comments that CMake writes above a target and its statements

In each shape a target is 20 statements: one for the order, 18 compilations, and a link. The same N
and shape give the same bytes.
"""

import sys

HEAD = """\
# A generated file of the form that CMake writes.
# Do not edit.

ninja_required_version = 1.5
CONFIGURATION = Release
root = /work/project
sdk = C$:/tools/sdk

pool link_pool
  depth = 4

rule CXX_COMPILER
  depfile = $DEP_FILE
  deps = gcc
  command = /usr/bin/c++ $DEFINES $INCLUDES $FLAGS -MD -MT $out $
      -MF $DEP_FILE -o $out -c $in
  description = Building CXX object $out

rule CXX_LIBRARY_LINKER
  command = $PRE_LINK && /usr/bin/ar qc $TARGET_FILE $LINK_FLAGS $in && $POST_BUILD
  description = Linking CXX static library $TARGET_FILE
  pool = link_pool
  restat = 1

rule CUSTOM_COMMAND
  command = $COMMAND
  description = $DESC

"""

PER_TARGET = 20
ROOT = "/work/project"
INCLUDES = f"-I{ROOT}/modules/common/include -I{ROOT}/build/include -isystem /opt/sdk/include"
REFERRING = "-I$root/modules/common/include $\n      -I${root}/build/include -isystem $sdk/include"


def source_name(number):
    """One source of each target has a space in its name, and one a colon."""
    return {7: "with$ space_7.cpp", 12: "with$:colon_12.cpp"}.get(number, f"file_{number}.cpp")


def source(target, number):
    return f"{ROOT}/modules/target_{target}/src/{source_name(number)}"


def object_dir(target):
    return f"modules/target_{target}/CMakeFiles/target_{target}.dir"


def object_file(target, number):
    return f"{object_dir(target)}/src/{source_name(number)}.o"


def order(target):
    before = f" || cmake_order_target_{target - 1}" if target else ""
    return f"""\
#############################################
# Order-only phony target for target_{target}

build cmake_order_target_{target}: phony{before}

"""


def compilation(target, number):
    """A compilation. One of each target has references and a joined line in its block."""
    path = object_file(target, number)
    include = REFERRING if number == 5 else INCLUDES
    return f"""\
build {path}: CXX_COMPILER {source(target, number)} | {ROOT}/modules/target_{target}/config.h || cmake_order_target_{target}
  DEFINES = -DTARGET_{target}_EXPORTS -DVERSION=\\"1.{number}\\" -D_GNU_SOURCE
  DEP_FILE = {path}.d
  FLAGS = -O3 -DNDEBUG -std=gnu++17 -fPIC -fvisibility=hidden -Wall -Wextra -Wno-unused-parameter -Wwrite-strings
  INCLUDES = -I{ROOT}/modules/target_{target}/include {include}
  OBJECT_DIR = {object_dir(target)}
  OBJECT_FILE_DIR = {object_dir(target)}/src

"""


def link(target):
    objects = " $\n    ".join(object_file(target, number) for number in range(1, PER_TARGET - 1))
    needed = f"lib/libtarget_{target - 1}.a " if target else ""
    return f"""\
#############################################
# Link the static library lib/libtarget_{target}.a

build lib/libtarget_{target}.a | lib/libtarget_{target}.stamp: CXX_LIBRARY_LINKER {objects} | {needed}|| cmake_order_target_{target}
  LINK_FLAGS = -Wl,--as-needed
  OBJECT_DIR = {object_dir(target)}
  POST_BUILD = :
  PRE_LINK = :
  TARGET_FILE = lib/libtarget_{target}.a

"""


def statement(index):
    target, number = divmod(index, PER_TARGET)
    if number == 0:
        return order(target)
    if number == PER_TARGET - 1:
        return link(target)
    return compilation(target, number)


DENSE_HEAD = """\
ninja_required_version = 1.5
root = ../project
cxxflags = -O2 -g -std=c++20
defines = -DNDEBUG -D_GNU_SOURCE
warnings = -Wall -Wextra

rule cxx
  command = c++ $FLAGS -MMD -MF $out.d -c $in -o $out
  depfile = $out.d
  deps = gcc

rule ar
  command = ar qc $out $in

"""

DENSE_HEADERS = 12


def dense_object(target, number):
    return f"out/obj/base_{target:05}/unit_{number:02}.cc.o"


def dense_header(target, number, place):
    """A header of the target, or of one of the three targets before it."""
    return f"src/base_{max(target - place % 4, 0):05}/include/widget_{(number * 7 + place) % 40:02}.h"


def dense_compilation(target, number):
    headers = " ".join(dense_header(target, number, place) for place in range(DENSE_HEADERS))
    return f"""\
build {dense_object(target, number)}: cxx src/base_{target:05}/source/unit_{number:02}.cc | {headers} || order_{target}
  FLAGS = $cxxflags $defines -I$root/src/base_{target:05} $
      -I${{root}}/include $warnings
"""


def dense_link(target):
    objects = " ".join(dense_object(target, number) for number in range(1, PER_TARGET - 1))
    return f"build out/lib/base_{target:05}.a: ar {objects} || order_{target}\n"


def dense_statement(index):
    target, number = divmod(index, PER_TARGET)
    if number == 0:
        return f"build order_{target}: phony\n"
    if number == PER_TARGET - 1:
        return dense_link(target)
    return dense_compilation(target, number)


TARGET_LINE = "# " + "=" * 77
STATEMENT_LINE = "#" * 45


def headings(index):
    target, number = divmod(index, PER_TARGET)
    above = f"{TARGET_LINE}\n# Build statements for OBJECT_LIBRARY target target_{target}\n\n\n" if number == 0 else ""
    return f"{above}{STATEMENT_LINE}\n# Statement {number} of target_{target}\n\n"


def headed_statement(index):
    return headings(index) + statement(index)


SHAPES = {
    "cmake": (HEAD, statement, "cmake_order_target_0"),
    "dense": (DENSE_HEAD, dense_statement, "order_0"),
    "headings": (HEAD, headed_statement, "cmake_order_target_0"),
}


def write_statements(count, out, shape):
    """Writes a manifest without its `default` line, whose target has no command."""
    head, statement_at, _ = SHAPES[shape]
    out.write(head)
    out.writelines(map(statement_at, range(count)))


def write_manifest(count, out, shape="cmake"):
    write_statements(count, out, shape)
    out.write(f"default {SHAPES[shape][2]}\n")


if __name__ == "__main__":
    write_manifest(int(sys.argv[1]), sys.stdout, *sys.argv[2:])

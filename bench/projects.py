#!/usr/bin/env python3
"""Writes manifests like the ones of large projects into a directory: projects.py SHAPE FOLDER [N]

    llvm       the form of CMake for LLVM: one file of N edges (44,570) with 30 inputs each on
               average, mostly shared by many edges; words of 34 bytes on average; blocks whose
               values mostly repeat the edge before
    folders    the form of GN: build.ninja, and for each of N directories (1,500) a file, read by
               `subninja`, with its own bindings, rules and some 58 edges
    chromium   the form of GN for Chromium: build.ninja, a file of the toolchain's rules, and for each
               of N targets (5,000) a file, read by `subninja` from that one, with its own bindings,
               two to four rules of actions and some 62 edges

The same shape and N give the same bytes.
"""

import os
import sys

LLVM_HEAD = """\
# A generated file of the form that CMake writes of LLVM.

ninja_required_version = 1.5
CONFIGURATION = Release
cmake_ninja_workdir = /work/llvm/build/

rule CXX_COMPILER
  depfile = $DEP_FILE
  deps = gcc
  command = ${LAUNCHER}${CODE_CHECK}/usr/bin/c++ $DEFINES $INCLUDES $FLAGS -MD -MT $out -MF $DEP_FILE -o $out -c $in
  description = Building CXX object $out

rule CXX_EXECUTABLE_LINKER
  command = $PRE_LINK && /usr/bin/c++ $FLAGS $LINK_FLAGS $in -o $TARGET_FILE $LINK_LIBRARIES && $POST_BUILD
  description = Linking CXX executable $TARGET_FILE
  restat = $RESTAT

rule CUSTOM_COMMAND
  command = $COMMAND
  description = $DESC

"""

PER_LIBRARY = 100
TABLES = range(1, 11)
LINKS = range(11, 20)
SHARED_INPUTS = 128
AREAS = ["Target", "IR", "CodeGen", "Support", "Transforms/Utils", "Analysis", "MC/MCParser", "Frontend/OpenMP"]
KINDS = ["Instructions", "Registers", "Intrinsics", "Schedule", "Operands", "Features", "Patterns", "Callings"]


def table_source(number):
    """A file from which tables are generated. Each occurs in a hundred statements."""
    return f"../include/llvm/{AREAS[number % 8]}/{KINDS[number // 8 % 8]}{number % 401}.td"


def archive(number):
    return f"lib/libLLVM{AREAS[number % 8][:6]}{KINDS[number // 8 % 8]}{number:03}.a"


def llvm_order(library):
    tables = " ".join(f"include/gen/Library{library}Table{table}.inc" for table in TABLES)
    return f"build cmake_object_order_depends_target_Library{library}: phony || {tables}\n\n"


def llvm_table(library, number):
    sources = " ".join(table_source(library * 7 + number * 3 + place) for place in range(SHARED_INPUTS))
    made = f"include/gen/Library{library}Table{number}.inc"
    return f"""\
build {made} | ${{cmake_ninja_workdir}}{made}: CUSTOM_COMMAND bin/llvm-tblgen {sources}
  COMMAND = cd /work/llvm/build && bin/llvm-tblgen -gen-table-{number} -I ../include {made}
  DESC = Building Library{library}Table{number}.inc...
  restat = 1

"""


def llvm_link(library, number):
    archives = " ".join(archive(library + number + place) for place in range(SHARED_INPUTS // 2))
    tool = f"unittests/Library{library}/Tests{number}"
    objects = f"lib/Library{library}/CMakeFiles/LLVMLibrary{library}.dir/Source{19 + number}.cpp.o"
    return f"""\
build {tool}: CXX_EXECUTABLE_LINKER {objects} | {archives} {archives} || cmake_object_order_depends_target_Library{library}
  FLAGS = -fPIC -fvisibility-inlines-hidden -Werror=date-time -Wall -Wextra -O3 -DNDEBUG
  LINK_FLAGS = -Wl,-rpath-link,/work/llvm/build/./lib -Wl,--gc-sections
  LINK_LIBRARIES = -Wl,-rpath,\\$$ORIGIN/../lib {archives} -lrt -ldl -lm /usr/lib/x86_64-linux-gnu/libz.so
  OBJECT_DIR = unittests/Library{library}/CMakeFiles/Tests{number}.dir
  POST_BUILD = :
  PRE_LINK = :
  TARGET_FILE = {tool}

"""


def llvm_compilation(library, number):
    folder = f"lib/Library{library}/CMakeFiles/LLVMLibrary{library}.dir"
    made = f"{folder}/Source{number}.cpp.o"
    return f"""\
build {made}: CXX_COMPILER /work/llvm/llvm/lib/Library{library}/Source{number}.cpp || cmake_object_order_depends_target_Library{library}
  DEFINES = -D_GNU_SOURCE -D__STDC_CONSTANT_MACROS -D__STDC_FORMAT_MACROS -D__STDC_LIMIT_MACROS
  DEP_FILE = {made}.d
  FLAGS = -fPIC -fvisibility-inlines-hidden -Werror=date-time -Wall -Wextra -O3 -DNDEBUG -std=c++17
  INCLUDES = -I/work/llvm/build/lib/Library{library} -I/work/llvm/llvm/lib/Library{library} -I/work/llvm/build/include -I/work/llvm/llvm/include
  OBJECT_DIR = {folder}
  OBJECT_FILE_DIR = {folder}

"""


def llvm_statement(index):
    library, number = divmod(index, PER_LIBRARY)
    if number == 0:
        return llvm_order(library)
    if number in TABLES:
        return llvm_table(library, number)
    if number in LINKS:
        return llvm_link(library, number)
    return llvm_compilation(library, number)


def write_llvm(folder, count):
    with open(os.path.join(folder, "build.ninja"), "w") as file:
        file.write(LLVM_HEAD)
        file.writelines(map(llvm_statement, range(count)))


FOLDER_HEAD = """\
ninja_required_version = 1.7.2
root = ../..

pool link_pool
  depth = 4

rule stamp
  command = touch ${out}
  description = STAMP ${out}

"""

PER_FOLDER = 56


def folder_path(number):
    return f"components/area_{number % 40:02}/folder_{number:04}"


def folder_lines(number):
    path = folder_path(number)
    name = f"folder_{number:04}"
    objects = [f"obj/{path}/{name}/unit_{unit:02}.o" for unit in range(PER_FOLDER)]
    stamp = f"obj/{path}/inputs.stamp"
    needed = " ".join(f"obj/{folder_path(other)}/libfolder_{other:04}.a" for other in range(max(number - 3, 0), number))
    yield f"""\
defines = -DUSE_UDEV -DUSE_AURA=1 -D_FILE_OFFSET_BITS=64 -D_LARGEFILE_SOURCE -DNDEBUG -DFOLDER={number}
include_dirs = -I../.. -Igen -I../../third_party/perfetto/include -I../../{path}
cflags = -fno-delete-null-pointer-checks -fno-ident -fno-strict-aliasing -fstack-protector -O2 -fno-omit-frame-pointer
cflags_cc = -std=c++20 -Wno-trigraphs -fno-exceptions -fno-rtti -fvisibility-inlines-hidden
target_output_name = lib{name}

rule {name}_cxx
  command = ../../third_party/llvm/bin/clang++ -MMD -MF ${{out}}.d ${{defines}} ${{include_dirs}} ${{cflags}} ${{cflags_cc}} -c ${{in}} -o ${{out}}
  description = CXX ${{out}}
  depfile = ${{out}}.d
  deps = gcc

rule {name}_alink
  command = rm -f ${{out}} && ../../third_party/llvm/bin/llvm-ar -T -r -c -s -D ${{out}} @${{out}}.rsp
  description = AR ${{out}}
  rspfile = ${{out}}.rsp
  rspfile_content = ${{in}}

build {stamp}: stamp {root_of(path)}/BUILD.gn {root_of(path)}/DEPS
"""
    for unit, made in enumerate(objects):
        yield f"build {made}: {name}_cxx {root_of(path)}/unit_{unit:02}.cc || {stamp}\n"
        yield f"  source_file_part = unit_{unit:02}.cc\n  source_name_part = unit_{unit:02}\n"
    yield f"build obj/{path}/lib{name}.a: {name}_alink {' '.join(objects)} || {needed} {stamp}\n  pool = link_pool\n"


def root_of(path):
    return f"../../{path}"


def write_folders(folder, count):
    with open(os.path.join(folder, "build.ninja"), "w") as file:
        file.write(FOLDER_HEAD)
        file.writelines(f"subninja obj/{folder_path(number)}.ninja\n" for number in range(count))
    for number in range(count):
        path = os.path.join(folder, "obj", f"{folder_path(number)}.ninja")
        os.makedirs(os.path.dirname(path), exist_ok=True)
        with open(path, "w") as file:
            file.writelines(folder_lines(number))


TOOLCHAIN = """\
rule cxx
  command = ../../third_party/llvm-build/bin/clang++ -MD -MF ${out}.d ${defines} ${include_dirs} ${cflags} ${cflags_cc} -c ${in} -o ${out}
  description = CXX ${out}
  depfile = ${out}.d
  deps = gcc

rule alink
  command = "python3" ../../build/toolchain/ar.py ${out} @${out}.rsp
  description = AR ${out}
  rspfile = ${out}.rsp
  rspfile_content = ${in}

rule stamp
  command = touch ${out}
  description = STAMP ${out}

rule copy
  command = ln -f ${in} ${out} 2>/dev/null || (rm -rf ${out} && cp -af ${in} ${out})
  description = COPY ${in} ${out}

"""

AREAS_OF_TARGETS = ["base", "cc/paint", "components/viz/service", "content/browser", "media/gpu", "net/third_party/quiche", "ui/views", "v8/src"]
# A target has at least this many compilations, and fewer than this many more.
FEWEST_COMPILED, MORE_COMPILED = 30, 32


def target_name(number):
    return f"{AREAS_OF_TARGETS[number % 8].rpartition('/')[2]}_target_{number:04}"


def target_folder(number):
    return f"{AREAS_OF_TARGETS[number % 8]}/part_{number // 8:03}"


def target_stamp(number):
    return f"obj/{target_folder(number)}/{target_name(number)}.stamp"


def action_lines(number, action):
    """A rule that one edge uses, and this edge."""
    name = f"__{target_name(number)}_action_{action}___build_toolchain_linux_clang_x64__rule"
    folder = target_folder(number)
    made = f"gen/{folder}/{target_name(number)}/generated_{action}"
    yield f"""\
rule {name}
  command = python3 ../../{folder}/tools/generate_{action}.py --target {number} --output-dir gen/{folder} --input ../../{folder}/data_{action}.json
  description = ACTION //{folder}:{target_name(number)}_action_{action}(//build/toolchain/linux:clang_x64)
  restat = 1
  pool = build_toolchain_action_pool

"""
    needed = target_stamp(number - 1) if number else "build.ninja.stamp"
    yield f"build {made}.cc {made}.h: {name} | ../../{folder}/tools/generate_{action}.py ../../{folder}/data_{action}.json || {needed}\n"


def target_lines(number):
    folder, name = target_folder(number), target_name(number)
    yield f"""\
defines = -DUSE_UDEV -DUSE_AURA=1 -DUSE_GLIB=1 -D_FILE_OFFSET_BITS=64 -D_LARGEFILE_SOURCE -DNDEBUG -DTARGET={number}
include_dirs = -I../.. -Igen -I../../third_party/perfetto/include -Igen/third_party/perfetto -I../../{folder}
cflags = -fno-delete-null-pointer-checks -fno-ident -fno-strict-aliasing -fstack-protector -funwind-tables -fPIC -pthread -O2
cflags_cc = -std=c++20 -Wno-trigraphs -fno-exceptions -fno-rtti -nostdinc++ -fvisibility-inlines-hidden
label_name = {name}
target_out_dir = obj/{folder}
target_output_name = lib{name}

"""
    actions = range(2 + number % 3)
    for action in actions:
        yield from action_lines(number, action)
    generated = " ".join(f"gen/{folder}/{name}/generated_{action}.h" for action in actions)
    inputs = f"obj/{folder}/{name}.inputdeps.stamp"
    yield f"build {inputs}: stamp {generated}\n"
    for copied in range(8 + number % 7):
        yield f"build gen/{folder}/include/header_{copied:02}.h: copy ../../{folder}/include/header_{copied:02}.h\n"
    objects = []
    for unit in range(FEWEST_COMPILED + number * 7 % MORE_COMPILED):
        objects.append(f"obj/{folder}/{name}/unit_{unit:02}.o")
        yield f"build {objects[-1]}: cxx ../../{folder}/unit_{unit:02}.cc || {inputs}\n"
        yield f"  source_file_part = unit_{unit:02}.cc\n  source_name_part = unit_{unit:02}\n"
    needed = " ".join(target_stamp(other) for other in range(max(number - 4, 0), number))
    yield f"build obj/{folder}/lib{name}.a: alink {' '.join(objects)} || {inputs} {needed}\n"
    yield f"build {target_stamp(number)}: stamp obj/{folder}/lib{name}.a || {needed}\n"


def write_chromium(folder, count):
    main = "ninja_required_version = 1.7.2\n\npool build_toolchain_action_pool\n  depth = 8\n\n"
    main += "subninja toolchain.ninja\n\nrule gn\n  command = ../../buildtools/linux64/gn --root=../.. -q gen .\n"
    main += "  description = Regenerating ninja files\n\nbuild build.ninja.stamp: gn\n  generator = 1\n  depfile = build.ninja.d\n"
    files = {"build.ninja": [main], "toolchain.ninja": [TOOLCHAIN]}
    paths = [f"obj/{target_folder(number)}/{target_name(number)}.ninja" for number in range(count)]
    files["toolchain.ninja"] += [f"subninja {path}\n" for path in paths]
    for number, path in enumerate(paths):
        files[path] = target_lines(number)
    for path, lines in files.items():
        place = os.path.join(folder, path)
        os.makedirs(os.path.dirname(place), exist_ok=True)
        with open(place, "w") as file:
            file.writelines(lines)


PROJECTS = {"llvm": (write_llvm, 44_570), "folders": (write_folders, 1_500), "chromium": (write_chromium, 5_000)}


def write_project(shape, folder, count=None):
    write, usual = PROJECTS[shape]
    write(folder, count or usual)


if __name__ == "__main__":
    write_project(sys.argv[1], sys.argv[2], *map(int, sys.argv[3:]))

"""A project of 22 Ninja files, like those that CMake and Meson write.

The main file includes the rules, and reads ten libraries by `subninja`; each library includes the
list of its sources. Some paths contain a space, a colon, a quote or a dollar sign. The lines of one
file end in CR LF.
"""

LIBRARIES = 10
SOURCES = ["main.cc", "with$ space.cc", "it's.cc", "a$:b.cc", "cost$$.cc", "sub/../plain.cc"]

MAIN = """\
# A generated file. Do not edit.
ninja_required_version = 1.5

CONFIGURATION = Release
workdir = /w/build/
flags = -O3 -DNDEBUG
ldflags = -Wl,--as-needed

include CMakeFiles/rules.ninja

#############################################
# Files that are generated before anything is compiled.

build generated/config.h | generated/config.stamp: CUSTOM_COMMAND ../config.h.in || generated
  COMMAND = cd ${workdir}generated && printf '%s\\n' "$$PATH" > config.h
  DESC = Generating config.h
  restat = 1
build generated: phony

"""

RULES = """\
pool link_pool
  depth = 2

rule CXX_COMPILER
  depfile = $DEP_FILE
  deps = gcc
  command = /usr/bin/c++ $DEFINES $INCLUDES $flags $FLAGS -MD -MT $out $
      -MF $DEP_FILE -o $out -c $in
  description = Building CXX object $out

rule ARCHIVE
  command = rm -f $out && ar qc $out @$out.rsp && ranlib $out
  rspfile = $out.rsp
  rspfile_content = $in_newline

rule LINK
  command = $PRE_LINK && c++ $flags $ldflags $in -o $TARGET_FILE $libraries && $POST_BUILD
  description = Linking $TARGET_FILE
  pool = link_pool

rule CUSTOM_COMMAND
  command = $COMMAND
  description = $DESC

rule REGENERATE
  command = cmake --regenerate-during-build -S/w -B$workdir
  generator = 1
"""

LIBRARY_RULE = """\
# Some libraries have an archiver of their own.
rule ARCHIVE
  command = ar crsT $flags $out $in

"""

END = """\
build app: LINK generated/main.o | {archives} || generated/config.h
  PRE_LINK = :
  POST_BUILD = strip app
  TARGET_FILE = app
  libraries = {archives} -lm
build generated/main.o: CXX_COMPILER ../main.cc | generated/config.h
  DEP_FILE = generated/main.o.d
build all: phony app {libraries}
build install: CUSTOM_COMMAND all
  COMMAND = cd $workdir && cmake -P install.cmake
  pool = console
build build.ninja: REGENERATE ../CMakeLists.txt | CMakeFiles/rules.ninja

default all
ldflags = $ldflags -s
"""


def library(number):
    return f"lib_{number:02}"


def archive(number):
    return f"{library(number)}/lib{number:02}.a"


def objects(number):
    return " ".join(f"{library(number)}/{index}.o" for index in range(len(SOURCES)))


def library_file(number):
    """The file of a library: its scope, its archive, and a check that validates it."""
    name = library(number)
    needed = f" || {archive(number - 1)}" if number else ""
    return f"""\
flags = $flags -D{name.upper()}
dir = {name}

{LIBRARY_RULE if number % 3 == 1 else ""}include {name}/sources.ninja
build {archive(number)}: ARCHIVE {objects(number)} $
    $dir/extra.o{needed} |@ $dir/check
build $dir/extra.o: CXX_COMPILER $dir/extra.cc
  FLAGS = $FLAGS -g
  DEP_FILE = $dir/extra.o.d
build $dir/check: CUSTOM_COMMAND {archive(number)}
  COMMAND = nm $in
build {name}: phony {archive(number)}
"""


def sources_file(number):
    """The list of a library's sources, each with its object."""
    name = library(number)
    lines = [f"FLAGS = -I{name}/include -std=gnu++17\n"]
    for index, source in enumerate(SOURCES):
        lines.append(
            f"build {name}/{index}.o: CXX_COMPILER {name}/{source} | generated/config.h\n"
            f"  DEFINES = -DINDEX={index} -DTEXT=\\\"${{CONFIGURATION}}\\\"\n"
            f"  DEP_FILE = {name}/{index}.o.d\n"
        )
    return "".join(lines)


def project():
    """The content of each file, by name."""
    numbers = range(LIBRARIES)
    subninjas = "".join(f"subninja {library(number)}/build.ninja\n" for number in numbers)
    end = END.format(
        archives=" ".join(map(archive, numbers)), libraries=" ".join(map(library, numbers))
    )
    files = {"build.ninja": MAIN + subninjas + "\n" + end, "CMakeFiles/rules.ninja": RULES}
    for number in numbers:
        files[f"{library(number)}/build.ninja"] = library_file(number)
        files[f"{library(number)}/sources.ninja"] = sources_file(number)
    last = f"{library(LIBRARIES - 1)}/sources.ninja"
    files[last] = files[last].replace("\n", "\r\n")
    return files

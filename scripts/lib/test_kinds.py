"""Projects of CMake and Meson with a test of each kind: one that is a program, a script with a program as an
argument, one that finds a program by its environment, and so on; and for each a change that makes it fail.
"""

import json
import subprocess

from lib.projects import write_files

# ---- a project of CMake

CMAKE = """\
cmake_minimum_required(VERSION 3.13)
project(kinds C)
enable_testing()
set(SOURCE ${CMAKE_SOURCE_DIR})

add_executable(program program.c)
add_test(NAME program COMMAND program)

add_executable(tool tool.c)
add_test(NAME script COMMAND sh ${SOURCE}/run.sh $<TARGET_FILE:tool>)

add_executable(named named.c)
add_test(NAME environment COMMAND sh ${SOURCE}/named.sh)
set_tests_properties(environment PROPERTIES ENVIRONMENT "NAMED=$<TARGET_FILE:named>;OTHER=1")

add_executable(placed placed.c)
set_target_properties(placed PROPERTIES RUNTIME_OUTPUT_DIRECTORY ${CMAKE_BINARY_DIR}/programs)
add_test(NAME on_a_path COMMAND sh ${SOURCE}/placed.sh)
set_tests_properties(on_a_path PROPERTIES ENVIRONMENT "PLACE=/nowhere:${CMAKE_BINARY_DIR}/programs")

add_test(NAME required_file COMMAND sh ${SOURCE}/data.sh)
set_tests_properties(required_file PROPERTIES REQUIRED_FILES ${SOURCE}/data.txt WORKING_DIRECTORY ${SOURCE})

add_executable(prepare prepare.c)
add_test(NAME set_up COMMAND prepare)
add_test(NAME fixed COMMAND sh -c "exit 0")
set_tests_properties(set_up PROPERTIES FIXTURES_SETUP ready)
set_tests_properties(fixed PROPERTIES FIXTURES_REQUIRED ready)

add_library(plugin MODULE plugin.c)
add_executable(host host.c)
add_dependencies(host plugin)
target_compile_definitions(host PRIVATE PLUGIN="$<TARGET_FILE:plugin>")
target_link_libraries(host ${CMAKE_DL_LIBS})
add_test(NAME plugin COMMAND host)

add_custom_command(OUTPUT made.h DEPENDS made.in COMMAND ${CMAKE_COMMAND} -E copy ${SOURCE}/made.in made.h)
add_executable(generated generated.c ${CMAKE_BINARY_DIR}/made.h)
target_include_directories(generated PRIVATE ${CMAKE_BINARY_DIR})
add_test(NAME generated_header COMMAND generated)

add_executable(never EXCLUDE_FROM_ALL program.c)
add_test(NAME never_built COMMAND never)

add_executable(other other.c)
add_test(NAME untouched COMMAND other)
"""
ENDS = "int main(void) { return 0; }\n"
FAILS = "int main(void) { return 1; }\n"
HOST = """\
#include <dlfcn.h>
int main(void) {
    void *plugin = dlopen(PLUGIN, RTLD_NOW);
    int (*call)(void) = plugin ? (int (*)(void))dlsym(plugin, "call") : 0;
    return call ? call() : 2;
}
"""
SOURCES = {
    **{f"{name}.c": ENDS for name in ["program", "tool", "named", "placed", "prepare", "other"]},
    "run.sh": 'exec "$1"\n',
    "named.sh": 'exec "$NAMED"\n',
    "placed.sh": 'PATH="$PLACE:$PATH" exec placed\n',
    "data.sh": "grep -q good data.txt\n",
    "data.txt": "good\n",
    "plugin.c": "int call(void) { return 0; }\n",
    "host.c": HOST,
    "made.in": "#define ENDS 0\n",
    "generated.c": '#include "made.h"\nint main(void) { return ENDS; }\n',
}
# What makes a test fail: a file and its new contents.
CHANGES = {
    "program": ("program.c", FAILS),
    "script": ("tool.c", FAILS),
    "environment": ("named.c", FAILS),
    "on_a_path": ("placed.c", FAILS),
    "required_file": ("data.txt", "bad\n"),
    "fixed": ("prepare.c", FAILS),
    "plugin": ("plugin.c", "int call(void) { return 1; }\n"),
    "generated_header": ("made.in", "#define ENDS 1\n"),
}


def run(words, folder):
    return subprocess.run(words, cwd=folder, capture_output=True, text=True)


def built_by_cmake(folder):
    """A project of CMake that was configured and built. Returns its source and build directories."""
    source, build = folder / "source", folder / "build"
    write_files(source, {name: text.encode() for name, text in {**SOURCES, "CMakeLists.txt": CMAKE}.items()})
    for words in ["cmake", "-G", "Ninja", "-S", str(source), "-B", str(build)], ["ninja", "-C", str(build)]:
        subprocess.run(words, cwd=folder, capture_output=True, check=True)
    (build / "tests.json").write_text(run(["ctest", "--show-only=json-v1"], build).stdout)
    return source, build


def failed_in_ctest(build):
    """The tests that fail, or were not run because a fixture failed."""
    run(["ctest", "--output-junit", "results.xml"], build)
    listed = (build / "Testing/Temporary/LastTestsFailed.log").read_text().split()
    return {line.split(":", 1)[1] for line in listed}


# ---- a project of Meson

MESON = """\
project('kinds', 'c')
sh = find_program('sh')
at = meson.current_source_dir()
test('program', executable('program', 'program.c'))
test('script', sh, args: [at / 'run.sh', executable('tool', 'tool.c')])
named = executable('named', 'named.c')
test('environment', sh, args: [at / 'named.sh'], env: {'NAMED': named.full_path()}, depends: named)
prepared = executable('prepare', 'prepare.c')
test('depends', sh, args: ['-c', './prepare'], depends: prepared, workdir: meson.current_build_dir())
made = configure_file(input: 'made.in', output: 'made.h', copy: true)
again = custom_target('again', input: 'again.in', output: 'again.h', command: ['cp', '@INPUT@', '@OUTPUT@'])
test('generated_header', executable('generated', 'again.c', again))
test('untouched', executable('other', 'other.c'))
"""
MESON_SOURCES = {
    **SOURCES, "again.in": "#define ENDS 0\n", "again.c": '#include "again.h"\nint main(void) { return ENDS; }\n',
}
MESON_CHANGES = {
    "program": ("program.c", FAILS),
    "script": ("tool.c", FAILS),
    "environment": ("named.c", FAILS),
    "depends": ("prepare.c", FAILS),
    "generated_header": ("again.in", "#define ENDS 1\n"),
}


def built_by_meson(folder):
    """A project of Meson that was configured and built. Returns its source and build directories."""
    source, build = folder / "source", folder / "build"
    files = {**MESON_SOURCES, "meson.build": MESON}
    write_files(source, {name: text.encode() for name, text in files.items()})
    for words in ["meson", "setup", str(build), str(source)], ["ninja", "-C", str(build)]:
        subprocess.run(words, cwd=folder, capture_output=True, check=True)
    return source, build


def failed_in_meson(build):
    """The tests that fail."""
    run(["meson", "test", "--no-rebuild"], build)
    log = (build / "meson-logs/testlog.json").read_text()
    return {it["name"] for it in map(json.loads, log.splitlines()) if it["result"] != "OK"}

"""Runs the README's recipe for a compilation database in build directories of CMake, of Meson, and of
neither.
"""

import json
import os
import re
import subprocess

from lib.checks import check, expect
from lib.programs import EXAMPLES, ROOT, Ending, Program
from lib.projects import targets_differ, write_cmake, write_files

RECIPE = re.compile(r"^```sh\n(if ninja-explain .*?)^```$", re.M | re.S)
DATABASE = "compile_commands.json"
MESON = {
    "meson.build": b"project('a', 'c')\nexecutable('a', 'main.c')\n",
    "main.c": b"int main(void) { return 0; }\n",
}
NONE = b"no rule has _COMPILER in its name; ninja-explain -t rules lists them\n"


def follow(program, folder, build):
    """Follows the recipe in a build directory."""
    programs = folder / "bin"
    programs.mkdir()
    (programs / "ninja-explain").symlink_to(program.path)
    script = RECIPE.search((ROOT / "README.md").read_text())[1]
    path = os.pathsep.join([str(programs), os.environ["PATH"]])
    return Program("sh").run(["-c", script], build, PATH=path)


def sources(build):
    """The sources that the database of a build directory names, which are words of its commands."""
    entries = json.loads((build / DATABASE).read_text())
    return sorted((build / it["file"]).resolve() for it in entries if it["file"] in it["command"])


@check(needs=["cmake", "ninja", "cc"])
def of_cmake(program, folder):
    build = folder / "build"
    write_cmake(build)
    yield from expect("the recipe", follow(program, folder, build), Ending(0, b"", b""))
    wanted = [EXAMPLES / "cmake/src/main.c", EXAMPLES / "cmake/src/words.c"]
    yield from expect("the sources", sources(build), wanted)


@check(needs=["meson", "ninja", "cc"])
def of_meson(program, folder):
    project, build = folder / "project", folder / "build"
    write_files(project, MESON)
    words = ["meson", "setup", str(build), str(project)]
    subprocess.run(words, stdout=subprocess.DEVNULL, check=True)
    (build / DATABASE).unlink()
    yield from expect("the recipe", follow(program, folder, build), Ending(0, b"", b""))
    yield from expect("the sources", sources(build), [project / "main.c"])


@check
def of_neither(program, folder):
    """It writes nothing where no rule is found, and says so."""
    yield from targets_differ(program, folder)
    build = folder / "build"
    write_files(build, {"build.ninja": (EXAMPLES / "hello/build.ninja").read_bytes()})
    yield from expect("the recipe", follow(program, folder, build), Ending(0, b"", NONE))
    yield from expect("the files", [it.name for it in build.iterdir()], ["build.ninja"])

"""Runs the packed programs in empty directories, as a user of the archive and of the Debian packages would.

The expected results are in examples/hello and examples/project for everyone to read.
"""

import gzip
import os
import re
import shlex
import sys

from dist.contents import LIBRARY, PROGRAMS
from dist_check.packed import ARCHIVE, prefixes, run, wheel_of
from lib.checks import Skipped, check, expect
from lib.options import BASH_SCRIPT, FISH_SCRIPT, TOOLS, ask
from lib.programs import DONE, EXAMPLES, FAULT, ROOT, Ending, Program
from lint.version import version

HELLO = b"cc -c hello.c -o hello.o\ncc -c greet.c -o greet.o\ncc hello.o greet.o -o hello\n"
BAD = b"rule cc\n  command = cc $in\n  depth = 2\n"
BAD_LINE = b"build.ninja:3:3: unexpected variable 'depth'\n"
RULES = {"ar", "cc", "check", "link", "phony"}
COMPLETIONS = {
    "bash": "share/bash-completion/completions/ninja-explain",
    "fish": "share/fish/vendor_completions.d/ninja-explain.fish",
}


def program_of(prefix, name="ninja-explain"):
    return Program(prefix.folder / "bin" / name)


@check
def main_job(packed, folder):
    for prefix in prefixes(packed, folder):
        program = program_of(prefix)
        found = program.run(["-t", "commands"], EXAMPLES / "hello")
        yield from expect(prefix.name, found, Ending(DONE, HELLO, b""))
        found = program.run([], folder, BAD)
        yield from expect(f"{prefix.name}, a fault", found, Ending(FAULT, b"", BAD_LINE))
        found = program_of(prefix, "ninja-graph").run(["--version"], folder)
        wanted = f"ninja-graph {version()}\n".encode()
        yield from expect(f"{prefix.name}, ninja-graph", found, Ending(DONE, wanted, b""))


def pages(prefix):
    """The text of each man page, which Debian has compressed."""
    for file in sorted((prefix.folder / "share/man/man1").iterdir()):
        content = file.read_bytes()
        yield file, gzip.decompress(content) if file.suffix == ".gz" else content


@check(needs=["man"])
def man_page(packed, folder):
    """The page is that of the repository, and is shown without a warning."""
    for prefix in prefixes(packed, folder):
        found = {file.name.removesuffix(".gz"): text for file, text in pages(prefix)}
        wanted = {it.name: it.read_bytes() for it in (ROOT / "man").glob("*.1")}
        yield from expect(f"{prefix.name}, its pages", found, wanted)
        for file, _ in pages(prefix):
            environment = {**os.environ, "MANWIDTH": "80", "LC_ALL": "C.UTF-8"}
            ran = run("man", "--warnings", "--local-file", file, env=environment)
            name = file.name.split(".")[0]
            yield from expect(f"{prefix.name}, {name}", (ran.returncode, ran.stderr), (0, ""))
            foot = ran.stdout.rstrip().splitlines()[-1].split()
            yield from expect(f"{prefix.name}, its foot", foot[:2], [name, version()])


def offered(shell, prefix, words, folder):
    """The words that a shell offers in place of the last one, by the packed completion and program."""
    file, programs = prefix.folder / COMPLETIONS[shell], str(prefix.folder / "bin")
    words = ["ninja-explain", *words]
    command = {
        "bash": ["bash", "-c", BASH_SCRIPT, "bash", file, *words],
        "fish": ["fish", "--no-config", "-c", FISH_SCRIPT, file, " ".join(words)],
    }[shell]
    return {it.split("\t")[0] for it in ask(command, folder, programs)}


def completions(shell, packed, folder):
    for prefix in prefixes(packed, folder):
        found = offered(shell, prefix, ["-t", ""], EXAMPLES / "project")
        yield from expect(f"{prefix.name}, tools", found, set(TOOLS))
        found = offered(shell, prefix, ["-t", "compdb", ""], EXAMPLES / "project")
        yield from expect(f"{prefix.name}, rules", found, RULES)


@check(needs=["bash"])
def bash_completion(packed, folder):
    return completions("bash", packed, folder)


@check(needs=["fish"])
def fish_completion(packed, folder):
    return completions("fish", packed, folder)


@check
def zsh_completion(packed, folder):
    """The file of each program is there, under the name by which zsh finds it."""
    found = {
        str(file.relative_to(folder)): file.read_bytes()
        for prefix in prefixes(packed, folder)
        for name in PROGRAMS
        for file in prefix.folder.rglob(f"_{name}")
    }
    places = (
        f"archive/{ARCHIVE}/share/zsh/site-functions",
        "debian/usr/share/zsh/vendor-completions",
    )
    wanted = {
        f"{place}/_{name}": (ROOT / "completions" / f"_{name}").read_bytes()
        for place in places
        for name in PROGRAMS
    }
    yield from expect("its files", found, wanted)


# ---- the library


def flags_of(prefix, *words):
    environment = {**os.environ, **prefix.environment}
    ran = run("pkg-config", *words, "ninja_explain", env=environment, check=True)
    return shlex.split(ran.stdout)


def compiled(name, folder, *words):
    source = ROOT / "examples/c/commands.c"
    run("cc", "-std=c11", "-Wall", "-Wextra", "-Werror", source, *words, "-o", folder / name, check=True)
    return Program(folder / name)


def differences(prefix, kind, program):
    """The problems of a run of the program in C in examples/hello."""
    how = {"LD_LIBRARY_PATH": str(prefix.libraries)} if kind == "shared" else {}
    found = program.run([], EXAMPLES / "hello", **how)
    yield from expect(f"{prefix.name}, {kind}", found, Ending(DONE, HELLO, b""))


@check(needs=["cc", "pkg-config"])
def program_in_c(packed, folder):
    """The example in C, compiled with nothing but the packed files."""
    for prefix in prefixes(packed, folder):
        room = prefix.folder.parent
        shared = compiled("shared", room, *flags_of(prefix, "--cflags", "--libs"))
        yield from differences(prefix, "shared", shared)
        archive = prefix.libraries / f"{LIBRARY}.a"
        static = compiled("static", room, *flags_of(prefix, "--cflags"), archive)
        yield from differences(prefix, "static", static)


@check(needs=["readelf"])
def name_of_library(packed, folder):
    """The shared library is linked by its own version, and not by that of the packages."""
    for prefix in prefixes(packed, folder):
        ran = run("readelf", "--wide", "--dynamic", prefix.libraries / f"{LIBRARY}.so")
        if f"Library soname: [{LIBRARY}.so.1]" not in ran.stdout:
            yield f"{prefix.name}: {ran.stdout}"


# ---- the Python package


@check
def wheel_alone(built, packed, folder):
    """The wheel installs in a virtual environment without a network, and its tests pass there."""
    ran = run(sys.executable, "-m", "venv", folder / "env")
    if ran.returncode:
        raise Skipped(f"there is no venv: {ran.stdout.splitlines()[:1]}")
    python = folder / "env/bin/python"
    options = ["--no-index", "--quiet", "--disable-pip-version-check"]
    run(python, "-m", "pip", "install", *options, packed / wheel_of(built), check=True)
    ours = ("NINJA_EXPLAIN_LIBRARY", "PYTHONPATH")
    alone = {key: value for key, value in os.environ.items() if key not in ours}
    words = ["-m", "unittest", "discover", "-s", ROOT / "python/tests"]
    ran = run(python, *words, cwd=folder, env=alone)
    if ran.returncode or not re.search(r"^Ran [1-9]\d* tests", ran.stderr, re.M):
        yield f"status {ran.returncode}: {ran.stderr}"

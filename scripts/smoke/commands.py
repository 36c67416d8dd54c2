"""Runs the program on real files.

The projects are those of examples/, one with validations, one with edges of each kind, and one of
22 files, on which the tools write the same as Ninja's, where that is installed. Outputs are full or
closed, or their reader closes them.
"""

import json
import os
import subprocess

from lib.checks import check, expect
from lib.generated import project
from lib.programs import DONE, EXAMPLES, FAULT, OUTPUT_FAILED, ROOT, SECONDS, STOPPED
from lib.programs import USAGE, Program
from lib.projects import write_files
from smoke import outputs, validations

HELLO = (EXAMPLES / "hello/build.ninja").read_bytes()
PROJECT = EXAMPLES / "project"
HELLO_COMMANDS = b"""\
cc -c hello.c -o hello.o
cc -c greet.c -o greet.o
cc hello.o greet.o -o hello
"""
COMMANDS = ["-t", "commands"]
EDGES = 200_000
# A mark in a chain has a number for each edge that is left, and an argument of the command line has at
# most 128 KiB.
TAKEN = 150_000
LEVELS = 1000
PAGE = 7
MOST_BYTES = 1 << 30


def chain():
    """A manifest in which each edge but the first needs the one before it; and its commands."""
    lines = ["rule r\n  command = mk $in $out\nbuild e0: r s\n"]
    lines += [f"build e{i}: r e{i - 1}\n" for i in range(1, EDGES)]
    commands = ["mk s e0\n"] + [f"mk e{i - 1} e{i}\n" for i in range(1, EDGES)]
    return "".join(lines).encode(), "".join(commands).encode()


def tools_of_chain():
    """The output of some tools for the chain, by their arguments."""
    outputs = [f"e{i}" for i in range(EDGES)]
    last = [f"{'  ' * level}e{EDGES - 1 - level}: r\n" for level in range(3)]
    return {
        "-t inputs": "".join(f"{path}\n" for path in sorted([*outputs[:-1], "s"])).encode(),
        "-t targets all": "".join(f"{path}: r\n" for path in outputs).encode(),
        "-t targets depth 3": "".join(last).encode(),
        "-t targets rule r": "".join(f"{path}\n" for path in sorted(outputs)).encode(),
        "-t query e7": b"e7:\n  input: r\n    e6\n  outputs:\n    e8\n",
    }


def run_to_closing_reader(program, folder):
    """Runs the program with a reader that closes the pipe after the first byte."""
    pipes = {"stdout": subprocess.PIPE, "stderr": subprocess.PIPE}
    with subprocess.Popen([program.path, *COMMANDS], cwd=folder, bufsize=0, **pipes) as ran:
        first = ran.stdout.read(1)
        ran.stdout.close()
        error = ran.stderr.read()
        return ran.wait(SECONDS), first, error


def run_page(program, folder, size, mark, *options):
    """Runs the program for at most `size` commands after a mark. Returns how it ended, and the mark
    at which it stopped, or None if it did not stop."""
    ran = program.run([*COMMANDS, *options, "--take", str(size), "--resume", mark], folder)
    line = ran.error.decode()
    return ran, line.removeprefix("mark ").rstrip("\n") if ran.status == STOPPED else None


def run_pages(program, folder, size, start, *options):
    """Runs the program page by page. Returns the pages, and how the last run ended."""
    pages, mark = [], start
    while mark is not None:
        ran, mark = run_page(program, folder, size, mark, *options)
        pages.append(ran.output)
    return pages, (ran.status, ran.error)


def pages_of(output, size):
    lines = output.splitlines(keepends=True)
    return [b"".join(lines[at : at + size]) for at in range(0, len(lines), size)]


def run_to_full(program, folder, words, which):
    """How a run ends whose standard output or standard error is full."""
    with open("/dev/full", "wb") as full:
        return program.run(words, folder, **{which: full})


def write_hello(folder):
    write_files(folder, {"build.ninja": HELLO})


@check
def usage_faults(program, folder):
    for words, text in outputs.USAGE_FAULTS.items():
        wanted = (USAGE, b"", f"ninja-explain: {text}\n".encode())
        yield from expect(words, program.run(words.split(), folder), wanted)
    unreadable = (USAGE, b"", b"ninja-explain: cannot read the arguments\n")
    not_text = program.run([*COMMANDS, b"a\xff"], folder)
    yield from expect("argument that is not UTF-8", not_text, unreadable)
    yield from expect("no tool", program.run(["-f", "build.ninja"], folder), unreadable)


@check
def unreadable_files(program, folder):
    main = folder / "build.ninja"
    missing = (FAULT, b"", b"build.ninja:1:1: cannot find 'build.ninja'\n")
    yield from expect("missing file", program.run(COMMANDS, folder), missing)
    main.mkdir()
    no_file = (FAULT, b"", b"build.ninja:1:1: cannot read 'build.ninja'\n")
    yield from expect("folder called build.ninja", program.run(COMMANDS, folder), no_file)
    main.rmdir()
    with main.open("wb") as file:
        file.truncate(MOST_BYTES + 1)
    little_memory = program.run_by_shell(COMMANDS, folder, before="ulimit -v 100000;")
    yield from expect("file above the limit, in little memory", little_memory, no_file)


@check
def lost_outputs(program, folder):
    write_hello(folder)
    lines = HELLO_COMMANDS.splitlines(keepends=True)
    yield from expect("hello", program.run(COMMANDS, folder), (DONE, HELLO_COMMANDS, b""))
    one = program.run([*COMMANDS, "hello.o"], folder)
    yield from expect("one target", one, (DONE, lines[0], b""))
    own = program.run([*COMMANDS, "-s", "hello"], folder)
    yield from expect("its own command", own, (DONE, lines[2], b""))
    unknown = [*COMMANDS, "nothing"]
    closed = program.run_by_shell(COMMANDS, folder, after=">&-")
    yield from expect("closed output", closed, (OUTPUT_FAILED, b"", b""))
    closed = program.run_by_shell(unknown, folder, after="2>&-")
    yield from expect("closed error output", closed, (FAULT, b"", b""))
    full = run_to_full(program, folder, COMMANDS, "output")
    yield from expect("full output", full, (OUTPUT_FAILED, b"", b""))
    full = run_to_full(program, folder, unknown, "error")
    yield from expect("full error output", full, (FAULT, b"", b""))


@check
def stops(program, folder):
    write_hello(folder)
    lines = HELLO_COMMANDS.splitlines(keepends=True)
    first, two = b"".join(lines[:2]), [*COMMANDS, "--take", "2"]
    ran = program.run(two, folder)
    yield from expect("two commands", ran, (STOPPED, first, b"mark 0.1\n"))
    rest = program.run([*COMMANDS, "--resume", "0.1"], folder)
    yield from expect("the rest", rest, (DONE, lines[2], b""))
    lost = program.run_by_shell(two, folder, after="2>&-")
    yield from expect("mark to a closed output", lost, (OUTPUT_FAILED, first, b""))
    lost = run_to_full(program, folder, two, "error")
    yield from expect("mark to a full output", lost, (OUTPUT_FAILED, first, b""))
    bad = (USAGE, b"", b"ninja-explain: bad mark '0.'\n")
    yield from expect("no mark", program.run([*COMMANDS, "--resume", "0."], folder), bad)
    outside = (FAULT, b"", b"ninja-explain: mark out of range\n")
    beyond = program.run([*COMMANDS, "--resume", "0.2"], folder)
    yield from expect("mark that leads nowhere", beyond, outside)


@check
def other_names(program, folder):
    write_files(folder, {"other.ninja": HELLO})
    other = ["-f", "other.ninja", *COMMANDS]
    yield from expect("another file", program.run(other, folder), (DONE, HELLO_COMMANDS, b""))
    (folder / "other.ninja").unlink()
    named = program.run(["--stdin", *other], folder, HELLO)
    yield from expect("another file from standard input", named, (DONE, HELLO_COMMANDS, b""))
    faulty = (FAULT, b"", b"other.ninja:1:2: expected '='\n")
    yield from expect("its fault", program.run(["--stdin", *other], folder, b"x\n"), faulty)


@check
def every_tool(program, folder):
    """The output of each tool, also to a full device."""
    write_files(folder, {"build.ninja": outputs.KINDS.encode()})
    for place, table in (PROJECT, outputs.OUTPUTS), (folder, outputs.KINDS_OUTPUTS):
        for words, output in table.items():
            ran = program.run(words.split(), place)
            yield from expect(words, ran, (DONE, output.encode(), b""))
            if output:
                ran = run_to_full(program, place, words.split(), "output")
                yield from expect(f"{words}, full output", ran, (OUTPUT_FAILED, b"", b""))


@check
def examples_of_page(program):
    for place, words, written in outputs.page_examples():
        ran = program.run_by_shell(words, ROOT / place, after="2>&1")
        status = STOPPED if "--take" in words else DONE
        yield from expect(words, ran, (status, written.encode(), b""))


@check
def invalid_text(program, folder):
    """The output before the fault is a prefix of the array."""
    write_files(folder, {"build.ninja": outputs.NOT_TEXT})
    status, output, error = program.run(["-t", "compdb"], folder)
    yield from expect("bytes in JSON", (status, error), (FAULT, outputs.NOT_TEXT_FAULT))
    if not output.startswith(b"[") or b"good" not in output or b"bad" in output:
        yield f"the output is {output!r}"


@check
def validations_in_pages(program, folder):
    """Validations, all at once and in pages, and the styles of `inputs` with them."""
    write_files(folder, {"build.ninja": validations.manifest().encode()})
    built, checks = validations.build_commands(), validations.check_commands()
    without = (DONE, "".join(built).encode(), b"")
    yield from expect("without --validations", program.run(COMMANDS, folder), without)
    whole = "".join([*built, *checks]).encode()
    ran = program.run([*COMMANDS, "--validations"], folder)
    yield from expect("with them", ran, (DONE, whole, b""))
    pages = run_pages(program, folder, 3, "vstart", "--validations")
    yield from expect("pages of 3", pages, (pages_of(whole, 3), (DONE, b"")))
    inputs, paths = ["-t", "inputs", "--validations"], validations.inputs()
    in_order = (DONE, "".join(f"{path}\n" for path in paths).encode(), b"")
    ran = program.run([*inputs, "--dependency-order"], folder)
    yield from expect("inputs", ran, in_order)
    in_bytes = (DONE, "".join(f"{path}\n" for path in sorted(paths)).encode(), b"")
    yield from expect("sorted inputs", program.run(inputs, folder), in_bytes)


@check
def styles_of_inputs(program, folder):
    """The inputs are the words of the commands, without duplicates, since each command is its inputs."""
    write_files(folder, {"build.ninja": validations.PLAIN.encode()})
    ran = program.run(COMMANDS, folder)
    yield from expect("commands", ran, (DONE, validations.PLAIN_COMMANDS.encode(), b""))
    wanted = b"".join(word + b"\n" for word in dict.fromkeys(ran.output.split()))
    style = ["-t", "inputs", "--dependency-order", "--no-shell-escape"]
    yield from expect("inputs in order", program.run(style, folder), (DONE, wanted, b""))
    ended = program.run([*style, "--print0"], folder)
    zeros = (DONE, wanted.replace(b"\n", b"\0"), b"")
    yield from expect("inputs ended by zero bytes", ended, zeros)


def write_project(folder):
    """Writes the project of 22 files."""
    write_files(folder, {name: text.encode() for name, text in project().items()})


@check
def project_in_pages(program, folder):
    write_project(folder)
    status, whole, error = program.run(COMMANDS, folder)
    yield from expect("project", (status, error), (DONE, b""))
    pages = run_pages(program, folder, PAGE, "start")
    yield from expect(f"pages of {PAGE}", pages, (pages_of(whole, PAGE), (DONE, b"")))


@check(needs=["ninja"])
def project_beside_ninja(program, folder):
    write_project(folder)
    for targets in (
        [],
        ["app"],
        ["lib_04", "lib_07/4.o"],
        ["lib_03/with space.cc^"],
        ["lib_05/check"],
        ["install", "build.ninja"],
        ["-s", "app", "lib_01/lib01.a", "all"],
    ):
        wanted = (DONE, ninja(folder, [*COMMANDS, *targets]), b"")
        yield from expect(targets, program.run([*COMMANDS, *targets], folder), wanted)
    for words in (
        ["targets", "all"],
        ["targets", "depth", "3"],
        ["targets", "rule", "ARCHIVE"],
        ["targets", "rule", "CXX_COMPILER"],
        ["targets", "rule", "phony"],
        ["query", "app", "lib_04/lib04.a", "lib_04/check", "lib_03/it's.cc", "generated/config.h"],
        ["rules", "-d"],
    ):
        wanted = (DONE, ninja(folder, ["-t", *words]), b"")
        yield from expect(words, program.run(["-t", *words], folder), wanted)
    for words in [], ["ARCHIVE", "LINK"], ["-x"], ["-x", "ARCHIVE"]:
        yield from databases_differ(program, folder, words)


def ninja(folder, words):
    return Program("ninja").run(words, folder).output


def databases_differ(program, folder, words):
    """Compares compilation databases as JSON. Some versions of Ninja write phony edges too."""
    phony = set(ninja(folder, ["-t", "targets", "rule", "phony"]).decode().splitlines())
    theirs = json.loads(ninja(folder, ["-t", "compdb", *words]))
    wanted = [entry for entry in theirs if entry["output"] not in phony]
    here = ["--directory", os.path.realpath(folder)]
    status, output, error = program.run(["-t", "compdb", *here, *words], folder)
    yield from expect(f"compdb {words}", (status, error), (DONE, b""))
    if json.loads(output or b"[]") != wanted:
        yield f"compdb {words}: Ninja writes other objects"


@check
def long_chain(program, folder):
    manifest, wanted = chain()
    ran = program.run([], folder, manifest)
    yield from expect("chain from standard input", ran, (DONE, wanted, b""))
    write_files(folder, {"build.ninja": manifest})
    yield from expect("chain", program.run(COMMANDS, folder), (DONE, wanted, b""))
    for words, lines in tools_of_chain().items():
        yield from expect(words, program.run(words.split(), folder), (DONE, lines, b""))
    first, mark = run_page(program, folder, TAKEN, "start")
    rest = program.run([*COMMANDS, "--resume", mark or "start"], folder)
    pages = first.status, first.output + rest.output, rest.error
    yield from expect("chain in two pages", pages, (STOPPED, wanted, b""))
    closed = run_to_closing_reader(program, folder)
    yield from expect("reader that closes the pipe", closed, (OUTPUT_FAILED, wanted[:1], b""))


@check
def deep_tree(program, folder):
    """A tree of so many levels that its indents take a megabyte."""
    edges = "".join(f"build e{i}: mk e{i - 1}\n" for i in range(1, LEVELS))
    manifest = f"rule mk\n  command = mk $out\nbuild e0: mk\n{edges}"
    write_files(folder, {"build.ninja": manifest.encode()})
    tree = "".join(f"{'  ' * level}e{LEVELS - 1 - level}: mk\n" for level in range(LEVELS))
    ran = program.run(["-t", "targets", "depth", "0"], folder)
    yield from expect("deep tree", ran, (DONE, tree.encode(), b""))

#!/usr/bin/env python3
"""Writes tests/nj_call_rows/data/ninja_logs.rows: build logs that Ninja wrote, and what Ninja says of them.

    scripts/record_build_logs.py NINJA..

Each argument is a program of Ninja: 1.11 writes logs of version 5, 1.12 of version 6, 1.13 of version 7.
They build commands of 0 to 100 bytes, and commands with response files. The wanted hash of a command is
the one that Ninja wrote for it. The wanted entries of a log are those of the log that
`ninja -t recompact` makes of a copy: what Ninja read of it.
"""

import shutil
import sys
import tempfile
from pathlib import Path

from lib.composed import TESTS
from lib.programs import Program

FILE = TESTS / "nj_call_rows/data/ninja_logs.rows"
LOG = ".ninja_log"
VERSIONS = {"5": "Five", "6": "Six", "7": "Seven"}
LONGEST = 100
# Response files for commands of so many bytes.
CONTENTS = {7: "a", 16: "a b c", 23: "x" * 15, 40: "y" * 63, 70: "-o out in.o more.o" * 5}
HEAD = """\
# Build logs that Ninja wrote, and what Ninja says of them: its hash of each command, and the entries of the
# log that `ninja -t recompact` makes of a copy. scripts/record_build_logs.py writes this file, by Ninja {versions};
# build_logs.rows describes its rows.
"""
# A project with a log, before and after its commands are changed.
MANIFEST = """\
rule touch
  command = touch $out{more}
rule touch_by_file
  command = xargs touch <$out.rsp
  rspfile = $out.rsp
  rspfile_content = $out{more_words}
build a.o: touch
build sub/b$ c.o: touch a.o
build d.o d.d: touch a.o
build e: touch_by_file a.o
build f: touch | e
"""
CHANGES = {"more": " && true", "more_words": " g"}
# What comes after a log: lines that Ninja passes over, lines of outputs that it has, and one without its end.
DAMAGE = (
    b"1\t2\t3\n1\t2\t3\ta.o\n\n# ninja log v5\n"
    b"7\t8\t9\td.d\tABCx\n 07\t+8\t-9\te\t0x1f\tmore\n2147483648\t99999999999\t99999999999999999999\tf\t-1\n"
    b"7\t8\t9\ta.o\tabc"
)


def command_of(size):
    """A command of so many bytes that succeeds. The shell's `:` ignores its arguments."""
    if size < 2:
        return ":"[:size]
    return ":;" if size == 2 else ": " + "".join(chr(97 + at * size % 26) for at in range(size - 2))


def with_contents():
    return {f"r{size}": (command_of(size), contents) for size, contents in CONTENTS.items()}


def commands():
    """The command of each output, and the contents of its response file."""
    plain = {f"c{size}": (command_of(size), "") for size in range(LONGEST + 1)}
    return {**plain, **with_contents()}


def manifest():
    """A manifest with these commands."""
    yield "none =\nrule run\n  command = $command\n"
    yield "rule run_with\n  command = $command\n  rspfile = $out.rsp\n  rspfile_content = $contents\n"
    for output, (command, contents) in commands().items():
        yield f"build {output}: {'run_with' if contents else 'run'}\n  command = {command or '$none'}\n"
        if contents:
            yield f"  contents = {contents}\n"


def built(ninja, folder, text):
    """The log of a directory after a build of this manifest."""
    folder.mkdir(exist_ok=True)
    (folder / "build.ninja").write_text(text)
    ran = ninja.run([], folder)
    if ran.status != 0:
        raise RuntimeError(ran.output.decode())
    return (folder / LOG).read_bytes()


def recompacted(ninja, log, folder):
    """The log that Ninja makes of what it reads in a log."""
    copy = folder / "copy"
    copy.mkdir()
    shutil.copy(folder / "build.ninja", copy)
    (copy / LOG).write_bytes(log)
    ran = ninja.run(["-t", "recompact"], copy)
    if ran.status != 0:
        raise RuntimeError(ran.output.decode())
    made = (copy / LOG).read_text()
    shutil.rmtree(copy)
    return made


def entries(log):
    """The fields of each line."""
    return {line.split("\t")[3]: line.split("\t") for line in log.splitlines()[1:]}


def indented(lines):
    return "".join(f"    {line}\n" for line in lines)


def given(log):
    """The file of a log."""
    text = log.decode()
    lines = [line.replace("\t", "<09>") or "<>" for line in text.splitlines()]
    return f"{'file' if text.endswith(chr(10)) else 'unended'} log\n{indented(lines)}"


def log_row(ninja, log, folder):
    """The row of a log: its outputs in the order of their first lines, with what Ninja read."""
    read = entries(recompacted(ninja, log, folder))
    lines = [line.split("\t") for line in log.decode().split("\n")[1:-1] if line.count("\t") >= 4]
    outputs = list(dict.fromkeys(line[3] for line in lines))
    if sorted(outputs) != sorted(read):
        raise RuntimeError("Ninja read other outputs")
    shown = [f"{it}: {said[0]} to {said[1]}, time {said[2]}, hash {said[4]}" for it in outputs for said in [read[it]]]
    counts = f"outputs {len(outputs)}, lines {len(lines)}"
    return f"build-log\n{indented([f'version {VERSIONS[version_of(log)]}', *shown, counts])}"


def version_of(log):
    return log.decode().splitlines()[0].removeprefix("# ninja log v")


def hash_rows(log):
    """The row of each command."""
    hashes = entries(log.decode())
    for output, (command, contents) in commands().items():
        file = f"unended contents\n{indented([contents or '<>'])}"
        yield f"{file}command-hash {version_of(log)} {command or '<>'}\n{indented([hashes[output][4]])}"


def sections(ninja, folder):
    name = ninja.run(["--version"], ".").output.decode().strip()
    log = built(ninja, folder / "commands", "".join(manifest()))
    yield f"== the hashes of Ninja {name}\n\n" + "\n".join(hash_rows(log))
    project = folder / "project"
    first = built(ninja, project, MANIFEST.format(more="", more_words=""))
    second = built(ninja, project, MANIFEST.format(**CHANGES))
    logs = {"after a build": first, "after another build": second, "with more lines": second + DAMAGE}
    for title, text in logs.items():
        yield f"== a log of Ninja {name}, {title}\n\n{given(text)}{log_row(ninja, text, project)}"


def main():
    programs = [Program(path) for path in sys.argv[1:]]
    versions = [it.run(["--version"], ".").output.decode().strip() for it in programs]
    parts = []
    for ninja in programs:
        with tempfile.TemporaryDirectory() as folder:
            parts += sections(ninja, Path(folder))
    FILE.write_text("\n".join([HEAD.format(versions=", ".join(versions)), *parts]))
    rows = sum(line.startswith(("build-log", "command-hash")) for part in parts for line in part.splitlines())
    print(f"{FILE.name}: {rows} rows")


if __name__ == "__main__":
    main()

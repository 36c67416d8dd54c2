"""Runs ninja-graph's `json`.

The wanted objects of one manifest were worked out by hand. Those of others have to agree with the
output of `ninja-explain -t query`, `commands` and `targets`.
"""

import json
import re
import subprocess

from lib.checks import check, expect
from lib.programs import EXAMPLES, ROOT
from lib.projects import NOT_UTF8, PROJECTS, write_cmake, write_files
from smoke.graph import DONE, FAULT, USAGE

PROJECT = EXAMPLES / "project"
PAGE = ROOT / "man/ninja-graph.1"
INPUTS = ["inputs", "implicit_inputs", "discovered_inputs", "order_only_inputs"]
KINDS = ["outputs", "implicit_outputs", *INPUTS, "validations", "discovered"]
VALUES = """command description depfile deps rspfile rspfile_content pool dyndep generator restat""".split()
KEYS = ["edge", "place", "rule", "phony", *KINDS, *VALUES]
EVERY_KEY = """\
generator = of the file
pool deep
  depth = 2
rule every
  command = every $in > $out @$out.rsp
  description = EVERY "$out"\t
  depfile = $out.d
  deps = gcc
  rspfile = $out.rsp
  rspfile_content = $in_newline
  restat = 1
build a b$ c | d: every s$ t u | v || dd w |@ x
  pool = deep
  dyndep = dd
build all: phony a
"""
# two edges that a dyndep file is joined to
BOUND = """\
rule r
  command = r
  restat = of the rule
build o: r || dd
  dyndep = dd
build p: r || dd
  dyndep = dd
"""
WANTED = [
    {
        "edge": 0,
        "place": {"file": "build.ninja", "line": 12, "column": 1},
        "rule": "every",
        "phony": False,
        "outputs": ["a", "b c"],
        "implicit_outputs": ["d"],
        "inputs": ["s t", "u"],
        "implicit_inputs": ["v"],
        "discovered_inputs": [],
        "order_only_inputs": ["dd", "w"],
        "validations": ["x"],
        "discovered": "not-requested",
        "command": "every 's t' u > a 'b c' @a 'b c'.rsp",
        "description": "EVERY \"a 'b c'\"\t",
        "depfile": "a b c.d",
        "deps": "gcc",
        "rspfile": "a b c.rsp",
        "rspfile_content": "'s t'\nu",
        "pool": "deep",
        "dyndep": "dd",
        "generator": "of the file",
        "restat": "1",
    },
    {
        "edge": 1,
        "place": {"file": "build.ninja", "line": 15, "column": 1},
        "rule": "phony",
        "phony": True,
        "outputs": ["all"],
        "implicit_outputs": [],
        "inputs": ["a"],
        "implicit_inputs": [],
        "discovered_inputs": [],
        "order_only_inputs": [],
        "validations": [],
        "discovered": "not-requested",
        **dict.fromkeys(VALUES, ""),
        "generator": "of the file",
    },
]


def run(graph, folder, *words):
    return graph.run(["json", *words], folder)


def objects(graph, folder, *words):
    """The objects of all edges; their keys have to be in order."""
    status, output, error = run(graph, folder, *words)
    if (status, error) != (DONE, b"") or not output:
        raise RuntimeError(f"json ends with {status}, {error}, after {len(output)} bytes")
    found = [json.loads(line) for line in output.splitlines()]
    for it in found:
        if list(it) != KEYS or list(it["place"]) != ["file", "line", "column"]:
            raise RuntimeError(f"the keys are {list(it)}")
    return found


@check
def every_key(graph, folder):
    (folder / "build.ninja").write_text(EVERY_KEY)
    found = objects(graph, folder)
    for index, wanted in enumerate(WANTED):
        for key in KEYS:
            yield from expect(f"edge {index}, {key}", found[index][key], wanted[key])
    yield from expect("how many", len(found), len(WANTED))
    # without blanks, as Python writes it
    text = "".join(json.dumps(it, ensure_ascii=False, separators=(",", ":")) + "\n" for it in WANTED)
    yield from expect("the text", run(graph, folder).output.decode(), text)


def queried(program, folder, output):
    """The inputs and validations of the edge that makes a file, as `query` writes them."""
    text = program.run(["-t", "query", output], folder).output.decode()
    maker = re.search(r"^  input: (.*)\n((?:    .*\n)*)(?:  validations:\n((?:    .*\n)*))?", text, re.M)
    inputs = [line[4:] for line in maker[2].splitlines()]
    return maker[1], inputs, [line[4:] for line in (maker[3] or "").splitlines()]


def explained_differs(graph, program, folder, *words):
    """Compares the objects with the output of ninja-explain for the same edges."""
    found = objects(graph, folder, *words)
    explain = [*words, "-f", "build.ninja", "-t"]
    listed = program.run([*explain, "targets", "all"], folder).output.decode().splitlines()
    outputs = [path for it in found for path in it["outputs"] + it["implicit_outputs"]]
    rules = [it["rule"] for it in found for _ in it["outputs"] + it["implicit_outputs"]]
    yield from expect("outputs", [f"{path}: {rule}" for path, rule in zip(outputs, rules)], listed)
    for index, it in enumerate(found):
        name, place = f"edge {index}", it["place"]
        yield from expect(f"{name}, number", it["edge"], index)
        line = (folder / place["file"]).read_text().splitlines()[place["line"] - 1]
        yield from expect(f"{name}, place", line.startswith("build "), True)
        first = (it["outputs"] + it["implicit_outputs"])[0]
        signs = zip(["", "| ", "| ", "|| "], INPUTS)
        inputs = [sign + path for sign, kind in signs for path in it[kind]]
        if not words:
            wanted = queried(program, folder, first)
            yield from expect(f"{name}, query", (it["rule"], inputs, it["validations"]), wanted)
        command = program.run([*explain, "commands", "-s", first], folder).output.decode()
        yield from expect(f"{name}, command", it["command"] + "\n" if not it["phony"] else "", command)


@check
def of_projects(graph, program, folder):
    yield from explained_differs(graph, program, PROJECT)
    for name in "two scopes", "response file", "validation", "generated":
        part = folder / name
        part.mkdir()
        PROJECTS[name].write_to(part)
        yield from explained_differs(graph, program, part)
    PROJECTS["dyndep file"].write_to(folder)
    found = objects(graph, folder, "--dyndep")[0]
    yield from expect("joined", (found["implicit_outputs"], found["implicit_inputs"]), (["o2"], ["dd", "extra"]))


@check
def of_a_dyndep_file_with_restat(graph, folder):
    (folder / "build.ninja").write_text(BOUND)
    for value, wanted in ("1", "1"), ("0", "1"), ("", "of the rule"), ("$x", "of the rule"):
        (folder / "dd").write_text(f"ninja_dyndep_version = 1\nbuild o: dyndep\n  restat = {value}\nbuild p: dyndep\n")
        found = [it["restat"] for it in objects(graph, folder, "--dyndep")]
        yield from expect(f"restat = {value}", found, [wanted, "of the rule"])
        yield from expect("not joined", [it["restat"] for it in objects(graph, folder)], ["of the rule"] * 2)


@check(needs=["cmake", "ninja", "cc"])
def of_cmake(graph, program, folder):
    write_cmake(folder)
    yield from explained_differs(graph, program, folder)


@check
def many_edges(graph, folder):
    """More than one block of output, each edge once."""
    lines = ["rule mk", "  command = mk $out"] + [f"build o{n}: mk i{n}" for n in range(5000)]
    (folder / "build.ninja").write_text("".join(f"{line}\n" for line in lines))
    found = objects(graph, folder)
    yield from expect("outputs", [it["outputs"] for it in found], [[f"o{n}"] for n in range(5000)])


@check
def not_utf8(graph, folder):
    """The objects before that edge are written."""
    before = b"rule c\n  command = c\nbuild x: c y\n"
    write_files(folder, {"build.ninja": before + NOT_UTF8})
    status, output, error = run(graph, folder)
    yield from expect("the end", (status, error), (FAULT, b"build.ninja:8:1: text is not UTF-8\n"))
    yield from expect("before", [json.loads(line)["outputs"] for line in output.splitlines()], [["x"]])


@check
def wrong_words(graph):
    status, output, error = run(graph, PROJECT, "test")
    yield from expect("a word", (status, output, error == b""), (USAGE, b"", False))


def recipes():
    """The recipes of the page that use a program on the output of `json`."""
    text = PAGE.read_text()
    for written, shown in ("\\&", ""), ("\\-", "-"), ("\\(aq", "'"), ("\\en", "\\n"), ("\\e", "\\"):
        text = text.replace(written, shown)
    return [it for it in re.findall(r"^\.EX\n(.*?)^\.EE$", text, re.M | re.S) if "ninja-graph json" in it]


def follow(graph, folder, script):
    programs = folder / "bin"
    programs.mkdir(exist_ok=True)
    if not (programs / "ninja-graph").exists():
        (programs / "ninja-graph").symlink_to(graph.path)
    command = f'PATH="{programs}:$PATH"; {script}'
    ran = subprocess.run(["sh", "-c", command], cwd=folder, capture_output=True)
    return ran.returncode, ran.stdout.decode(), ran.stderr.decode()


def copy_project(folder):
    for file in PROJECT.rglob("*"):
        if file.is_file():
            write_files(folder, {str(file.relative_to(PROJECT)): file.read_bytes()})


@check(needs=["jq"])
def recipe_of_jq(graph, folder):
    copy_project(folder)
    script = next(it for it in recipes() if "jq" in it)
    wanted = "out/words.o\n"
    yield from expect("jq", follow(graph, folder, script), (0, wanted, ""))


@check(needs=["sqlite3"])
def recipe_of_sqlite(graph, folder):
    """The ten files with most users."""
    copy_project(folder)
    script = next(it for it in recipes() if "sqlite3" in it)
    status, output, error = follow(graph, folder, script)
    rows = output.splitlines()
    yield from expect("the end", (status, error), (0, ""))
    yield from expect("the first", rows[0], "out/libtext.a|2")
    yield from expect("how many", len(rows), 10)


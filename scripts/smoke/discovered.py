"""Runs every subcommand of ninja-graph with `--deps`, and `affected` where something is not known of what builds
discovered. What is wanted was worked out by hand from the manifests, logs and depfiles below.
"""

import json
import os

from lib.checks import check, expect
from lib.projects import write_files
from lib.random_builds import OPENING, deps_log
from smoke.affected import lines, run, told
from smoke.draw import drawing_differs
from smoke.graph import DONE, FAULT, LOOK, SUBCOMMANDS, USAGE
from smoke.keys import Edge, Keys

MANIFEST = """\
rule cc
  command = cc $in
  deps = gcc
rule cc_file
  command = cc $in
  depfile = $out.d
rule mk
  command = mk $out
build gen.h: mk gen.in
build a.o: cc a.c || gen.h
build b.o: cc_file b.c || gen.h
build c.o: mk c.c || gen.h
build app: mk a.o b.o c.o
"""
LOG, DEPFILE = ".ninja_deps", "b.o.d"
RECORD = deps_log({"a.o": ["a.c", "a.h", "gen.h"]})
FILES = {"build.ninja": MANIFEST.encode(), LOG: RECORD, DEPFILE: b"./b.o: b.c \\\n  ./b.h\n"}
# What a change of a file affects, by the log and the depfile.
CHANGES = {
    "a.h": ["a.o", "app"],
    "b.h": ["b.o", "app"],
    "c.c": ["c.o", "app"],
    "gen.in": ["gen.h", "a.o", "app"],  # an order-only input does not count, but what the log names
    "gen.h": ["gen.h", "a.o", "app"],  # an output that changed
    "b.o": ["b.o", "app"],
}
DEPS = ["--deps"]
ALL = ["a.o", "b.o", "c.o", "app"]


@check
def changes(graph, folder):
    write_files(folder, FILES)
    for path, wanted in CHANGES.items():
        yield from expect(path, run(graph, folder, DEPS, [path]), (DONE, lines(wanted), ""))
    wanted = DONE, lines(["gen.h", *ALL]), ""
    yield from expect("without --deps", run(graph, folder, [], ["gen.in"]), wanted)
    yield from expect("a header", run(graph, folder, [], ["b.h"]), (LOOK, "", "b.h\n"))


# ---- what is not known

# The outputs that any change affects, where a file has these contents, is not there, or is newer.
UNKNOWN = {
    "no log": ({LOG: None}, "a.o"),
    "a log without records": ({LOG: OPENING}, "a.o"),
    "a record of another output": ({LOG: deps_log({"b.o": ["b.h"]})}, "a.o"),
    "no depfile": ({DEPFILE: None}, "b.o"),
    "an empty depfile": ({DEPFILE: b""}, "b.o"),
    "a depfile of another output": ({DEPFILE: b"c.o: b.h\n"}, "b.o"),
    "an output that is newer": ({"a.o": b""}, "a.o"),
}
# The same with a line on standard error.
CAVEATS = {
    "a log that is cut off": ({LOG: RECORD[:-4]}, "a.o", f"{LOG}: {len(RECORD) - 28} of its {len(RECORD) - 4} bytes were read"),
    "an empty log": ({LOG: b""}, "a.o", f"{LOG}: not a deps log"),
    "a log of another version": ({LOG: OPENING[:-4] + b"\3\0\0\0"}, "a.o", f"{LOG}: deps log of version 3"),
    "no colon": ({DEPFILE: b"b.o b.h\n"}, "b.o", f"{DEPFILE}: expected ':' in depfile"),
    "no target": ({DEPFILE: b": b.h\n"}, "b.o", f"{DEPFILE}: no outputs declared"),
    "an input with inputs": ({DEPFILE: b"b.o: b.c\nb.c: b.h\n"}, "b.o", f"{DEPFILE}: inputs may not also have inputs"),
    "another target": (
        {DEPFILE: b"b.o c.o: b.h\n"}, "b.o",
        f"{DEPFILE}: depfile mentions 'c.o' as an output, but no such output was declared",
    ),
}


def write(folder, files):
    """Writes the project with other contents of files; `None` is a missing file."""
    for path in folder.iterdir():
        path.unlink()
    write_files(folder, {name: text for name, text in {**FILES, **files}.items() if text is not None})


def touched(*outputs):
    """The outputs of a change of c.c, where those of some edges are affected by themselves."""
    return lines(path for path in ALL if path in {"c.o", "app", *outputs})


@check
def unknown_edges(graph, folder):
    for name, (files, output) in UNKNOWN.items():
        write(folder, files)
        yield from expect(name, run(graph, folder, DEPS, ["c.c"]), (DONE, touched(output), ""))
        found = run(graph, folder, [*DEPS, "--allow-empty"], [])
        yield from expect(f"{name}, no change", found, (DONE, lines([output, "app"]), ""))
    write(folder, {LOG: None, DEPFILE: None})
    found = run(graph, folder, DEPS, ["c.c"])
    yield from expect("never built", found, (DONE, touched("a.o", "b.o"), ""))
    write(folder, {"a.o": b""})
    os.utime(folder / "a.o", ns=(1, 1))
    found = run(graph, folder, DEPS, ["c.c"])
    yield from expect("an output as old as its record", found, (DONE, touched(), ""))


@check
def caveats(graph, folder):
    for name, (files, output, caveat) in CAVEATS.items():
        write(folder, files)
        yield from caveat_differs(graph, folder, name, output, caveat)


@check
def caveats_of_other_files(graph, folder):
    """A depfile that cannot be read, a pipe, and an output whose time cannot be read."""
    write(folder, {DEPFILE: None})
    (folder / DEPFILE).mkdir()
    yield from caveat_differs(graph, folder, "a directory", "b.o", f"{DEPFILE}: it cannot be read")
    (folder / DEPFILE).rmdir()
    os.mkfifo(folder / DEPFILE)
    yield from caveat_differs(graph, folder, "a pipe", "b.o", f"{DEPFILE}: it cannot be read")
    write(folder, {})
    (folder / "a.o").symlink_to("a.o")
    yield from caveat_differs(graph, folder, "a time", "a.o", "a.o: its time cannot be read")


# Questions whose targets need all edges, and such as need neither a.o nor b.o.
ABOUT_ALL = {"draw": [], "keys": [], "why": ["app", "c.c"]}
ABOUT_ONE = {"draw": ["c.o"], "keys": ["c.o"], "why": ["c.o", "c.c"], "json": []}


def caveat_differs(graph, folder, name, output, caveat):
    """Whether each subcommand says this, and `affected` takes the edge of the output for one to be built again. A
    fault of a depfile ends an answer about targets that need its edge."""
    is_fault = caveat.startswith(DEPFILE)
    caveat = f"{caveat}\n"
    found = run(graph, folder, DEPS, ["c.c"])
    yield from expect(name, found, (LOOK, touched(output), caveat))
    found = run(graph, folder, DEPS, ["none", "c.c"])
    yield from expect(f"{name}, first", found, (LOOK, touched(output), f"{caveat}none\n"))
    told_whole = FAULT, f"ninja-graph: {caveat}", True
    told_beside = LOOK, caveat, False
    for questions, wanted in (ABOUT_ALL, told_whole if is_fault else told_beside), (ABOUT_ONE, told_beside):
        for other, words in questions.items():
            status, text, error = graph.run([other, *DEPS, *words], folder).as_text()
            yield from expect(f"{name}, {other} {words}", (status, error, text == ""), wanted)
    status, text, error = graph.run(["draw", "--affected", *DEPS, "c.c"], folder).as_text()
    yield from expect(f"{name}, draw --affected", (status, error), (LOOK, caveat))
    status, text, error = graph.run(["audit", *DEPS, "--only", "unused-pool"], folder).as_text()
    yield from expect(f"{name}, audit", (status, text, error), (LOOK, "", caveat))
    status, text, error = graph.run(["keys", *DEPS, "--take", "0", "c.o"], folder).as_text()
    yield from expect(f"{name}, keys", (status, text, error), (LOOK, "", f"mark start\n{caveat}"))


@check
def no_caveats_of_others(graph, folder):
    """Without `--deps` nothing is said of logs and depfiles, and `--list` reads none."""
    write(folder, {LOG: b"", DEPFILE: b""})
    yield from expect("affected", run(graph, folder, [], ["c.c"]), (DONE, touched(), ""))
    ran = graph.run(["audit", *DEPS, "--list"], folder).as_text()
    yield from expect("a list", (ran.status, ran.error), (DONE, ""))


# ---- options


@check
def old_option(graph, folder):
    """It is refused before anything is read."""
    text = "ninja-graph: --deps-log is now --deps, which reads depfiles and times too\n"
    for name, (_, words) in SUBCOMMANDS.items():
        ran = graph.run([name, "--deps-log", *words], folder).as_text()
        yield from expect(name, ran, (USAGE, "", text))
    ran = graph.run(["why", "--", "--deps-log", "c.c"], folder).as_text()
    yield from expect("a target", ran.error.startswith("build.ninja:1:1: cannot find"), True)


@check
def ignored_paths(graph, folder):
    """The main file, which no edge names, is reported all the same."""
    write(folder, {"rules": b"# none\n", "build.ninja": b"include rules\n" + FILES["build.ninja"]})
    paths, opened = ["none", "./c.c", "build.ninja", "rules"], told(["build.ninja", "rules"])
    for words in [], DEPS:
        found = run(graph, folder, words, paths)
        yield from expect(words, found, (LOOK, touched(), f"none\n{opened}"))
        words = [*words, "--ignore-unknown"]
        yield from expect(words, run(graph, folder, words, paths), (LOOK, touched(), opened))
        yield from expect(words, run(graph, folder, words, paths[:2]), (DONE, touched(), ""))
        yield from expect(words, run(graph, folder, words, ["none"]), (DONE, "", ""))
    words = ["--ignore-unknown", "--source-dir", "src/.."]
    yield from expect("a folder", run(graph, folder, words, ["none", "rules"]), (LOOK, "", told(["rules"])))


# ---- dyndep files

BOUND = """\
rule mk
  command = mk $out
build dd: mk dd.in
build x: mk x.c || dd
  dyndep = dd
build y: mk x
build z: mk z.c || other
  dyndep = other
"""
BOUND_FILES = {
    "build.ninja": BOUND.encode(),
    "dd": b"ninja_dyndep_version = 1\nbuild x: dyndep | x.h\n",
    "other": b"ninja_dyndep_version = 1\nbuild z: dyndep\n",
}


def may_change(*paths):
    return lines(f"{path}: a dyndep file, may change" for path in paths)


def implicit_inputs(graph, folder, words):
    """The implicit inputs of each edge, by its first output, with the status and standard error."""
    status, output, error = graph.run(["json", *words], folder).as_text()
    objects = [json.loads(line) for line in output.splitlines()]
    return {it["outputs"][0]: it["implicit_inputs"] for it in objects}, status, error


@check
def joined_dyndep_files(graph, folder):
    """A file that changed, or that an edge makes again, may change what edges need."""
    write_files(folder, BOUND_FILES)
    for path, outputs, told_of in [
        ("x.h", ["x", "y"], ""),
        ("z.c", ["z"], ""),
        ("dd.in", ["dd"], may_change("dd")),
        ("dd", ["dd"], may_change("dd")),
        ("other", [], may_change("other")),
    ]:
        wanted = LOOK if told_of else DONE, lines(outputs), told_of
        yield from expect(path, run(graph, folder, DEPS, [path]), wanted)
    wanted = {"dd": [], "x": ["x.h"], "y": [], "z": []}, DONE, ""
    yield from expect("json", implicit_inputs(graph, folder, DEPS), wanted)


# What is joined, and what is told, where some of the files are there.
PRESENT = {
    ("dd",): (["x.h"], [], ["other"]),
    ("other",): ([], ["z.h"], ["dd"]),
    (): ([], [], ["dd", "other"]),
    ("dd", "other"): (["x.h"], ["z.h"], []),
}


@check
def present_dyndep_files(graph, folder):
    """Existing dyndep files are joined, and every subcommand reports each missing one."""
    text = b"ninja_dyndep_version = 1\nbuild z: dyndep | z.h\n"
    for present, (of_x, of_z, missing) in PRESENT.items():
        write_files(folder, {**BOUND_FILES, "other": text})
        for path in {"dd", "other"} - {*present}:
            (folder / path).unlink()
        caveat, status = may_change(*missing), LOOK if missing else DONE
        wanted = {"dd": [], "x": of_x, "y": [], "z": of_z}, status, caveat
        yield from expect(f"json of {present}", implicit_inputs(graph, folder, DEPS), wanted)
        touched = lines([*(["x", "y"] if of_x else []), *(["z"] if of_z else [])])
        found = run(graph, folder, [*DEPS, "--ignore-unknown"], ["x.h", "z.h"])
        yield from expect(f"affected of {present}", found, (status, touched, caveat))
        yield from told_everywhere(graph, folder, caveat)


def told_everywhere(graph, folder, caveat):
    """Whether each subcommand says this with `--deps`, and nothing without."""
    status = LOOK if caveat else DONE
    for name, words in {"json": [], "draw": [], "keys": [], "why": ["y", "x.c"]}.items():
        ran = graph.run([name, *DEPS, *words], folder).as_text()
        yield from expect(f"{name}, {caveat}", (ran.status, ran.error, ran.output == ""), (status, caveat, False))
        ran = graph.run([name, *words], folder).as_text()
        yield from expect(f"{name} without", (ran.status, ran.error, ran.output == ""), (DONE, "", False))
    ran = graph.run(["audit", *DEPS, "--only", "unused-pool"], folder).as_text()
    yield from expect(f"audit, {caveat}", ran, (status, "", caveat))


@check
def demanded_dyndep_files(graph, folder):
    """`--dyndep` wants each, and a fault of an existing file is a fault in any case."""
    write_files(folder, BOUND_FILES)
    (folder / "other").unlink()
    for words in [["--dyndep"], [*DEPS, "--dyndep"]]:
        ran = graph.run(["json", *words], folder).as_text()
        yield from expect(words, ran, (FAULT, "", "build.ninja:7:1: cannot find 'other'\n"))
    write_files(folder, {"dd": b"ninja_dyndep_version = 1\n"})
    for name, (_, words) in SUBCOMMANDS.items():
        ran = graph.run([name, *DEPS, *words], folder, b"x.c\n").as_text()
        fault = "build.ninja:4:1: 'x' not mentioned in its dyndep file 'dd'\n"
        yield from expect(f"{name} with a fault", ran, (FAULT, "", fault))
    (folder / "dd").unlink()
    (folder / "dd").symlink_to("dd")
    found = implicit_inputs(graph, folder, DEPS)
    yield from expect("a time", found[1:], (LOOK, may_change("dd", "other")))


# ---- names are texts

LINKED = {"build.ninja": MANIFEST.encode() + b"build listed: mk dir\n", LOG: deps_log({"a.o": ["a.c", "link.h", "/w/a.h"]})}


@check
def names_are_texts(graph, folder):
    """The target of a link, an entry of a directory, and the same file under another path are not the files that
    edges name. Ninja asks the time of what is at the name, so it may run more; that is outside the promise, and
    each such path is reported as one that no edge names."""
    write(folder, LINKED)
    (folder / "real.h").write_bytes(b"")
    os.symlink("real.h", folder / "link.h")
    for path, outputs in {"link.h": ["a.o", "app"], "/w/a.h": ["a.o", "app"], "dir": ["listed"]}.items():
        yield from expect(path, run(graph, folder, DEPS, [path]), (DONE, lines(outputs), ""))
    for path in ["real.h", "a.h", "dir/entry", "w/a.h"]:
        yield from expect(path, run(graph, folder, DEPS, [path]), (LOOK, "", f"{path}\n"))
        found = run(graph, folder, [*DEPS, "--ignore-unknown"], [path])
        yield from expect(f"{path}, ignored", found, (DONE, "", ""))


# ---- what other subcommands join

INPUTS = "inputs", "implicit_inputs", "discovered_inputs", "order_only_inputs", "discovered"
JOINED = {
    "gen.h": (["gen.in"], [], [], [], "known"),
    "a.o": (["a.c"], [], ["a.h", "gen.h"], ["gen.h"], "known"),
    "b.o": (["b.c"], [], ["b.h"], ["gen.h"], "known"),
    "c.o": (["c.c"], [], [], ["gen.h"], "known"),
    "app": (["a.o", "b.o", "c.o"], [], [], [], "known"),
}
CHAIN = """\
build.ninja:13:1: mk: app needs b.o (explicit)
build.ninja:11:1: cc_file: b.o needs b.h (discovered)
"""
DRAWN = {"gen.in > mk > gen.h", "b.c ~ b.h || gen.h > cc_file > b.o"}


@check
def joined_edges(graph, folder):
    """The edges of `json`; an order-only input that the log names is a discovered one too."""
    write_files(folder, FILES)
    found = graph.run(["json", *DEPS], folder).as_text()
    objects = [json.loads(line) for line in found.output.splitlines()]
    inputs = {it["outputs"][0]: tuple(it[kind] for kind in INPUTS) for it in objects}
    yield from expect("json", (found.status, inputs, found.error), (DONE, JOINED, ""))
    ran = graph.run(["why", *DEPS, "app", "b.h"], folder).as_text()
    yield from expect("why", ran, (DONE, CHAIN, ""))
    ran = graph.run(["why", "app", "b.h"], folder).as_text()
    yield from expect("why without", ran, (FAULT, "", "ninja-graph: unknown target 'b.h'\n"))
    yield from drawing_differs("draw", graph, folder, [*DEPS, "b.o"], DRAWN)


@check
def keys_without_inputs(graph, folder):
    """Keys are those of the manifest alone: by `--deps` the same, in the same order."""
    write_files(folder, FILES)
    edges = [
        Edge("gen.h", "gen.in", "mk gen.h"),
        Edge("a.o", "a.c || gen.h", "cc a.c"),
        Edge("b.o", "b.c || gen.h", "cc b.c"),
        Edge("c.o", "c.c || gen.h", "mk c.o"),
        Edge("app", "a.o b.o c.o", "mk app"),
    ]
    known = Keys(edges)
    wanted = lines(f"{known.key(path).hex()} {path}" for path in ["gen.h", *ALL])
    for words in [], DEPS:
        ran = graph.run(["keys", *words], folder).as_text()
        yield from expect(f"keys {words}", ran, (DONE, wanted, ""))


@check
def findings(graph, folder):
    """An undeclared input that the log names, whatever the time of the output is."""
    text = MANIFEST.replace("cc a.c || gen.h", "cc a.c")
    for made in None, b"":
        write(folder, {"build.ninja": text.encode(), "a.o": made})
        ran = graph.run(["audit", *DEPS, "--only", "undeclared-input"], folder).as_text()
        yield from expect(made, ran, (LOOK, "build.ninja:10:1: undeclared input 'gen.h'\n", ""))


@check
def cycles(graph, folder):
    """A cycle by a log, and one by a depfile, which each subcommand refuses."""
    fault = "build.ninja:{}:1: dependency cycle through '{}', by the inputs of .ninja_deps and of depfiles\n"
    for files, place in [
        ({LOG: deps_log({"a.o": ["app"]})}, (10, "a.o")),
        ({DEPFILE: b"b.o: app\n"}, (11, "b.o")),
    ]:
        write(folder, files)
        for name, (_, words) in SUBCOMMANDS.items():
            ran = graph.run([name, *DEPS, *words], folder, b"c.c\n").as_text()
            yield from expect(f"{name}, {place}", ran, (FAULT, "", fault.format(*place)))
    ran = graph.run(["json", "--deps-log-file", LOG], folder).as_text()
    yield from expect("a file", ran, (FAULT, "", fault.format(11, "b.o")))

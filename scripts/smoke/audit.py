"""Runs ninja-graph's `audit` on real projects.

The projects are examples/project, some with findings of some kinds, one with many of each kind and,
where CMake is installed, its manifest for examples/cmake. The wanted findings follow from the
output of `ninja-explain -t targets`, `query`, `commands` and `rules` for them, and from the lines of
their manifests; of undeclared inputs, which commands name, from how Python's `shlex` cuts words.
"""

import json
import os
import posixpath
import random
import re
import shlex
import shutil
from collections import Counter

from lib.checks import check, expect
from lib.programs import EXAMPLES, Program
from lib.projects import write_cmake, write_files
from lib.random_builds import HEADERS, deps_log, random_build, some
from smoke.graph import DONE, LOOK, OUTPUT_FAILED, USAGE

PROJECT = EXAMPLES / "project"
EDGES = 20_000
# The kinds in their order, and whether they are on by default.
KINDS = {
    "unused-output": False, "missing-source": False, "unused-rule": False, "unused-pool": False,
    "unused-variable": False, "repeated-command": False, "depfile-without-deps": False,
    "repeated-input": False, "undeclared-input": True,
}
# The requested kinds: the values of `--only`, and those of `--except`.
ASKED = [
    ([], []),
    *(([kind], []) for kind in KINDS),
    *(([], [kind]) for kind in KINDS),
    (["repeated-input", "unused-output", "missing-source", "repeated-input"], []),
    (["unused-output", "missing-source"], ["missing-source", "unused-rule"]),
    (list(KINDS), ["unused-output", "repeated-command"]),
    (["missing-source"], ["missing-source"]),
]
LINE = re.compile(r"(.+):(\d+):(\d+): ([a-z ]+) '(.*)'")
NAME = re.compile(r"\$\{?(\w+)")
KNOWN = set("""command depfile deps description dyndep generator in in_newline msvc_deps_prefix out
    pool restat rspfile rspfile_content""".split())


def run(graph, folder, words):
    return graph.run(["audit", *words], folder).as_text()


def explain(program, folder, *words):
    """The lines that ninja-explain writes."""
    ran = program.run(["-f", "build.ninja", "-t", *words], folder).as_text()
    if (ran.status, ran.error) != (DONE, ""):
        raise RuntimeError(f"ninja-explain {words[0]} ends with {ran}")
    return ran.output.splitlines()


def queried(program, folder, files):
    """The output of `query` for files: the lines of each section."""
    sections, lines = {}, None
    for line in explain(program, folder, "query", *files):
        if not line.startswith(" "):
            sections[line[:-1]] = about = {}
        elif not line.startswith("    "):
            lines = about.setdefault(line.strip().partition(":")[0], [])
        else:
            lines.append(line.strip().lstrip("| "))
    return sections


def statements(folder):
    """The rules and the edges of the manifests, with the lines of their blocks by name."""
    rules, blocks, bound = {}, [], {}
    for file in sorted(folder.rglob("*.ninja")):
        for line in file.read_text().splitlines():
            name, _, value = (part.strip() for part in line.partition("="))
            if line.startswith("rule "):
                bound = rules.setdefault(line.split()[1], {})
            elif line.startswith("build "):
                bound = {}
                blocks.append((re.split(r"[ :]", line.split(": ")[1])[0], bound))
            elif line.startswith("  ") and not name.startswith("#"):
                bound[name] = value
            elif line.strip():
                bound = {}
    return rules, blocks


def edges_of(program, folder):
    """The edges: their rules and outputs, their inputs and commands."""
    rules = dict(line.rsplit(": ", 1) for line in explain(program, folder, "targets", "all"))
    files, edges = queried(program, folder, rules), []
    for output, rule in rules.items():
        command = "" if rule == "phony" else explain(program, folder, "commands", "-s", output)[0]
        edge = (rule, files[output]["input"], command)
        if edges and edges[-1][1:] == edge:
            edges[-1][0].append(output)
        else:
            edges.append(([output], *edge))
    return edges, files


def serving(edges):
    """The edges with a command, and those that they need."""
    makers = {output: number for number, edge in enumerate(edges) for output in edge[0]}
    found = [number for number, edge in enumerate(edges) if edge[1] != "phony"]
    known = set(found)
    for number in found:
        for path in edges[number][2]:
            maker = makers.get(path)
            if maker is not None and maker not in known:
                known.add(maker)
                found.append(maker)
    return [edges[number] for number in found]


def wanted_of(program, folder, defaults):
    """The findings, as pairs of kinds and names. No pool of the projects is unused."""
    edges, files = edges_of(program, folder)
    rules, blocks = statements(folder)
    wanted, commands = [], set()
    for outputs, rule, inputs, command in edges:
        for output in outputs:
            used = files[output]["outputs"] or files[output].get("validation for")
            if not used and output not in defaults:
                wanted.append(("unused output", output))
        if command in commands:
            wanted.append(("repeated command", outputs[0]))
        commands |= {command} if command else set()
        if "depfile" in rules.get(rule, {}) and "deps" not in rules[rule]:
            wanted.append(("depfile without deps", outputs[0]))
        for path, count in Counter(inputs).items():
            wanted += [("repeated input", path)] * (count - 1)
    inputs = {path for edge in serving(edges) for path in edge[2]}
    sources = {path for path in inputs if path not in files}
    wanted += [("missing source", path) for path in sources if not (folder / path).exists()]
    used = {rule for _, rule, _, _ in edges}
    wanted += [("unused rule", rule) for rule in explain(program, folder, "rules") if rule not in used]
    for rule, bound in blocks:
        names = {name for value in rules.get(rule, {}).values() for name in NAME.findall(value)}
        wanted += [("unused variable", name) for name in bound if name not in names | KNOWN]
    return Counter((kind, name) for kind, name in wanted if (kind, name) != ("unused rule", "phony"))


def as_object(line):
    """A line in JSON, where kinds have their names."""
    file, number, column, words, name = LINE.fullmatch(line).groups()
    place = {"file": file, "line": int(number), "column": int(column)}
    return {**place, "kind": words.replace(" ", "-"), "name": name}


def options(only, without):
    return [f"--only={kind}" for kind in only] + [f"--except={kind}" for kind in without]


def asked_differs(graph, folder, whole, only, without):
    """The output for some kinds, plain and in JSON: their lines among those of all kinds."""
    words, name = options(only, without), f"only {only}, except {without}"
    taken = set(only or (kind for kind, is_default in KINDS.items() if is_default)) - set(without)
    lines = [line for line in whole if as_object(line)["kind"] in taken]
    status = LOOK if lines else DONE
    text = "".join(f"{line}\n" for line in lines)
    yield from expect(name, run(graph, folder, words), (status, text, ""))
    ran = run(graph, folder, ["--json", *words])
    yield from expect(f"{name}, JSON", (ran.status, ran.error), (status, ""))
    found = [json.loads(line) for line in ran.output.splitlines()]
    yield from expect(f"{name}, lines of JSON", found, [as_object(line) for line in lines])


def audit_differs(graph, folder, wanted):
    """The lines of all kinds, each at a statement, and those of some kinds."""
    status, output, error = run(graph, folder, options(KINDS, []))
    yield from expect("plain", (status, error), (LOOK if wanted else DONE, ""))
    lines = [LINE.fullmatch(line).groups() for line in output.splitlines()]
    yield from expect("lines", Counter((kind, name) for _, _, _, kind, name in lines), wanted)
    for file, line, column, kind, found in lines:
        text = (folder / file).read_text().splitlines()[int(line) - 1][int(column) - 1 :]
        starts = {"unused rule": f"rule {found}", "unused pool": f"pool {found}"}
        if not text.startswith(starts.get(kind, "build ")):
            yield f"there is no statement for '{kind}' at line {line}"
    for only, without in ASKED:
        yield from asked_differs(graph, folder, output.splitlines(), only, without)
    yield from expect("--all", run(graph, folder, ["--all"]), (status, output, error))


# The findings in examples/project, by hand: no edge has the test as an input, and the sources are missing.
SOURCES = ["main.c", "text/lines.c", "text/words.c", "text/words_test.c"]
IN_PROJECT = [("unused output", "test"), *(("missing source", path) for path in SOURCES)]


@check
def project(graph, program):
    wanted = Counter(IN_PROJECT)
    yield from audit_differs(graph, PROJECT, wanted)
    yield from expect("by query", wanted_of(program, PROJECT, {"out/count"}), wanted)


USES = b"""\
rule r
  command = r $in $out
build a: r || b
build b: r |@ c
build c d e | f: r
build g: phony d
default a e
"""
PHONY = b"""\
rule r
  command = r $in $out
build a: phony lost
build b: phony a lost
build c: phony kept
build d: phony c
build e: r d
"""
NO_DEFAULTS = b"rule r\n  command = r\nbuild a\"\\\xc3\xa9: r b\nbuild c: r b\n"


@check
def uses(graph, program, folder):
    """An order-only input, a validation and a default count as uses."""
    write_files(folder, {"build.ninja": USES})
    wanted = Counter({("unused output", "f"): 1, ("unused output", "g"): 1})
    yield from audit_differs(graph, folder, wanted)
    yield from expect("by query", wanted_of(program, folder, {"a", "e"}), wanted)
    write_files(folder, {"build.ninja": NO_DEFAULTS})
    wanted = Counter({("missing source", "b"): 1, ("repeated command", "c"): 1})
    yield from audit_differs(graph, folder, wanted)


@check
def sources_of_phony_edges(graph, folder):
    """A source counts if an edge with a command needs it, by whatever chain of phony edges."""
    write_files(folder, {"build.ninja": PHONY})
    found = LOOK, "build.ninja:5:1: missing source 'kept'\n", ""
    yield from expect("phony edges", run(graph, folder, ["--only=missing-source"]), found)


# The sources of a command, in places where they cannot be looked up, and one that is not there; and
# the edge of a source that no command needs.
UNKNOWN = b"""\
rule r
  command = r $out
build a: r | %b
build b: r here \xff.c loop/x.c
build c: r lost.c loop/x.c
build d: phony loop/y.c
""" % (b"n" * 300)


@check
def sources_that_cannot_be_looked_up(graph, folder):
    """They are caveats, not findings: standard error has a line for each."""
    write_files(folder, {"build.ninja": UNKNOWN, "here": b""})
    (folder / "loop").symlink_to("loop")
    told = [b"3:1: cannot look up source '%b'" % (b"n" * 300), b"4:1: cannot look up source '\xff.c'"]
    told = b"".join(b"build.ninja:%b\n" % line for line in [*told, b"4:1: cannot look up source 'loop/x.c'"])
    only = ["audit", "--only", "missing-source"]
    ran = graph.run(only, folder)
    yield from expect("plain", ran, (LOOK, b"build.ninja:5:1: missing source 'lost.c'\n", told))
    (folder / "lost.c").touch()
    for words in only, [*only, "--json"], ["audit", "--all", "--except", "repeated-command"]:
        yield from expect(f"{words}, no finding", graph.run(words, folder), (LOOK, b"", told))
    ran = graph.run(["audit", "--all", "--except", "missing-source"], folder)
    yield from expect("not requested", ran, (DONE, b"", b""))
    with open("/dev/full", "wb") as full:
        ran = graph.run(only, folder, error=full)
    yield from expect("full error output", ran, (OUTPUT_FAILED, b"", b""))


NOBODY = ["setpriv", "--reuid=65534", "--regid=65534", "--clear-groups"]


@check(needs=["setpriv"])
def folders_that_may_not_be_searched(graph, folder):
    """Root may search every directory, so there the program runs as another user."""
    write_files(folder, {"build.ninja": b"rule r\n  command = r\nbuild a: r shut/a.c\n", "shut/a.c": b""})
    folder.chmod(0o755)
    program = shutil.copy(graph.path, folder / "program")
    (folder / "shut").chmod(0)
    first, *words = [*(NOBODY if os.geteuid() == 0 else []), program, "audit", "--only=missing-source"]
    ran = Program(first).run(words, folder).as_text()
    (folder / "shut").chmod(0o700)
    told = "build.ninja:3:1: cannot look up source 'shut/a.c'\n"
    yield from expect("shut", ran, (LOOK, "", told))


@check
def many_of_each_kind(graph, folder):
    """They take no longer than their number asks."""
    lines = ["rule r\n  command = r " + " ".join(f"$v{i}" for i in range(EDGES)) + "\n"]
    lines += ["rule q\n  command = q\n"]
    lines += [f"pool p{i}\n  depth = 1\nrule r{i}\n  command = r\n" for i in range(EDGES)]
    lines += ["build all: r" + " s t" * EDGES + "\n"]
    lines += [f"  v{i} = 1\n  w{i} = 1\n" for i in range(EDGES)]
    lines += [f"build o{i}: q s\n  depfile = d\n  w = 1\n" for i in range(EDGES)]
    lines += ["default all\n"]
    wanted = {
        "unused output": EDGES, "missing source": 2, "unused rule": EDGES, "unused pool": EDGES,
        "unused variable": 2 * EDGES, "repeated command": EDGES - 1,
        "depfile without deps": EDGES, "repeated input": 2 * EDGES - 2,
    }
    write_files(folder, {"build.ninja": "".join(lines).encode()})
    status, output, error = run(graph, folder, options(KINDS, []))
    yield from expect("many", (status, error), (LOOK, ""))
    lines = output.splitlines()
    kinds = [LINE.fullmatch(line)[4] for line in lines]
    yield from expect("many", list(Counter(kinds).items()), list(wanted.items()))
    yield from asked_differs(graph, folder, lines, [], [])


@check
def listed(graph, folder):
    """`--list` reads no file: the directory is empty."""
    words_of_all = ["-C", "none", "-f", "none.ninja", "--json", "--list", "--only", "nothing"]
    for words in ["--list"], words_of_all:
        status, output, error = run(graph, folder, words)
        yield from expect(words, (status, error), (DONE, ""))
        found = re.findall(r"^(.+), (on|off) by default: \w.*$", output, re.M)
        wanted = [(kind, "on" if is_default else "off") for kind, is_default in KINDS.items()]
        yield from expect(words, found, wanted)
        yield from expect(f"{words}, lines", output.count("\n"), len(KINDS))


def unknown(word):
    text = f"ninja-graph: unknown kind '{word}'; ninja-graph audit --list lists the kinds\n"
    return USAGE, "", text


@check
def refusals(graph):
    for words in ["--only"], ["--except"], ["some"], ["--json=x"]:
        status, output, error = run(graph, PROJECT, words)
        yield from expect(words, (status, output), (USAGE, ""))
        yield from expect(f"{words}, text", error.startswith("error: "), True)
    for option in "--only", "--except":
        for word in "unused output", "Unused-output", "":
            words = ["--only", "unused-rule", option, word, "-f", "none.ninja"]
            yield from expect(words, run(graph, PROJECT, words), unknown(word))
    words = ["--except", "b", "--only", "unused-rule", "--only", "a"]
    yield from expect("two unknown kinds", run(graph, PROJECT, words), unknown("a"))


@check(needs=["cmake", "ninja", "cc"])
def cmake(graph, program, folder):
    write_cmake(folder)
    yield from audit_differs(graph, folder, wanted_of(program, folder, {"all"}))


# ---- undeclared inputs


def words_of(command):
    lexer = shlex.shlex(command, posix=True, punctuation_chars=True)
    lexer.whitespace_split, lexer.commenters = True, ""
    return list(lexer)


def words_read(command):
    """The words of a command without what it writes: a word after `>` or `-o`, or that begins with `-o`.
    A word after `-c` is a command of its own."""
    words = iter(words_of(command))
    for word in words:
        if word in (">", "-o"):
            next(words, None)
        elif word == "-c":
            yield from words_read(next(words, ""))
        elif not word.startswith("-o"):
            yield word


def attached(text):
    """The value in an option of one letter, or after an `@`."""
    return text[2:] if text.startswith("-") else text[1:] if text.startswith("@") else ""


def names_in(word):
    """The names in a word: the word, the text after its first `=`, and its parts, with what is attached."""
    parts = re.split("[=:,;]", word)
    return [word, attached(word), word.partition("=")[2], *parts, *map(attached, parts)]


def paths_named(command, folder, inputs):
    """The paths that the words of a command name. One without a slash or a dot counts as an input alone."""
    for word in words_read(command):
        for name in filter(None, names_in(word)):
            path = posixpath.normpath(HERE.sub("", name)).removeprefix(f"{folder}/")
            if "/" in name or "." in name or path in inputs:
                yield path


def reached(build, edge):
    """The edges that an edge needs by any chain, by their outputs."""
    makers, found, left = build.makers(), {}, [edge]
    while left:
        for path in left.pop().paths():
            maker = makers.get(path)
            if maker and maker.outputs[0] not in found:
                found[maker.outputs[0]] = maker
                left.append(maker)
    return found


def undeclared(build, edge, folder):
    if build.value(edge, "generator"):
        return
    makers, inputs = build.makers(), {path for it in build.edges for path in it.paths()}
    content = build.value(edge, "rspfile_content") if build.value(edge, "rspfile") else ""
    for path in dict.fromkeys(paths_named(f"{build.value(edge, 'command')}\n{content}", folder, inputs)):
        maker = makers.get(path, edge)
        is_twin = (maker.rule, maker.paths()) == (edge.rule, edge.paths())
        needs = maker.outputs[0] in reached(build, edge), edge.outputs[0] in reached(build, maker)
        if maker is not edge and not maker.is_phony() and not is_twin and not any(needs):
            yield path


# The ways in which a command names a file, or another one.
SHAPES = [
    "{}", "./{}", "x/../{}", "'{}'", '"{}"', "-I{}", "--out={}", "-o=./{}", "<{}>o", "(cat {};)", "'{} '",
    "{}x", "a\\\\{}", "{folder}/{}", "{folder}x/{}", "a/{}", "`{}`", "-I {}", "=={}", "'a b'={}",
    ">{}", "> ./{}", "-o{}", "-o ./{}", "@{}", "-Wl,{}", "-Wl,-T,./{}", "--a=b={}", "a:{}", "'a;{};b'",
    "$$PWD/{}", "-I$${{PWD}}/{}", "'@$$(pwd)/{}'", ";sh -c 'cat <{0} >./{0}'",
]
# The working directory of a command, in front of a name.
HERE = re.compile(r"\$(PWD|\{PWD\}|\(pwd\))/")


def name_files(folder):
    def text(chance, outputs):
        return " ".join(chance.choice(SHAPES).format(it, folder=folder) for it in some(chance, outputs, 4))

    return text


# ---- generated builds


def roots(build):
    inputs = {path for edge in build.edges for path in edge.paths()}
    return [path for edge in build.edges for path in edge.outputs if path not in inputs]


def of_edges(build, folder):
    """The findings about edges: their kinds, their lines and names."""
    used = {path for edge in build.edges for path in [*edge.paths(), *edge.validations]}
    used |= set(build.defaults or roots(build))
    commands = set()
    for edge in build.edges:
        yield from (("unused output", edge.line, path) for path in edge.outputs if path not in used)
        rule = build.rules.get(edge.rule, {})
        names = {name for value in rule.values() for name in NAME.findall(value)} | KNOWN
        yield from (("unused variable", edge.line, name) for name in edge.bound if name not in names)
        for index, path in enumerate(edge.paths()):
            if path in edge.paths()[:index]:
                yield "repeated input", edge.line, path
        if edge.is_phony():
            continue
        if (command := build.value(edge, "command")) in commands:
            yield "repeated command", edge.line, edge.outputs[0]
        commands.add(command)
        if build.value(edge, "depfile") and not build.value(edge, "deps"):
            yield "depfile without deps", edge.line, edge.outputs[0]
        yield from (("undeclared input", edge.line, path) for path in undeclared(build, edge, folder))


def of_others(build):
    """The findings about rules, pools and sources. Of these only the manifest is on the disk."""
    rules, pools = ({edge.rule for edge in build.edges}, {edge.bound.get("pool") for edge in build.edges})
    yield from (("unused rule", build.places["rule", it], it) for it in build.rules if it not in rules)
    yield from (("unused pool", build.places["pool", it], it) for it in build.pools if it not in pools)
    serving = {id(edge) for edge in build.edges if not edge.is_phony()}
    serving |= {id(it) for edge in build.edges if not edge.is_phony() for it in reached(build, edge).values()}
    made, known = build.makers(), {"build.ninja"}
    for edge in build.edges:
        for path in edge.paths():
            if id(edge) in serving and path not in made and path not in known:
                known.add(path)
                yield "missing source", edge.line, path


BUILDS = 120


@check
def generated(graph, folder):
    """All findings of random builds, each at its line."""
    kinds = Counter()
    for seed in range(BUILDS):
        build = random_build(random.Random(seed), name_files(folder))
        (folder / "build.ninja").write_text(build.text())
        ran = run(graph, folder, options(KINDS, []))
        lines = [LINE.fullmatch(line).groups() for line in ran.output.splitlines()]
        found = Counter((kind, int(line), name) for _, line, _, kind, name in lines)
        wanted = Counter([*of_edges(build, folder), *of_others(build)])
        yield from expect(f"build {seed}", (ran.status, found), (LOOK if wanted else DONE, wanted))
        kinds += Counter(kind for kind, _, _ in wanted.elements())
    if fewer := [kind for kind in KINDS if kinds[kind.replace("-", " ")] < BUILDS // 10]:
        yield f"there are too few findings of {fewer}"


# ---- deps logs


def random_log(chance, build):
    """The inputs of some outputs, some of them made by earlier edges."""
    firsts, log = [edge.outputs[0] for edge in build.edges], {"gone": ["o0"]}
    for index, edge in enumerate(build.edges):
        earlier = [path for it in build.edges[:index] for path in it.outputs]
        names = [*some(chance, HEADERS, 2), *some(chance, earlier, 3)]
        names += ["build.ninja"] if chance.random() < 0.1 else []
        if chance.random() < 0.8:
            log[firsts[index]] = chance.sample(names, len(names)) + names[:1]
    return log


def logged_inputs(build, log):
    """The edges with `deps`, each with the paths that the log names for its first output."""
    for edge in build.edges:
        if build.value(edge, "deps"):
            yield edge, list(dict.fromkeys(log.get(edge.outputs[0], [])))


def undeclared_by(build, log):
    """The undeclared inputs by a log, by edge and in its order."""
    makers = build.makers()
    for edge, paths in logged_inputs(build, log):
        for path in paths if "build.ninja" not in paths else []:
            maker = makers.get(path, edge)
            if maker is not edge and maker.outputs[0] not in reached(build, edge):
                yield "undeclared input", edge.line, path


def join(build, log):
    """Adds the inputs of a log, also those that are order-only, which are then repeated."""
    for edge, paths in logged_inputs(build, log):
        counted = {path for bars, path in edge.inputs if bars != "||"}
        edge.inputs += [("|", path) for path in paths if path not in counted]


@check
def logged(graph, folder):
    """All findings of random builds with a deps log: those that it names come last, in its order."""
    found_by_log = 0
    for seed in range(BUILDS):
        chance = random.Random(seed)
        build = random_build(chance, name_files(folder))
        log = random_log(chance, build)
        write_files(folder, {"build.ninja": build.text().encode(), "log": deps_log(log)})
        others = list(undeclared_by(build, log))
        join(build, log)
        wanted = Counter([*of_edges(build, folder), *others, *of_others(build)])
        ran = run(graph, folder, [*options(KINDS, []), "--deps-log-file", "log"])
        lines = [LINE.fullmatch(line).groups() for line in ran.output.splitlines()]
        found = [(kind, int(line), name) for _, line, _, kind, name in lines]
        yield from expect(f"build {seed}", (ran.status, Counter(found)), (LOOK if wanted else DONE, wanted))
        yield from expect(f"build {seed}, last", found[len(found) - len(others) :], others)
        without = run(graph, folder, ["--except", "undeclared-input", "--deps-log-file=log"]).output
        yield from expect(f"build {seed}, without", without.count("undeclared input"), 0)
        found_by_log += len(others)
    yield from expect("builds with some", found_by_log > BUILDS, True)


GENERATED = """\
rule gen
  command = gen
rule cc
  command = cc $in
  deps = gcc
build a.h b.h: gen
build c.h: gen x
  command = gen c.h
build a.o: cc a.c
build b.o: cc b.c | b.h
build c.o: cc c.c
  command = cc c.c c.h
"""


@check
def generated_headers(graph, folder):
    """A header that the log names is found where the edge does not need its maker, and found once."""
    log = deps_log({"a.o": ["a.c", "./a.h", "a.h"], "b.o": ["b.c", "a.h"], "c.o": ["c.c", "c.h"]})
    files = dict.fromkeys(["a.c", "b.c", "c.c", "x"], b"")
    write_files(folder, {**files, "build.ninja": GENERATED.encode(), ".ninja_deps": log})
    declared = "build.ninja:11:1: undeclared input 'c.h'\n"
    yield from expect("no log", run(graph, folder, []), (LOOK, declared, ""))
    first = "build.ninja:9:1: undeclared input 'a.h'\n"
    yield from expect("a log", run(graph, folder, ["--deps"]), (LOOK, first + declared, ""))
    (folder / ".ninja_deps").unlink()
    yield from expect("none there", run(graph, folder, ["--deps"]), (LOOK, declared, ""))

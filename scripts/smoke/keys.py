"""Compares the output of ninja-graph's `keys` with keys computed here.

The edges of examples/project are read from the output of `ninja-explain -t query` and `-t commands`;
those of another project, which has a response file, phony edges and a generated source, are listed
below as its manifest has them; and random builds are known from their generation.
"""

import hashlib
import json
import random
import re
import shutil
import subprocess

from lib.checks import check, expect
from lib.programs import EXAMPLES
from lib.projects import write_files
from lib.random_builds import random_build, some
from smoke import outputs
from smoke.graph import DONE, FAULT, LOOK, USAGE

PROJECT = EXAMPLES / "project"


class Edge:
    """A build statement: without a command and a response file if it is phony."""

    def __init__(self, outputs, inputs, command="", file="", content=""):
        self.outputs, self.inputs = outputs.split(), list(by_kind(inputs.split()))
        self.command, self.file, self.content = command, file, content


def by_kind(words):
    """The inputs among words of a build statement, each with the bars that come before its kind."""
    bars = ""
    for word in words:
        if word.strip("|"):
            yield bars, word
        else:
            bars = word


FILES = {
    "build.ninja": b"""\
# A program with a generated header and a library of its own.
include rules.ninja

build gen/version.h: stamp version.txt | stamp.sh
build headers: phony gen/version.h include/words.h
build checked: phony headers notes.txt

build main.o: cc main.c || headers
build words.o: cc words.c | include/words.h || checked
build lines.o: cc lines.c
build libwords.a: ar words.o lines.o
build count: link main.o libwords.a

build lint: phony checked
build words_test: link words.o test.o
build test.o: cc test.c || lint
default count words_test
""",
    "rules.ninja": b"""\
cflags = -O2

rule cc
  command = cc $cflags -c $in -o $out

rule ar
  command = ar rcs $out @$out.rsp
  rspfile = $out.rsp
  rspfile_content = $in_newline

rule link
  command = cc $in -o $out

rule stamp
  command = sh stamp.sh $in > $out
""",
}
# Its edges, in the order of `ninja -t commands`, and the phony ones.
LISTED = [
    Edge("gen/version.h", "version.txt | stamp.sh", "sh stamp.sh version.txt > gen/version.h"),
    Edge("main.o", "main.c || headers", "cc -O2 -c main.c -o main.o"),
    Edge("words.o", "words.c | include/words.h || checked", "cc -O2 -c words.c -o words.o"),
    Edge("lines.o", "lines.c", "cc -O2 -c lines.c -o lines.o"),
    Edge(
        "libwords.a",
        "words.o lines.o",
        "ar rcs libwords.a @libwords.a.rsp",
        "libwords.a.rsp",
        "words.o\nlines.o",
    ),
    Edge("count", "main.o libwords.a", "cc main.o libwords.a -o count"),
    Edge("test.o", "test.c || lint", "cc -O2 -c test.c -o test.o"),
    Edge("words_test", "words.o test.o", "cc words.o test.o -o words_test"),
]
PHONY = [
    Edge("headers", "gen/version.h include/words.h"),
    Edge("checked", "headers notes.txt"),
    Edge("lint", "checked"),
]


# All edges with a command, in the order of the manifest.
IN_ORDER = "gen/version.h main.o words.o lines.o libwords.a count words_test test.o".split()
KINDS = {"": "explicit", "|": "implicit", "||": "order_only"}


def field(data):
    return b"%d:%b" % (len(data), data)


class Keys:
    """The keys of edges, each computed once."""

    def __init__(self, edges):
        self.makers = {output: edge for edge in edges for output in edge.outputs}
        self.known = {}

    def key(self, path):
        """The key of the edge that makes a file; empty if none does."""
        edge = self.makers.get(path)
        if edge is None:
            return b""
        if edge not in self.known:
            texts = [edge.command, edge.file, edge.content]
            fields = [field(text.encode()) for text in texts]
            fields.append(b"%d:" % len(edge.outputs))
            fields += [field(output.encode()) for output in edge.outputs]
            for bars, path in edge.inputs:
                fields += [field(bars.encode()), field(path.encode()), field(self.key(path))]
            self.known[edge] = hashlib.sha256(b"".join(fields)).digest()
        return self.known[edge]

    def lines(self, outputs, additions=()):
        def key(output):
            return with_additions(self.key(output), additions)

        return "".join(f"{key(output).hex()} {output}\n" for output in outputs)


def with_additions(key, additions):
    """A key into which texts go, by the man page."""
    if not additions:
        return key
    text = b"%d:" % len(additions) + b"".join(map(field, additions))
    return hashlib.sha256(b":" + hashlib.sha256(text).digest() + key).digest()


def of_content(content):
    """What stands for the contents of a file among texts, by the man page."""
    return b"\0" + hashlib.sha256(content).digest()


def run(graph, folder, words):
    return graph.run(["keys", *words], folder).as_text()


def explain(program, words, folder=PROJECT):
    return program.run(words, folder).as_text()


def read_edge(program, output):
    """The edge of the project that makes a file, by the output of ninja-explain for it."""
    query = explain(program, ["-t", "query", output]).output.splitlines()
    start = next(at for at, line in enumerate(query) if line.startswith("  input: "))
    end = query.index("  outputs:")
    inputs = query[start + 1 : end]
    command = explain(program, ["-t", "commands", "-s", output]).output.rstrip("\n")
    return Edge(output, " ".join(inputs), command)


def read_edges(program):
    """The edges of the project, each with one output."""
    listed = outputs.OUTPUTS["-t targets all"].splitlines()
    return [read_edge(program, line.rsplit(": ", 1)[0]) for line in listed]


def pages_differ(folder, program, graph, words, whole):
    """Pages of each size, each from the mark of the one before, which is ninja-explain's."""
    for size in range(1, whole.count("\n") + 2):
        joined, mark = "", "start"
        while mark:
            pages = ["--take", str(size), "--resume", mark, *words]
            status, text, error = run(graph, folder, pages)
            other = explain(program, ["-t", "commands", *pages], folder)
            ends = (status, error), (other.status, other.error)
            yield from expect(f"{words}, page of {size} at {mark}", *ends)
            joined, mark = joined + text, error.removeprefix("mark ").rstrip("\n")
        yield from expect(f"{words}, pages of {size}", joined, whole)


@check
def keys_of_project(program, graph):
    edges = read_edges(program)
    for words in [], ["test"], ["out/words.o", "test"]:
        commands = explain(program, ["-t", "commands", *words]).output.splitlines()
        outputs = {edge.command: edge.outputs[0] for edge in edges}
        whole = Keys(edges).lines(outputs[command] for command in commands)
        yield from expect(words, run(graph, PROJECT, words), (DONE, whole, ""))
        yield from pages_differ(PROJECT, program, graph, words, whole)


@check
def keys_of_files(program, graph, folder):
    write_files(folder, FILES)
    whole = Keys(LISTED + PHONY).lines(edge.outputs[0] for edge in LISTED)
    yield from expect("all", run(graph, folder, []), (DONE, whole, ""))
    yield from pages_differ(folder, program, graph, [], whole)


@check
def keys_of_all(graph, folder):
    write_files(folder, FILES)
    whole = Keys(LISTED + PHONY).lines(IN_ORDER)
    yield from expect("--all", run(graph, folder, ["--all"]), (DONE, whole, ""))


def files_behind(path):
    """The files for which a file stands: those of the inputs of a phony edge that makes it."""
    edge = next((edge for edge in PHONY if path in edge.outputs), None)
    return {path} if edge is None else set().union(*(files_behind(behind) for _, behind in edge.inputs))


def inputs_behind(edge):
    """The kind of each file for which an input of an edge stands, by the first input that does."""
    return {path: KINDS[bars] for bars, named in reversed(edge.inputs) for path in files_behind(named)}


@check
def objects_of_files(graph, folder):
    write_files(folder, FILES)
    keys, (status, lines, error) = Keys(LISTED + PHONY), run(graph, folder, ["--json", "--base", "/w"])
    yield from expect("how it ends", (status, error), (DONE, ""))
    objects = [json.loads(line) for line in lines.splitlines()]
    yield from expect("outputs", [found["outputs"] for found in objects], [edge.outputs for edge in LISTED])
    for edge, found in zip(LISTED, objects):
        yield from expect(f"key of {edge.outputs}", found["key"], keys.key(edge.outputs[0]).hex())
        kinds = {read["path"]: read["kind"] for read in found["inputs"]}
        yield from expect(f"inputs of {edge.outputs}", kinds, inputs_behind(edge))
        yield from expect(f"each once: {edge.outputs}", len(kinds), len(found["inputs"]))
        texts = [found[name] for name in ("command", "response_file", "response")]
        yield from expect(f"texts of {edge.outputs}", texts, [edge.command, edge.file, edge.content])
        yield from expect(f"the rest of {edge.outputs}", [found["discovered"], found["bases"]], [None, []])


@check
def keys_with_texts(graph, folder):
    """Texts go into every key, in their order, and pages have the same keys as the whole."""
    write_files(folder, FILES)
    keys, found = Keys(LISTED + PHONY), set()
    for additions in ["gcc 13"], ["gcc 13", "CPATH="], ["CPATH=", "gcc 13"], ["gcc 13CPATH="], [""], ["é\n"]:
        words = [f"--with={text}" for text in additions]
        whole = keys.lines((edge.outputs[0] for edge in LISTED), [text.encode() for text in additions])
        yield from expect(additions, run(graph, folder, words), (DONE, whole, ""))
        rest = run(graph, folder, [*words, "--resume", "0"]).output
        yield from expect(f"{additions}, a page", whole.endswith(rest), True)
        found |= {whole}
    yield from expect("each has its keys", len(found), 6)


@check
def keys_with_files(graph, folder):
    """Contents of files go into every key, in their order and after the texts."""
    contents = {"cc": b"\x7fELF\0\xff\n", "env": b"", "large": bytes(range(256)) * 4096}
    write_files(folder, {**FILES, **contents})
    keys, found = Keys(LISTED + PHONY), set()
    for names in ["cc"], ["env"], ["cc", "env"], ["env", "cc"], ["large"]:
        words = [*(f"--with-file={name}" for name in names), "--with", "gcc"]
        additions = [b"gcc", *(of_content(contents[name]) for name in names)]
        whole = keys.lines((edge.outputs[0] for edge in LISTED), additions)
        yield from expect(names, run(graph, folder, words), (DONE, whole, ""))
        found |= {whole}
    yield from expect("each has its keys", len(found), 5)
    missing = "ninja-graph: none: there is no such file\n"
    yield from expect("missing", run(graph, folder, ["--with-file", "none"]), (FAULT, "", missing))


@check
def refusals(graph):
    for words in ["--take", "x"], ["--take=-1"], ["--resume"], ["--base"]:
        status, output, error = run(graph, PROJECT, words)
        yield from expect(words, (status, output, error[:7]), (USAGE, "", "error: "))
    relative = "ninja-graph: 'out' of --base is not absolute\n"
    words = ["-f", "none.ninja", "--base", "/", "--base=out"]
    yield from expect("relative", run(graph, PROJECT, words), (USAGE, "", relative))
    bad = "ninja-graph: bad mark '0.'\n"
    words = ["-f", "none.ninja", "--resume", "0."]
    yield from expect("no mark", run(graph, PROJECT, words), (USAGE, "", bad))
    unknown = "ninja-graph: unknown target 'nothing'\n"
    yield from expect("no target", run(graph, PROJECT, ["nothing"]), (FAULT, "", unknown))
    beyond = "ninja-graph: mark out of range\n"
    yield from expect("no such mark", run(graph, PROJECT, ["--resume", "9"]), (FAULT, "", beyond))
    with open("/dev/full", "wb") as full:
        ran = graph.run(["keys", "--take", "1"], PROJECT, error=full)
    yield from expect("full error output", (ran.status, ran.error), (4, b""))


# ---- random builds


class Known(Edge):
    """An edge of a random build."""

    def __init__(self, build, edge):
        values = {name: build.value(edge, name) for name in ("command", "rspfile", "rspfile_content")}
        values = {name: "" if edge.is_phony() else value for name, value in values.items()}
        self.outputs, self.inputs, self.command = edge.outputs, edge.inputs, values["command"]
        self.file = values["rspfile"]
        self.content = values["rspfile_content"] if self.file else ""


def name_files(chance, outputs):
    return " ".join(some(chance, outputs, 3))


def listed_by(program, folder, build):
    """The first outputs of edges in the order of `ninja -t commands`, by the output of ninja-explain."""
    marked = re.sub(r"(?m)^(  command = )", r"\1$out: ", build.text())
    (folder / "marked.ninja").write_text(marked)
    ran = explain(program, ["-f", "marked.ninja", "-t", "commands"], folder)
    return [line.partition(": ")[0] for line in ran.output.splitlines()]


@check
def keys_of_random_builds(program, graph, folder):
    lines = 0
    for seed in range(100):
        build = random_build(random.Random(seed), name_files)
        (folder / "build.ninja").write_text(build.text())
        keys = Keys([Known(build, edge) for edge in build.edges])
        whole = keys.lines(listed_by(program, folder, build))
        yield from expect(f"build {seed}", run(graph, folder, []), (DONE, whole, ""))
        lines += whole.count("\n")
    yield from expect("there are keys", lines > 100, True)


# ---- builds in other directories

# Where the directory counts, and where another one that ends or begins like it does not.
BASED = """\
rule cc
  command = cc {0}/x '-I{0}' --a={0},{0}:{0} \\"{0}\\";{0})
  rspfile = /tmp/r
  rspfile_content = @{0} /mnt/home/a /home/ax z/x/home/a /opt/build/b1 z/y/opt/build/b
build {0}/o: cc {0}/s | /mnt/home/a/s
"""


@check
def bases(graph, folder):
    """A directory counts in the same places wherever it is, and nowhere else."""

    def key(name, *bases):
        words = ["-f", name, *(f"--base={base}" for base in bases)]
        return run(graph, folder, words).output.split()[0]

    folders = {"one": "/home/a", "two": "/opt/build/b"}
    for name, base in folders.items():
        (folder / name).write_text(BASED.format(base))
    one = key("one", "/home/a")
    yield from expect("another folder", key("two", "/opt/build/b"), one)
    yield from expect("not clean", key("one", "//home/./a/b/.."), one)
    yield from expect("no whole part", key("one", "/home/a", "/hom"), one)
    yield from expect("nowhere", key("one", "/srv"), key("one"))
    # /home/ax is below /home, and /opt/build/b1 below /opt
    others = [["/home"], ["/opt"], ["/home", "/home/a"], ["/home/a", "/home"]]
    found = {one, key("one"), *(key("one", *bases) for bases in others)}
    yield from expect("other keys", len(found), 2 + len(others))


def keys_at(graph, folder, configure):
    """The keys of a project that is configured below a directory, by output."""
    source, build = folder / "source", folder / "build"
    shutil.copytree(EXAMPLES / "cmake", source)
    (source / "meson.build").write_text(MESON)
    words = [word.format(source=source, build=build) for word in configure]
    subprocess.run(words, stdout=subprocess.DEVNULL, check=True)
    bases = [f"--base={build}", f"--base={source}", f"--base={folder}"]
    ran = run(graph, build, [*bases, "all"])
    if (ran.status, ran.error) != (DONE, ""):
        raise RuntimeError(f"keys ends with {ran}")
    lines = (line.split(" ", 1) for line in ran.output.splitlines())
    return {output: key for key, output in lines}


MESON = """\
project('text', 'c')
text = static_library('text', 'src/words.c', include_directories: include_directories('include'))
executable('count', 'src/main.c', include_directories: include_directories('include'), link_with: text)
"""


def keys_in_two_folders(graph, folder, configure):
    one = keys_at(graph, folder / "one", configure)
    two = keys_at(graph, folder / "another" / "two", configure)
    yield from expect("outputs", sorted(one), sorted(two))
    yield from expect("keys", one, two)
    yield from expect("how many", len(one) > 3, True)


@check(needs=["cmake", "ninja", "cc"])
def bases_of_cmake(graph, folder):
    configure = ["cmake", "-G", "Ninja", "-S", "{source}", "-B", "{build}"]
    yield from keys_in_two_folders(graph, folder, configure)


@check(needs=["meson", "ninja", "cc"])
def bases_of_meson(graph, folder):
    yield from keys_in_two_folders(graph, folder, ["meson", "setup", "{build}", "{source}"])

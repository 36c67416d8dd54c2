"""Runs ninja-graph's `draw`.

The projects are examples/project, a manifest of many edges with many inputs and, where CMake is
installed, its manifest for examples/cmake. The wanted drawings were worked out by hand from their
manifests, which are small, or follow from how the large one is made; or `drawing` makes them from the
objects of `json`. Where Graphviz is installed, it has to take each drawing without a word.
"""

import json
import re
import shutil
import subprocess
import sys

from lib.checks import check, expect
from lib.programs import EXAMPLES, ROOT, Program
from lib.projects import write_cmake
from smoke.graph import DONE, FAULT, USAGE

PROJECT, CMAKE = EXAMPLES / "project", EXAMPLES / "cmake"
NODE = re.compile(r'  (\w+) \[(?:shape=(\w+), )?(?:label|tooltip)="((?:[^"\\]|\\.)*)"(?:, xlabel="[^"]*")?\];')
# The end that CMake appends to the names of its rules depends on its version.
TARGET_OF_RULE = re.compile(r"(C_\w+?_(?:COMPILER|LINKER)|C_COMPILER)__\w+")
ARROW = re.compile(r"  (\w+) -> (\w+)(?: \[style=(\w+)\])?;")
SIGNS = {"": "", "dashed": "~ ", "dotted": "|| "}
# A drawing of 30 nodes of a manifest of this kind has to fit on a screen, or two.
WIDE_EDGES, WIDE_INPUTS, NODES, PIXELS = 3000, 30, 30, 4000


def run(graph, folder, words):
    return graph.run(["draw", *words], folder).as_text()


def nodes(text):
    """The shapes and labels of the nodes, by their names."""
    return {name: (shape, label) for name, shape, label in NODE.findall(text)}


def edges(text):
    """The edges of a drawing: `INPUT ~ DISCOVERED || ORDER_ONLY > RULE > OUTPUT`, where a point has no RULE."""
    found, into, out = nodes(text), {}, {}
    for start, end, style in ARROW.findall(text):
        if found[end][0] in ("ellipse", "point"):
            into.setdefault(end, []).append(SIGNS[style] + found[start][1])
        else:
            out.setdefault(start, []).append(found[end][1])
    drawn = set()
    for name, (shape, label) in found.items():
        if shape == "ellipse":
            drawn.add(" > ".join([" ".join(into.get(name, [])), label, " ".join(out.get(name, []))]))
        elif shape == "point":
            drawn.add(" > ".join([" ".join(into.get(name, [])), label]))
    return drawn


def drawing_differs(name, graph, folder, words, wanted):
    status, text, error = run(graph, folder, words)
    text = TARGET_OF_RULE.sub(r"\1", text)
    yield from expect(name, (status, edges(text), error), (DONE, wanted, ""))
    if shutil.which("dot"):
        ran = Program("dot").run(["-Tsvg"], folder, text.encode()).as_text()
        yield from expect(f"{name}, dot", (ran.status, ran.error), (0, ""))


LIBRARY = {
    "text/words.c > cc > out/words.o",
    "text/lines.c > cc > out/lines.o",
    "out/words.o out/lines.o > ar > out/libtext.a",
}
COUNT = {
    "main.c > cc > out/main.o",
    "out/main.o out/libtext.a > link > out/count",
}
TEST = {
    "text/words_test.c > cc > out/words_test.o",
    "out/words_test.o out/libtext.a > link > out/words_test",
    "out/words_test > check > test",
}


@check
def project_drawn(graph):
    yield from drawing_differs("defaults", graph, PROJECT, [], LIBRARY | COUNT)
    yield from drawing_differs("test", graph, PROJECT, ["test"], LIBRARY | TEST)
    wanted = {edge for edge in LIBRARY | COUNT | TEST if "lines" in edge or "libtext" in edge}
    wanted.add("out/words_test > check > test")
    words = ["--affected", "text/lines.c"]
    yield from drawing_differs("affected", graph, PROJECT, words, wanted)
    status, whole, _ = run(graph, PROJECT, [])
    yield from expect("no label", (status, "label=\"5 of" in whole), (DONE, False))


STYLES = {"inputs": "", "implicit_inputs": "", "discovered_inputs": " [style=dashed]", "order_only_inputs": " [style=dotted]"}
KINDS = ("outputs", "implicit_outputs", "inputs", "implicit_inputs", "order_only_inputs", "validations")


def outputs_of(edge):
    return edge["outputs"] + edge["implicit_outputs"]


def inputs_of(edge):
    """Each input with the style of its arrow."""
    return [(path, style) for kind, style in STYLES.items() for path in edge[kind]]


def needed(makers, files):
    """The edges that files need, nearest first."""
    found, nearest = {}, files
    while nearest:
        new = {makers[path]["edge"]: makers[path] for path in nearest if path in makers}
        new = [edge for number, edge in new.items() if number not in found]
        found |= {edge["edge"]: edge for edge in new}
        nearest = [path for edge in new for path, _ in inputs_of(edge)]
    return list(found.values())


def touched(edges, files):
    """The edges that a change of files affects, by number."""
    changed, found = {*files}, {}
    while new := [it for it in edges if it["edge"] not in found and changed & {path for path, _ in inputs_of(it)}]:
        found |= {it["edge"]: it for it in new}
        changed |= {path for it in new for path in outputs_of(it)}
    return [found[number] for number in sorted(found)]


def drawing(edges, files, affected=False, fold=False, limit=None, inputs=12):
    """The text of a drawing, by the objects of all edges."""
    named = dict.fromkeys(path for it in edges for kind in KINDS for path in it[kind])
    named = {path: f"f{number}" for number, path in enumerate([*named, *dict.fromkeys(discovered(edges, named))])}
    makers = {path: it for it in edges for path in outputs_of(it)}

    def folds(edge):
        return fold and edge["phony"]

    def node(path):
        return f"e{makers[path]['edge']}" if path in makers and folds(makers[path]) else named[path]

    listed = touched(edges, files) if affected else needed(makers, files)
    found = dict.fromkeys(map(node, files))
    for it in listed:
        if affected or any(node(path) in found for path in outputs_of(it)):
            first = [path for path, _ in inputs_of(it)][:inputs]
            found |= dict.fromkeys([f"e{it['edge']}", *map(node, outputs_of(it) + first)])
    found = list(found)[:limit]
    drawn = [it for it in listed if f"e{it['edge']}" in found]
    text = ["digraph ninja {", "  rankdir=LR;", "  node [shape=box];"]
    files_named = {name: path for path, name in named.items()}
    for name in found:
        if name in files_named:
            text.append(f'  {name} [label="{files_named[name]}"];')
            continue
        edge = edges[int(name[1:])]
        more = sum(node(path) not in found for path, _ in inputs_of(edge))
        if folds(edge):
            more = f', xlabel="and {more} more"' if more else ""
            text.append(f'  {name} [shape=point, tooltip="{outputs_of(edge)[0]}"{more}];')
        else:
            more = f"\\nand {more} more" if more else ""
            text.append(f'  {name} [shape=ellipse, label="{edge["rule"]}{more}"];')
    for edge in sorted(drawn, key=lambda it: found.index(f"e{it['edge']}")):
        name = f"e{edge['edge']}"
        after = [] if folds(edge) else dict.fromkeys(map(node, outputs_of(edge)))
        text += [f"  {name} -> {other};" for other in after if other in found]
        before = dict((node(path), style) for path, style in reversed(inputs_of(edge)))
        before = {node(path): before[node(path)] for path, _ in inputs_of(edge)}
        text += [f"  {other} -> {name}{style};" for other, style in before.items() if other in found]
    if len(drawn) != len(listed):
        text.append(f'  label="{len(drawn)} of {len(listed)} edges";')
    return "".join(f"{line}\n" for line in [*text, "}"])


def discovered(edges, named):
    return [path for it in edges for path in it["discovered_inputs"] if path not in named]


def edge_objects(graph, folder):
    return [json.loads(line) for line in graph.run(["json"], folder).as_text().output.splitlines()]


def texts_differ(graph, folder, edges, files, **how):
    words = [f"--{name}" if value is True else f"--{name}={value}" for name, value in how.items()]
    yield from expect(words + files, run(graph, folder, words + files), (DONE, drawing(edges, files, **how), ""))


@check
def limits(graph):
    """With each number of nodes and of inputs."""
    edges = edge_objects(graph, PROJECT)
    for files in ["out/count"], ["test"], ["out/words_test", "out/count"], ["main.c"]:
        for limit in range(20):
            yield from texts_differ(graph, PROJECT, edges, files, limit=limit)
        for inputs in range(4):
            yield from texts_differ(graph, PROJECT, edges, files, inputs=inputs)
            yield from texts_differ(graph, PROJECT, edges, files, inputs=inputs, fold=True, limit=9)
    for files in ["text/lines.c"], ["text/words.c", "main.c"], ["out/libtext.a"]:
        for limit in range(0, 20, 3):
            yield from texts_differ(graph, PROJECT, edges, files, affected=True, limit=limit)
            yield from texts_differ(graph, PROJECT, edges, files, affected=True, inputs=1, limit=limit)


def write_wide(folder):
    script = [sys.executable, str(ROOT / "bench/shapes.py"), "wide", str(WIDE_EDGES)]
    with open(folder / "build.ninja", "wb") as file:
        subprocess.run(script, stdout=file, check=True)


@check
def wide_manifest(graph, folder):
    write_wide(folder)
    status, text, error = run(graph, folder, ["--limit", str(NODES)])
    yield from expect("the end", (status, error), (DONE, ""))
    yield from expect("how many", len(nodes(text)), NODES)
    more = [label for shape, label in nodes(text).values() if shape == "ellipse"]
    yield from expect("more", more[0].endswith(f"\\nand {WIDE_INPUTS - 12} more"), True)
    if shutil.which("dot"):
        image = subprocess.run(["dot", "-Tpng"], input=text.encode(), capture_output=True, check=True).stdout
        width = int.from_bytes(image[16:20], "big")
        yield from expect(f"{width} pixels are", width <= PIXELS, True)


@check(needs=["dot"])
def drawings_are_for_graphviz(graph):
    text = run(graph, PROJECT, []).output
    ran = Program("dot").run(["-Tsvg"], PROJECT, text.encode()).as_text()
    yield from expect("dot", (ran.status, ran.error), (0, ""))
    yield from expect("drawn", ">out/count<" in ran.output, True)


@check(needs=["dot"])
def hostile_names(graph, folder):
    """Names with quotes, backslashes, ampersands and bytes that are not UTF-8."""
    name = b'a"b\\n&lt;\xff'
    (folder / "build.ninja").write_bytes(b"rule r\n  command = c\nbuild %s: r s\n" % name)
    ran = graph.run(["draw"], folder)
    yield from expect("status", (ran.status, ran.error), (DONE, b""))
    label = 'label="a\\"b\\\\n&amp;lt;\ufffd"'
    yield from expect("label", label in ran.output.decode(), True)
    shown = Program("dot").run(["-Tsvg"], folder, ran.output).as_text()
    yield from expect("dot", (shown.status, shown.error), (0, ""))


@check
def refusals(graph):
    unknown = "ninja-graph: unknown target 'nothing'\n"
    yield from expect("no target", run(graph, PROJECT, ["nothing"]), (FAULT, "", unknown))
    for words in ["--limit", "x"], ["--limit", "-1"], ["--inputs="], ["--fold=1"]:
        status, output, error = run(graph, PROJECT, words)
        yield from expect(words, (status, output, error == ""), (USAGE, "", False))


OBJECT = "CMakeFiles/text.dir/src/words.c.o"


@check(needs=["cmake", "ninja", "cc"])
def cmake_drawn(graph, folder):
    write_cmake(folder)
    wanted = {
        f"{CMAKE}/src/words.c || cmake_object_order_depends_target_text > C_COMPILER > {OBJECT}",
        f"{OBJECT} > C_STATIC_LIBRARY_LINKER > libtext.a",
        "CMakeFiles/count.dir/src/main.c.o libtext.a > C_EXECUTABLE_LINKER > count",
    }
    whole = wanted | {"libtext.a > phony > text", "libtext.a count > phony > all"}
    words = ["--affected", str(CMAKE / "src/words.c")]
    yield from drawing_differs("affected", graph, folder, words, whole)
    points = {"libtext.a > text", "libtext.a count > all", " > cmake_object_order_depends_target_text"}
    yield from drawing_differs("folded", graph, folder, ["--fold", *words], wanted | points)
    edges = edge_objects(graph, folder)
    for fold, affected in [(fold, affected) for fold in (False, True) for affected in (False, True)]:
        how = {name: True for name, value in [("fold", fold), ("affected", affected)] if value}
        for files in ["all"], [str(CMAKE / "src/words.c")], ["libtext.a", "count"]:
            yield from texts_differ(graph, folder, edges, files, **how)
            yield from texts_differ(graph, folder, edges, files, inputs=1, limit=7, **how)

"""Runs ninja-graph's `why`.

The wanted chains of examples/project were worked out by hand; those of random graphs are found by a
search in this file.
"""

import random

from lib.checks import check, expect
from lib.programs import EXAMPLES
from smoke.graph import DONE, FAULT, LOOK, USAGE

PROJECT = EXAMPLES / "project"
NONE = LOOK, "", ""
CHAIN = """\
build.ninja:17:1: check: test needs out/words_test (explicit)
build.ninja:16:1: link: out/words_test needs out/libtext.a (explicit)
text/build.ninja:6:1: ar: out/libtext.a needs out/words.o (explicit)
text/build.ninja:4:1: cc: out/words.o needs text/words.c (explicit)
"""
KINDS = """\
rule mk
  command = mk
build a | a.map: mk s | h || stamp |@ lint
build b: phony a.map
build lint: mk a
build c: mk b lint
"""


def run(graph, folder, *words):
    return graph.run(["why", *words], folder).as_text()


@check
def of_project(graph):
    yield from expect("a chain", run(graph, PROJECT, "test", "text/words.c"), (DONE, CHAIN, ""))
    ran = run(graph, PROJECT, "out//x/../words_test", "text/../text/words.c")
    yield from expect("other paths", ran, (DONE, "".join(CHAIN.splitlines(True)[1:]), ""))
    ran = run(graph, PROJECT, "out/words_test^", "out/words_test")
    yield from expect("what is made of it", ran, (DONE, CHAIN.splitlines(True)[0], ""))
    for words in ["test", "main.c"], ["text/words.c", "test"], ["main.c", "text/words.c"]:
        yield from expect(words, run(graph, PROJECT, *words), NONE)
    for word in "test", "main.c", "out/../test":
        yield from expect(f"{word} itself", run(graph, PROJECT, word, "test" if word != "main.c" else word), NONE)


@check
def unknown_names(graph, program):
    """The faults are those of `query`."""
    for word in "nothing", "", "test^", "nothing^":
        asked = program.run(["-t", "query", word], PROJECT).as_text()
        wanted = FAULT, "", asked.error.replace("ninja-explain:", "ninja-graph:")
        yield from expect(f"refused, {word}", asked.status, 1)
        yield from expect(f"from {word}", run(graph, PROJECT, word, "test"), wanted)
        yield from expect(f"to {word}", run(graph, PROJECT, "test", word), wanted)


@check
def kinds(graph, folder):
    (folder / "build.ninja").write_text(KINDS)
    made = "build.ninja:3:1: mk: a needs "
    for path, kind in ("s", "explicit"), ("h", "implicit"), ("stamp", "order-only"):
        yield from expect(kind, run(graph, folder, "a", path), (DONE, f"{made}{path} ({kind})\n", ""))
    yield from expect("validation", run(graph, folder, "a", "lint"), NONE)
    found = run(graph, folder, "--validations", "a", "lint")
    yield from expect("with validations", found, (DONE, f"{made}lint (validation)\n", ""))
    wanted = "build.ninja:6:1: mk: c needs b (explicit)\nbuild.ninja:4:1: phony: b needs a.map (explicit)\n"
    yield from expect("an implicit output", run(graph, folder, "c", "a.map"), (DONE, wanted, ""))
    # by `b` and by `lint`: the first from left to right
    wanted += "build.ninja:3:1: mk: a.map needs s (explicit)\n"
    yield from expect("the first", run(graph, folder, "c", "s"), (DONE, wanted, ""))


@check
def wrong_words(graph):
    for words in [], ["test"], ["test", "main.c", "main.o"], ["test", "main.c", "--rule", "cc"]:
        status, output, error = run(graph, PROJECT, *words)
        yield from expect(words, (status, output, error == ""), (USAGE, "", False))


WORDS = {"explicit": "", "implicit": " |", "order-only": " ||", "validation": " |@"}


def random_edges(chance):
    """Edges as outputs and inputs, each input with its kind. No edge needs itself."""
    edges = []
    for number in range(chance.randint(5, 30)):
        outputs = [f"o{number}.{index}" for index in range(chance.randint(1, 2))]
        known = [path for edge in edges for path in edge[0]] + ["s0", "s1", "s2"]
        inputs = [(chance.choice(known), kind) for kind in WORDS for _ in range(chance.choice([0, 1, 1, 3]))]
        edges.append((outputs, inputs))
    chance.shuffle(edges)
    return edges


def manifest_of(edges):
    lines = ["rule mk", "  command = mk"]
    for outputs, inputs in edges:
        sections = "".join(
            f"{sign} {' '.join(paths)}" if (paths := [path for path, of in inputs if of == kind]) else ""
            for kind, sign in WORDS.items()
        )
        lines.append(f"build {' '.join(outputs)}: mk{sections}")
    return "".join(f"{line}\n" for line in lines)


def first_shortest(edges, start, end, with_validations):
    """The lines of the first shortest chain: all chains of one length are tried before longer ones, from
    left to right."""
    makers = {output: number for number, edge in enumerate(edges) for output in edge[0]}
    chains, seen = [(start, "")], set()
    while chains:
        longer = []
        for path, text in chains:
            number = makers.get(path)
            if number is None or number in seen:
                continue
            seen.add(number)
            for taken, kind in edges[number][1]:
                if kind != "validation" or with_validations:
                    line = f"build.ninja:{number + 3}:1: mk: {path} needs {taken} ({kind})\n"
                    if taken == end:
                        return text + line
                    longer.append((taken, text + line))
        chains = longer
    return ""


@check
def random_graphs(graph, folder):
    for seed in range(12):
        chance = random.Random(seed)
        edges = random_edges(chance)
        (folder / "build.ninja").write_text(manifest_of(edges))
        paths = sorted({path for edge in edges for path in [*edge[0], *(path for path, _ in edge[1])]})
        for _ in range(25):
            start, end = chance.choice(paths), chance.choice(paths)
            for options in [], ["--validations"]:
                lines = "" if start == end else first_shortest(edges, start, end, options != [])
                wanted = DONE if lines else LOOK, lines, ""
                yield from expect([seed, *options, start, end], run(graph, folder, *options, start, end), wanted)

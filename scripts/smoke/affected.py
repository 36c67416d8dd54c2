"""Runs ninja-graph's `affected` after changes, among them such from which the manifest itself is made.

The wanted outputs were worked out by hand from the manifests below, in which each way to make a manifest
stands once, from that of examples/project, and from the one that CMake writes for examples/cmake, where it is
installed.
"""

import os
import pty
import random
import re
import resource
import subprocess

from lib.checks import check, expect
from lib.programs import EXAMPLES, ROOT, SECONDS, Ending, Program, all_bytes, memory_file, wait_for
from lib.projects import write_cmake, write_files
from lib.random_builds import HEADERS, SOURCES, deps_log, random_build, some
from smoke.graph import DONE, FAULT, LOOK, OUTPUT_FAILED, SUBCOMMANDS, USAGE

PROJECT, CMAKE = EXAMPLES / "project", EXAMPLES / "cmake"
NO_PATH = "ninja-graph: no changed path was given\n"
WAITING = b"ninja-graph: reading changed paths from this terminal, a line each; end them with Ctrl-D\n"
NO_GLOB = "ninja-graph: 'a[' of --ignore has an unclosed [ at byte 1\n"
# How many edges lead to the manifest.
LINKS = 10_000
FILES = {
    "build.ninja": b"""\
anew =
rule mk
  command = mk $out
rule regenerate
  command = regenerate
  generator = $anew
include rules.ninja
subninja .//parts.ninja
build settings: phony settings.txt
build stamp: regenerate | configure || settings
build build.ninja: phony stamp
build parts.ninja: mk parts.in
build dd: mk dd.in
build app: mk app.c || dd
  dyndep = dd
build plain: regenerate plain.in
  generator =
build handbook: mk rules.ninja
build once: mk once.in
  generator = yes
anew = 1
""",
    "rules.ninja": b"# The rules of all.\n",
    "dd": b"ninja_dyndep_version = 1\nbuild app: dyndep\n",
    "parts.ninja": b"build part: mk part.c\n",
    "made.ninja": b"rule mk\n  command = mk\nbuild made.ninja: mk made.in\nbuild other: mk made.in\n",
}
# The outputs that a change of a file affects, where the manifest is made from it.
MADE_FROM = {
    "configure": ["stamp", "build.ninja"],  # an input of an edge whose `generator` is set later
    "settings.txt": ["settings", "stamp", "build.ninja"],  # through a phony edge, and order-only
    "stamp": ["build.ninja"],  # the main file, which a phony edge makes
    "parts.in": ["parts.ninja"],  # a file that is opened by another path
    "parts.ninja": [],  # that file itself
    "rules.ninja": ["handbook"],  # a file that was opened, and that is an input
    "once.in": ["once"],  # `generator` in the block of the edge
}
# And where it is not: an empty `generator` in a block hides the one of the rule. The dyndep file is joined.
OTHERS = {"plain.in": ["plain"], "part.c": ["part"], "app.c": ["app"]}
# The maker of a dyndep file makes no manifest, but that file may say something else then.
OF_DYNDEP = {"dd.in": ["dd", "app"], "dd": ["app"]}
MAY_CHANGE = "dd: a dyndep file, may change\n"


def lines(texts):
    return "".join(f"{text}\n" for text in texts)


def told(paths):
    return lines(f"{path}: the manifest is made from it" for path in paths)


def run(graph, folder, words, paths):
    return graph.run(["affected", *words], folder, lines(paths).encode()).as_text()


def run_at_terminal(program, words, folder, text):
    """Runs a program at a terminal, where the text and Ctrl-D are typed; its outputs go to files."""
    keyboard, terminal = pty.openpty()
    try:
        os.write(keyboard, text + b"\x04")
        with memory_file() as out, memory_file() as err:
            how = {"stdin": terminal, "stdout": out, "stderr": err, "cwd": folder}
            status = wait_for(subprocess.Popen([program.path, *words], **how), SECONDS)
            return Ending(status, all_bytes(out), all_bytes(err))
    finally:
        os.close(keyboard)
        os.close(terminal)


@check
def terminal(graph):
    """At a terminal a line says what the program waits for, and the answer is the usual one."""
    words, text = ["affected", "--rule", "check"], b"text/words.c\n"
    usual = graph.run(words, PROJECT, text)
    found = run_at_terminal(graph, words, PROJECT, text)
    yield from expect("the answer", found, usual._replace(error=WAITING + usual.error))
    found = run_at_terminal(graph, ["json"], PROJECT, b"")
    yield from expect("a question without changed paths", found, graph.run(["json"], PROJECT))


@check
def manifest_is_made_from(graph, folder):
    write_files(folder, FILES)
    for path, outputs in MADE_FROM.items():
        wanted = LOOK, lines(outputs), told([path])
        yield from expect(path, run(graph, folder, ["--dyndep"], [path]), wanted)
    for path, outputs in OTHERS.items():
        yield from expect(path, run(graph, folder, ["--dyndep"], [path]), (DONE, lines(outputs), ""))
    for path, outputs in OF_DYNDEP.items():
        wanted = LOOK, lines(outputs), MAY_CHANGE
        yield from expect(path, run(graph, folder, ["--dyndep"], [path]), wanted)
    wanted = DONE, lines(["part", "app", "plain"]), ""
    yield from expect("no manifest", run(graph, folder, ["--dyndep"], OTHERS), wanted)
    wanted = LOOK, lines(["part"]), MAY_CHANGE
    yield from expect("a dyndep file that is not joined", run(graph, folder, [], ["part.c"]), wanted)


def timed(graph, folder, paths):
    """The CPU time of a run with these paths, and how it ended."""
    before = resource.getrusage(resource.RUSAGE_CHILDREN)
    ran = run(graph, folder, [], paths)
    after = resource.getrusage(resource.RUSAGE_CHILDREN)
    return after.ru_utime + after.ru_stime - before.ru_utime - before.ru_stime, ran


@check(alone=True)
def many_files_of_the_manifest(graph, folder):
    """The manifest is known once for all paths: all files of a chain to it take at most four times as
    long as one."""
    chain = lines(f"build o{link + 1}: mk o{link} in{link}" for link in range(LINKS))
    text = f"rule mk\n  command = mk\n{chain}build build.ninja: mk o{LINKS}\n"
    write_files(folder, {"build.ninja": text.encode()})
    least = []
    for count in 1, LINKS:
        paths = [f"in{link}" for link in range(count)]
        runs = [timed(graph, folder, paths) for _ in range(3)]
        yield from expect(count, runs[0][1].error, told(paths))
        least.append(min(seconds for seconds, _ in runs))
    if least[1] > 4 * least[0]:
        yield f"{LINKS} paths take {least[1]:.3f} s, one takes {least[0]:.3f} s"


@check
def of_project(graph):
    changed = ["text/lines.c", "README.md", "./main.c"]
    found = ["out/lines.o", "out/libtext.a", "out/main.o", "out/count", "out/words_test", "test"]
    ran = run(graph, PROJECT, [], changed)
    yield from expect("all", ran, (LOOK, lines(found), lines(["README.md"])))
    ran = run(graph, PROJECT, ["--rule", "check"], ["text/lines.c"])
    yield from expect("test", ran, (DONE, lines(["test"]), ""))
    ran = run(graph, PROJECT, ["--rule", "check"], ["main.c"])
    yield from expect("no test", ran, (DONE, "", ""))
    ran = run(graph, PROJECT, ["--rule", "link", "--prefix", "out/w"], changed)
    yield from expect("one program", ran, (LOOK, lines(["out/words_test"]), lines(["README.md"])))
    words = ["--source-dir", "text/include/..", "--prefix", "out/lib"]
    ran = run(graph, PROJECT, words, ["words.c"])
    yield from expect("folder", ran, (DONE, lines(["out/libtext.a"]), ""))


@check
def of_rules(graph, folder):
    """Several rules, one of no affected edge, and no phony edges."""
    words = ["--rule", "check", "--rule=ar"]
    ran = run(graph, PROJECT, words, ["text/lines.c"])
    yield from expect("two rules", ran, (DONE, lines(["out/libtext.a", "test"]), ""))
    ran = run(graph, PROJECT, ["--rule", "check"], ["main.c"])
    yield from expect("no edge of the rule", ran, (DONE, "", ""))
    write_files(folder, FILES)
    words, told_of = ["--no-phony", "--dyndep"], told(["settings.txt"])
    ran = run(graph, folder, words, ["settings.txt"])
    yield from expect("no phony", ran, (LOOK, lines(["stamp"]), told_of))
    ran = run(graph, folder, [*words, "--rule", "phony"], ["settings.txt"])
    yield from expect("phony alone, and none", ran, (LOOK, "", told_of))


@check
def unknown_rules(graph, folder):
    """A name that no rule has is a fault: it would select nothing. A rule of any scope is known."""
    for first, names in ("none", ["none"]), ("", [""]), ("x", ["check", "x", "y"]), ("ar ", ["ar ", "ar"]):
        words = [f"--rule={name}" for name in names]
        wanted = FAULT, "", f"ninja-graph: unknown rule '{first}'\n"
        yield from expect(words, run(graph, PROJECT, words, ["text/lines.c"]), wanted)
    inner = b"rule inner\n  command = inner\nbuild in: inner in.c\n"
    write_files(folder, {"build.ninja": b"subninja part\n", "part": inner})
    yield from expect("inner", run(graph, folder, ["--rule", "inner"], ["in.c"]), (DONE, "in\n", ""))
    yield from expect("phony", run(graph, folder, ["--rule", "phony"], ["in.c"]), (DONE, "", ""))


@check
def no_changed_path(graph):
    """What should have listed the paths may have failed, so without one everything may be affected."""
    caveat = LOOK, "", NO_PATH
    for text in b"", b"\n", b"\n\n\n":
        ran = graph.run(["affected"], PROJECT, text).as_text()
        yield from expect(text, ran, caveat)
        ran = graph.run(["affected", "--allow-empty"], PROJECT, text).as_text()
        yield from expect(f"{text}, allowed", ran, (DONE, "", ""))
    ran = run(graph, PROJECT, ["--allow-empty"], ["README.md"])
    yield from expect("a path", ran, (LOOK, "", "README.md\n"))
    with open("/dev/full", "wb") as full:
        ran = graph.run(["affected"], PROJECT, error=full)
    yield from expect("full error output", ran, (OUTPUT_FAILED, b"", b""))


@check
def lists_of_paths(graph, folder):
    """Lines may end in CR LF; with `-z` zero bytes end paths. What a glob matches affects nothing."""
    write_files(folder, {"build.ninja": b"rule mk\n  command = mk\nbuild a: mk a.c\nbuild b: mk b$ \xff.c\n"})
    both = DONE, "a\nb\n", ""
    for words, text in ([], b"a.c\r\nb \xff.c\r\n"), (["-z"], b"a.c\0b \xff.c\0"), (["-z"], b"a.c\0\0b \xff.c"):
        yield from expect(text, graph.run(["affected", *words], folder, text).as_text(), both)
    words = ["--ignore", "build.*", "--ignore=?.c"]
    yield from expect("ignored", run(graph, folder, words, ["build.ninja", "a.c"]), (DONE, "", ""))
    yield from expect("no glob", run(graph, folder, ["--ignore", "a["], []), (USAGE, "", NO_GLOB))


@check
def dyndep_files(graph, folder):
    """With `--dyndep` the discoveries of such a file are inputs too."""
    files = {**FILES, "dd": b"ninja_dyndep_version = 1\nbuild app: dyndep | plain.in\n"}
    write_files(folder, files)
    ran = run(graph, folder, ["--dyndep"], ["plain.in"])
    yield from expect("joined", ran, (DONE, lines(["app", "plain"]), ""))


@check
def warnings_are_in_order(graph, folder):
    """Each path has its warning, whatever the others are, and the tests are written all the same."""
    write_files(folder, FILES)
    paths = ["app.c", "none.c", "./configure", "dd.in", "rules.ninja", "configure", "part.c"]
    found = run(graph, folder, ["--dyndep", "--prefix", "app"], paths)
    told_of = lines(["none.c"]) + told(["./configure", "rules.ninja", "configure"]) + MAY_CHANGE
    yield from expect("all", found, (LOOK, lines(["app"]), told_of))
    found = run(graph, folder, ["--dyndep", "--rule", "mk"], ["configure"])
    yield from expect("no test", found, (LOOK, "", told(["configure"])))


@check
def main_file_is_made(graph, folder):
    write_files(folder, FILES)
    for name in "made.ninja", ".//made.ninja":
        wanted = LOOK, lines(["made.ninja", "other"]), told(["made.in"])
        yield from expect(name, run(graph, folder, ["-f", name], ["made.in"]), wanted)


OBJECT = "CMakeFiles/text.dir/src/words.c.o"


@check(needs=["cmake", "ninja", "cc"])
def of_cmake(graph, folder):
    write_cmake(folder)
    header = "include/text/words.h"
    here = ["--source-dir", str(CMAKE)]
    found = lines([OBJECT, "libtext.a", "count", "text", "all"])
    ran = run(graph, folder, here, [header, "src/words.c"])
    yield from expect("CMake", ran, (LOOK, found, lines([header])))
    ran = run(graph, folder, [*here, "--prefix", "count"], [header, "src/words.c"])
    yield from expect("its program", ran, (LOOK, lines(["count"]), lines([header])))
    ran = run(graph, folder, [*here, "--no-phony"], ["src/words.c"])
    yield from expect("no phony", ran, (DONE, lines([OBJECT, "libtext.a", "count"]), ""))


@check(needs=["cmake", "ninja", "cc"])
def cmake_lists(graph, folder):
    write_cmake(folder)
    here = ["--source-dir", str(CMAKE), "--prefix", "count"]
    found = run(graph, folder, here, ["CMakeLists.txt"])
    yield from expect("its lists", found, (LOOK, "", told(["CMakeLists.txt"])))
    found = run(graph, folder, here, ["src/words.c", "CMakeLists.txt"])
    yield from expect("both", found, (LOOK, lines(["count"]), told(["CMakeLists.txt"])))
    found = run(graph, folder, here, ["src/words.c"])
    yield from expect("a source", found, (DONE, lines(["count"]), ""))
    output = run(graph, folder, here[:2], ["CMakeLists.txt"]).output
    yield from expect("the manifest", "build.ninja" in output.splitlines(), True)


# ---- deps logs

LOGGED = """\
builddir = old
rule cc
  command = cc $in
  deps = gcc
build a.o: cc a.c
build b.o: cc b.c
  deps =
build a: phony a.o
builddir = out
"""
LOG = deps_log({"a.o": ["a.c", "./a.h", "/usr/a.h"], "b.o": ["b.h"], "gone.o": ["gone.h"]})
# The bytes of a record with one input: its size, the output, the time and the input.
LAST_RECORD = 4 + 4 + 8 + 4


@check
def headers_of_a_log(graph, folder):
    """The log's inputs of an edge with `deps` count, by their clean paths; in the last `builddir`."""
    write_files(folder, {"build.ninja": LOGGED.encode(), "out/.ninja_deps": LOG, "copy": LOG})
    paths = ["a.h", "/usr/a.h", "b.h", "gone.h"]
    known, others = lines(["a.o", "a"]), lines(paths[2:])
    for words in ["--deps"], ["--deps-log-file", "copy"], ["--deps", "--deps-log-file=copy"]:
        yield from expect(words, run(graph, folder, words, paths), (LOOK, known, others))
        yield from expect(f"{words}, one", run(graph, folder, words, paths[:1]), (DONE, known, ""))
    yield from expect("no log", run(graph, folder, [], paths), (LOOK, "", lines(paths)))
    words = ["--deps", "--source-dir", "/usr"]
    yield from expect("folder", run(graph, folder, words, ["a.h"]), (DONE, known, ""))
    (folder / "out/.ninja_deps").unlink()
    ran = run(graph, folder, ["--deps"], paths)
    yield from expect("a log that is not there has no records", ran, (LOOK, known, lines(paths)))


@check
def logs_without_builddir(graph, folder):
    for value in "", "builddir = out\nbuilddir =\n":
        text = LOGGED.replace("builddir = old\n", "").replace("builddir = out\n", value)
        write_files(folder, {"build.ninja": text.encode(), ".ninja_deps": LOG})
        ran = run(graph, folder, ["--deps"], ["a.h"])
        yield from expect(f"builddir {value!r}", ran, (DONE, lines(["a.o", "a"]), ""))


@check
def logs_after_dyndep_files(graph, folder):
    """The discoveries of a dyndep file are there before the log, which may name them too."""
    dyndep = b"ninja_dyndep_version = 1\nbuild a.o: dyndep | a.h d.h\n"
    text = LOGGED.replace("cc a.c", "cc a.c || dd\n  dyndep = dd")
    write_files(folder, {"build.ninja": text.encode(), "dd": dyndep, "out/.ninja_deps": LOG})
    for words in ["--dyndep", "--deps"], ["--deps"]:
        ran = run(graph, folder, words, ["a.h", "d.h", "/usr/a.h"])
        yield from expect(words, ran, (DONE, lines(["a.o", "a"]), ""))


@check
def faults_of_logs(graph, folder):
    write_files(folder, {"build.ninja": LOGGED.encode(), "none": b"", "other": b"# ninjadeps\n\3\0\0\0"})
    texts = {
        "lost": "there is no such file", "none": "not a deps log", "other": "deps log of version 3",
        "loop": "the file could not be read",
    }
    (folder / "loop").symlink_to("loop")
    for name, text in texts.items():
        ran = run(graph, folder, ["--deps-log-file", name], ["a.c"])
        yield from expect(name, ran, (FAULT, "", f"ninja-graph: {name}: {text}\n"))
    write_files(folder, {"cut": LOG[:-4]})
    ran = run(graph, folder, ["--deps-log-file", "cut"], ["a.h", "gone.h"])
    told_of = f"cut: {len(LOG) - LAST_RECORD} of its {len(LOG) - 4} bytes were read\ngone.h\n"
    yield from expect("cut off", ran, (LOOK, lines(["a.o", "a"]), told_of))
    write_files(folder, {"build.ninja": LOGGED.encode().replace(b"= out", b"= \xff")})
    text = "ninja-graph: the path of the deps log is not UTF-8\n"
    yield from expect("not UTF-8", run(graph, folder, ["--deps"], ["a.c"]), (FAULT, "", text))


@check
def logs_that_are_no_files(graph, folder):
    """A pipe to which nobody writes, a device or a directory is refused at once."""
    write_files(folder, {"build.ninja": LOGGED.encode()})
    (folder / "out").mkdir()
    os.mkfifo(folder / "pipe")
    os.mkfifo(folder / "out/.ninja_deps")
    (folder / "link").symlink_to("pipe")
    asked = [([name, "--deps", *words], "out/.ninja_deps") for name, (_, words) in SUBCOMMANDS.items()]
    for path in "pipe", "link", "out", "/dev/zero", "/dev/null":
        asked.append((["json", "--deps-log-file", path], path))
    for words, path in asked:
        ran = graph.run(words, folder, b"a.c\n", seconds=10).as_text()
        yield from expect(words, ran, (FAULT, "", f"ninja-graph: {path}: the file could not be read\n"))


def with_log(build, log):
    """Adds the log's inputs for the first output of an edge with `deps`. Returns the edges whose discovered
    inputs are not known: there are no depfiles, and no outputs."""
    unknown = []
    for edge in build.edges:
        if build.value(edge, "deps"):
            edge.inputs += [("|", path) for path in log.get(edge.outputs[0], [])]
            unknown += [edge] if edge.outputs[0] not in log else []
        elif build.value(edge, "depfile"):
            unknown.append(edge)
    return unknown


def is_dirty(edge, reached, unknown):
    """Whether an edge is to be built again, once these files change."""
    counted = {path for bars, path in edge.inputs if bars != "||"}
    return edge in unknown or bool(reached & {*counted, *edge.outputs})


def wanted_of(build, paths, unknown=None):
    """The output for a change of these paths; with a log if the edges are given that are not known by it."""
    if not paths:
        return LOOK, "", NO_PATH
    named = {it for edge in build.edges for it in [*edge.outputs, *edge.paths(), *edge.validations]}
    reached, affected = set(paths) & named, []
    # outputs come before those made from them, but for inputs that only a log names
    for _ in build.edges:
        if unknown is None:
            affected = [edge for edge in build.edges if reached & set(edge.paths())]
        else:
            affected = [edge for edge in build.edges if is_dirty(edge, reached, unknown)]
        reached |= {path for edge in affected for path in edge.outputs}
    outputs = lines(path for edge in affected for path in edge.outputs)
    told = lines(path for path in paths if path not in named)
    return LOOK if told else DONE, outputs, told


@check
def random_logs(graph, folder):
    """Random builds, with a log and without one."""
    only_by_log = 0
    for seed in range(150):
        chance = random.Random(seed)
        build = random_build(chance, lambda chance, outputs: " ".join(some(chance, outputs, 2)))
        firsts = [edge.outputs[0] for edge in build.edges]
        log = {it: some(chance, [*HEADERS, *SOURCES], 3) for it in [*some(chance, firsts, 9), "gone"]}
        for index, edge in enumerate(build.edges[1:], 1):
            if edge.outputs[0] in log and chance.random() < 0.5:
                log[edge.outputs[0]] = [*log[edge.outputs[0]], chance.choice(firsts[:index])]
        write_files(folder, {"build.ninja": build.text().encode(), ".ninja_deps": deps_log(log)})
        paths = some(chance, [*HEADERS, *SOURCES, *firsts, "gone"], 8)
        plain = wanted_of(build, paths)
        yield from expect(f"build {seed}", run(graph, folder, [], paths), plain)
        unknown = with_log(build, log)
        logged = wanted_of(build, paths, unknown)
        yield from expect(f"build {seed}, log", run(graph, folder, ["--deps"], paths), logged)
        only_by_log += plain != logged
    yield from expect("builds that a log changes", only_by_log > 40, True)


# ---- the recipes of the man page for tests

PAGE = ROOT / "man/ninja-graph.1"
TESTED_SOURCES = {
    "text.c": b"int text(void) { return 0; }\n",
    "one.c": b"int text(void);\nint main(void) { return text(); }\n",
    "two.c": b"int main(void) { return 0; }\n",
    "CMakeLists.txt": b"""\
cmake_minimum_required(VERSION 3.16)
project(tested C)
enable_testing()
add_library(text text.c)
add_executable(one one.c)
target_link_libraries(one text)
add_executable(two two.c)
add_test(NAME first COMMAND one)
add_test(NAME second COMMAND two)
""",
    "meson.build": b"""\
project('tested', 'c')
text = static_library('text', 'text.c')
test('first', executable('one', 'one.c', link_with: text))
test('second', executable('two', 'two.c'))
""",
}


def recipe(start):
    """The command of the page that begins in this way."""
    blocks = re.findall(r"^\.EX\n(.*?)^\.EE", PAGE.read_text(), re.M | re.S)
    plain = [re.sub(r"\\\(aq", "'", it.replace("\\-", "-").replace("\\e", "\\")) for it in blocks]
    return next(it for it in plain if it.startswith(start))


def follow_recipe(graph, folder, configure, start):
    """How a recipe ends after a change of a source that one of the tests needs."""
    programs, project = folder / "bin", folder / "project"
    programs.mkdir()
    (programs / "ninja-graph").symlink_to(graph.path)
    write_files(project, TESTED_SOURCES)
    author = ["-c", "user.name=a", "-c", "user.email=a@localhost"]
    for words in (
        ["git", "init", "-q", "-b", "main"],
        ["git", "add", "."],
        ["git", *author, "commit", "-q", "-m", "Start"],
        configure,
        ["ninja", "-C", "build"],
    ):
        subprocess.run(words, cwd=project, stdout=subprocess.DEVNULL, check=True)
    (project / "text.c").write_bytes(TESTED_SOURCES["text.c"] + b"/* changed */\n")
    path = os.pathsep.join([str(programs), os.environ["PATH"]])
    return project, Program("sh").run(["-c", recipe(start)], project, PATH=path).as_text()


@check(needs=["git", "cmake", "ctest", "ninja", "cc"])
def recipe_for_ctest(graph, folder):
    project, ran = follow_recipe(graph, folder, ["cmake", "-G", "Ninja", "-B", "build"], "ctest ")
    yield from expect("the recipe", (ran.status, ran.error), (0, ""))
    yield from expect("tests", (project / "names").read_text(), "first\n")


@check(needs=["git", "meson", "ninja", "cc"])
def recipe_for_meson(graph, folder):
    start = "git diff -z --name-only main |\n    ninja-graph tests"
    _, ran = follow_recipe(graph, folder, ["meson", "setup", "build"], start)
    yield from expect("the recipe", ran.status, 0)
    yield from expect("tests", re.findall(r"^Ok: +(\d+)", ran.output, re.M), ["1"])

"""Runs the completions of both programs in bash and fish on examples/project, on paths that are hostile
to a shell, and with a program that needs more time or memory than a completion may have. In zsh the
functions that offer rules and targets are run.
"""

import os
import shutil
import signal
import subprocess
import time
from functools import partial
from unittest import mock

from lib.checks import Skipped, check, expect
from lib.options import offered_by_bash, offered_by_fish, offered_by_zsh
from lib.programs import EXAMPLES
from smoke.graph import DONE, SUBCOMMANDS

PROJECT = EXAMPLES / "project"

TOOLS = "commands inputs targets query rules compdb"
RULES = "ar cc check link phony"
LIBRARY = "out/words.o out/lines.o out/libtext.a"
WORDS_TEST = "out/words_test.o out/words_test"
TARGETS = f"{LIBRARY} out/main.o out/count {WORDS_TEST} test"
SOURCES = "main.c text/lines.c text/words.c text/words_test.c"
FILES = "build.ninja rules.ninja text"

# The words before the cursor and the one at it, and the offers in its place.
LINES = [
    (["-t", ""], TOOLS),
    (["-t", "co"], "commands compdb"),
    (["-t", "commands", ""], TARGETS),
    (["-t", "commands", "out/words"], "out/words.o out/words_test.o out/words_test"),
    (["-tcommands", "out/c"], "out/count"),
    (["-t", "commands", "--take", "2", "te"], "test"),
    (["-t", "inputs", "--", "out/l"], "out/lines.o out/libtext.a"),
    (["-t", "query", ""], f"{TARGETS} {SOURCES}"),
    (["-t", "query", "main.c", "text/w"], "text/words.c text/words_test.c"),
    (["-t", "compdb", ""], RULES),
    (["-t", "compdb", "-x", "c"], "cc check"),
    (["-t", "targets", ""], "all depth rule"),
    (["-t", "targets", "rule", ""], RULES),
    (["-t", "targets", "rule", "li"], "link"),
    (["-t", "targets", "all", ""], ""),
    (["-t", "rules", ""], ""),
    (["-f", ""], FILES),
    (["-f", "../hello/build.ninja", "-t", "commands", ""], "hello.o greet.o hello"),
    (["-f../hello/build.ninja", "-t", "targets", "rule", ""], "cc link phony"),
    (["-f", "nothing", "-t", "compdb", ""], ""),
    # files where no target fits, for FILE^
    (["-t", "commands", "bu"], "build.ninja"),
    (["-f", "nothing", "-t", "inputs", ""], FILES),
]
# Paths with a space, and with text that a shell would run.
HOSTILE = "rule r\n  command = c\nbuild a$ b: r\nbuild $$(touch$ run): r\nbuild `touch$ run`: r\n"


# The same for ninja-graph, whose options smoke.graph compares with its help.
GRAPH_LINES = [
    ([""], " ".join(SUBCOMMANDS)),
    (["a"], "affected audit"),
    (["--v"], "--version"),
    (["affected", ""], ""),
    (["affected", "--rule", ""], RULES),
    (["affected", "--rule", "ar", "--rule", "c"], "cc check"),
    (["affected", "-C", "../hello", "--rule", ""], "cc link phony"),
    (["affected", "-C..", "-f", "hello/build.ninja", "--rule", ""], "cc link phony"),
    (["affected", "--source-dir", "te"], "text"),
    (["affected", "-C", "te"], "text"),
    (["affected", "-f", ""], FILES),
    (["json", ""], ""),
    (["draw", "out/words_"], "out/words_test.o out/words_test"),
    (["draw", "--limit", "3", "te"], "test"),
    (["draw", "--limit", ""], ""),
    (["why", "te"], "test"),
    (["why", "test", "out/l"], "out/lines.o out/libtext.a"),
    (["why", "-C", "../hello", ""], "hello.o greet.o hello"),
    # files where no target fits
    (["why", "test", "bu"], "build.ninja"),
]


def graph_lines():
    """These lines, and the options of each subcommand."""
    yield from GRAPH_LINES
    for name, (options, _) in SUBCOMMANDS.items():
        long = [option for option in options if option.startswith("--")]
        yield [name, "--"], " ".join([*long, "--dyndep", "--deps", "--deps-log-file", "--help"])


def links(folder, programs):
    """A directory in which a shell finds these programs by their names."""
    found_first = folder / "bin"
    found_first.mkdir()
    for name, program in programs.items():
        (found_first / name).symlink_to(program.path)
    return str(found_first)


def lines_differ(offered, programs, lines, name):
    for words, wanted in lines:
        # `--` ends the options, and fish does not offer it
        found = set(offered(words, PROJECT, programs, name)) - {"--"}
        if found != set(wanted.split()):
            yield f"after {name} {' '.join(words)!r} it offers {found}"


def explain_differs(offered, program, folder, hostile):
    """The words that a shell offers and should not, or does not offer."""
    programs, project = links(folder, {"ninja-explain": program}), folder / "project"
    project.mkdir()
    (project / "build.ninja").write_text(HOSTILE)
    found = set(offered(["-t", "commands", ""], project, programs))
    if found != hostile or (project / "run").exists():
        yield f"it offers {found} as hostile targets"
    yield from lines_differ(offered, programs, LINES, "ninja-explain")


def graph_differs(offered, program, graph, folder):
    # the program itself is not asked; that it has these options is checked beside its help
    programs = links(folder, {"ninja-explain": program})
    yield from expect("its help", graph.run(["--help"], folder).status, DONE)
    yield from lines_differ(offered, programs, graph_lines(), "ninja-graph")


@check(needs=["bash"])
def bash(program, folder):
    return explain_differs(offered_by_bash, program, folder, {"a b"})


@check(needs=["bash"])
def bash_for_graph(program, graph, folder):
    return graph_differs(offered_by_bash, program, graph, folder)


@check(needs=["fish"])
def fish(program, folder):
    return explain_differs(offered_by_fish, program, folder, {"a b", "$(touch run)", "`touch run`"})


@check(needs=["fish"])
def fish_for_graph(program, graph, folder):
    return graph_differs(offered_by_fish, program, graph, folder)


def zsh_differs(program, folder, name):
    programs = links(folder, {"ninja-explain": program})
    for function, wanted in ("rules", RULES), ("targets", TARGETS):
        found = set(offered_by_zsh(function, PROJECT, programs, name))
        yield from expect(f"{name}, {function}", found, set(wanted.split()))


@check(needs=["zsh"])
def zsh(program, folder):
    return zsh_differs(program, folder, "ninja-explain")


@check(needs=["zsh"])
def zsh_for_graph(program, folder):
    return zsh_differs(program, folder, "ninja-graph")


# ---- limits

# Programs in place of ninja-explain: one waits for the terminal and then for ever, whatever signal asks
# it to end, one takes 2 GB of memory, and one writes without an end. If they are not limited, the first
# two offer `unlimited`, and the last one never ends.
GREEDY = {
    "hangs": "trap '' TERM\ncat /dev/tty\nsleep 1000\necho unlimited",
    "takes memory": "exec python3 -c 'bytearray(2 << 30); print(\"unlimited: cc\")'",
    "writes": "exec yes \"$(head -c 4000 /dev/zero | tr '\\0' x)\"",
}
# How long a completion may take on a busy machine, where a program has 3 seconds, and one more to end.
PATIENCE = 30
# Lines after which ninja-explain has to list rules or targets, and the same functions of zsh.
ASKING = [
    ("ninja-explain", ["-t", "compdb", ""]),
    ("ninja-explain", ["-t", "commands", ""]),
    ("ninja-graph", ["affected", "--rule", ""]),
    ("ninja-graph", ["why", ""]),
]
ASKING_ZSH = [(name, it) for name in ("ninja-explain", "ninja-graph") for it in ("rules", "targets")]


def is_running(pid):
    """Whether a process runs. One that ended may still have to be waited for by its parent."""
    try:
        with open(f"/proc/{pid}/stat") as file:
            return file.read().rpartition(")")[2].split()[0] != "Z"
    except FileNotFoundError:
        return False


def greedy(folder, lines):
    """A directory with a program of these lines, and the file to which it writes its number."""
    found_first, pids = folder / "greedy", folder / "pids"
    shutil.rmtree(found_first, ignore_errors=True)
    found_first.mkdir()
    pids.write_text("")
    program = found_first / "ninja-explain"
    program.write_text(f"#!/bin/sh\necho $$ >> '{pids}'\n{lines}\n")
    program.chmod(0o755)
    return str(found_first), pids


def limit_fails(offers, folder, lines):
    """The problems of a completion, a function of a directory with programs, if it asks this program."""
    programs, pids = greedy(folder, lines)
    start = time.monotonic()
    try:
        found = offers(programs)
    except subprocess.TimeoutExpired:
        found = ["unlimited"]
    if time.monotonic() - start > PATIENCE or any("unlimited" in it for it in found):
        yield f"it is not limited: {time.monotonic() - start:.0f} seconds"
    numbers = pids.read_text().split()
    yield from expect("the program was run", bool(numbers), True)
    for number in filter(is_running, numbers):
        os.kill(int(number), signal.SIGKILL)
        yield "the program still runs"


def asking_fails(offered, lines, programs):
    """The problems of these completions with programs that are within limits."""
    for name, words in lines:
        found = set(offered(words, PROJECT, programs, name))
        wanted = RULES if words == "rules" or "compdb" in words or "--rule" in words else TARGETS
        yield from expect(f"{name} {words}", found, set(wanted.split()))


def limits_fail(offered, lines, program, folder):
    """The problems of these completions with greedy programs, and with the program itself."""
    if not shutil.which("timeout"):
        raise Skipped("there is no timeout")
    if wrong := list(asking_fails(offered, lines, links(folder, {"ninja-explain": program}))):
        yield from wrong
        return
    for name, words in lines:
        for kind, text in GREEDY.items():
            offers = partial(offered, words, folder, name=name)
            yield from (f"{name} {words}, {kind}: {it}" for it in limit_fails(offers, folder, text))


@check(needs=["bash"])
def limits_of_bash(program, folder):
    return limits_fail(offered_by_bash, ASKING, program, folder)


@check(needs=["fish"])
def limits_of_fish(program, folder):
    return limits_fail(offered_by_fish, ASKING, program, folder)


@check(needs=["zsh"])
def limits_of_zsh(program, folder):
    return limits_fail(offered_by_zsh, ASKING_ZSH, program, folder)


@check(needs=["bash"])
def bash_without_timeout(program, folder):
    """Where there is no `timeout`, a completion offers the same."""
    programs = links(folder, {"ninja-explain": program})
    for name in "bash", "sed", "head":
        (folder / "bin" / name).symlink_to(shutil.which(name))
    with mock.patch.dict(os.environ, PATH=programs):
        yield from asking_fails(offered_by_bash, ASKING, programs)

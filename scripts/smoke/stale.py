"""Compares what ninja-graph's `stale` lists with what Ninja would run.

Random projects are built by Ninja, with random histories in which files, commands and logs change. Then
`ninja -n` tells in a copy of the directory which edges it would run. In other histories sources are removed:
those that the manifest names, that a log or a depfile names, or that are validations. There Ninja may refuse
to build, and so has `stale`.
"""

import itertools
import random
import re
import shutil
from collections import Counter

from lib.checks import check
from lib.histories import NINJA, History
from lib.programs import DONE, EXAMPLES, FAULT, LOOK
from lib.projects import MAIN, write_cmake, write_files
from lib.runnable_builds import random_project
from smoke.dirty import ANOTHER, COMMAND, SHOWN, copied, too_few, would_run
from smoke.graph import with_sources

COMPARISONS = 1_000
STATES_OF_SEED = 7
COMMAND_LINE = re.compile(r"^  command = .*$", re.M)
# At least how many comparisons there are, and how many of them with stale edges and without.
LEAST = {"comparisons": COMPARISONS, "something": 400, "nothing": 50}
# How many states have a missing source, and at least how often Ninja refuses to build in them, lists edges, and has
# nothing to do.
REMOVALS = 400
LEAST_OF_REMOVALS = {"refusals": 100, "something": 40, "nothing": 10}
# How Ninja and ninja-graph refuse to build without a source, alone or for the edge with an output.
MISSING = re.compile(r"'([^']*)'(?:, needed by '([^']*)',)? missing and no known rule to make it$", re.M)
# A source that an edge only validates.
NOTE = "note"


class ChangedHistory(History):
    """A history in which commands change too."""

    def change_command(self):
        """A rule has another command, which does the same."""
        text = (self.folder / MAIN).read_text()
        lines = [*COMMAND_LINE.finditer(text)]
        if not lines:
            return "nothing"
        end = self.chance.choice(lines).end()
        return self.write(MAIN, f"{text[:end]} && : {self.chance.random()}{text[end:]}")

    def changes(self):
        return [
            self.touch_source, self.age_file, self.edit_source, self.remove_output, self.touch_output,
            self.spoil_depfile, self.spoil_log, self.change_command, self.build_some, self.build,
        ]


def answer(graph, history, folder):
    """What is stale for all outputs of which Ninja can tell whether it would run their edges."""
    targets = [path for edge in history.told_edges() for path in edge.outputs]
    return graph.run(["stale", "--no-manifest", "-f", ANOTHER, "--", *targets], folder).as_text()


def compared(graph, seed, history, counts):
    """What is wrong with the answer in this state."""
    with copied(history.folder) as copy:
        runs = would_run(history, copy)
        if not runs:
            counts["Ninja fails"] += 1
            return
        ending = answer(graph, history, copy)
    if ending.error:
        # A dyndep file may change, or a log was not read to its end.
        counts["caveats"] += 1
        return
    counts["comparisons"] += 1
    counts["something" if runs.edges else "nothing"] += 1
    lines = ending.output.splitlines()
    status = LOOK if runs.edges else DONE
    if {*lines} != runs.edges or len(lines) != len({*lines}) or ending.status != status:
        yield f"seed {seed}, history {history.told}\nNinja would run {runs.edges}\nanswer {ending}"


def states_differ(graph, folder, first):
    """Compares the states of every second seed."""
    counts = Counter()
    for seed in itertools.count(first, 2):
        chance = random.Random(seed)
        history = ChangedHistory(chance, random_project(chance), folder / "made")
        history.step(history.build)
        for _ in range(STATES_OF_SEED):
            history.step(*history.changes())
            yield from compared(graph, seed, history, counts)
        shutil.rmtree(folder / "made")
        if 2 * counts["comparisons"] >= COMPARISONS:
            break
    yield from too_few(counts, {name: number // 2 for name, number in LEAST.items()})


# Two checks, as each runs on one processor.
@check(needs=["ninja"])
def states(graph, folder):
    return itertools.islice(states_differ(graph, folder, 0), SHOWN)


@check(needs=["ninja"])
def other_states(graph, folder):
    return itertools.islice(states_differ(graph, folder, 1), SHOWN)


# ---- missing sources


def removed_source(history, folder):
    """Removes a source, if any, in a copy of the directory, and returns its path."""
    path = history.one_of([path for path in history.project.sources() if path != "build.in"])
    if path:
        (folder / path).unlink()
    return path


def with_validations(chance, project):
    """The project, where edges name validations: a source, or what other edges make."""
    project.files[NOTE] = ""
    for edge in chance.sample(project.build.edges, 2):
        edge.validations = [chance.choice([NOTE, *project.outputs()])]
    for path in {MAIN, "build.in"} & {*project.files}:
        project.files[path] = project.manifest()
    return project


def is_old():
    """Ninja before 1.12 has a phony edge for each file that a log or a depfile names. So it does not refuse to build
    without a source that the manifest names too. On the other hand it refuses to build without one that a dyndep file
    alone names."""
    version = NINJA.run(["--version"], ".").as_text().output.split(".")
    return (int(version[0]), int(version[1])) < (1, 12)


def discovered_paths(folder):
    """The paths that depfiles or the deps log name."""
    texts = [file.read_text(errors="replace") for file in folder.rglob("*.d")]
    log = NINJA.run(["-f", ANOTHER, "-t", "deps"], folder).as_text().output
    return {word.rstrip(":") for text in [*texts, log] for word in text.split()}


def is_version_apart(history, folder, source, wanted):
    """Whether versions of Ninja differ about a missing source, so that only one of `stale` and Ninja refuses to build."""
    if not is_old() or bool(source) == bool(wanted):
        return False
    stated = {path for edge in history.project.build.edges for path in [*edge.paths(), *edge.validations]}
    return source in discovered_paths(folder) if source else wanted not in stated


def asked_of_ninja(history, folder):
    """How Ninja ends for all outputs of which it can tell."""
    targets = [path for edge in history.told_edges() for path in edge.outputs]
    shutil.copy(folder / MAIN, folder / ANOTHER)
    return NINJA.run(["-n", "-v", "-f", ANOTHER, *targets], folder, NINJA_STATUS="").as_text()


def refused_source(ending):
    """The missing source that a refusal names, if it is one."""
    found = MISSING.search(ending.error) if ending.status == FAULT and not ending.output.strip() else None
    return found and found[1]


def wrong_refusal(history, folder, removed, ran, ending, counts):
    """Whether one of them refuses to build, and the other one not; or for want of another source."""
    source, refused = refused_source(ending), MISSING.search(ran.error)
    wanted = refused and refused[1]
    if is_version_apart(history, folder, source, wanted):
        counts["versions differ"] += 1
        return False
    counts["refusals"] += bool(wanted)
    return source != wanted or source not in (None, removed)


def wrong_list(ran, ending, counts):
    """Whether the edges differ, where both list them."""
    edges, lines = {*COMMAND.findall(ran.output)}, ending.output.splitlines()
    counts["something" if edges else "nothing"] += 1
    status = LOOK if edges else DONE
    return {*lines} != edges or len(lines) != len({*lines}) or ending.status != status


def compared_without(graph, seed, history, counts):
    """What is wrong with the answer in this state, in which a source is missing."""
    with copied(history.folder) as copy:
        removed = removed_source(history, copy)
        ran, ending = asked_of_ninja(history, copy), answer(graph, history, copy)
        if ran.status != DONE and not MISSING.search(ran.error):
            counts["Ninja fails"] += 1
        elif ending.status == LOOK and ending.error:
            counts["caveats"] += 1
        elif is_wrong(history, copy, removed, ran, ending, counts):
            yield f"seed {seed}, history {history.told}, without {removed}\nNinja {ran}\nanswer {ending}"


def is_wrong(history, folder, removed, ran, ending, counts):
    """Whether Ninja and `stale` differ where both know an answer."""
    counts["comparisons"] += 1
    if wrong_refusal(history, folder, removed, ran, ending, counts):
        return True
    return ran.status == DONE and not refused_source(ending) and wrong_list(ran, ending, counts)


def removals_differ(graph, folder, first):
    """Compares the states without some sources of every second seed."""
    counts = Counter()
    for seed in itertools.count(first, 2):
        chance = random.Random(seed)
        history = ChangedHistory(chance, with_validations(chance, random_project(chance)), folder / "made")
        history.step(history.build)
        for _ in range(STATES_OF_SEED):
            history.step(*history.changes())
            yield from compared_without(graph, seed, history, counts)
        shutil.rmtree(folder / "made")
        if 2 * counts["comparisons"] >= REMOVALS:
            break
    yield from too_few(counts, {name: number // 2 for name, number in LEAST_OF_REMOVALS.items()})


@check(needs=["ninja"])
def removals(graph, folder):
    return itertools.islice(removals_differ(graph, folder, 0), SHOWN)


@check(needs=["ninja"])
def other_removals(graph, folder):
    return itertools.islice(removals_differ(graph, folder, 1), SHOWN)


# ---- first reasons

# What `-d explain` says, as `--why` has it.
EXPLANATIONS = {
    r"output (\S+) doesn't exist": r"\1: \1 is missing",
    r"output (\S+) older than most recent input (\S+) \(.*": r"\1: \2 is newer",
    r"deps for '(\S+)' are missing": r"\1: its discovered inputs are not known",
    r"command line changed for (\S+)": r"\1: the command changed",
    r"command line not found in log for (\S+)": r"\1: \1 is not in the build log",
    r"recorded mtime of (\S+) older than most recent input (\S+) \(.*": r"\1: \2 is newer than the last build",
}
STALE_INPUT = re.compile(r"^(\S+): (\S+) is stale$", re.M)


def reasons_differ(graph, folder, state):
    """The first reasons, beside those of Ninja: an edge with a stale input, which Ninja calls dirty, has no other."""
    explained = NINJA.run(["-n", "-d", "explain"], folder).as_text().error.splitlines()
    told = graph.run(["stale", "--why"], folder).as_text().output
    wanted = set()
    for line in (it.removeprefix("ninja explain: ") for it in explained):
        wanted |= {re.sub(text, ours, line) for text, ours in EXPLANATIONS.items() if re.fullmatch(text, line)}
    found = {line for line in told.splitlines() if not STALE_INPUT.match(line)}
    if found != wanted or not found:
        yield f"{state}: {sorted(found)} is not {sorted(wanted)}"
    dirty = {line.removeprefix("ninja explain: ").removesuffix(" is dirty") for line in explained}
    lost = {path for _, path in STALE_INPUT.findall(told)} - dirty
    if lost:
        yield f"{state}: Ninja does not call {sorted(lost)} dirty"


@check(needs=["ninja", "cmake", "cc"])
def first_reasons(graph, folder):
    """In examples/project, and in a project of CMake after changes of sources, outputs, logs and commands."""
    yield from reasons_differ(graph, with_sources(folder), "examples/project")
    build, sources = folder / "build", folder / "sources"
    shutil.copytree(EXAMPLES / "cmake", sources)
    write_cmake(build, sources)
    changes = {
        "a header": lambda: (sources / "include/text/words.h").touch(),
        "an object": lambda: next(build.rglob("words.c.o")).unlink(),
        "a library": lambda: (build / "libtext.a").unlink(),
        "the deps log": lambda: (build / ".ninja_deps").unlink(),
        "the build log": lambda: (build / ".ninja_log").unlink(),
        "a command": lambda: write_files(build, {MAIN: with_another_command(build / MAIN)}),
    }
    for state, change in changes.items():
        NINJA.run([], build)
        change()
        yield from reasons_differ(graph, build, state)


def with_another_command(manifest):
    """A manifest of CMake in which the edge of an object has another command."""
    return manifest.read_bytes().replace(b"  DEP_FILE = ", b"  FLAGS = -DANOTHER\n  DEP_FILE = ", 1)

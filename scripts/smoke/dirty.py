"""Compares what ninja-graph's `affected --deps` finds with what Ninja would run.

Random projects are built by Ninja, with random histories. Then `ninja -n` tells in copies of the
directory which edges it would run, and which after some sources were touched. Those that come on top
are affected by the change, as are those of which Ninja does not know what they discover; and Ninja
runs whatever is affected.
"""

import contextlib
import itertools
import random
import re
import shutil
from collections import Counter, namedtuple

from lib.checks import check
from lib.histories import LOGS, NINJA, History, latest, set_time
from lib.programs import DONE, LOOK
from lib.projects import MAIN
from lib.runnable_builds import DYNDEPS, random_project, small_project

COMPARISONS = 1_000
CHANGES_OF_STATE = 4
# How many problems a check reports at most.
SHOWN = 3
WORDS = ["affected", "--deps"]
# Files whose change cannot be trusted: what they will say is not known.
SAYING_MORE = {MAIN, *DYNDEPS, *("./" + path for path in DYNDEPS)}
# The manifest by another name: no edge makes it, so Ninja does not stop after regenerating it.
ANOTHER = "another.ninja"
COMMAND = re.compile(r"^: (\S+);", re.M)
# How `-d explain` reports that Ninja does not know what an edge discovers.
UNKNOWN = re.compile(
    r"deps for '(.*)' are missing|stored deps info out of date for '(.*)' \("
    r"|depfile '(.*)\.d' is missing|expected depfile '.*' to mention '(.*)', got '"
)
# At least how many of 1,000 comparisons have an answer that can be trusted and edges that the change
# adds; and in how many of these something is in play.
LEAST = {
    "comparisons": 1_000, "trusted added edges": 500, "generated header": 100, "depfile alone": 100,
    "dyndep file": 100, "removed output": 100, "unknown": 50, "missing dyndep file": 40,
    "joined beside a missing one": 20,
}

# A state of a project: its seed, its history, and what Ninja would run.
State = namedtuple("State", "seed history before")
# The first outputs of the edges that Ninja would run, and of those of which it does not know what
# they discover.
Runs = namedtuple("Runs", "edges unknown")


@contextlib.contextmanager
def copied(folder):
    """A copy of a directory, with the times of its files."""
    copy = folder.with_name("copy")
    shutil.copytree(folder, copy)
    try:
        yield copy
    finally:
        shutil.rmtree(copy)


def would_run(history, folder):
    """What Ninja would run for all outputs of which it can tell, in a directory that it may change. `None`
    if it fails."""
    targets = [path for edge in history.told_edges() for path in edge.outputs]
    if not targets:
        return None
    shutil.copy(folder / MAIN, folder / ANOTHER)
    words = ["-n", "-v", "-d", "explain", "-f", ANOTHER, *targets]
    ran = NINJA.run(words, folder, NINJA_STATUS="").as_text()
    if ran.status != DONE:
        return None
    unknown = {"".join(parts) for parts in UNKNOWN.findall(ran.output + ran.error)}
    return Runs({*COMMAND.findall(ran.output)}, unknown)


def touch(folder, paths):
    """Touches files, which become newer than all others."""
    time = latest(folder) + 10**9
    for path in paths:
        set_time(folder / path, time)


def answer(graph, folder, paths, *where):
    text = "".join(f"{path}\n" for path in paths)
    return graph.run([*WORDS, *where], folder, text.encode()).as_text()


def in_play(history, added):
    """What is to be met often, of these edges and this directory."""
    edges = [edge for path, edge in history.project.firsts().items() if path in added]
    outputs = [path for edge in history.project.edges() for path in edge.outputs]
    return {
        "generated header": any(history.finds_generated_header(edge) for edge in edges),
        "depfile alone": any(edge.rule == "cc_file" for edge in edges),
        "dyndep file": any("dyndep" in edge.bound for edge in edges),
        "removed output": any(not (history.folder / path).exists() for path in outputs),
        "missing dyndep file": bool(edges and history.missing_dyndeps()),
        "joined beside a missing one": bool(history.missing_dyndeps()) and any("dyndep" in it.bound for it in edges),
    }


def added_by(state, after):
    return after.edges - state.before.edges


def described(state, paths, after, ending):
    """All that is needed to see why an answer differs."""
    history = state.history
    files = "".join(f"---- {name}\n{text}" for name, text in history.project.files.items())
    return (
        f"seed {state.seed}, changed {paths}\nhistory {history.told}\nbefore {state.before}\n"
        f"after {after}\nanswer {ending}\n{files}"
    )


def is_trusted(history, ending):
    """Whether an answer says that it is complete, but for dyndep files that are not there."""
    told = {f"{path}: a dyndep file, may change" for path in history.missing_dyndeps()}
    return ending.status == (LOOK if told else DONE) and {*ending.error.splitlines()} == told


def wrong_edges(state, after, ending, whatever_status):
    """The edges that the answer lacks, and those that it should not have."""
    history = state.history
    told = {edge.outputs[0] for edge in history.told_edges()} & {*history.project.firsts()}
    answered = {*ending.output.splitlines()} & told
    if not is_trusted(history, ending) and not whatever_status:
        return set(), set()
    # The time of a file by the name of a phony output hides its inputs from Ninja.
    is_exact = is_trusted(history, ending) and not history.has_phony_file()
    missing = added_by(state, after) | history.project.made_from(after.unknown)
    return missing & told - answered, answered - after.edges if is_exact else set()


def blind_to(history, ending, paths):
    """What may say something else, though the answer is trusted."""
    missing = {*history.missing_dyndeps()} if ending.status == DONE else set()
    return missing | (SAYING_MORE & {*paths} if is_trusted(history, ending) else set())


def compared(graph, state, paths, counts, whatever_status=False):
    """What is wrong with the answer for these changes. It is the same before them and after them."""
    folder = state.history.folder
    ending = answer(graph, folder, paths)
    with copied(folder) as copy:
        touch(copy, paths)
        again = answer(graph, copy.parent, paths, "-C", copy.name)
        after = would_run(state.history, copy)
    if not after:
        counts["Ninja fails"] += 1
        return
    counts["comparisons"] += 1
    counts["status", ending.status] += 1
    missing, extra = wrong_edges(state, after, ending, whatever_status)
    added = added_by(state, after)
    blind = blind_to(state.history, ending, [*paths, *added])
    if missing or extra or blind or again != ending:
        wrong = f"lacks {missing}, has {extra}, trusts {blind}, then {again}"
        yield f"{wrong}\n{described(state, paths, after, ending)}"
    counts["added edges"] += bool(added)
    counts["unknown"] += ending.status == DONE and bool(after.unknown)
    if added and is_trusted(state.history, ending):
        counts["trusted added edges"] += 1
        counts.update(name for name, value in in_play(state.history, added).items() if value)


def state_now(name, history):
    """The state of a directory, or none if Ninja fails in it."""
    with copied(history.folder) as copy:
        before = would_run(history, copy)
    return before and State(name, history, before)


def random_changes(history):
    """Some sources, most of them such as an edge knows."""
    is_any = history.chance.random() < 0.05
    return history.some_of(history.project.sources() if is_any else history.known_files())


def too_few(counts, least):
    """What was met less often than it has to be."""
    for name, number in least.items():
        if counts[name] < number:
            yield f"{name}: only {counts[name]} of {number}, in {dict(counts)}"


def random_states(seeds, folder, counts):
    """The states after the histories of these seeds, one after another in this directory."""
    for seed in seeds:
        chance = random.Random(seed)
        history = History(chance, random_project(chance), folder)
        history.run()
        if state := state_now(seed, history):
            yield state
        else:
            counts["Ninja fails"] += 1
        shutil.rmtree(folder)


def histories_differ(graph, folder, first):
    """Compares half of the answers, in the states of every second seed."""
    counts = Counter()
    for state in random_states(range(first, COMPARISONS, 2), folder / "made", counts):
        for _ in range(CHANGES_OF_STATE):
            yield from compared(graph, state, random_changes(state.history), counts)
        if 2 * counts["comparisons"] >= COMPARISONS:
            break
    least = {name: number * COMPARISONS // 2_000 for name, number in LEAST.items()}
    yield from too_few(counts, least)


# Two checks, as each runs on one processor.
@check(needs=["ninja"])
def histories(graph, folder):
    return itertools.islice(histories_differ(graph, folder, 0), SHOWN)


@check(needs=["ninja"])
def other_histories(graph, folder):
    return itertools.islice(histories_differ(graph, folder, 1), SHOWN)


# ---- logs that are cut off


def prefixes_differ(graph, history, log, sizes, counts):
    """Compares the answers with the log cut off at these sizes. Whatever the status is, the answer has
    all edges that the change adds."""
    file = history.folder / log
    whole = file.read_bytes()
    for size in sizes:
        file.write_bytes(whole[:size])
        if state := state_now(f"of {log} cut to {size} bytes", history):
            paths = history.some_of(history.project.sources())
            yield from compared(graph, state, paths, counts, whatever_status=True)
    file.write_bytes(whole)


def logged_history(folder):
    """A project that was built twice, with other includes. Its log has two records of an edge, and the
    output is so old that the first one counts where the second is cut off."""
    history = History(random.Random(0), small_project(), folder)
    history.step(history.build)
    time = (folder / "o0.o").stat().st_mtime_ns
    history.write("s0.c", '#include "h2.h"\n#include "gen0.h"\n')
    history.step(history.build)
    set_time(folder / "o0.o", time)
    set_time(folder / "s0.c", time)
    return history


def small_prefixes_differ(graph, folder):
    history, counts = logged_history(folder / "made"), Counter()
    sizes = range(history.size(LOGS[0]) + 1)
    yield from prefixes_differ(graph, history, LOGS[0], sizes, counts)
    yield from too_few(counts, {"comparisons": 200, "added edges": 100})


def random_prefixes_differ(graph, folder):
    counts = Counter()
    for history in (state.history for state in random_states(range(20), folder / "made", counts)):
        for log in [history.project.log(name) for name in LOGS]:
            if size := history.size(log):
                sizes = history.chance.sample(range(size), min(size, 4))
                yield from prefixes_differ(graph, history, log, sizes, counts)
    yield from too_few(counts, {"comparisons": 100, "added edges": 30})


@check(needs=["ninja"])
def every_prefix_of_a_log(graph, folder):
    return itertools.islice(small_prefixes_differ(graph, folder), SHOWN)


@check(needs=["ninja"])
def prefixes_of_logs(graph, folder):
    """Logs of random histories, cut off at random bytes."""
    return itertools.islice(random_prefixes_differ(graph, folder), SHOWN)

"""Compares what ninja-graph's `affected --deps` lists with what Ninja makes again after a change that makes
a test fail, in projects of CMake and Meson with a test of each kind; and with CMake the tests that
`tests --deps` chooses with those that fail.
"""

from lib.checks import check, expect
from lib.programs import DONE
from lib.test_kinds import (
    CHANGES,
    MESON_CHANGES,
    MESON_SOURCES,
    SOURCES,
    built_by_cmake,
    built_by_meson,
    failed_in_ctest,
    failed_in_meson,
    run,
)

CHANGE = ["--deps", "--source-dir", "../source"]
WORDS = ["affected", "--ignore-unknown", *CHANGE]
TESTS = ["tests", "--ctest", "tests.json", *CHANGE]


def logged(build):
    """The lines of Ninja's log, each of which names what was made."""
    return (build / ".ninja_log").read_text().splitlines()


def made_again(build):
    """Builds, and returns the outputs that were made."""
    before = len(logged(build))
    run(["ninja"], build)
    return {line.split("\t")[3] for line in logged(build)[before:]}


def change_differs(graph, source, build, name, contents):
    """What Ninja makes again after a change of a source, beyond what is affected."""
    ending = graph.run(WORDS, build, f"{name}\n".encode()).as_text()
    yield from expect(f"{name}, its status", (ending.status, ending.error), (DONE, ""))
    (source / name).write_text(contents)
    made = made_again(build)
    yield from expect(f"{name}, made again", made - {*ending.output.splitlines()}, set())


def choice_differs(name, ending, failed):
    """What `tests` chose for a change, compared with the tests that failed after it."""
    chosen = {*ending.output.splitlines()}
    yield from expect(f"{name}, status of tests", (ending.status, ending.error), (DONE, ""))
    yield from expect(f"{name}, failed and not chosen", failed - chosen, set())
    for test, is_chosen in {"never_built": True, "untouched": False}.items():
        yield from expect(f"{name}, whether {test} is chosen", test in chosen, is_chosen)


def changes_differ(graph, project, changes, sources, failed_in):
    source, build = project
    for test, (name, contents) in changes.items():
        chosen = graph.run(TESTS, build, f"{name}\n".encode()).as_text()
        yield from change_differs(graph, source, build, name, contents)
        failed = failed_in(build)
        yield from expect(f"{name}, whether {test} fails", test in failed, True)
        if (build / "tests.json").exists():
            yield from choice_differs(name, chosen, failed)
        (source / name).write_text(sources[name])
        run(["ninja"], build)


@check(needs=["cmake", "ctest", "ninja", "cc"])
def of_cmake(graph, folder):
    yield from changes_differ(graph, built_by_cmake(folder), CHANGES, SOURCES, failed_in_ctest)


@check(needs=["meson", "ninja", "cc"])
def of_meson(graph, folder):
    project = built_by_meson(folder)
    yield from changes_differ(graph, project, MESON_CHANGES, MESON_SOURCES, failed_in_meson)

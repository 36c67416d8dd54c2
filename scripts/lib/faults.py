"""The endings that a run may have: the text of each fault with the element at its place, and what
stands on the outputs with each status."""

import posixpath
import re

from lib.programs import DONE, FAULT, LOOK, USAGE
from lib.projects import MAIN
from lib.tools import DEPFILE_FAULT, EXPLAIN, GRAPH, PROGRAMS

LINE_START = rb"(?<![^\n])"
WORD = rb"[^ :|\n]"
ANYTHING = rb""
NAMED = None
# The text of each fault with a place, and the element that has to be at that place: a pattern, or the name that
# the fault quotes.
PLACED_FAULTS = [
    (rb"unexpected byte", rb"\0|\r(?!\n)"),
    (rb"tabs are not allowed, use spaces", rb"\t"),
    (rb"bad \$-escape \(literal \$ must be written as \$\$\)", rb"\$"),
    (
        rb"expected (?:statement|rule name|pool name|build command name|variable name)",
        rb"(?![\w. -])",
    ),
    (rb"expected (?:path|target name)", rb"[:|\r\n]|\Z"),
    (rb"expected newline", rb"(?! |\r?\n|\Z)"),
    (rb"expected ':'", rb"(?![: ])"),
    (rb"expected '='", rb"(?![= ])"),
    (rb"unexpected indent", LINE_START + rb" "),
    (rb"expected 'command =' line", LINE_START + rb"rule"),
    (rb"rspfile and rspfile_content need to be both specified", LINE_START + rb"rule"),
    (rb"unexpected variable '([\w.-]+)'", NAMED),
    (rb"expected 'depth =' line", LINE_START + rb"pool"),
    (rb"expected 'ninja_dyndep_version = 1'", LINE_START + rb"[\w.-]|\Z"),
    (rb"not a dyndep statement", ANYTHING),
    (rb"empty path", rb"\$[\w{-]"),
    (rb"invalid pool depth", rb"depth"),
    (rb"unknown build rule '([\w.-]+)'", NAMED),
    (rb"duplicate rule '([\w.-]+)'", NAMED),
    (rb"duplicate pool '([\w.-]+)'", NAMED),
    (rb"unknown pool name '.*'", LINE_START + rb"build"),
    (rb"multiple rules generate .*", WORD),
    (rb"unknown target '.*'", WORD),
    (rb"dyndep '.*' is not an input", LINE_START + rb"build"),
    (rb"cycle in rule variables at '[a-z_]+'", LINE_START + rb"build"),
    (
        rb"ninja_required_version .* is newer than 1\.12",
        LINE_START + rb"ninja_required_version",
    ),
    (rb"cannot (?:find|read) '.*'", ANYTHING),
    (rb"path is not UTF-8", ANYTHING),
    (rb"more than 32 files open", WORD),
    (rb"more than 65536 files opened", WORD),
    (rb"dependency cycle through '.*'(?:, by the inputs of .* and of depfiles)?", LINE_START + rb"build"),
    (rb"'.*' not mentioned in its dyndep file '.*'", LINE_START + rb"build"),
    (rb"multiple statements for '.*'", WORD),
    (rb"'.*' has no dyndep binding for this file", WORD),
    (rb"text is not UTF-8", LINE_START + rb"build"),
]
OF_BOTH = [
    rb"empty path",
    rb"unknown target '.*'",
    rb"'.*' has no out edge",
    rb"mark out of range",
    rb"out of memory",
]
PLACELESS_FAULTS = {
    EXPLAIN: OF_BOTH,
    GRAPH: [
        *OF_BOTH,
        # of the directory of `-C`, and of standard input
        rb"cannot .*: .*",
        rb".*: (?:there is no such file|the file could not be read|not a deps log)",
        rb".*: deps log of version \d+",
        rb".*: (?:%b)" % DEPFILE_FAULT,
        rb"the path of the deps log is not UTF-8",
        rb"unknown rule '.*'",
        rb"'.*' missing and no known rule to make it",
        rb"'.*', needed by '.*', missing and no known rule to make it",
    ],
}
# Whole lines; those of ninja-graph that begin with `error` are `clap`'s.
USAGE_FAULTS = {
    EXPLAIN: [
        rb"ninja-explain: cannot read the arguments\n",
        rb"ninja-explain: unknown tool '.*'\n",
        rb"ninja-explain: option -[\w-]+ does not go with tool '\w+'\n",
        rb"ninja-explain: not a number: '.*'\n",
        rb"ninja-explain: bad mark '.*'\n",
        rb"ninja-explain: wrong words for tool '\w+'\n",
    ],
    GRAPH: [
        rb"ninja-graph: cannot read the arguments\n",
        rb"ninja-graph: bad mark '.*'\n",
        rb"ninja-graph: '' of --source-dir is no directory\n",
        rb"ninja-graph: '.*' of --ignore has (?:an unclosed \[ at byte \d+|a \\ at the end|a reversed range at byte \d+)\n",
        rb"ninja-graph: '.*' of --base is not absolute\n",
        rb"ninja-graph: --json excludes --why\n",
        rb"ninja-graph: --top excludes --by-rule\n",
        rb"ninja-graph: --top excludes --dead\n",
        rb"ninja-graph: --by-rule excludes --dead\n",
        rb"ninja-graph: unknown kind '.*'; ninja-graph audit --list lists the kinds\n",
        rb"ninja-graph: --deps-log is now --deps, which reads depfiles and times too\n",
        rb"error: (?!out of memory).*\n",
    ],
}


def is_one_of(text, patterns):
    return any(re.fullmatch(pattern, text, re.S) for pattern in patterns)


def matches_at(text, line, column, pattern):
    """Whether the place is in the text, and the pattern matches there."""
    starts = [0, *(found.end() for found in re.finditer(rb"\n", text))]
    if not 1 <= line <= len(starts):
        return False
    start = starts[line - 1]
    end = starts[line] - 1 if line < len(starts) else len(text)
    place = start + column - 1
    return start <= place <= end and bool(re.compile(pattern, re.S).match(text, place))


def placed_fault_is_wrong(name, place, files):
    """The problem, if any, of the part of a fault line after the name of the file."""
    parts = re.fullmatch(rb":(\d+):(\d+): (.*)", place, re.S)
    if not parts:
        return "it has no line and column"
    line, column, text = int(parts[1]), int(parts[2]), parts[3]
    for pattern, wanted in PLACED_FAULTS:
        if found := re.fullmatch(pattern, text, re.S):
            wanted = re.escape(found[1]) if wanted is NAMED else wanted
            if matches_at(files[name], line, column, wanted):
                return None
    return "there is no such fault at this place"


def files_of(words, files):
    """The files of a run by the names with which faults begin: that of `-f` counts as it is given. A main
    file that does not exist is empty."""
    main = words[words.index("-f") + 1] if "-f" in words else MAIN
    return {MAIN: b"", **files, main: files.get(posixpath.normpath(main), b"")}


def fault_is_wrong(name, error, files):
    """The problem, if any, of the standard error of a run on the files that ended in a fault, by the name
    of the program."""
    if not error.endswith(b"\n"):
        return "the last line has no line feed"
    fault, start = error[:-1], name.encode() + b": "
    if fault.startswith(start):
        known = is_one_of(fault.removeprefix(start), PLACELESS_FAULTS[name])
        return None if known else "there is no such fault"
    named = [file for file in files if fault.startswith(file.encode() + b":")]
    if not named:
        return "it is not in a file of the run"
    wrong = [placed_fault_is_wrong(file, fault[len(file.encode()) :], files) for file in named]
    return None if None in wrong else wrong[0]


def look_is_wrong(rows, words, ending):
    """The problem, if any, with a run of these arguments that ended with status 3."""
    looks = rows.looks_of(words)
    if not looks:
        return "it has no status 3"
    for output, error in looks:
        if is_one_of(ending.output, [output]) and is_one_of(ending.error, [error]):
            return None
    return "there is nothing to look at"


def ending_is_wrong(name, words, ending, files):
    """The problem, if any, with the ending of a run on the files, by the name of the program and its
    arguments. Standard output did not fail."""
    status, output, error = ending
    if status == DONE:
        return "something is on standard error" if error else None
    if status == FAULT:
        return fault_is_wrong(name, error, files_of(words, files))
    if status == USAGE:
        known = is_one_of(error, USAGE_FAULTS[name])
        return None if known and not output else "there is no such usage fault"
    if status == LOOK:
        return look_is_wrong(PROGRAMS[name], words, ending)
    return "it ran out of time" if status is None else f"it ended with status {status}"

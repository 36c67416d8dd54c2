"""Tries each tool and option with the program, as the rows in lib/tools.py have them."""

from lib.checks import check
from lib.options import END, EVERY_TOOL, TOOLS, options_of, options_of_clap
from lib.programs import USAGE

VALUES = {"-f": "build.ninja", "--take": "1", "--resume": "start", "--directory": "here"}
REFUSED = ["-h", "--help", "-V", "--version", "-C", "--nothing"]
UNREAD = b"ninja-explain: cannot read the arguments\n"


def problem_of(program, folder, tool, option):
    """The problem of an option beside a tool, if any."""
    value = [VALUES[option]] if option in VALUES else []
    ran = program.run([option, *value, "-t", tool, *TOOLS[tool].words], folder)
    if option in EVERY_TOOL | options_of(tool):
        refused = f"with {tool}, {option} is refused: {ran.error.decode().rstrip()}"
        return refused if ran.status == USAGE else None
    foreign = f"ninja-explain: option {option} does not go with tool '{tool}'\n"
    if (ran.status, ran.error) == (USAGE, foreign.encode()):
        return None
    return f"with {tool}, {option} is not refused as an option of another tool"


@check
def tools(program, folder):
    for name, tool in TOOLS.items():
        status, _, error = program.run(["-t", name, END, *tool.words], folder)
        if status == USAGE:
            yield f"{name} is refused: {error.decode().rstrip()}"
    unknown = (USAGE, b"", b"ninja-explain: unknown tool 'nothing'\n")
    if program.run(["-t", "nothing"], folder) != unknown:
        yield "it has a tool called nothing"


@check
def options(program, folder):
    for tool in TOOLS:
        for option in sorted(options_of_clap() - {"-t"}):
            yield from filter(None, [problem_of(program, folder, tool, option)])
    for option in REFUSED:
        if program.run([option, "-t", "commands"], folder) != (USAGE, b"", UNREAD):
            yield f"it accepts {option}"

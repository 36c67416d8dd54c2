"""The options of ninja-explain, and how shells complete its arguments and ninja-graph's."""

import fcntl
import os
import pty
import re
import subprocess
import termios
from functools import partial

from lib.programs import CRATES, ROOT, SECONDS
from lib.tools import EXPLAIN, PROGRAMS

COMMAND_LINE = CRATES / "nj_args/specs/CommandLine.antt"
BASH = ROOT / "completions/ninja-explain.bash"
FISH = ROOT / "completions/ninja-explain.fish"
ZSH = ROOT / "completions/_ninja-explain"

TOOLS = PROGRAMS[EXPLAIN].tools
EVERY_TOOL = set(PROGRAMS[EXPLAIN].every)
# `--` ends the options, and is not one itself.
END = "--"


def options_of(tool):
    return set(TOOLS[tool].options)


def compare(where, what, found, wanted):
    """The problem if a place has other words than it should."""
    for word in sorted(found - wanted):
        yield f"{where}: the program does not have {what} {word}"
    for word in sorted(wanted - found):
        yield f"{where}: {what} {word} is missing"


def options_of_clap():
    """The options that the definition passes to `clap`."""
    kinds = r'(?:short|long)_(?:option|flag) \(codes "(--?[\w-]+)"\)'
    return set(re.findall(kinds, COMMAND_LINE.read_text()))


# ---- shells

BASH_SCRIPT = """\
source "$1"; shift
COMP_WORDS=("$@"); COMP_CWORD=$(($# - 1))
"_${1//-/_}"
printf '%s\\n' "${COMPREPLY[@]}"
"""
FISH_SCRIPT = 'source $argv[1]; complete -C "$argv[2]"'
# Calls the function of a completion that offers rules or targets, with stand-ins for those of zsh, and
# prints the array that it offers.
ZSH_SCRIPT = """\
_arguments() { return 0 }
_call_program() { shift; eval "$*" }
_wanted() { print -rl -- ${(P)argv[-1]} }
_files() { return 0 }
CURRENT=2; words=(program '')
source "$1"
folder=. file=build.ninja
"$2"
"""


def ask(shell, folder, programs):
    """The output of a shell with a terminal of its own; `programs` is a directory in which it finds
    programs first."""
    path = os.pathsep.join(filter(None, [programs, os.environ["PATH"]]))
    environment = {**os.environ, "PATH": path}
    how = {"cwd": folder, "env": environment, "stdin": subprocess.DEVNULL, "timeout": SECONDS}
    master, terminal = pty.openpty()
    try:
        how |= {"start_new_session": True, "preexec_fn": partial(fcntl.ioctl, terminal, termios.TIOCSCTTY, 0)}
        ran = subprocess.run(shell, capture_output=True, text=True, **how)
    finally:
        os.close(master)
        os.close(terminal)
    if ran.returncode or ran.stderr:
        raise RuntimeError(f"the completion of {shell[0]} fails: {ran.stderr.rstrip()}")
    return list(filter(None, ran.stdout.split("\n")))


def offered_by_bash(words, folder, programs=None, name="ninja-explain"):
    """The words that bash offers in place of the last one."""
    file = ROOT / f"completions/{name}.bash"
    return ask(["bash", "-c", BASH_SCRIPT, "bash", file, name, *words], folder, programs)


def offered_by_zsh(function, folder, programs=None, name="ninja-explain"):
    """The words that a function of a completion in zsh offers, such as `rules`."""
    file, function = ROOT / f"completions/_{name}", f"_{name.replace('-', '_')}_{function}"
    return ask(["zsh", "-f", "-c", ZSH_SCRIPT, "zsh", file, function], folder, programs)


def offered_by_fish(words, folder, programs=None, name="ninja-explain"):
    """The same, without descriptions."""
    file, line = ROOT / f"completions/{name}.fish", " ".join([name, *words])
    found = ask(["fish", "--no-config", "-c", FISH_SCRIPT, file, line], folder, programs)
    return [offer.split("\t")[0].rstrip("/") for offer in found]

#!/usr/bin/env python3
"""Writes a Ninja file that is hard for a careless reader to standard output: shapes.py SHAPE N

    inputs      one edge with N inputs
    chain       N edges, each needing the next one: a walk from the first goes N deep
    shared      N edges that all use one file
    wide        N edges with 30 inputs each, as programs of many objects have: the first needs 30
                others, each of these 30 more, and so on
    defaults    an edge with N outputs, and one `default` statement that names them all
    references  N edges of a rule whose command has 1,000 references and 10 KB
    bound       N edges with their own description. The rule's refers to the command, and the
                command refers back N times, which is not a cycle for these edges
    pool-line   N edges of a rule whose `pool` line has N references to an empty variable
    long-lines  an edge with N inputs, whose `pool` and `dyndep` lines have at least N references
    cycles      N edges: cycles of two, joined by chains of 998; the chains come first
    late-cycle  the chain, whose last two edges need each other

The last two have a dependency cycle, and `cycle_line` returns its fault. The same N gives the same
bytes.
"""

import sys

REFERENCES = 1000
CYCLE = 2
TRANSIT = 998
INPUTS_EACH = 30


def rule(*lines):
    return "rule cc\n" + "".join(f"  {line}\n" for line in lines)


RULE = rule("command = cc -c $in -o $out")
RULE_LINES = 2
POOL = "nothing =\npool few\n  depth = 4\n"


def source(number):
    return f"src/file_{number:07}.c"


def built(number):
    return f"out/file_{number:07}.o"


def edge(number, needed):
    return f"build {built(number)}: cc {needed}\n"


def inputs(count):
    yield RULE
    yield f"build out/all: cc {' '.join(map(source, range(count)))}\n"


def chain(count):
    yield RULE
    for number in range(count - 1):
        yield edge(number, built(number + 1))
    yield edge(count - 1, "src/first.c")


def part(number):
    return f"src/shared/libshared-257.a.p/part_{number:07}.c.o"


def wide(count):
    yield RULE
    for number in range(count):
        needed = [INPUTS_EACH * number + index + 1 for index in range(INPUTS_EACH)]
        files = [part(other) if other < count else source(other) for other in needed]
        yield f"build {part(number)}: cc {' '.join(files)}\n"


def shared(count):
    yield RULE
    for number in range(count):
        yield edge(number, "src/shared.h")


def defaults(count):
    names = " ".join(map(built, range(count)))
    yield RULE
    yield f"build {names}: cc src/all.c\n"
    yield f"default {names}\n"


def references(count):
    yield rule("command = cc " + " ".join(f"$flag_{number:03}" for number in range(REFERENCES)))
    for number in range(count):
        yield edge(number, source(number))


def bound(count):
    names = " ".join(["$description"] * count)
    yield rule(f"command = cc {names}", "description = $command")
    for number in range(count):
        yield edge(number, source(number))
        yield f"  description = CC {number}\n"


def pool_line(count):
    yield POOL + rule("command = cc -c $in -o $out", f"pool = {'$nothing' * count}few")
    for number in range(count):
        yield edge(number, source(number))


def long_lines(count):
    """The referenced variable is empty. The `dyndep` path is the last input, after N times `./`."""
    yield POOL + RULE
    yield f"build out/all: cc {' '.join(map(source, range(count)))}\n"
    yield f"  pool = {'$nothing' * count}few\n"
    yield f"  dyndep = {'$nothing./' * count}{source(count - 1)}\n"


def cycles_of(count):
    return count // (CYCLE + TRANSIT)


def in_transit(cycle, step):
    return f"out/transit_{cycle:04}_{step:03}"


def in_cycle(cycle, step):
    return f"out/cycle_{cycle:04}_{step}"


def transit(cycle, cycles):
    """A chain that needs the next cycle. The chain of the last cycle needs a source."""
    for step in range(TRANSIT - 1):
        yield f"build {in_transit(cycle, step)}: cc {in_transit(cycle, step + 1)}\n"
    end = in_cycle(cycle + 1, 0) if cycle + 1 < cycles else "src/first.c"
    yield f"build {in_transit(cycle, TRANSIT - 1)}: cc {end}\n"


def cycle_and_way_out(cycle):
    yield f"build {in_cycle(cycle, 1)}: cc {in_cycle(cycle, 0)} {in_transit(cycle, 0)}\n"
    yield f"build {in_cycle(cycle, 0)}: cc {in_cycle(cycle, 1)}\n"


def cycles(count):
    """Each cycle needs a chain, and the chain needs the next cycle. All chains come first, then the
    cycles in reverse."""
    number = cycles_of(count)
    yield RULE
    for cycle in range(number):
        yield from transit(cycle, number)
    for cycle in reversed(range(number)):
        yield from cycle_and_way_out(cycle)


def late_cycle(count):
    yield RULE
    for number in range(count - 1):
        yield edge(number, built(number + 1))
    yield edge(count - 1, built(count - 2))


SHAPES = {
    "inputs": inputs,
    "chain": chain,
    "shared": shared,
    "wide": wide,
    "defaults": defaults,
    "references": references,
    "bound": bound,
    "pool-line": pool_line,
    "long-lines": long_lines,
    "cycles": cycles,
    "late-cycle": late_cycle,
}


def cycle_line(shape, count):
    """The fault of the first edge on a cycle, or `None` if the shape has no cycle."""
    if shape == "cycles":
        number = cycles_of(count)
        before, output = number * TRANSIT, in_cycle(number - 1, 1)
    elif shape == "late-cycle":
        before, output = count - CYCLE, built(count - CYCLE)
    else:
        return None
    return f"build.ninja:{RULE_LINES + before + 1}:1: dependency cycle through '{output}'\n"


def write_shape(count, out, shape):
    out.writelines(SHAPES[shape](count))


if __name__ == "__main__":
    write_shape(int(sys.argv[2]), sys.stdout, sys.argv[1])

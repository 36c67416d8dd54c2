#!/usr/bin/env python3
"""Measures the cost of names that collide if hashes start from a known number:

    flood.py [--names N] PROGRAM [WORD..]

PROGRAM, with these arguments, loads build.ninja in its working directory, as `ninja-explain -t rules`
does. For each table of names it loads two files of the same size, which differ only in their names. The
names of one collide if the number is 0; they are from collisions.c, which is compiled with `cc`.
The names of the other are arbitrary. Each file is loaded five times in turn, and the best times
count. If hashes start from a number that is drawn for each run, the chosen names are like any
others, and the times are close. The aim is a ratio of at most 3.

The last case has paths of blocks that differ in all bits, or by a third of 2^64. Pairs of these collide
more often than others, for one number of some 100 million, but that makes no flood.
"""

import argparse
import itertools
import os
import subprocess
import tempfile

from runs import best, measure

ROUNDS = 5
LINES = 40
# Each byte is a character.
ENCODING = "latin-1"
SOURCE = os.path.join(os.path.dirname(os.path.abspath(__file__)), "collisions.c")


def colliding_names(folder, count, bits=12):
    """Names that collide in each table if hashes start from 0. The numbers of its groups have this
    many bits."""
    program = os.path.join(folder, "collisions")
    subprocess.run(["cc", "-O2", "-o", program, SOURCE], check=True)
    found = dict.fromkeys(TABLES, words([program, str(count), "0", str(bits)]))
    found["blocks"] = words([program, "blocks", str(count), "0", str(bits)])
    return {**found, "paths": words([program, "paths", str(count)])}


def chosen_names(folder, count, bits=12):
    """The same, and paths whose pairs collide more often than others."""
    return {**colliding_names(folder, count, bits), PAIRS: near_names(count)}


def words(command):
    """The output of a command, as words. They may contain any bytes."""
    output = subprocess.run(command, check=True, capture_output=True).stdout
    return [word.decode(ENCODING) for word in output.split(b"\n") if word]


def near_names(count):
    """Names of nine blocks of eight bytes. Each block is one of three: some bytes, the same with all
    bits flipped, and the same and a third of 2^64."""
    block = b"filename"
    blocks = [block, bytes(0xFF - byte for byte in block), bytes(byte + 0x55 for byte in block)]
    names = itertools.product((each.decode(ENCODING) for each in blocks), repeat=9)
    return ["".join(name) for name in itertools.islice(names, count)]


def other_names(count, length=10):
    return [f"n{number:0{length - 1}}" for number in range(count)]


# Each function writes a manifest that fills a table with the names, and looks them up `rounds`
# times. An edge costs more than a look-up, so for rules and pools only the last tenth of the names
# is looked up, which has the most names before it.


def of_bindings(names, rounds):
    references = "".join(f"${name}" for name in names)
    return [*(f"{name} = 1\n" for name in names), *(f"all_{line} = {references}\n" for line in range(rounds))]


def of_paths(names, rounds):
    return [f"build all_{line}: phony {' '.join(names)}\n" for line in range(rounds)]


def of_rules(names, rounds):
    edges = (f"build o{line}_{name}: {name}\n" for line in range(rounds) for name in names[-len(names) // 10 :])
    return [*(f"rule {name}\n  command = x\n" for name in names), *edges]


def of_pools(names, rounds):
    edges = (f"build o{line}_{name}: r\n  pool = {name}\n" for line in range(rounds) for name in names[-len(names) // 10 :])
    return ["rule r\n  command = x\n", *(f"pool {name}\n  depth = 1\n" for name in names), *edges]


def of_blocks(names, rounds):
    # Where a block has the names of the one before it in the same order, none is looked up.
    lines = [f"  {name} = 1\n" for name in names]
    orders = "".join(lines), "".join(reversed(lines))
    return [f"build all_{line}: phony\n{orders[line % 2]}" for line in range(rounds)]


TABLES = {"bindings": of_bindings, "paths": of_paths, "rules": of_rules, "pools": of_pools, "blocks": of_blocks}
PAIRS = "near paths"


def write(folder, lines):
    os.makedirs(folder)
    with open(os.path.join(folder, "build.ninja"), "w", encoding=ENCODING) as file:
        file.writelines(lines)


def seconds(program, folder, chosen, rounds, times):
    """The CPU times of the chosen names and of as many others, for each table, and for near
    paths."""
    for table, manifest in {**TABLES, PAIRS: of_paths}.items():
        found = []
        for kind, names in names_of_kinds(chosen[table]).items():
            place = os.path.join(folder, table, kind)
            write(place, manifest(names, rounds))
            found.append(least_seconds(program, place, times))
        yield table, *found


def names_of_kinds(chosen):
    """The chosen names, and as many others."""
    return {"chosen": chosen, "other": other_names(len(chosen), len(chosen[0]))}


def least_seconds(program, folder, times):
    """The least CPU time of several runs in a directory."""
    return best(measure({"program": program}, times, folder=folder)["program"])[1]


def main():
    parser = argparse.ArgumentParser()
    parser.add_argument("--names", type=int, default=5000)
    parser.add_argument("program")
    parser.add_argument("words", nargs=argparse.REMAINDER)
    words = parser.parse_args()
    program = [os.path.abspath(words.program), *words.words]
    with tempfile.TemporaryDirectory() as folder:
        chosen = chosen_names(folder, words.names)
        for table, flood, usual in seconds(program, folder, chosen, LINES, ROUNDS):
            print(f"{table}: {words.names} chosen names {flood:.3f} s, others {usual:.3f} s, {flood / usual:.2f} times as long")


if __name__ == "__main__":
    main()

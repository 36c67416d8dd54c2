"""Runs every tool and subcommand, with each of its options, over 100,000 edges.

In the first manifest, each edge needs the one before it. In the second, the next edge is a validation
of each edge. In the third, a dyndep file makes each edge need the one before it. In the fourth, which is for
ninja-graph alone, a deps log names a header and a generated file for each edge. What each run has to
write is computed here, and not taken from a run of the program.
"""

import hashlib
import json
import re
from functools import partial

from lib.checks import check
from lib.programs import DONE, LOOK, STOPPED, Ending, shown
from lib.projects import MAIN, write_files
from lib.random_builds import deps_log
from lib.sweeps import Sweep, lacks_runs
from lib.tools import EXPLAIN, GRAPH, LIST, MESON, run_of
from smoke import audit, draw, edge_objects
from smoke.keys import of_content, with_additions

EDGES = 100_000
HALF = EDGES // 2
# The mark after fewer commands is too long for one argument of a Linux command line.
FEWEST = 34_465
LAST = f"e{EDGES - 1}"
ALL = range(EDGES)
RULE = """\
rule mk
  command = mk $out @$out.rsp
  description = MK $out
  rspfile = $out.rsp
  rspfile_content = $in
"""
CHAIN = RULE + "build e0: mk\n" + "".join(f"build e{n}: mk e{n - 1}\n" for n in ALL[1:])
VALIDATED = (
    RULE + "".join(f"build e{n}: mk |@ e{n + 1}\n" for n in ALL[:-1]) + f"build {LAST}: mk\n"
)
DISCOVERED = RULE + "".join(f"build e{n}: mk || dd\n  dyndep = dd\n" for n in ALL)
DD = "ninja_dyndep_version = 1\nbuild e0: dyndep\n" + "".join(
    f"build e{n}: dyndep | e{n - 1}\n" for n in ALL[1:]
)
LOGGED = """\
rule cc
  command = cc $out
  deps = gcc
rule gen
  command = gen
build g: gen
""" + "".join(f"build o{n}: cc s{n}\n" for n in ALL)
FILES = {
    "a chain": {MAIN: CHAIN},
    "validations": {MAIN: VALIDATED},
    "a dyndep file": {MAIN: DISCOVERED, "dd": DD},
    "a deps log": {MAIN: LOGGED},
}
# How many lines are before the first edge of a manifest, and of the last one.
HEAD, HEAD_OF_LOGGED = RULE.count("\n"), 6


def write_log(folder):
    (folder / ".ninja_deps").write_bytes(deps_log({f"o{n}": [f"s{n}", "h", "g"] for n in ALL}))


def command(number):
    return f"mk e{number} @e{number}.rsp"


def lines(items, end="\n"):
    return "".join(f"{item}{end}" for item in items)


def commands(numbers):
    return lines(map(command, numbers))


def paths(numbers, end="\n"):
    return lines((f"e{number}" for number in numbers), end)


def sorted_paths(numbers, end="\n"):
    return lines(sorted(f"e{number}" for number in numbers), end)


def database(commands, directory):
    """The output of `compdb` for these commands, which are given by the numbers of their edges."""
    entries = (
        '\n  {\n    "directory": %s,\n    "command": %s,\n    "file": %s,\n    "output": %s\n  }'
        % tuple(json.dumps(text) for text in (directory, text, f"e{number - 1}", f"e{number}"))
        for number, text in commands.items()
    )
    return f"[{','.join(entries)}\n]\n"


def done(text):
    return DONE, text, ""


def chain_of_marks(number):
    """The mark of an edge of the chain: it has a number for each edge after it."""
    return "0" + ".0" * (EDGES - 1 - number)


def of_chain():
    """Arguments, and how the run on the chain has to end."""
    whole, needed = commands(ALL), ALL[:-1]
    unexpanded = database({number: command(number) for number in ALL[1:]}, ".")
    expanded = {number: f"mk e{number} e{number - 1}" for number in ALL[1:]}
    makers = lines(f"e{number}: mk" for number in ALL)
    middle = "e7:\n  input: mk\n    e6\n  outputs:\n    e8\n"
    yield "", done(whole)
    yield "--stdin -f main -t commands", done(whole)
    yield "-f build.ninja -t commands", done(whole)
    for options in "", "--dyndep ", "--validations ":
        yield f"-t commands {options}{LAST}", done(whole)
        yield f"-t inputs {options}{LAST}", done(sorted_paths(needed))
    yield "-t commands", done(whole)
    yield f"-t commands e{HALF}", done(commands(range(HALF + 1)))
    yield f"-t commands -s {LAST}", done(commands([EDGES - 1]))
    yield f"-t commands --resume start {LAST}", done(whole)
    yield f"-t commands --resume 0 {LAST}", done("")
    yield f"-t commands --take {EDGES} {LAST}", done(whole)
    yield f"-t commands --take 0 {LAST}", (STOPPED, "", "mark start\n")
    yield "-t inputs e0^", done("e0\n")
    yield f"-t inputs --no-shell-escape {LAST}", done(sorted_paths(needed))
    yield f"-t inputs --print0 {LAST}", done(sorted_paths(needed, "\0"))
    yield f"-t inputs --dependency-order {LAST}", done(paths(needed))
    yield (
        f"-t inputs --dependency-order --no-shell-escape --print0 --validations {LAST}",
        done(paths(needed, "\0")),
    )
    yield "-t targets", done(f"{LAST}: mk\n")
    yield "-t targets depth", done(f"{LAST}: mk\n")
    yield "-t targets depth 1", done(f"{LAST}: mk\n")
    yield "-t targets depth 2", done(f"{LAST}: mk\n  e{EDGES - 2}: mk\n")
    yield "-t targets all", done(makers)
    yield "--dyndep -t targets all", done(makers)
    yield "-t targets rule mk", done(sorted_paths(ALL))
    yield "-t targets rule nothing", done("")
    yield "-t targets rule", done("")
    yield "-t query e7", done(middle)
    yield "--dyndep -t query e6^ e7", done(middle + middle)
    yield "-t rules", done("mk\nphony\n")
    yield "-t rules -d", done("mk: MK ${out}\nphony\n")
    yield "-t compdb", done(unexpanded)
    yield "--dyndep -t compdb mk", done(unexpanded)
    yield "-t compdb nothing", done("[\n]\n")
    yield "-t compdb -x --directory /w", done(database(expanded, "/w"))
    yield from pages(chain_of_marks, LAST, (HALF, FEWEST))


def pages(mark, target, sizes):
    """Runs that stop after some commands, and runs that continue from their marks. `mark` returns
    the mark of an edge, given its number."""
    letters = {"": "", "--validations ": "v"}
    for options, letter in letters.items() if mark is chain_of_marks else [("--validations ", "v")]:
        # The letter makes the argument one byte longer.
        for taken in (size + len(letter) for size in sizes):
            text = letter + mark(taken - 1)
            first, rest = commands(ALL[:taken]), commands(ALL[taken:])
            yield (
                f"-t commands {options}--take {taken} {target}",
                (STOPPED, first, f"mark {text}\n"),
            )
            yield f"-t commands {options}--resume {text} {target}", done(rest)


def of_validations():
    """The same for the manifest with validations. No edge needs another one, and the targets grow
    by all edges that come after them."""
    yield "-t commands e0", done(commands([0]))
    yield "-t commands --validations e0", done(commands(ALL))
    yield f"-t commands --validations e{HALF}", done(commands(ALL[HALF:]))
    yield "-t commands --validations --take 0 e0", (STOPPED, "", "mark vstart\n")
    yield "-t inputs --validations e0", done("")
    yield "-t inputs --validations --dependency-order --print0 e0", done("")
    yield "-t commands -s e0", done(commands([0]))
    yield "-t targets", done(lines(f"e{number}: mk" for number in ALL))
    yield "-t targets depth 2", done(lines(f"e{number}: mk" for number in ALL))
    yield "-t targets rule", done("")
    yield "-t compdb", done("[\n]\n")
    yield (
        "-t query e7",
        done("e7:\n  input: mk\n  validations:\n    e8\n  outputs:\n  validation for:\n    e6\n"),
    )
    yield from pages(str, "e0", (1, HALF))


def of_discovery():
    """The same for the manifest with a dyndep file."""
    whole = commands(ALL)
    yield "-t commands e7", done(commands([7]))
    yield f"--dyndep -t commands {LAST}", done(whole)
    yield f"--dyndep -t commands --validations {LAST}", done(whole)
    yield "--dyndep -t commands", done(whole)
    yield f"--dyndep -t inputs {LAST}", done(lines(sorted(["dd", *(f"e{n}" for n in ALL[:-1])])))
    yield (
        "--dyndep -t targets depth 2",
        done(f"{LAST}: mk\n  e{EDGES - 2}: mk\n  dd\n"),
    )
    yield "--dyndep -t targets rule", done("dd\n")
    yield (
        "--dyndep -t query e7",
        done("e7:\n  input: mk\n    | e6\n    || dd\n  outputs:\n    e8\n"),
    )
    yield "--dyndep -t rules -d", done("mk: MK ${out}\nphony\n")
    yield "--dyndep -t targets rule mk", done(sorted_paths(ALL))


# ---- ninja-graph


def objects(edges):
    """The output of `json` for these edges, each given as what differs from an empty one."""
    empty = {**dict.fromkeys(edge_objects.KINDS, []), "discovered": "not-requested"}
    empty |= dict.fromkeys(edge_objects.VALUES, "")
    for number, (line, about) in enumerate(edges):
        place = {"file": MAIN, "line": line, "column": 1}
        whole = {"edge": number, "place": place, "rule": "", "phony": False, **empty, **about}
        yield json.dumps(whole, separators=(",", ":"))


def made(number, line, **about):
    """What `json` has of an edge of the first three manifests."""
    name = f"e{number}"
    texts = {"command": command(number), "description": f"MK {name}", "rspfile": f"{name}.rsp"}
    return line, {"rule": "mk", "outputs": [name], **texts, **about}


def objects_of_chain():
    before = ([f"e{n - 1}"] if n else [] for n in ALL)
    edges = (
        made(n, HEAD + 1 + n, inputs=inputs, rspfile_content="".join(inputs))
        for n, inputs in zip(ALL, before)
    )
    return lines(objects(edges))


def objects_of_validations():
    after = ([f"e{n + 1}"] if n < ALL[-1] else [] for n in ALL)
    edges = (made(n, HEAD + 1 + n, validations=paths) for n, paths in zip(ALL, after))
    return lines(objects(edges))


def objects_of_discovery():
    before = ([f"e{n - 1}"] if n else [] for n in ALL)
    about = {"order_only_inputs": ["dd"], "dyndep": "dd"}
    edges = (
        made(n, line_of_discovery(n), implicit_inputs=inputs, **about) for n, inputs in zip(ALL, before)
    )
    return lines(objects(edges))


def objects_with_log(logged, state):
    """The objects of the last manifest, to which a log adds the inputs of each edge but the first."""
    known = {"discovered": state}
    edges = [(HEAD_OF_LOGGED, {"rule": "gen", "outputs": ["g"], "command": "gen", **known})]
    for n in ALL:
        about = {"rule": "cc", "outputs": [f"o{n}"], "inputs": [f"s{n}"], "discovered_inputs": logged}
        edges.append((HEAD_OF_LOGGED + 1 + n, {**about, "command": f"cc o{n}", "deps": "gcc", **known}))
    return lines(objects(edges))


def field(text):
    return b"%d:%b" % (len(text), text)


def key(texts, output, inputs):
    """The key of an edge: its command and response file, its output, and of each input the kind, the
    path, and the key of its maker."""
    fields = [*map(field, texts), b"1:", field(output)]
    fields += [field(part) for of_input in inputs for part in of_input]
    return hashlib.sha256(b"".join(fields)).digest()


def keys_of(kind, others=()):
    """The lines of `keys` for edges that each have the one before as an input of this kind."""
    before, found = b"", []
    for n in ALL:
        name, path = b"e%d" % n, b"e%d" % (n - 1)
        inputs = [(kind, path, before)] if n else []
        content = path if n and not kind else b""
        before = key([command(n).encode(), name + b".rsp", content], name, [*inputs, *others])
        found.append(f"{before.hex()} e{n}")
    return found


def with_texts(lines_of_keys, *texts):
    """Lines of `keys`, with texts in every key."""
    for line in lines_of_keys:
        digits, name = line.split()
        yield f"{with_additions(bytes.fromhex(digits), texts).hex()} {name}"


def objects_of_keys(lines_of_keys):
    """The objects of `keys --json` for the chain."""
    for n, line in enumerate(lines_of_keys):
        before = f"e{n - 1}"
        yield {
            "key": line.split()[0],
            "outputs": [f"e{n}"],
            "implicit_outputs": [],
            "inputs": [{"path": before, "kind": "explicit"}] if n else [],
            "response_file": f"e{n}.rsp",
            "response": before if n else "",
            "command": command(n),
            "depfile": "",
            "pool": "",
            "generator": False,
            "discovered": None,
            "bases": [],
        }


def read_objects(text):
    return [json.loads(line) for line in text.splitlines()]


def stale_object(output, reason, file):
    """A line of `stale --json`, where no times are compared."""
    values = {"output": output, "reason": reason, "file": file, "time": None, "file_time": None}
    return json.dumps(values, separators=(",", ":"))


def untimed(count):
    """The first line of `times` without a build log."""
    return f"commands: {count}, unknown: {count}, sum: 0.000 s, critical path: 0.000 s\n"


def chains(line_of, kind, most, least=0):
    """The lines of `why` from one edge down to another."""
    numbers = range(most, least, -1)
    return lines(f"{MAIN}:{line_of(n)}:1: mk: e{n} needs e{n - 1} ({kind})" for n in numbers)


def drawn(numbers, dashed=""):
    """The edges of a drawing of the chain, as smoke/draw.py reads them."""
    return {f"e{n - 1}{dashed} > mk > e{n}" if n else " > mk > e0" for n in numbers}


def line_of_chain(number):
    return HEAD + 1 + number


def line_of_discovery(number):
    return HEAD + 1 + 2 * number


def graph_of_chain():
    """Arguments, and how the run on the chain has to end; also how its output is read before it is
    compared."""
    after, keys = paths(ALL[8:]), keys_of(b"")
    nines = [n for n in ALL[8:] if str(n).startswith("9")]
    yield "affected < e7", done(after)
    yield "affected --rule mk --no-phony --source-dir x/.. < e7", done(after)
    yield "affected --prefix e9 < e7", done(paths(nines))
    yield f"affected < {' '.join(f'e{n}' for n in ALL)}", done(paths(ALL[1:]))
    yield f"affected < {' '.join(f'x{n}' for n in ALL)}", (LOOK, "", lines(f"x{n}" for n in ALL))
    yield "affected --ignore none < e7", done(after)
    yield "affected -z < e7", (LOOK, "", "e7\n\n")
    yield "affected", (LOOK, "", "ninja-graph: no changed path was given\n")
    yield "affected --allow-empty", done("")
    # the empty list of keys has none of the commands
    yield "affected --since /dev/null --base /w < e7", done(paths(ALL))
    yield "audit", done("")
    yield "audit --all", done("")
    yield "audit --json --only unused-variable --except unused-rule", done("")
    listed = [(kind, "on" if is_default else "off") for kind, is_default in audit.KINDS.items()]
    yield "audit --list", done(listed), listed_kinds
    yield "draw", done(drawn(ALL)), draw.edges
    yield f"draw --fold e{HALF}", done(drawn(ALL[: HALF + 1])), draw.edges
    yield "draw --limit 5", done(drawn(ALL[-2:])), draw.edges
    yield "draw --inputs 0 e9", done({" > mk\\nand 1 more > e9"}), draw.edges
    yield f"draw --affected e{HALF}", done(drawn(ALL[HALF + 1 :])), draw.edges
    yield "json -C . -f build.ninja", done(objects_of_chain)
    yield "keys", done(lines(keys))
    yield f"keys --base /w e{HALF}", done(lines(keys[: HALF + 1]))
    yield f"keys --with gcc e{HALF}", done(lines(with_texts(keys[: HALF + 1], b"gcc")))
    content = of_content(CHAIN.encode())
    yield f"keys --with-file build.ninja e{HALF}", done(lines(with_texts(keys[: HALF + 1], content)))
    yield "keys --all", done(lines(keys))
    yield "keys --json", done(list(objects_of_keys(keys))), read_objects
    yield f"keys --take {EDGES}", done(lines(keys))
    yield "keys --take 0", (LOOK, "", "mark start\n")
    for taken in HALF, FEWEST:
        mark = chain_of_marks(taken - 1)
        yield f"keys --take {taken}", (LOOK, lines(keys[:taken]), f"mark {mark}\n")
        yield f"keys --resume {mark}", done(lines(keys[taken:]))
    yield "stale", (LOOK, paths(ALL), "")
    stale = lines(f"e{n}: e{n - 1} is stale" for n in range(1, HALF + 1))
    yield f"stale --why --no-manifest e{HALF}", (LOOK, "e0: e0 is missing\n" + stale, "")
    objects = lines(stale_object(f"e{n}", "stale-input", f"e{n - 1}") for n in range(1, HALF + 1))
    yield f"stale --json e{HALF}", (LOOK, stale_object("e0", "missing-output", "e0") + "\n" + objects, "")
    yield "times", done(untimed(EDGES))
    yield f"times --top 2 e{HALF}", done(untimed(HALF + 1) + "unknown e0\nunknown e1\n")
    counts = {"commands": EDGES, "unknown": EDGES, "sum": 0, "critical_path": 0}
    yield "times --by-rule", done(untimed(EDGES) + f"0.000 s mk, commands: {EDGES}, slowest: unknown e0\n")
    yield "times --dead", done("")
    yield "times --json", done(json.dumps(counts, separators=(",", ":")) + "\n")
    tests = f"tests --ctest {LIST}"
    yield f"{tests} < e7", done("counts\nalways\n")
    words = "--source-dir x/.. --ignore none --ignore-unknown --allow-empty --format lines --why"
    yield f"{tests} {words} < e7", done("counts\tunnamed\nalways\tunnamed\n")
    yield f"{tests} --since /dev/null --base /w < e7", done("counts\nalways\n")
    yield f"{tests} -z < e7", (LOOK, "counts\nalways\n", "e7\n\n")
    yield f"{tests} --json --unnamed skip < e7", done("")
    yield f"tests --meson {MESON} --format meson < e7", done(":counts\n:always\n")
    yield f"why {LAST} e0", done(partial(chains, line_of_chain, "explicit", ALL[-1]))
    yield f"why e{HALF} e7", done(chains(line_of_chain, "explicit", HALF, 7))
    yield f"why --no-order-only e{HALF} e7", done(chains(line_of_chain, "explicit", HALF, 7))
    yield f"why e0 {LAST}", (LOOK, "", "")


def listed_kinds(text):
    return re.findall(r"^(.+), (on|off) by default: \w.*$", text, re.M)


def graph_of_validations():
    """The same for the manifest with validations."""
    chain = (f"{MAIN}:{line_of_chain(n)}:1: mk: e{n} needs e{n + 1} (validation)" for n in ALL[:-1])
    yield "affected < e7", done("")
    yield "audit", done("")
    yield "draw e7", done({" > mk > e7"}), draw.edges
    yield "json", done(objects_of_validations)
    yield f"keys e0 {LAST}", done(lines(isolated_keys([0, ALL[-1]])))
    yield f"why e0 {LAST}", (LOOK, "", "")
    yield f"why --validations e0 {LAST}", done(lines(chain))


def isolated_keys(numbers):
    for n in numbers:
        name = b"e%d" % n
        yield f"{key([command(n).encode(), name + b'.rsp', b''], name, []).hex()} e{n}"


def graph_of_discovery():
    """The same for the manifest with a dyndep file."""
    may_change = "dd: a dyndep file, may change\n"
    yield "affected < dd", (LOOK, paths(ALL), may_change)
    yield "affected < e7", (LOOK, "", may_change)
    yield "affected --dyndep < e7", done(paths(ALL[8:]))
    # the edge of an output that changed is built again
    yield "affected --deps < e7", done(paths(ALL[7:]))
    yield "audit --dyndep --except missing-source", done("")
    wanted = {f"dd > mk > e{n}" if not n else f"e{n - 1} dd > mk > e{n}" for n in ALL}
    yield "draw --dyndep", done({edge.replace("dd >", "|| dd >") for edge in wanted}), draw.edges
    yield "json --dyndep", done(objects_of_discovery)
    yield "keys --dyndep", done(lines(keys_of(b"|", [(b"||", b"dd", b"")])))
    yield f"why --dyndep {LAST} e0", done(partial(chains, line_of_discovery, "implicit", ALL[-1]))
    yield f"why {LAST} e0", (LOOK, "", "")


def graph_of_log():
    """The same for the manifest with a deps log."""
    found = [(HEAD_OF_LOGGED + 1 + n, n) for n in ALL]
    undeclared = lines(f"{MAIN}:{line}:1: undeclared input 'g'" for line, _ in found)
    missing = lines(f"{MAIN}:{line}:1: missing source 's{n}'" for line, n in found)
    about = '"column":1,"kind":"undeclared-input","name":"g"}'
    in_json = lines(f'{{"file":"{MAIN}","line":{line},{about}' for line, _ in found)
    outputs = lines(f"o{n}" for n in ALL)
    arrows = {f"s{n} ~ h ~ g > cc > o{n}" for n in ALL}
    of_gen = key([b"gen", b"", b""], b"g", [])
    of_cc = key([b"cc o7", b"", b""], b"o7", [(b"", b"s7", b"")])
    yield "affected < h", (LOOK, "", "h\n")
    for word in "--deps", "--deps-log-file=.ninja_deps":
        yield f"affected {word} < h", done(outputs)
        yield f"affected {word} --ignore-unknown < none g", done(lines(["g"]) + outputs)
        yield f"audit {word} --only undeclared-input", (LOOK, undeclared, "")
        yield f"audit {word} --json --except missing-source", (LOOK, in_json, "")
        yield f"draw {word} --affected h", done(arrows), draw.edges
        yield f"draw {word} --inputs 1 o3", done({"s3 > cc\\nand 2 more > o3"}), draw.edges
        yield f"json {word}", done(partial(objects_with_log, ["h", "g"], "known"))
        yield f"keys {word} o7", done(lines([f"{of_gen.hex()} g", f"{of_cc.hex()} o7"]))
        line = f"{MAIN}:{HEAD_OF_LOGGED + 10}:1: cc: o9 needs h (discovered)"
        yield f"why {word} o9 h", done(lines([line]))
    yield "audit --only missing-source", (LOOK, missing, "")
    yield "json", done(partial(objects_with_log, [], "not-requested"))


MANIFESTS = {
    EXPLAIN: {"a chain": of_chain, "validations": of_validations, "a dyndep file": of_discovery},
    GRAPH: {
        "a chain": graph_of_chain,
        "validations": graph_of_validations,
        "a dyndep file": graph_of_discovery,
        "a deps log": graph_of_log,
    },
}


def try_run(program, folders, task):
    """Makes a run. Returns the count, and the problems."""
    run, (status, output, error), read = task
    is_input = not run.words or "--stdin" in run.words
    ran = program.run(run.words, folders[run.project], CHAIN.encode() if is_input else run.changed)
    wanted = Ending(status, output() if callable(output) else output, error)
    found = ran.as_text()
    found = found._replace(output=read(found.output)) if read else found
    if found == wanted:
        return {"runs": 1}, []
    parts = [part for part, it, its in zip(Ending._fields, found, wanted) if it != its]
    return {"runs": 1}, [f"{run}: {', '.join(parts)} differ: {shown(ran)}"]


def tasks_of(manifests):
    """Each run, how it has to end, and how its output is read before it is compared."""
    for name, of_manifest in manifests.items():
        for line, wanted, *read in of_manifest():
            yield run_of(name, line), wanted, read[0] if read else None


@check(alone=True)
def large_graphs(programs, folder, jobs):
    folders = {name: folder / name for name in FILES}
    for name, files in FILES.items():
        write_files(folders[name], {file: text.encode() for file, text in files.items()})
    write_log(folders["a deps log"])
    for name, program in programs.items():
        sweep, tasks = Sweep("sizes", name), list(tasks_of(MANIFESTS[name]))
        sweep.wrong += lacks_runs(name, (run for run, _, _ in tasks))
        sweep.in_parallel(jobs, partial(try_run, program, folders), tasks)
        yield from sweep.problems()

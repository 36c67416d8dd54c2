"""Random builds of a few edges, whose manifest and meaning are both known."""

import re
from dataclasses import dataclass, field

SOURCES = [f"s{number}" for number in range(6)]
HEADERS = [f"h{number}.h" for number in range(6)]
KINDS = ["", "|", "||"]


@dataclass
class Edge:
    """A build statement. Inputs come with the bars that the manifest has before their kind."""

    rule: str
    outputs: list
    inputs: list
    validations: list = field(default_factory=list)
    bound: dict = field(default_factory=dict)
    line: int = 0

    def is_phony(self):
        return self.rule == "phony"

    def paths(self):
        return [path for _, path in self.inputs]

    def text(self):
        words = ["build", *self.outputs[:1], *(["|", *self.outputs[1:]] if self.outputs[1:] else [])]
        words[-1] += ":"
        words.append(self.rule)
        for kind in KINDS:
            found = [path for bars, path in self.inputs if bars == kind]
            words += [kind, *found] if kind and found else found
        words += ["|@", *self.validations] if self.validations else []
        return [" ".join(words), *(f"  {name} = {value}" for name, value in self.bound.items())]


@dataclass
class Build:
    """A manifest: rules and pools by name, each with its lines; edges; and defaults."""

    rules: dict
    pools: list
    edges: list
    defaults: list
    places: dict = field(default_factory=dict)

    def text(self):
        """The manifest. Records the places of its statements."""
        lines = []
        for name in self.pools:
            self.places["pool", name] = len(lines) + 1
            lines += [f"pool {name}", "  depth = 1"]
        for name, bound in self.rules.items():
            self.places["rule", name] = len(lines) + 1
            lines += [f"rule {name}", *(f"  {key} = {value}" for key, value in bound.items())]
        for edge in self.edges:
            edge.line = len(lines) + 1
            lines += edge.text()
        lines += [f"default {' '.join(self.defaults)}"] if self.defaults else []
        return "".join(f"{line}\n" for line in lines)

    def value(self, edge, name):
        """The value of a variable of an edge. Values refer to others by words such as `$in`."""
        if name == "in":
            return " ".join(path for bars, path in edge.inputs if not bars)
        if name == "out":
            return edge.outputs[0]
        value = edge.bound.get(name, self.rules.get(edge.rule, {}).get(name, ""))
        return re.sub(r"\$(\$|\w+)", lambda it: "$" if it[1] == "$" else self.value(edge, it[1]), value)

    def makers(self):
        return {output: edge for edge in self.edges for output in edge.outputs}


def some(chance, items, most):
    return chance.sample(items, min(len(items), chance.randint(0, most)))


def random_rules(chance):
    """Rules that read some variables, some of them with a depfile or a response file."""
    rules = {}
    for number in range(chance.randint(1, 4)):
        name = f"r{number}"
        words = chance.choice(["$in $out $v0 $x", "$in $out $v1 $x", "$in $out $v2 $x", "$x"])
        rules[name] = {"command": f"c{chance.randint(0, 2)} {words}"}
        if chance.random() < 0.5:
            rules[name]["depfile"] = "$out.d"
        if chance.random() < 0.5:
            rules[name]["deps"] = "gcc"
        if chance.random() < 0.3:
            rules[name] |= {"rspfile": "$out.rsp", "rspfile_content": "$in $y"}
    return rules


def random_build(chance, name_files):
    """A random build. `name_files` gives the text in which a command names some of these files."""
    rules, pools = random_rules(chance), [f"p{number}" for number in range(chance.randint(0, 3))]
    count = chance.randint(2, 9)
    outputs = [[f"o{number}", f"o{number}b"][: chance.randint(1, 2)] for number in range(count)]
    every_output = [path for paths in outputs for path in paths]
    edges = []
    for number, made in enumerate(outputs):
        earlier = [path for paths in outputs[:number] for path in paths]
        named = chance.choices([*SOURCES, *earlier], k=chance.randint(0, 4))
        inputs = sorted(((chance.choice(KINDS), path) for path in named), key=lambda it: it[0])
        edge = Edge(chance.choice([*rules, "phony"]), made, inputs)
        edge.validations = some(chance, every_output, 1)
        if not edge.is_phony():
            edge.bound = {name: "1" for name in some(chance, ["v0", "v1", "v2", "w0", "w1"], 3)}
            edge.bound |= {name: name_files(chance, every_output) for name in some(chance, "xy", 2)}
            edge.bound |= {"pool": name for name in some(chance, pools, 1)}
        edges.append(edge)
    return Build(rules, pools, edges, some(chance, every_output, 2))


# ---- deps logs

OPENING = b"# ninjadeps\n\4\0\0\0"
DEPENDENCIES = 1 << 31


def number(value):
    return value.to_bytes(4, "little")


def deps_log(outputs, encoding="utf-8"):
    """A deps log with the inputs of each of these outputs."""
    named = dict.fromkeys(path for output, inputs in outputs.items() for path in [output, *inputs])
    numbers = {path: index for index, path in enumerate(named)}
    records = [OPENING]
    for path, index in numbers.items():
        padded = path.encode(encoding) + b"\0" * (-len(path.encode(encoding)) % 4)
        records.append(number(len(padded) + 4) + padded + number(~index & 0xFFFFFFFF))
    for output, inputs in outputs.items():
        words = [numbers[output], 1, 0, *(numbers[path] for path in inputs)]
        records.append(number(DEPENDENCIES | 4 * len(words)) + b"".join(map(number, words)))
    return b"".join(records)

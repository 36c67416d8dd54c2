"""Hostile manifests, with arguments for a program. Each is determined by a number, its seed.

Most of them are real projects with bytes and lines that are deleted, doubled, swapped or spliced.
Others include themselves, have long lines, deep or wide graphs, values that grow, dyndep files that
are mostly wrong, or names that collide if hashes start from 0. For ninja-graph the same manifests come
with hostile changed paths, and with deps logs and depfiles, most of which are damaged.
"""

import random
import shutil
import sys
import tempfile

from lib.generated import project
from lib.programs import EXAMPLES, ROOT
from lib.projects import MAIN, PROJECTS, files_below
from lib.random_builds import OPENING, deps_log
from lib.tools import EXPLAIN, GRAPH, PROGRAMS

sys.path.append(str(ROOT / "bench"))
import flood  # noqa: E402

COLLIDING, BITS = 400, 6
# Bytes and words that have a meaning in manifests.
BYTES = [b"\0", b"\t", b"\r", b"\r\n", b"\n", b" ", b"  ", b"\xff", b"\xc3\xa9", b"\xef\xbb\xbf"]
ESCAPES = [b"$", b"$\n", b"$\r\n  ", b"$$", b"$ ", b"$:", b"${", b"$in", b"${in_newline}", b"$x"]
SIGNS = [b":", b"|", b"||", b"|@", b"|@@", b"=", b"#", b"}", b"/", b"..", b"./", b"'", b'"', b"^"]
NUMBERS = [b"0", b"-1", b"2147483648", b"99999999999999999999"]
KEYWORDS = [b"build", b"rule", b"pool", b"default", b"include", b"subninja", b"phony", b"console"]
VARIABLES = [b"command", b"depth", b"dyndep", b"restat", b"rspfile", b"ninja_dyndep_version = 1"]
PIECES = [*BYTES, *ESCAPES, *SIGNS, *NUMBERS, *KEYWORDS, *VARIABLES]
LINES = """\
include build.ninja
subninja build.ninja
include .
include dd
subninja s
include /dev/null
include nothing
include ${x}
rule phony
pool console
  dyndep = dd
  pool = $in
  command = $command
  command = mk $in $out
  depth = $x
  restat = 1
  rspfile = $out.rsp
  rspfile_content = $in_newline
default $x
build: phony
build x: phony || x
build o$: p: mk
build a b | c: mk d | e || f |@ g
rule mk
x = $x$x$x
ninja_required_version = 1.9.9
ninja_dyndep_version = 1""".encode().split(b"\n")
# Parts that are repeated to make long lines, and the text around them.
LONG = [b"a", b"/", b"../", b"a/../", b"$x", b"$ ", b"$$", b"a ", b"$\n", b"'"]
AROUND_LONG = [
    b"build o: phony %s",
    b"build o: phony | %s",
    b"build %s: phony",
    b"x = %s",
    b"%s = x",
    b"rule %s\n  command = c",
    b"rule r\n  command = %s\nbuild o: r",
    b"pool %s\n  depth = 1",
    b"include %s",
    b"default %s",
    b"# %s",
    b"ninja_required_version = 1.%s",
]
AROUND_GROWN = [
    b"rule r\n  command = c $v%d\nbuild o: r\n",
    b"rule r\n  command = c\nbuild o: r\n  pool = $v%d\n",
    b"build $v%d: phony\n",
    b"include $v%d\n",
    b"ninja_required_version = $v%d\n",
]
HOSTILE_WORDS = ["", "^", "a^^", "..", ".", "/", "./a", "a/..", "\xff", "é", "-", "a b", "x" * 5000]
MARKS = ["start", "0", "0.0", "0.1.0", "1.0", "0." * 1000 + "0", "", "00", "0..0", "vstart", "v0.0"]
# What options of ninja-graph get, by the names of their values.
VALUES = {
    "DIR": ["", ".", "..", "/", "/w", "nothing", "./.", "a b", "x" * 5000, "\udcff"],
    "FILE": [MAIN, "./build.ninja", "nothing", ".", "", "s", "log"],
    "NAME": ["mk", "phony", "r", "cc", "", "x" * 5000],
    "TEXT": ["", "e", "o", "/", "../", "x" * 5000],
    "KIND": ["missing-source", "unused-output", "unused-variable", "undeclared-input", "nothing", ""],
    "N": ["0", "1", "2", "9", "x", "-1", "18446744073709551616"],
    "K": ["0", "1", "9", "x"],
    "MARK": MARKS,
}
LOG, LOG_OF_NINJA, DEPFILE = "log", ".ninja_deps", "d"
VERSIONS = [b"\3\0\0\0", b"\4\0\0\0", b"\5\0\0\0", b"\xff" * 4, b"\4\0"]
VIEWS = ["", "all", "rule", "rule mk", "depth", "depth 0", "depth 2", "depth 3000000000", "some"]


def real_projects():
    """Real projects: of each the content of its files, by name."""
    found = [dict(each.files) for each in PROJECTS.values()]
    found.append(files_below(EXAMPLES / "hello"))
    found.append({name: text.encode() for name, text in project().items()})
    return found


def colliding_names():
    """Names that collide in each table if hashes start from 0. Without `cc`, which finds them, other
    names."""
    if not shutil.which("cc"):
        return dict.fromkeys(flood.TABLES, flood.other_names(COLLIDING))
    with tempfile.TemporaryDirectory() as folder:
        return flood.colliding_names(folder, COLLIDING, BITS)


class Maker:
    """Makes cases from their seeds."""

    def __init__(self):
        self.real, self.colliding = real_projects(), colliding_names()
        contents = [content for files in self.real for content in files.values()]
        self.lines = [line for content in contents for line in content.split(b"\n")]

    def case(self, name, seed):
        """The files, the arguments for the program with the given name, the standard input, and whether the
        run may take any time: it may if it writes a tree of targets, or if expanded values grow without
        bound."""
        self.chance = random.Random(seed)
        files, grows = self.files()
        if name == EXPLAIN:
            words = self.words(files)
            return files, words, b"", "depth" in words or grows
        self.chance = random.Random(f"{name} {seed}")
        files = self.pick([self.with_logs, self.with_logs, self.with_depfile])(files)
        return files, self.words_for_graph(files), self.changed_paths(files), grows

    def files(self):
        """Files, and whether values grow in them."""
        kinds = {
            self.changed: 40,
            self.of_pieces: 15,
            self.bound_to_dyndeps: 8,
            self.reading_itself: 5,
            self.with_a_long_line: 5,
            self.deep: 3,
            self.wide: 3,
            self.doubling: 3,
            self.growing: 3,
            self.of_collisions: 2,
        }
        make = self.chance.choices(list(kinds), list(kinds.values()))[0]
        files = make()
        if make != self.changed and self.chance.random() < 0.3:
            files = self.change(files)
        return files, make == self.growing

    def pick(self, choices):
        return self.chance.choice(choices)

    # ---- changes of existing files

    def changed(self):
        return self.change(self.pick(self.real))

    def change(self, files):
        """The files with some changes in them."""
        files = dict(files)
        for _ in range(self.pick([1, 1, 1, 2, 3, 5, 8])):
            name = self.pick(list(files))
            change = self.pick([self.change_bytes, self.change_lines])
            files[name] = change(files[name])
        return files

    def change_bytes(self, text):
        """Deletes, doubles, reverses or replaces some bytes, or inserts others before them."""
        start = self.chance.randint(0, len(text))
        end = min(len(text), start + self.pick([0, 1, 1, 2, 5, 20]))
        part, piece = text[start:end], self.pick(PIECES)
        made = self.pick([b"", part + part, part[::-1], piece, piece + part])
        return text[:start] + made + text[end:]

    def change_lines(self, text):
        """Deletes, doubles, swaps, moves or indents a line, cuts the text off before it, or inserts
        a line of another text before it."""
        lines = text.split(b"\n")
        at, other = self.chance.randrange(len(lines)), self.chance.randrange(len(lines))
        line = lines[at]
        kind = self.pick(["delete", "double", "swap", "move", "indent", "cut", "hostile", "splice"])
        if kind == "delete":
            del lines[at]
        elif kind == "double":
            lines.insert(at, line)
        elif kind == "swap":
            lines[at], lines[other] = lines[other], line
        elif kind == "move":
            lines.insert(other, lines.pop(at))
        elif kind == "indent":
            lines[at] = line.lstrip() if line.startswith(b" ") else b"  " + line
        elif kind == "cut":
            lines = lines[:at]
        else:
            lines.insert(at, self.pick(LINES if kind == "hostile" else self.lines))
        return b"\n".join(lines)

    # ---- new files

    def of_pieces(self):
        """Pieces in any order."""
        pieces = [*PIECES, *[b"\n", b" ", b"a", b"b", b"o"] * 3]
        text = b"".join(self.chance.choices(pieces, k=self.chance.randint(0, 60)))
        lines = b"\n".join(self.chance.choices(LINES, k=self.chance.randint(0, 12)))
        contents = [text, lines, lines + b"\n" + text]
        return {name: self.pick(contents) for name in (MAIN, "s", "dd")}

    def reading_itself(self):
        """Files that include one another in a ring or in a chain, small ones many times."""
        keyword, ends = self.pick([b"include", b"subninja"]), self.pick([True, False])
        size = self.pick([1, 2, 3, 31, 32, 33, 40])
        times = self.pick([1, 2, 3]) if size < 12 else 1
        names = [MAIN, *(f"f{number}" for number in range(1, size))]
        next_ones = [*names[1:], self.pick(names)]
        contents = [keyword + b" " + name.encode() + b"\n" for name in next_ones]
        if ends:
            contents[-1] = b"x = $x.\n"
        return {name: content * times for name, content in zip(names, contents)}

    def with_a_long_line(self):
        """A word, a name, a value or joined lines of many bytes."""
        long = self.pick(LONG) * self.pick([500, 5000, 50_000])
        return {MAIN: self.pick(AROUND_LONG) % long + self.pick([b"", b"\n"])}

    def deep(self):
        """A chain of edges. The last one may need one of the others, or itself."""
        size = self.pick([100, 3000, 20_000])
        kind = self.pick([b"", b" |", b" ||", b" |@"])
        lines = [b"build e%d: mk%s e%d\n" % (i, kind, i + 1) for i in range(size - 1)]
        end = self.pick([b"", b" e0", b" e%d" % (size - 1), b" e%d" % (size // 2)])
        lines.append(b"build e%d: mk%s%s\n" % (size - 1, kind, end))
        return {MAIN: b"rule mk\n  command = mk $out\n" + b"".join(lines)}

    def wide(self):
        """A line of many words, and many edges that need the same file."""
        size = self.pick([100, 3000, 20_000])
        words = b" ".join(b"n%d" % number for number in range(size))
        users = [b"build u%d: phony n0\n" % number for number in range(size // 10)]
        form = self.pick([b"build all: phony %s\n", b"build %s: phony\n", b"default %s\n"])
        return {MAIN: b"".join(self.pick([[form % words, *users], [*users, form % words]]))}

    def doubling(self):
        """Edges that each need the one before twice, so that their tree doubles at each level."""
        form = self.pick([b"build e%d: mk e%d e%d\n", b"build e%d: mk e%d | ./e%d\n"])
        lines = [form % (i + 1, i, i) for i in range(self.pick([5, 30, 300]))]
        return {MAIN: b"rule mk\n  command = mk $in\nbuild e0: mk\n" + b"".join(lines)}

    def growing(self):
        """Values that each contain the one before many times."""
        size, times = self.pick([3, 20, 60]), self.pick([2, 3, 10])
        lines = [b"v%d = %s\n" % (i + 1, b"$v%d" % i * times) for i in range(size)]
        return {MAIN: b"v0 = x\n" + b"".join(lines) + self.pick(AROUND_GROWN) % size}

    def of_collisions(self):
        """Names that collide in one of the tables."""
        count = self.pick([50, COLLIDING])
        table, manifest = self.pick(list(flood.TABLES.items()))
        lines = manifest(self.colliding[table][:count], 2)
        return {MAIN: "".join(lines).encode(flood.ENCODING)}

    def bound_to_dyndeps(self):
        """Edges that are bound to two dyndep files, which are mostly wrong."""
        count = self.pick([1, 2, 5])
        form = b"build o%d: mk i || d%d\n  dyndep = d%d\n"
        edges = b"".join(form % (i, i % 2, i % 2) for i in range(count))
        files = {MAIN: b"rule mk\n  command = mk $in $out\n" + edges}
        for number in range(2):
            lines = [b"ninja_dyndep_version = 1"]
            for edge in range(number, count, 2):
                made = self.pick([b"", b"", b" | m%d" % edge, b" | o0", b" | m"])
                needed = self.pick([b"", b"", b" | h", b" | o%d" % (edge + 1), b" | o0"])
                lines.append(b"build o%d%s: dyndep%s" % (edge, made, needed))
                lines += self.pick([[], [], [b"  restat = 1"], [b"  depth = 1"]])
            files[f"d{number}"] = b"\n".join(lines) + self.pick([b"", b"\n"])
        return files

    # ---- arguments

    def words(self, files):
        tools = ["commands"] * 4 + ["compdb"] * 2 + ["inputs", "targets", "query", "rules"]
        tool = self.pick(tools)
        words = [self.target(files) for _ in range(self.pick([0, 0, 0, 1, 1, 2]))]
        if tool == "targets":
            words = self.pick(VIEWS).split()
        elif tool == "rules":
            words = []
        elif tool == "query" and not words:
            words = [self.target(files)]
        end = self.pick([[], ["--"]])
        return ["-t", tool, *self.options(tool), *end, *words]

    def target(self, files):
        """A word of the main file, which may be a target, or a hostile argument."""
        found = files[MAIN][:20_000].decode("latin-1").split() + HOSTILE_WORDS[:1]
        word = self.pick(found if self.chance.random() < 0.8 else HOSTILE_WORDS)
        return word.strip(":|").replace("\0", "")[:100_000] + self.pick(["", "", "", "^"])

    def options(self, tool):
        """Options of the tool, and sometimes one that it does not have."""
        own = {
            "commands": ["-s", f"--take={self.pick('01239x')}", f"--resume={self.pick(MARKS)}"],
            "inputs": ["--print0", "--no-shell-escape", "--dependency-order", "--validations"],
            "rules": ["-d", "-d"],
            "compdb": ["-x", "--directory=/w", "--directory="],
        }.get(tool, [])
        validations = ["--validations"] if tool == "commands" else []
        chosen = [option for option in own if self.chance.random() < 0.15]
        chosen += [option for option in validations if self.chance.random() < 0.2]
        chosen += ["--dyndep"] if self.chance.random() < 0.4 else []
        foreign = ["-s", "-d", "-x", "--take=1", "--nothing", "--help", "-trules"]
        return chosen + ([self.pick(foreign)] if self.chance.random() < 0.03 else [])

    # ---- for ninja-graph

    def with_logs(self, files):
        """The files with a deps log, mostly a damaged one, and with edges that use it."""
        if self.chance.random() < 0.5:
            return files
        lines = [(b"\n  command =", b"\n  deps = gcc\n  command ="), (b"\nbuild", b"\nbuilddir = .\nbuild")]
        before, after = lines[self.chance.random() < 0.1]
        if self.chance.random() < 0.8:
            files = {name: text.replace(before, after) for name, text in files.items()}
        return {**files, self.pick([LOG, LOG_OF_NINJA]): self.log(files)}

    def with_depfile(self, files):
        """The files with a depfile, mostly a damaged one, of all edges."""
        line = b"\n  depfile = %b\n  command =" % self.pick([DEPFILE.encode()] * 9 + [b"$out", b"\xff", b"."])
        files = {name: text.replace(b"\n  command =", line) for name, text in files.items()}
        words = files[MAIN][:20_000].replace(b":", b" ").split()
        outputs = [word for at, word in enumerate(words) if words[at - 1] == b"build"]
        named = self.chance.choices([*words, b"h", b"./h", b"\\\n", b"x" * 5000], k=self.pick([0, 1, 3, 30]))
        text = b"%b: %b\n" % (self.pick([*outputs, b"o"]), b" ".join(named))
        for _ in range(self.pick([0, 0, 1, 2, 5])):
            text = self.change_bytes(text)
        return {**files, DEPFILE: text}

    def log(self, files):
        """A log that names the outputs and other words of the main file."""
        words = files[MAIN][:20_000].decode("latin-1").replace(":", " ").split()
        outputs = [word for at, word in enumerate(words) if words[at - 1] == "build"]
        names = [*words, "h", "h", "../h", "./h", "", "a\nb", "x" * 5000]
        few = {
            self.pick([*outputs, "o"]): self.chance.choices(names, k=self.pick([0, 1, 2, 9]))
            for _ in range(self.pick([1, 3, 30]))
        }
        log = deps_log(few, "latin-1")
        if self.chance.random() < 0.1:
            log = log.replace(OPENING[-4:], self.pick(VERSIONS), 1)
        for _ in range(self.pick([0, 0, 1, 1, 2, 5])):
            log = self.change_bytes(log)
        return log[: self.chance.randint(0, len(log))] if self.chance.random() < 0.2 else log

    def words_for_graph(self, files):
        """Arguments for ninja-graph: options from its rows, and sometimes one that the subcommand lacks."""
        rows = PROGRAMS[GRAPH]
        name = self.pick(list(rows.tools))
        tool, words = rows.tools[name], []
        if tool.words:
            words = [self.target(files) for _ in range(self.pick([2, 2, 2, 2, 2, 2, 1, 3]))]
        elif name in ("draw", "keys", "stale"):
            words = [self.target(files) for _ in range(self.pick([0, 0, 0, 1, 1, 2]))]
        chosen = [it for it in tool.options.items() if self.chance.random() < 0.2]
        chosen += [it for it in rows.every.items() if self.chance.random() < 0.1]
        chosen += [("--dyndep", None)] * (self.chance.random() < 0.2 and "--dyndep" not in dict(chosen))
        if {LOG_OF_NINJA, DEPFILE} & {*files} and not any(option == "--deps" for option, _ in chosen):
            chosen.append(("--deps", None))
        if LOG in files and not any(option == "--deps-log-file" for option, _ in chosen):
            return [name, *self.given(chosen), f"--deps-log-file={LOG}", *self.end(), *words]
        foreign = ["-s", "-d", "--nothing", "--help", "-V", "--fold", "--json", "--take=1", "--list"]
        more = [self.pick(foreign)] if self.chance.random() < 0.03 else []
        return [name, *self.given(chosen), *more, *self.end(), *words]

    def given(self, options):
        """Options with values, which one of two words or one word has."""
        for option, value in options:
            if value is None:
                yield option
            elif option.startswith("--") and self.chance.random() < 0.8:
                yield f"{option}={self.pick(VALUES[value])}"
            else:
                yield from (option, self.pick(VALUES[value]))

    def end(self):
        return self.pick([[], ["--"]])

    def changed_paths(self, files):
        """Standard input: words of the main file and hostile ones, few or all, a line each."""
        found = files[MAIN][:200_000].replace(b":", b" ").split()
        hostile = [b"", b".", b"/", b"..", b"a/..", b"\xff", b"\0", b"\r", b" ", MAIN.encode(), b"x" * 50_000]
        count = self.pick([1, 1, 1, 2, 5, len(found)])
        lines = found if count == len(found) else self.chance.choices([*found, *hostile], k=count)
        return self.pick([b"\n", b"\n", b"\r\n", b"\n\n"]).join(lines) + self.pick([b"", b"\n"])

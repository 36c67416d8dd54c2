"""Rows: how a file of them is read, and runs over sinks in memory as rows (CONTRIBUTING.md).

tests/nj_rows reads them for the programs that run them, and this module for scripts.
"""

import re
from dataclasses import dataclass
from itertools import groupby

from lib.programs import FAULT, Ending

# ---- reading

INDENT = "    "
WANTED = b"<wanted>\n"
MARKED = re.compile(rb"<([0-9a-fA-F]*)>")
# The blocks that each row of a section has.
OF_SECTION = "file", "unended", "log", "repeat"
# Those that say what standard input is.
INPUTS = "input", "unended-input"
# The settings for one row alone.
LIMITS = "reading-fails", "built-reading-fails", "output-takes", "error-takes", "folder"


def plain(text):
    """The bytes that a text means: `<09>` is the byte with these hexadecimal digits, and `<>` is
    nothing."""

    def byte(found):
        number = int(found[1] or b"0", 16)
        return found[0] if number > 255 else bytes([number]) if found[1] else b""

    return MARKED.sub(byte, text if isinstance(text, bytes) else text.encode())


@dataclass
class Block:
    """A line that is not indented, with the bytes of the lines that belong to it; of a row also its
    limits and its standard input."""

    line: int
    kind: str
    rest: str
    text: bytes = b""
    limits: tuple = ()
    input: bytes = b""

    def words(self):
        """The arguments in the rest of the line."""
        return [plain(word) for word in self.rest.split(" ") if word]

    def wanted(self, files):
        """The text that is wanted of a row over these files."""
        first = files.get("wanted", b"") if self.text.startswith(WANTED) else b""
        return first + self.text.removeprefix(WANTED)


def blocks_of(text):
    """The blocks of a file of rows."""
    blocks = []
    for number, line in enumerate(text.split("\n"), 1):
        if line.startswith(INDENT) and blocks:
            blocks[-1].text += plain(line.removeprefix(INDENT)) + b"\n"
        elif line and not line.startswith("#"):
            kind, _, rest = line.partition(" ")
            blocks.append(Block(number, kind, rest))
    return blocks


def with_number(text, number):
    """A text with a number in place of `<n>`, and the one before it in place of `<n-1>`."""
    return text.replace(b"<n>", b"%d" % number).replace(b"<n-1>", b"%d" % max(number - 1, 0))


def repeat(files, block, most):
    """Appends the text of a block to files, once for each of its numbers, at most so often."""
    name, first, last = block.rest.split(" ")
    first, last = int(first), int(last)
    step = 1 if first <= last else -1
    for number in range(first, last + step, step)[:most]:
        own = with_number(name.encode(), number).decode()
        files[own] = files.get(own, b"") + with_number(block.text, number)


def number(value, size=4):
    return int(value).to_bytes(size, "little")


def record(content, bit=0):
    """A record of a deps log: the size of its content, with the bit of its kind, and the content."""
    return number(len(content) | bit) + content


def log_of(parts):
    """The deps log of parts (tests/nj_call_rows/data/deps.rows describes them)."""
    log = b""
    for part in parts.decode().splitlines():
        kind, *words = part.split(" ")
        if kind == "open":
            log += b"# ninjadeps\n" + number(words[0])
        elif kind == "path":
            path = words[1].encode()
            log += record(path + bytes(-len(path) % 4) + number(~int(words[0]) % (1 << 32)))
        elif kind == "deps":
            log += record(number(words[0]) + number(words[1], 8) + b"".join(map(number, words[2:])), 1 << 31)
        elif kind == "bytes":
            log += bytes(map(int, words))
        else:
            raise ValueError(f"no part of a deps log: {part}")
    return log


def rows_of(text, most_repeated=None):
    """The rows of a file of rows, each with the files of its section so far, by their names."""
    files, limits, given = {}, [], b""
    for block in blocks_of(text):
        if block.kind == "==":
            files = {}
        elif block.kind in ("file", "unended"):
            is_whole = block.kind == "file"
            files = {**files, block.rest: block.text if is_whole else block.text.removesuffix(b"\n")}
        elif block.kind == "log":
            files = {**files, block.rest: log_of(block.text)}
        elif block.kind in INPUTS:
            given = block.text if block.kind == "input" else block.text.removesuffix(b"\n")
        elif block.kind == "repeat":
            files = dict(files)
            repeat(files, block, most_repeated)
        elif block.kind in LIMITS:
            limits.append(block.kind)
        else:
            block.limits, block.input, limits, given = tuple(limits), given, [], b""
            yield files, block


def projects_of(text, most_repeated):
    """The projects of a file of rows: the files of each, and the rows that run on them."""
    for _, rows in groupby(rows_of(text, most_repeated), lambda it: id(it[0])):
        rows = list(rows)
        files = {name.encode(): content for name, content in rows[0][0].items()}
        yield files, [row for _, row in rows]


def single_rows(text):
    """The rows of a file of rows as files with one row each that wants nothing: the text of each, and
    its block, with the files of its section."""
    section, own = [], []
    chunks = re.split(r"^(?=[^\s#])", re.sub(r"^#.*\n", "", text, flags=re.M), flags=re.M)
    rows = rows_of(text)
    for chunk in chunks[1:]:
        kind = chunk.split()[0]
        if kind == "==":
            section, own = [chunk], []
        elif kind in OF_SECTION:
            section.append(chunk)
        elif kind in (*LIMITS, *INPUTS):
            own.append(chunk)
        else:
            line = chunk.partition("\n")[0]
            yield "".join([*section, *own, f"{line}\n"]), next(rows)
            own = []


# ---- runs over sinks in memory

LINE_FEED = b"\n"
# The output for a row that wants nothing.
CAME = re.compile(r'\S+:\d+: wanted "", came "(.*)"\n')
# The output of a run, its status, and its standard error.
PARTS = re.compile(r"(.*)\[(\d)\](?: (.*)|\n)", re.S)
# How the program ends if it lacks memory beside the run of the row.
LACKS_MEMORY = Ending(FAULT, b"", b"Error: Kind(OutOfMemory)\n")
ESCAPE = re.compile(r"\\(?:u\{(\w+)\}|(.))")
ESCAPED = {"n": "\n", "r": "\r", "t": "\t", "0": "\0"}


def marked(line):
    """A line of a row: a byte that is not plain is written by its hexadecimal digits."""
    return "".join(
        chr(byte) if 32 <= byte < 127 and byte != ord("<") else f"<{byte:02x}>" for byte in line
    )


def row_of(files, words):
    """The text of a file with one row: it runs the arguments over these files, and wants nothing."""
    lines = []
    for name, text in files.items():
        kind = "file" if text.endswith(LINE_FEED) else "unended"
        lines.append(f"{kind} {name}")
        lines += [f"    {marked(line)}" for line in text.removesuffix(LINE_FEED).split(LINE_FEED)]
    return "\n".join([*lines, f"run {' '.join(words)}", ""])


def unquoted(text):
    """A text without quotes, verbatim."""

    def plain(found):
        return chr(int(found[1], 16)) if found[1] else ESCAPED.get(found[2], found[2])

    return ESCAPE.sub(plain, text)


def came_of(ran):
    """How the run of a row ended, by how the program ended that ran it; `None` if this lacked the
    memory to tell. Bytes that are not UTF-8 come as U+FFFD."""
    if ran == LACKS_MEMORY:
        return None
    found = CAME.match(ran.output.decode())
    parts = PARTS.fullmatch(unquoted(found[1])) if found else None
    return Ending(int(parts[2]), parts[1].encode(), (parts[3] or "").encode()) if parts else ran


def ending_of(wanted):
    """The ending that a text is of: the output of a run, its status in brackets, and its errors. `None`
    if it is of something else."""
    found = PARTS.fullmatch(wanted.decode(errors="replace"))
    return Ending(int(found[2]), found[1].encode(), (found[3] or "").encode()) if found else None


def lossy(ending):
    """How a run ended, with U+FFFD for the bytes that are not UTF-8."""
    texts = (part.decode(errors="replace").encode() for part in ending[1:])
    return Ending(ending.status, *texts)

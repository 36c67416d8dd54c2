"""Phrases for which a page or a comment has better words, and the prose in which they are sought.

`NEVER` has the phrases that are never right, `NAMES` those of them that names in code do not have
either, `IN_PAGES` those that only comments in Rattle and Rust still have, `SELDOM` those that
often are not right, which are counted.
Each is a pattern, with what to write in its place. Prose is what people read as sentences: of a page
without its code and its generated parts, of a source its comments, and of the crates of `ninja-graph`
also their strings.
"""

import io
import re
import tokenize
from pathlib import PurePath

# Verbs that follow the subject of a sentence.
VERBS = r"(?:are|can|cannot|come|count|did|do|had|has|have|is|list|may|must|name|need|say|should|were|will)"

NEVER = {
    r"error outputs?": "standard error",
    r"(?:on|to) the output(?! of)": "standard output",
    r"(?:an?|the|its|whose|no) output (?:failed|fails|takes|took|gets|got|could)": "standard output",
    r"by the clock": "wall-clock time",
    r"processor (?:times?|minutes?|seconds?)|(?:times?|minutes?|seconds?) of processors?": "CPU time",
    r"as (?:a )?parts? of (?:\w+ )?Ninja's": "relative to Ninja",
    r"strangers?'?": "untrusted input",
    r"no (?:place|file|line) is to blame": "has no location",
    r"for good": "permanently",
    r"each once": "without duplicates",
    r"(?-i:[Ff]olders?)": "directory",
    r"as (?:it is|they are|it was|they were)(?! (?:\w+(?:ed|en)|read|made)\b)": "verbatim, unchanged",
    r"(?:hand|hands|handed|handing) (?:in|out|over)": "supply, return",
    r"(?:give|gives|given|gave|giving) out": "re-export, return",
    r"(?:is|are|was|were|be|been) asked (?:for|which|what|whether|how)": "query, request",
    r"none of a file": "no",
    r"stays? so": "remains",
    r"dear|dearer|dearest": "expensive, costs more",
    r"took some since": "has written since",
    r"odd": "a finding, a problem",
    r"one (?!or\b)\w+ more": "one more ..",
    r"wrong words": "invalid arguments",
    r"anew": "again, over, regenerated",
}

# Those that a name in code must not have either: its words are those between its capitals and signs.
NAMES = (r"(?:hand|hands|handed|handing) (?:in|out|over)",)

# What pages, man pages and comments in C and Python do not have either.
IN_PAGES = {
    r"(?:of|with|at) this (?:number|name|path)": "with the given number",
    r"(?:if|where|when|whether) there (?:is|are|was|were) (?:one|none|any)": "if any, without a ..",
    r"(?:is|are|was|were) there (?:twice|more than once)": "repeated",
    r"(?:is|are|be|was|were) given (?:twice|again|more than once)": "repeated",
    rf"these(?= {VERBS}\b|[.,;:)])": "the thing: these edges",
    rf"(?<!as\s)such(?= {VERBS}\b|[.,;:)])": "the thing: such edges",
    r"(?<!there\s)(?:is|are|was|were) no (?!longer|more|less|other|such|later)\w+": "is not a ..",
    r"tells (?:how|of|that|what|where|whether|which|why)": "reports, shows, says",
    r"that (?:is|are) there": "that exists",
    r"as many as there (?:is|are)": "as many as fit",
}

# Where a phrase stays all the same: a fault's text, a name, a table of these phrases.
EXCEPT = {
    "bench/projects.py": {r"(?-i:[Ff]olders?)"},
    "crates/nj_names/src/name_hasher.rt": {r"odd"},
    "scripts/fuzz_c.c": {r"odd"},
    "man/ninja-explain.1": {r"wrong words"},
}

SELDOM = {
    r"what (?:it|they|the|an?|is|are|was|were|this|that|these|those|each|one|no|its|their|Ninja)": (
        "a noun: affected edges, needed edges"
    ),
    r"words?": "arguments, where they are not a lexer's",
    r"of which": "a sentence of its own",
    r"(?:ask|asks|asked|asking) for": "query, request",
    r"outputs?": "standard output, where it is not an edge's",
    r"behind": "after",
}

# What is no prose in a page: code, links' targets, generated parts, and a man page's requests.
CODE = re.compile(
    r"^```.*?^```$|^(?: {4}|\t)[^\n]*$|^\.EX$.*?^\.EE$|``[^\n]*?``|`[^`]*`|\]\([^)\s]*\)"
    r"|<!-- (?:\w+: )?\w+ -->.*?<!-- end -->|^\.(?:TH|UR|UE)[^\n]*$|\\f.|<[^>\s]+>",
    re.M | re.S,
)
# How the names of files end for which `IN_PAGES` holds, outside of `crates/`.
OF_PAGES = {".md", ".1", ".c", ".h", ".py"}
# How comments begin in a source.
SIGNS = {".rt": "//", ".rs": "//", ".antt": "--", ".py": "#", ".sh": "#"}
# The crates whose strings a user reads: help, faults and findings of `ninja-graph`.
WITH_STRINGS = {"nj_ask", "nj_audit", "nj_questions", "nj_test_lists", "ninja_graph"}
# A string in Rattle, or a character, which may be a quote.
STRING = re.compile(r'"(?:\\.|[^"\\])*"|\'(?:\\.|[^\'\\\n])\'', re.S)
# A comment in C, or a string, which may have the signs of one.
C_PIECE = re.compile(r'/\*.*?\*/|//[^\n]*|"(?:\\.|[^"\\\n])*"', re.S)


def blank(found):
    """As many characters as were found, with its line feeds."""
    return re.sub(r"[^\n]", "`", found[0])


def phrases_of(name):
    """The phrases that a file must not have, each with what to write in its place."""
    path = PurePath(name)
    return NEVER | IN_PAGES if path.suffix in OF_PAGES and path.parts[0] != "crates" else NEVER


def without_code(text):
    return CODE.sub(blank, text)


def comments(text, sign):
    """The comments of a source, on their lines."""
    lines = text.splitlines()
    return "\n".join(line if line.strip().startswith(sign) else "" for line in lines)


def only(pattern, is_meant, text):
    """What a pattern finds in a text, if it is meant, where it stands; the rest is blank."""
    found, end = [], 0
    for piece in pattern.finditer(text):
        found += [re.sub(r"[^\n]", " ", text[end : piece.start()])]
        found += [piece[0] if is_meant(piece[0]) else blank(piece)]
        end = piece.end()
    return "".join(found)


def c_prose(text):
    """The comments of a source in C, on their lines."""
    return only(C_PIECE, lambda piece: piece.startswith("/"), text)


def with_strings(text):
    """The comments of a source in Rattle and its strings of more than a word, on their lines."""
    code = "\n".join("" if line.strip().startswith("//") else line for line in text.splitlines())
    lines = zip(comments(text, "//").splitlines(), only(STRING, lambda piece: " " in piece, code).splitlines())
    return "\n".join(comment or re.sub(r"\{\w*\}", blank, string) for comment, string in lines)


def python_prose(text):
    """The comments and docstrings of a Python source, on their lines."""
    found, is_first = [""] * (text.count("\n") + 2), True
    for token in tokenize.generate_tokens(io.StringIO(text).readline):
        is_docstring = token.type == tokenize.STRING and is_first
        if token.type == tokenize.COMMENT or is_docstring:
            for row, line in enumerate(token.string.split("\n"), token.start[0] - 1):
                found[row] += f"{line} "
        if token.type not in (tokenize.COMMENT, tokenize.NL):
            is_first = token.type in (tokenize.NEWLINE, tokenize.INDENT, tokenize.DEDENT)
    return "\n".join(found)


def prose(name, text):
    """What people read as sentences in a file, each part on its own line."""
    return re.sub(r"`[^`\n]*`", blank, source_prose(PurePath(name), text))


def source_prose(path, text):
    """The same, with code between signs of code."""
    if path.suffix in (".c", ".h"):
        return c_prose(text)
    if path.suffix == ".py":
        return python_prose(text)
    if path.suffix == ".rt" and path.parts[1] in WITH_STRINGS:
        return with_strings(text)
    return comments(text, SIGNS[path.suffix]) if path.suffix in SIGNS else without_code(text)


def words(name):
    """The words of a name in code, apart by blanks."""
    return re.sub(r"(?<=[a-z0-9])(?=[A-Z])|[_-]+", " ", name)


def refused_names(text):
    """Each name in a source that has a phrase of `NAMES`, with its line and the phrase."""
    for found in re.finditer(r"[^\W\d][\w-]*", text):
        for phrase in NAMES:
            if pattern(phrase).search(words(found[0])):
                yield text.count("\n", 0, found.start()) + 1, found[0], phrase


def pattern(phrase):
    """The pattern of a phrase, whose words stand apart by blanks, line ends and comment signs."""
    apart = phrase.replace(" ", r"[\s/#*-]+")
    return re.compile(rf"\b(?:{apart})\b", re.I)


def finds(phrases, text):
    """Each place of a phrase: its line, what is there, and the phrase."""
    for phrase in phrases:
        for found in pattern(phrase).finditer(text):
            yield text.count("\n", 0, found.start()) + 1, " ".join(found[0].split()), phrase

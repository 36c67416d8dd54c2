"""The output of each tool for examples/project, written by hand, and each usage fault."""

import re

from lib.programs import ROOT

PAGE = ROOT / "man/ninja-explain.1"

# Arguments, and the output. The arguments are split at spaces.
OUTPUTS = {
    "-t commands -s out/count test": """\
cc out/main.o out/libtext.a -o out/count
./out/words_test
""",
    "-t inputs": """\
main.c
out/libtext.a
out/lines.o
out/main.o
out/words.o
text/lines.c
text/words.c
""",
    "-tinputs text/words_test.c^ ./out//libtext.a": """\
out/lines.o
out/words.o
text/lines.c
text/words.c
text/words_test.c
""",
    "-t inputs main.c": "",
    "-t targets": """\
out/count: link
test: check
""",
    "-t targets depth": """\
out/count: link
test: check
""",
    "-t targets depth 2": """\
out/count: link
  out/main.o: cc
  out/libtext.a: ar
test: check
  out/words_test: link
""",
    "-t targets depth 0": """\
out/count: link
  out/main.o: cc
    main.c
  out/libtext.a: ar
    out/words.o: cc
      text/words.c
    out/lines.o: cc
      text/lines.c
test: check
  out/words_test: link
    out/words_test.o: cc
      text/words_test.c
    out/libtext.a: ar
      out/words.o: cc
        text/words.c
      out/lines.o: cc
        text/lines.c
""",
    "-t targets all": """\
out/words.o: cc
out/lines.o: cc
out/libtext.a: ar
out/main.o: cc
out/count: link
out/words_test.o: cc
out/words_test: link
test: check
""",
    "-t targets rule cc": """\
out/lines.o
out/main.o
out/words.o
out/words_test.o
""",
    "-t targets rule nothing": "",
    "-t targets rule": """\
main.c
text/lines.c
text/words.c
text/words_test.c
""",
    "-t query out/libtext.a main.c": """\
out/libtext.a:
  input: ar
    out/words.o
    out/lines.o
  outputs:
    out/count
    out/words_test
main.c:
  outputs:
    out/main.o
""",
    "text/words.c^ -t query -- out/count": """\
out/words.o:
  input: cc
    text/words.c
  outputs:
    out/libtext.a
out/count:
  input: link
    out/main.o
    out/libtext.a
  outputs:
""",
    "-t rules": """\
ar
cc
check
link
phony
""",
    "-d -t rules": """\
ar: AR ${out}
cc: CC ${out}
check
link: LINK ${out}
phony
""",
    "-t compdb ar check": """\
[
  {
    "directory": ".",
    "command": "ar rcs out/libtext.a out/words.o out/lines.o",
    "file": "out/words.o",
    "output": "out/libtext.a"
  },
  {
    "directory": ".",
    "command": "./out/words_test",
    "file": "out/words_test",
    "output": "test"
  }
]
""",
    "-t compdb -x link --directory=/w": """\
[
  {
    "directory": "/w",
    "command": "cc out/main.o out/libtext.a -o out/count",
    "file": "out/main.o",
    "output": "out/count"
  },
  {
    "directory": "/w",
    "command": "cc out/words_test.o out/libtext.a -o out/words_test",
    "file": "out/words_test.o",
    "output": "out/words_test"
  }
]
""",
    "-t compdb nothing": """\
[
]
""",
}

# Edges that the project lacks: inputs of each kind, validations, quotes, a response file.
KINDS = """\
rule cc
  command = cc @$out.rsp -c $in
  description = $$ CC ${in} to $out
  rspfile = $out.rsp
  rspfile_content = $flags $in
build a.o | a.d: cc it's.c a$ b.c | a.h || made |@ check
  flags = -g
build check: phony
build made: phony made.stamp
build made.stamp made.h: cc a$ b.c
  flags = -DNAME="x"
"""
KINDS_OUTPUTS = {
    "-t inputs a.o": """\
'a b.c'
'it'\\''s.c'
a.h
made
""",
    "-t inputs --no-shell-escape a.o": """\
a b.c
a.h
it's.c
made
""",
    "-t inputs --dependency-order a.o": """\
'a b.c'
'it'\\''s.c'
a.h
made
""",
    "-t inputs --print0 --no-shell-escape a.o": "a b.c\0a.h\0it's.c\0made\0",
    "-t targets rule cc": """\
a.d
a.o
made.h
made.stamp
""",
    "-t targets depth 0": """\
a.o: cc
  it's.c
  a b.c
  a.h
  made: phony
    made.stamp: cc
      a b.c
a.d: cc
  it's.c
  a b.c
  a.h
  made: phony
    made.stamp: cc
      a b.c
check: phony
made.h: cc
  a b.c
""",
    "-t targets all": """\
a.o: cc
a.d: cc
check: phony
made: phony
made.stamp: cc
made.h: cc
""",
    "-t query a.d check": """\
a.d:
  input: cc
    it's.c
    a b.c
    | a.h
    || made
  validations:
    check
  outputs:
check:
  input: phony
  outputs:
  validation for:
    a.o
    a.d
""",
    "-t rules -d": """\
cc: $ CC ${in} to ${out}
phony
""",
    "-t compdb -x": """\
[
  {
    "directory": ".",
    "command": "cc -g 'it'\\\\''s.c' 'a b.c' -c 'it'\\\\''s.c' 'a b.c'",
    "file": "it's.c",
    "output": "a.o"
  },
  {
    "directory": ".",
    "command": "cc -DNAME=\\"x\\" 'a b.c' -c 'a b.c'",
    "file": "a b.c",
    "output": "made.stamp"
  }
]
""",
}

NOT_TEXT = b"rule cc\n  command = cc $in\nbuild good: cc a\nbuild bad: cc \xff\n"
NOT_TEXT_FAULT = b"build.ninja:4:1: text is not UTF-8\n"

# Arguments, and the fault in them.
USAGE_FAULTS = {
    "-t": "cannot read the arguments",
    "inputs": "cannot read the arguments",
    "--help": "cannot read the arguments",
    "-t inputs --nothing": "cannot read the arguments",
    "-t inputs -t inputs": "cannot read the arguments",
    "-t compdb --directory": "cannot read the arguments",
    "-t clean": "unknown tool 'clean'",
    "-t targets -s": "option -s does not go with tool 'targets'",
    "-t inputs --take 1": "option --take does not go with tool 'inputs'",
    "-t compdb --resume start": "option --resume does not go with tool 'compdb'",
    "-t commands -s --take 1": "option --take does not go with tool 'commands'",
    "-t commands -s --resume start": "option --resume does not go with tool 'commands'",
    "-t query -d main.c": "option -d does not go with tool 'query'",
    "-t rules -x": "option -x does not go with tool 'rules'",
    "-t targets --directory x": "option --directory does not go with tool 'targets'",
    "-t commands -s --validations": "option --validations does not go with tool 'commands'",
    "-t query --print0 --no-shell-escape a":
        "option --no-shell-escape does not go with tool 'query'",
    "-t targets --dependency-order": "option --dependency-order does not go with tool 'targets'",
    "-t commands --take many": "not a number: 'many'",
    "-t targets depth all": "not a number: 'all'",
    "-t commands --resume 1..2": "bad mark '1..2'",
    "-t commands --resume v0": "bad mark 'v0'",
    "-t commands --validations --resume 0": "bad mark '0'",
    "-t targets some": "wrong words for tool 'targets'",
    "-t targets all all": "wrong words for tool 'targets'",
    "-t targets depth 1 2": "wrong words for tool 'targets'",
    "-t targets rule cc ar": "wrong words for tool 'targets'",
    "-t query": "wrong words for tool 'query'",
    "-t rules cc": "wrong words for tool 'rules'",
}


def page_examples():
    """The examples of the man page that only run the program, on files in examples/: of each the
    directory, the arguments and the output."""
    section = re.search(r"^\.SH EXAMPLES\n(.*?)^\.SH ", PAGE.read_text(), re.M | re.S)[1]
    folder, examples = None, []
    for part in re.split(r"^\.E[XE]\n", section, flags=re.M):
        if part.startswith("$"):
            plain = part.replace("\\-", "-")
            sessions = re.findall(r"^\$ ninja-explain ([^>|\n]*)\n((?:(?!\$).*\n)*)", plain, re.M)
            examples += [(folder, words.split(), written) for words, written in sessions]
        elif named := re.search(r"\bexamples/\w+", part):
            folder = named[0]
    return examples

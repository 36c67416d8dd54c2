"""A project like those that CMake and Meson write, and the output of the tools for it.

A linter checks each source; its stamp file is a validation of the source's object.
"""

SOURCES = 7

MAIN = """\
ninja_required_version = 1.11

rule cc
  command = cc -c $in -o $out
rule link
  command = cc $in -o $out
rule lint
  command = lint --config $config $in && touch $out
  description = Checking $in

"""

CHECKED = """\
build app.p/{name}.o: cc ../{name}.c || app.p/version.h |@ app.p/{name}.lint
build app.p/{name}.lint: lint ../{name}.c | lint.cfg
  config = lint.cfg
"""

END = """\
build app.p/version.h: lint ../version.in
  config = none
build lint.cfg: lint ../lint.in
  config = none
build app: link {objects}
build all: phony app
default all
"""

NAMES = [f"part{number}" for number in range(SOURCES)]


def manifest():
    objects = " ".join(f"app.p/{name}.o" for name in NAMES)
    checked = "".join(CHECKED.format(name=name) for name in NAMES)
    return MAIN + checked + END.format(objects=objects)


def build_commands():
    """The commands of the default target, without the checks."""
    compiled = [f"cc -c ../{name}.c -o app.p/{name}.o\n" for name in NAMES]
    objects = " ".join(f"app.p/{name}.o" for name in NAMES)
    header = "lint --config none ../version.in && touch app.p/version.h\n"
    return [header, *compiled, f"cc {objects} -o app\n"]


def check_commands():
    """The commands of the checks, in the order of the objects that they validate."""
    config = "lint --config none ../lint.in && touch lint.cfg\n"
    checks = [f"lint --config lint.cfg ../{name}.c && touch app.p/{name}.lint\n" for name in NAMES]
    return [config, *checks]


def inputs():
    """The inputs with --validations, in the order of the edges that need them."""
    sources = [[f"../{name}.c"] for name in NAMES]
    sources[0].append("app.p/version.h")
    sources = [path for paths in sources for path in paths]
    objects = [f"app.p/{name}.o" for name in NAMES]
    return ["../version.in", *sources, *objects, "../lint.in", "lint.cfg"]


# A rule whose command is its inputs, and edges with explicit inputs only.
PLAIN = """\
rule list
  command = $in
build a: list s2 s1 u
build b: list a s3 s2
build c: list b a z s1
"""
PLAIN_COMMANDS = """\
s2 s1 u
a s3 s2
b a z s1
"""

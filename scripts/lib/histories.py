"""Random histories of a project: builds, and what happens to its files between them."""

import os
import re

from lib.programs import Program
from lib.projects import write_files
from lib.runnable_builds import PLAIN_HEADERS, dyndep_text, includes

NINJA = Program("ninja")
LOGS = [".ninja_deps", ".ninja_log"]
SECOND = 10**9


def files_below(folder):
    return [path for path in folder.rglob("*") if path.is_file()]


def latest(folder):
    """The latest time of a file."""
    return max(path.stat().st_mtime_ns for path in files_below(folder))


def set_time(path, time):
    os.utime(path, ns=(time, time))


class History:
    """A project in a directory, and what happened to it, as texts."""

    def __init__(self, chance, project, folder):
        self.chance, self.project, self.folder, self.told = chance, project, folder, []
        write_files(folder, {name: text.encode() for name, text in project.files.items()})

    def one_of(self, paths):
        """One of the files that exist, if any."""
        found = [path for path in paths if (self.folder / path).is_file()]
        return self.chance.choice(found) if found else None

    def built(self):
        """The outputs that commands make, without the manifest."""
        paths = [path for edge in self.project.edges() for path in edge.outputs]
        return [path for path in [*paths, *self.project.added.values()] if path != "build.ninja"]

    def size(self, path):
        file = self.folder / path
        return file.stat().st_size if file.is_file() else 0

    def some_of(self, paths):
        """A few of the files that exist, at times with a dot before."""
        found = [path for path in paths if (self.folder / path).is_file()]
        dot = self.chance.choice(["", "", "", "./"])
        most = min(len(found), self.chance.randint(1, 3))
        return [dot + path for path in self.chance.sample(found, most)]

    def add_included(self, path, found):
        """Adds to the files that are found those that this one includes, itself or by others."""
        file = self.folder / path
        text = file.read_text(errors="replace") if file.is_file() else ""
        for other in map(os.path.normpath, re.findall('#include "(.*)"', text)):
            if other not in found:
                found.add(other)
                self.add_included(other, found)

    def finds_generated_header(self, edge):
        """Whether the compiler reports that it found a generated header."""
        found = set()
        for kind, path in edge.inputs if edge.rule in ("cc_log", "cc_file") else ():
            if not kind:
                self.add_included(path, found)
        return any(path.startswith("gen") for path in found)

    def known_files(self):
        """The files that no edge makes, but that the manifest names or that a compiler finds."""
        named = {path for edge in self.project.build.edges for path in edge.paths()}
        for path in sorted(named):
            self.add_included(path, named)
        return [path for path in self.project.sources() if path in named]

    def missing_dyndeps(self):
        """The missing dyndep files."""
        return [path for path in self.project.dyndeps.values() if not (self.folder / path).is_file()]

    def told_edges(self):
        """The edges of which Ninja can tell whether it would run them: those that do not need a missing
        dyndep file."""
        return self.project.without(self.missing_dyndeps())

    def has_phony_file(self):
        return any((self.folder / path).exists() for path in self.project.phony())

    # ---- steps, which report what they did

    def build(self, targets=()):
        NINJA.run(["-k", "0", *targets], self.folder)
        return f"ninja {' '.join(targets)}"

    def build_some(self):
        return self.build(self.chance.sample(self.project.outputs(), 1))

    def touch_source(self):
        path = self.one_of(self.project.sources())
        set_time(self.folder / path, latest(self.folder) + 1)
        return f"touch {path}"

    def age_file(self):
        """A source or an output becomes older than another one, and than it was."""
        path = self.one_of([*self.project.sources(), *self.built()])
        other = self.one_of([*self.project.sources(), *self.built()])
        file = self.folder / path
        ago = self.chance.choice([1, SECOND, 10**6 * SECOND])
        set_time(file, min(file.stat().st_mtime_ns, (self.folder / other).stat().st_mtime_ns) - ago)
        return f"{path} is older than {other}"

    def edit_source(self):
        path = self.one_of([it for it in self.project.sources() if it.endswith((".c", ".in"))])
        if path == "build.in":
            return "nothing"
        if path in self.project.dyndeps:
            text = dyndep_text(self.chance, self.project, self.project.dyndeps[path])
        else:
            generated = [it for it in self.built() if it.endswith(".h")] if path.endswith(".c") else []
            text = includes(self.chance, PLAIN_HEADERS + generated, 3)
        return self.write(path, text)

    def write(self, path, text):
        (self.folder / path).write_text(text)
        return f"{path} is now {text!r}"

    def remove_output(self):
        path = self.one_of(self.built())
        if not path:
            return "nothing"
        (self.folder / path).unlink()
        return f"rm {path}"

    def remove_dyndep(self):
        path = self.one_of(self.project.dyndeps.values())
        if not path:
            return "nothing"
        (self.folder / path).unlink()
        return f"rm {path}"

    def touch_output(self):
        """An output becomes newer than the log says, more often one with dependencies there."""
        logged = [edge.outputs[0] for edge in self.project.edges() if edge.rule == "cc_log"]
        path = self.one_of(logged if self.chance.random() < 0.7 else self.built())
        if not path:
            return "nothing"
        file = self.folder / path
        set_time(file, file.stat().st_mtime_ns + self.chance.choice([1, SECOND // 1000]))
        return f"touch {path}"

    def spoil_depfile(self):
        path = self.one_of([f"{path}.d" for path in self.built()])
        if not path:
            return "nothing"
        text = self.chance.choice([None, "", "other: h0.h\n", f"././{path[:-2]}: h0.h\n"])
        if text is None:
            (self.folder / path).unlink()
            return f"rm {path}"
        return self.write(path, text)

    def spoil_log(self):
        path = self.one_of([self.project.log(name) for name in LOGS])
        if not path:
            return "nothing"
        file = self.folder / path
        size = self.chance.choice([None, self.chance.randrange(file.stat().st_size + 1)])
        if size is None:
            file.unlink()
        else:
            os.truncate(file, size)
        return f"{path} has {size} bytes"

    def make_phony_file(self):
        phony = self.project.phony()
        if not phony:
            return "nothing"
        path = self.chance.choice(phony)
        (self.folder / path).write_text("")
        return f"touch {path}, which is phony"

    # ---- the whole

    def step(self, *steps):
        self.told.append(self.chance.choice(steps)())

    def run(self):
        """A history, of which most end in a whole build, and after some of these an output or one of two
        dyndep files is removed or something else happens."""
        changes = [
            self.touch_source, self.age_file, self.edit_source, self.remove_output, self.touch_output,
            self.spoil_depfile, self.spoil_log,
        ]
        for _ in range(self.chance.randint(0, 2)):
            self.step(self.build, self.build_some)
            for _ in range(self.chance.randint(1, 2)):
                self.step(*changes)
        if self.chance.random() < 0.05:
            self.step(self.make_phony_file)
        if self.chance.random() < 0.9:
            self.step(self.build)
        if len(self.project.dyndeps) > 1 and self.chance.random() < 0.6:
            self.step(self.remove_dyndep)
        elif self.chance.random() < 0.3:
            self.step(self.remove_output)
        if self.chance.random() < 0.4:
            self.step(*[self.touch_output, self.spoil_depfile] * 2, *changes)

#!/usr/bin/env python3
"""Builds by a cache: python3 cache.py STORE FOLDER [--with TEXT].. [--with-file FILE].. (README.md)"""

import json
import os
import shutil
import subprocess
import sys
from hashlib import sha256
from pathlib import Path


def ask(folder, *words):
    asked = [os.environ.get("NINJA_GRAPH", "ninja-graph"), *words, "-C", folder]
    return subprocess.run(asked, stdout=subprocess.PIPE, text=True, check=True).stdout.splitlines()


class Build:
    def __init__(self, store, folder, words):
        self.store, self.folder = Path(store).resolve(), Path(folder).resolve()
        shared = ["--base", str(self.folder), *words]
        lists = [ask(folder, "keys", "--json", *words) for words in (shared, [*shared, "--with", str(self.folder)])]
        self.edges = [[json.loads(line) for line in lines] for lines in lists]

    def digest(self, path):
        file = self.folder / path
        return sha256(file.read_bytes()).hexdigest() if file.is_file() else ""

    def entry(self, edge):
        digests = [self.digest(read["path"]) for read in edge["inputs"]]
        return self.store / sha256("\n".join([edge["key"], *digests]).encode()).hexdigest()

    def discovered(self, depfile):
        """The files that a depfile names, each with its digest; paths below the build are relative to it."""
        text = (self.folder / depfile).read_text().replace("\\\n", " ").partition(": ")[2] if depfile else ""
        paths = sorted({path.removeprefix(f"{self.folder}/") for path in text.split()})
        return [[path, self.digest(path)] for path in paths]

    def fetch(self, entry, outputs):
        for kept in sorted(entry.glob("*/")):
            if all(self.digest(path) == digest for path, digest in json.loads((kept / "files").read_text())):
                return [shutil.copy(kept / str(at), self.folder / path) for at, path in enumerate(outputs)]

    def keep(self, entry, depfile, outputs):
        files, made = json.dumps(self.discovered(depfile)), self.store / f"new{os.getpid()}"
        made.mkdir(parents=True)
        (made / "files").write_text(files)
        for at, path in enumerate(outputs):
            shutil.copy(self.folder / path, made / str(at))
        entry.mkdir(exist_ok=True)
        kept = entry / sha256(files.encode()).hexdigest()
        shutil.rmtree(made) if kept.exists() else made.rename(kept)

    def make(self, edge, own):
        outputs, entries = edge["outputs"] + edge["implicit_outputs"], [self.entry(edge), self.entry(own)]
        for path in filter(None, [*outputs, edge["response_file"], edge["depfile"]]):
            (self.folder / path).parent.mkdir(parents=True, exist_ok=True)
        if any(self.fetch(entry, outputs) for entry in entries):
            return "hit"
        if edge["response_file"]:
            (self.folder / edge["response_file"]).write_text(edge["response"])
        subprocess.run(["sh", "-c", edge["command"]], cwd=self.folder, check=True)
        is_own = any(os.fsencode(self.folder) in (self.folder / path).read_bytes() for path in outputs)
        self.keep(entries[is_own], edge["depfile"], outputs)
        return "own" if is_own else "run"


build = Build(sys.argv[1], sys.argv[2], sys.argv[3:])
for shared, own in zip(*build.edges):
    print(build.make(shared, own), *(shared["outputs"] + shared["implicit_outputs"])[:1], flush=True)

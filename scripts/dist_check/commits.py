"""What is packed is as the commit has it, and not without a verdict on each crate.

They need no built program: `python3 scripts/dist_check commits` runs these checks alone. A clone with
these scripts packs stand-ins for the programs and the library, and a script stands in for `rt`.
"""

import json
import os
import re
import shutil
import subprocess
import sys
import tarfile
import zipfile

from dist.contents import LIBRARY, PROGRAMS
from dist_check.packed import ARCHIVE, DEBS, STATEMENT, prefixes, run
from lib.checks import check, expect
from lib.programs import ROOT

NEEDS = ["git", "cc", "ar", "readelf", "objdump", "dpkg-deb"]
LOGIC = "0123456789abcdef"
COMMENT = f"""\
__asm__(".section .comment,\\"MS\\",@progbits,1\\n.string \\"rattle logic={4 * LOGIC}\\"\\n.text");
"""
PROGRAM = f"{COMMENT}int main(void) {{ return 0; }}\n"
LIBRARY_SOURCE = f"#include <stdlib.h>\n{COMMENT}void *nx_open(void) {{ return malloc(1); }}\n"
VERDICT = "logic=proved functions=1 sum=1"
# Writes a verdict on each packed crate, as `make` keeps it.
KEEPING = f"""\
import sys
sys.path.insert(0, "scripts")
from dist import provenance
from lib import verdicts
for name in provenance.packed_crates():
    verdicts.keep(name, "{VERDICT}")
    print(name)
"""
# Files of each kind that is packed, and where it is then.
CHANGED = [
    "man/ninja-graph.1",
    "completions/ninja-explain.bash",
    "completions/_ninja-graph",
    "include/ninja_explain.h",
    "include/ninja_explain.pc.in",
    "README.md",
    "CHANGELOG.md",
    "SECURITY.md",
    "LICENSE",
    "VERSION",
    "docs/NINJA-GRAPH.md",
    "examples/hello/build.ninja",
    "python/pyproject.toml",
    "python/README.md",
    "python/ninja_explain/_graph.py",
]
# What says of the commit whether it has changes.
OF_COMMIT = {"PROVENANCE", STATEMENT, "SHA256SUMS"}
LINK = re.compile(r"!?\[((?:[^\[\]`]|`[^`\n]*`)*)\]\(([^)#\s]*)(?:#[^)\s]*)?\)")
CODE = re.compile(r"^```.*?^```$|(?<!\[)`[^`\n]*`", re.M | re.S)
IGNORED = ["include/ignored.h", "python/ninja_explain/ignored.py", "man/ignored.1", "completions/_ignored"]


class Clone:
    """A clone of the commit with these scripts, and stand-ins for what is built."""

    def __init__(self, folder):
        self.top, self.bin, self.built = folder / "clone", folder / "bin", folder / "built"
        run("git", "clone", "--quiet", ROOT, self.top, check=True)
        shutil.rmtree(self.top / "scripts")
        shutil.copytree(ROOT / "scripts", self.top / "scripts", ignore=shutil.ignore_patterns("__pycache__"))
        self.git("add", "--all")
        self.git("-c", "user.name=check", "-c", "user.email=check", "commit", "-qm", "x", "--allow-empty")
        self.commit = self.git("rev-parse", "HEAD").strip()
        self.bin.mkdir()
        (self.bin / "rt").write_text(f"#!/bin/sh\necho rattle-kit-0 logic {LOGIC}\n")
        (self.bin / "rt").chmod(0o755)
        self.build()
        self.crates = self.python("-c", KEEPING, check=True).stdout.split()

    def git(self, *words):
        return run("git", "-C", self.top, *words, check=True).stdout

    def build(self):
        self.built.mkdir()
        (self.built / "program.c").write_text(PROGRAM)
        (self.built / "library.c").write_text(LIBRARY_SOURCE)
        for crate in PROGRAMS.values():
            (self.built / crate / "out").mkdir(parents=True)
            run("cc", self.built / "program.c", "-o", self.built / crate / "out" / crate, check=True)
        source, name = self.built / "library.c", self.built / LIBRARY
        run("cc", "-shared", "-fPIC", source, "-o", f"{name}.so.1", check=True)
        run("cc", "-c", source, "-o", f"{name}.o", check=True)
        run("ar", "rcs", f"{name}.a", f"{name}.o", check=True)

    def python(self, *words, **how):
        environment = {**os.environ, "PATH": f"{self.bin}:{os.environ['PATH']}"}
        environment |= {"PYTHONDONTWRITEBYTECODE": "1"}
        return run(sys.executable, *words, cwd=self.top, env=environment, **how)

    def pack(self, out, *words):
        """How a packing ends, and the bytes of the packed files."""
        words = ["--crates", self.built, "--library", self.built, *words]
        ran = self.python("scripts/dist", *words, out)
        files = out.iterdir() if out.is_dir() else ()
        return (ran.returncode, ran.stderr), {it.name: it.read_bytes() for it in files}

    def exclude(self, *paths):
        with (self.top / ".git/info/exclude").open("a") as file:
            file.writelines(f"/{path}\n" for path in paths)


def append(file, text="PLANTED\n"):
    file.write_bytes(file.read_bytes() + text.encode())


def differing(found, wanted):
    """The names of packed files with other bytes."""
    return sorted(name for name in {*found, *wanted} if found.get(name) != wanted.get(name))


# ---- the files of the commit


@check(needs=NEEDS)
def hidden_changes(folder):
    """Changes that the index hides, and one that it does not, change no package."""
    clone = Clone(folder)
    end, wanted = clone.pack(folder / "clean")
    yield from expect("a clean clone", end, (0, ""))
    if f"commit {clone.commit}\n".encode() not in wanted["PROVENANCE"]:
        yield "the commit of a clean clone is not named alone"
    for at, path in enumerate(CHANGED):
        append(clone.top / path)
        if at:
            how = "--assume-unchanged" if at % 2 else "--skip-worktree"
            clone.git("update-index", how, path)
    end, found = clone.pack(folder / "changed")
    yield from expect("a changed clone", end, (0, ""))
    changed = [name for name in differing(found, wanted) if name not in OF_COMMIT]
    yield from expect("the changed packages", changed, [])
    clone.git("checkout", "--", CHANGED[0])
    end, found = clone.pack(folder / "hidden")
    line = f"commit {clone.commit} and changes that are not committed\n".encode()
    yield from expect("hidden changes are named", line in found.get("PROVENANCE", b""), True)


@check(needs=NEEDS)
def ignored_files(folder):
    """Files that git ignores, and those that nobody added, are not packed."""
    clone = Clone(folder)
    _, wanted = clone.pack(folder / "clean")
    for path in IGNORED:
        (clone.top / path).write_text("PLANTED\n")
    clone.exclude(*IGNORED)
    yield from expect("the status of git", clone.git("status", "--porcelain"), "")
    end, found = clone.pack(folder / "ignored")
    yield from expect("with ignored files", (end, differing(found, wanted)), ((0, ""), []))
    (clone.top / "include/added.h").write_text("PLANTED\n")
    end, found = clone.pack(folder / "added")
    changed = differing(found, wanted)
    yield from expect("with a new file", (end, changed), ((0, ""), sorted(OF_COMMIT)))


def packed_texts(out):
    """What is packed in the archive and the wheel, by where the repository has it, if it is a text."""
    with tarfile.open(out / f"{ARCHIVE}.tar.gz") as archive:
        for it in archive.getmembers():
            path = it.name.removeprefix(f"{ARCHIVE}/").replace("share/man/man1/", "man/")
            if it.isfile() and path.startswith(("man/", "include/", "LICENSE", "docs/", "examples/")):
                yield path, archive.extractfile(it).read()
            if path in ("README.md", "CHANGELOG.md", "SECURITY.md"):
                yield path, archive.extractfile(it).read()
    with zipfile.ZipFile(next(out.glob("*.whl"))) as wheel:
        for name in wheel.namelist():
            if name.endswith((".py", ".typed")):
                yield f"python/{name}", wheel.read(name)


def without_links(path, content):
    """The text of a page with the text of each link in its place; other files unchanged."""
    return LINK.sub(r"\1", content.decode()) if path.endswith(".md") else content


@check(needs=NEEDS)
def as_git_has_them(folder):
    """Texts in the packages are those that git shows of the commit, but for where the links of pages lead."""
    clone = Clone(folder)
    for path in sorted({*CHANGED} - {"VERSION", "python/pyproject.toml"}):
        append(clone.top / path)
    clone.pack(folder / "out")
    found = dict(packed_texts(folder / "out"))
    words = ["git", "-C", clone.top, "cat-file", "blob"]
    wanted = {it: subprocess.run([*words, f"HEAD:{it}"], stdout=subprocess.PIPE).stdout for it in found}
    found, wanted = ({it: without_links(it, text) for it, text in each.items()} for each in (found, wanted))
    yield from expect("how many", len(found) > 12, True)
    yield from expect("differences", differing(found, wanted), [])


# ---- pages


def dead_links(prefix):
    """The links of the packed pages that lead to no packed file."""
    for page in sorted(prefix.folder.rglob("*.md")):
        for _, link in LINK.findall(CODE.sub("", page.read_text())):
            if link and "://" not in link and not (page.parent / link).exists():
                yield f"{prefix.name}: {page.relative_to(prefix.folder)} links {link}"


@check(needs=NEEDS)
def links_of_packed_pages(folder):
    """The pages of the archive and of the Debian packages link only what is packed with them."""
    clone = Clone(folder)
    clone.pack(folder / "out")
    for prefix in prefixes(folder / "out", folder):
        names = {it.name for it in prefix.folder.rglob("*.md")}
        yield from expect("its pages", {"README.md", "NINJA-GRAPH.md", "C.md", "PYTHON.md"} - names, set())
        yield from dead_links(prefix)


def refusal_after(clone, folder, change, *words):
    """How a packing ends after a change that is committed, and the names of the packed files."""
    change()
    clone.git("-c", "user.name=check", "-c", "user.email=check", "commit", "-qam", "planted")
    (status, error), found = clone.pack(folder / change.__name__, *words)
    return status, error, sorted(found)


@check(needs=NEEDS)
def pages_with_dead_links(folder):
    """A link to a file that the commit lacks, and a page that is missing, are refused."""
    clone = Clone(folder)

    def dead_link():
        append(clone.top / "docs/DEPS.md", "\nSee [there](GONE.md).\n")

    def missing_page():
        clone.git("checkout", "-q", "HEAD~1", "--", "docs/DEPS.md")
        clone.git("rm", "-q", "docs/NINJA-GRAPH.md")

    said = "dist: docs/DEPS.md links GONE.md, and the commit has no file docs/GONE.md\n"
    yield from expect("a dead link", refusal_after(clone, folder, dead_link), (1, said, []))
    status, error, found = refusal_after(clone, folder, missing_page)
    said = "and the commit has no file docs/NINJA-GRAPH.md\n"
    yield from expect(f"a missing page: {error}", (status, error.endswith(said), found), (1, True, []))


# ---- who made it


def key_of(folder, name):
    """A new key of OpenSSH, and the file that says whose signatures by it are allowed."""
    key, allowed = folder / name, folder / f"{name}.allowed"
    run("ssh-keygen", "-q", "-t", "ed25519", "-N", "", "-C", name, "-f", key, check=True)
    allowed.write_text(f"{name} {(folder / f'{name}.pub').read_text()}")
    return key, allowed


def is_signed(out, allowed, name):
    """Whether the signature holds, as SECURITY.md tells a user to find out."""
    words = ["ssh-keygen", "-Y", "verify", "-f", allowed, "-I", name, "-n", "file"]
    sums = (out / "SHA256SUMS").read_text()
    return run(*words, "-s", out / "SHA256SUMS.sig", input=sums).returncode == 0


@check(needs=[*NEEDS, "ssh-keygen"])
def signatures(folder):
    """The checksums are signed by the given key, and no other key or text fits the signature."""
    clone, out = Clone(folder), folder / "out"
    key, allowed = key_of(folder, "maker")
    _, others = key_of(folder, "stranger")
    end, _ = clone.pack(out, "--key", key)
    yield from expect("the status", end, (0, ""))
    yield from expect("signed", is_signed(out, allowed, "maker"), True)
    yield from expect("signed by another key", is_signed(out, others, "stranger"), False)
    append(out / "SHA256SUMS", "0  planted\n")
    yield from expect("of another text", is_signed(out, allowed, "maker"), False)
    end, found = clone.pack(folder / "no key", "--key", folder / "none")
    yield from expect("without the key", (end[0], "SHA256SUMS.sig" in found), (1, False))


@check(needs=NEEDS)
def statement_of_origins(folder):
    """The statement has the checksums of the packages, the commit, and no builder that nobody named."""
    clone, out = Clone(folder), folder / "out"
    clone.pack(out)
    stated = json.loads((out / STATEMENT).read_text())
    found = {it["name"]: it["digest"]["sha256"] for it in stated["subject"]}
    sums = dict(reversed(line.split("  ")) for line in (out / "SHA256SUMS").read_text().splitlines())
    wanted = {name: sum for name, sum in sums.items() if name not in ("PROVENANCE", STATEMENT)}
    yield from expect("the subjects", found, wanted)
    predicate = stated["predicate"]
    source = predicate["buildDefinition"]["resolvedDependencies"][0]
    yield from expect("the commit", source, {"name": "source", "digest": {"gitCommit": clone.commit}})
    yield from expect("the builder", predicate["runDetails"]["builder"], {})
    clone.pack(folder / "named", "--builder", "https://builder.example/1")
    predicate = json.loads((folder / "named" / STATEMENT).read_text())["predicate"]
    wanted = {"id": "https://builder.example/1"}
    yield from expect("a named builder", predicate["runDetails"]["builder"], wanted)


# ---- verdicts


def is_refused(clone, folder, name, crates, *words):
    """The problems if a packing is not refused with exactly these crates, or leaves a file."""
    (status, error), found = clone.pack(folder / name, *words)
    said = error.partition("there is no verdict on ")[2].partition(":")[0].split(", ")
    yield from expect(f"{name}: {error}", (status, said, sorted(found)), (1, crates, []))


@check(needs=NEEDS)
def no_verdicts(folder):
    """A packing without a verdict on a crate is refused with the names of all those."""
    clone = Clone(folder)
    first, last = clone.crates[0], clone.crates[-1]
    log = folder / "gate.log"
    log.write_text("".join(f"== {it}\n{VERDICT}\n" for it in clone.crates if it != last))
    (clone.top / "bin/verdicts" / first).unlink()
    yield from is_refused(clone, folder, "one is missing", [first])
    end, found = clone.pack(folder / "by both", "--log", log)
    yield from expect("by a log and a verdict", (end, len(found)), ((0, ""), 5 + len(DEBS)))
    shutil.rmtree(clone.top / "bin/verdicts")
    yield from is_refused(clone, folder, "none is there", clone.crates)
    yield from is_refused(clone, folder, "a log lacks one", [last], "--log", log)
    append(log, f"== {last}\nlogic=not-proved functions=1 unproved=1\n")
    yield from is_refused(clone, folder, "one is not proved", [last], "--log", log)


@check(needs=NEEDS)
def verdicts_of_other_files(folder):
    """A kept verdict is not that of a crate with a file that git does not show as changed."""
    clone = Clone(folder)
    changed, ignored = clone.crates[0], clone.crates[1]
    source = f"crates/{changed}/src/lib.rt"
    append(clone.top / source, "// planted\n")
    clone.git("update-index", "--assume-unchanged", source)
    (clone.top / f"crates/{ignored}/src/planted.rt").write_text("// planted\n")
    clone.exclude(f"crates/{ignored}/src/planted.rt")
    yield from expect("the status of git", clone.git("status", "--porcelain"), "")
    yield from is_refused(clone, folder, "hidden sources", [changed, ignored])

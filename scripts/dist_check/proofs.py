"""Saved proofs: hostile archives, which must be refused or made harmless, and those by `save`.

They need no built program: `python3 scripts/dist_check proofs` runs these checks alone. `rt` is a
script here that names its version and does nothing else.
"""

import io
import os
import stat
import subprocess
import sys
import tarfile

from dist_check.packed import run
from lib.checks import check, expect
from lib.programs import ROOT

NEEDS = ["tar", "zstd"]
KIT = b"rattle-kit-0 logic 0123456789abcdef\n"
KEPT = "crates/nj_text/out/incremental"
LONG = f"{KEPT}/{'d' * 90}/{'f' * 130}"
# More than a process can have in memory, and than a disk can keep.
HUGE = 1 << 44


class Clone:
    """A directory with the script and two crates, beside a directory with a stand-in for `rt`."""

    def __init__(self, folder, kit=KIT, changes=()):
        self.top, self.bin, self.outside = folder / "clone", folder / "bin", folder.parent / "outside"
        for each in self.bin, self.outside, self.top / "scripts":
            each.mkdir(parents=True, exist_ok=True)
        for crate in "nj_text", "nj_names":
            (self.top / "crates" / crate / "src").mkdir(parents=True)
        script = (ROOT / "scripts/proofs.py").read_text()
        for before, after in changes:
            if before not in script:
                raise RuntimeError(f"scripts/proofs.py has no {before!r}")
            script = script.replace(before, after)
        (self.top / "scripts/proofs.py").write_text(script)
        (self.bin / "rt").write_text(f"#!/bin/sh\ncat <<'END'\n{kit.decode()}END\n")
        (self.bin / "rt").chmod(0o755)

    def run(self, action, file):
        environment = {**os.environ, "PATH": f"{self.bin}:{os.environ['PATH']}"}
        script = self.top / "scripts/proofs.py"
        return run(sys.executable, script, action, file, env=environment, umask=0o022)

    def loaded(self):
        """All that is below the crates, and beside them."""
        known = {"scripts", "scripts/proofs.py", "crates"}
        known |= {f"crates/{it}{end}" for it in ("nj_text", "nj_names") for end in ("", "/src")}
        found = {str(it.relative_to(self.top)) for it in self.top.rglob("*")}
        return (found | {str(it) for it in self.outside.iterdir()}) - known


def member(name, content=b"", mode=0o644, kind=tarfile.REGTYPE, **others):
    it = tarfile.TarInfo(name)
    it.type, it.mode, it.size = kind, mode, len(content)
    for key, value in others.items():
        setattr(it, key, value)
    return it, content


def archive(members, file, way=tarfile.GNU_FORMAT):
    """Packs members, unchanged, with the line of `rt version` before them."""
    stream = io.BytesIO()
    with tarfile.open(fileobj=stream, mode="w", format=way) as packed:
        for it, content in [member("kit", KIT), member(f"{KEPT}/first", b"1"), *members]:
            packed.addfile(it)
            packed.fileobj.write(content + b"\0" * (-len(content) % tarfile.BLOCKSIZE))
            packed.offset += len(content) + -len(content) % tarfile.BLOCKSIZE
    compress(stream.getvalue(), file)
    return file


def compress(content, file):
    subprocess.run(["zstd", "-q", "-f", "-o", file], input=content, check=True)


def folder_member(name, mode=0o755):
    return member(name, mode=mode, kind=tarfile.DIRTYPE)


# ---- refused


def planted(outside):
    """Members that no crate keeps, by what each plants."""
    it, last = f"{KEPT}/planted", member(f"{KEPT}/planted/last", b"1")
    yield "a symbolic link", [member(it, kind=tarfile.SYMTYPE, linkname=str(outside)), last]
    yield "a hard link", [member(it, kind=tarfile.LNKTYPE, linkname=f"{KEPT}/first")]
    yield "a hard link outside", [member(it, kind=tarfile.LNKTYPE, linkname="/etc/passwd")]
    yield "a device", [member(it, kind=tarfile.CHRTYPE, devmajor=1, devminor=3)]
    yield "a disk", [member(it, kind=tarfile.BLKTYPE, devmajor=8, devminor=0)]
    yield "a pipe", [member(it, kind=tarfile.FIFOTYPE)]
    yield "another type", [member(it, kind=b"7")]
    yield "an unknown type", [member(it, kind=b"Z")]
    yield "a file that is too large", [member(it, size=HUGE)]
    yield "a sparse bomb", [member(it, sparse_bomb(), kind=tarfile.GNUTYPE_SPARSE)]
    yield "an absolute path", [member(f"{outside}/planted", b"1")]
    yield "a path with ..", [member(f"{KEPT}/../../../../../../outside/planted", b"1")]
    yield "a path with .", [member(f"{KEPT}/./planted", b"1")]
    yield "a path elsewhere", [member("scripts/planted", b"1")]
    yield "a file of a crate", [member("crates/nj_text/src/planted", b"1")]
    yield "a line feed", [member(f"{it}\nlast", b"1")]
    yield "a file that is a directory", [member(it, b"1"), last]
    yield "a file twice", [member(it, b"1"), member(it, b"2")]
    yield "a name that is too long", [member(f"{KEPT}/planted{'d' * 256}", b"1")]
    yield "no directory", [member(KEPT, b"planted")]


def sparse_bomb():
    """The blocks of a file of GNU's old format with one byte at the end of a huge hole."""
    return b"1" + b"\0" * (tarfile.BLOCKSIZE - 1)


def is_refused(clone, file, name, said):
    ran = clone.run("load", file)
    if ran.returncode != 1 or said not in ran.stderr or "Traceback" in ran.stderr:
        yield f"{name}: the status is {ran.returncode}, and it says {ran.stdout + ran.stderr!r}"
    yield from expect(f"{name}, what is left", clone.loaded(), set())


@check(needs=NEEDS)
def planted_members(folder):
    """Each is refused by its name, and no crate gets anything of its archive."""
    for at, (name, members) in enumerate(planted(folder / "outside")):
        file, said = archive(members, folder / f"{at}.zst"), repr(members[0][0].name)[:-1]
        yield from is_refused(Clone(folder / str(at)), file, name, said)


@check(needs=NEEDS)
def planted_headers(folder):
    """Headers that change the next member: its size, its holes, or its path, of any length."""
    headers = {
        "a path": {"path": "/planted"},
        "a size": {"size": str(HUGE)},
        "holes": {"GNU.sparse.major": "1", "GNU.sparse.minor": "0", "GNU.sparse.realsize": str(HUGE)},
        "much": {"comment": "x" * (1 << 20)},
    }
    for at, (name, fields) in enumerate(headers.items()):
        members = [member(f"{KEPT}/planted", b"1", pax_headers=fields)]
        file = archive(members, folder / f"{at}.zst", tarfile.PAX_FORMAT)
        said = "PaxHeader" if name == "much" else "planted"
        yield from is_refused(Clone(folder / str(at)), file, name, said)
    file = archive([member(f"{KEPT}/{'long/' * 1000}", b"1")], folder / "long.zst")
    yield from is_refused(Clone(folder / "long"), file, "a long path", "LongLink")


@check(needs=NEEDS)
def planted_amounts(folder):
    """More members, or more bytes together, than an archive may hold."""
    members = [member(f"{KEPT}/{at}", b"1" * 100) for at in range(20)]
    file = archive(members, folder / "many.zst")
    bounds = {
        "members": (("MOST_MEMBERS = 500_000", "MOST_MEMBERS = 10"), f"{KEPT}/8"),
        "bytes": (("MOST_BYTES = 32 << 30", "MOST_BYTES = 1000"), f"{KEPT}/9"),
    }
    for name, (change, said) in bounds.items():
        yield from is_refused(Clone(folder / name, changes=[change]), file, name, said)
    plain = Clone(folder / "plain")
    yield from expect("without a lower bound", plain.run("load", file).returncode, 0)


@check(needs=NEEDS)
def damaged_archives(folder):
    """An archive that is cut off, or has something after its end or in place of a header."""
    whole = archive([member(f"{KEPT}/second", b"2" * 2000)], folder / "whole.zst")
    content = subprocess.run(["zstd", "-dcq", whole], stdout=subprocess.PIPE, check=True).stdout
    cases = {
        "cut off": content[:3000],
        "without an end": content[: content.index(b"2" * 2000) + 2048],
        "a broken header": content[:2048] + b"x" * 512 + content[2560:],
        "something after the end": content + b"x",
        "nothing": b"",
    }
    for at, (name, changed) in enumerate(cases.items()):
        compress(changed, folder / f"{at}.zst")
        yield from is_refused(Clone(folder / str(at)), folder / f"{at}.zst", name, "proofs.py")
    packed = whole.read_bytes()
    (folder / "half.zst").write_bytes(packed[: len(packed) // 2])
    (folder / "text.zst").write_bytes(b"no archive\n")
    for name in "half.zst", "text.zst", "none.zst":
        yield from is_refused(Clone(folder / f"of {name}"), folder / name, name, "proofs.py")


# ---- taken


def modes(top):
    """The permissions of all that the crates have kept, and which files are not regular."""
    kept = [it for crate in top.glob("crates/*/out") for it in [crate, *crate.rglob("*")]]
    return {
        "directories": {stat.S_IMODE(it.lstat().st_mode) for it in kept if it.is_dir()},
        "files": {stat.S_IMODE(it.lstat().st_mode) for it in kept if it.is_file()},
        "others": {it.name for it in kept if it.is_symlink() or not (it.is_dir() or it.is_file())},
    }


@check(needs=NEEDS)
def planted_modes(folder):
    """Modes and owners are not taken: set-user-id and set-group-id files, and directories for all."""
    members = [
        folder_member(f"{KEPT}/all", 0o777),
        folder_member(f"{KEPT}/set", 0o7777),
        folder_member(f"{KEPT}/none", 0),
        member(f"{KEPT}/all/user", b"1", 0o4755, uid=1234, gid=1234),
        member(f"{KEPT}/set/group", b"1", 0o2777),
        member(f"{KEPT}/none/unreadable", b"1", 0),
        member(f"{KEPT}/made/by/itself", b"1", 0o777),
    ]
    clone = Clone(folder)
    ran = clone.run("load", archive(members, folder / "modes.zst"))
    yield from expect("the status", (ran.returncode, ran.stderr), (0, ""))
    wanted = {"directories": {0o755}, "files": {0o644}, "others": set()}
    yield from expect("the modes", modes(clone.top), wanted)
    owners = {(it.stat().st_uid, it.stat().st_gid) for it in (clone.top / KEPT).rglob("*")}
    yield from expect("the owners", owners, {(os.getuid(), os.getgid())})
    yield from expect("a file", (clone.top / KEPT / "made/by/itself").read_bytes(), b"1")


@check(needs=NEEDS)
def saved_and_loaded(folder):
    """What one clone saves, another one loads, and a crate that has kept something remains unchanged."""
    one, two = Clone(folder / "one"), Clone(folder / "two")
    files = {f"{KEPT}/a": b"a" * 3_000_000, LONG: b"long", f"{KEPT}/b/c": b"", "crates/nj_names/out/incremental/n": b"n"}
    for path, content in files.items():
        (one.top / path).parent.mkdir(parents=True, exist_ok=True)
        (one.top / path).write_bytes(content)
    os.link(one.top / KEPT / "a", one.top / KEPT / "linked")
    files |= {f"{KEPT}/linked": files[f"{KEPT}/a"]}
    (two.top / "crates/nj_names/out/incremental").mkdir(parents=True)
    file = folder / "saved.zst"
    yield from expect("save", one.run("save", file).returncode, 0)
    ran = two.run("load", file)
    said = f"{file}: 1 crates got what it has, 1 stay as they are\n"
    yield from expect("load", (ran.returncode, ran.stdout, ran.stderr), (0, said, ""))
    found = {str(it.relative_to(two.top)): it.read_bytes() for it in two.top.glob("crates/*/out/**/*") if it.is_file()}
    del files["crates/nj_names/out/incremental/n"]
    yield from expect("the files", found, files)
    before = (one.top / KEPT / "a").stat().st_mtime // 1
    yield from expect("a time", (two.top / KEPT / "a").stat().st_mtime // 1, before)
    other = Clone(folder / "other", KIT.replace(b"kit-0", b"kit-1"))
    yield from is_refused(other, file, "another toolchain", KIT.decode().strip())

#!/usr/bin/env python3
"""Packs the kept results of checks, or unpacks them in another clone: proofs.py save FILE, proofs.py load FILE

FILE is an archive of `tar` and `zstd` with out/incremental of each crate, and the line of `rt
version`, which has to be the same where it is unpacked. A crate that has kept something already
remains unchanged. Neither may run beside an `rt` in this clone.

A check takes from there without a proof what is up to date, so whoever made FILE is trusted by
`make`, whose verdicts then say `incremental=trusted`. The gate takes nothing from it. Whoever unpacks
it need not trust its maker with more: only regular files and directories there are unpacked, with the
modes 0644 and 0755, at most MOST_BYTES of at most MOST_MEMBERS; another member is refused by its
name, and then no crate gets anything.
"""

import os
import re
import subprocess
import sys
import tarfile
import tempfile
from contextlib import contextmanager
from pathlib import Path

TOP = Path(__file__).resolve().parent.parent
KIT = "kit"
# The paths of the directories and files that an archive may hold.
FOLDER = re.compile(r"crates/\w+/out/incremental(/[\w.+-]{1,255})*", re.A)
FILE = re.compile(r"kit|crates/\w+/out/incremental(/[\w.+-]{1,255})+", re.A)
# All crates together have kept about 6 GB in 80,000 files.
MOST_BYTES = 32 << 30
MOST_MEMBERS = 500_000
# How long a name may be, or what follows the end of an archive, and how much is copied at once.
MOST_NAME = 1024
MOST_AFTER = PIECE = 1 << 20
BLOCK = tarfile.BLOCKSIZE

PLAIN_TYPES = {tarfile.REGTYPE, tarfile.AREGTYPE, tarfile.DIRTYPE}
# Those of headers that say more about the next member.
HEADER_TYPES = {
    tarfile.GNUTYPE_LONGNAME,
    tarfile.GNUTYPE_LONGLINK,
    tarfile.XHDTYPE,
    tarfile.XGLTYPE,
    tarfile.SOLARIS_XHDTYPE,
}
OTHER_TYPES = {
    tarfile.SYMTYPE: "a symbolic link",
    tarfile.LNKTYPE: "a hard link",
    tarfile.CHRTYPE: "a device",
    tarfile.BLKTYPE: "a device",
    tarfile.FIFOTYPE: "a pipe",
    tarfile.GNUTYPE_SPARSE: "a sparse file",
}


class Refused(Exception):
    """Why a file is not taken."""


def kit():
    return subprocess.run(["rt", "version"], stdout=subprocess.PIPE, check=True).stdout


def kept(top):
    """The kept results of the crates below a directory."""
    return sorted(top.glob("crates/*/out/incremental"))


def save(file, room):
    found = [it.relative_to(TOP) for it in kept(TOP)]
    if not found:
        raise SystemExit("proofs.py: no crate has kept proofs: `make` makes them")
    (room / KIT).write_bytes(kit())
    how = ["--format=gnu", "--hard-dereference", "--owner=0", "--group=0", "--numeric-owner"]
    words = ["--zstd", "--create", "--file", file.resolve(), *how, "--sort=name"]
    ran = subprocess.run(["tar", *words, "-C", room, KIT, "-C", TOP, *found])
    if ran.returncode:
        raise SystemExit("proofs.py: tar failed")
    print(f"{file}: what {len(found)} crates kept, {file.stat().st_size >> 20} MB")


# ---- reading an archive


@contextmanager
def unpacked(file):
    """The bytes of a file of `zstd`, as a stream that has to be read to its end."""
    with file.open("rb") as packed:
        process = subprocess.Popen(["zstd", "-dc"], stdin=packed, stdout=subprocess.PIPE)
    try:
        yield process.stdout
        if process.wait():
            raise Refused("is damaged, or not of zstd")
    finally:
        process.stdout.close()
        process.kill()
        process.wait()


def exactly(stream, size):
    content = stream.read(size)
    if len(content) < size:
        raise Refused("ends too early")
    return content


def header(stream):
    """The header of the next member; `None` at the end of the archive."""
    block = exactly(stream, BLOCK)
    if not any(block):
        return None
    try:
        return tarfile.TarInfo.frombuf(block, "utf-8", "surrogateescape")
    except tarfile.HeaderError as error:
        raise Refused(f"is no archive of tar: {error}") from error


def members(stream):
    """The members of an archive, each of whose contents has to be read before the next one.

    `tarfile.open` would keep a name of any length in memory, and take a broken header for the end.
    """
    name, kind = "", ""
    while member := header(stream):
        if member.type in HEADER_TYPES:
            if not 0 <= member.size <= MOST_NAME:
                raise Refused(f"holds a header {member.name!r} of {member.size} bytes")
            text = exactly(stream, member.size + -member.size % BLOCK)[: member.size]
            if member.type == tarfile.GNUTYPE_LONGNAME:
                name = text.rstrip(b"\0").decode("utf-8", "surrogateescape")
            else:
                kind = "with a header that `save` does not write"
            continue
        member.name = name or member.name
        if member.type not in PLAIN_TYPES:
            kind = OTHER_TYPES.get(member.type, f"of type {member.type!r}")
        if kind:
            raise Refused(f"holds {member.name!r}, {kind}")
        yield member
        name = ""
    after = stream.read(MOST_AFTER + 1)
    if any(after) or len(after) > MOST_AFTER:
        raise Refused("holds something after its end")


def checked(found):
    """These members, as long as each may be unpacked."""
    count = size = 0
    for member in found:
        shape = FOLDER if member.isdir() else FILE
        is_plain = {".", ".."}.isdisjoint(member.name.split("/"))
        if not is_plain or not shape.fullmatch(member.name.rstrip("/")):
            raise Refused(f"holds {member.name!r}, which no crate keeps")
        count, size = count + 1, size + member.size
        if member.size < 0 or size > MOST_BYTES:
            raise Refused(f"holds {member.name!r}, with which it has more than {MOST_BYTES} bytes")
        if count > MOST_MEMBERS:
            raise Refused(f"holds {member.name!r}, with which it has more than {MOST_MEMBERS} members")
        yield member


# ---- writing its members


def make_folder(path):
    if not path.is_dir():
        make_folder(path.parent)
        path.mkdir()
        path.chmod(0o755)


def write_file(member, stream, path):
    make_folder(path.parent)
    with path.open("xb") as file:
        path.chmod(0o644)
        for at in range(0, member.size, PIECE):
            file.write(exactly(stream, min(PIECE, member.size - at)))
    exactly(stream, -member.size % BLOCK)
    os.utime(path, (member.mtime, member.mtime))


def extract(file, room):
    with unpacked(file) as stream:
        for member in checked(members(stream)):
            path = room / member.name
            try:
                if member.isdir():
                    make_folder(path)
                else:
                    write_file(member, stream, path)
            except (FileExistsError, NotADirectoryError) as error:
                raise Refused(f"holds {member.name!r} where something is already") from error
            except OverflowError as error:
                raise Refused(f"holds {member.name!r} with a time that no file has") from error


def load(file, room):
    try:
        extract(file, room)
    except Refused as why:
        raise SystemExit(f"proofs.py: {file} {why}") from why
    made_by = (room / KIT).read_bytes() if (room / KIT).is_file() else b""
    if made_by != kit():
        raise SystemExit(f"proofs.py: {file} is for {made_by.decode(errors='replace').strip() or 'no known kit'}")
    loaded = passed = 0
    for found in kept(room):
        path = TOP / found.relative_to(room)
        is_new = path.parents[1].is_dir() and not path.exists()
        if is_new:
            path.parent.mkdir(exist_ok=True)
            found.rename(path)
        loaded, passed = loaded + is_new, passed + (not is_new)
    print(f"{file}: {loaded} crates got what it has, {passed} stay as they are")


def main():
    actions = {"save": save, "load": load}
    if len(sys.argv) != 3 or sys.argv[1] not in actions:
        raise SystemExit("usage: proofs.py save FILE, proofs.py load FILE")
    # beside the crates, so that directories can be moved to them
    with tempfile.TemporaryDirectory(prefix="proofs-", dir=TOP) as room:
        try:
            actions[sys.argv[1]](Path(sys.argv[2]), Path(room))
        except FileNotFoundError as missing:
            raise SystemExit(f"proofs.py: there is no {missing.filename}") from missing


if __name__ == "__main__":
    main()

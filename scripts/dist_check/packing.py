"""The bytes of packages, and the pieces that make them."""

import io
import subprocess
import tarfile

from dist import provenance
from dist.binaries import libc_of
from dist_check.packed import ARCHIVE, DEBS, files_of, pack, run
from lib import verdicts
from lib.checks import check, expect

SYMBOLS = """\
0000000000000000      DF *UND*	0000000000000000 (GLIBC_2.34) __libc_start_main
0000000000000000  w   D  *UND*	0000000000000000              __gmon_start__
0000000000000000      DF *UND*	0000000000000000 (GLIBC_2.2.5) free
0000000000000000      DF *UND*	0000000000000000 (GLIBC_2.4)  __stack_chk_fail
"""
LOG = """\
rt: chose 2 at a time
== nj_text
fn nj_text::quote: proved
logic=proved functions=2 sum=1
== nj_tests
logic=proved functions=1 sum=1
logic=proved functions=3 tests=2 sum=1
== nj_graph
logic=not-proved functions=1 unproved=1
"""


@check
def newest_libc():
    yield from expect("the newest version", libc_of(SYMBOLS), "2.34")
    yield from expect("without versions", libc_of("0 DF *UND* 0 free\n"), None)


@check
def verdicts_in_a_log():
    wanted = {"nj_text": "logic=proved functions=2 sum=1", "nj_tests": "logic=proved functions=1 sum=1"}
    yield from expect("the verdicts", verdicts.read(LOG), wanted)


@check
def all_files_are_there(built, packed):
    yield from expect("the files", {it.name for it in packed.iterdir()}, files_of(built))


@check
def twice_gives_the_same_bytes(built, packed, folder):
    ran = pack(built, folder / "again")
    yield from expect("the status", (ran.returncode, ran.stderr), (0, ""))
    for name in sorted(files_of(built)):
        if (packed / name).read_bytes() != (folder / "again" / name).read_bytes():
            yield f"{name} has other bytes"


@check(needs=["sha256sum"])
def checksums_hold(packed):
    ran = run("sha256sum", "--strict", "--quiet", "-c", "SHA256SUMS", cwd=packed)
    yield from expect("sha256sum", (ran.returncode, ran.stdout), (0, ""))


def tars(packed):
    """All that is packed, as archives of tar with their names."""
    yield tarfile.open(packed / f"{ARCHIVE}.tar.gz"), ARCHIVE
    for name in DEBS:
        for part in "--fsys-tarfile", "--ctrl-tarfile":
            ran = subprocess.run(["dpkg-deb", part, packed / name], stdout=subprocess.PIPE, check=True)
            yield tarfile.open(fileobj=io.BytesIO(ran.stdout)), f"{name}, {part}"


@check(needs=["dpkg-deb"])
def times_and_owners(packed):
    """All times are those of the commit; root owns all, and others may not write."""
    _, time = provenance.commit()
    for archive, name in tars(packed):
        members = archive.getmembers()
        if not members:
            yield f"{name} is empty"
        for it in members:
            mode = 0o777 if it.issym() else 0o755 if it.isdir() or "/bin/" in it.name else 0o644
            yield from expect(f"{name}, {it.name}", (it.mtime, it.uid, it.gid), (time, 0, 0))
            yield from expect(f"{name}, {it.name}, its mode", it.mode, mode)


@check(needs=["dpkg-deb", "md5sum"])
def sums_of_debs(packed, folder):
    for name in DEBS:
        run("dpkg-deb", "--raw-extract", packed / name, folder / name, check=True)
        ran = run("md5sum", "--strict", "--quiet", "-c", "DEBIAN/md5sums", cwd=folder / name)
        yield from expect(name, (ran.returncode, ran.stdout), (0, ""))

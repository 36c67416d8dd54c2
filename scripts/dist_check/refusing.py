"""Inputs that must be refused: changed bytes, and programs that nobody proved."""

import re
import shutil

from dist.contents import LIBRARY, PROGRAMS
from dist_check.packed import ARCHIVE, DEBS, STATEMENT, Built, files_of, pack, run
from lib.checks import check, expect
from lib.programs import ROOT

UNPROVED = "int main(void) { return 0; }\n"


def copy_of(built, folder):
    """A copy of the built files, to be changed."""
    copy = Built(folder / "crates", folder / "library", built.log)
    for crate in PROGRAMS.values():
        (copy.crates / crate / "out").mkdir(parents=True)
        shutil.copy(built.crates / crate / "out" / crate, copy.crates / crate / "out")
    shutil.copytree(built.library, copy.library, symlinks=True)
    return copy


def binaries(built):
    programs = [built.crates / it / "out" / it for it in PROGRAMS.values()]
    return [*programs, built.library / f"{LIBRARY}.a", built.library / f"{LIBRARY}.so.1"]


def unproved(folder):
    (folder / "unproved.c").write_text(UNPROVED)
    run("cc", folder / "unproved.c", "-o", folder / "unproved", check=True)
    return folder / "unproved"


def is_refused(built, folder, name, said):
    """The problems if a packing is not refused with these words, or leaves a file."""
    ran = pack(built, folder / "out")
    if ran.returncode != 1 or said not in ran.stderr:
        yield f"{name}: the status is {ran.returncode}, and it says {ran.stderr!r}"
    if (folder / "out").exists():
        yield f"{name}: something was packed"
        shutil.rmtree(folder / "out")


@check(needs=["cc"])
def unproved_binaries(built, folder):
    copy, other = copy_of(built, folder), unproved(folder)
    for file in binaries(copy):
        before = file.read_bytes()
        shutil.copy(other, file)
        yield from is_refused(copy, folder, file.name, f"{file} names no logic")
        file.write_bytes(before)


@check
def another_logic(built, folder):
    """A binary of another toolchain, whose logic is not that of `rt version`."""
    copy = copy_of(built, folder)
    for file in binaries(copy):
        before = file.read_bytes()
        file.write_bytes(re.sub(rb"rattle logic=.{4}", b"rattle logic=0123", before))
        yield from is_refused(copy, folder, file.name, f"{file} names logic=0123")
        file.write_bytes(before)


@check(needs=["cc", "objcopy"])
def other_libraries(built, folder):
    """A program that links more than the C library."""
    copy = copy_of(built, folder)
    program = binaries(copy)[0]
    comment = folder / "comment"
    run("objcopy", f"--dump-section=.comment={comment}", program, folder / "same", check=True)
    (folder / "links.c").write_text("double f(double);\n" + UNPROVED)
    words = ["-Wl,--no-as-needed", "-lm", "-o", program]
    run("cc", folder / "links.c", *words, check=True)
    run("objcopy", f"--update-section=.comment={comment}", program, check=True)
    yield from is_refused(copy, folder, "libm", f"{program} links libm.so.6")


@check(needs=["cc", "make"])
def make_install(built, folder):
    """Where one program is unproved, `make install` installs nothing."""
    other, root = unproved(folder), folder / "root"
    for name in PROGRAMS:
        programs = folder / f"{name} unproved"
        programs.mkdir()
        for it, crate in PROGRAMS.items():
            source = other if it == name else built.crates / crate / "out" / crate
            shutil.copy(source, programs / it)
        words = [f"BIN={programs}", f"DESTDIR={root}"]
        ran = run("make", "--silent", "-C", ROOT, "install", *words)
        if not ran.returncode or f"{programs / name} names no logic" not in ran.stderr or root.exists():
            yield f"{name}: the status is {ran.returncode}, and it says {ran.stderr!r}"


def change(file, at):
    content = bytearray(file.read_bytes())
    content[at] ^= 1
    file.write_bytes(content)


@check(needs=["sha256sum"])
def changed_packages(built, packed, folder):
    """One changed byte of a file is found by its checksum, and no other file is named."""
    for name in sorted(files_of(built) - {"SHA256SUMS"}):
        copy = folder / name
        shutil.copytree(packed, copy)
        change(copy / name, (copy / name).stat().st_size // 2)
        ran = run("sha256sum", "--quiet", "-c", "SHA256SUMS", cwd=copy)
        yield from expect(name, (ran.returncode, ran.stdout), (1, f"{name}: FAILED\n"))


@check
def changed_program(built, packed, folder):
    """A program with one changed byte gives other packages, and the library's is unchanged."""
    copy = copy_of(built, folder)
    for file in binaries(copy)[: len(PROGRAMS)]:
        change(file, file.read_bytes().index(b"rattle logic=") - 2)
    ran = pack(copy, folder / "out")
    yield from expect("the status", (ran.returncode, ran.stderr), (0, ""))
    changed = {
        it.name for it in packed.iterdir() if it.read_bytes() != (folder / "out" / it.name).read_bytes()
    }
    wanted = {f"{ARCHIVE}.tar.gz", DEBS[0], "PROVENANCE", STATEMENT, "SHA256SUMS"}
    yield from expect("the files that differ", changed, wanted)

"""The verdicts of Debian's own programs on the packages, and a Debian into which they are installed."""

import os
import shutil
import time

from dist import debian
from dist.binaries import numbers
from dist_check.packed import DEBS, run
from dist_check.unpacked import HELLO
from lib.checks import Skipped, check, expect
from lib.programs import EXAMPLES

# The releases of Debian, with the version of their C library, the oldest first.
RELEASES = {"buster": "2.28", "bullseye": "2.31", "bookworm": "2.36", "trixie": "2.41"}
ARCHIVE = "http://deb.debian.org/debian"
# How long it may take from the packages to the first answer.
SECONDS = 60


@check(needs=["lintian"])
def lintian_finds_no_error(packed):
    for name in DEBS:
        ran = run("lintian", "--allow-root", "--fail-on", "error", packed / name)
        if ran.returncode:
            yield f"{name}: status {ran.returncode}\n{ran.stdout}{ran.stderr}"


def oldest_release(packed):
    """The oldest release whose C library is new enough for all packages."""
    depends = [run("dpkg-deb", "--field", packed / it, "Depends", check=True) for it in DEBS]
    least = max((numbers(it.stdout.split(">= ")[1].rstrip(")\n")) for it in depends))
    return next(it for it, libc in RELEASES.items() if numbers(libc) >= least)


def installed(release, root):
    """Puts a small Debian into a directory."""
    if os.geteuid() != 0:
        raise Skipped("debootstrap needs root")
    ran = run("debootstrap", "--variant=minbase", release, root, ARCHIVE)
    if ran.returncode:
        raise Skipped(f"debootstrap of {release} failed: {ran.stdout.splitlines()[-1:]}")


def inside(root, *words):
    return run("chroot", root, *words, env={"PATH": "/usr/sbin:/usr/bin:/sbin:/bin"})


@check(needs=["debootstrap", "chroot"], alone=True)
def fresh_debian(packed, folder):
    """In a new Debian of the oldest release, the packages install, answer, and go again."""
    root = folder / "root"
    installed(oldest_release(packed), root)
    for name in DEBS:
        shutil.copy(packed / name, root / "tmp")
    shutil.copy(EXAMPLES / "hello/build.ninja", root / "tmp")
    start = time.monotonic()
    ran = inside(root, "dpkg", "--install", *(f"/tmp/{it}" for it in DEBS))
    yield from expect("dpkg --install", (ran.returncode, ran.stderr), (0, ""))
    found = inside(root, "sh", "-c", "cd /tmp && ninja-explain -t commands")
    yield from expect("the answer", (found.returncode, found.stdout), (0, HELLO.decode()))
    if time.monotonic() - start > SECONDS:
        yield f"it took more than {SECONDS} seconds"
    if "libninja_explain.so.1 " not in inside(root, "ldconfig", "--print-cache").stdout:
        yield "the loader does not find the library"
    names = [debian.LIBRARY_PACKAGE.name, debian.PROGRAM_PACKAGE.name]
    ran = inside(root, "dpkg", "--purge", *names)
    yield from expect("dpkg --purge", ran.returncode, 0)
    left = [it for it in root.rglob("*ninja*explain*") if "/tmp/" not in str(it.relative_to(folder))]
    yield from expect("what is left", left, [])

"""The packages, and how they are unpacked."""

import subprocess
import sys
import tarfile
from collections import namedtuple

from dist import wheel
from dist.binaries import libc_needed
from dist.contents import LIBRARY
from dist.debian import LIBRARIES, LIBRARY_PACKAGE, PROGRAM_PACKAGE
from lib.programs import ROOT
from lint.version import version

# The directories with the built files, and a log with verdicts if it is not the kept ones that count,
# as `scripts/dist` takes them.
Built = namedtuple("Built", "crates library log", defaults=[None])
# A directory with the files of a package below its PREFIX, its libraries, and pkg-config's environment.
Prefix = namedtuple("Prefix", "name folder libraries environment")

ARCHIVE = f"ninja-explain-{version()}-linux-x86_64"
STATEMENT = "PROVENANCE.intoto.json"
DEBS = [f"{it.name}_{version()}_amd64.deb" for it in (PROGRAM_PACKAGE, LIBRARY_PACKAGE)]


def run(*words, check=False, **how):
    """How a command ended, with its outputs as text. With `check` it has to end well."""
    ran = subprocess.run([str(it) for it in words], capture_output=True, text=True, **how)
    if check and ran.returncode:
        raise RuntimeError(f"{words[0]} ended with status {ran.returncode}:\n{ran.stdout}{ran.stderr}")
    return ran


def pack(built, out, *more):
    words = ["--crates", built.crates, "--library", built.library, *more]
    words += ["--log", built.log] if built.log else []
    return run(sys.executable, ROOT / "scripts/dist", *words, out)


def wheel_of(built):
    """The name of the wheel, which has the requirements of its library."""
    return wheel.name(version(), libc_needed(built.library / f"{LIBRARY}.so.1"))


def files_of(built):
    """The names of all files that are packed."""
    return {f"{ARCHIVE}.tar.gz", *DEBS, wheel_of(built), "PROVENANCE", STATEMENT, "SHA256SUMS"}


def unpack_archive(packed, folder):
    """Unpacks the archive into an empty directory."""
    folder.mkdir()
    with tarfile.open(packed / f"{ARCHIVE}.tar.gz") as archive:
        archive.extractall(folder)
    prefix = folder / ARCHIVE
    libraries = prefix / "lib"
    environment = {"PKG_CONFIG_PATH": str(libraries / "pkgconfig")}
    return Prefix("the archive", prefix, libraries, environment)


def unpack_debs(packed, folder):
    """Unpacks the Debian packages into an empty root."""
    folder.mkdir()
    for name in DEBS:
        run("dpkg-deb", "--extract", packed / name, folder, check=True)
    libraries = folder / "usr" / LIBRARIES
    environment = {
        "PKG_CONFIG_PATH": str(libraries / "pkgconfig"),
        "PKG_CONFIG_SYSROOT_DIR": str(folder),
        "PKG_CONFIG_ALLOW_SYSTEM_CFLAGS": "1",
        "PKG_CONFIG_ALLOW_SYSTEM_LIBS": "1",
    }
    return Prefix("the Debian packages", folder / "usr", libraries, environment)


def prefixes(packed, folder):
    """The files of a user after unpacking: the archive, and the Debian packages."""
    return [unpack_archive(packed, folder / "archive"), unpack_debs(packed, folder / "debian")]

"""Packs files so that the same files give the same bytes: their times are those of the commit, they
are sorted, and their owner is root."""

import gzip
import hashlib
import io
import os
import subprocess
import tarfile
import tempfile
from pathlib import Path, PurePosixPath


def compressed(content):
    """As `gzip -9n` does it: without a name or a time."""
    return gzip.compress(content, compresslevel=9, mtime=0)


def folders_of(items):
    """All directories of the files, each after the one that it is in."""
    return sorted({str(it) for item in items for it in PurePosixPath(item.path).parents} - {"."})


def entry(name, time, kind, mode):
    it = tarfile.TarInfo(name)
    it.mtime, it.type, it.mode = time, kind, mode
    return it


def tarball(folder, items, time):
    """The bytes of an archive in which all files are in one directory."""
    stream = io.BytesIO()
    with tarfile.open(fileobj=stream, mode="w", format=tarfile.USTAR_FORMAT) as archive:
        for path in ["", *folders_of(items)]:
            name = f"{folder}/{path}".rstrip("/")
            archive.addfile(entry(name, time, tarfile.DIRTYPE, 0o755))
        for item in sorted(items, key=lambda it: it.path):
            kind = tarfile.SYMTYPE if item.target else tarfile.REGTYPE
            it = entry(f"{folder}/{item.path}", time, kind, 0o777 if item.target else item.mode)
            it.linkname, it.size = item.target, len(item.content)
            archive.addfile(it, io.BytesIO(item.content))
    return compressed(stream.getvalue())


def write(root, items, time):
    """Writes files below a root."""
    for folder in folders_of(items):
        (root / folder).mkdir(mode=0o755, exist_ok=True)
        (root / folder).chmod(0o755)
    for item in items:
        path = root / item.path
        if item.target:
            path.symlink_to(item.target)
        else:
            path.write_bytes(item.content)
            path.chmod(item.mode)
    for path in [root, *root.rglob("*")]:
        os.utime(path, (time, time), follow_symlinks=False)


def checksums(items, kind):
    """Lines as `sha256sum` or `md5sum` write them."""
    whole = sorted((it for it in items if not it.target), key=lambda it: it.path)
    return "".join(f"{hashlib.new(kind, it.content).hexdigest()}  {it.path}\n" for it in whole)


def deb(items, time, file):
    """Makes a Debian package with dpkg-deb. The items below DEBIAN/ are its control files."""
    with tempfile.TemporaryDirectory() as room:
        root = Path(room) / "root"
        root.mkdir(mode=0o755)
        root.chmod(0o755)
        write(root, items, time)
        words = ["dpkg-deb", "--root-owner-group", "-Zgzip", "-z9", "--build", str(root), str(file)]
        environment = {**os.environ, "SOURCE_DATE_EPOCH": str(time)}
        subprocess.run(words, env=environment, stdout=subprocess.DEVNULL, check=True)

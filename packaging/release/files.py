"""Files and archives whose bytes depend on nothing except names, contents and one time."""

import gzip
import hashlib
import io
import os
import tarfile
import zipfile
from datetime import datetime, timezone

PLAIN, RUNNABLE = 0o644, 0o755


def write_text(path, text):
    """Writes a file, with the folders above it."""
    path.parent.mkdir(parents=True, exist_ok=True)
    path.write_text(text, encoding="utf-8")


def files_below(folder):
    """All files and links below a folder, in the order of their names."""
    return sorted(it for it in folder.rglob("*") if it.is_symlink() or not it.is_dir())


def sha256(data):
    return hashlib.sha256(data).hexdigest()


def sums_of(folder):
    """The sums of all files below a folder, as `sha256sum` writes and checks them."""
    files = [it for it in files_below(folder) if not it.is_symlink()]
    return "".join(f"{sha256(it.read_bytes())}  {it.relative_to(folder)}\n" for it in files)


def is_runnable(path):
    return bool(path.stat().st_mode & 0o100)


def settle(folder, time):
    """Gives all below a folder the usual rights and one time."""
    for path in [*folder.rglob("*"), folder]:
        if not path.is_symlink():
            path.chmod(RUNNABLE if path.is_dir() or is_runnable(path) else PLAIN)
        os.utime(path, (time, time), follow_symlinks=False)


def compress(data):
    """The bytes as `gzip -9n` has them: without a name and a time."""
    room = io.BytesIO()
    with gzip.GzipFile(filename="", fileobj=room, mode="wb", compresslevel=9, mtime=0) as packed:
        packed.write(data)
    return room.getvalue()


def write_tarball(path, folder, name, time):
    """Packs a folder under a name, owned by root."""

    def plain(entry):
        entry.uid = entry.gid = 0
        entry.uname = entry.gname = "root"
        entry.mtime = time
        entry.mode = 0o777 if entry.issym() else RUNNABLE if entry.isdir() or entry.mode & 0o100 else PLAIN
        return entry

    room = io.BytesIO()
    with tarfile.open(fileobj=room, mode="w", format=tarfile.PAX_FORMAT) as packed:
        packed.add(folder, name, recursive=False, filter=plain)
        for it in sorted(folder.rglob("*")):
            packed.add(it, f"{name}/{it.relative_to(folder)}", recursive=False, filter=plain)
    path.write_bytes(compress(room.getvalue()))


def write_zip(path, entries, time):
    """Packs entries, each a name, bytes and rights, in their order."""
    when = datetime.fromtimestamp(time, timezone.utc).timetuple()[:6]
    with zipfile.ZipFile(path, "w", zipfile.ZIP_DEFLATED, compresslevel=9) as packed:
        for name, data, rights in entries:
            entry = zipfile.ZipInfo(name, when)
            entry.compress_type = zipfile.ZIP_DEFLATED
            entry.create_system = 3  # Unix, whose rights they are.
            entry.external_attr = (0o100000 | rights) << 16
            packed.writestr(entry, data)

"""Files that are there whole or not at all."""

from __future__ import annotations

import contextlib
import errno
import os
import stat
import tempfile
from collections.abc import Iterable
from pathlib import Path


def write_whole(path: Path, content: bytes) -> None:
    """Writes a file beside the path, and moves it there."""
    write_parts(path, (content,), keep=False)


def write_parts(path: Path, parts: Iterable[bytes], keep: bool = True) -> None:
    """Writes a file of parts as they come beside the path, and moves it there. With `keep` it is on the disk then.

    It has the owner and the mode of the file whose place it takes, or else those of its folder, of whose mode others get nothing.
    What the system refuses is raised with the path.
    """
    try:
        _write_parts(path, parts, keep)
    except OSError as fault:
        raise OSError(fault.errno, fault.strerror, str(path)) from fault


def _write_parts(path: Path, parts: Iterable[bytes], keep: bool) -> None:
    handle, name = tempfile.mkstemp(dir=path.parent, prefix=f".{path.name}.")
    try:
        with os.fdopen(handle, "wb") as file:
            _own_as(handle, path)
            for part in parts:
                file.write(part)
            file.flush()
            if keep:
                os.fsync(handle)
        os.replace(name, path)
    except BaseException:
        os.unlink(name)
        raise
    if keep:
        _sync_folder(path.parent)


def _own_as(handle: int, path: Path) -> None:
    """Gives a new file to those who read the one at the path. In a folder that is everybody's it is its maker's alone."""
    folder, user = os.stat(path.parent), os.geteuid()
    if folder.st_mode & stat.S_IWOTH:
        return
    owner, group, mode = folder.st_uid if user == 0 else user, folder.st_gid, folder.st_mode & 0o640
    with contextlib.suppress(FileNotFoundError):
        there = os.lstat(path)
        if stat.S_ISREG(there.st_mode):
            owner, group, mode = there.st_uid, there.st_gid, there.st_mode & 0o777
    if owner != user and user != 0:
        raise OSError(errno.EPERM, "it is another user's, who could not read what takes its place")
    made = os.fstat(handle)
    # A service may be allowed no change of owners, also where nothing changes.
    if (made.st_uid, made.st_gid) != (owner, group):
        try:
            os.fchown(handle, owner, group)
        except PermissionError:
            mode &= stat.S_IRWXU
    os.fchmod(handle, mode | stat.S_IRUSR | stat.S_IWUSR)


def _sync_folder(path: Path) -> None:
    """Has the names of a folder's files on the disk."""
    folder = os.open(path, os.O_RDONLY | os.O_DIRECTORY)
    try:
        os.fsync(folder)
    finally:
        os.close(folder)

# SPDX-License-Identifier: Apache-2.0 OR GPL-2.0-or-later
"""Create hidden folders for incomplete files.

If a process is killed, its folder is removed when the same file is written again.
"""

from __future__ import annotations

import contextlib
import fcntl
import os
import re
import shutil

__all__ = ["PrivateFolder"]

_LONGEST_STEM = 200  # bytes, because most file systems limit names to 255
_ENDING = re.compile("-[0-9a-f]{8}")


class PrivateFolder:
    """A hidden folder, named after a file, that only this user can access.

    A killed process cannot remove its folder. Each process therefore holds a lock in its folder,
    and creating a folder first removes all unlocked folders for the same file.

    Parameters
    ----------
    folder : str
        The parent folder.
    name : str
        The name of the file.

    Attributes
    ----------
    path : str

    Examples
    --------
    >>> import tempfile
    >>> with tempfile.TemporaryDirectory() as folder:
    ...     room = PrivateFolder(folder, "a.txt")
    ...     print(os.listdir(folder)[0][:7])
    ...     room.remove()
    ...     print(os.listdir(folder))
    .a.txt-
    []
    """

    def __init__(self, folder: str, name: str) -> None:
        stem = "." + os.fsdecode(os.fsencode(name)[:_LONGEST_STEM])
        _remove_abandoned(folder, stem)
        lock = None
        while lock is None:
            self.path = os.path.join(folder, f"{stem}-{os.urandom(4).hex()}")
            with contextlib.suppress(FileExistsError):
                os.mkdir(self.path, 0o700)
                lock = _locked(self.path)
        self._lock: int | None = lock

    def rename(self, path: str) -> None:
        """Move the folder to its final path, where it remains.

        The path must not exist, or must be an empty folder.
        """
        os.unlink(_lock_of(self.path))
        os.rename(self.path, path)
        self._unlock()

    def remove(self) -> None:
        """Remove the folder and its contents, unless the folder was renamed."""
        if self._lock is not None:
            try:
                _remove(self.path)
            finally:
                self._unlock()

    def _unlock(self) -> None:
        assert self._lock is not None
        os.close(self._lock)
        self._lock = None


def _lock_of(path: str) -> str:
    """Return the path of a folder's lock, which is a file with the folder's name.

    No other file in the folder has this name.
    """
    return os.path.join(path, os.path.basename(path))


def _locked(path: str) -> int | None:
    """Lock a new folder and return the descriptor of the lock.

    Returns None if another process has just removed the folder.
    """
    try:
        lock = os.open(_lock_of(path), os.O_WRONLY | os.O_CREAT | os.O_EXCL, 0o600)
    except OSError:
        os.rmdir(path)
        raise
    with contextlib.suppress(OSError):  # some file systems do not support locks
        fcntl.flock(lock, fcntl.LOCK_EX)
    if os.path.exists(_lock_of(path)):
        return lock
    os.close(lock)
    return None


def _remove_abandoned(folder: str, stem: str) -> None:
    """Remove the folders that this user's killed processes left for a file."""
    with contextlib.suppress(OSError):
        for name in os.listdir(folder):
            if name.startswith(stem) and _ENDING.fullmatch(name, len(stem)):
                with contextlib.suppress(OSError):
                    _remove_unlocked(os.path.join(folder, name))


def _remove_unlocked(path: str) -> None:
    """Remove a folder if it belongs to this user, or raise OSError if a process holds its lock."""
    with contextlib.ExitStack() as opened:
        folder = os.open(path, os.O_RDONLY | os.O_DIRECTORY | os.O_NOFOLLOW)
        opened.callback(os.close, folder)
        if os.fstat(folder).st_uid != os.geteuid():
            return
        flags = os.O_WRONLY | os.O_NOFOLLOW | os.O_NONBLOCK  # never waits, even for a named pipe
        lock = os.open(os.path.basename(path), flags, dir_fd=folder)
        opened.callback(os.close, lock)
        fcntl.flock(lock, fcntl.LOCK_EX | fcntl.LOCK_NB)
        _remove(path)


def _remove(path: str) -> None:
    """Remove a folder and its contents.

    The lock is removed last, so that an interrupted removal can be repeated.
    """
    lock = os.path.basename(path)
    for entry in sorted(os.scandir(path), key=lambda entry: entry.name == lock):
        if entry.is_dir(follow_symlinks=False):
            shutil.rmtree(entry.path)
        else:
            os.unlink(entry.path)
    os.rmdir(path)

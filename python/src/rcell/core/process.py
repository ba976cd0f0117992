# SPDX-License-Identifier: Apache-2.0 OR GPL-2.0-or-later
"""Find, start and reliably stop programs, using pipes that no other process holds open."""

from __future__ import annotations

import contextlib
import errno
import fcntl
import os
import select
import subprocess
import threading
import time
from collections.abc import Callable, Iterator, Sequence
from types import TracebackType
from typing import Optional

__all__ = [
    "WATCH_SECONDS",
    "Started",
    "begin_work",
    "close",
    "end_work",
    "found_on_path",
    "has_work",
    "pipe",
]

PIPE_BYTES = 1 << 18  # fits in a processor's cache, like READ_BYTES
READ_BYTES = 1 << 18
SET_PIPE_SIZE = getattr(fcntl, "F_SETPIPE_SZ", 1031)  # in fcntl since Python 3.10
WATCH_SECONDS = 0.1
# Programs write blocks of 4 KiB. After a short pause, many blocks can be read at once.
PAUSE_SECONDS = 0.0002
LARGE_PAGES = {"GLIBC_TUNABLES": "glibc.malloc.hugetlb=1"}
"""Use pages of 2 MiB if the system supports them.

With pages of 4 KiB, allocation took an eighth of the time of a table.
"""

MESSAGE_LIMIT = 1 << 16
"""The largest number of bytes to keep from a program's standard error, usually one line."""

_open_pipes: set[int] = set()  # the ends of pipes that this process holds open
_works = 0  # running blocks that must remove a file or stop a program before this process ends
_lock = threading.RLock()


def _close_all() -> None:
    """Close the pipes in a forked child, because open copies would block the parent."""
    while _open_pipes:
        os.close(_open_pipes.pop())
    _lock.release()


# No thread may open or close a pipe during a fork.
os.register_at_fork(before=_lock.acquire, after_in_parent=_lock.release, after_in_child=_close_all)


def begin_work() -> None:
    """Record that a file is unfinished or a program is running."""
    global _works
    with _lock:
        _works += 1


def end_work() -> None:
    """Record that a file is finished or removed, or a program has stopped."""
    global _works
    with _lock:
        _works -= 1


def has_work() -> bool:
    """Return whether this process must remove files or stop programs before it ends."""
    return _works > 0


def found_on_path(name: str) -> str | None:
    """Return the path of the first program with a given name on PATH, skipping relative folders."""
    for folder in os.get_exec_path():
        path = os.path.join(folder, name)
        if os.path.isabs(folder) and os.path.isfile(path) and os.access(path, os.X_OK):
            return path
    return None


def above_standard(descriptor: int) -> int:
    """Return a descriptor above 2 that refers to the same file.

    A descriptor from 0 to 2 is duplicated and closed, because these numbers belong to the standard
    streams.
    """
    if descriptor > 2:
        return descriptor
    try:
        return fcntl.fcntl(descriptor, fcntl.F_DUPFD_CLOEXEC, 3)
    finally:
        os.close(descriptor)


def pipe() -> tuple[int, int]:
    """Create a pipe that is closed in forked children.

    The pipe has a large buffer if the system allows it.
    """
    with _lock:
        reader, writer = (above_standard(end) for end in os.pipe())
        _open_pipes.update((reader, writer))
    with contextlib.suppress(OSError):
        fcntl.fcntl(writer, SET_PIPE_SIZE, PIPE_BYTES)
    return reader, writer


def close(descriptor: int) -> None:
    """Close one end of a pipe."""
    with _lock:
        _open_pipes.discard(descriptor)
        os.close(descriptor)


class Started:
    """A running program, and a context manager that stops the program on exit.

    Parameters
    ----------
    words : sequence of str
        The program and its arguments.
    seconds : float, optional
        The time limit for the program, in seconds.
    stdin : int
        The descriptor of the program's standard input.
    watch : callable, optional
        A function that is called ten times a second while waiting for output.

    Raises
    ------
    OSError
        The program cannot be started.
    TimeoutError
        The program exceeds its time limit.
    """

    def __init__(
        self,
        words: Sequence[str],
        seconds: float | None = None,
        stdin: int = subprocess.DEVNULL,
        watch: Optional[Callable[[], None]] = None,
    ) -> None:
        self._until = None if seconds is None else time.monotonic() + seconds
        self._watch = watch
        self._message = b""
        self._output, output = pipe()
        self._errors, errors = pipe()
        try:
            self._process = subprocess.Popen(
                words,
                stdin=stdin,
                stdout=output,
                stderr=errors,
                env={**LARGE_PAGES, **os.environ},
            )
        except BaseException:
            close(self._output)
            close(self._errors)
            raise
        finally:  # only the program writes, so that the streams end when it ends
            close(output)
            close(errors)
        self._poll = select.poll()
        self._open_ends = {self._output, self._errors}
        for end in self._open_ends:
            self._poll.register(end, select.POLLIN)

    def __enter__(self) -> Started:
        begin_work()
        return self

    def __exit__(
        self, kind: type[BaseException] | None, _: BaseException | None, __: TracebackType | None
    ) -> None:
        if self._process.poll() is None:
            self._process.kill()
        self._process.wait()
        close(self._output)
        close(self._errors)
        end_work()

    def pieces(self) -> Iterator[bytes]:
        """Yield standard output as it arrives, until both standard output and error end."""
        while self._has_output():
            if piece := os.read(self._output, READ_BYTES):
                yield piece
            else:
                self._ended(self._output)

    def fill(self, room: memoryview) -> int:
        """Read output into a buffer until the buffer is full or the output ends.

        Returns the number of bytes read.
        """
        filled = 0
        while filled < len(room) and self._has_output():
            count = os.readv(self._output, [room[filled:]])
            if not count:
                self._ended(self._output)
            filled += count
            if 0 < count < READ_BYTES // 2:
                time.sleep(PAUSE_SECONDS)
        return filled

    def _has_output(self) -> bool:
        """Wait for standard output and return False once both streams have ended.

        Standard error is collected for the program's message.
        """
        while self._open_ends:
            wait = self._longest_wait()
            ready = {end for end, _ in self._poll.poll(None if wait is None else wait * 1000)}
            if self._errors in ready:
                piece = os.read(self._errors, READ_BYTES)
                self._message = (self._message + piece)[:MESSAGE_LIMIT]
                if not piece:
                    self._ended(self._errors)
            if self._output in ready:
                return True
        return False

    def _ended(self, end: int) -> None:
        self._poll.unregister(end)
        self._open_ends.discard(end)

    def _longest_wait(self) -> float | None:
        """Call the watch function, and return the seconds to wait, or None if there is no limit."""
        left = self._seconds_left()
        if self._watch is None:
            return left
        self._watch()
        return WATCH_SECONDS if left is None else min(left, WATCH_SECONDS)

    def _seconds_left(self) -> float | None:
        if self._until is None:
            return None
        left = self._until - time.monotonic()
        if left <= 0:
            raise TimeoutError(errno.ETIMEDOUT, "the program did not end in time")
        return left

    def end(self) -> tuple[int, bytes]:
        """Wait until the program ends and return its exit status and message."""
        try:
            return self._process.wait(self._seconds_left()), self._message
        except subprocess.TimeoutExpired:
            raise TimeoutError(errno.ETIMEDOUT, "the program did not end in time") from None

# SPDX-License-Identifier: Apache-2.0 OR GPL-2.0-or-later
"""Write files completely or not at all."""

from __future__ import annotations

import contextlib
import errno
import os
import shutil
from typing import Iterator

from .files import Output, write_all

from .errors import RcellError, WriteFailed

__all__ = ["replacing", "write_errors", "write_beside"]

# A disk with less free space is treated as full, because a block did not fit.
FULL_BELOW = 1 << 18


@contextlib.contextmanager
def write_errors(path: str, *kinds: type[Exception]) -> Iterator[None]:
    """Convert OSError and the given exceptions to WriteFailed, which names the path.

    Raster libraries report a full disk only on standard error, if at all, and fail later for
    another reason. This function therefore checks the free space.

    Examples
    --------
    >>> with write_errors("a.txt"):
    ...     open("/nowhere/a.txt")
    Traceback (most recent call last):
      ...
    rcell.WriteFailed: a.txt cannot be written: No such file or directory
    """
    caught: tuple[type[Exception], ...] = (OSError, *kinds)
    try:
        yield
    except caught as error:
        if isinstance(error, RcellError):
            raise
        reason = getattr(error, "strerror", None) or str(error)
        with contextlib.suppress(OSError):
            if shutil.disk_usage(os.path.dirname(os.path.abspath(path))).free < FULL_BELOW:
                reason = os.strerror(errno.ENOSPC)
        raise WriteFailed(f"{path} cannot be written: {reason}") from None


@contextlib.contextmanager
def replacing(path: str) -> Iterator[str]:
    """Yield a temporary path whose file replaces the target at the end of the block.

    If an error is raised, nothing is replaced.

    Raises
    ------
    WriteFailed
        The folder is missing, or the file cannot be replaced. The temporary file is then removed,
        and the target is unchanged.

    Examples
    --------
    >>> import tempfile
    >>> with tempfile.TemporaryDirectory() as folder:
    ...     with replacing(os.path.join(folder, "a.txt")) as new:
    ...         _ = open(new, "w").write("whole")
    ...     print(os.listdir(folder))
    ['a.txt']
    """
    with contextlib.ExitStack() as opened:
        with write_errors(path):
            output = opened.enter_context(Output(path))
            beside = output.path()
        yield beside
        with write_errors(path):
            output.keep()


def write_beside(path: str, data: bytes | memoryview) -> None:
    """Write bytes to a file, completely or not at all.

    Raises
    ------
    WriteFailed

    Examples
    --------
    >>> import tempfile
    >>> with tempfile.TemporaryDirectory() as folder:
    ...     write_beside(os.path.join(folder, "a.txt"), b"whole")
    ...     print(os.listdir(folder))
    ['a.txt']
    """
    with write_errors(path), Output(path) as output:
        write_all(output.stream(), data)

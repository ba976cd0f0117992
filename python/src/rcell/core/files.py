# SPDX-License-Identifier: Apache-2.0 OR GPL-2.0-or-later
"""Check inputs, write outputs completely or not at all, and handle standard streams."""

from __future__ import annotations

import contextlib
import errno
import fcntl
import html
import os
import re
import select
import stat
import sys
from collections.abc import Iterable, Iterator, Sequence
from contextvars import ContextVar
from itertools import combinations
from types import TracebackType

from . import process
from .errors import Refused
from .private_folders import PrivateFolder

__all__ = [
    "SIDECARS",
    "Output",
    "check_output",
    "end_on_signals",
    "is_same_file",
    "open_standard_streams",
    "opened",
    "read_all",
    "read_some",
    "writing",
    "write_all",
]

SIDECARS = (".aux.xml", ".msk", ".ovr")
"""Endings of GDAL's sidecar files. A new raster must not inherit old masks or labels."""

MOST_LINKS = 40
PIECE = 1 << 20
OWN_DESCRIPTORS = "/proc/self/fd"


def open_standard_streams() -> None:
    """Open /dev/null on closed standard streams, so that no other file uses their descriptors.

    A closed standard output is opened for reading, so that writing to standard output still fails.
    """
    while (descriptor := os.open(os.devnull, os.O_RDWR)) <= 2:  # the lowest unused number
        if descriptor == 1:
            os.close(descriptor)
            os.open(os.devnull, os.O_RDONLY)
        os.set_inheritable(descriptor, True)  # child programs also need standard streams
    os.close(descriptor)
    sys.stdin = sys.stdin or open(0, closefd=False)
    sys.stdout = sys.stdout or open(1, "w", closefd=False)
    sys.stderr = sys.stderr or open(2, "w", closefd=False)


def end_on_signals() -> None:
    """Convert signals that end a program to SystemExit, so that unfinished files are removed."""
    import signal

    for name in ("SIGHUP", "SIGQUIT", "SIGTERM", "SIGXCPU"):
        number = getattr(signal, name)
        if signal.getsignal(number) == signal.SIG_DFL:  # not for signals that nohup ignores
            signal.signal(number, lambda number, _: sys.exit(128 + number))


# Inputs

_PARTS = {
    ".shp": (".shx", ".dbf", ".prj", ".cpg", ".qix", ".sbn", ".sbx", ".shp.xml"),
    ".tab": (".dat", ".map", ".id", ".ind"),
}
_VRT_SOURCE = re.compile(r"<Source(?:Filename|Dataset)[^>]*>([^<]+)<")
_VIRTUAL = re.compile(r"(/vsi\w+/)+\{?")
_STATUS = 2  # the exit status for an error in the command line
_outputs: ContextVar[Sequence[str]] = ContextVar("outputs", default=())


@contextlib.contextmanager
def writing(*paths: str) -> Iterator[None]:
    """Raise Refused if two outputs are the same file, or if an output is read in this block.

    Examples
    --------
    >>> with writing("a.csv", "./a.csv"):
    ...     pass
    Traceback (most recent call last):
      ...
    rcell.Refused: arguments: ./a.csv: two outputs are the same file: choose another name
    """
    for first, second in combinations(paths, 2):
        if os.path.realpath(first) == os.path.realpath(second) or is_same_file(first, second):
            problem = "two outputs are the same file"
            raise Refused(f"{second}: {problem}: choose another name", status=_STATUS)
    token = _outputs.set(paths)
    try:
        yield
    finally:
        _outputs.reset(token)


def opened(*paths: str) -> None:
    """Raise Refused if a file that the current call reads is also an output of the call.

    Call this function whenever a file is opened, with all files that GDAL lists for a raster.
    """
    for output in _outputs.get():
        check_output(output, paths)


def check_output(output: str, inputs: Iterable[str]) -> None:
    """Raise Refused if writing an output and its GDAL sidecar files would overwrite an input.

    Parameters
    ----------
    output : str
    inputs : iterable of str
        The paths of the inputs. A layer is written as `FILE|layername=NAME`. All files of a
        Shapefile and all sources of a VRT are also checked.
    """
    names = {os.path.realpath(output) + ending for ending in ("", *SIDECARS)}
    for path in _files_of(inputs):
        read = {os.path.realpath(path) + ending for ending in ("", *SIDECARS)}
        if (
            os.path.realpath(output) in read
            or os.path.realpath(path) in names
            or is_same_file(output, path)
        ):
            problem = "the output file is the input file" + ("" if path == output else f" {path}")
            raise Refused(f"{output}: {problem}: choose another name", status=_STATUS)


def _files_of(inputs: Iterable[str]) -> Iterator[str]:
    """Yield all files that are read if these paths are opened."""
    yielded: dict[str, None] = {}
    waiting = list(inputs)
    while waiting:
        path = waiting.pop().partition("|layername=")[0]
        if _VIRTUAL.match(path):  # a file in an archive
            path = _VIRTUAL.sub("", path)
            while path and not os.path.isfile(path):
                path = os.path.dirname(path) if os.path.dirname(path) != path else ""
        if path in yielded or not os.path.isfile(path):
            continue
        yielded[path] = None
        yield path
        stem, ending = os.path.splitext(path)
        waiting += [stem + part for part in _PARTS.get(ending.lower(), ())]
        if ending.lower() == ".vrt":
            with open(path, encoding="utf-8", errors="replace") as file:
                sources = _VRT_SOURCE.findall(file.read())
            waiting += [
                os.path.join(os.path.dirname(path), html.unescape(source)) for source in sources
            ]


def is_same_file(path: str, other: str) -> bool:
    """Return whether two paths refer to the same regular file."""
    try:
        return os.path.samefile(path, other) and os.path.isfile(path)
    except (OSError, ValueError):
        return False


# Descriptors


def _wait(descriptor: int, event: int) -> None:
    ready = select.poll()
    ready.register(descriptor, event)
    ready.poll()


def read_some(descriptor: int, most: int) -> bytes:
    """Read at most `most` bytes from a descriptor, waiting until some bytes are available.

    The result is empty only at the end of the file.
    """
    while True:
        try:
            return os.read(descriptor, most)
        except BlockingIOError:
            _wait(descriptor, select.POLLIN)


def read_all(descriptor: int) -> bytes:
    """Read all remaining bytes from a descriptor, waiting whenever no bytes are available."""
    return b"".join(iter(lambda: read_some(descriptor, PIECE), b""))


def write_all(descriptor: int, data: bytes | memoryview) -> None:
    """Write all bytes to a descriptor, waiting whenever the descriptor is not ready."""
    rest = memoryview(data).cast("B")
    while rest:
        try:
            rest = rest[os.write(descriptor, rest) :]
        except BlockingIOError:
            _wait(descriptor, select.POLLOUT)


def _own_descriptor(path: str) -> int | None:
    """Return the open descriptor that a path such as /dev/stdout refers to, or None."""
    own = os.path.realpath(OWN_DESCRIPTORS)
    for _ in range(MOST_LINKS):
        folder, name = os.path.split(os.path.abspath(path))
        if name.isdecimal() and os.path.realpath(folder) == own:
            return int(name)
        if not os.path.islink(path):
            return None
        path = os.path.join(folder, os.readlink(path))
    return None


def _opened_for_writing(descriptor: int) -> int:
    """Duplicate a descriptor, or raise OSError if the descriptor is open only for reading."""
    if fcntl.fcntl(descriptor, fcntl.F_GETFL) & os.O_ACCMODE == os.O_RDONLY:
        name = "standard output" if descriptor == 1 else f"descriptor {descriptor}"
        raise OSError(errno.EBADF, "is closed", name)
    return os.dup(descriptor)


def _opened_special(path: str) -> int | None:
    """Open a device, a FIFO or an open descriptor for writing (`-` is standard output).

    Returns the new descriptor, or None if the path is a regular file or does not exist.
    """
    descriptor = 1 if path == "-" else _own_descriptor(path)
    if descriptor is not None:
        return _opened_for_writing(descriptor)
    try:
        is_special = not stat.S_ISREG(os.stat(path).st_mode)
    except FileNotFoundError:
        return None
    return os.open(path, os.O_WRONLY) if is_special else None


class Output:
    """An output file, which replaces the target only if the block ends without an exception.

    The file is written in a private folder next to the target. If this process is killed, the next
    output with the same name removes the folder. Links are followed, and a new file gets the mode
    of the file that it replaces. GDAL's sidecar files are replaced together with the raster. An
    existing device or FIFO is written to, and is never replaced.

    Parameters
    ----------
    path : str
        The path of the target, or `-` for standard output.
    """

    def __init__(self, path: str) -> None:
        if "\0" in path or not os.path.basename(path):
            raise OSError(errno.EINVAL, "is not a file name", path)
        self._given = path
        self._special = _opened_special(path)
        self._target = os.path.realpath(path)
        self._folder: PrivateFolder | None = None
        self._stream: int | None = self._special
        self._is_kept = False

    def __enter__(self) -> Output:
        process.begin_work()
        return self

    @property
    def is_special(self) -> bool:
        """Whether the target is a device, a FIFO or an open descriptor."""
        return self._special is not None

    def path(self) -> str:
        """Return a temporary path with the target's name, for libraries that open files."""
        folder, name = os.path.split(self._target)
        if self._folder is None:
            try:
                if self._special is not None:
                    folder = os.environ.get("TMPDIR") or "/tmp"
                elif os.path.exists(self._target) and not os.access(self._target, os.W_OK):
                    raise PermissionError(errno.EACCES, os.strerror(errno.EACCES))
                self._folder = PrivateFolder(folder, name)
            except OSError as error:
                raise OSError(error.errno, error.strerror, self._given) from None
        return os.path.join(self._folder.path, name)

    def stream(self) -> int:
        """Return a descriptor to which the contents of the file can be written."""
        if self._stream is None:
            self._stream = os.open(self.path(), os.O_WRONLY | os.O_CREAT | os.O_EXCL, 0o666)
        return self._stream

    def keep(self) -> None:
        """Move the file to the target, or copy its bytes to a device or FIFO."""
        if self._folder is None or self._is_kept:
            return
        try:
            if self._special is not None:
                self._copy()
            else:
                self._replace(self.path())
        except OSError as error:
            raise OSError(error.errno, error.strerror, self._given) from None
        self._is_kept = True

    def __exit__(
        self,
        kind: type[BaseException] | None,
        _: BaseException | None,
        __: TracebackType | None,
    ) -> None:
        try:
            if kind is None:
                self.keep()
        finally:
            if self._stream is not None:
                os.close(self._stream)
            if self._folder is not None:
                self._folder.remove()
            process.end_work()

    def _copy(self) -> None:
        assert self._special is not None
        with open(self.path(), "rb") as file:
            while piece := file.read(PIECE):
                write_all(self._special, piece)

    def _adopt(self, new_file: str) -> None:
        """Copy the replaced file's owner and mode to the new file."""
        try:
            old = os.stat(self._target)
        except FileNotFoundError:
            return
        try:
            os.chown(new_file, old.st_uid, old.st_gid)
        except PermissionError:
            pass
        mode = stat.S_IMODE(old.st_mode) & 0o777
        # If the group cannot be kept, members of the new group must not gain access.
        has_other_group = os.stat(new_file).st_gid != old.st_gid
        os.chmod(new_file, mode & ~0o070 if has_other_group else mode)

    def _replace(self, new_file: str) -> None:
        """Move the new files to their targets, or restore the old files if a move fails."""
        assert self._folder is not None
        with open(new_file, "rb") as file:
            os.fsync(file.fileno())
        self._adopt(new_file)
        moves: list[tuple[str, str]] = []
        try:
            for number, ending in enumerate(SIDECARS):
                backup = os.path.join(self._folder.path, f"old-{number}")
                sidecar = self._target + ending
                if os.path.lexists(sidecar):
                    os.rename(sidecar, backup)
                    moves.append((backup, sidecar))
                if os.path.lexists(new_file + ending):
                    os.rename(new_file + ending, sidecar)
                    moves.append((sidecar, new_file + ending))
            os.replace(new_file, self._target)
        except BaseException:
            for current, original in reversed(moves):
                os.rename(current, original)
            raise

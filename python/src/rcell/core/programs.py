# SPDX-License-Identifier: Apache-2.0 OR GPL-2.0-or-later
"""Find the programs rcell-pipe and rcell, and convert their errors to this package's errors."""

from __future__ import annotations

import contextlib
import os
import sys
import sysconfig
from typing import Callable, Iterator, Optional, Union

from . import protocol
from .errors import Killed, MissingProgram, OutOfMemory, Refused, WrongProgram
from .host import host
from .process import Started, found_on_path

__all__ = [
    "candidates",
    "find_pipe",
    "find_program",
    "program_errors",
]

PROBE_SECONDS = 60
"""The time limit, in seconds, for a test run; generous for busy machines."""

Path = Union[str, "os.PathLike[str]"]


# Paths


def candidates(name: str) -> Iterator[str]:
    """Yield a program's paths in the scripts folder of Python, next to Python, and on PATH."""
    folders = [sysconfig.get_path("scripts")]
    if "posix_user" in sysconfig.get_scheme_names():
        folders.append(sysconfig.get_path("scripts", "posix_user"))
    for folder in (*folders, os.path.dirname(sys.executable or "")):
        path = os.path.join(folder, name)
        if os.path.isabs(folder) and os.path.isfile(path):
            yield path
    on_path = found_on_path(name)
    if on_path is not None:
        yield on_path


# The programs that passed their tests: inode, size and modification time, by path.
_known: dict[str, tuple[int, int, int]] = {}


def find_program(program: Optional[Path] = None) -> str:
    """Return the path of rcell, found with `find_beside` and the variable RCELL.

    Only `rcell-gis explain` runs rcell.
    """
    return find_beside("rcell", "RCELL", _is_rcell, program)


def find_pipe(program: Optional[Path] = None) -> str:
    """Return the path of rcell-pipe, found with `find_beside` and the variable RCELL_PIPE.

    The host may provide the path if the argument is not given.
    """
    find = host().find
    if program is None and find is not None:
        return find()
    return find_beside("rcell-pipe", "RCELL_PIPE", protocol.is_known, program)


def find_beside(
    name: str, variable: str, test: Callable[[str, float], bool], program: Optional[Path]
) -> str:
    """Find a program, test it, and return its path.

    The program is tested again only if its file has changed.

    These places are searched in order: the argument, an environment variable, the folder of the
    program that RCELL names, the scripts of this Python installation (where the wheel installs
    programs), and PATH.

    Raises
    ------
    MissingProgram
        The program was not found.
    WrongProgram
        The program does not pass this package's test.
    """
    path = os.fspath(program) if program is not None else os.environ.get(variable)
    if not path:
        folder = os.path.dirname(os.path.abspath(os.environ.get("RCELL", "")))
        beside = os.path.join(folder, name)
        is_beside = "RCELL" in os.environ and os.path.isfile(beside)
        path = beside if is_beside else next(candidates(name), "")
    if not path:
        cure = f"install it, or set the environment variable {variable} to its path"
        raise MissingProgram(f"the program {name} was not found next to Python or on PATH: {cure}")
    path = os.path.abspath(path)
    if not os.path.isfile(path) or not os.access(path, os.X_OK):
        raise MissingProgram(f"the program {path} does not exist or is not executable")
    state = os.stat(path)
    stamp = (state.st_ino, state.st_size, state.st_mtime_ns)
    if _known.get(path) != stamp:
        _check(name, path, test)
        _known[path] = stamp
    return path


_UNKNOWN = "{} is not a supported version of the program {}"
_NOT_STARTED = "the program {} cannot be executed: {}"
_ENDLESS = "{} did not finish a test run within {} seconds: check that it is {}"
_USAGE = b"rcell: arguments:0: usage: "


def _is_rcell(path: str, seconds: float) -> bool:
    """Return whether a program without arguments prints rcell's usage."""
    with Started([path], seconds) as process:
        is_silent = not next(process.pieces(), b"")
        return is_silent and process.end()[1].startswith(_USAGE)


def _check(name: str, path: str, test: Callable[[str, float], bool]) -> None:
    """Raise WrongProgram unless a program passes a test."""
    try:
        is_known = test(path, PROBE_SECONDS)
    except TimeoutError:
        raise WrongProgram(_ENDLESS.format(path, PROBE_SECONDS, name)) from None
    except OSError as error:  # including protocol.NotStarted
        raise MissingProgram(_NOT_STARTED.format(path, error.strerror)) from None
    if not is_known:
        raise WrongProgram(_UNKNOWN.format(path, name))


@contextlib.contextmanager
def program_errors(script: str, names: list[str], path: str) -> Iterator[None]:
    """Convert errors of the program at `path`, which reads the maps `names`, to this package's."""
    try:
        yield
    except protocol.Rejected as rejected:
        error_type = OutOfMemory if rejected.status == protocol.NO_MEMORY else Refused
        raise error_type(**rejected.parts(path, script, names)) from None
    except protocol.Killed as error:
        raise Killed(int(error.args[0])) from None  # the signal
    except protocol.NoAnswer as error:
        raise WrongProgram(str(error)) from None
    except protocol.NotStarted as error:
        raise MissingProgram(_NOT_STARTED.format(path, error.strerror)) from None

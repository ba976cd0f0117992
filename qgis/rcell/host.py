# SPDX-License-Identifier: Apache-2.0 OR GPL-2.0-or-later
"""Connect the core to QGIS: find rcell-pipe, and report the progress of runs."""

from __future__ import annotations

import configparser
import os
import shlex
import stat
from collections.abc import Mapping
from typing import Any, Callable

from .engine.core.errors import MissingProgram, RcellError
from .engine.core.host import Host
from .engine.core.process import found_on_path
from .engine.core.programs import find_pipe
from .engine.core.sources import Source

_FOLDER = os.path.join(os.path.dirname(os.path.abspath(__file__)), "bin")
_METADATA = os.path.join(os.path.dirname(os.path.abspath(__file__)), "metadata.txt")
_SETTINGS = "Settings > Options > Processing > Providers > rcell"
_PROGRAM = "rcell-pipe"


class Cancelled(RcellError):
    """Raised if the user cancels a run, which stops the program."""

    def __str__(self) -> str:
        return "cancelled"


def host_of(setting: str, feedback: Any) -> Host:
    """Return the host for a run, which reports to QGIS.

    Parameters
    ----------
    setting : str
        The path of the program in the settings, or an empty string.
    feedback : QgsProcessingFeedback
    """
    warned: set[str] = set()

    def warn(text: str) -> None:
        if text not in warned:
            warned.add(text)
            feedback.pushWarning(text)

    def progress(share: float) -> None:
        feedback.setProgress(50 * share)  # writing the results is the other half

    def started(script: str, maps: Mapping[str, Source]) -> None:
        words = [f"{name}={shlex.quote(_path_of(source))}" for name, source in maps.items()]
        lines = [f"rcell script {' '.join(words)}", *(f"  {line}" for line in script.split("\n"))]
        feedback.pushCommandInfo("\n".join(lines))

    return Host(
        words="qgis",
        warn=warn,
        find=lambda: find_program(setting),
        watch=watch_of(feedback),
        progress=progress,
        started=started,
    )


def version() -> str:
    """Return the version of the plugin."""
    metadata = configparser.ConfigParser(interpolation=None)
    metadata.read(_METADATA, encoding="utf-8")
    return metadata["general"]["version"]


def watch_of(feedback: Any) -> Callable[[], None]:
    """Return a function that raises Cancelled if the user has cancelled the run."""

    def watch() -> None:
        if feedback.isCanceled():
            raise Cancelled()

    return watch


def _path_of(source: Source) -> str:
    return source.files[0] if source.files else source.name


def find_program(setting: str = "") -> str:
    """Return the path of rcell-pipe.

    These places are searched in order: the setting, the variable RCELL_PIPE, the folder of the
    program that RCELL names, the plugin, and PATH. If the setting names rcell, rcell-pipe must be
    next to it.

    Raises
    ------
    MissingProgram
        The program was not found, or cannot be executed.
    WrongProgram
        The program does not work as this plugin requires.
    """
    own = os.path.join(_FOLDER, _PROGRAM)
    path = setting if os.path.basename(setting) != "rcell" else _beside(setting)
    path = path or os.environ.get("RCELL_PIPE", "")
    beside_rcell = _beside(os.environ["RCELL"]) if os.environ.get("RCELL") else ""
    path = path or next(filter(os.path.isfile, [beside_rcell, own]), "")
    path = path or found_on_path(_PROGRAM) or ""
    if not path:
        raise MissingProgram(
            f"the program {_PROGRAM} was not found: install the plugin from its zip, which "
            f"contains it, or set its path under {_SETTINGS} or in the environment variable "
            "RCELL_PIPE"
        )
    if path == own:
        _set_executable(path)
    if not os.path.isfile(path) or not os.access(path, os.X_OK):
        raise MissingProgram(
            f"the program {path} does not exist or is not executable: correct the path under "
            f"{_SETTINGS}, or clear it to use the program in the plugin"
        )
    return find_pipe(path)


def _beside(path: str) -> str:
    """Return the path of rcell-pipe next to another program."""
    return os.path.join(os.path.dirname(path), _PROGRAM)


def _set_executable(path: str) -> None:
    """Restore the execute permission, which Install from ZIP removes."""
    mode = os.stat(path).st_mode
    if not mode & stat.S_IXUSR:
        try:
            os.chmod(path, 0o755)
        except OSError as error:
            raise MissingProgram(
                f"the program {path} is not executable, and its permissions cannot be changed: "
                f"{error.strerror}"
            ) from None

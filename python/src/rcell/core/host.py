# SPDX-License-Identifier: Apache-2.0 OR GPL-2.0-or-later
"""Describe the host: the package, command line or plugin that calls the core."""

from __future__ import annotations

import contextlib
import contextvars
import os
import sys
import warnings
from collections.abc import Callable, Iterator, Mapping
from dataclasses import dataclass
from typing import Any, Optional

__all__ = ["Host", "host", "option", "serving", "warn"]

_PACKAGE = os.path.dirname(os.path.dirname(os.path.abspath(__file__)))


def _warn(text: str) -> None:
    """Issue a warning whose location is the line that called the package."""
    depth, frame = 2, sys._getframe(1)
    while frame.f_back is not None and frame.f_code.co_filename.startswith(_PACKAGE):
        depth, frame = depth + 1, frame.f_back
    warnings.warn(text, stacklevel=depth)


@dataclass(frozen=True)
class Host:
    """A package, command line or plugin that calls the core.

    Attributes
    ----------
    words : {"python", "shell", "qgis"}
        The syntax of options in messages.
    warn : callable
        A function that is called with the text of each warning.
    find : callable, optional
        A function that returns the path of rcell-pipe. By default, rcell-pipe is found where Python
        packages install programs.
    watch : callable, optional
        A function that is called repeatedly while a program runs. An exception ends the run.
    progress : callable, optional
        A function that is called with the share of the maps' cells sent so far, from 0 to 1.
    started : callable, optional
        A function that is called before a script runs, with the script and its maps by name.
    """

    words: str = "python"
    warn: Callable[[str], None] = _warn
    find: Optional[Callable[[], str]] = None
    watch: Optional[Callable[[], None]] = None
    progress: Optional[Callable[[float], None]] = None
    started: Optional[Callable[[str, Mapping[str, Any]], None]] = None


_host: contextvars.ContextVar[Host] = contextvars.ContextVar("rcell.host", default=Host())


def host() -> Host:
    """Return the host of the current call."""
    return _host.get()


@contextlib.contextmanager
def serving(caller: Host) -> Iterator[None]:
    """Set the host for the calls in this block and thread."""
    token = _host.set(caller)
    try:
        yield
    finally:
        _host.reset(token)


def warn(text: str) -> None:
    """Issue a warning through the host."""
    host().warn(text)


def option(name: str, value: Any = None) -> str:
    """Return an option in the host's syntax, with a value if one is given.

    Examples
    --------
    >>> option("zone_field"), option("crs", "EPSG:3035")
    ('zone_field=', 'crs="EPSG:3035"')
    >>> with serving(Host("shell")):
    ...     option("zone_field"), option("crs", "EPSG:3035")
    ('--zone-field', '--crs EPSG:3035')
    """
    words = host().words
    if words == "python":
        text = f'"{value}"' if isinstance(value, str) else value
        return f"{name}=" if value is None else f"{name}={text}"
    title = f"--{name.replace('_', '-')}" if words == "shell" else name.upper()
    return title if value is None else f"{title} {value}"

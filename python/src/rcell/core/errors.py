# SPDX-License-Identifier: Apache-2.0 OR GPL-2.0-or-later
"""Define the package's errors, with one class for each kind."""

from __future__ import annotations

from typing import Any

from .host import option
from .protocol import Fault

__all__ = [
    "BadArgument",
    "BadMap",
    "Killed",
    "MissingLibrary",
    "MissingProgram",
    "OtherCrs",
    "OtherRegion",
    "OutOfMemory",
    "RcellError",
    "ReadFailed",
    "Refused",
    "WriteFailed",
    "WrongProgram",
]

_CAUSES = {
    4: "the processor does not support x86-64-v2, which the program requires",
    9: "memory ran out, or someone ended the program",
    11: "the stack limit is too low (ulimit -s), or the program has a bug",
}


class RcellError(Exception):
    """The base class of all errors in this package.

    Examples
    --------
    >>> import rcell
    >>> issubclass(rcell.Refused, rcell.RcellError)
    True
    """


class BadArgument(RcellError, ValueError):
    """Raised if an argument of a call is invalid.

    Parameters
    ----------
    argument : str
        The name of the argument.
    reason : str
        The required value, and the value that was given.

    Examples
    --------
    >>> import numpy as np, rcell
    >>> try:
    ...     rcell.majority(np.array([[1, 2]]), size=4)
    ... except rcell.BadArgument as error:
    ...     print(error, error.argument, sep=" | ")
    size must be odd, from 3 to 15; got 4 | size
    """

    source = "arguments"

    def __init__(self, argument: str, reason: str) -> None:
        super().__init__(argument, reason)
        self.argument = argument
        self.reason = reason
        self.text = f"{option(argument).rstrip('=')} {reason}"

    def __str__(self) -> str:
        return self.text


class Refused(Fault, RcellError):
    """Raised if a map or a script is invalid.

    Parameters
    ----------
    text : str
        The message. If the program reports the error, this is the program's message.
    source : str
        The name of the map or argument, or `script` or `output`.
    line : int
        The line of the source, counted from 1, or 0 if the error is not in a line.
    status : int
        The exit status of the program: 1 for an error in a grid or the script, 2 for an error in
        the command line, 3 if memory ran out, and 4 if a file cannot be read or written.
    content : str, optional
        The text of the line, if the source is the script.
    advice : str, optional
        A suggested correction.
    column : int, optional
        The position in the line, counted in bytes from 1, unless `text` contains the position.

    Examples
    --------
    >>> import numpy as np, rcell
    >>> try:
    ...     rcell.run("r.mapcalc half = lc * 0.5", lc=np.array([[1, 2]]))
    ... except rcell.Refused as error:
    ...     print(error)
    script, line 1: number not whole at column 23
      r.mapcalc half = lc * 0.5
                            ^
      try: r.mapcalc half = lc / 2  (`/` drops the remainder: 7 / 2 is 3)
    """


class OutOfMemory(Refused, MemoryError):
    """Raised if the program runs out of memory.

    `source` and `line` identify the input that the program was processing.

    Parameters
    ----------
    text, source, line, status, content, advice, column
        As in `Refused`.

    Examples
    --------
    >>> import rcell
    >>> issubclass(rcell.OutOfMemory, MemoryError)
    True
    """


class BadMap(Refused, ValueError):
    """Raised if a map contains values that are not whole numbers, or has an irregular grid.

    Parameters
    ----------
    name : str
        The name of the map, which is also the `source` of the error.
    text : str
        The message.
    row, col : int, optional
        The row and column of the first invalid cell, counted from 1 at the top left.
    value : number, optional
        The value of the first invalid cell.

    Examples
    --------
    >>> import numpy as np, rcell
    >>> try:
    ...     rcell.table("r.stats -c input=lc", lc=np.array([[1.0, 1.5]]))
    ... except rcell.BadMap as error:
    ...     print(error, error.row, error.col, error.value, sep=" | ")
    lc: not a map of whole numbers: the cell at row 1, column 2 is 1.5
      try: rcell.Raster(np.rint(array), transform, crs) | 1 | 2 | 1.5
    """

    def __init__(
        self,
        name: str,
        text: str,
        row: int | None = None,
        col: int | None = None,
        value: Any = None,
    ) -> None:
        super().__init__(text, name)
        self.args = (name, text, row, col, value)  # pickle recreates the error from them
        self.row = row
        self.col = col
        self.value = value
        self.column = None  # `text` may give a map's column, which is not a position in a line


class OtherRegion(BadMap):
    """Raised if a map's edges, rows or columns differ from the first map's.

    Maps are never resampled automatically. The last line of the message is the call to
    `rcell.align` that aligns the map with the first map.

    Parameters
    ----------
    name, text, row, col, value
        As in `BadMap`.

    Examples
    --------
    >>> import numpy as np, rcell
    >>> try:
    ...     rcell.table("r.stats -c input=a,b", a=np.ones((2, 2), int), b=np.ones((2, 3), int))
    ... except rcell.OtherRegion as error:
    ...     print(*error.text.splitlines()[0].split(": "), sep="\\n")
    its grid differs from `a`, and rcell does not resample
    east is 3, not 2 (1 more); cols is 3, not 2 (1 more)
    """


class OtherCrs(BadMap):
    """Raised if the maps' reference systems differ, or only some maps have a reference system.

    Parameters
    ----------
    name, text, row, col, value
        As in `BadMap`.

    Examples
    --------
    >>> import rcell
    >>> utm, arctic = (rcell.Raster([[1]], crs=crs) for crs in ("EPSG:25832", "EPSG:3413"))
    >>> try:
    ...     rcell.table("r.stats -c input=a,b", a=utm, b=arctic)
    ... except rcell.OtherCrs as error:
    ...     print(error.source, error.text.partition(" (")[0], sep=": ")
    b: its coordinate reference system is EPSG:3413
    """


class ReadFailed(BadMap):
    """Raised if a file cannot be opened, or cannot be read completely.

    Parameters
    ----------
    name, text
        As in `BadMap`.

    Examples
    --------
    >>> import rcell
    >>> try:
    ...     rcell.run("r.stats -c input=lc", lc="nowhere.tif")
    ... except rcell.ReadFailed as error:
    ...     print(error)
    lc: cannot open: nowhere.tif: No such file or directory
    """

    def __init__(self, name: str, text: str) -> None:
        super().__init__(name, text)
        self.args = (name, text)
        self.status = 4  # a file cannot be read


class MissingProgram(RcellError, FileNotFoundError):
    """Raised if the program `rcell-pipe` is not found or cannot be executed.

    Examples
    --------
    >>> import rcell
    >>> from rcell.core.programs import find_pipe
    >>> try:
    ...     find_pipe("/nowhere/rcell-pipe")
    ... except rcell.MissingProgram as error:
    ...     print(error)
    the program /nowhere/rcell-pipe does not exist or is not executable
    """


class WrongProgram(RcellError):
    """Raised if a program is not `rcell-pipe`, or is a version that this package does not support.

    Examples
    --------
    >>> import rcell
    >>> from rcell.core.programs import find_pipe
    >>> try:
    ...     find_pipe("/bin/true")
    ... except rcell.WrongProgram as error:
    ...     print(error)
    /bin/true is not a supported version of the program rcell-pipe
    """


class Killed(RcellError):
    """Raised if a signal ended the program, for example because memory ran out.

    Parameters
    ----------
    signal : int
        The number of the signal.

    Examples
    --------
    >>> import rcell
    >>> print(rcell.Killed(9))
    the program was killed by signal 9 (SIGKILL): memory ran out, or someone ended the program
    >>> print(*str(rcell.Killed(4)).split(": "), sep="\\n")
    the program was killed by signal 4 (SIGILL)
    the processor does not support x86-64-v2, which the program requires
    """

    def __init__(self, signal: int) -> None:
        super().__init__(signal)
        self.signal = signal

    def __str__(self) -> str:
        from signal import Signals

        name = next((f" ({known.name})" for known in Signals if known == self.signal), "")
        return (
            f"the program was killed by signal {self.signal}{name}: "
            f"{_CAUSES.get(self.signal, 'someone ended the program')}"
        )


class WriteFailed(RcellError, OSError):
    """Raised if a file cannot be written completely, for example because the disk is full.

    The incomplete file is removed.

    Examples
    --------
    >>> import rcell
    >>> issubclass(rcell.WriteFailed, OSError)
    True
    """


class MissingLibrary(RcellError, ImportError):
    """Raised if a library that a call needs is not installed or cannot be loaded.

    Parameters
    ----------
    library : str
        The name of the library.
    extra : str
        The extra of this package that installs the library.
    purpose : str
        The purpose of the library, beginning with "to" or "for".
    reason : str, optional
        The error message of an installed library that cannot be loaded.

    Examples
    --------
    >>> import rcell
    >>> error = rcell.MissingLibrary("rasterio", "gis", "to read GeoTIFF")
    >>> print(*str(error).split(": "), sep="\\n")
    the library rasterio is required to read GeoTIFF
    run pip install 'rcell[gis]', or install Debian's package python3-rasterio
    """

    def __init__(self, library: str, extra: str, purpose: str, reason: str = "") -> None:
        super().__init__(library, extra, purpose, reason)
        self.library = library
        self.extra = extra
        self.purpose = purpose
        self.reason = reason

    def __str__(self) -> str:
        problem = f"the library {self.library} is required {self.purpose}"
        if self.reason:
            return f"{problem}, but cannot be loaded: {self.reason}"
        package = f"Debian's package python3-{self.library}"
        return f"{problem}: run pip install 'rcell[{self.extra}]', or install {package}"


# Tracebacks show the public names.
for _name in __all__:
    globals()[_name].__module__ = "rcell"

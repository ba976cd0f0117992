# SPDX-License-Identifier: Apache-2.0 OR GPL-2.0-or-later
"""Record how tables are created, and verify the tables later."""

from __future__ import annotations

import os
from collections.abc import Callable
from typing import Any, Optional

from . import frames
from ._version import __version__
from .core.calls import CALLS
from .core.errors import BadArgument
from .core.record import differences, make
from .core.report import report
from .core.tiling import working

__all__ = ["record", "report", "verify"]


def record(
    path: str | os.PathLike[str],
    call: Callable[..., Any],
    /,
    *words: Any,
    table: Optional[str] = None,
    **named: Any,
) -> Any:
    """Run a call and write its table to a CSV with a record of its inputs.

    The record is written next to the CSV as `PATH.json`. It contains the call, each script that was
    run, the versions, and SHA-256 checksums of the cells of each map, the program and the CSV. The
    type, nodata value and compression of a raster do not affect the checksum of its cells.

    Parameters
    ----------
    path : path
        The CSV to write.
    call : callable
        A call of this package that returns tables, for example `rcell.composition`.
    *words, **named
        The arguments of the call: paths, numbers, strings, and lists and dicts of these types.
        Paths are recorded relative to the CSV.
    table : str, optional
        The table to write if the call returns several tables, for example `summary` of
        `rcell.change`. By default, this is the first table.

    Returns
    -------
    any
        The result of the call.

    Raises
    ------
    BadArgument
        The call is not from this package, or an argument cannot be recorded.
    Refused
        The CSV is an input file of the call. See the call for other reasons.
    WriteFailed
        The CSV or the record cannot be written.

    Examples
    --------
    >>> import os, rcell, tempfile
    >>> with tempfile.TemporaryDirectory() as folder:
    ...     lc = rcell.Raster([[5, 7, 5]]).write(os.path.join(folder, "lc.txt"))
    ...     found = rcell.record(os.path.join(folder, "t.csv"), rcell.composition, lc)
    ...     rcell.verify(os.path.join(folder, "t.csv"))
    []
    """
    name = getattr(call, "__name__", f"a {type(call).__name__}")
    if name not in CALLS or call is not getattr(frames, name):
        rule = f"must be a call that returns a table, for example rcell.composition; got {name}"
        raise BadArgument("call", rule)
    workers, resume = named.pop("workers", None), named.pop("resume", None)
    with working(workers, resume):
        recorded = make(os.fspath(path), CALLS[name], words, named, table)
    recorded.write(os.fspath(path), __version__)
    return call.convert(recorded.outcome)  # type: ignore[attr-defined]


def verify(path: str | os.PathLike[str]) -> list[str]:
    """Run the call of a recorded table again and return the differences.

    Parameters
    ----------
    path : path
        The CSV that `record` wrote, next to its record `PATH.json`. Input paths in the record are
        relative to the CSV.

    Returns
    -------
    list of str
        A description of each difference in the CSV, the cells of a map, a legend, a script, the
        program, or the result. An empty list means that the table is verified.

    Raises
    ------
    Refused
        The table has no record, or the R package wrote the record.

    Examples
    --------
    >>> import rcell
    >>> rcell.verify("nowhere.csv")
    Traceback (most recent call last):
      ...
    rcell.Refused: record: cannot open nowhere.csv: No such file or directory
    """
    return list(differences(os.fspath(path), __version__))

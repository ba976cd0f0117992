# SPDX-License-Identifier: Apache-2.0 OR GPL-2.0-or-later
"""Define `run`, `table` and `grid`, which run scripts."""

from __future__ import annotations

from collections.abc import Mapping, Sequence
from dataclasses import dataclass, field
from functools import cached_property
from typing import Any, Optional, Union

import numpy as np

from .area import Measure, flat_measure
from .arguments import check_named_maps, check_script
from .arrays import NDArray
from .columns import Column, Matrix, Table
from .errors import BadArgument, Refused
from .protocol import NULL, NULL_BYTE, Statement
from .runs import Output, execute, planned
from .sources import ArrayMap, MapLike, Source, named_once, sources_of

__all__ = ["Run", "Stats", "grid", "run", "table"]

# Parameters of calls with maps by name, which cannot be names of maps.
WORDS = ("area", "percent", "pivot", "crs")


@dataclass(frozen=True)
class Stats:
    """The result of an `r.stats` statement in a script.

    Attributes
    ----------
    line : int
        The statement's line in the script.
    maps : tuple of str
        The names of the maps, in the order of the columns.
    categories : array of int64, combinations x maps
        The categories of each combination; -2147483648 is null.
    cells : array of int64, optional
        The number of cells in each combination, with the flag `-c`.
    labels : mapping
        The labels of each map's categories, by map name, with the flag `-l`.
    """

    line: int
    maps: tuple[str, ...]
    categories: NDArray[np.int64]
    cells: Optional[NDArray[np.int64]] = None
    labels: Mapping[str, Mapping[int, str]] = field(default_factory=dict)

    def table(self, measure: Optional[Measure] = None, percent: bool = False) -> Table:
        """Return a table of categories and labels, `cells`, areas and `percent`."""
        columns: list[Column] = []
        for place, name in enumerate(self.maps):
            codes = self.categories[:, place]
            columns.append(Column(name, "class", codes))
            if name in self.labels:
                texts = [self.labels[name].get(code) for code in codes.tolist()]
                columns.append(Column(f"{name}_label", "label", texts))
        if self.cells is not None:
            columns.append(Column("cells", "count", self.cells))
        if measure is not None:
            columns.append(Column(f"area_{measure.unit}", "measure", self._areas(measure)))
        if percent:
            columns.append(Column("percent", "measure", self._percent()))
        return Table(columns)

    def matrix(self, measure: Optional[Measure] = None, percent: bool = False) -> Matrix:
        """Return the table of two maps as a matrix of percentages, areas or cells."""
        if len(self.maps) != 2:
            problem = f"pivot= requires a table of two maps, but this table has {len(self.maps)}"
            raise Refused(problem, "script", self.line)
        values = self._percent() if percent else self._counted("pivot=")
        if measure is not None and not percent:
            values = self._areas(measure)
        labels = [self.labels.get(name, {}) for name in self.maps]
        return Matrix.of(self.maps, self.categories, values, labels)

    def _areas(self, measure: Measure) -> NDArray[np.float64]:
        return measure.area(self._counted("area="))

    def _percent(self) -> NDArray[np.float64]:
        cells = self._counted("percent=")
        return cells * 100.0 / max(int(cells.sum()), 1)

    def _counted(self, option: str) -> NDArray[np.int64]:
        """Return the numbers of cells, or raise Refused if the table lacks what an option needs."""
        if self.cells is None:
            raise Refused(
                f"{option} requires a table with counts: use r.stats -c", "script", self.line
            )
        return self.cells


class Run:
    """A script and its input maps, whose grid, labels and colours the results inherit.

    Parameters
    ----------
    script : str
    maps, named : mapping
        Maps by name, as in `run`. `maps` may be None.
    crs : any, optional
        The coordinate reference system to assume for maps that do not have one.
    """

    def __init__(self, script: Any, maps: Any, named: Mapping[str, Any], crs: Any = None) -> None:
        check_script(script)
        check_named_maps(maps, named, WORDS)
        self.script: str = script
        self.sources: dict[str, Source]
        self.sources, self.crs = sources_of(named_once(maps, named), crs)
        self.first = next(iter(self.sources.values()))

    @cached_property
    def made(self) -> dict[str, Statement]:
        """The statement that creates each map, by map name."""
        plan = planned(self.script, self.sources)
        return {statement.made: statement for statement in plan if statement.made}

    def outputs(self, wanted: Sequence[str] = ()) -> list[Union[Stats, ArrayMap]]:
        """Run the script and return the outputs, followed by the requested maps."""
        for name in wanted:
            if name not in self.sources and name not in self.made:
                known = ", ".join([*self.sources, *self.made])
                raise BadArgument("name", f"must be a map of the script ({known}); got {name!r}")
        outputs = execute(self.script, self.sources, wanted=wanted)
        return [
            self._map(output) if output.command == "r.out.ascii" else self._stats(output)
            for output in outputs
        ]

    def maps(self, names: Sequence[str]) -> list[ArrayMap]:
        """Run the script and return the named maps, which the script creates or reads."""
        requested = self.outputs(names)[-len(names) :]  # after the outputs of the script
        return [output for output in requested if isinstance(output, ArrayMap)]

    def labels(self, name: str) -> Mapping[int, str]:
        """Return the labels of an input map, or of a map that the script creates."""
        if name in self.sources:
            return self.sources[name].labels
        return self.made[name].labels

    def _stats(self, output: Output) -> Stats:
        map_count = len(output.maps)
        return Stats(
            output.line,
            output.maps,
            categories=output.values[:, :map_count],
            cells=output.values[:, map_count] if output.has_counts else None,
            labels={name: self.labels(name) for name in output.maps} if output.has_labels else {},
        )

    def _map(self, output: Output) -> ArrayMap:
        """Convert an output to a map on the inputs' grid, with labels and colours."""
        [name] = output.maps
        is_narrow = output.values.dtype == np.uint8
        colors: Mapping[int, str] = {}
        if name in self.sources:
            colors = self.sources[name].colors
        files: list[str] = []
        for source in self.sources.values():
            files += source.files
        return ArrayMap(
            name,
            output.values,
            self.first.region,
            nodata_value=NULL_BYTE if is_narrow else NULL,
            labels=self.labels(name),
            crs=self.crs,
            exact_transform=self.first.transform,
            colors=colors,
            files=tuple(files),
            is_narrow=is_narrow,
        )


def run(
    script: str,
    maps: Optional[Mapping[str, MapLike]] = None,
    /,
    *,
    crs: Any = None,
    **named: MapLike,
) -> list[Any]:
    """Run a script over maps of one region.

    Parameters
    ----------
    script : str
        The script, with one statement per line.
    maps : mapping, optional
        Maps by name, for names that cannot be Python keyword arguments.
    **named
        Maps by name. A map is the path of an rcell grid or of a file that rasterio can open; an
        array or masked array of whole numbers (with cells of size 1); `(array, region)` or `(array,
        transform)`; a `Raster`; a DataArray; or an open rasterio dataset or band.
    crs : any, optional
        The coordinate reference system to assume for maps that do not have one.

    Returns
    -------
    Result
        A DataFrame for each `r.stats` statement and a Raster for each `r.out.ascii` statement, in
        the order of the script.

    Raises
    ------
    Refused
        The program rejects the script or a map. The error contains the source, line and message.
        If a map cannot be sent to the program, the error is a BadMap or OtherRegion.
    RcellError
        The program is missing, is not rcell-pipe, or was killed.

    Examples
    --------
    >>> import numpy as np, rcell
    >>> lc = np.array([[1, 1, 2], [3, 2, 2]])
    >>> result = rcell.run("r.clump input=lc output=areas\\nr.stats -c input=areas,lc", lc=lc)
    >>> result[0]
       areas  lc  cells
    0      1   1      2
    1      2   2      3
    2      3   3      1
    """
    outputs = Run(script, maps, named, crs).outputs()
    return [output.table() if isinstance(output, Stats) else output for output in outputs]


def table(
    script: str,
    maps: Optional[Mapping[str, MapLike]] = None,
    /,
    *,
    area: Optional[str] = None,
    percent: bool = False,
    pivot: bool = False,
    crs: Any = None,
    **named: MapLike,
) -> Table:
    """Run a script that produces one table, and return the table.

    Parameters
    ----------
    script : str
        An r.stats line, or a script that contains exactly one r.stats.
    maps : mapping, optional
        See `run`.
    area : {"m2", "ha", "km2"}, optional
        Add a column of areas in this unit. Maps in degrees or without a reference system raise an
        error. In degrees, the area of a cell differs from row to row; use `composition` or `cross`,
        which weight each row by its cell area.
    percent : bool
        Add a column of percentages of all cells in the table.
    pivot : bool
        Return a table of two maps as a matrix of percentages (with `percent`), areas (with `area`)
        or cells.
    crs : any, optional
        The coordinate reference system to assume for maps that do not have one.
    **named
        Maps by name, as in `run`.

    Returns
    -------
    pandas.DataFrame
        For each map, a column `NAME` (nullable Int64) and, with the flag `-l`, a column
        `NAME_label` (text), followed by `cells`, `area_ha` (or another unit) and `percent`.

    Raises
    ------
    Refused
        The script does not produce exactly one table, or areas are unknown. See `run` for other
        reasons.

    Examples
    --------
    >>> import numpy as np, rcell
    >>> lc = np.array([[1, 1, 2], [3, 2, 2]])
    >>> rcell.table("r.stats -c input=lc", lc=lc, percent=True)
       lc  cells    percent
    0   1      2  33.333333
    1   2      3  50.000000
    2   3      1  16.666667
    """
    script_run = Run(script, maps, named, crs)
    measure = None
    if area is not None:
        measure = flat_measure(area, script_run.first.transform, script_run.crs)
    outputs = script_run.outputs()
    if len(outputs) != 1 or not isinstance(outputs[0], Stats):
        tables = sum(isinstance(output, Stats) for output in outputs)
        outcome = f"{tables} r.stats and {len(outputs) - tables} r.out.ascii"
        rule = f"the script must write one table and no map; got {outcome}"
        raise Refused(f"{rule}: use rcell.run to get all outputs", "script")
    stats = outputs[0]
    return stats.matrix(measure, percent) if pivot else stats.table(measure, percent)


def grid(
    script: str,
    name: str,
    maps: Optional[Mapping[str, MapLike]] = None,
    /,
    *,
    crs: Any = None,
    **named: MapLike,
) -> ArrayMap:
    """Run a script and return one of its maps.

    Parameters
    ----------
    script : str
        The script. Its outputs, if any, are ignored.
    name : str
        The name of a map that the script creates, or of a given map.
    maps : mapping, optional
        See `run`.
    crs : any, optional
        The coordinate reference system to assume for maps that do not have one.
    **named
        Maps by name, as in `run`.

    Returns
    -------
    Raster
        The map, with labels from its rules or from the given map.

    Raises
    ------
    Refused
        See `run`.
    BadArgument
        The script has no map with this name.

    Examples
    --------
    >>> import numpy as np, rcell
    >>> rcell.grid("r.mapcalc right = lc[0,1]", "right", lc=np.array([[1, 1, 2]])).array.tolist()
    [[1, 2, None]]
    """
    [result] = Run(script, maps, named, crs).maps([name])
    return result

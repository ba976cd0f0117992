# SPDX-License-Identifier: Apache-2.0 OR GPL-2.0-or-later
"""Add the accessor `.rcell` to xarray's DataArrays and Datasets.

A DataArray is a map with the array's name, or `map` if the array has no usable name. The variables
of a Dataset are maps. Dask arrays are computed window by window with the current client. Maps
computed from Dask arrays stay in Dask. With `compute=False`, tables also stay in Dask.
"""

from __future__ import annotations

import functools
import inspect
import re
from collections.abc import Callable, Mapping
from typing import TYPE_CHECKING, Any, NamedTuple, Optional

from . import frames
from .core.aggregate import Aggregate
from .core.errors import BadArgument, BadMap, MissingLibrary
from .core.protocol import NULL
from .core.runs import planned
from .core.sources import MapLike, named_once
from .core.trajectories import Trajectories
from .raster import Raster
from .readers.xarray import data_array, flat_of, is_lazy, variables_of

try:
    import xarray
except ImportError:
    raise MissingLibrary("xarray", "xarray", "for the accessor") from None

if TYPE_CHECKING:
    import pandas

__all__ = ["Accessor"]

_NAME = re.compile(r"[A-Za-z_][A-Za-z0-9_.]{0,63}")


def _work_of(named: dict[str, Any]) -> dict[str, Any]:
    """Remove and return the keywords that control processing and are not names of maps."""
    return {word: named.pop(word) for word in ("workers", "resume", "compute") if word in named}


class Accessor:
    """The `.rcell` accessor: the calls of rcell, with the DataArray or Dataset as the first map.

    Parameters
    ----------
    array : DataArray or Dataset

    Examples
    --------
    >>> import numpy as np, rcell.xarray, xarray
    >>> land = xarray.DataArray(np.array([[1, 1, 2], [3, 2, 2]]), dims=("y", "x"), name="land")
    >>> land.rcell.composition()
       class  cells    percent
    0      1      2  33.333333
    1      2      3  50.000000
    2      3      1  16.666667
    """

    def __init__(self, array: Any) -> None:
        self._array = array
        if hasattr(array, "data_vars"):
            self._maps = variables_of(array)
        else:
            is_name = array.name is not None and _NAME.fullmatch(str(array.name))
            self._maps = {array.name if is_name else "map": array}

    def table(
        self,
        script: str,
        area: str | None = None,
        percent: bool = False,
        *,
        crs: Any = None,
        **more: MapLike,
    ) -> pandas.DataFrame:
        """Run a script that contains one r.stats, and return the table; see `rcell.table`.

        Parameters
        ----------
        script : str
        area : {'ha', 'km2', 'm2'}, optional
            Add a column of areas in this unit.
        percent : bool
            Add a column of percentages.
        crs : any, optional
            The coordinate reference system to assume for maps that do not have one.
        **more : DataArray or path
            Further maps by name; also `workers`, `resume` and `compute`, as in `rcell.table`.

        Returns
        -------
        pandas.DataFrame
            The result of `rcell.table`.

        Examples
        --------
        >>> import numpy as np, rcell.xarray, xarray
        >>> before, after = (("y", "x"), np.array([[1, 1]])), (("y", "x"), np.array([[1, 2]]))
        >>> years = xarray.Dataset({"before": before, "after": after})
        >>> years.rcell.table("r.stats -c input=before,after")
           before  after  cells
        0       1      1      1
        1       1      2      1
        """
        work = _work_of(more)
        maps = named_once(self._maps, more)
        return frames.table(script, maps, area=area, percent=percent, crs=crs, **work)

    def grid(self, script: str, *, crs: Any = None, **more: MapLike) -> Any:
        """Evaluate an expression and return the resulting map.

        Parameters
        ----------
        script : str
            An assignment `NAME = EXPRESSION`, or a script whose last statement creates the map.
        crs : any, optional
            The coordinate reference system to assume for maps that do not have one.
        **more : DataArray or path
            Further maps by name; also `workers`, `resume` and `compute`, as in `rcell.grid`.

        Returns
        -------
        DataArray
            An int32 array with the dimensions and coordinates of the first map. Null is
            -2147483648, which is stored in the attribute `_FillValue`. If all maps are Dask arrays,
            the result is a Dask array with the first map's chunks, unless `compute` is True.

        Examples
        --------
        >>> import numpy as np, rcell.xarray, xarray
        >>> land = xarray.DataArray(np.array([[1, 1, 2]]), dims=("y", "x"))
        >>> land.rcell.grid("edge = if(map != map[0,1], map, 0)").values.tolist()
        [[0, 1, -2147483648]]
        """
        work = _work_of(more)
        maps = named_once(self._maps, more)
        is_script = script.lstrip().startswith(("r.", "#"))
        text = script if is_script else f"r.mapcalc {script.strip()}"
        plan = planned(text, maps)
        if not plan or not plan[-1].made:
            raise BadArgument("script", f"must create a map in its last statement; got {script!r}")
        name = plan[-1].made
        return self._map_of(frames.grid, text, name, maps, maps=maps, crs=crs, **work)

    def _map_of(
        self, call: Any, *words: Any, maps: Any = None, is_local: bool = True, **options: Any
    ) -> Any:
        """Return a call's map as a DataArray, which stays in Dask if all input maps are in Dask.

        `maps` are the input maps, by default the accessor's own. `is_local` is whether the call
        can stay in Dask.
        """
        all_maps = (self._maps if maps is None else maps).values()
        has_work = options.get("workers") is not None or options.get("resume") is not None
        stays = is_local and not has_work and all(map(is_lazy, all_maps))
        options = {"compute": not stays, **options}
        result = call(*words, **options)
        return self._like(result) if options["compute"] else result

    def _only(self) -> Any:
        names = list(self._maps)
        if len(names) != 1:
            first = names[0] if names else "name"
            problem = f"must have one map; got {len(names)} ({', '.join(names)})"
            raise BadMap("dataset", f"{problem}: select one, for example dataset[{first!r}]")
        return self._maps[names[0]]

    def _like(self, raster: Raster) -> Any:
        """Return a map as a DataArray with the dimensions of the first map."""
        like = flat_of("map", next(iter(self._maps.values()))).array
        cells = raster.array.filled(NULL)
        return data_array(
            cells, raster.transform, raster.crs, raster.labels, raster.name, like=like
        )


def _only(accessor: Accessor) -> Any:
    return accessor._only()


def _maps(accessor: Accessor) -> Any:
    return accessor._maps


def _unchanged(accessor: Accessor, result: Any) -> Any:
    return result


def _on_its_grid(accessor: Accessor, raster: Raster) -> Any:
    return raster.to_xarray()


def _blocks(accessor: Accessor, result: Aggregate) -> Aggregate:
    return result._replace(majority=result.majority.to_xarray(), cells=result.cells.to_xarray())


def _with_maps(accessor: Accessor, result: Trajectories) -> Trajectories:
    return result._replace(maps={name: raster.to_xarray() for name, raster in result.maps.items()})


def _with_account(accessor: Accessor, raster: Raster) -> Any:
    account = raster.sieved
    assert account is not None
    return accessor._like(raster).assign_attrs(account._asdict())


class _Method(NamedTuple):
    """The settings of a method: its maps, the conversion of the result, and an example."""

    example: str
    result: str
    argument_of: Callable[[Accessor], Any] = _only
    convert: Callable[[Accessor, Any], Any] = _unchanged
    returns: str = ""
    # Whether the resulting map can stay in Dask, as a function of the arguments; None for calls
    # whose result never stays in Dask.
    is_local: Optional[Callable[[Mapping[str, Any]], bool]] = None


def _always(arguments: Mapping[str, Any]) -> bool:
    return True


def _has_other(arguments: Mapping[str, Any]) -> bool:
    return arguments.get("other") is not None  # otherwise all cells must be checked


def _selects_nothing(arguments: Mapping[str, Any]) -> bool:
    return arguments.get("classes") is None and arguments.get("min_cells") is None


_MAP = "DataArray\n        The map, with the dimensions and coordinates of the array."
_YEARS = "xarray.concat([land, land * 2], xarray.Variable('time', [2000, 2010])).rcell"
_METHODS = {
    "accuracy": _Method("land.rcell.accuracy(land).overall", "1.0"),
    "adjacency": _Method("land.rcell.adjacency()['sides'].tolist()", "[1, 1]"),
    "aggregate": _Method(
        "land.rcell.aggregate(3).majority.values.tolist()",
        "[[1]]",
        convert=_blocks,
        returns=(
            "Aggregate\n        As in `rcell.aggregate`, with `majority` and `cells` as "
            "DataArrays."
        ),
    ),
    "align": _Method(
        "land.rcell.align(to=land).values.tolist()",
        "[[1, 1, 2]]",
        convert=_on_its_grid,
        returns="DataArray\n        The map on the grid of the other map.",
    ),
    "change": _Method("land.rcell.change(land * 2).table['cells'].tolist()", "[2, 1]"),
    "clump": _Method(
        "land.rcell.clump().values.tolist()", "[[1, 1, 2]]", returns=_MAP, is_local=_selects_nothing
    ),
    "composition": _Method("land.rcell.composition()['cells'].tolist()", "[2, 1]"),
    "cross": _Method("land.rcell.cross(b=land * 2)['b'].tolist()", "[2, 4]", argument_of=_maps),
    "dominant": _Method("land.rcell.dominant([[7, 7, 8]])['zone'].tolist()", "[7, 8]"),
    "majority": _Method(
        "land.rcell.majority().values.tolist()", "[[1, 1, 1]]", returns=_MAP, is_local=_always
    ),
    "metrics": _Method("land.rcell.metrics()['patches'].tolist()", "[1, 1]"),
    "patches": _Method("land.rcell.patches()['cells'].tolist()", "[2, 1]"),
    "reclass": _Method(
        "land.rcell.reclass({1: 7, 2: 8}).values.tolist()",
        "[[7, 7, 8]]",
        returns=_MAP,
        is_local=_has_other,
    ),
    "sample": _Method("land.rcell.sample({1: 2, 2: 1}, seed=7)['col'].tolist()", "[1, 2, 3]"),
    "sieve": _Method(
        "land.rcell.sieve(min_cells=2).values.tolist()",
        "[[1, 1, 1]]",
        convert=_with_account,
        returns=f"{_MAP} Its attributes count patches and changed cells.",
    ),
    "trajectories": _Method(
        f"{_YEARS}.trajectories().table['class_2010'].tolist()",
        "[2, 4]",
        convert=_with_maps,
        returns="Trajectories\n        As in `rcell.trajectories`, with maps as DataArrays.",
    ),
    "within": _Method(
        "land.assign_attrs(crs='EPSG:25832').rcell.within([2], [1]).values.tolist()",
        "[[-2147483648, 1, 0]]",
        returns=_MAP,
        is_local=_always,
    ),
    "zonal": _Method("land.rcell.zonal([[7, 7, 8]])['sum'].tolist()", "[2, 2]"),
}
_SECTION = re.compile(r"\n\n    (\w+)\n    -+\n")


def _method_of(name: str, how: _Method) -> Callable[..., Any]:
    """Convert a call to a method that passes the array as the first map."""
    call: Any = getattr(frames, name)
    signature = inspect.signature(call)

    @functools.wraps(call)
    def method(self: Accessor, *words: Any, **named: Any) -> Any:
        argument = how.argument_of(self)
        if how.is_local is None:
            return how.convert(self, call(argument, *words, **named))
        arguments = signature.bind(argument, *words, **named).arguments
        return self._map_of(call, argument, *words, is_local=how.is_local(arguments), **named)

    first, *others = signature.parameters.values()
    self_word = inspect.Parameter("self", inspect.Parameter.POSITIONAL_ONLY)
    own: Any = method
    own.__signature__ = signature.replace(parameters=[self_word, *others])
    own.__qualname__, own.__module__ = f"Accessor.{name}", __name__
    own.__doc__ = _doc_of(name, how, call.__doc__, first.name)
    return method


def _doc_of(name: str, how: _Method, doc: str, first: str) -> str:
    """Convert a call's docstring to a method's docstring, without the first map's parameter."""
    head, *titles_and_texts = _SECTION.split(doc)
    sections = dict(zip(titles_and_texts[::2], titles_and_texts[1::2]))
    # The parameter is alone, with or without a description, or the first of several in a line.
    alone = rf"^    {first} : .*\n(?:        .*\n?)+|^    {first} : .*\n?"
    section = re.sub(alone, "", sections["Parameters"])
    parameters = section.replace(f"    {first}, ", "    ", 1)
    returns = how.returns or sections["Returns"].strip()
    summary, _, more = head.partition("\n\n")
    details = f"\n\n{more}" if more else ""
    return f"""{summary}

    The array is the first map of `rcell.{name}`.{details}

    Parameters
    ----------
{parameters}

    Returns
    -------
    {returns}

    Examples
    --------
    >>> import rcell.xarray, xarray
    >>> land = xarray.DataArray([[1, 1, 2]], dims=("y", "x"), name="land")
    >>> {how.example}
    {how.result}
    """


for _name, _how in _METHODS.items():
    setattr(Accessor, _name, _method_of(_name, _how))
for _register in (xarray.register_dataarray_accessor, xarray.register_dataset_accessor):
    _register("rcell")(Accessor)

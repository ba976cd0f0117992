# SPDX-License-Identifier: Apache-2.0 OR GPL-2.0-or-later
"""Define the package's calls, which return DataFrames and Rasters."""

from __future__ import annotations

import contextlib
import functools
import inspect
import os
import sys
from collections.abc import Callable, Iterable, Sequence
from typing import TYPE_CHECKING, Any, ParamSpec, Protocol, TypeVar, overload

import numpy as np

from .core import accuracy as _accuracy
from .core import adjacency as _adjacency
from .core import aggregate as _aggregate
from .core import align as _align
from .core import change as _change
from .core import composition as _composition
from .core import dominant as _dominant
from .core import majority as _majority
from .core import metrics as _metrics
from .core import patches as _patches
from .core import reclass as _reclass
from .core import sample as _sample
from .core import scripts as _scripts
from .core import sieve as _sieve
from .core import trajectories as _trajectories
from .core import within as _within
from .core import zonal as _zonal
from .core.accuracy import Accuracy
from .core.aggregate import Aggregate
from .core.arguments import check_arguments
from .core.change import Change
from .core.columns import Column, Matrix, Table
from .core.errors import BadArgument
from .core.protocol import NULL
from .core.sources import ArrayMap
from .core.tiling import working
from .core.trajectories import Trajectories
from .raster import Raster
from .shares import Shares

if TYPE_CHECKING:
    import pandas

__all__ = [
    "Result",
    "accuracy",
    "adjacency",
    "aggregate",
    "align",
    "change",
    "clump",
    "composition",
    "cross",
    "dominant",
    "frame_of",
    "grid",
    "majority",
    "metrics",
    "patches",
    "reclass",
    "run",
    "sample",
    "sieve",
    "table",
    "trajectories",
    "within",
    "zonal",
]

Words = ParamSpec("Words")
Made = TypeVar("Made")
Returned = TypeVar("Returned", covariant=True)


class Call(Protocol[Words, Returned]):
    """A call of the package: a core function, with additional parameters that all calls share.

    Type checkers need a signature for each combination of these parameters.
    """

    @overload
    def __call__(self, *words: Words.args, **named: Words.kwargs) -> Returned:
        ...

    @overload
    def __call__(
        self, *words: Any, workers: Any, resume: str | os.PathLike[str] | None = None, **named: Any
    ) -> Returned:
        ...

    @overload
    def __call__(
        self, *words: Any, resume: str | os.PathLike[str] | None, **named: Any
    ) -> Returned:
        ...

    @overload
    def __call__(self, *words: Any, compute: bool, **named: Any) -> Any:
        ...


# The parameters that all calls share, and their documentation.
_WORK_TYPES = {
    "workers": "int | distributed.Client | None",
    "resume": "str | os.PathLike[str] | None",
    "compute": "bool",
}
_DEFAULTS: dict[str, Any] = {"workers": None, "resume": None, "compute": True}
_RETURNS = "\n\n    Returns\n"
_WORK_WORDS = """
    workers : int or distributed.Client, optional
        The number of tiles of a large map to process at a time, or a client whose cluster
        processes them. By default, the current Dask client is used or, without a client, one tile
        is processed per processor.
    resume : path, optional
        A folder that keeps the results of a large map's finished tiles. To continue an interrupted
        call, repeat it with the same folder.
    compute : bool
        """
_COMPUTE_WORDS = {
    "table": "Whether to compute the result now. If False, the result is a Dask Delayed.",
    "map": (
        "Whether to compute the map now. If False, the result is a lazy DataArray with the map's "
        "chunks."
    ),
    "": "Must be True, because Dask cannot compute this result.",
}


def frame_of(table: Table) -> pandas.DataFrame:
    """Convert a table to a DataFrame.

    Classes become nullable Int64, counts int64, measures float64, and labels text.

    Examples
    --------
    >>> lc, cells = np.array([1, 2]), np.array([2, 1])
    >>> frame_of(Table([Column("lc", "class", lc), Column("cells", "count", cells)]))
       lc  cells
    0   1      2
    1   2      1
    """
    import pandas  # imported here because it is slow to load

    columns = {column.name: _series(column) for column in table.data}
    frame = pandas.DataFrame(columns, copy=False)
    if isinstance(table, Matrix):
        frame = frame.set_index(list(frame.columns[: table.key_count]))
        if table.is_numbered:
            frame.columns = [name if name == "null" else int(name) for name in frame.columns]
        frame = frame.rename_axis(columns=table.across)
    return frame


def _series(column: Column) -> Any:
    import pandas

    if column.kind == "class":
        is_null = column.values == NULL
        return pandas.arrays.IntegerArray(column.values.astype(np.int64), is_null)
    if column.kind == "label":
        return pandas.array(column.values, dtype="string")
    return np.ascontiguousarray(column.values)


def _load_pandas() -> None:
    """Import pandas if possible, without keeping the tile threads waiting."""
    if "pandas" in sys.modules:
        return
    interval = sys.getswitchinterval()
    sys.setswitchinterval(interval / 10)  # so that the import yields to other threads more often
    try:
        with contextlib.suppress(ImportError):
            import pandas  # noqa: F401
    finally:
        sys.setswitchinterval(interval)


def _returning(
    kind: str,
    convert: Callable[[Made], Returned],
    lazy: str = "",
    meanwhile: Callable[[], None] | None = None,
) -> Callable[[Callable[Words, Made]], Call[Words, Returned]]:
    """Return a decorator that converts a function's result and documents its type as `kind`.

    The decorator adds the parameters `workers` and `resume`, which control the processing of large
    maps, and `compute`, with which Dask can compute the result later. `lazy` is what Dask computes:
    a key of _COMPUTE_WORDS. A thread calls `meanwhile` while the tiles of a large map are
    processed.
    """

    def wrap(make: Callable[Words, Made]) -> Call[Words, Returned]:
        @functools.wraps(make)
        def call(*words: Words.args, **named: Words.kwargs) -> Returned:
            own: Any = named
            work = {word: own.pop(word, default) for word, default in _DEFAULTS.items()}
            check_arguments(make, own)
            if not work["compute"]:
                later: Returned = _lazily(make, lazy, work, words, named)
                return later
            with working(work["workers"], work["resume"], meanwhile=meanwhile):
                return convert(make(*words, **named))

        call.__annotations__ = {**make.__annotations__, **_WORK_TYPES, "return": kind}
        sections = _WORK_WORDS + _COMPUTE_WORDS[lazy] + _RETURNS
        call.__doc__ = (make.__doc__ or "").replace(_RETURNS, sections, 1)
        call.__signature__ = _signature_of(make, kind)  # type: ignore[attr-defined]
        call.convert = convert  # type: ignore[attr-defined]
        known: Any = call
        typed: Call[Words, Returned] = known
        return typed

    return wrap


def _signature_of(make: Callable[..., Any], kind: str) -> inspect.Signature:
    """Return the signature of a call: the function's own parameters, and the shared ones."""
    signature = inspect.signature(make)
    parameters, keywords = list(signature.parameters.values()), []
    if parameters[-1].kind is inspect.Parameter.VAR_KEYWORD:
        keywords = [parameters.pop()]  # `**named`, which must be last
    keyword_only = inspect.Parameter.KEYWORD_ONLY
    for name, type_ in _WORK_TYPES.items():
        default = _DEFAULTS[name]
        parameters.append(inspect.Parameter(name, keyword_only, default=default, annotation=type_))
    return signature.replace(parameters=parameters + keywords, return_annotation=kind)


def _lazily(
    make: Callable[..., Any], lazy: str, work: dict[str, Any], words: Any, named: dict[str, Any]
) -> Any:
    """Return the result of a call as an object that Dask computes."""
    if not lazy:
        rule = f"must be True: Dask cannot compute the result of {make.__name__}"
        raise BadArgument("compute", f"{rule}; got False")
    for word, value in work.items():
        if word != "compute" and value is not None:
            rule = "must be left out with compute=False, because Dask decides where to compute"
            raise BadArgument(word, f"{rule}; got {value!r}")
    from .readers.lazy import lazy_map, lazy_table

    if lazy == "map":
        return lazy_map(functools.partial(make, *words, **named))
    return lazy_table(make.__name__, words, named)


def _change_of(result: Change) -> Change:
    return Change(*map(frame_of, result))


def _accuracy_of(result: Accuracy) -> Accuracy:
    return result._replace(matrix=frame_of(result.matrix), classes=frame_of(result.classes))


def _raster_of(result: Any) -> Raster:
    """Convert a core map to a Raster, with its `Aligned` or `Sieved` counts, if any."""
    return Raster._of(*result) if isinstance(result, tuple) else Raster._of(result)


def _aggregate_of(result: Aggregate) -> Aggregate:
    return Aggregate(Raster._of(result.majority), Shares(result.shares), Raster._of(result.cells))


def _trajectories_of(result: Trajectories) -> Trajectories:
    maps = {name: Raster._of(raster) for name, raster in result.maps.items()}
    return result._replace(
        table=frame_of(result.table),
        changes=frame_of(result.changes),
        intervals=frame_of(result.intervals),
        maps=maps,
    )


class Result(Sequence[Any]):
    """The outputs of a script, in the order of its statements.

    The sequence contains a DataFrame for each `r.stats` statement and a Raster for each
    `r.out.ascii` statement.

    Parameters
    ----------
    outputs : iterable of DataFrame or Raster
        The outputs, in order.

    Examples
    --------
    >>> import numpy as np, rcell
    >>> rcell.run("r.stats -c input=lc\\nr.out.ascii input=lc", lc=np.array([[1, 2]]))
    <Result: a table of lc, cells; the map lc>
    """

    def __init__(self, outputs: Iterable[Any]) -> None:
        self._outputs = list(outputs)

    @property
    def tables(self) -> list[pandas.DataFrame]:
        """The tables among the outputs.

        Examples
        --------
        >>> import numpy as np, rcell
        >>> len(rcell.run("r.stats -c input=lc", lc=np.array([[1, 2]])).tables)
        1
        """
        return [output for output in self._outputs if not isinstance(output, Raster)]

    @property
    def grids(self) -> dict[str, Raster]:
        """The maps among the outputs, by name.

        Examples
        --------
        >>> import numpy as np, rcell
        >>> list(rcell.run("r.out.ascii input=lc", lc=np.array([[1, 2]])).grids)
        ['lc']
        """
        return {output.name: output for output in self._outputs if isinstance(output, Raster)}

    @overload
    def __getitem__(self, place: int) -> Any:
        ...

    @overload
    def __getitem__(self, place: slice) -> list[Any]:
        ...

    def __getitem__(self, place: int | slice) -> Any:
        return self._outputs[place]

    def __len__(self) -> int:
        return len(self._outputs)

    def __repr__(self) -> str:
        texts = []
        for output in self._outputs:
            if isinstance(output, Raster):
                texts.append(f"the map {output.name}")
            else:
                texts.append(f"a table of {', '.join(output.columns)}")
        return f"<Result: {'; '.join(texts) or 'no output'}>"


def _result_of(outputs: list[Any]) -> Result:
    return Result(
        _raster_of(output) if isinstance(output, ArrayMap) else frame_of(output)
        for output in outputs
    )


_framed = _returning("pandas.DataFrame", frame_of, meanwhile=_load_pandas)
_framed_or_delayed = _returning("pandas.DataFrame", frame_of, lazy="table", meanwhile=_load_pandas)
_rastered = _returning("rcell.Raster", _raster_of)
_rastered_or_lazy = _returning("rcell.Raster", _raster_of, lazy="map")

composition = _framed_or_delayed(_composition.composition)
cross = _framed_or_delayed(_composition.cross)
patches = _framed_or_delayed(_patches.patches)
zonal = _framed_or_delayed(_zonal.zonal)
adjacency = _framed_or_delayed(_adjacency.adjacency)
table = _framed_or_delayed(_scripts.table)
dominant = _framed_or_delayed(_dominant.dominant)
metrics = _framed_or_delayed(_metrics.metrics)
sample = _framed(_sample.sample)
change = _returning("rcell.Change", _change_of, lazy="table", meanwhile=_load_pandas)(
    _change.change
)
accuracy = _returning("rcell.Accuracy", _accuracy_of)(_accuracy.accuracy)
trajectories = _returning("rcell.Trajectories", _trajectories_of)(_trajectories.trajectories)
aggregate = _returning("rcell.Aggregate", _aggregate_of)(_aggregate.aggregate)
majority = _rastered_or_lazy(_majority.majority)
align = _rastered(_align.align)
reclass = _rastered_or_lazy(_reclass.reclass)
clump = _rastered_or_lazy(_patches.clump)
sieve = _rastered(_sieve.sieve)
within = _rastered_or_lazy(_within.within)
grid = _rastered_or_lazy(_scripts.grid)
run = _returning("rcell.Result", _result_of)(_scripts.run)

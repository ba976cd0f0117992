"""Compare reclass, clump and adjacency with numpy and scipy; test Raster and the accessor."""

from __future__ import annotations

import inspect
import pathlib
import subprocess
import sys
from typing import Any

import numpy as np
import pytest

ndimage = pytest.importorskip("scipy.ndimage")
pandas = pytest.importorskip("pandas")
xarray = pytest.importorskip("xarray")
rcell = pytest.importorskip("rcell")
from rcell import frames  # noqa: E402

METRES = (10.0, 0.0, 0.0, 0.0, -20.0, 100.0)
EDGES = np.array([[0, 1, 0], [1, 1, 1], [0, 1, 0]])


def land(seed: int) -> Any:
    """Return a random map with null cells."""
    cells = np.random.default_rng(seed).integers(0, 4, (12, 15))
    return rcell.Raster(cells, METRES, crs="EPSG:32632", nodata=0, labels={1: "wood", 2: "water"})


def test_reclass_by_a_dict_a_frame_and_a_file(tmp_path: pathlib.Path) -> None:
    cells = np.array([[31, 32, 39, 51], [51, 31, 40, 39]])
    expected = [[3, 3, 3, None], [None, 3, 4, 3]]
    path = tmp_path / "rules.csv"
    path.write_text("Value,new,label\n31-39,3,forest\n40,4,town\n\n51,,\n")
    frame = pandas.DataFrame({"value": ["31-39", 40, 51], "new": [3, 4.0, None]})
    for rules in ({(31, 39): 3, 40: 4, 51: None}, frame, path, str(path)):
        assert rcell.reclass(cells, rules).array.tolist() == expected
    assert rcell.reclass(cells, path).labels == {3: "forest", 4: "town"}


def test_a_class_without_a_rule_is_an_error_that_names_it() -> None:
    cells = np.array([[1, 2, 3, 4]])
    with pytest.raises(rcell.Refused, match='no rule for the classes 3, 4: .*other="keep"'):
        rcell.reclass(cells, {1: 7, 2: 8, 9: 1})
    kept = rcell.reclass(rcell.Raster(cells, labels={4: "town"}), {1: 7, 2: 8}, other="keep")
    assert kept.array.tolist() == [[7, 8, 3, 4]]
    assert kept.labels == {4: "town"}
    assert rcell.reclass(cells, {1: 7, 2: None}, other="null").array.tolist() == [
        [7, None, None, None]
    ]


@pytest.mark.parametrize(
    ("rules", "told"),
    [
        ({(1, 5): 1, 3: 2}, "rules must have at most one rule for each class; got two for 3"),
        ({1.5: 1}, "1.5 is not a valid class"),
        ({1: "wood"}, "'wood' is not a valid class"),
        ({(5, 1): 1}, "5-1 is not an ascending range"),
        ({}, "rules must have at least one rule"),
    ],
)
def test_rules_that_are_refused(rules: Any, told: str) -> None:
    with pytest.raises(rcell.BadArgument, match=told):
        rcell.reclass(np.array([[1, 2]]), rules)


def test_rules_of_a_file_that_are_refused(tmp_path: pathlib.Path) -> None:
    path = tmp_path / "rules.csv"
    for text, told in (
        ("value,label\n1,a\n", "line 1: the header must contain value and new"),
        ("value,new\n1,2\n1,3\n", "two for 1"),
        ("value,new\n1,x\n", "line 2: 'x' is not a valid class"),
    ):
        path.write_text(text)
        with pytest.raises(rcell.RcellError, match=told):
            rcell.reclass(np.array([[1]]), path)


@pytest.mark.parametrize("connectivity", [4, 8])
@pytest.mark.parametrize(
    "words", [{}, {"classes": [1, 3]}, {"min_cells": 4}, {"classes": [2], "min_cells": 3}]
)
def test_clump_is_the_map_of_the_patches_that_are_listed(connectivity: int, words: Any) -> None:
    source = land(connectivity)
    numbers = rcell.clump(source, connectivity, **words)
    listed = rcell.patches(source, connectivity, **words)
    found, counts = np.unique(numbers.array.compressed(), return_counts=True)
    assert found.tolist() == listed["patch"].tolist()
    assert counts.tolist() == listed["cells"].tolist()
    for value in (1, 2, 3):
        _, count = ndimage.label(
            source.array.filled(0) == value, EDGES if connectivity == 4 else np.ones((3, 3))
        )
        if not words:
            assert count == np.count_nonzero(listed["class"] == value)


@pytest.mark.parametrize("seed", range(3))
def test_adjacency_counts_each_side_once(seed: int) -> None:
    source = land(seed)
    cells = source.array.filled(0)
    expected: dict[tuple[int, int], list[int]] = {}
    for one, other, kind in ((cells[:, :-1], cells[:, 1:], 0), (cells[:-1], cells[1:], 1)):
        for pair in zip(one.ravel().tolist(), other.ravel().tolist()):
            if 0 not in pair:
                expected.setdefault((min(pair), max(pair)), [0, 0])[kind] += 1
    found = rcell.adjacency(source)
    assert found.columns.tolist() == [
        "class",
        "label",
        "neighbour",
        "neighbour_label",
        "sides",
        "border_m",
    ]
    assert list(zip(found["class"], found["neighbour"])) == sorted(expected)
    assert found["sides"].tolist() == [sum(expected[pair]) for pair in sorted(expected)]
    assert found["border_m"].tolist() == [
        expected[pair][0] * 20.0 + expected[pair][1] * 10.0 for pair in sorted(expected)
    ]


def test_change_of_a_data_array_with_years() -> None:
    cells = np.array([[[1, 1, 2]], [[1, 2, 2]], [[2, 2, 2]]])
    times = pandas.to_datetime(["2000-06-01", "2010-06-01", "2020-06-01"])
    for coordinate in (times, [2000, 2010, 2020]):
        stack = xarray.DataArray(cells, {"time": coordinate}, ("time", "y", "x"))
        found = rcell.change(stack)
        assert found.summary["year_from"].unique().tolist() == [2000, 2010]
        assert found.summary["year_to"].unique().tolist() == [2010, 2020]
        assert rcell.change(list(stack), years=[2000, 2010, 2020]).table.equals(found.table)


def test_results_are_named_tuples() -> None:
    cells = np.array([[1, 2]])
    table, matrix, summary = rcell.change(cells, cells)
    assert isinstance(table, pandas.DataFrame) and len(matrix) == len(summary) == 2
    assert rcell.align(cells, to=cells).aligned._fields[0] == "shift_rows"


def test_a_raster_goes_in_and_comes_out() -> None:
    source = land(1)
    smooth = rcell.majority(source)
    assert type(smooth) is type(source) is rcell.Raster
    assert smooth.crs == source.crs and smooth.transform == source.transform
    assert smooth.res == (10.0, 20.0)
    assert smooth.bounds == (0.0, -140.0, 150.0, 100.0)
    assert np.asarray(smooth).shape == (12, 15)
    array = smooth.to_xarray()
    assert rcell.composition(array).equals(rcell.composition(smooth))


def test_tables_are_data_frames() -> None:
    cells = np.array([[1, 1, 2]])
    result = rcell.run("r.stats -c input=lc\nr.out.ascii input=lc", lc=cells)
    assert isinstance(result[0], pandas.DataFrame) and isinstance(result[1], rcell.Raster)
    assert result.tables[0].to_csv(index=False) == "lc,cells\n1,2\n2,1\n"
    matrix = rcell.table(
        "r.stats -c -l input=a,b",
        a=rcell.Raster(cells, labels={1: "wood", 2: "wood"}),
        b=cells,
        pivot=True,
    )
    assert matrix.index.tolist() == ["wood (1)", "wood (2)"]
    assert matrix.columns.tolist() == [1, 2]


ACCESSOR = """
import sys
import numpy, xarray
import rcell.xarray
land = xarray.DataArray(numpy.array([[1, 1, 2], [3, 2, 2]]), dims=("y", "x"), name="land")
print(land.rcell.composition()["cells"].tolist(), land.rcell.patches().columns.tolist()[:3])
print(land.rcell.zonal(land)["sum"].tolist(), land.rcell.change(land).summary.shape, land.rcell.cross(b=land).shape)
print(land.rcell.majority().values.tolist(), land.rcell.align(land).values.tolist(), land.rcell.clump().dims)
print(land.rcell.adjacency()["sides"].tolist(), land.rcell.reclass({(1, 3): 5}).values.max())
print(land.rcell.table("r.stats -c input=land").shape, land.rcell.grid("edge = land").values.tolist())
print(land.rcell.dominant(land)["zone"].tolist(), round(land.rcell.accuracy(land).overall, 9), len(land.rcell.sample(2, 7)))
print(land.rcell.metrics()["patches"].tolist(), land.rcell.aggregate(2).majority.shape, land.rcell.sieve(2).patches_after)
near = land.assign_attrs(crs="EPSG:25832").rcell.within([3], [1])
years = xarray.concat([land, land], xarray.Variable("time", [2000, 2010])).rcell
print(near.values.min(), near.dims, years.trajectories(include_maps=True).maps["changes"].values.max())
print([name for name in ("dask", "distributed", "psutil", "tqdm") if name in sys.modules])
"""


def test_the_accessor_has_the_answers_without_dask() -> None:
    blocked = (
        "import sys\nfor name in ('dask', 'distributed', 'psutil', 'tqdm'):\n    "
        "sys.modules[name] = None\n"
    )
    ran = subprocess.run(
        [
            sys.executable,
            "-c",
            blocked + ACCESSOR.replace("if name in sys.modules", "if sys.modules.get(name)"),
        ],
        capture_output=True,
        text=True,
    )
    assert ran.stderr == ""
    lines = ran.stdout.splitlines()
    assert lines[0] == "[2, 3, 1] ['patch', 'class', 'cells']"
    assert lines[1] == "[2, 6, 3] (3, 8) (3, 4)"
    assert lines[2] == "[[1, 2, 2], [1, 2, 2]] [[1, 1, 2], [3, 2, 2]] ('y', 'x')"
    assert lines[5] == "[1, 2, 3] 1.0 2"
    assert lines[6] == "[1, 1, 1] (1, 2) 2"
    assert lines[7] == "-2147483648 ('y', 'x') 0"
    assert lines[-1] == "[]"


def test_the_accessor_has_each_call_of_one_map() -> None:
    accessor = pytest.importorskip("rcell.xarray").Accessor
    methods = {name for name in vars(accessor) if not name.startswith("_")}
    assert methods == set(frames.__all__) - {"Result", "frame_of", "run"}
    validate = pytest.importorskip("numpydoc.validate").validate
    for name in methods:
        found = validate(f"rcell.xarray.Accessor.{name}")["errors"]
        assert not {"GL03", "SS03", "SS05", "PR01", "PR02", "RT01", "RT03"} & {
            it[0] for it in found
        }
    shown = str(inspect.signature(accessor.patches))
    assert shown.startswith("(self, /, connectivity: 'int' = 4, area:")

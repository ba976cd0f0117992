"""Test that each invalid argument raises an error with the value met."""

from __future__ import annotations

import inspect
import io
import contextlib
from typing import Any, Callable

import numpy as np
import pytest

geopandas = pytest.importorskip("geopandas")
pandas = pytest.importorskip("pandas")
xarray = pytest.importorskip("xarray")
rcell = pytest.importorskip("rcell")

LAND = np.array([[1, 1, 2], [3, 2, 2]])
Call = Callable[[], Any]


@pytest.mark.parametrize(
    ("call", "told"),
    [
        (lambda: rcell.patches(LAND, classes=3.5), "classes must be whole numbers from -2147483647 to 2147483647; got 3.5"),
        (lambda: rcell.patches(LAND, classes="31"), r"classes must be a list of whole numbers, for example \[31, 32\]; got '31'"),
        (lambda: rcell.sieve(LAND, 2, labels={1: "a"}), "labels is not an argument of sieve: the arguments are map, min_cells, "),
        (lambda: rcell.composition(LAND, zone="a.tif", compute=False), "zone is not an argument of composition: the arguments are "),
        (lambda: rcell.record("a.csv", rcell.composition, "a.tif", zone="b.tif"), "zone is not an argument of composition"),
        (lambda: rcell.patches(LAND, classes=[np.inf]), "classes must be whole numbers from -2147483647 to 2147483647; got inf"),
        (lambda: rcell.patches(LAND, classes=[2**31]), "classes must be whole numbers from -2147483647 to 2147483647; got 2147483648"),
        (lambda: rcell.patches(LAND, classes=[1.5]), "got 1.5"),
        (lambda: rcell.patches(LAND, classes=[None]), "got None"),
        (lambda: rcell.patches(LAND, min_cells="5"), "min_cells must be a whole number, at least 1; got '5'"),
        (lambda: rcell.patches(LAND, min_cells=0), "min_cells must be a whole number, at least 1; got 0"),
        (lambda: rcell.patches(LAND, min_cells=2.5), "got 2.5"),
        (lambda: rcell.patches(LAND, core_depth=0), "core_depth must be a whole number from 1 to 20; got 0"),
        (lambda: rcell.patches(LAND, connectivity=6), "connectivity must be 4 or 8; got 6"),
        (lambda: rcell.patches(LAND, connectivity=[4]), r"connectivity must be 4 or 8; got \[4\]"),
        (lambda: rcell.patches(LAND, area="hectares"), "area must be ha, km2, m2 or None; got 'hectares'"),
        (lambda: rcell.composition(LAND, area=["ha"]), r"area must be ha, km2, m2 or None; got \['ha'\]"),
        (lambda: rcell.majority(LAND, size=4), "size must be odd, from 3 to 15; got 4"),
        (lambda: rcell.zonal(LAND, LAND, quantiles=0.5), r"quantiles must be a list of numbers from 0 to 1, for example \[0.5\]; got 0.5"),
        (lambda: rcell.zonal(LAND, LAND, quantiles=[2]), "quantiles must be from 0 to 1; got 2"),
        (lambda: rcell.zonal(LAND, LAND, quantiles="x"), "quantiles must be a list of numbers"),
        (lambda: rcell.change(LAND, LAND, years=[1, 1]), "years must differ; got 1 twice"),
        (lambda: rcell.change(LAND, LAND, years=[1]), "years must list one year for each map; got 1 for 2 maps"),
        (lambda: rcell.change(LAND, LAND, years=2000), "years must be a list of whole numbers"),
        (lambda: rcell.change(LAND, LAND, years=["a", "b"]), "years must be whole numbers; got 'a'"),
        (lambda: rcell.change([LAND, LAND, LAND]), "years must list one year for each map; got none for 3 maps"),
        (lambda: rcell.change(LAND), "after must be a map"),
        (lambda: rcell.cross([LAND, LAND]), 'maps must be given by name, for example a="a.tif"; got a list'),
        (lambda: rcell.cross(), 'maps must be given by name, for example a="a.tif"; got none'),
        (lambda: rcell.cross(a=LAND, labels={"b": {1: "x"}}), r"labels must contain legends by map name, for example {'a': \"legend.csv\"}; got 'b'"),
        (lambda: rcell.table("r.stats -cn input=lc", "lc.tif"), 'maps must be given by name, for example a="a.tif"; got \'lc.tif\''),
        (lambda: rcell.run(3, lc=LAND), "script must be a string; got 3"),
        (lambda: rcell.grid({11: 1}, "lc", lc=LAND), "script must be a string; got {11: 1}"),
        (lambda: rcell.grid("", "land", lc=LAND), "name must be a map of the script .lc.; got 'land'"),
        (lambda: rcell.table("r.stats -cn input=lc", lc=LAND, areas="ha"), "areas is not an argument, and 'ha' is not a map: did you mean area="),
        (lambda: rcell.cross(a=LAND, include_nul=True), "include_nul is not an argument, and True is not a map: did you mean include_null="),
        (lambda: rcell.align(LAND, LAND, resample="bilinear"), "resample must be \"nearest\" or None; got 'bilinear'"),
        (lambda: rcell.composition(LAND, crs="EPSG:99999"), "crs must be a coordinate reference system; got 'EPSG:99999'"),
        (lambda: rcell.composition(LAND, zone_field="a"), "zone_field requires polygons, but zones is not given"),
        (lambda: rcell.composition(LAND, zones=LAND, zone_field="a"), "zone_field requires polygons, but zones is a raster"),
        (lambda: rcell.run("r.stats input=lc", {"2x": LAND}), "maps must have names of .* got '2x': write m_2x"),
        (lambda: rcell.run("r.stats input=lc", {"a": LAND}, a=LAND), "maps must have different names; got a twice"),
        (lambda: rcell.reclass(LAND, {1: 2}, other="drop"), 'other must be "keep", "null" or None; got \'drop\''),
        (lambda: rcell.reclass(LAND, 3), "rules must be a dict, a DataFrame or the path of a CSV; got 3"),
        (lambda: rcell.Raster(LAND, labels=[1]), "labels must be a path, a dict"),
    ],
)  # fmt: skip
def test_each_argument_is_named_with_its_value(call: Call, told: str) -> None:
    with pytest.raises(rcell.BadArgument, match=told) as caught:
        call()
    assert isinstance(caught.value, ValueError)
    assert isinstance(caught.value, rcell.RcellError)
    assert not isinstance(caught.value, rcell.Refused)


@pytest.mark.parametrize(
    ("given", "told"),
    [
        (["a.tif", "b.tif"], "a.tif: cannot open: a.tif: No such file or directory"),
        (xarray.Variable(("y", "x"), LAND), "map: .*Variable"),
        (np.array([["a"]]), "map: not a map of whole numbers: its cells are of type <U1"),
        (3, "map: must be a path, an array or a raster; got an object of type int"),
        ([[1, 2], [3]], "map: not an array with rows of equal length"),
    ],
)
def test_what_is_not_a_map_is_named(given: Any, told: str) -> None:
    with pytest.raises(rcell.BadMap, match=told):
        rcell.composition(given)


def test_decimals_come_with_a_line_to_try() -> None:
    with pytest.raises(rcell.BadMap, match=r"row 1, column 2 is 1.5\n  try: ") as caught:
        rcell.composition(np.array([[1.0, 1.5]]))
    assert caught.value.value == 1.5
    assert "rint" in caught.value.advice


def test_help_shows_what_is_returned() -> None:
    for name in ("composition", "cross", "patches", "zonal", "adjacency", "table"):
        text = io.StringIO()
        with contextlib.redirect_stdout(text):
            help(getattr(rcell, name))
        assert "pandas.DataFrame" in text.getvalue().split("\n\n")[1], name
        assert inspect.signature(getattr(rcell, name)).return_annotation == "pandas.DataFrame"


def test_versions_are_shown() -> None:
    text = io.StringIO()
    with contextlib.redirect_stdout(text):
        rcell.show_versions()
    assert f"rcell       {rcell.__version__}" in text.getvalue()
    assert "rcell-pipe" in text.getvalue()
    assert f"numpy       {np.__version__}" in text.getvalue()

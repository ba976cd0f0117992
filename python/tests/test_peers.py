"""Compare calls with scikit-learn, GDAL and scipy. GRASS is in test_grass.py."""

from __future__ import annotations

import pathlib
import subprocess
from typing import Any

import numpy as np
import pytest

from .map_definitions import MAPS, patches, random_map

rcell = pytest.importorskip("rcell")
pytest.importorskip("pandas")

SQUARE = (25.0, 0.0, 1000.0, 0.0, -25.0, 5000.0)
OBLONG = (30.0, 0.0, 0.0, 0.0, -10.0, 0.0)
NAMES = ("one row", "one class", "single cells", "patchy", "noise", "no null")


@pytest.mark.parametrize("name", NAMES)
def test_accuracy_is_that_of_scikit_learn(name: str) -> None:
    metrics = pytest.importorskip("sklearn.metrics")
    land = MAPS[name]
    reference: Any = np.ma.MaskedArray(
        np.roll(land.data, 1, 1), np.roll(np.ma.getmaskarray(land), 1, 1)
    )
    known = ~(np.ma.getmaskarray(land) | np.ma.getmaskarray(reference))
    pair = reference.data[known], land.data[known]
    found = rcell.accuracy(land, reference)
    codes = found.classes["class"].tolist()
    assert (metrics.confusion_matrix(*pair, labels=codes).T == found.matrix.to_numpy()).all()
    assert found.overall == pytest.approx(metrics.accuracy_score(*pair), rel=1e-12)
    kappa = metrics.cohen_kappa_score(*pair) if len(codes) > 1 else np.nan
    assert found.kappa == pytest.approx(kappa, rel=1e-9, nan_ok=True)
    for title, score in (("users", "precision_score"), ("producers", "recall_score")):
        shares = getattr(metrics, score)(*pair, labels=codes, average=None, zero_division=0)
        assert found.classes[title].fillna(0).tolist() == pytest.approx(shares.tolist())


@pytest.mark.parametrize("factor", [2, 5])
@pytest.mark.parametrize("name", ["patchy", "noise", "no null"])
def test_blocks_are_those_of_gdal_unless_classes_are_as_frequent(name: str, factor: int) -> None:
    gdal = pytest.importorskip("osgeo.gdal")
    land = MAPS[name]
    rows, cols = (size // factor for size in land.shape)
    raster = gdal.GetDriverByName("MEM").Create("", *land.shape[::-1], 1, gdal.GDT_Int32)
    raster.SetGeoTransform((0, 10, 0, 0, 0, -10))
    raster.GetRasterBand(1).SetNoDataValue(-1)
    raster.GetRasterBand(1).WriteArray(land.filled(-1))
    size = 10 * factor
    words = {"outputBounds": (0, -size * rows, size * cols, 0), "resampleAlg": "mode"}
    made = gdal.Warp("", raster, format="MEM", xRes=size, yRes=size, **words)
    blocks = rcell.aggregate(land, factor)
    shares = np.sort(np.nan_to_num(blocks.shares.percent[:, :rows, :cols]), axis=0)
    is_clear = shares[-1] > shares[-2]
    assert is_clear.any()
    own = blocks.majority.array.filled(-1)[:rows, :cols]
    assert (made.ReadAsArray()[is_clear] == own[is_clear]).all()


def test_gdal_leaves_small_patches_that_are_merged_here(tmp_path: pathlib.Path) -> None:
    """GDAL merges into the largest neighbour, and never into a small neighbour."""
    land = rcell.Raster(random_map(3, 60, 60, 9, 0, 1), SQUARE, crs="EPSG:32632")
    source, target = str(tmp_path / "land.tif"), str(tmp_path / "gdal.tif")
    land.write(source)
    words = ["gdal_sieve.py", "-q", "-nomask", "-st", "5", "-4", source, target]
    subprocess.run(words, check=True, capture_output=True)
    left = [len(patch) for patch in patches(rcell.grid("", "x", x=target).array.tolist(), 4)]
    assert sum(size < 5 for size in left) > 100
    assert rcell.sieve(land, 5).sieved.patches_below == 0


@pytest.mark.parametrize("distances", [[333, 1234, 2450], [7, 8, 9, 2540]])
def test_distances_of_hundreds_of_cells_are_those_of_scipy(distances: Any) -> None:
    ndimage = pytest.importorskip("scipy.ndimage")
    random = np.random.default_rng(3)
    cells = np.zeros((300, 320), int)
    cells[random.integers(0, 300, 6), random.integers(0, 320, 6)] = 1
    distance = ndimage.distance_transform_edt(cells == 0, sampling=(10, 30))
    found = rcell.within(rcell.Raster(cells, OBLONG, crs="EPSG:32632"), [1], distances)
    rings = [distance <= limit for limit in (0, *distances)]
    expected = np.select(rings, list(range(len(rings))), -1)
    assert (np.ma.filled(found.array, -1) == expected).all()

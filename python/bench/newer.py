"""Eight newer calls, and peers that do the same, for answers.py: with numpy, scipy, scikit-image, scikit-learn, GDAL, terra and GRASS.

Each peer begins with the GeoTIFF, as the calls do, but for GRASS, whose maps are imported before the clock starts.
"""

from __future__ import annotations

import os
import subprocess
from collections.abc import Callable
from typing import Any

import numpy as np
import rasterio
from osgeo import gdal
from scipy import ndimage
from skimage import measure

import rcell

__all__ = ["Peers", "Task", "newer_calls", "read"]

SOURCE = 52
DISTANCES = (250, 1000)
FACTOR, MIN_CELLS, POINTS = 10, 25, 500
CELL = 25.0
RECORDED = 1 << 8
Task = Callable[[], object]
Peers = dict[str, Task]

TERRA = {
    "accuracy": 'crosstab(c(r, rast("{later}")))',
    "sample": 'spatSample(r, 33, "stratified", xy = TRUE)',
    "sieve": "sieve(r, 25)",
    "aggregate": 'aggregate(r, 10, "modal", na.rm = TRUE)',
    "trajectories": 'crosstab(c(r, rast("{later}"), r), long = TRUE)',
}
GRASS = {
    "dominant": [["r.mode", "base=zones", "cover=land", "output=mode"]],
    "within": [
        ["r.mapcalc", f"chosen = if(land == {SOURCE}, 1, null())"],
        ["r.buffer", "input=chosen", "output=near", "distances=250,1000"],
    ],
    "aggregate": [
        ["g.region", "res=250"],
        ["r.resamp.stats", "input=land", "output=coarse", "method=mode"],
        ["g.region", "raster=land"],
    ],
    "trajectories": [["r.stats", "-c", "-n", "input=land,later,land"]],
}


def read(path: str) -> Any:
    with rasterio.open(path) as dataset:
        return dataset.read(1)


def newer_calls(maps: dict[str, str], has_more: bool) -> dict[str, tuple[list[str], Task, Peers]]:
    """Each call, with the files that it reads and its peers; terra and GRASS are more of them."""
    land, zones, later = maps["land"], maps["zones"], maps["later"]
    three = [land, later, land]
    calls: dict[str, tuple[list[str], Task, Peers]] = {
        "dominant": (
            [land, zones],
            lambda: rcell.dominant(land, zones),
            {"numpy bincount": lambda: dominant(read(land), read(zones))},
        ),
        "accuracy": (
            [land, later],
            lambda: rcell.accuracy(land, later),
            {
                "numpy bincount": lambda: pairs(read(land), read(later)),
                "scikit-learn": lambda: confusion(read(land), read(later)),
            },
        ),
        "sample": (
            [land],
            lambda: rcell.sample(land, POINTS, seed=1),
            {"numpy choice": lambda: drawn(read(land))},
        ),
        "metrics of classes": (
            [land],
            lambda: rcell.metrics(land),
            {"scikit-image label, sides by numpy": lambda: sides_and_sizes(read(land))},
        ),
        "sieve": (
            [land],
            lambda: rcell.sieve(land, MIN_CELLS),
            {"gdal_sieve": lambda: sieved(land)},
        ),
        "within": (
            [land],
            lambda: rcell.within(land, [SOURCE], DISTANCES),
            {
                "scipy distance_transform_edt": lambda: near(read(land)),
                "gdal_proximity": lambda: proximity(land),
            },
        ),
        "aggregate": (
            [land],
            lambda: rcell.aggregate(land, FACTOR),
            {
                "numpy, 15 masks": lambda: coarser(read(land)),
                "gdalwarp -r mode": lambda: warped(land),
            },
        ),
        "trajectories": (
            three,
            lambda: rcell.trajectories(three, [1990, 2000, 2010]),
            {"numpy bincount": lambda: sequences(*map(read, three))},
        ),
    }
    if has_more:
        for name, text in TERRA.items():
            calls[name][2]["terra"] = terra(text.format(**maps), land)
    if has_more and "GISRC" in os.environ:
        in_grass(maps)
        for name, modules in GRASS.items():
            calls[name][2]["GRASS"] = grass(modules)
    return calls


# With numpy, scipy, scikit-image and scikit-learn


def dominant(land: Any, zones: Any) -> Any:
    table = np.bincount((zones.astype(np.int64) * RECORDED + land).reshape(-1))
    table = np.pad(table, (0, -table.size % RECORDED)).reshape(-1, RECORDED)
    table[:, 0] = 0
    return table.argmax(axis=1), (table > 0).sum(axis=1), table.sum(axis=1)


def pairs(land: Any, later: Any) -> Any:
    table = np.bincount((land.astype(np.uint16) * RECORDED + later).reshape(-1))
    return np.pad(table, (0, -table.size % RECORDED)).reshape(-1, RECORDED)


def confusion(land: Any, later: Any) -> Any:
    from sklearn.metrics import confusion_matrix

    kept = (land > 0) & (later > 0)
    return confusion_matrix(later[kept], land[kept])


def drawn(land: Any) -> Any:
    random, flat = np.random.default_rng(1), land.reshape(-1)
    codes = np.flatnonzero(np.bincount(flat))[1:]
    return [random.choice(np.flatnonzero(flat == code), POINTS // codes.size) for code in codes]


def sides_and_sizes(land: Any) -> Any:
    """Patches with their cells, and how many sides each two classes share: the tables that metrics need."""
    patches = measure.label(land, background=0, connectivity=1)
    sizes = np.bincount(patches.reshape(-1))
    across = pairs(land[:, 1:], land[:, :-1]), pairs(land[1:], land[:-1])
    inner = [
        np.bincount(patches[1:][land[1:] == land[:-1]]),
        np.bincount(patches[:, 1:][land[:, 1:] == land[:, :-1]]),
    ]
    return sizes, across, inner


def near(land: Any) -> Any:
    far = ndimage.distance_transform_edt(land != SOURCE, sampling=CELL)
    return np.searchsorted([0, *DISTANCES], far).astype(np.uint8)


def coarser(land: Any) -> Any:
    """The majority of blocks: for each class, the cells of each block."""
    side = land.shape[0] // FACTOR * FACTOR
    blocks = land[:side, :side].reshape(side // FACTOR, FACTOR, side // FACTOR, FACTOR)
    codes = np.flatnonzero(np.bincount(land.reshape(-1)))[1:]
    counts = [(blocks == code).sum(axis=(1, 3), dtype=np.uint8) for code in codes]
    return codes[np.argmax(counts, axis=0)]


def sequences(one: Any, two: Any, three: Any) -> Any:
    packed = (one.astype(np.uint32) << 16) | (two.astype(np.uint32) << 8) | three
    return np.bincount(packed.reshape(-1))


# With GDAL


def memory(path: str, kind: int = gdal.GDT_Byte) -> tuple[Any, Any]:
    """A raster that is opened, and an empty one like it in memory."""
    source = gdal.Open(path)
    made = gdal.GetDriverByName("MEM").Create("", source.RasterXSize, source.RasterYSize, 1, kind)
    made.SetGeoTransform(source.GetGeoTransform())
    return source, made


def sieved(path: str) -> Any:
    source, made = memory(path)
    gdal.SieveFilter(source.GetRasterBand(1), None, made.GetRasterBand(1), MIN_CELLS, 4)
    return made.ReadAsArray()


def proximity(path: str) -> Any:
    source, made = memory(path, gdal.GDT_Float32)
    words = [f"VALUES={SOURCE}", "DISTUNITS=GEO", f"MAXDIST={DISTANCES[-1]}"]
    gdal.ComputeProximity(source.GetRasterBand(1), made.GetRasterBand(1), words)
    return made.ReadAsArray()


def warped(path: str) -> Any:
    size = FACTOR * CELL
    made = gdal.Warp("", path, format="MEM", xRes=size, yRes=size, resampleAlg="mode")
    return made.ReadAsArray()


# With terra and GRASS, whose start counts


def terra(text: str, land: str) -> Task:
    script = f'suppressMessages(library(terra)); r <- rast("{land}"); invisible({text})'
    words = ["Rscript", "--vanilla", "-e", script]
    return lambda: subprocess.run(words, check=True, capture_output=True)


def grass(modules: list[list[str]]) -> Task:
    def run() -> None:
        for module in modules:
            more = ["--overwrite", "--quiet"] if module[0] != "r.stats" else []
            subprocess.run([*module, *more], check=True, capture_output=True)

    return run


def in_grass(maps: dict[str, str]) -> None:
    """Import the maps into a session of GRASS."""
    for name in ("land", "zones", "later"):
        words = [f"input={maps[name]}", f"output={name}", "-o", "--overwrite", "--quiet"]
        subprocess.run(["r.in.gdal", *words], check=True)
    subprocess.run(["g.region", "raster=land"], check=True)

#!/usr/bin/env python3
"""Write the real maps of the benchmark as grids under bench/out, from Debian packages, if they do
not exist.

    real-land.txt       land, lakes, islands in lakes and their ponds in South-East Asia, in steps
    of
                        30 arc seconds: 7080 x 3840 cells, five categories (coasts of GSHHG 2.3.7,
                        through GMT)
    real-countries.txt  the countries of the same area (borders of DCW 2.1.1), null elsewhere
    real-cover.txt      land cover of Puerto Rico in 13 classes (NLCD, 84 x 46 cells of 3 km, from
                        the R package stars), repeated up to 5040 x 5014 cells, so that each patch
                        is real and the map is large
    real-heights.txt    heights and depths of the globe in metres, ETOPO5, 4320 x 2161 cells (from
                        ferret-datasets)

Needs the packages gmt, gmt-gshhg-full, gmt-dcw, gdal-bin, python3-gdal and python3-numpy. The
packages for the last two maps are only unpacked. Run it with Debian's Python, /usr/bin/python3.
"""
import glob
import os
import subprocess
import sys
import tempfile
from dataclasses import dataclass

import numpy as np
from osgeo import gdal

HERE = os.path.dirname(os.path.abspath(__file__))
ROOT = os.path.dirname(HERE)
OUT = f"{HERE}/out"
COUNTRIES = f"{ROOT}/examples/islands/making/countries.py"
REGION, STEP = "94/153/-12/20", "30s"
COVER_COPIES = (109, 60)
PACKAGES = ("gmt", "gmt-gshhg-full", "gmt-dcw", "gdal-bin", "python3-gdal", "python3-numpy")


@dataclass(frozen=True)
class Edges:
    north: str
    south: str
    east: str
    west: str


SEA_REGION = Edges("20", "-12", "153", "94")


def run(*words, cwd=None):
    subprocess.run(words, check=True, cwd=cwd, stdout=subprocess.DEVNULL)


def write_grid(name, cells, edges, null=None):
    """Write the cells as the text of a grid, row by row, using a table of words."""
    least = int(cells.min())
    words = [str(number) for number in range(least, int(cells.max()) + 1)]
    if null is not None:
        words[null - least] = "*"
    words = np.array(words, object)
    path = f"{OUT}/{name}.txt"
    with open(f"{path}.part", "w", encoding="ascii") as file:
        for key in ("north", "south", "east", "west"):
            file.write(f"{key}: {getattr(edges, key)}\n")
        file.write(f"rows: {cells.shape[0]}\ncols: {cells.shape[1]}\n")
        for row in cells:
            file.write(" ".join(words[row.astype(np.int64) - least]) + "\n")
    os.rename(f"{path}.part", path)


def in_cells(cells):
    """Return edges with one unit per cell, for a map whose location does not matter."""
    return Edges(str(cells.shape[0]), "0", str(cells.shape[1]), "0")


def unpacked(package, pattern, room):
    """Download and unpack a package without installing it, and return the path of one of its
    files."""
    run("apt-get", "download", "-q", package, cwd=room)
    run("dpkg-deb", "-x", glob.glob(f"{room}/{package}_*.deb")[0], f"{room}/{package}")
    return glob.glob(f"{room}/{package}/{pattern}", recursive=True)[0]


def land(room):
    if not os.path.exists(f"{OUT}/sea.tif"):
        run(
            "gmt",
            "grdlandmask",
            f"-R{REGION}",
            f"-I{STEP}",
            "-r",
            "-Df",
            "-N0/1/2/3/4",
            f"-G{room}/sea.nc=nb",
            cwd=room,
        )
        run(
            "gdal_translate",
            "-q",
            "-ot",
            "Byte",
            "-a_nodata",
            "none",
            f"{room}/sea.nc",
            f"{OUT}/sea.tif",
        )
    write_grid("real-land", gdal.Open(f"{OUT}/sea.tif").ReadAsArray(), SEA_REGION)


def countries(room):
    run("/usr/bin/python3", COUNTRIES, f"{room}/countries.geojson", f"{room}/labels", cwd=room)
    sea = gdal.Open(f"{OUT}/sea.tif")
    made = gdal.GetDriverByName("GTiff").Create(
        f"{room}/countries.tif", sea.RasterXSize, sea.RasterYSize, 1, gdal.GDT_UInt16
    )
    made.SetGeoTransform(sea.GetGeoTransform())
    made = None
    run("gdal_rasterize", "-q", "-a", "code", f"{room}/countries.geojson", f"{room}/countries.tif")
    write_grid(
        "real-countries", gdal.Open(f"{room}/countries.tif").ReadAsArray(), SEA_REGION, null=0
    )


def cover(room):
    cells = gdal.Open(
        unpacked("r-cran-stars", "usr/lib/R/site-library/stars/tif/lc.tif", room)
    ).ReadAsArray()
    cells = np.tile(cells, COVER_COPIES)
    write_grid("real-cover", cells, in_cells(cells), null=0)


def heights(room):
    path = unpacked("ferret-datasets", "usr/share/ferret-vis/data/etopo5.cdf", room)
    cells = np.rint(gdal.Open(path).ReadAsArray()).astype(np.int32)
    write_grid("real-heights", cells, in_cells(cells))


MAPS = {
    "real-land": land,
    "real-countries": countries,
    "real-cover": cover,
    "real-heights": heights,
}


def main():
    gdal.UseExceptions()
    os.makedirs(OUT, exist_ok=True)
    missing = [name for name in MAPS if not os.path.exists(f"{OUT}/{name}.txt")]
    if missing:
        run("sh", f"{ROOT}/tools/debian.sh", *PACKAGES)
    with tempfile.TemporaryDirectory(prefix="rcell-real-maps-") as room:
        for name in missing:
            print(f"  writing {name}.txt", file=sys.stderr, flush=True)
            MAPS[name](room)


if __name__ == "__main__":
    main()

#!/usr/bin/env python3
"""Gives each cell of land the nearest country, since the coasts of GSHHG and of DCW differ by a few cells; sea becomes 0.

    nearest.py LAND.tif COUNTRIES.tif LABELS OUT.tif OUT_LABELS

The countries are numbered anew: the countries of the archipelago first, in a fixed order, then the others by name. OUT_LABELS gets a
rule of r.reclass for each.
"""
import sys

import numpy as np
from osgeo import gdal
from scipy import ndimage

FIRST = (
    "Indonesia",
    "Malaysia",
    "Philippines",
    "Papua New Guinea",
    "Brunei Darussalam",
    "Timor-Leste",
    "Singapore",
)
LAND = 1
MOST_CODES = 1000


def rank(name):
    return (FIRST.index(name) if name in FIRST else len(FIRST), name)


def main(land_path, countries_path, labels_path, output, output_labels):
    gdal.UseExceptions()
    land, source = gdal.Open(land_path).ReadAsArray(), gdal.Open(countries_path)
    codes = source.ReadAsArray()
    nearest = ndimage.distance_transform_edt(
        codes == 0, return_distances=False, return_indices=True
    )
    country = np.where(land == LAND, codes[tuple(nearest)], 0)
    with open(labels_path, encoding="utf-8") as file:
        names = {
            int(code): name for code, name in (line.rstrip("\n").split(" ", 1) for line in file)
        }
    order = sorted(
        (int(code) for code in np.unique(country) if code), key=lambda code: rank(names[code])
    )
    new = np.zeros(MOST_CODES, np.uint8)
    new[order] = np.arange(1, len(order) + 1)
    copy = gdal.GetDriverByName("GTiff").CreateCopy(output, source)
    copy.GetRasterBand(1).WriteArray(new[country])
    with open(output_labels, "w", encoding="utf-8") as file:
        file.writelines(f"{new[code]} = {new[code]} {names[code]}\n" for code in order)


if __name__ == "__main__":
    main(*sys.argv[1:])

#!/usr/bin/python3
"""Make landcover.tif and zones.tif from the grids next to them: PYTHONPATH=python/src python3 examples/study/make.py"""
import pathlib

import rcell

HERE = pathlib.Path(__file__).resolve().parent
CRS = "EPSG:27700"
LABELS = {
    "landcover": {
        11: "town",
        12: "industry",
        21: "arable land",
        23: "pasture",
        31: "broad-leaved wood",
        32: "conifers",
        51: "water",
    },
    "zones": {1: "core", 2: "buffer"},
}


def main():
    for name, labels in LABELS.items():
        grid = rcell.grid("", name, {name: str(HERE / f"{name}.txt")})
        labelled = {name: rcell.Raster(grid.array, grid.region, CRS, labels=labels)}
        rcell.grid("", name, labelled).write(HERE / f"{name}.tif")


if __name__ == "__main__":
    main()

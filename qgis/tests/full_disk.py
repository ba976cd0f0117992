"""Write a map and two tables with a limit of a few hundred bytes per file.

Usage: full_disk.py RASTER FOLDER. It prints the message for each output.
"""

from __future__ import annotations

import pathlib
import resource
import signal
import sys

sys.path[:0] = [str(pathlib.Path(__file__).resolve().parent.parent)]

import numpy as np
from rcell.engine.core.columns import Column, Table
from rcell.engine.core.errors import RcellError
from rcell.engine.readers.gdal import open_raster
from rcell.tables import write_raster, write_table


def main() -> None:
    raster, folder = open_raster("lc", sys.argv[1]), sys.argv[2]
    cells = np.random.default_rng(1).integers(0, 1 << 30, (400, 400), np.int32)
    table = Table(
        [Column("lc", "class", np.arange(5000)), Column("cells", "count", np.arange(5000))]
    )
    # Python then gets an error instead of a signal.
    signal.signal(signal.SIGXFSZ, signal.SIG_IGN)
    resource.setrlimit(resource.RLIMIT_FSIZE, (9000, 9000))
    for write in (
        lambda: write_raster(f"{folder}/kept.tif", "GTiff", cells, 0, raster, {1: "a"}),
        lambda: write_table(f"{folder}/kept.gpkg", table),
        lambda: write_table(f"{folder}/kept.csv", table),
    ):
        try:
            write()
            print("written")
        except RcellError as error:
            print(type(error).__name__)


if __name__ == "__main__":
    main()

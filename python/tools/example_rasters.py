#!/usr/bin/python3
"""Makes examples/rasters from the grid of South-East Asia: example_rasters.py GRID LABELS

GRID is examples/islands/archipelago.txt, and LABELS a file of rules `1 = 1 Indonesia`, as they are in its scripts. Written are
country.tif, the land by country, and hemisphere.tif, which side of the equator a cell lies on (1 north, 2 south).
"""

from __future__ import annotations

import pathlib
import re
import sys

import rcell

FOLDER = pathlib.Path(__file__).resolve().parent.parent.parent / "examples" / "rasters"
CRS = "EPSG:6933"
SIDES = "r.reclass input=side output=hemisphere\n1 = 1 north\n0 = 2 south\nend"


def main(grid: str, labels: str) -> None:
    rules = re.findall(
        r"^\d+ = (\d+) (.*)$", pathlib.Path(labels).read_text(encoding="utf-8"), re.MULTILINE
    )
    countries = rcell.grid("", "country", country=grid)
    equator = round(countries.region.north / countries.region.res[1])
    both = {
        "country": rcell.Raster(
            countries.array, countries.region, CRS, labels={int(code): name for code, name in rules}
        )
    }
    FOLDER.mkdir(exist_ok=True)
    rcell.grid("", "country", both).write(FOLDER / "country.tif")
    rcell.grid(f"r.mapcalc side = row() <= {equator}\n{SIDES}", "hemisphere", both).write(
        FOLDER / "hemisphere.tif"
    )


if __name__ == "__main__":
    main(*sys.argv[1:])

"""Compare results with QGIS's own algorithms and with GRASS, on random, patchy and real maps."""

from __future__ import annotations

import html
import os
import re
import shutil
import unittest

import made
import numpy as np
import session
from numpy.typing import NDArray
from osgeo import gdal
from test_session import InSession

ISLANDS = os.path.join(os.path.dirname(os.path.abspath(__file__)), "../../examples/rasters")


class AnswersTest(InSession):
    """Compares the plugin, native:rasterlayeruniquevaluesreport and grass7:r.stats for each map."""

    def setUp(self) -> None:
        super().setUp()
        # QGIS writes statistics next to rasters that it opens.
        shutil.copytree(ISLANDS, self.path("islands"))

    def maps(self) -> dict[str, str]:
        return {
            "noise": made.write(
                self.path("noise.tif"), made.noise(1, 300, 300), gdal.GDT_Byte, nodata=0
            ),
            "patchy": made.write(
                self.path("patchy.tif"), made.patchy(2, 300, 400), gdal.GDT_Int16, nodata=0
            ),
            "country": self.path("islands/country.tif"),
        }

    def counted(self, path: str) -> dict[tuple[int, ...], tuple[int, float]]:
        """Return the cells and square metres of each category, counted with the plugin."""
        titles, rows = session.rows(
            self.run_("composition", INPUT=path, AREA="m2", OUTPUT="TEMPORARY_OUTPUT")["OUTPUT"]
        )
        at, area = titles.index("cells"), titles.index("area_m2")
        return {(row[0],): (row[at], row[area]) for row in rows}

    def test_tables_of_native(self) -> None:
        for name, path in self.maps().items():
            with self.subTest(map=name):
                found = session.run(
                    "native:rasterlayeruniquevaluesreport",
                    INPUT=path,
                    BAND=1,
                    OUTPUT_TABLE="TEMPORARY_OUTPUT",
                )
                rows = session.rows(found["OUTPUT_TABLE"])[1]
                native = {(int(row[0]),): (int(row[1]), row[2]) for row in rows}
                mine = self.counted(path)
                self.assertEqual(
                    {key: cells for key, (cells, _) in mine.items()},
                    {key: cells for key, (cells, _) in native.items()},
                )
                for key, (_, area) in mine.items():
                    self.assertAlmostEqual(area / native[key][1], 1.0, 9)

    def grass(self, *paths: str) -> dict[tuple[int, ...], int]:
        """Return the cells of each combination, counted with r.stats."""
        target = self.path("stats.html")
        session.run(
            "grass7:r.stats",
            input=list(paths),
            separator="space",
            null_value="*",
            nsteps=255,
            sort=0,
            html=target,
            **{"-c": True, "-n": True, "-1": False},
        )
        with open(target, encoding="utf-8") as file:
            text = html.unescape(re.sub(r"<[^>]*>", "\n", file.read()))
        lines = (line.split() for line in text.split("\n"))
        numbers = [
            [int(word) for word in words]
            for words in lines
            if len(words) == len(paths) + 1 and all(word.lstrip("-").isdigit() for word in words)
        ]
        return {tuple(words[:-1]): words[-1] for words in numbers}

    def test_tables_of_grass(self) -> None:
        if not session.has("grass7:r.stats"):
            self.skipTest("QGIS has no GRASS (the plugin grassprovider, grass-core)")
        maps = self.maps()
        for name, path in maps.items():
            with self.subTest(map=name):
                self.assertEqual(
                    {key: cells for key, (cells, _) in self.counted(path).items()}, self.grass(path)
                )
        pairs = [
            (
                made.write(self.path("a.tif"), made.noise(3, 200, 200), gdal.GDT_Byte, nodata=0),
                made.write(self.path("b.tif"), made.patchy(4, 200, 200), gdal.GDT_Byte, nodata=0),
            ),
            (maps["country"], self.path("islands/hemisphere.tif")),
        ]
        for first, second in pairs:
            titles, rows = session.rows(
                self.run_("cross", INPUT=[first, second], AREA="none", OUTPUT="TEMPORARY_OUTPUT")[
                    "OUTPUT"
                ]
            )
            places = [
                at
                for at, title in enumerate(titles)
                if not title.endswith("_label") and title != "percent"
            ]
            found = {tuple(row[at] for at in places[:-1]): row[places[-1]] for row in rows}
            self.assertEqual(found, self.grass(first, second))

    def test_patches_of_grass(self) -> None:
        if not session.has("grass7:r.clump"):
            self.skipTest("QGIS has no GRASS (the plugin grassprovider, grass-core)")
        for name, path in self.maps().items():
            for connectivity in ("4", "8"):
                with self.subTest(map=name, connectivity=connectivity):
                    session.run(
                        "grass7:r.clump",
                        input=path,
                        title="areas",
                        output=self.path("clump.tif"),
                        **{"-d": connectivity == "8"},
                    )
                    found = self.run_(
                        "patches",
                        INPUT=path,
                        CONNECTIVITY=connectivity,
                        MAP=self.path("patches.tif"),
                        OUTPUT="TEMPORARY_OUTPUT",
                    )
                    mine = gdal.Open(found["MAP"]).ReadAsArray()
                    self.assert_one_to_one(
                        mine, gdal.Open(self.path("clump.tif")), found["PATCHES"]
                    )

    def assert_one_to_one(self, mine: NDArray[np.int32], dataset: gdal.Dataset, count: int) -> None:
        """Assert that the patches are the same, apart from their numbers."""
        theirs = dataset.ReadAsArray().astype(np.int64)
        nodata = dataset.GetRasterBand(1).GetNoDataValue()
        theirs[theirs == nodata] = 0
        self.assertTrue(((mine == 0) == (theirs == 0)).all())
        pairs = np.unique(mine[mine > 0].astype(np.int64) << 32 | theirs[mine > 0])
        self.assertEqual((len(pairs), len(np.unique(pairs & (2**32 - 1)))), (count, count))

    def test_majorities_of_grass(self) -> None:
        if not session.has("grass7:r.neighbors"):
            self.skipTest("QGIS has no GRASS (the plugin grassprovider, grass-core)")
        for name, path in self.maps().items():
            with self.subTest(map=name):
                session.run(
                    "grass7:r.neighbors", input=path, method=2, size=3, output=self.path("mode.tif")
                )
                found = self.run_("majority", INPUT=path, FILL=True, OUTPUT=self.path("m.tif"))
                mine, dataset = gdal.Open(found["OUTPUT"]).ReadAsArray(), gdal.Open(
                    self.path("mode.tif")
                )
                theirs = dataset.ReadAsArray().astype(np.int64)
                theirs[theirs == dataset.GetRasterBand(1).GetNoDataValue()] = -(2**31)
                self.assertTrue((mine == theirs).all())

    def test_zones_of_native(self) -> None:
        path, zones = self.maps()["noise"], made.write(
            self.path("z.tif"), made.noise(5, 300, 300, 4), gdal.GDT_Byte, nodata=0
        )
        theirs = session.run(
            "native:rasterlayerzonalstats",
            INPUT=path,
            BAND=1,
            ZONES=zones,
            ZONES_BAND=1,
            REF_LAYER=0,
            OUTPUT_TABLE="TEMPORARY_OUTPUT",
        )
        titles, rows = session.rows(theirs["OUTPUT_TABLE"])
        of_native = {
            row[titles.index("zone")]: [
                row[titles.index(name)] for name in ("count", "sum", "mean", "min", "max")
            ]
            for row in rows
        }
        titles, rows = session.rows(
            self.run_("zonal", INPUT=path, ZONES=zones, OUTPUT="TEMPORARY_OUTPUT")["OUTPUT"]
        )
        for row in rows:
            mine = [
                row[titles.index(name)] for name in ("cells", "sum", "mean", "minimum", "maximum")
            ]
            np.testing.assert_allclose(mine, of_native[row[0]], rtol=1e-12)

    def test_polygons_of_native(self) -> None:
        path = self.maps()["noise"]
        polygons = session.districts()
        theirs = session.run(
            "native:zonalhistogram",
            INPUT_RASTER=path,
            RASTER_BAND=1,
            INPUT_VECTOR=polygons,
            OUTPUT="TEMPORARY_OUTPUT",
        )
        titles, rows = session.rows(theirs["OUTPUT"])
        of_native = {
            (row[titles.index("number")], int(title.removeprefix("HISTO_"))): row[at]
            for row in rows
            for at, title in enumerate(titles)
            if title.startswith("HISTO_") and title != "HISTO_NODATA" and row[at]
        }
        rows = session.rows(
            self.run_(
                "composition",
                INPUT=path,
                ZONES=polygons,
                ZONE_FIELD="number",
                OUTPUT="TEMPORARY_OUTPUT",
            )["OUTPUT"]
        )[1]
        self.assertEqual({(row[0], row[1]): row[2] for row in rows}, of_native)

    def test_rules_of_native(self) -> None:
        path = self.maps()["noise"]
        table = [1, 3, 1, 4, 7, 2, 8, 12, 3]
        session.run(
            "native:reclassifybytable",
            INPUT_RASTER=path,
            RASTER_BAND=1,
            TABLE=table,
            RANGE_BOUNDARIES=2,
            NODATA_FOR_MISSING=True,
            DATA_TYPE=5,
            NO_DATA=-9999,
            OUTPUT=self.path("native.tif"),
        )
        found = self.run_(
            "reclass",
            INPUT=path,
            RULES="1 thru 3 = 1\n4 thru 7 = 2\n8 thru 12 = 3",
            OUTPUT=self.path("r.tif"),
        )
        theirs = gdal.Open(self.path("native.tif")).ReadAsArray().astype(np.int64)
        mine = gdal.Open(found["OUTPUT"]).ReadAsArray()
        self.assertTrue((np.where(theirs == -9999, -(2**31), theirs) == mine).all())


if __name__ == "__main__":
    unittest.main()

"""Test each algorithm in a QGIS session, and errors, legends, labels and field names."""

from __future__ import annotations

import os
import pathlib
import shutil
import stat
import tempfile
import threading
import time
import unittest
from unittest import mock

import made
import numpy as np
import session
from osgeo import gdal
from qgis.core import (
    QgsApplication,
    QgsCoordinateReferenceSystem,
    QgsGeometry,
    QgsPalettedRasterRenderer,
    QgsProcessingContext,
    QgsProcessingException,
    QgsProject,
    QgsRasterLayer,
    QgsRasterRange,
    QgsSettings,
    QgsVectorLayer,
)
from qgis.PyQt.QtCore import QTranslator, QUrl
from qgis.PyQt.QtGui import QColor
from rcell import results
from rcell.host import find_program

COVER = np.array([[1, 1, 2, 0, 3], [1, 2, 2, 2, 3], [3, 3, 1, 1, 2], [3, 1, 1, 2, 2]])
ZONES = np.array([[7, 7, 8, 8, 8], [7, 7, 8, 8, 8], [0, 7, 8, 8, 8], [0, 7, 7, 8, 8]])
NAMES = ["", "wood, wet", "Wiese \u00fc", "built up"]


class InSession(unittest.TestCase):
    def setUp(self) -> None:
        session.start()
        folder = tempfile.TemporaryDirectory(prefix="R\u00e4ume mit Leerzeichen ")
        self.addCleanup(folder.cleanup)
        self.room = folder.name
        self.cover = made.write(self.path("cover.tif"), COVER, gdal.GDT_Byte, nodata=0, names=NAMES)
        self.zones = made.write(self.path("zones.tif"), ZONES, gdal.GDT_Int16, nodata=0)
        self.log = session.Log()

    def path(self, name: str) -> str:
        return os.path.join(self.room, name)

    def run_(self, name: str, **parameters: object) -> dict:
        return session.run(f"rcell:{name}", self.log, **parameters)

    def refused(self, text: str, name: str, **parameters: object) -> str:
        with self.assertRaises(QgsProcessingException) as caught:
            self.run_(name, **parameters)
        message = str(caught.exception)
        self.assertIn(text, message)
        self.assertEqual(made.left_in(self.room), [])
        return message

    def labelled(self, classes: list[tuple[int, str]]) -> QgsRasterLayer:
        layer = QgsRasterLayer(self.cover, "cover", "gdal")
        entries = [
            QgsPalettedRasterRenderer.Class(value, QColor(10 * value, 20, 30), label)
            for value, label in classes
        ]
        layer.setRenderer(QgsPalettedRasterRenderer(layer.dataProvider(), 1, entries))
        return layer


class TableTest(InSession):
    def test_class_by_zone(self) -> None:
        titles, rows = session.rows(
            self.run_("cross", INPUT=[self.cover, self.zones], OUTPUT="TEMPORARY_OUTPUT")["OUTPUT"]
        )
        self.assertEqual(titles, ["cover", "cover_label", "zones", "cells", "area_ha", "percent"])
        self.assertEqual(
            [row[:5] for row in rows[:2]],
            [[1, "wood, wet", 7, 5, 0.2], [1, "wood, wet", 8, 2, 0.08]],
        )
        self.assertEqual(len(rows), 6)
        self.assertIn("\n  r.stats -c -n input=cover,zones", self.log.told[0])

    def test_two_layers_of_one_name(self) -> None:
        first, second = QgsRasterLayer(self.zones, "p02"), QgsRasterLayer(self.cover, "P02")
        titles, rows = session.rows(
            self.run_("cross", INPUT=[first, second], AREA="none", OUTPUT="TEMPORARY_OUTPUT")[
                "OUTPUT"
            ]
        )
        self.assertEqual(
            (titles, rows[0]),
            (["p02", "P02_2", "P02_label", "cells", "percent"], [7, 1, "wood, wet", 5, 500 / 17]),
        )

    def test_files_of_tables_have_numbers_as_numbers(self) -> None:
        for ending in ("gpkg", "csv"):
            path = self.run_(
                "cross", INPUT=[self.cover], INCLUDE_NULL=True, OUTPUT=self.path(f"t.{ending}")
            )["OUTPUT"]
            layer = QgsVectorLayer(path, "t", "ogr")
            kinds = {field.name(): field.typeName() for field in layer.fields()}
            self.assertEqual(
                (kinds["cover"], kinds["cells"], kinds["cover_label"]),
                ("Integer64", "Integer64", "String"),
            )
            self.assertEqual(session.rows(layer)[1][-1][-3:], [1, 0.04, None])
        self.assertEqual(made.left_in(self.room), [])

    def test_labels_are_those_that_the_user_sees(self) -> None:
        layer = self.labelled([(1, "1"), (2, "meadow"), (3, "town (12 cells, 4.8 ha)")])
        titles, rows = session.rows(
            self.run_("cross", INPUT=[layer], OUTPUT="TEMPORARY_OUTPUT")["OUTPUT"]
        )
        self.assertEqual([row[1] for row in rows], [None, "meadow", "town"])
        plain = self.labelled([(1, "1"), (2, "2"), (3, "3")])
        self.assertEqual(
            session.rows(self.run_("cross", INPUT=[plain], OUTPUT="TEMPORARY_OUTPUT")["OUTPUT"])[1][
                0
            ][1],
            "wood, wet",
        )

    def test_nulls_are_those_that_the_user_has_declared(self) -> None:
        layer = QgsRasterLayer(self.zones, "zones")
        layer.dataProvider().setUserNoDataValue(1, [QgsRasterRange(8, 8)])
        layer.dataProvider().setUseSourceNoDataValue(1, False)
        rows = session.rows(
            self.run_("cross", INPUT=[layer], INCLUDE_NULL=True, OUTPUT="TEMPORARY_OUTPUT")[
                "OUTPUT"
            ]
        )[1]
        self.assertEqual([row[:2] for row in rows], [[0, 2], [7, 7], [None, 11]])

    def test_floats_beyond_their_exactness_are_warned_of(self) -> None:
        path = made.write(self.path("far.tif"), [[2**24 + 2, 1]], gdal.GDT_Float32)
        self.run_("cross", INPUT=[path], OUTPUT="TEMPORARY_OUTPUT")
        self.assertIn(
            "warning: far: 32-bit floats are not exact beyond 16777216, but the map contains larger values",
            self.log.told,
        )


class RefusalsTest(InSession):
    """Errors that the dialog shows before the run, and that qgis_process prints."""

    def test_maps(self) -> None:
        shifted = made.write(
            self.path("shifted.tif"), COVER, transform=(500010, 20, 0, 5400000, 0, -20)
        )
        message = self.refused(
            "Unable to execute algorithm\nshifted: its grid differs from `cover`, and rcell does not resample: east is 500110",
            "cross",
            INPUT=[self.cover, shifted],
            OUTPUT=self.path("t.gpkg"),
        )
        self.assertIn(
            "\n  shifted: north 5400000, south 5399920, east 500110, west 500010, 4 rows, 5 columns",
            message,
        )
        bands = made.write(self.path("bands.tif"), COVER, bands=3)
        self.refused(
            "Unable to execute algorithm\nbands: has 3 bands",
            "cross",
            INPUT=[bands],
            OUTPUT=self.path("t.gpkg"),
        )
        turned = made.write(self.path("turned.tif"), COVER, transform=(0, 20, 3, 0, 3, -20))
        self.refused(
            "Unable to execute algorithm\nturned: its transform is rotated",
            "patches",
            INPUT=turned,
            MAP=self.path("a.tif"),
            OUTPUT=self.path("t.gpkg"),
        )
        halves = made.write(self.path("halves.tif"), COVER / 2, gdal.GDT_Float32)
        self.refused(
            "Unable to execute algorithm\nhalves: not a map of whole numbers: the cell at row 1, column 1 is 0.5",
            "majority",
            INPUT=halves,
            OUTPUT=self.path("m.tif"),
        )
        degrees = made.write(self.path("degrees.tif"), COVER, transform=made.DEGREES, epsg=4326)
        self.refused(
            "AREA requires a map in metres or feet",
            "script",
            INPUT=[degrees],
            NAMES="lc",
            SCRIPT="r.stats -c input=lc",
            AREA="ha",
            TABLE=self.path("t.gpkg"),
        )
        self.refused(
            "nowhere: cannot open: ",
            "cross",
            INPUT=[self.path("nowhere.tif")],
            OUTPUT=self.path("t.gpkg"),
        )
        self.assertFalse(os.path.exists(self.path("t.gpkg")))

    def test_a_fault_far_down_is_found_by_the_run(self) -> None:
        cells = np.ones((5000, 300))
        cells[4900, 17] = 0.5
        path = made.write(self.path("late.tif"), cells, gdal.GDT_Float32)
        message = self.refused(
            "late: not a map of whole numbers: the cell at row 4901, column 18 is 0.5",
            "cross",
            INPUT=[path],
            OUTPUT=self.path("t.gpkg"),
        )
        self.assertNotIn("Unable to execute", message)
        self.assertFalse(os.path.exists(self.path("t.gpkg")))

    def test_words(self) -> None:
        self.refused(
            "arguments: INPUT must have at least one raster; got none",
            "cross",
            INPUT=[],
            OUTPUT="TEMPORARY_OUTPUT",
        )
        self.refused(
            "arguments: INPUT must have at most 16 rasters; got 17",
            "cross",
            INPUT=[self.cover] * 17,
            OUTPUT="TEMPORARY_OUTPUT",
        )
        self.refused(
            "cover: has 1 band, but no band 5",
            "majority",
            INPUT=self.cover,
            BAND=5,
            OUTPUT=self.path("m.tif"),
        )
        self.refused(
            "the file name extension is not supported",
            "majority",
            INPUT=self.cover,
            OUTPUT=self.path("m.xyz9"),
        )
        self.refused(
            "arguments: classes must be comma-separated whole numbers, for example 31,32; got `1;2`",
            "patches",
            INPUT=self.cover,
            CLASSES="1;2",
            OUTPUT="TEMPORARY_OUTPUT",
        )
        common = {"INPUT": [self.cover], "SCRIPT": "r.stats -c input=lc\nr.stats input=lc"}
        self.refused(
            "NAMES must have as many names as INPUT has rasters; got 2, not 1",
            "script",
            **common,
            NAMES="a,b",
        )
        self.refused("maps must have names of 1 to 64 letters", "script", **common, NAMES="1a")
        self.refused(
            "the script must write one table; got r.stats in line 1, r.stats in line 2",
            "script",
            **common,
            NAMES="lc",
            TABLE="TEMPORARY_OUTPUT",
        )
        self.refused(
            "the script makes no map: name the output map",
            "script",
            **common,
            NAMES="lc",
            OUTPUT=self.path("x.tif"),
        )
        self.refused(
            "the map x is requested, but OUTPUT is empty",
            "script",
            **common,
            NAMES="lc",
            MAP="x",
        )

    def test_reference_systems(self) -> None:
        far = session.districts()
        feature = next(far.getFeatures())
        far.dataProvider().changeGeometryValues(
            {
                feature.id(): QgsGeometry.fromWkt(
                    "POLYGON((500001 5399999, 500002 5399999, 500002 5399998, 500001 5399999))"
                )
            }
        )
        self.run_("composition", INPUT=self.cover, ZONES=far, OUTPUT="TEMPORARY_OUTPUT")
        self.assertIn(
            "warning: districts: 1 of 2 polygons contain no cell centre: feature 1",
            self.log.told,
        )
        gauss = made.write(self.path("gauss.tif"), COVER, epsg=31467)
        bare = made.write(self.path("bare.tif"), COVER, epsg=0)
        self.refused(
            "gauss: its coordinate reference system is EPSG:31467",
            "cross",
            INPUT=[self.cover, gauss],
            OUTPUT=self.path("t.gpkg"),
        )
        self.refused(
            "bare: it has no coordinate reference system, but `cover` has EPSG:32632",
            "cross",
            INPUT=[bare, self.cover],
            OUTPUT=self.path("t.gpkg"),
        )
        common = {"NAMES": "a,b", "SCRIPT": "r.stats -c input=a,b", "TABLE": self.path("t.gpkg")}
        self.refused(
            "b: its coordinate reference system is EPSG:31467",
            "script",
            INPUT=[self.cover, gauss],
            **common,
        )
        self.refused(
            "b: its coordinate reference system is EPSG:32632",
            "script",
            INPUT=[bare, self.cover],
            CRS="EPSG:31467",
            **common,
        )
        self.refused(
            "CRS must be a coordinate reference system; got 'nonsense'",
            "cross",
            INPUT=[bare],
            CRS="nonsense",
            OUTPUT=self.path("t.gpkg"),
        )
        self.run_("cross", INPUT=[bare, self.cover], CRS="EPSG:32632", OUTPUT=self.path("t.gpkg"))
        self.run_("script", INPUT=[bare, self.cover], CRS="EPSG:32632", **common)
        layer = QgsRasterLayer(bare, "bare")
        layer.setCrs(QgsCoordinateReferenceSystem("EPSG:32632"))
        self.run_("cross", INPUT=[layer, self.cover], OUTPUT=self.path("t.gpkg"))

    def test_quotes_are_reported_by_the_program(self) -> None:
        for wanted in (
            {"OUTPUT": self.path("x.tif")},
            {"OUTPUT": self.path("x.tif"), "MAP": "x"},
            {"TABLE": "TEMPORARY_OUTPUT"},
        ):
            message = self.refused(
                "script, line 1: bad byte at column 11",
                "script",
                INPUT=[self.cover],
                NAMES="lc",
                SCRIPT='r.mapcalc "x = lc * 2"',
                **wanted,
            )
            self.assertTrue(
                message.endswith(
                    '\n  r.mapcalc "x = lc * 2"\n            ^\n  try: r.mapcalc x = lc * 2'
                ),
                message,
            )

    def test_a_line_of_a_script_is_shown_with_a_mark(self) -> None:
        message = self.refused(
            "script, line 2",
            "script",
            INPUT=[self.cover],
            NAMES="lc",
            SCRIPT="# a note\nr.mapcalc x = lc + 1.5",
        )
        self.assertTrue(
            message.startswith(
                "script, line 2: number not whole at column 20\n  r.mapcalc x = lc + 1.5\n                     ^\n  try: "
            ),
            message,
        )

    def test_a_folder_that_is_missing_is_told_before_the_run(self) -> None:
        self.refused(
            "nowhere does not exist",
            "cross",
            INPUT=[self.cover],
            OUTPUT=self.path("nowhere/t.gpkg"),
        )
        self.refused(
            "nowhere does not exist",
            "majority",
            INPUT=self.cover,
            OUTPUT=self.path("nowhere/m.tif"),
        )
        self.assertEqual([line for line in self.log.told if line.startswith("command")], [])

    def test_an_empty_table_is_warned_of(self) -> None:
        found = self.run_(
            "composition",
            INPUT=made.write(self.path("void.tif"), np.zeros((2, 3)), nodata=0),
            OUTPUT="TEMPORARY_OUTPUT",
        )
        self.assertEqual(session.rows(found["OUTPUT"])[1], [])
        self.assertIn(
            "warning: The table is empty: all cells are excluded or without data.", self.log.told
        )

    def test_a_program_that_is_missing(self) -> None:
        QgsSettings().setValue("Processing/Configuration/RCELL_PROGRAM", "/nowhere/rcell")
        try:
            from processing.core.ProcessingConfig import ProcessingConfig

            ProcessingConfig.readSettings()
            algorithm = QgsApplication.processingRegistry().algorithmById("rcell:majority")
            self.assertEqual(
                algorithm.canExecute(),
                (
                    False,
                    "the program /nowhere/rcell-pipe does not exist or is not executable: correct the path under Settings > Options > "
                    "Processing > Providers > rcell, or clear it to use the program in the plugin",
                ),
            )
            self.refused(
                "the program /nowhere/rcell-pipe does not exist or is not executable",
                "majority",
                INPUT=self.cover,
                OUTPUT=self.path("m.tif"),
            )
        finally:
            QgsSettings().setValue("Processing/Configuration/RCELL_PROGRAM", "")
            ProcessingConfig.readSettings()


class LargeTest(InSession):
    def results(self) -> tuple[object, object]:
        table = self.run_(
            "patches", INPUT=self.cover, MAP=self.path("patches.tif"), OUTPUT="TEMPORARY_OUTPUT"
        )["OUTPUT"]
        self.run_("majority", INPUT=self.cover, OUTPUT=self.path("majority.tif"))
        names = ("patches.tif", "majority.tif")
        maps = [gdal.Open(self.path(name)).ReadAsArray().tolist() for name in names]
        return session.rows(table), maps

    def test_large_rasters_are_cut_into_tiles(self) -> None:
        expected = self.results()
        with mock.patch.dict(os.environ, {"RCELL_TEST_TILES": "2x2"}):
            self.assertEqual(self.results(), expected)


class MapsTest(InSession):
    def legend(self, path: str) -> list[tuple[int, str]]:
        layer = QgsRasterLayer(path, "map", "gdal")
        self.assertEqual(layer.renderer().type(), "paletted")
        return [(int(entry.value), entry.label) for entry in layer.renderer().classes()]

    def test_a_choice_is_a_text_or_a_number(self) -> None:
        words = {"INPUT": self.cover, "OUTPUT": "TEMPORARY_OUTPUT"}
        tables = [
            session.rows(self.run_("metrics", CONNECTIVITY=connectivity, **words)["OUTPUT"])
            for connectivity in ("8", 8, "4", 4)
        ]
        self.assertEqual((tables[0], tables[2]), (tables[1], tables[3]))
        self.assertNotEqual(tables[0], tables[2])
        self.refused(
            "CONNECTIVITY must be one of '4', '8'; got 6", "metrics", CONNECTIVITY=6, **words
        )

    def test_patches(self) -> None:
        found = self.run_(
            "patches",
            INPUT=self.cover,
            CONNECTIVITY="8",
            MIN_CELLS=3,
            MAP=self.path("patches.tif"),
            OUTPUT="TEMPORARY_OUTPUT",
        )
        titles, rows = session.rows(found["OUTPUT"])
        self.assertEqual(
            (titles[:5], rows[0][:5]),
            (["patch", "class", "label", "cells", "area_ha"], [1, 1, "wood, wet", 3, 0.12]),
        )
        self.assertEqual(titles[5:], ["perimeter_m", "core_ha", "west", "south", "east", "north"])
        self.assertEqual(
            (found["PATCHES"], self.legend(found["MAP"])[1]),
            (4, (2, "2: Wiese \u00fc (7 cells, 0.28 ha)")),
        )
        self.assertEqual(
            set(self.run_("patches", INPUT=self.cover, OUTPUT="TEMPORARY_OUTPUT")),
            {"PATCHES", "OUTPUT"},
        )
        dataset = gdal.Open(found["MAP"])
        self.assertEqual(
            (
                dataset.GetRasterBand(1).GetNoDataValue(),
                dataset.GetSpatialRef().GetAuthorityCode(None),
            ),
            (0, "32632"),
        )
        self.assertEqual(dataset.GetGeoTransform(), made.METRES)

    def test_reclass(self) -> None:
        found = self.run_(
            "reclass",
            INPUT=self.cover,
            RULES="1 2 = 1 green, all of it\n3 = 9",
            OUTPUT=self.path("r.tif"),
        )
        self.assertEqual(
            self.legend(found["OUTPUT"]),
            [(1, "green, all of it (14 cells, 0.56 ha)"), (9, "9 (5 cells, 0.2 ha)")],
        )
        dataset = gdal.Open(found["OUTPUT"])
        band = dataset.GetRasterBand(1)
        band.GetNoDataValue()
        self.assertEqual(band.GetRasterCategoryNames()[1], "green, all of it")
        # The next algorithm gets the label, but not the legend's count.
        rows = session.rows(
            self.run_(
                "cross", INPUT=[QgsRasterLayer(found["OUTPUT"], "r")], OUTPUT="TEMPORARY_OUTPUT"
            )["OUTPUT"]
        )[1]
        self.assertEqual(rows[0][:3], [1, "green, all of it", 14])

    def test_majority_keeps_labels_and_colours(self) -> None:
        layer = self.labelled([(1, "wet wood"), (2, "meadow"), (3, "town")])
        found = self.run_("majority", INPUT=layer, OUTPUT=self.path("m.tif"))
        result = QgsRasterLayer(found["OUTPUT"], "map")
        entries = result.renderer().classes()
        self.assertEqual(
            [(entry.label, entry.color.red()) for entry in entries],
            [("wet wood", 10), ("meadow", 20), ("town", 30)],
        )
        commonest = made.commonest(COVER, 3)
        self.assertEqual(
            gdal.Open(found["OUTPUT"]).ReadAsArray().tolist(),
            np.where(COVER == 0, -(2**31), commonest).tolist(),
        )
        filled = self.run_("majority", INPUT=layer, FILL=True, OUTPUT=self.path("f.tif"))
        self.assertEqual(gdal.Open(filled["OUTPUT"]).ReadAsArray().tolist(), commonest.tolist())

    def test_the_legend_of_a_result_that_is_loaded(self) -> None:
        from processing.gui.AlgorithmExecutor import execute
        from qgis.core import QgsProcessingOutputLayerDefinition

        context = QgsProcessingContext()
        project = QgsProject()
        context.setProject(project)
        target = QgsProcessingOutputLayerDefinition(self.path("loaded.tif"), project)
        algorithm = QgsApplication.processingRegistry().createAlgorithmById("rcell:reclass")
        ok, found = execute(
            algorithm,
            {"INPUT": self.cover, "RULES": "1 thru 3 = 1 all", "OUTPUT": target},
            context,
            self.log,
        )
        self.assertTrue(ok, self.log.told)
        details = context.layerToLoadOnCompletionDetails(found["OUTPUT"])
        layer = QgsRasterLayer(
            found["OUTPUT"], "loaded", "gdal", QgsRasterLayer.LayerOptions(loadDefaultStyle=False)
        )
        details.postProcessor().postProcessLayer(layer, context, self.log)
        self.assertEqual(
            [entry.label for entry in layer.renderer().classes()], ["all (19 cells, 0.76 ha)"]
        )

    def test_zones_may_be_polygons(self) -> None:
        found = self.run_(
            "composition",
            INPUT=self.cover,
            ZONES=session.districts(),
            ZONE_FIELD="name",
            OUTPUT="TEMPORARY_OUTPUT",
        )
        titles, rows = session.rows(found["OUTPUT"])
        self.assertEqual(
            titles, ["zone", "zone_label", "class", "label", "cells", "area_ha", "percent"]
        )
        self.assertEqual(
            [row[:5] for row in rows],
            [
                [1, "Nord", 1, "wood, wet", 3],
                [1, "Nord", 2, "Wiese \u00fc", 3],
                [2, "S\u00fcd", 1, "wood, wet", 3],
                [2, "S\u00fcd", 3, "built up", 3],
            ],
        )
        numbers = session.rows(
            self.run_(
                "zonal",
                INPUT=self.cover,
                ZONES=session.districts(),
                ZONE_FIELD="number",
                OUTPUT="TEMPORARY_OUTPUT",
            )["OUTPUT"]
        )[1]
        self.assertEqual([row[0] for row in numbers], [10, 20])
        self.refused(
            "no field x: the fields are name, number",
            "composition",
            INPUT=self.cover,
            ZONES=session.districts(),
            ZONE_FIELD="x",
            OUTPUT=self.path("t.gpkg"),
        )
        far = session.districts()
        feature = next(far.getFeatures())
        far.dataProvider().changeGeometryValues(
            {
                feature.id(): QgsGeometry.fromWkt(
                    "POLYGON((500001 5399999, 500002 5399999, 500002 5399998, 500001 5399999))"
                )
            }
        )
        self.run_("composition", INPUT=self.cover, ZONES=far, OUTPUT="TEMPORARY_OUTPUT")
        self.assertIn(
            "warning: districts: 1 of 2 polygons contain no cell centre: feature 1",
            self.log.told,
        )
        gauss = made.write(self.path("gauss.tif"), COVER, epsg=31467)
        self.refused(
            "districts: its coordinate reference system is EPSG:32632",
            "composition",
            INPUT=gauss,
            ZONES=session.districts(),
            OUTPUT=self.path("t.gpkg"),
        )
        self.assertEqual(
            [name for name in gdal.ReadDir("/vsimem/") or [] if name.startswith("rcell_zones")], []
        )

    def test_labels_of_a_file(self) -> None:
        with open(self.path("legend.csv"), "w", encoding="utf-8") as file:
            file.write("value,label\n7,North\n")
        rows = session.rows(
            self.run_(
                "composition",
                INPUT=self.zones,
                LABELS=self.path("legend.csv"),
                OUTPUT="TEMPORARY_OUTPUT",
            )["OUTPUT"]
        )[1]
        self.assertEqual([row[:2] for row in rows], [[7, "North"], [8, None]])
        self.assertIn("warning: labels: no label for 8 in zones", self.log.told)

    def test_records_are_verified_and_reported(self) -> None:
        path, words = self.path("t.csv"), {"INPUT": self.cover, "RECORD": True}
        self.run_("composition", **words, ZONES=self.zones, OUTPUT=path)
        self.assertEqual(self.run_("verify", INPUT=path)["DIFFERENCES"], 0)
        with open(path, encoding="utf-8") as file:
            self.assertIn('7,1,"wood, wet",5,0.2,', file.read())
        page = self.run_("report", INPUT=[path], TITLE="a & b", OUTPUT=self.path("r.html"))
        with open(page["OUTPUT"], encoding="utf-8") as file:
            self.assertIn("<h1>a &amp; b</h1>", file.read())
        made.write(self.path("zones.tif"), ZONES + 1, gdal.GDT_Int16, nodata=1)
        found = self.run_("verify", INPUT=path)
        self.assertEqual(found["DIFFERENCES"], 2)
        self.assertIn("the cells of zones (zones.tif) differ", found["LINES"])
        self.assertIn(f"warning: {path}: the cells of zones (zones.tif) differ", self.log.told)

    def test_what_cannot_be_recorded_is_rejected(self) -> None:
        with self.assertRaisesRegex(QgsProcessingException, "RECORD requires an OUTPUT"):
            self.run_("sample", INPUT=self.cover, RECORD=True, OUTPUT=self.path("t.gpkg"))
        layer = self.labelled([(1, "other than in the file")])
        with self.assertRaisesRegex(QgsProcessingException, "RECORD describes files"):
            self.run_("composition", INPUT=layer, RECORD=True, OUTPUT=self.path("t.csv"))
        with self.assertRaisesRegex(QgsProcessingException, "t.csv: No such file"):
            self.run_("verify", INPUT=self.path("t.csv"))
        self.assertEqual(os.listdir(self.room).count("t.csv"), 0)

    def test_change_and_its_parts(self) -> None:
        found = self.run_(
            "change",
            INPUT=[self.cover, self.zones],
            AREA="m2",
            OUTPUT="TEMPORARY_OUTPUT",
            MATRIX="TEMPORARY_OUTPUT",
            SUMMARY="TEMPORARY_OUTPUT",
        )
        titles, rows = session.rows(found["MATRIX"])
        self.assertEqual((titles, rows[0]), (["from", "7", "8"], ["wood, wet", 2000, 800]))
        self.assertEqual(session.rows(found["SUMMARY"])[0][:3], ["class", "label", "before_m2"])
        self.assertEqual(
            set(self.run_("change", INPUT=[self.cover, self.zones], OUTPUT="TEMPORARY_OUTPUT")),
            {"OUTPUT"},
        )

    def test_align_keeps_labels_and_reports(self) -> None:
        moved = made.write(
            self.path("moved.tif"),
            COVER,
            gdal.GDT_Byte,
            nodata=0,
            names=NAMES,
            transform=(500020, 20, 0, 5400000, 0, -20),
        )
        found = self.run_("align", INPUT=moved, TO=self.zones, OUTPUT=self.path("a.tif"))
        self.assertEqual(
            [
                found[name]
                for name in (
                    "SHIFT_ROWS",
                    "SHIFT_COLUMNS",
                    "CELLS_USED",
                    "CELLS_REPEATED",
                    "CELLS_LOST",
                )
            ],
            [0, -1, 15, 0, 4],
        )
        self.assertEqual(
            gdal.Open(found["OUTPUT"]).ReadAsArray()[0].tolist(), [-(2**31), 1, 1, 2, -(2**31)]
        )
        self.assertEqual(self.legend(found["OUTPUT"])[0], (1, "wood, wet"))
        self.refused(
            "shifted by 0 rows and -0.5 columns",
            "align",
            OUTPUT=self.path("b.tif"),
            TO=self.zones,
            INPUT=made.write(
                self.path("half.tif"), COVER, transform=(500010, 20, 0, 5400000, 0, -20)
            ),
        )

    def test_a_model_of_two_algorithms(self) -> None:
        from qgis.core import QgsProcessingModelAlgorithm

        model = QgsProcessingModelAlgorithm()
        self.assertTrue(
            model.fromFile(
                os.path.join(
                    os.path.dirname(results.__file__), "examples/patches_of_grouped_classes.model3"
                )
            )
        )
        for child in model.childAlgorithms():
            # The designer marks a box in red if a required parameter is missing.
            self.assertEqual(model.validateChildAlgorithm(child), (True, []))
        # QGIS writes statistics next to rasters that it opens.
        shutil.copytree(
            os.path.join(os.path.dirname(results.__file__), "../../examples/rasters"),
            self.path("islands"),
        )
        path = self.path("islands/country.tif")
        session.run(
            model,
            cover=path,
            **{
                "patches:Map of patches": self.path("model.tif"),
                "patches:Table of patches": self.path("model.gpkg"),
            },
        )
        rules = "1 = 1 Indonesia\n2 thru 6 = 2 its neighbours"
        grouped = self.run_("reclass", INPUT=path, RULES=rules, OUTPUT=self.path("r.tif"))["OUTPUT"]
        found = self.run_(
            "patches",
            INPUT=grouped,
            CONNECTIVITY="8",
            MIN_CELLS=100,
            MAP=self.path("a.tif"),
            OUTPUT="TEMPORARY_OUTPUT",
        )
        self.assertTrue(
            (
                gdal.Open(found["MAP"]).ReadAsArray()
                == gdal.Open(self.path("model.tif")).ReadAsArray()
            ).all()
        )
        self.assertEqual(
            [row[1:] for row in session.rows(self.path("model.gpkg"))[1]],
            session.rows(found["OUTPUT"])[1],
        )

    def test_texts_can_be_translated_and_helped(self) -> None:
        class German(QTranslator):
            def isEmpty(self) -> bool:
                return False

            def translate(self, context: str, text: str, *_: object) -> str:
                return f"de: {text}" if context == "rcell" and text else ""

        translator = German()
        QgsApplication.installTranslator(translator)
        try:
            for algorithm in (
                each.create()
                for each in QgsApplication.processingRegistry().providerById("rcell").algorithms()
            ):
                texts = [
                    algorithm.displayName(),
                    algorithm.shortDescription(),
                    *(each.description() for each in algorithm.parameterDefinitions()),
                ]
                self.assertEqual(
                    [text for text in texts if not text.startswith("de: ")], [], algorithm.id()
                )
                self.assertEqual(algorithm.shortHelpString().count("de: "), len(algorithm.HELP))
                self.assertTrue(
                    os.path.isfile(QUrl(algorithm.helpUrl()).toLocalFile()), algorithm.id()
                )
        finally:
            QgsApplication.removeTranslator(translator)

    def test_types_of_fields_of_qt_6(self) -> None:
        class Core:
            class QMetaType:
                class Type:
                    LongLong, Double, QString = 4, 6, 10

        self.assertEqual(
            results.types_of_fields(33800, Core),
            {"class": 4, "count": 4, "measure": 6, "label": 10},
        )

    def test_a_script_and_all_that_it_writes(self) -> None:
        script = "r.mapcalc big = lc * 1000000000\nr.stats -c -l input=lc,zone\nr.out.ascii input=big\nr.stats input=zone"
        found = self.run_(
            "script",
            INPUT=[self.cover, self.zones],
            NAMES="lc, zone",
            SCRIPT=script,
            OUTPUT=self.path("x.tif"),
            FOLDER=self.path("all"),
        )
        self.assertEqual(
            sorted(name for name in os.listdir(found["FOLDER"]) if not name.endswith(".xml")),
            ["big.qml", "big.tif", "table_2.csv", "table_2.csvt", "table_4.csv", "table_4.csvt"],
        )
        self.assertEqual(
            gdal.Open(found["OUTPUT"]).ReadAsArray()[0].tolist(),
            [10**9, 10**9, 2 * 10**9, -(2**31), -(2**31)],
        )
        self.assertTrue(
            any("r.stats in line 4:\nzone\n   7" in line for line in self.log.told), self.log.told
        )

    def test_an_input_is_never_the_output(self) -> None:
        before = pathlib.Path(self.zones).read_bytes()
        with self.assertRaisesRegex(QgsProcessingException, "the output file is the input file"):
            self.run_("majority", INPUT=self.zones, OUTPUT=self.zones)
        os.mkdir(self.path("all"))
        inside = made.write(self.path("all/big.tif"), COVER)
        with self.assertRaisesRegex(QgsProcessingException, "the output file is the input file"):
            self.run_(
                "script",
                INPUT=[inside],
                NAMES="big",
                SCRIPT="r.out.ascii input=big",
                FOLDER=self.path("all"),
            )
        self.assertEqual(pathlib.Path(self.zones).read_bytes(), before)

    def test_other_tables_are_left_to_qgis(self) -> None:
        for target in (self.path("t.ods"), f"ogr:dbname='{self.path('db.gpkg')}' table=\"t\""):
            self.assertIn("OUTPUT", self.run_("cross", INPUT=[self.cover], OUTPUT=target))

    def test_names_are_made_of_those_of_layers(self) -> None:
        layer = QgsRasterLayer(self.cover, "Gel\u00e4nde 2020 (neu)")
        found = self.run_(
            "script",
            INPUT=[layer],
            SCRIPT="r.stats -c input=Gel_nde_2020__neu_",
            TABLE="TEMPORARY_OUTPUT",
        )
        self.assertEqual(session.rows(found["TABLE"])[0], ["Gel_nde_2020__neu_", "cells"])

    def test_a_run_that_is_cancelled_leaves_no_file(self) -> None:
        path = self.path("sleeping")
        with open(path, "w", encoding="utf-8") as file:
            file.write(
                f'#!/bin/sh\ntest -e "$0.known" && exec sleep 60\ntouch "$0.known"\nexec "{find_program()}" "$@"\n'
            )
        os.chmod(path, stat.S_IRWXU)
        from processing.core.ProcessingConfig import ProcessingConfig

        ProcessingConfig.setSettingValue("RCELL_PROGRAM", path)
        try:
            self.assertEqual(
                QgsApplication.processingRegistry().algorithmById("rcell:majority").canExecute()[0],
                True,
            )
            started = time.monotonic()
            threading.Timer(0.5, self.log.cancel).start()
            self.refused("cancelled", "majority", INPUT=self.cover, OUTPUT=self.path("m.tif"))
            self.assertLess(time.monotonic() - started, 3.0)
            self.assertFalse(os.path.exists(self.path("m.tif")))
        finally:
            ProcessingConfig.setSettingValue("RCELL_PROGRAM", "")


if __name__ == "__main__":
    unittest.main()

"""Test that rasters and tables are written completely or not at all, with all metadata."""

from __future__ import annotations

import os
import pathlib
import signal
import stat
import subprocess
import sys
import tempfile
import unittest

import made
import numpy as np
from osgeo import gdal, ogr
from rcell.engine.core.columns import Column, Table
from rcell.engine.core.errors import Refused, WriteFailed
from rcell.engine.core.protocol import NULL
from rcell.engine.readers.gdal import open_raster
from rcell.host import Cancelled
from rcell.tables import check_target, distinct, write_raster, write_table

CELLS = np.array([[1, 2, 2], [7, 0, 1]])
TABLE = Table(
    [
        Column("lc", "class", np.array([1, 2, 7, NULL])),
        Column("LC", "label", ["wood, wet", 'a "quote"', "\u00fc\u00df \u6c34", None]),
        Column("cells", "count", np.array([2, 2, 1, 1])),
        Column("area_ha", "measure", np.array([0.08, 0.08, 0.04, np.nan])),
    ]
)


class FilesTest(unittest.TestCase):
    def setUp(self) -> None:
        folder = tempfile.TemporaryDirectory(prefix="R\u00e4ume mit Leerzeichen ")
        self.addCleanup(folder.cleanup)
        self.room = folder.name
        self.like = open_raster("lc", made.write(self.path("lc.tif"), CELLS, nodata=0))

    def path(self, name: str) -> str:
        return os.path.join(self.room, name)

    def write(self, name: str, labels: dict[int, str] | None = None, driver: str = "GTiff") -> None:
        write_raster(self.path(name), driver, CELLS.astype(np.int32), 0, self.like, labels or {})

    def old(self, *names: str) -> None:
        for name in names:
            with open(self.path(name), "w", encoding="utf-8") as file:
                file.write("stood there")

    def check_old(self, *names: str) -> None:
        for name in names:
            self.assertEqual(pathlib.Path(self.path(name)).read_text("utf-8"), "stood there")
        self.assertEqual(made.left_in(self.room), [])

    def test_a_raster_has_its_place_its_nodata_and_labels(self) -> None:
        for labels in ({1: "wood", 7: "far"}, {-3: "below", 100_000: "far"}):
            self.write("m.tif", labels)
            found = open_raster("m", self.path("m.tif"))
            self.assertEqual((found.transform, found.labels), (self.like.transform, labels))
            dataset = gdal.Open(self.path("m.tif"))
            self.assertEqual(dataset.GetSpatialRef().GetAuthorityCode(None), "32632")
            self.assertEqual(dataset.GetRasterBand(1).GetNoDataValue(), 0)
            self.assertEqual(dataset.ReadAsArray().tolist(), CELLS.tolist())

    def test_other_formats_are_copies(self) -> None:
        self.write("copy.img", {1: "wood"}, "HFA")
        self.assertEqual(gdal.Open(self.path("copy.img")).ReadAsArray().tolist(), CELLS.tolist())
        self.assertEqual(open_raster("m", self.path("copy.img")).labels, {1: "wood"})

    def test_tables_have_numbers_as_numbers(self) -> None:
        self.assertEqual([column.name for column in distinct(TABLE)][:2], ["lc", "LC_2"])
        for ending in ("csv", "gpkg"):
            write_table(self.path(f"t.{ending}"), TABLE)
            source = ogr.Open(self.path(f"t.{ending}"))
            layer = source.GetLayer(0)
            fields = [
                layer.GetLayerDefn().GetFieldDefn(at).GetTypeName()
                for at in range(layer.GetLayerDefn().GetFieldCount())
            ]
            self.assertEqual(fields, ["Integer64", "String", "Integer64", "Real"])
            rows = [feature for feature in layer]
            self.assertEqual([row.GetField(1) for row in rows][:3], TABLE.data[1].values[:3])
            self.assertEqual(
                [row.IsFieldSetAndNotNull(0) for row in rows], [True, True, True, False]
            )

    def test_a_limit_on_files_leaves_what_stood_there(self) -> None:
        """Simulate a full disk with a limit on file sizes in a child process.

        A child is needed because a process cannot raise its limit again.
        """
        self.old("kept.tif", "kept.gpkg", "kept.csv")
        child = os.path.join(os.path.dirname(__file__), "full_disk.py")
        words = [sys.executable, child, self.path("lc.tif"), self.room]
        ran = subprocess.run(words, capture_output=True, encoding="utf-8", check=False)
        self.assertEqual((ran.stdout.split(), ran.stderr), (["WriteFailed"] * 3, ""))
        self.check_old("kept.tif", "kept.gpkg", "kept.csv")

    def test_a_cancel_while_writing_leaves_what_stood_there(self) -> None:
        def cancel() -> None:
            raise Cancelled()

        self.old("c.tif", "c.gpkg", "c.csv")
        with self.assertRaises(Cancelled):
            cells = np.ones((3, 3), np.int32)
            write_raster(self.path("c.tif"), "GTiff", cells, 0, self.like, {}, cancel)
        for name in ("c.gpkg", "c.csv"):
            with self.assertRaises(Cancelled):
                write_table(self.path(name), TABLE, cancel)
        self.check_old("c.tif", "c.gpkg", "c.csv")

    def test_targets_that_cannot_be_written(self) -> None:
        os.mkdir(self.path("folder.tif"))
        os.symlink("lc.tif", self.path("link.tif"))
        for name, told in (
            ("nowhere/a.tif", "nowhere does not exist"),
            ("folder.tif", "is a folder"),
        ):
            with self.assertRaisesRegex(WriteFailed, f"cannot be written: .*{told}"):
                check_target(self.path(name))
        for name in ("lc.tif", "link.tif"):
            with self.assertRaisesRegex(Refused, "the output file is the input file"):
                check_target(self.path(name), self.like.files)
        check_target(self.path("new.tif"), self.like.files)

    def test_masks_and_labels_of_an_older_raster_go(self) -> None:
        self.write("m.tif", {1: "wood"})
        self.write("m.tif")
        self.assertEqual(sorted(os.listdir(self.room)), ["lc.tif", "m.tif"])

    def test_the_mode_stays_links_are_followed_and_pipes_stay_pipes(self) -> None:
        os.mkdir(self.path("far"))
        self.write("far/m.tif")
        os.chmod(self.path("far/m.tif"), 0o600)
        os.symlink("far/m.tif", self.path("link.tif"))
        self.write("link.tif")
        self.assertEqual(os.readlink(self.path("link.tif")), "far/m.tif")
        self.assertEqual(stat.S_IMODE(os.stat(self.path("far/m.tif")).st_mode), 0o600)
        os.mkfifo(self.path("pipe.tif"))
        with open(self.path("read.tif"), "wb") as file:
            reader = subprocess.Popen(["cat", self.path("pipe.tif")], stdout=file)
            self.write("pipe.tif")
            self.assertEqual(reader.wait(600), 0)
        self.assertTrue(stat.S_ISFIFO(os.stat(self.path("pipe.tif")).st_mode))
        self.assertEqual(gdal.Open(self.path("read.tif")).ReadAsArray().tolist(), CELLS.tolist())

    def test_nothing_is_left_after_signals(self) -> None:
        self.old("old.tif")
        text = (
            "import sys, time; sys.path[:0] = sys.argv[2:]; from rcell.tables import partly\n"
            "with partly(sys.argv[1]) as part:\n open(part, 'w').write('half'); print(flush=True); time.sleep(600)"
        )
        for number in (signal.SIGTERM, signal.SIGHUP, signal.SIGINT):
            # Under nohup, tests inherit ignored signals.
            words = ["env", "--default-signal", sys.executable, "-c", text, self.path("old.tif")]
            with subprocess.Popen(
                [*words, *sys.path], stdout=subprocess.PIPE, stderr=subprocess.DEVNULL
            ) as ran:
                assert ran.stdout is not None
                ran.stdout.readline()
                ran.send_signal(number)
                self.assertEqual(ran.wait(600), -number)
            self.check_old("old.tif")


if __name__ == "__main__":
    unittest.main()

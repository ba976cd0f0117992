"""Compare tiles in QGIS and in rcell-gis, and test progress and cancelling.

RCELL_LARGE may name a raster that is larger than the test raster.
"""

from __future__ import annotations

import os
import pathlib
import shutil
import signal
import subprocess
import sys
import tempfile
import time
import unittest
from typing import Any
from unittest import mock

import made
import numpy as np
import session
from osgeo import gdal
from qgis.core import QgsProcessingException
from rcell.host import find_program

SOURCES = pathlib.Path(__file__).resolve().parents[2] / "python/src"
SIDE = 3300  # more cells than one run accepts
BLOCK = 12
ALGORITHMS = {"composition": ".csv", "majority": ".tif", "clump": ".tif"}
# QGIS shows the program's work as the first half of its progress.
HALF = 50
SECONDS = 10


class LargeTest(unittest.TestCase):
    @classmethod
    def setUpClass(cls) -> None:
        session.start()
        cls.folder = tempfile.TemporaryDirectory(prefix="Gro\u00dfe Karten ")
        cls.addClassCleanup(cls.folder.cleanup)
        cls.room = os.path.join(cls.folder.name, "maps")
        os.mkdir(cls.room)
        # Use a separate copy of the program, because other tests may run at the same time.
        copy = shutil.copy(find_program(), cls.folder.name)
        patch = mock.patch.dict(os.environ, RCELL_PIPE=copy)
        patch.start()
        cls.addClassCleanup(patch.stop)
        cls.raster = os.environ.get("RCELL_LARGE") or cls.made()

    @classmethod
    def made(cls) -> str:
        blocks = made.noise(5, SIDE // BLOCK, SIDE // BLOCK).astype(np.uint8)
        cells = np.repeat(np.repeat(blocks, BLOCK, 0), BLOCK, 1)
        return made.write(cls.path("large.tif"), cells, gdal.GDT_Byte, nodata=0)

    @classmethod
    def path(cls, name: str) -> str:
        return os.path.join(cls.room, name)

    def left(self) -> list[str]:
        """Return leftover files and running programs, after waiting for ending programs."""
        ends = time.monotonic() + SECONDS
        while made.running(find_program()) and time.monotonic() < ends:
            time.sleep(0.05)
        names = [name for name in os.listdir(self.room) if not name.startswith("large.tif")]
        return names + made.running(find_program())

    def qgis(self, name: str, out: str, most: float = 100) -> list[float]:
        """Run an algorithm, cancel it at a progress, and return all progress values."""
        log, seen = session.Log(), list[float]()

        def note(progress: float) -> None:
            seen.append(progress)
            if most < progress < 100:
                log.cancel()

        log.progressChanged.connect(note)
        session.run(f"rcell:{name}", log, INPUT=self.raster, OUTPUT=out)
        return seen

    def shell(self, name: str, out: str) -> subprocess.Popen[bytes]:
        words = [sys.executable, "-m", "rcell", name, self.raster]
        words += ["--out", out] if out.endswith(".csv") else [out]
        environment = {**os.environ, "PYTHONPATH": str(SOURCES)}
        return subprocess.Popen(words, env=environment, stderr=subprocess.PIPE)

    def test_both_ways_give_the_same(self) -> None:
        for name, ending in ALGORITHMS.items():
            with self.subTest(name):
                one, other = (f"{self.folder.name}/{way}{ending}" for way in ("qgis", "shell"))
                seen = self.qgis(name, one)
                self.assertGreater(len([at for at in seen if at < HALF]), 2)
                self.assertEqual((seen, seen[-1]), (sorted(seen), 100))
                ran = self.shell(name, other)
                self.assertEqual((ran.communicate()[1], ran.returncode), (b"", 0))
                self.assertTrue(_are_equal(one, other))

    def test_a_cancel_leaves_nothing(self) -> None:
        for name, ending in ALGORITHMS.items():
            with self.subTest(name), self.assertRaisesRegex(QgsProcessingException, "cancelled"):
                self.qgis(name, self.path(f"no{ending}"), HALF / 10)
            self.assertEqual(self.left(), [])

    def test_an_interrupt_leaves_nothing(self) -> None:
        program = find_program()
        ran = self.shell("majority", self.path("no.tif"))
        while not made.running(program) and ran.poll() is None:
            time.sleep(0.02)
        ran.send_signal(signal.SIGINT)
        self.assertEqual((ran.communicate()[1], ran.returncode), (b"", 128 + signal.SIGINT))
        self.assertEqual(self.left(), [])


def _are_equal(path: str, other: str) -> bool:
    """Return whether two tables have the same bytes, or two maps the same cells."""
    if path.endswith(".csv"):
        return pathlib.Path(path).read_bytes() == pathlib.Path(other).read_bytes()
    one, two = gdal.Open(path), gdal.Open(other)
    bands: list[Any] = [of.GetRasterBand(1) for of in (one, two)]
    nodata = [band.GetNoDataValue() for band in bands]
    for row in range(0, one.RasterYSize, 256):
        high = min(256, one.RasterYSize - row)
        cells = [band.ReadAsArray(0, row, one.RasterXSize, high) for band in bands]
        masked = [np.ma.masked_equal(part, value) for part, value in zip(cells, nodata)]
        if not np.array_equal(*(part.filled(0).astype(np.int64) for part in masked)):
            return False
    return True


if __name__ == "__main__":
    unittest.main()

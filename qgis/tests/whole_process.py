"""Test the zip in a separate profile with qgis_process, from the command line.

The program is extracted without execute permission, as QGIS does it. RCELL_QGIS_ZIP names the zip.
"""

from __future__ import annotations

import json
import os
import shutil
import signal
import stat
import subprocess
import tempfile
import time
import unittest
import zipfile
from typing import Any

import made
import numpy as np
from osgeo import gdal, ogr

ZIP = os.environ["RCELL_QGIS_ZIP"]
# Debian's qgis_process passes options of the desktop program, with which it fails.
PROGRAM = shutil.which("qgis_process.bin") or "qgis_process"


class ProcessTest(unittest.TestCase):
    @classmethod
    def setUpClass(cls) -> None:
        cls.folder = tempfile.TemporaryDirectory(prefix="Zuhause f\u00fcr QGIS ")
        cls.home = os.path.join(cls.folder.name, "home")
        cls.plugins = os.path.join(
            cls.home, ".local/share/QGIS/QGIS3/profiles/default/python/plugins"
        )
        os.makedirs(cls.plugins)
        with zipfile.ZipFile(ZIP) as archive:
            archive.extractall(cls.plugins)
        cls.program = os.path.join(cls.plugins, "rcell/bin/rcell-pipe")
        cls.room = os.path.join(cls.folder.name, "Karten \u00e4 b")
        os.mkdir(cls.room)
        cls.mode_before = os.stat(cls.program).st_mode & 0o777
        cls.process("plugins", "enable", "rcell")
        cls.cover = made.write(
            os.path.join(cls.room, "Fl\u00e4che 1.tif"),
            made.patchy(1, 60, 80),
            gdal.GDT_Byte,
            nodata=0,
            names=["", "wood, wet", "Wiese \u00fc"],
        )
        cls.zones = made.write(
            os.path.join(cls.room, "zones.gpkg"),
            made.noise(2, 60, 80, 3),
            gdal.GDT_Byte,
            nodata=0,
            driver="GPKG",
        )

    @classmethod
    def tearDownClass(cls) -> None:
        cls.folder.cleanup()

    @classmethod
    def environment(cls, **more: str) -> dict[str, str]:
        kept = {
            name: value
            for name, value in os.environ.items()
            if name not in ("RCELL", "RCELL_PIPE", "PYTHONPATH", "HOME", "XDG_DATA_HOME")
        }
        return {
            **kept,
            "HOME": cls.home,
            "QT_QPA_PLATFORM": "offscreen",
            "LC_ALL": "C.UTF-8",
            "XDG_RUNTIME_DIR": cls.home,
            **more,
        }

    @classmethod
    def process(cls, *words: str, **more: str) -> subprocess.CompletedProcess[str]:
        return subprocess.run(
            [PROGRAM, *words],
            env=cls.environment(**more),
            capture_output=True,
            encoding="utf-8",
            errors="replace",
            check=False,
        )

    def results(self, algorithm: str, *words: str, **more: str) -> dict[str, Any]:
        ran = self.process("--json", "run", algorithm, "--", *words, **more)
        self.assertEqual(ran.returncode, 0, ran.stdout + ran.stderr)
        found: dict[str, Any] = json.loads(ran.stdout[ran.stdout.index("{") :])["results"]
        return found

    def path(self, name: str) -> str:
        return os.path.join(self.room, name)

    def refused(self, text: str, algorithm: str, *words: str) -> None:
        ran = self.process("run", algorithm, "--", *words)
        self.assertEqual(ran.returncode, 1, ran.stdout)
        self.assertIn(text, ran.stdout + ran.stderr)
        self.assertEqual(made.left_in(self.room), [])

    def test_it_is_listed(self) -> None:
        told = self.process("list").stdout
        for name in (
            "accuracy",
            "adjacency",
            "align",
            "change",
            "clump",
            "composition",
            "cross",
            "dominant",
            "majority",
            "metrics",
            "patches",
            "reclass",
            "sample",
            "script",
            "zonal",
        ):
            self.assertIn(f"rcell:{name}\t", told)
        self.assertIn("Patches", self.process("help", "rcell:patches").stdout)

    def test_a_table_of_a_geotiff_and_a_geopackage(self) -> None:
        wanted = made.counts(made.patchy(1, 60, 80), made.noise(2, 60, 80, 3))
        for ending in ("gpkg", "csv"):
            target = self.path(f"t \u00fc.{ending}")
            found = self.results(
                "rcell:cross",
                f"INPUT={self.cover}",
                f"INPUT={self.zones}",
                "AREA=ha",
                f"OUTPUT={target}",
            )
            self.assertEqual(found["OUTPUT"], target)
            source = ogr.Open(target)
            rows = [
                (
                    feature.GetField("Fl\u00e4che 1"),
                    feature.GetField("zones"),
                    feature.GetField("cells"),
                )
                for feature in source.GetLayer(0)
            ]
            self.assertEqual({row[:2]: row[2] for row in rows}, wanted)
        self.assertEqual(
            (self.mode_before & stat.S_IXUSR, os.stat(self.program).st_mode & 0o777), (0, 0o755)
        )

    def test_maps(self) -> None:
        cells = made.patchy(1, 60, 80)
        found = self.results(
            "rcell:patches",
            f"INPUT={self.cover}",
            "CONNECTIVITY=8",
            f"MAP={self.path('patches.tif')}",
            f"OUTPUT={self.path('s.gpkg')}",
        )
        self.assertTrue((gdal.Open(found["MAP"]).ReadAsArray() == made.areas(cells, True)).all())
        self.assertEqual(found["PATCHES"], int(made.areas(cells, True).max()))
        found = self.results(
            "rcell:reclass",
            f"INPUT={self.cover}",
            "RULES=1 thru 4 = 1 low\n* = 2 high",
            f"OUTPUT={self.path('r.tif')}",
        )
        wanted = np.select([cells == 0, cells <= 4], [-(2**31), 1], 2)
        self.assertTrue((gdal.Open(found["OUTPUT"]).ReadAsArray() == wanted).all())
        with open(self.path("r.qml"), encoding="utf-8") as file:
            self.assertIn(f'label="low ({int((wanted == 1).sum())} cells, ', file.read())
        found = self.results(
            "rcell:majority",
            f"INPUT={self.cover}",
            "SIZE=5",
            "FILL=true",
            f"OUTPUT={self.path('m.tif')}",
        )
        theirs = gdal.Open(found["OUTPUT"]).ReadAsArray()
        self.assertTrue(
            (np.where(theirs == -(2**31), 0, theirs) == made.commonest(cells, 5)).all()
        )

    def test_a_script(self) -> None:
        script = "r.mapcalc big = lc * 1000000\nr.stats -c -n input=big"
        found = self.results(
            "rcell:script",
            f"INPUT={self.cover}",
            "NAMES=lc",
            f"SCRIPT={script}",
            f"OUTPUT={self.path('big.tif')}",
            f"TABLE={self.path('b.csv')}",
        )
        self.assertEqual(int(gdal.Open(found["OUTPUT"]).ReadAsArray().max()), 9_000_000)
        with open(found["TABLE"], encoding="utf-8") as file:
            self.assertEqual(file.readline(), "big,cells\n")

    def test_in_the_locale_c(self) -> None:
        target = self.path("c \u00fc.gpkg")
        self.results("rcell:cross", f"INPUT={self.cover}", f"OUTPUT={target}", LC_ALL="C")
        self.assertTrue(os.path.isfile(target))
        found = self.results(
            "rcell:majority", f"INPUT={self.cover}", f"OUTPUT={self.path('c ü.tif')}", LC_ALL="C"
        )
        self.assertTrue(os.path.isfile(found["OUTPUT"]))

    def test_refusals(self) -> None:
        shifted = made.write(
            self.path("shifted.tif"),
            made.noise(2, 60, 80, 3),
            transform=(500010, 20, 0, 5400000, 0, -20),
        )
        self.refused(
            "shifted: its grid differs from `Fl\u00e4che 1`, and rcell does not resample: east is 501610, not 501600 (10 more)",
            "rcell:cross",
            f"INPUT={self.cover}",
            f"INPUT={shifted}",
            f"OUTPUT={self.path('no.gpkg')}",
        )
        self.refused(
            "has 2 bands",
            "rcell:majority",
            f"INPUT={made.write(self.path('bands.tif'), [[1]], bands=2)}",
            f"OUTPUT={self.path('no.tif')}",
        )
        self.refused(
            "its transform is rotated",
            "rcell:majority",
            f"INPUT={made.write(self.path('turned.tif'), [[1]], transform=(0, 1, 1, 0, 1, -1))}",
            f"OUTPUT={self.path('no.tif')}",
        )
        self.refused(
            "the cell at row 1, column 2 is 2.5",
            "rcell:cross",
            f"INPUT={made.write(self.path('half.tif'), [[1, 2.5]], gdal.GDT_Float32)}",
            f"OUTPUT={self.path('no.gpkg')}",
        )
        self.refused(
            "nowhere does not exist",
            "rcell:cross",
            f"INPUT={self.cover}",
            f"OUTPUT={self.path('nowhere/no.gpkg')}",
        )
        self.refused(
            "  r.mapcalc x = lc + 1.5\n                     ^",
            "rcell:script",
            f"INPUT={self.cover}",
            "NAMES=lc",
            "SCRIPT=r.mapcalc x = lc + 1.5",
            f"OUTPUT={self.path('no.tif')}",
        )
        self.assertEqual([name for name in os.listdir(self.room) if name.startswith("no.")], [])

    def test_a_program_that_is_missing(self) -> None:
        os.rename(self.program, self.program + ".away")
        try:
            self.refused(
                "the program rcell-pipe was not found: install the plugin from its zip",
                "rcell:cross",
                f"INPUT={self.cover}",
                f"OUTPUT={self.path('no.gpkg')}",
            )
        finally:
            os.rename(self.program + ".away", self.program)

    def test_nothing_is_left_where_qgis_is_ended(self) -> None:
        large = made.write(
            self.path("large.tif"), made.noise(3, 2500, 2500), gdal.GDT_Byte, nodata=0
        )
        for number in (signal.SIGTERM, signal.SIGKILL):
            words = [
                PROGRAM,
                "run",
                "rcell:patches",
                "--",
                f"INPUT={large}",
                f"MAP={self.path('no.tif')}",
                f"OUTPUT={self.path('no.gpkg')}",
            ]
            waiting = subprocess.Popen(
                words, env=self.environment(), stdout=subprocess.DEVNULL, stderr=subprocess.DEVNULL
            )
            ends = time.monotonic() + 60
            while (
                not made.running(self.program)
                and waiting.poll() is None
                and time.monotonic() < ends
            ):
                time.sleep(0.02)
            waiting.send_signal(number)
            waiting.wait(30)
            ends = time.monotonic() + 10
            while made.running(self.program) and time.monotonic() < ends:
                time.sleep(0.05)
            self.assertEqual(made.running(self.program), [])
            self.assertEqual([name for name in os.listdir(self.room) if "no." in name], [])


if __name__ == "__main__":
    unittest.main()

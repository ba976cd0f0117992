"""Test the window of QGIS on a virtual screen.

The tests use Install from ZIP in an empty profile, run a dialog, and cancel a run. RCELL_QGIS_ZIP
names the zip.
"""

from __future__ import annotations

import json
import os
import shutil
import subprocess
import tempfile
import unittest
from typing import Any

import made
from osgeo import gdal

HERE = os.path.dirname(os.path.abspath(__file__))


@unittest.skipUnless(
    shutil.which("xvfb-run") and shutil.which("qgis.bin"),
    "there is no xvfb-run or no qgis.bin (xvfb, qgis)",
)
class WindowTest(unittest.TestCase):
    told: dict[str, Any] = {}

    @classmethod
    def setUpClass(cls) -> None:
        with tempfile.TemporaryDirectory(prefix="Zuhause f\u00fcr QGIS ") as room:
            made.write(
                os.path.join(room, "cover.tif"), [[1, 2, 3], [3, 3, 0]], gdal.GDT_Byte, nodata=0
            )
            made.write(
                os.path.join(room, "shifted.tif"),
                [[1, 2, 3], [3, 3, 0]],
                gdal.GDT_Byte,
                nodata=0,
                transform=(500010, 20, 0, 5400000, 0, -20),
            )
            made.write(
                os.path.join(room, "large.tif"),
                made.noise(1, 3000, 3000, 3),
                gdal.GDT_Byte,
                nodata=0,
            )
            told = os.path.join(room, "told.json")
            environment = {
                name: value
                for name, value in os.environ.items()
                if name not in ("RCELL", "RCELL_PIPE", "QT_QPA_PLATFORM")
            }
            environment.update(
                HOME=room, RCELL_QGIS_ROOM=room, RCELL_QGIS_TOLD=told, XDG_RUNTIME_DIR=room
            )
            words = [
                "xvfb-run",
                "-a",
                "qgis.bin",
                "--noversioncheck",
                "--nologo",
                "--profiles-path",
                os.path.join(room, "profiles"),
                "--code",
                os.path.join(HERE, "in_window.py"),
            ]
            cls.ran = subprocess.run(
                words,
                env=environment,
                capture_output=True,
                encoding="utf-8",
                errors="replace",
                check=False,
                timeout=300,
            )
            if os.path.exists(told):
                with open(told, encoding="utf-8") as file:
                    cls.told = json.load(file)

    def setUp(self) -> None:
        self.assertNotIn("error", self.told, self.told.get("error"))
        self.assertTrue(self.told, self.ran.stderr[-3000:])

    def test_install_from_zip(self) -> None:
        self.assertTrue(self.told["is_active"])
        self.assertEqual(
            self.told["algorithms"],
            [
                f"rcell:{name}"
                for name in (
                    "align",
                    "change",
                    "composition",
                    "cross",
                    "majority",
                    "patches",
                    "reclass",
                    "script",
                    "zonal",
                )
            ],
        )

    def test_the_program_may_be_executed_after_the_first_run(self) -> None:
        self.assertEqual((self.told["mode"] & 0o111, self.told["mode_after"]), (0, 0o755))

    def test_a_result_is_loaded_with_its_legend(self) -> None:
        self.assertEqual(
            self.told["legend"], ["green (2 cells, 0.08 ha)", "built up (3 cells, 0.12 ha)"]
        )

    def test_a_mark_stands_under_its_column(self) -> None:
        log = self.told["log"].replace("\u2028", "\n").replace("\u00a0", " ")
        self.assertIn("\n  r.mapcalc x = lc + 1.5\n                     ^", log)
        self.assertIn("\nscript, line 1: number not whole at column 20\n", log)
        self.assertTrue(self.told["has_letters_of_one_width"])

    def test_the_dialog_refuses(self) -> None:
        self.assertIn(
            "shifted: its grid differs from `cover`, and rcell does not resample: east is 500070, not 500060 (10 more)",
            self.told["refused"],
        )

    def test_a_cancel_ends_within_half_a_second_and_leaves_no_file(self) -> None:
        self.assertEqual((self.told["was_done"], self.told["left"]), (False, []))
        self.assertLess(self.told["seconds"], 0.5)


if __name__ == "__main__":
    unittest.main()

"""Test the search for programs, and runs that are cancelled, killed or not understood."""

from __future__ import annotations

import os
import tempfile
import threading
import time
import unittest
from unittest import mock

import made
from rcell import host
from rcell.engine.core.composition import composition
from rcell.engine.core.errors import Killed, MissingProgram, WrongProgram
from rcell.engine.core.host import serving
from rcell.engine.readers.gdal import RasterMap, open_raster

KNOWN = host.find_program()
UNSET = {"RCELL": "", "RCELL_PIPE": ""}


class Feedback:
    """A substitute for the feedback that QGIS passes to a run."""

    def __init__(self) -> None:
        self.told: list[str] = []
        self.shares: list[float] = []
        self.is_cancelled = False
        self.pushWarning = self.pushCommandInfo = self.told.append
        self.setProgress = self.shares.append

    def isCanceled(self) -> bool:
        return self.is_cancelled


class HostTest(unittest.TestCase):
    def setUp(self) -> None:
        folder = tempfile.TemporaryDirectory(prefix="Programm \u00fc ")
        self.addCleanup(folder.cleanup)
        self.room = folder.name

    def raster(self, rows: int = 50) -> RasterMap:
        path = os.path.join(self.room, f"lc{rows}.tif")
        return open_raster("lc", made.write(path, made.noise(1, rows, rows)))

    def script(self, text: str, mode: int = 0o755, name: str = "") -> str:
        path = os.path.join(self.room, name or f"program {len(os.listdir(self.room))}")
        with open(path, "w", encoding="utf-8") as file:
            file.write(f"#!/bin/sh\n{text}\n")
        os.chmod(path, mode)
        return path

    def test_order_of_places(self) -> None:
        copy = self.script(f'exec "{KNOWN}" "$@"', name="rcell-pipe")
        with mock.patch.dict(os.environ, {"RCELL_PIPE": copy}):
            self.assertEqual(host.find_program(KNOWN), KNOWN)
            self.assertEqual(host.find_program(), copy)
            beside = os.path.join(os.path.dirname(KNOWN), "rcell")
            self.assertEqual(host.find_program(beside), KNOWN)
        with mock.patch.dict(os.environ, {**UNSET, "RCELL": os.path.join(self.room, "rcell")}):
            self.assertEqual(host.find_program(), copy)
        with mock.patch.dict(os.environ, {**UNSET, "PATH": f"{self.room}:{os.environ['PATH']}"}):
            self.assertEqual(host.find_program(), copy)
            with mock.patch.object(host, "_FOLDER", os.path.dirname(KNOWN)):
                self.assertEqual(host.find_program(), KNOWN)

    def test_the_program_is_next_to_rcell(self) -> None:
        rcell = os.path.join(os.path.dirname(KNOWN), "rcell")
        with mock.patch.dict(os.environ, UNSET):
            self.assertEqual(host.find_program(rcell), KNOWN)
        with mock.patch.dict(os.environ, {**UNSET, "RCELL": rcell}):
            self.assertEqual(host.find_program(), KNOWN)

    def test_the_right_to_execute_is_given_back_to_the_plugins_own(self) -> None:
        own = self.script(f'exec "{KNOWN}" "$@"', 0o644, "rcell-pipe")
        with mock.patch.dict(os.environ, UNSET), mock.patch.object(host, "_FOLDER", self.room):
            self.assertEqual(host.find_program(), own)
        self.assertEqual(os.stat(own).st_mode & 0o777, 0o755)

    def test_there_is_none(self) -> None:
        missing = "the program rcell-pipe was not found: install the plugin from its zip"
        with mock.patch.dict(os.environ, {**UNSET, "PATH": self.room}):
            with mock.patch.object(host, "_FOLDER", "/nowhere"):
                with self.assertRaisesRegex(MissingProgram, missing):
                    host.find_program()
        told = "the program /nowhere/rcell-pipe does not exist or is not executable: correct"
        with self.assertRaisesRegex(MissingProgram, told):
            host.find_program("/nowhere/rcell")
        with self.assertRaisesRegex(MissingProgram, "is not executable"):
            host.find_program(self.script("exit 0", 0o644))

    def test_another_program(self) -> None:
        for text in ("exit 0", "echo 12 2 1; exit 1", "echo nonsense >&2; exit 7", "kill -9 $$"):
            with self.subTest(text=text), self.assertRaisesRegex(
                WrongProgram, "is not a supported version"
            ):
                host.find_program(self.script(text))

    def run_of(self, text: str, feedback: Feedback, raster: RasterMap | None = None) -> None:
        """Count a map with a shell script in place of the program."""
        path, given = self.script(text), raster or self.raster()
        found = host.host_of("", feedback)
        with mock.patch.object(host, "find_program", lambda *_: path), serving(found):
            composition(given)

    def test_a_run_reports_its_command_and_its_progress(self) -> None:
        feedback = Feedback()
        self.run_of(f'exec "{KNOWN}" "$@"', feedback)
        self.assertTrue(feedback.told[0].startswith("rcell script map='"), feedback.told)
        self.assertTrue(feedback.told[0].endswith("\n  r.stats -c -n input=map"), feedback.told)
        self.assertEqual(feedback.shares, [50.0])

    def test_killed_and_not_understood(self) -> None:
        with self.assertRaisesRegex(Killed, r"killed by signal 9 \(SIGKILL\): memory ran out"):
            self.run_of("kill -9 $$", Feedback())
        with self.assertRaisesRegex(WrongProgram, "ended with status 7 and printed: Unsinn"):
            self.run_of("echo Unsinn >&2; exit 7", Feedback())

    def test_a_cancel_ends_the_program_within_half_a_second(self) -> None:
        # A program that reads nothing, one that has read everything and works, and one that writes
        # without end; the map is larger than a pipe.
        for text, rows in (
            ("exec sleep 60", 50),
            ("cat > /dev/null; exec sleep 60", 50),
            ("exec yes 1 2", 50),
            ("exec sleep 60", 1500),
        ):
            feedback, raster = Feedback(), self.raster(rows)
            moment: list[float] = []

            def cancel(feedback: Feedback = feedback, moment: list[float] = moment) -> None:
                moment.append(time.monotonic())
                feedback.is_cancelled = True

            threading.Timer(0.3, cancel).start()
            with self.subTest(text=text, rows=rows), self.assertRaises(host.Cancelled):
                self.run_of(text, feedback, raster)
            self.assertLess(time.monotonic() - moment[0], 0.5)


if __name__ == "__main__":
    unittest.main()

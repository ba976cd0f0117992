"""Test regions; needs only numpy."""

from __future__ import annotations

import pickle
import unittest

import rcell
from rcell import BadMap, Region


class RegionsOfTheProgram(unittest.TestCase):
    def test_edges_are_compared_to_eight_decimals(self) -> None:
        third = Region(1, 0, 8 + 1 / 3, 0, 1, 1)
        self.assertEqual(third, Region(1, 0, 8.33333333, 0, 1, 1))
        self.assertEqual(hash(third), hash(Region(1, 0, 8.33333333, 0, 1, 1)))
        self.assertNotEqual(third, Region(1, 0, 8.33333340, 0, 1, 1))
        self.assertNotEqual(third, "a region")
        self.assertEqual(
            third.differences(Region(1, 0, 8.3333334, 0, 2, 1)),
            [
                "east is 8.3333334, not 8.33333333 (0.00000007 more)",
                "rows is 2, not 1 (1 more)",
            ],
        )

    def test_the_globe_by_twentieths_of_a_minute(self) -> None:
        globe = Region.from_transform((1 / 120, 0, -180, 0, -1 / 120, 90), 21_600, 43_200)
        self.assertEqual(
            (globe.edges, globe.shape), (("90", "-90", "180", "-180"), (21_600, 43_200))
        )
        self.assertEqual(globe.bounds, (-180, -90, 180, 90))

    def test_no_minus_before_a_zero(self) -> None:
        self.assertEqual(Region(1, -1e-12, 1, 0, 1, 1).edges[1], "0")

    def test_what_is_refused(self) -> None:
        for words, told in (
            ((1e10, 0, 1, 0, 1, 1), "north must have at most ten digits; got 1e+10"),
            ((float("nan"), 0, 1, 0, 1, 1), "must have at most ten digits"),
            ((float("inf"), 0, 1, 0, 1, 1), "must have at most ten digits"),
            ((1e-9, 0, 1, 0, 1, 1), "north must exceed south after rounding"),
            ((1, 0, 0, 1, 1, 1), "east must exceed west"),
            ((1, 0, 1, 0, 0, 1), "got rows = 0, columns = 1"),
        ):
            with self.subTest(words=words), self.assertRaises(BadMap) as caught:
                Region(*words)
            self.assertIn(told, str(caught.exception))

    def test_what_no_transform_may_be(self) -> None:
        for transform, told in (
            ((1, 0.1, 0, 0, -1, 0), "rotated"),
            ((1, 0, 0, 0, 1, 0), "from north to south"),
            ((-1, 0, 0, 0, -1, 0), "west to east"),
        ):
            with self.subTest(transform=transform), self.assertRaises(BadMap) as caught:
                Region.from_transform(transform, 2, 2)
            self.assertIn(told, str(caught.exception))


class ErrorsArePickled(unittest.TestCase):
    def test_each_as_it_was(self) -> None:
        for error in (
            rcell.Refused("unknown map at column 3", "script", 2, 1, "a b"),
            rcell.OutOfMemory("no memory", "script", 2, 3, "a b"),
            rcell.BadMap("lc", "bad", 1, 2, 1.5),
            rcell.OtherRegion("lc", "other"),
            rcell.ReadFailed("lc", "cannot open"),
            rcell.MissingProgram("not there"),
            rcell.WrongProgram("another"),
            rcell.Killed(9),
            rcell.WriteFailed("full"),
            rcell.MissingLibrary("rasterio", "gis", "to"),
        ):
            again = pickle.loads(pickle.dumps(error))
            self.assertIs(type(again), type(error))
            self.assertEqual(str(again), str(error))
            self.assertEqual(vars(again), vars(error))


if __name__ == "__main__":
    unittest.main()

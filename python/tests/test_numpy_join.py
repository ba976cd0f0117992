"""Compare joined tiles with the full map, and test errors of joins; needs only numpy."""

from __future__ import annotations

import os
import struct
import tempfile
import unittest
from typing import Any
from unittest import mock

import numpy as np

import rcell
from rcell.core import programs, protocol
from rcell.core.region import Region
from rcell.core.runs import values_of
from rcell.core.tile_clumps import join, renumber, sum_patch_tables, wide

# A longer run: RCELL_MORE=40 python3 tests/test_numpy_join.py
TILINGS = 60 * int(os.environ.get("RCELL_MORE", "1"))
NULL_CELL = 255
LAND = np.array([[7, 7], [1, NULL_CELL]], np.uint8)


def cuts(random: np.random.Generator, total: int) -> list[slice]:
    """Cut a side of a map at random, and return the parts."""
    inner = random.permutation(np.arange(1, total))[: random.integers(0, 5)]
    ends = [0, *sorted(inner.tolist()), total]
    return [slice(*part) for part in zip(ends, ends[1:])]


def clumped(cells: Any, connectivity: int, row: int = 0, col: int = 0) -> tuple[Any, Any]:
    """Return the clump numbers and the border of a tile at this position of a large map."""
    region = Region.of_cells(*cells.shape)
    block = protocol.Block(np.ascontiguousarray(cells).data)
    land = protocol.Map("a", "u8", [block], NULL_CELL)
    sent = protocol.Maps(region.edges, *region.shape, [land])
    question = protocol.Question("a", connectivity, kind=protocol.NUMBERS + protocol.BORDER)
    tile = (1000, 1000, *(row, col) * 2, *cells.shape)
    numbers, border = protocol.run(programs.find_pipe(), sent, b"", [question], tile)
    return wide(values_of(numbers)), values_of(border)


def table_of(numbers: Any, zones: Any) -> Any:
    """Return the rows of the table of clump numbers and zones, in ascending order."""
    rows, counts = np.unique(
        np.stack([numbers.ravel(), zones.ravel()], axis=1), axis=0, return_counts=True
    )
    return np.column_stack([rows, counts])


class Tiles(unittest.TestCase):
    def test_clumps_of_tiles_join_to_those_of_the_full_map(self) -> None:
        for seed in range(TILINGS):
            with self.subTest(seed=seed):
                self.assert_joins(np.random.default_rng(seed), 8 if seed % 2 else 4)

    def assert_joins(self, random: np.random.Generator, connectivity: int) -> None:
        cells = random.choice(
            np.array([1, 1, 2, 30, NULL_CELL], np.uint8), random.integers(1, 12, 2)
        )
        rows, cols = (cuts(random, length) for length in cells.shape)
        places = [(row, col) for row in rows for col in cols]
        tiles = (
            clumped(cells[place], connectivity, place[0].start, place[1].start) for place in places
        )
        numbers, borders = zip(*tiles)
        joined = join(borders, len(cols), connectivity)
        expected, _ = clumped(cells, connectivity)
        found = np.zeros(cells.shape, np.int64)
        for tile, (place, own) in enumerate(zip(places, numbers)):
            renumber(own, joined.numbers_of(tile), out=found[place])
        self.assertEqual(found.tolist(), expected.tolist())
        self.assertEqual(joined.clumps, max(expected.max(), 0))

    def test_patch_tables_of_tiles_add_up_to_those_of_the_full_map(self) -> None:
        for seed in range(TILINGS):
            with self.subTest(seed=seed):
                self.assert_adds_up(np.random.default_rng(seed), 8 if seed % 2 else 4)

    def assert_adds_up(self, random: np.random.Generator, connectivity: int) -> None:
        shape = random.integers(1, 12, 2)
        cells = random.choice(np.array([1, 1, 2, 30, NULL_CELL], np.uint8), shape)
        zones = random.choice([-4, 0, 7, protocol.NULL], shape)
        rows, cols = (cuts(random, length) for length in shape)
        places = [(row, col) for row in rows for col in cols]
        numbers, borders = zip(
            *(
                clumped(cells[place], connectivity, place[0].start, place[1].start)
                for place in places
            )
        )
        tables = [
            (tile, table_of(own, zones[at])) for tile, (own, at) in enumerate(zip(numbers, places))
        ]
        random.shuffle(tables)
        found = sum_patch_tables(join(borders, len(cols), connectivity), tables)
        self.assertTrue((np.diff(found[:, 0]) >= 0).all())
        full, _ = clumped(cells, connectivity)
        self.assertEqual(sorted(found.tolist()), table_of(full, zones).tolist())

    def test_a_table_of_a_patch_that_is_in_no_tile(self) -> None:
        joined = join([clumped(LAND, 4)[1]], 1, 4)
        tables = [(0, np.array([[1, 5, 2]])), (0, np.array([[1, 5, 2], [3, 5, 1]]))]
        with self.assertRaisesRegex(rcell.WrongProgram, "part 3: unknown patch"):
            sum_patch_tables(joined, tables)
        self.assertEqual(sum_patch_tables(joined, tables[:1]).tolist(), [[1, 5, 2]])
        self.assertEqual(sum_patch_tables(joined, [(0, np.empty((0, 3)))]).tolist(), [])

    def test_borders_that_are_not_of_tiles(self) -> None:
        (_, one), (_, beside), (_, below) = (
            clumped(LAND, 4, *at) for at in ((0, 0), (0, 2), (2, 0))
        )
        (_, by_corners), (_, low_tile) = clumped(LAND, 8, 0, 2), clumped(LAND[:1], 4, 0, 2)
        other_number, other_cell = beside.copy(), one.copy()
        other_number.data[33:37], other_cell.data[25:29] = (
            struct.pack("<i", number) for number in (9, protocol.NULL)
        )
        for borders, told in (
            ([one, low_tile], "tile 2: other size"),
            ([one[:-1]], "tile 1: request too short"),
            ([one, other_number], "tile 2: bad border"),
            ([other_cell], "tile 1: bad border"),
            ([beside, one], "tile 1: other place"),
            ([one, one], "tile 2: other place"),
            ([one, below], "tile 2: other place"),
            ([one, by_corners], "tile 2: other connectivity"),
        ):
            with self.subTest(told=told), self.assertRaisesRegex(rcell.WrongProgram, told):
                join(borders, len(borders), 4)


class Programs(unittest.TestCase):
    """Shell scripts that replace rcell-pipe and respond incorrectly."""

    def setUp(self) -> None:
        folder = tempfile.TemporaryDirectory()
        self.addCleanup(folder.cleanup)
        self.path = f"{folder.name}/rcell-pipe"
        _, self.border = clumped(LAND, 4)

    def join_with(self, body: str) -> None:
        """Join a tile with a shell script that is accepted as rcell-pipe without a test run."""
        with open(self.path, "w") as file:
            file.write(f"#!/bin/sh\ncat > /dev/null\n{body}\n")
        os.chmod(self.path, 0o755)
        state = os.stat(self.path)
        known = {self.path: (state.st_ino, state.st_size, state.st_mtime_ns)}
        with mock.patch.dict(os.environ, RCELL_PIPE=self.path):
            with mock.patch.dict(programs._known, known):
                join([self.border], 1, 4)

    def test_errors(self) -> None:
        with self.assertRaises(rcell.Killed):
            self.join_with("kill -9 $$")
        with open(f"{self.path}.answer", "wb") as file:
            file.write(b"RCELLA1\nDONE" + struct.pack("<6Q", 3, 0, 0, 0, 0, 9) + b"no memory")
        with self.assertRaisesRegex(rcell.OutOfMemory, "no memory to join the tiles"):
            self.join_with(f"cat {self.path}.answer; exit 3")
        for body in ("exit 7", "exit 0", "echo 1 2 3"):
            with self.subTest(body=body), self.assertRaises(rcell.WrongProgram):
                self.join_with(body)
        with mock.patch.dict(os.environ, RCELL_PIPE=f"{self.path}.missing"):
            with self.assertRaises(rcell.MissingProgram):
                join([self.border], 1, 4)


if __name__ == "__main__":
    unittest.main()

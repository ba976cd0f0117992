"""Compare runs over arrays and grids with numpy and with the program; needs only numpy."""

from __future__ import annotations

import collections
import os
import subprocess
import sys
import tempfile
import threading
import unittest
import warnings
from typing import Any
from unittest import mock

import numpy as np

import rcell
from rcell.core.libraries import has
from rcell.core.programs import find_pipe, find_program
from rcell.core.runs import execute, planned
from rcell.core.text_grids import TextMap, open_path
from rcell.core.tiling import working
from rcell.core import protocol
from tests.rows import rows_of


def by_files(script: str, **grids: bytes) -> tuple[int, bytes, str]:
    """Run the program on files, and return its status, output and message."""
    with tempfile.TemporaryDirectory() as folder:
        paths = []
        for name, text in grids.items():
            paths.append(f"{name}={folder}/{name}")
            with open(f"{folder}/{name}", "wb") as file:
                file.write(text)
        with open(
            f"{folder}/script", "w", encoding="utf-8", errors="surrogateescape", newline=""
        ) as file:
            file.write(script)
        ran = subprocess.run([find_program(), f"{folder}/script", *paths], capture_output=True)
    return ran.returncode, ran.stdout, ran.stderr.decode()


def random_map(
    random: np.random.Generator, rows: int, cols: int, categories: int, null: float
) -> Any:
    cells = random.integers(1, categories + 1, (rows, cols)).astype(
        random.choice(["uint8", "int16", "int32", "int64", "float64"])
    )
    return np.ma.MaskedArray(cells, mask=random.random((rows, cols)) < null)


def text_of(array: Any) -> bytes:
    return rcell.Raster(array.astype(np.int32)).text()


LAND = np.array([[1, 1, 2, 0], [1, 2, 2, 2], [3, 3, 1, 1]], np.uint8)


def header_of(region: Any) -> str:
    """Return the header of a grid."""
    edges = dict(zip(("north", "south", "east", "west"), region.edges))
    lines = {**edges, "rows": region.rows, "cols": region.cols}
    return "".join(f"{name}: {value}\n" for name, value in lines.items())


class Runs(unittest.TestCase):
    def test_tables_are_those_of_numpy(self) -> None:
        random = np.random.default_rng(3)
        for _ in range(25):
            rows, cols = random.integers(1, 12, 2).tolist()
            a, b = (
                random_map(
                    random,
                    rows,
                    cols,
                    int(random.choice([2, 9, 12, 120])),
                    float(random.choice([0, 0.2, 1])),
                )
                for _ in "ab"
            )
            counted: collections.Counter[Any] = collections.Counter(
                zip(a.reshape(-1).tolist(), b.reshape(-1).tolist())
            )
            answer = rcell.run("r.stats -c input=a,b", a=a, b=b).tables[0]
            self.assertEqual({(x, y): n for x, y, n in rows_of(answer)}, dict(counted))

    def test_the_numbers_are_those_of_the_program_by_files(self) -> None:
        random = np.random.default_rng(4)
        script = (
            "r.mapcalc s = nmode(a[-1,0], a[0,-1], a, a[0,1], a[1,0]) + b * 1000000\nr.clump -d "
            "input=a output=k\n"
            "r.stats -c input=s,k\nr.stats -cn input=a,b after=2,*\nr.out.ascii input=s "
            "null_value=x\nr.stats -1 input=k,a\nr.stats input=k\n"
        )
        for _ in range(10):
            a, b = (random_map(random, 7, 9, 4, 0.2) for _ in "ab")
            status, output, message = by_files(script, a=text_of(a), b=text_of(b))
            self.assertEqual((status, message), (0, ""))
            found = []
            for answer in rcell.run(script, a=a, b=b):
                if isinstance(answer, rcell.Raster):
                    lines = answer.array.tolist()
                    found.append(
                        header_of(answer.region)
                        + "null: x\n"
                        + "".join(
                            " ".join("x" if c is None else str(c) for c in row) + "\n"
                            for row in lines
                        )
                    )
                else:
                    found.append(
                        "".join(
                            " ".join("*" if v is None else str(v) for v in row) + "\n"
                            for row in rows_of(answer)
                        )
                    )
            self.assertEqual("".join(found), output.decode())

    def test_a_table_without_lines_between_others(self) -> None:
        result = rcell.run(
            "r.stats -cn input=lc after=3\nr.stats -c input=lc\nr.stats -cn input=lc after=3",
            lc=rcell.Raster(LAND, nodata=0),
        )
        self.assertEqual(
            [rows_of(table) for table in result.tables],
            [[], [(1, 5), (2, 4), (3, 2), (None, 1)], []],
        )

    def test_a_script_that_writes_nothing(self) -> None:
        result = rcell.run("", lc=LAND)
        self.assertEqual(
            (len(result), result.tables, result.grids, repr(result)),
            (0, [], {}, "<Result: no output>"),
        )

    def test_an_output_of_each_kind(self) -> None:
        result = rcell.run(
            "r.out.ascii input=lc null_value=-1\nr.stats -1 input=lc\nr.stats -1n "
            "input=lc\nr.stats input=lc",
            lc=rcell.Raster(LAND, nodata=0),
        )
        self.assertEqual(
            [type(output).__name__ for output in result],
            ["Raster", "DataFrame", "DataFrame", "DataFrame"],
        )
        self.assertEqual([len(table) for table in result.tables], [12, 11, 4])
        self.assertEqual(result[0:2], list(result)[:2])
        self.assertEqual(
            repr(result), "<Result: the map lc; a table of lc; a table of lc; a table of lc>"
        )

    def test_grids_by_name(self) -> None:
        script = "r.stats -c input=lc\nr.mapcalc twice = lc * 2\nr.stats -c input=twice"
        self.assertEqual(
            rcell.grid(script, "twice", lc=LAND).array.tolist(), (LAND.astype(int) * 2).tolist()
        )
        self.assertEqual(rcell.grid("", "lc", lc=LAND).array.tolist(), LAND.tolist())
        with self.assertRaises(rcell.BadArgument) as caught:
            rcell.grid(script, "thrice", lc=LAND)
        self.assertEqual(caught.exception.argument, "name")
        self.assertIn("(lc, twice); got 'thrice'", caught.exception.reason)

    def test_names_that_are_no_keywords(self) -> None:
        self.assertEqual(
            rows_of(rcell.table("r.stats -c input=a.1,b", {"a.1": LAND}, b=LAND))[0],
            (0, 0, 1),
        )
        with self.assertRaises(rcell.BadArgument):
            rcell.run("", {"lc": LAND}, lc=LAND)
        with self.assertRaises(rcell.BadArgument):
            rcell.run("")

    def test_grids_go_in_again(self) -> None:
        areas = rcell.grid(
            "r.clump input=lc output=areas",
            "areas",
            lc=rcell.Raster(LAND, (25, 0, 500, 0, -25, 1000), nodata=0),
        )
        again = rcell.grid("", "areas", areas=areas)
        self.assertEqual(
            (again.array.tolist(), again.transform),
            (areas.array.tolist(), (25, 0, 500, 0, -25, 1000)),
        )

    def test_large_maps_come_in_pieces(self) -> None:
        cells = np.arange(900 * 1_100, dtype=np.int32).reshape(900, 1_100) * 1_540 - 900_000_000
        result = rcell.run(
            "r.stats -c input=lc after=600000000\nr.out.ascii input=lc\nr.stats -c input=lc "
            "after=640000000\nr.out.ascii input=lc",
            lc=cells,
        )
        self.assertTrue((result[1].array == cells).all() and (result[3].array == cells).all())
        self.assertEqual(
            [len(table) for table in result.tables],
            [int((cells > 6e8).sum()), int((cells > 6.4e8).sum())],
        )

    def test_an_empty_table_behind_a_map_of_long_numbers(self) -> None:
        cells = np.full((3, 4), 1_234_567_890)
        result = rcell.run(
            "r.out.ascii input=lc\nr.stats -c input=lc after=2000000000\nr.stats -c "
            "input=lc\nr.out.ascii input=lc",
            lc=cells,
        )
        self.assertEqual([rows_of(table) for table in result.tables], [[], [(1_234_567_890, 12)]])
        self.assertEqual(result[0].array.tolist(), result[3].array.tolist())

    def test_threads_at_once(self) -> None:
        found: list[Any] = []
        threads = [
            threading.Thread(
                target=lambda: found.append(rows_of(rcell.table("r.stats -c input=lc", lc=LAND)))
            )
            for _ in range(8)
        ]
        for thread in threads:
            thread.start()
        for thread in threads:
            thread.join()
        self.assertEqual(found, [[(0, 1), (1, 5), (2, 4), (3, 2)]] * 8)


class Patches(unittest.TestCase):
    def test_numbers_and_sizes(self) -> None:
        for connectivity in (4, 8):
            land = rcell.Raster(LAND, nodata=0, labels={1: "wood"})
            found = rcell.patches(land, connectivity)
            numbers = rcell.grid(
                f"r.clump {'-d' if connectivity == 8 else ''} input=lc output=k", "k", lc=land
            ).array.filled(0)
            rows = [
                (
                    k,
                    int(LAND[numbers == k][0]),
                    {1: "wood"}.get(int(LAND[numbers == k][0])),
                    int((numbers == k).sum()),
                )
                for k in range(1, numbers.max() + 1)
            ]
            self.assertEqual([row[:4] for row in rows_of(found)], rows)
            self.assertEqual(
                tuple(found.columns),
                (
                    "patch",
                    "class",
                    "label",
                    "cells",
                    "perimeter_m",
                    "core_cells",
                    "west",
                    "south",
                    "east",
                    "north",
                ),
            )

    def test_random_maps(self) -> None:
        random = np.random.default_rng(5)
        for _ in range(10):
            rows, cols = random.integers(1, 15, 2).tolist()
            a = random_map(random, rows, cols, 3, 0.3)
            least = int(random.integers(1, 5))
            whole, kept = rows_of(rcell.patches(a)), rows_of(rcell.patches(a, min_cells=least))
            self.assertEqual(kept, [row for row in whole if row[2] >= least])
            self.assertEqual(
                rows_of(rcell.patches(a, classes=[1, 3])),
                [row for row in whole if row[1] in (1, 3)],
            )
            numbers = rcell.grid("r.clump input=a output=k", "k", a=a).array.filled(0)
            for row in whole:
                self.assertEqual(row[3:], (None, *measured(numbers == row[0])))

    def test_nothing(self) -> None:
        self.assertEqual(len(rcell.patches(LAND, classes=[])), 0)
        self.assertEqual(len(rcell.patches(rcell.Raster(np.zeros((2, 2), int), nodata=0))), 0)


def measured(inside: Any) -> tuple[float, ...]:
    """Return the core at depth 1 and the extent of a patch of unit cells."""
    wide = np.pad(inside, 1)
    sides = [
        wide[1:-1, 1:-1] & ~np.roll(wide, step, axis)[1:-1, 1:-1]
        for axis in (0, 1)
        for step in (-1, 1)
    ]
    core = wide[1:-1, 1:-1] & ~np.logical_or.reduce(sides)
    rows, cols = np.nonzero(inside)
    height = inside.shape[0]
    return (
        int(core.sum()),
        float(cols.min()),
        height - rows.max() - 1.0,
        cols.max() + 1.0,
        float(height - rows.min()),
    )


class Refusals(unittest.TestCase):
    def test_each_has_the_words_of_the_program_and_the_line_of_the_script(self) -> None:
        text = text_of(np.ma.MaskedArray(LAND))
        for script in (
            "r.stats -q input=lc",
            "r.stats -c input=nope",
            "\n# x\nr.mapcalc x = lc +\nr.stats -c input=lc",
            "r.stats -c input=lc\nr.reclass input=lc output=x\n1 = 1",
            "r.stats -c input=lc\nr.stats -c input=lc\nr.mapcalc x = lc ^ 2",
            "r.reclass input=lc output=x\n1 = 2\nr.stats input=x",
            "r.out.ascii input=lc null_value=a:b",
            "r.stats -c input=lc separator=xx",
            "r.stats input=lc,",
            "r.clump input=lc output=lc",
            "x",
            "r.stats -c input=lc after=1,2",
            "r.stats -1c input=lc",
            "r.stats -c input=lc input=lc",
            "r.stats - input=lc",
            "r.mapcalc x = lc + é",
            "r.stats -c input=lc\r\nr.stat\r",
            "r.stats -c input=lc # c",
            "r.mapcalc lc = 1",
        ):
            with self.subTest(script=script):
                status, _, message = by_files(script, lc=text)
                with self.assertRaises(rcell.Refused) as caught:
                    rcell.run(script, lc=LAND)
                refusal = caught.exception
                self.assertEqual(
                    f"rcell: {refusal.source}:{refusal.line}: {refusal.text}\n", message
                )
                self.assertEqual(refusal.status, status)
                if refusal.line:
                    self.assertEqual(
                        refusal.content, script.split("\n")[refusal.line - 1].rstrip("\r")
                    )

    def test_the_mark_stands_under_the_column(self) -> None:
        with self.assertRaises(rcell.Refused) as caught:
            rcell.run("r.mapcalc\tx = lc + 1.5", lc=LAND)
        self.assertEqual(
            str(caught.exception).splitlines()[1:3],
            ["  r.mapcalc\tx = lc + 1.5", "           \t         ^"],
        )

    def test_maps(self) -> None:
        for given, told in (
            (
                np.zeros((2, 2, 2), int),
                "the array has 3 dimensions (2 x 2 x 2), but a map has two: pass one band of a "
                "raster, for example read(1)",
            ),
            (np.zeros((0, 2), int), "the array has no cells (0 x 2)"),
            (
                np.array([[1, 2.5]]),
                "not a map of whole numbers: the cell at row 1, column 2 is 2.5",
            ),
            (
                np.array([[1], [np.inf]]),
                "not a map of whole numbers: the cell at row 2, column 1 is inf, outside "
                "-2147483647 to 2147483647",
            ),
            (
                np.array([[3 * 10**9]]),
                "not a map of whole numbers: the cell at row 1, column 1 is 3000000000, outside "
                "-2147483647 to 2147483647",
            ),
            (
                np.array([[2**64 - 1]], np.uint64),
                "not a map of whole numbers: the cell at row 1, column 1 is "
                "18446744073709551615, outside -2147483647 to 2147483647",
            ),
            (
                np.array([[-(2**31)]], np.int32),
                "not a map of whole numbers: the cell at row 1, column 1 is -2147483648, outside "
                "-2147483647 to 2147483647",
            ),
            (np.array([["a"]]), "not a map of whole numbers: its cells are of type <U1"),
            (np.array([[1j]]), "not a map of whole numbers: its cells are of type complex128"),
            (3, "must be a path, an array or a raster; got an object of type int"),
            (
                (LAND, rcell.Region.of_cells(4, 4)),
                "the array has 3 x 4 cells, but the region has 4 x 4",
            ),
            (
                (LAND, (1, 0.5, 0, 0, -1, 0)),
                "its transform is rotated, (1.0, 0.5, 0.0, 0.0, -1.0, 0.0): warp the map to a "
                "north-up grid first",
            ),
        ):
            with self.subTest(told=told), self.assertRaises(rcell.BadMap) as caught:
                rcell.run("r.stats -c input=lc", lc=given)
            self.assertEqual(str(caught.exception).split("\n")[0], "lc: " + told)

    def test_other_regions(self) -> None:
        with self.assertRaises(rcell.OtherRegion) as caught:
            rcell.run(
                "", a=(LAND, (25, 0, 500, 0, -25, 1000)), b=(LAND, (25, 0, 500.5, 0, -25, 1000))
            )
        self.assertEqual(
            str(caught.exception).splitlines(),
            [
                "b: its grid differs from `a`, and rcell does not resample: east is 600.5, not "
                "600 (0.5 more); west is 500.5, not 500 (0.5 more)",
                "  a: north 1000, south 925, east 600, west 500, 3 rows, 4 columns",
                "  b: north 1000, south 925, east 600.5, west 500.5, 3 rows, 4 columns",
                '  try: b=rcell.align(b, to=a, resample="nearest")',
            ],
        )
        taken = rcell.run(
            "r.stats -c input=a,b",
            a=(LAND, (1, 0, 1 / 3, 0, -1, 3)),
            b=(LAND, (1, 0, 0.33333333, 0, -1, 3)),
        )
        self.assertEqual(len(taken), 1)

    def test_what_is_taken(self) -> None:
        for given in (
            LAND > 1,
            LAND.astype(float),
            LAND.astype(np.uint64),
            LAND[::-1, ::2],
            np.asfortranarray(LAND),
            LAND.tolist(),
        ):
            rcell.run("r.stats -c input=lc", lc=given)
        self.assertEqual(
            rows_of(rcell.table("r.stats -c input=lc", lc=np.array([[1, np.nan]]))),
            [(1, 1), (None, 1)],
        )
        self.assertEqual(
            rows_of(
                rcell.table(
                    "r.stats -c input=lc", lc=rcell.Raster([[1, -(2**31)]], nodata=-(2**31))
                )
            ),
            [(1, 1), (None, 1)],
        )
        with self.assertWarns(UserWarning):
            rcell.run("", lc=np.array([[2**24 + 2]], np.float32))

    def test_rows_from_south_to_north_are_turned(self) -> None:
        self.assertEqual(
            rcell.grid("", "lc", lc=(LAND, (1, 0, 0, 0, 1, 0))).array.tolist(), LAND[::-1].tolist()
        )

    def test_tables_and_areas(self) -> None:
        lc = rcell.Raster(LAND, crs="EPSG:4326")
        if not has("rasterio"):
            with self.assertRaises(rcell.MissingLibrary):
                rcell.table("r.stats -c input=lc", lc=lc, area="ha")
            lc = rcell.Raster(LAND)
        degrees = [
            (
                ("r.stats -c input=lc", {"area": "ha"}),
                "area requires a map in metres or feet, but",
            )
        ] * has("rasterio")
        for words, told in (
            *degrees,
            (
                ("r.stats -c input=lc", {"area": "acre"}),
                "area must be ha, km2, m2 or None; got 'acre'",
            ),
            (
                ("r.stats input=lc", {"percent": True}),
                "percent= requires a table with counts: use r.stats -c",
            ),
            (
                ("r.stats -c input=lc", {"pivot": True}),
                "pivot= requires a table of two maps, but this table has 1",
            ),
            (
                ("r.out.ascii input=lc", {}),
                "the script must write one table and no map; got 0 r.stats and 1 r.out.ascii: use "
                "rcell.run to get all outputs",
            ),
            (
                ("# nothing", {}),
                "the script must write one table and no map; got 0 r.stats and 0 r.out.ascii: use",
            ),
        ):
            with self.subTest(told=told), self.assertRaises(rcell.RcellError) as caught:
                rcell.table(words[0], lc=lc, **words[1])  # type: ignore[arg-type]
            self.assertIn(told, str(caught.exception))


class Scripts(unittest.TestCase):
    def test_labels_are_those_of_the_program(self) -> None:
        for rules in (
            "1 2 = 1 built up\n3 = NULL gone\n* = 9 rest",
            "1 = 1 a\n2 = 1 b\n3 = 1",
            "* = * kept\n1 = 5 x # y",
            "  1 = 1  two  blanks \r\n# c\n\n2 = +2 plus\n3 thru 1 = -3 minus",
            "1 = 1 a = b",
        ):
            script = f"r.reclass input=lc output=k\n{rules}\nend\nr.stats -ln input=k separator=tab"
            status, output, message = by_files(script, lc=text_of(np.ma.MaskedArray(LAND)))
            self.assertEqual((status, message), (0, ""))
            told = {
                int(line.split("\t")[0]): line.split("\t")[1]
                for line in output.decode().splitlines()
            }
            labels = planned(script, ["lc"])[0].labels
            self.assertEqual(
                {category: label for category, label in told.items() if label},
                {c: labels[c] for c in told if c in labels},
                rules,
            )

    def test_labels_of_any_rules(self) -> None:
        random = np.random.default_rng(5)
        cells = np.arange(-60, 61, dtype=np.int32).reshape(1, -1)
        for _ in range(20):
            rules = []
            for at in range(int(random.integers(1, 8))):
                first, last, output = random.integers(-50, 51, 3).tolist()
                left = str(
                    random.choice([f"{first}", f"{first} thru {last}", f"{first} {last}", "*"])
                )
                rules.append(
                    f"{left} = {random.choice([output, 1, 2])}{random.choice(['', f' label {at}'])}"
                )
            script = "\n".join(["r.reclass input=lc output=k", *rules, "end"])
            land = protocol.Map("lc", "i32", [protocol.Block(cells.data)])
            given = protocol.Maps(("1", "0", "121", "0"), 1, 121, [land])
            words = f"{script}\nr.stats -l -n input=k".encode()
            [table] = protocol.run(find_pipe(), given, words)
            assert isinstance(table, protocol.TableFrame) and table.labels is not None
            told = {
                category: label.decode()
                for category, label in zip(table.cells.tolist(), table.labels)
                if label
            }
            labels = planned(script, ["lc"])[0].labels
            self.assertEqual(
                {
                    category: labels[category]
                    for category in table.cells.tolist()
                    if category in labels
                },
                told,
                script,
            )

    def test_texts_of_the_printed_table_change_no_value(self) -> None:
        script = (
            "\n".join(
                f"r.stats -c input=lc,lc null_value={text}" for text in ("end", "1", "-9", "*")
            )
            + "\nr.stats -l input=lc,lc separator=e null_value=d"
        )
        script += (
            "\nr.stats -1nl input=lc,lc separator=1 null_value=1\nr.out.ascii input=lc null_value=2"
        )
        result = rcell.run(script, lc=rcell.Raster(LAND, nodata=0, labels={1: "end"}))
        tables = result.tables
        self.assertEqual([rows_of(table)[-1] for table in tables[:4]], [(None, None, 1)] * 4)
        self.assertEqual(
            [rows_of(tables[4])[0], rows_of(tables[5])[0], len(tables[5])],
            [(1, "end", 1, "end"), (1, "end", 1, "end"), 11],
        )
        self.assertEqual(result.grids["lc"].array.tolist()[0], [1, 1, 2, None])

    def test_the_longest_script(self) -> None:
        script = "r.stats -c input=lc\n" * 3 + "#" * 60_000 + "\n"
        script += ("#" * 65_000 + "\n") * 15
        script += "#" * (1_048_576 - len(script.encode()))
        self.assertEqual(len(rcell.run(script, lc=LAND)), 3)
        with self.assertRaises(rcell.Refused) as caught:
            rcell.run(script + "#", lc=LAND)
        self.assertEqual(
            (str(caught.exception), caught.exception.line), ("script: script too long", 0)
        )

    def test_rules_without_an_end(self) -> None:
        for lines in ("", "r.stats -1 input=lc\n"):
            with self.assertRaises(rcell.Refused) as caught:
                rcell.grid(f"{lines}r.reclass input=lc output=k\n1 = 1", "k", lc=LAND)
            self.assertEqual(
                (caught.exception.text, caught.exception.line), ("missing end", 2 if lines else 1)
            )


def done(*fields: Any) -> str:
    """Return a response without a table, for printf, with its status fields."""
    *numbers, told = fields
    text = str(told)
    return (
        "RCELLA1\\nDONE"
        + "".join(
            f"\\{byte:03o}"
            for number in (*numbers, len(text))
            for byte in number.to_bytes(8, "little")
        )
        + text
    )


class Programs(unittest.TestCase):
    def setUp(self) -> None:
        self.before = set(os.listdir("/proc/self/fd"))

    def tearDown(self) -> None:
        self.assertEqual(set(os.listdir("/proc/self/fd")), self.before, "a pipe was left open")
        with self.assertRaises(ChildProcessError):
            os.waitpid(-1, os.WNOHANG)

    def program(self, body: str, name: str = "rcell") -> Any:
        """Write a shell script that replaces rcell or rcell-pipe."""
        folder = tempfile.TemporaryDirectory()
        self.addCleanup(folder.cleanup)
        path = f"{folder.name}/{name}"
        with open(path, "w") as file:
            file.write(f"#!/bin/sh\n{body}\n")
        os.chmod(path, 0o755)
        return path

    def run_with(self, body: str, script: str = "r.stats -c input=lc", given: Any = LAND) -> Any:
        """Run a script with a shell script in place of rcell-pipe."""
        from rcell.core import programs

        path = self.program(body, "rcell-pipe")
        state = os.stat(path)
        programs._known[path] = (state.st_ino, state.st_size, state.st_mtime_ns)
        return execute(script, {"lc": rcell.Raster(given).source("lc")}, program=path)

    def test_what_is_slow_to_import_waits_for_its_use(self) -> None:
        names = (
            "pandas",
            "rasterio",
            "xarray",
            "dask",
            "importlib.metadata",
            "numpy.typing",
            "difflib",
        )
        code = (
            f"import sys, rcell; print([name for name in {names} if name in sys.modules], "
            "rcell.__version__ != '')"
        )
        ran = subprocess.run([sys.executable, "-c", code], capture_output=True, text=True)
        self.assertEqual((ran.stdout, ran.stderr), ("[] True\n", ""))

    def test_missing(self) -> None:
        for find in (find_program, find_pipe):
            with self.assertRaises(rcell.MissingProgram):
                find("/nowhere/rcell")
            with tempfile.NamedTemporaryFile() as file, self.assertRaises(rcell.MissingProgram):
                find(file.name)
            path = self.program("")
            with open(path, "w") as file_of_program:
                file_of_program.write("no program")
            with self.assertRaises(rcell.MissingProgram):
                find(path)

    def test_rcell_pipe_needs_no_rcell(self) -> None:
        with tempfile.TemporaryDirectory() as folder:
            os.symlink(find_pipe(), f"{folder}/rcell-pipe")
            with open(f"{folder}/grid", "wb") as file:
                file.write(text_of(np.ma.MaskedArray(LAND)))
            code = (
                "import sys, rcell; rcell.run('r.stats -c input=a', a=[[1, 1]]); "
                "print(rcell.run('r.stats -c input=a', a=sys.argv[1])[0].values.tolist())"
            )
            ran = subprocess.run(
                [sys.executable, "-c", code, f"{folder}/grid"],
                env={"PATH": folder, "PYTHONPATH": os.pathsep.join(sys.path)},
                capture_output=True,
                text=True,
            )
        self.assertEqual((ran.stdout, ran.stderr), ("[[0, 1], [1, 5], [2, 4], [3, 2]]\n", ""))

    def test_nowhere(self) -> None:
        code = (
            "import os, rcell.core.programs as p\np.sysconfig.get_path = lambda *_: "
            "'/nowhere'\np.sys.executable = '/nowhere/python'\n"
        )
        tried = (
            "for find in (p.find_program, p.find_pipe):\n    try: find()\n    except "
            "p.MissingProgram as e: print(e)"
        )
        environment = {"PATH": "/nowhere", "PYTHONPATH": os.pathsep.join(sys.path)}
        ran = subprocess.run(
            [sys.executable, "-c", code + tried], env=environment, capture_output=True, text=True
        )
        self.assertEqual(
            ran.stdout.splitlines(),
            [
                "the program rcell was not found next to Python or on PATH: install it, or set the "
                "environment variable RCELL to its path",
                "the program rcell-pipe was not found next to Python or on PATH: install it, or "
                "set the environment variable RCELL_PIPE to its path",
            ],
            ran.stderr,
        )

    def test_wrong(self) -> None:
        for body in (
            "exit 0",
            "echo 7 1 1",
            "exit 3",
            "yes",
            "yes x | head -c 3000000 >&2; exit 1",
        ):
            with self.subTest(body=body), self.assertRaises(rcell.WrongProgram):
                find_program(self.program(body))
            if body != "yes":
                with self.assertRaises(rcell.WrongProgram):
                    find_pipe(self.program(body))

    def test_killed(self) -> None:
        for signal, told in (
            (9, "SIGKILL): memory ran out"),
            (15, "SIGTERM): someone ended the program"),
        ):
            with self.assertRaises(rcell.Killed) as caught:
                self.run_with(f"kill -{signal} $$")
            self.assertIn(told, str(caught.exception))

    def test_killed_in_the_middle(self) -> None:
        with self.assertRaises(rcell.Killed):
            self.run_with(
                "head -c 100000 > /dev/null; kill -9 $$", given=np.ones((2_000, 2_000), np.uint8)
            )

    def test_out_of_memory(self) -> None:
        for line, content in ((1, "r.stats -c input=lc"), (0, None)):
            with self.assertRaises(rcell.OutOfMemory) as caught:
                self.run_with(f"printf '{done(3, 0, 0, line, 0, 'no memory')}'; exit 3")
            self.assertEqual(
                (caught.exception.status, caught.exception.line, caught.exception.content),
                (3, line, content),
            )

    def test_rejected_while_it_is_read(self) -> None:
        with self.assertRaises(rcell.Refused) as caught:
            self.run_with(
                f"printf '{done(1, 1, 0, 7, 0, 'cell out of range')}'; exit 1",
                given=np.ones((2_000, 2_000), np.uint8),
            )
        self.assertEqual(str(caught.exception), "lc, line 7: cell out of range")

    def test_an_answer_that_is_not_understood(self) -> None:
        bodies = [
            "cat > /dev/null; echo 1 2 3",
            "echo x; exit 7",
            "echo",
            "exit 0",
            f"printf '{done(1, 2, 0, 1, 0, 'bad')}'",
            f"printf '{done(0, 0, 0, 0, 0, '')}x'",
        ]
        for body in bodies:
            with self.subTest(body=body), self.assertRaises(rcell.WrongProgram):
                self.run_with(body, "r.stats -c input=lc\nr.out.ascii input=lc")

    def test_an_array_that_fails_on_the_way(self) -> None:
        cells = np.ones((3_000, 2_000))
        cells[2_500, 7] = 0.5
        with self.assertRaises(rcell.BadMap) as caught:
            rcell.run("r.stats -c input=lc", lc=cells)
        self.assertEqual((caught.exception.row, caught.exception.col), (2_501, 8))

    def test_refused_before_it_is_read(self) -> None:
        with self.assertRaises(rcell.BadArgument) as caught:
            rcell.run("", {"no-name": np.ones((3_000, 2_000), np.uint8)})
        self.assertIn("got 'no-name': write no_name", caught.exception.text)


class Texts(unittest.TestCase):
    def file(self, text: bytes) -> str:
        folder = tempfile.TemporaryDirectory()
        self.addCleanup(folder.cleanup)
        with open(f"{folder.name}/g", "wb") as file:
            file.write(text)
        return f"{folder.name}/g"

    def test_a_grid_goes_as_it_is(self) -> None:
        text = (
            b"rows: 1\ncols: 3\nnorth: 10.50\nsouth: -.25\neast: 4.\nwest: +0\nnull: "
            b"-9\nmultiplier: 3\n-9 9 -2\n"
        )
        path = self.file(text)
        grid = rcell.grid("r.clump input=g output=k", "g", g=path)
        self.assertEqual(
            (grid.array.tolist(), grid.region),
            ([[None, 27, -6]], rcell.Region(10.5, -0.25, 4, 0, 1, 3)),
        )
        self.assertEqual(rows_of(rcell.patches(path))[0][:3], (1, 27, 1))

    def test_ways_to_write_a_grid(self) -> None:
        head = "north: 1\nsouth: 0\neast: 3\nwest: 0\nrows: 1\ncols: 3\n"
        for text, wanted in (
            (head + "7 * -300\n", [7, None, -300]),
            (head + "7\n*\n254", [7, None, 254]),
            (head + "7 * 255", [7, None, 255]),
            (head + "type: int\nnull: no\n7 no +012", [7, None, 12]),
            ("\n \n" + head.replace(": ", ":") + "\t7  * \r\n 12\n\n", [7, None, 12]),
            ((head + "7 * 12\n").replace("\n", "\r\n"), [7, None, 12]),
            (
                "multiplier: -2\n" + head.replace("cols: ", "cols:\t+00") + "7 * 12",
                [-14, None, -24],
            ),
            (head + "2147483647 * -2147483647", [2**31 - 1, None, 1 - 2**31]),
        ):
            with self.subTest(text=text):
                path = self.file(text.encode())
                self.assertEqual(rcell.grid("", "g", g=path).array.tolist(), [wanted])
                self.assertEqual(
                    rows_of(rcell.table("r.stats -1 input=g", g=path)), [(each,) for each in wanted]
                )

    def test_labels_and_the_region(self) -> None:
        text = b"north: 10.00000001\nsouth: -.5\neast: +4.\nwest: 0003\nrows: 2\ncols: 1\n1\n2"
        path = self.file(text)
        self.assertEqual(
            rcell.grid("", "g", g=path).region.edges, ("10.00000001", "-0.5", "4", "3")
        )
        table = rcell.composition(path, labels={1: "wood", 2: "moor"}, area=None)
        self.assertEqual(table["label"].tolist(), ["wood", "moor"])

    def test_a_scale_applies_to_a_grid(self) -> None:
        grid = text_of(np.ma.MaskedArray(LAND))
        for values in (LAND, LAND * np.int32(300)):
            path = self.file(text_of(np.ma.MaskedArray(values)))
            with warnings.catch_warnings():
                warnings.simplefilter("ignore")  # about rounding
                found = rcell.zonal(path, self.file(grid), scale=10)
                wanted = rcell.zonal(values.astype(float), LAND, scale=10)
            self.assertTrue(found.equals(wanted))

    def test_many_rows_and_tiles(self) -> None:
        cells = np.arange(65_535 * 3).reshape(-1, 3) % 300
        path = self.file(text_of(np.ma.MaskedArray(cells)))
        self.assertEqual(rcell.grid("", "g", g=path).array.tolist(), cells.tolist())
        with working(size=(1_000, 2)):
            patches = len(rcell.patches(path))
        self.assertEqual(patches, len(rcell.patches(cells)))

    def test_a_file_that_changes(self) -> None:
        text = text_of(np.ma.MaskedArray(LAND))
        path = self.file(text)
        source = open_path("g", path)
        assert isinstance(source, TextMap)
        with source.file.maps() as maps, open(path, "r+b") as file:
            [grid] = maps.maps
            file.truncate(50)
            with self.assertRaises(rcell.ReadFailed) as caught:
                list(grid.pieces(3, 4))
        size = f"{path} was shortened from {len(text)} to 50 bytes while it was read"
        self.assertEqual(
            (caught.exception.source, caught.exception.status, caught.exception.text),
            ("g", 4, f"read failed: {size}"),
        )
        with self.assertRaises(rcell.Refused) as refused:
            list(source.blocks())
        self.assertEqual((refused.exception.line, refused.exception.text), (7, "too few cells"))
        with open(path, "wb") as file:
            file.write(text.replace(b"north: 3", b"north: 4"))
        with self.assertRaises(rcell.Refused) as refused:
            list(source.blocks())
        self.assertEqual((refused.exception.source, refused.exception.text), ("g", "other region"))
        os.unlink(path)
        with self.assertRaises(rcell.ReadFailed) as caught:
            list(source.blocks())
        self.assertEqual(caught.exception.text, f"cannot open: {path}: No such file or directory")

    def test_with_an_array_beside_it(self) -> None:
        grid = rcell.Raster(LAND)
        self.assertEqual(
            len(rcell.run("r.stats -c input=a,b", a=self.file(grid.text()), b=LAND).tables[0]), 4
        )
        with self.assertRaises(rcell.OtherRegion):
            rcell.run("", a=self.file(grid.text()), b=LAND[:2])

    def test_a_pipe_of_a_grid(self) -> None:
        text = text_of(np.ma.MaskedArray(np.arange(90_000).reshape(300, 300)))
        reader, writer = os.pipe()

        def write() -> None:
            for start, end in (
                *((at, at + 1) for at in range(10)),
                *((at, at + 50_000) for at in range(10, len(text), 50_000)),
            ):
                os.write(writer, text[start:end])
            os.close(writer)

        thread = threading.Thread(target=write)
        thread.start()
        self.assertEqual(
            rcell.grid("", "g", g=f"/dev/fd/{reader}").array.tolist(),
            np.arange(90_000).reshape(300, 300).tolist(),
        )
        thread.join()
        os.close(reader)

    def refusal(self, path: str) -> rcell.Refused:
        with self.assertRaises(rcell.Refused) as caught:
            rcell.run("", g=path)
        self.assertEqual((caught.exception.source, caught.exception.status), ("g", 1))
        return caught.exception

    def test_errors_have_a_line(self) -> None:
        head = "rows: 1\ncols: 2\nnorth: 1\nsouth: 0\neast: 2\nwest: 0\n"
        for text, line, told in (
            ("north: 3\nsouth: x\n1 2", 2, "bad number"),
            ("north: 3\nNORTH: 3\n1", 2, "bad header line"),
            ("north: 3\nnorth: 3\n1", 2, "key given twice"),
            ("north: 1\n", 2, "missing key"),
            (head + "type: float\n1 2", 7, "type not supported"),
            (head.replace("rows: 1", "rows: 70000") + "1", 7, "bad region"),
            (head.replace("north: 1", "north: 0.0") + "1", 7, "bad region"),
            (head.replace("north: 1", "north: 1e5") + "1", 3, "bad number"),
            (head.replace("north: 1", "north: 1.000000001") + "1", 3, "bad number"),
            (head + "1 x", 7, "bad cell"),
            (head + "1\n\n2147483648", 9, "cell out of range"),
            (head + "multiplier: 2\n1 1073741824", 8, "cell out of range"),
            (head + "1\n", 8, "too few cells"),
            (head + "1 2\n3", 8, "too many cells"),
            (head + "1 " + "2" * 65, 7, "token too long"),
        ):
            with self.subTest(text=text):
                path = self.file(text.encode())
                found = self.refusal(path)
                self.assertEqual((found.line, found.text), (line, told))
                status, _, message = by_files("", g=text.encode())
                self.assertEqual((status, message), (1, f"rcell: g:{line}: {told}\n"))

    def test_no_memory_for_a_grid(self) -> None:
        path = self.file(text_of(np.ma.MaskedArray(np.full((3_000, 3_000), 7))))
        program = f"{os.path.dirname(path)}/rcell-pipe"
        with open(program, "w") as file:
            file.write(f"#!/bin/sh\nulimit -v 30000\nexec {find_pipe()}\n")
        os.chmod(program, 0o755)
        with mock.patch.dict(os.environ, RCELL_PIPE=program):
            with self.assertRaises(rcell.OutOfMemory) as caught:
                rcell.run("r.stats -c input=g", g=path)
        self.assertEqual(str(caught.exception), "g: no memory")

    def test_the_error_of_a_pipe(self) -> None:
        reader, writer = os.pipe()
        os.write(writer, b"north: 3\nsouth: x\n1 2")
        os.close(writer)
        found = self.refusal(f"/dev/fd/{reader}")
        os.close(reader)
        self.assertEqual((found.line, found.text), (2, "bad number"))

    def test_no_such_file(self) -> None:
        with self.assertRaises(rcell.ReadFailed) as caught:
            rcell.run("", g="/nowhere/g")
        self.assertEqual(
            (str(caught.exception), caught.exception.status),
            ("g: cannot open: /nowhere/g: No such file or directory", 4),
        )

    def test_a_pipe_that_is_no_grid(self) -> None:
        with self.assertRaises(rcell.BadMap):
            rcell.run("", g="/dev/null")


class Files(unittest.TestCase):
    grid = rcell.Raster(LAND)

    def test_written_and_read(self) -> None:
        with tempfile.TemporaryDirectory() as folder:
            path = self.grid.write(f"{folder}/lc.txt")
            self.assertEqual(rcell.grid("", "lc", lc=path).array.tolist(), LAND.tolist())
            self.assertEqual(os.listdir(folder), ["lc.txt"])

    def test_nothing_half_written(self) -> None:
        with self.assertRaises(rcell.WriteFailed):
            self.grid.write("/nowhere/lc.txt")
        with self.assertRaises(rcell.BadArgument):
            self.grid.write("lc.png")
        with tempfile.TemporaryDirectory() as folder:
            os.mkdir(f"{folder}/lc.txt")
            with self.assertRaises(rcell.WriteFailed):
                self.grid.write(f"{folder}/lc.txt")
            self.assertEqual(os.listdir(folder), ["lc.txt"])

    def test_a_full_disk(self) -> None:
        code = (
            "import resource, signal, sys, rcell, numpy as np\nsignal.signal(signal.SIGXFSZ, "
            "signal.SIG_IGN)\nresource.setrlimit(resource.RLIMIT_FSIZE, (1000, 1000))\n"
            "try: rcell.Raster(np.ones((99, 99), int)).write(sys.argv[1])\n"
            "except rcell.WriteFailed as e: print('full', end='')"
        )
        with tempfile.TemporaryDirectory() as folder:
            environment = {**os.environ, "PYTHONPATH": os.pathsep.join(sys.path)}
            ran = subprocess.run(
                [sys.executable, "-c", code, f"{folder}/x.txt"],
                capture_output=True,
                text=True,
                env=environment,
            )
            self.assertEqual((ran.stdout, os.listdir(folder)), ("full", []), ran.stderr)


if __name__ == "__main__":
    unittest.main()

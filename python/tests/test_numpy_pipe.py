"""Compare rcell-pipe's bytes with docs/pipe.md and with the program; needs only numpy."""

from __future__ import annotations

import os
import random
import resource
import struct
import subprocess
import tempfile
import time
import unittest
from array import array
from typing import Any, Iterator

import numpy as np

from rcell.core.programs import find_pipe, find_program
from rcell.core import protocol

EDGES = ("2", "0", "3.5", "-.5")
LAND = bytes([1, 1, 2, 255, 2, 2])
MAGIC = b"RCELLA1\n"


def a_map(**words: Any) -> protocol.Map:
    given: dict[str, Any] = {
        "name": "lc",
        "type": "u8",
        "blocks": [protocol.Block(LAND)],
        **words,
    }
    return protocol.Map(**given)


def maps_of(*maps: protocol.Map, rows: int = 2, cols: int = 3) -> protocol.Maps:
    return protocol.Maps(EDGES, rows, cols, maps)


def text(given: bytes) -> bytes:
    return struct.pack("<Q", len(given)) + given


DONE = b"DONE" + struct.pack("<5Q", 0, 0, 0, 0, 0) + text(b"")
TABLE = (
    b"TABL"
    + struct.pack("<3Q", 4, 2, 1)
    + b"\1\1;"
    + text(b"NA")
    + text(b"lc")
    + struct.pack("<2Q2i", 5, 2**40, -7, protocol.NULL)
    + text(b"wood")
    + text(b"no data")
)
GRID = (
    b"GRID"
    + struct.pack("<Q", 5)
    + b"".join(map(text, (b"*", b"k", b"2", b"0", b"3.5", b"-0.5")))
    + struct.pack("<2Q", 1, 2)
    + b"\6"
    + struct.pack("<2i", 300, protocol.NULL)
)
CELLS = (
    b"CELL"
    + struct.pack("<3Q", 6, 2, 1)
    + b"\0\0 "
    + text(b"*")
    + text(b"lc")
    + struct.pack("<2i", 1, protocol.NULL)
)
PLAN = (
    b"PLAN"
    + struct.pack("<Q", 7)
    + b"\1\0"
    + text(b"k")
    + struct.pack("<Q", 1)
    + text(b"lc")
    + struct.pack("<4Q", 1, 2, 3, 4)
    + struct.pack("<Q", 2)
    + text(b"lc")
    + struct.pack("<4QB", 5, 6, 7, 8, 0)
    + text(b"ws")
    + struct.pack("<4QB", 0, 0, 0, 0, 1)
    + b"\x15"
    + struct.pack("<Q", 2)
    + text(b"k")
    + text(b"lc")
    + struct.pack("<Q2i", 2, 9, protocol.NULL)
    + struct.pack("<Qi", 3, 2)
    + text(b"first")
    + struct.pack("<i", -7)
    + text(b"wood")
    + struct.pack("<i", 2)
    + text(b"last")
)


JOIN = b"JOIN" + struct.pack("<2Q", 3, 2) + struct.pack("<8Q", 1, 1, 2, 1, 2, 1, 1, 2**33)


class Asked(unittest.TestCase):
    """A folder with shell scripts that replace the program."""

    def setUp(self) -> None:
        folder = tempfile.TemporaryDirectory()
        self.addCleanup(folder.cleanup)
        self.folder = folder.name
        self.before = set(os.listdir("/proc/self/fd"))

    def tearDown(self) -> None:
        self.assertEqual(set(os.listdir("/proc/self/fd")), self.before, "a pipe was left open")
        with self.assertRaises(ChildProcessError):
            os.waitpid(-1, os.WNOHANG)

    def program(self, body: str) -> str:
        path = f"{self.folder}/program"
        with open(path, "w") as file:
            file.write(f"#!/bin/sh\n{body}\n")
        os.chmod(path, 0o755)
        return path

    def answering(self, answer: bytes, after: str = "") -> str:
        """Write a program that stores the request and prints a response."""
        with open(f"{self.folder}/answer", "wb") as file:
            file.write(answer)
        return self.program(f"cat > {self.folder}/request\ncat {self.folder}/answer\n{after}")

    def asked(self, *maps: protocol.Map, script: bytes = b"") -> bytes:
        """Return the request of a run."""
        protocol.run(self.answering(MAGIC + DONE), maps_of(*maps), script)
        with open(f"{self.folder}/request", "rb") as file:
            return file.read()


class Requests(Asked):
    def test_each_field(self) -> None:
        found = self.asked(
            a_map(nodata=255, labels={1: "wood", -2: "ä"}), script=b"r.stats input=lc\n"
        )
        head = (
            b"RCELLQ1\n"
            + b"\0012"
            + b"\0010"
            + b"\0033.5"
            + b"\3-.5"
            + struct.pack("<III", 2, 3, 1)
            + b"\2lc"
            + struct.pack("<BBqI", 1, 1, 255, 2)
        )
        labels = struct.pack("<iH", 1, 4) + b"wood" + struct.pack("<iH", -2, 2) + "ä".encode()
        self.assertEqual(found, head + labels + LAND + b"\x11\0\0\0r.stats input=lc\n" + bytes(4))

    def test_a_question_about_a_tile(self) -> None:
        question = protocol.Question("lc", 8, 300, "z", protocol.PATCHES + protocol.BORDER)
        program, tile = self.answering(MAGIC + DONE), (9, 2**31 - 1, 3, 4, 3, 5, 2, 1)
        protocol.run(program, maps_of(a_map()), b"", [question], tile)
        with open(f"{self.folder}/request", "rb") as file:
            found = file.read()
        self.assertEqual(found[:42], b"RCELLW1\n" + struct.pack("<8I", *tile) + b"\0012")
        asked = b"\1\0\0\0\5\2lc\x08" + struct.pack("<I", 300) + b"\1z"
        self.assertTrue(found.endswith(LAND + bytes(4) + asked), found)

    def test_rows_and_masks(self) -> None:
        cells, mask = array("h", [1, -1, 300, 4, 5, 6]), bytes([0, 1, 0, 1, 1, 0])
        for blocks in (
            [protocol.Block(memoryview(cells), mask)],
            [
                protocol.Block(memoryview(cells)[:3], mask[:3]),
                protocol.Block(memoryview(cells)[3:], bytearray(mask[3:])),
            ],
        ):
            found = self.asked(a_map(type="i16", blocks=blocks, is_masked=True))
            rows = (
                struct.pack("<3h", 1, -1, 300) + mask[:3] + struct.pack("<3h", 4, 5, 6) + mask[3:]
            )
            self.assertTrue(
                found.endswith(struct.pack("<BBqI", 4, 2, 0, 0) + rows + bytes(8)), found
            )

    def test_arrays_of_every_type(self) -> None:
        for name, dtype in (
            ("u8", "u1"),
            ("i8", "i1"),
            ("u16", "u2"),
            ("i16", "i2"),
            ("u32", "u4"),
            ("i32", "i4"),
            ("i64", "i8"),
        ):
            cells = np.arange(6).astype(dtype).reshape(2, 3)
            self.assertTrue(
                self.asked(a_map(type=name, blocks=[protocol.Block(cells.data)])).endswith(
                    cells.tobytes() + bytes(8)
                )
            )
            [frame] = protocol.run(
                find_pipe(),
                maps_of(a_map(type=name, blocks=[protocol.Block(cells.data)])),
                b"r.out.ascii input=lc\n",
            )
            assert isinstance(frame, protocol.GridFrame)
            self.assertEqual(np.asarray(frame.cells).tolist(), list(range(6)))

    def test_questions(self) -> None:
        questions = [protocol.Question("lc", 4, 1), protocol.Question("k", 8, 300, "lc")]
        found = b"".join(protocol.request(maps_of(a_map()), b"", questions))
        first, second = b"\1\2lc\4\1\0\0\0\0", b"\1\1k\x08\x2c\1\0\0\2lc"
        self.assertTrue(found.endswith(b"\2\0\0\0" + first + second), found)

    def test_other_numbers_of_rows(self) -> None:
        for blocks in (
            [],
            [protocol.Block(LAND[:3])],
            [protocol.Block(LAND + LAND[:3])],
            [protocol.Block(LAND[:4]), protocol.Block(LAND[4:])],
        ):
            with self.subTest(blocks=blocks), self.assertRaisesRegex(
                ValueError, "the map lc must have 2 rows"
            ):
                self.asked(a_map(blocks=blocks))
        with self.assertRaisesRegex(ValueError, "the mask must have .* bytes; got 0"):
            self.asked(a_map(is_masked=True))


class Answers(Asked):
    def test_each_frame(self) -> None:
        table, grid, cells = protocol.run(
            self.answering(MAGIC + TABLE + GRID + CELLS + DONE), maps_of(a_map()), b""
        )
        assert (
            isinstance(table, protocol.TableFrame)
            and isinstance(grid, protocol.GridFrame)
            and isinstance(cells, protocol.TableFrame)
        )
        self.assertEqual(
            (table.line, table.names, table.separator, table.null_text, table.entries),
            (4, ("lc",), b";", b"NA", 2),
        )
        assert table.counts is not None
        self.assertEqual(
            (table.counts.tolist(), table.cells.tolist(), table.labels),
            ([5, 2**40], [-7, protocol.NULL], [b"wood", b"no data"]),
        )
        self.assertEqual(table.null_text, b"NA")
        self.assertEqual(
            (grid.line, grid.name, grid.null_text, grid.rows, grid.cols, grid.type, grid.null),
            (5, "k", b"*", 1, 2, "i32", protocol.NULL),
        )
        self.assertEqual(
            (grid.cells.tolist(), array("i", grid.cells).tolist()),
            ([300, protocol.NULL], [300, protocol.NULL]),
        )
        self.assertEqual(grid.edges, ("2", "0", "3.5", "-0.5"))
        self.assertEqual(
            (cells.line, cells.names, cells.counts, cells.cells.tolist(), cells.null_text),
            (6, ("lc",), None, [1, protocol.NULL], b"*"),
        )

    def test_patches(self) -> None:
        row = struct.pack("<i8Q", -5, 3, 4, 2, 1, 0, 1, 2, 2**33)
        for has_zones, zone in ((0, b""), (1, struct.pack("<i", protocol.NULL))):
            head = b"PTCH" + struct.pack("<QBIBQ", 7, 4, 1, has_zones, 1)
            program = self.answering(MAGIC + head + row + zone + DONE)
            [frame] = protocol.run(program, maps_of(a_map()), b"")
            assert isinstance(frame, protocol.PatchesFrame)
            self.assertEqual((frame.question, bytes(frame.rows)), (7, row + zone))

    def test_patch_numbers(self) -> None:
        head = b"NUMB" + struct.pack("<3Q", 7, 1, 3)
        wide = struct.pack("<3i", 1, protocol.NULL, 300)
        for code, kind, cells in ((1, "u8", bytes([1, 255, 2])), (6, "i32", wide)):
            program = self.answering(MAGIC + head + bytes([code]) + cells + DONE)
            [frame] = protocol.run(program, maps_of(a_map()), b"")
            assert isinstance(frame, protocol.NumbersFrame)
            self.assertEqual((frame.question, frame.rows, frame.cols, frame.type), (7, 1, 3, kind))
            self.assertEqual(bytes(frame.cells), cells)

    def test_a_statement(self) -> None:
        [found] = protocol.plan(self.answering(MAGIC + PLAN + DONE), ["lc", "ws"], b"x")
        self.assertEqual((found.line, found.command, found.made), (7, "r.mapcalc", "k"))
        self.assertEqual(
            (found.reads, found.needs), ({"lc": (1, 2, 3, 4)}, {"lc": (5, 6, 7, 8), "ws": None})
        )
        self.assertEqual(
            (found.options, found.inputs, found.after, found.text),
            ("c1N", ("k", "lc"), (9, protocol.NULL), ""),
        )
        self.assertEqual(found.labels, {-7: "wood", 2: "last"})
        with open(f"{self.folder}/request", "rb") as file:
            self.assertEqual(
                file.read(),
                b"RCELLP1\n" + struct.pack("<I", 2) + b"\2lc\2ws" + struct.pack("<I", 1) + b"x",
            )

    def test_a_join(self) -> None:
        borders: list[Any] = [array("i", [1, 1, 8, 1, 8, 1, 8, 1, 8, 1, 1]), b"tile"]
        found = protocol.join(self.answering(MAGIC + JOIN + DONE), borders, (2, 1), 8)
        self.assertEqual(found.patches, 3)
        self.assertEqual(found.runs.tolist(), [1, 1, 2, 1, 2, 1, 1, 2**33])
        with open(f"{self.folder}/request", "rb") as file:
            head = b"RCELLJ1\n" + struct.pack("<BII", 8, 2, 1)
            self.assertEqual(file.read(), head + borders[0].tobytes() + b"tile")
        for answer in (MAGIC + DONE, MAGIC + GRID + DONE, MAGIC + JOIN + JOIN + DONE):
            with self.subTest(answer=answer), self.assertRaises(protocol.NoAnswer):
                protocol.join(self.answering(answer), borders, (2, 1), 8)

    def test_a_join_of_patches(self) -> None:
        row = struct.pack("<i8Q", -5, 3, 4, 2, 1, 0, 1, 2, 2**33)
        runs = memoryview(array("Q", [1, 1, 2, 1]))
        answer = MAGIC + b"PATS" + struct.pack("<2Q", 1, 2**40) + row + DONE
        found = protocol.join_patches(self.answering(answer), runs, 1, b"tile" + row)
        self.assertEqual(bytes(found.rows), struct.pack("<Q", 2**40) + row)
        with open(f"{self.folder}/request", "rb") as file:
            head = b"RCELLJ1\n" + struct.pack("<B6Q", 2, 1, 1, 1, 2, 1, 1)
            self.assertEqual(file.read(), head + b"tile" + row)
        for answer in (MAGIC + DONE, MAGIC + JOIN + DONE):
            with self.subTest(answer=answer), self.assertRaises(protocol.NoAnswer):
                protocol.join_patches(self.answering(answer), runs, 1, row)

    def test_a_join_of_patch_tables(self) -> None:
        runs = memoryview(array("Q", [1, 1, 2, 1]))
        numbers, counts, cells = (
            array("Q", [0, 2**40]),
            array("Q", [3, 2**33]),
            array("i", [-5, 7]),
        )
        sums = struct.pack("<2Q", 2, 2) + b"".join(it.tobytes() for it in (numbers, counts, cells))
        answer = MAGIC + b"PSUM" + sums + DONE
        table = 1, memoryview(array("Q", [3])), memoryview(array("i", [2, -5]))
        found = protocol.sum_patch_tables(self.answering(answer), runs, 2, [table])
        self.assertEqual(found.maps, 2)
        self.assertEqual(found.numbers.tolist(), numbers.tolist())
        self.assertEqual(found.counts.tolist(), counts.tolist())
        self.assertEqual(found.cells.tolist(), cells.tolist())
        with open(f"{self.folder}/request", "rb") as file:
            head = b"RCELLJ1\n" + struct.pack("<B5QBI", 3, 1, 1, 1, 2, 1, 2, 1)
            self.assertEqual(file.read(), head + struct.pack("<3Q2i", 1, 1, 3, 2, -5))
        for answer in (MAGIC + DONE, MAGIC + JOIN + DONE):
            with self.subTest(answer=answer), self.assertRaises(protocol.NoAnswer):
                protocol.sum_patch_tables(self.answering(answer), runs, 2, [table])

    def test_what_is_cut_or_goes_on_is_no_answer(self) -> None:
        answer = MAGIC + TABLE + GRID + CELLS + PLAN + JOIN + DONE
        for given in [
            *(answer[:end] for end in range(0, len(answer), 7)),
            answer + b"\0",
            b"RCELLA2\n" + DONE,
            MAGIC + b"TEXT" + DONE,
        ]:
            with self.subTest(given=given), self.assertRaises(protocol.NoAnswer):
                protocol.run(self.answering(given), maps_of(a_map()), b"")
        with self.assertRaisesRegex(protocol.NoAnswer, "ended with status 4 and printed: nothing"):
            protocol.run(self.answering(answer, "exit 4"), maps_of(a_map()), b"")

    def test_a_program_that_stops_reading(self) -> None:
        end = b"DONE" + struct.pack("<5Q", 1, 1, 1, 9, 0) + text(b"cell out of range")
        blocks = iter([protocol.Block(bytes(9_000_000))] + [protocol.Block(b"x")] * 3)
        large = maps_of(a_map(blocks=blocks), rows=3_000, cols=3_000)
        with open(f"{self.folder}/answer", "wb") as file:
            file.write(MAGIC + end)
        with self.assertRaises(protocol.Rejected) as caught:
            protocol.run(
                self.program(f"head -c 100000 > /dev/null; cat {self.folder}/answer; exit 1"),
                large,
                b"",
            )
        found = caught.exception
        self.assertEqual(
            (found.status, found.source, found.map, found.line, found.column, found.text),
            (1, "request", 1, 9, 0, "cell out of range"),
        )

    def test_endings(self) -> None:
        with self.assertRaises(protocol.Killed) as caught:
            protocol.run(self.program("kill -15 $$"), maps_of(a_map()), b"")
        self.assertEqual(caught.exception.args, (15,))
        with self.assertRaises(TimeoutError):
            protocol.run(self.program("exec sleep 60"), maps_of(a_map()), b"", seconds=0.3)
        with self.assertRaisesRegex(
            protocol.NotStarted, "No such file or directory: '/nowhere/rcell-pipe'"
        ):
            protocol.run("/nowhere/rcell-pipe", maps_of(a_map()), b"")

    def test_who_waits_may_end_it(self) -> None:
        def raising() -> Iterator[protocol.Block]:
            yield protocol.Block(LAND[:3])
            raise KeyError("blocks")

        with self.assertRaises(KeyError):
            protocol.run(self.answering(b""), maps_of(a_map(blocks=raising())), b"")
        began = time.monotonic()

        def watch() -> None:
            if time.monotonic() > began + 0.5:
                raise KeyError("watch")

        large = maps_of(a_map(blocks=[protocol.Block(bytes(9_000_000))]), rows=3_000, cols=3_000)
        for given in (maps_of(a_map()), large):
            with self.assertRaises(KeyError):
                protocol.run(self.program("exec sleep 60"), given, b"", watch=watch)
        self.assertLess(time.monotonic(), began + 30)

    def test_a_caller_that_has_many_files_open(self) -> None:
        limits = resource.getrlimit(resource.RLIMIT_NOFILE)
        resource.setrlimit(resource.RLIMIT_NOFILE, (min(2_048, limits[1]), limits[1]))
        held = [os.open("/dev/null", os.O_RDONLY) for _ in range(1_100)]
        try:
            large = maps_of(
                a_map(blocks=[protocol.Block(bytes(9_000_000))]), rows=3_000, cols=3_000
            )
            [table] = protocol.run(find_pipe(), large, b"r.stats -c input=lc\n", watch=lambda: None)
        finally:
            for descriptor in held:
                os.close(descriptor)
            resource.setrlimit(resource.RLIMIT_NOFILE, limits)
        assert isinstance(table, protocol.TableFrame) and table.counts is not None
        self.assertEqual(table.counts.tolist(), [9_000_000])


class Texts(Asked):
    def test_rows_are_those_of_a_grid(self) -> None:
        chance = np.random.default_rng(2)
        for rows, cols in ((1, 1), (3, 5), (20, 20_000)):
            for kind, dtype, null, low, high in (
                ("u8", "u1", 255, 0, 256),
                ("i32", "i4", protocol.NULL, -3, 12),
                ("i32", "i4", -9, -(2**31) + 1, 2**31),
            ):
                cells = np.where(
                    chance.random((rows, cols)) < 0.1,
                    null,
                    chance.integers(low, high, (rows, cols)),
                ).astype(dtype)
                land = protocol.Map("land", kind, [protocol.Block(cells.data)], null)
                edges = f"{rows}.5", "0.50", f"{cols}", "-0"
                maps = protocol.Maps(edges, rows, cols, [land])
                wanted = (
                    f"north: {rows}.5\nsouth: 0.5\neast: {cols}\nwest: 0\nrows: {rows}\ncols: "
                    f"{cols}\n"
                )
                wanted += "".join(
                    " ".join("*" if cell == null else str(cell) for cell in row) + "\n"
                    for row in cells.tolist()
                )
                self.assertEqual(
                    b"".join(protocol.text(find_pipe(), maps, b"r.out.ascii input=land")),
                    wanted.encode(),
                )

    def test_text_is_all_that_comes(self) -> None:
        for given in (b"", b"RCELLA1\nDON", MAGIC + DONE + b"7\n", b"7\n" * 300_000 + MAGIC + DONE):
            self.assertEqual(
                b"".join(protocol.text(self.answering(given), maps_of(a_map()), b"")), given
            )

    def test_rejections(self) -> None:
        rejection = MAGIC + b"DONE" + struct.pack("<5Q", 1, 2, 0, 3, 0) + text(b"unknown map")
        for given, status, wanted in (
            (rejection, 1, (1, "script", 3, "unknown map")),
            (rejection, 3, (3, "", 0, "no memory")),
            (b"7\n", 3, (3, "", 0, "no memory")),
        ):
            with self.assertRaises(protocol.Rejected) as caught:
                list(protocol.text(self.answering(given, f"exit {status}"), maps_of(a_map()), b""))
            found = caught.exception
            self.assertEqual((found.status, found.source, found.line, found.text), wanted)
        for given, status in ((b"7\n", 1), (rejection, 4), (rejection[:-1], 1)):
            with self.assertRaises(protocol.NoAnswer):
                list(protocol.text(self.answering(given, f"exit {status}"), maps_of(a_map()), b""))


class Runs(unittest.TestCase):
    def test_tables_are_printed_as_rcell_prints_them(self) -> None:
        chance = random.Random(5)
        for _ in range(20):
            cells = [chance.choice([1, 2, -30, 400, 2**31 - 1, protocol.NULL]) for _ in range(12)]
            maps = [
                a_map(
                    name=name,
                    type="i32",
                    nodata=protocol.NULL,
                    blocks=[protocol.Block(memoryview(array("i", part)))],
                )
                for name, part in (("a", cells), ("b", cells[::-1]))
            ]
            flags, more = chance.choice(
                ["c", "cl", "l", "cn", "cN", "n", "1", "1l", "1n", "1N"]
            ), chance.choice(["", " separator=comma null_value=NA", " separator=tab", " after=1,*"])
            more = "" if "1" in flags and "after" in more else more
            script = (
                f"r.reclass input=a output=k\n1 = 1 wood\n* = *\nend\nr.stats -{flags} "
                f"input=k,b{more}\n"
            ).encode()
            with tempfile.TemporaryDirectory() as folder:
                words = []
                for name, part in (("a", cells), ("b", cells[::-1])):
                    rows = " ".join("*" if cell == protocol.NULL else str(cell) for cell in part)
                    with open(f"{folder}/{name}", "w") as file:
                        file.write(
                            f"north: 2\nsouth: 0\neast: 3.5\nwest: -.5\nrows: 3\ncols: 4\n{rows}\n"
                        )
                    words.append(f"{name}={folder}/{name}")
                with open(f"{folder}/script", "wb") as script_file:
                    script_file.write(script)
                wanted = subprocess.run(
                    [find_program(), f"{folder}/script", *words], capture_output=True, check=True
                ).stdout
            found = protocol.text(find_pipe(), maps_of(*maps, rows=3, cols=4), script)
            self.assertEqual(b"".join(found), wanted)

    def test_plans(self) -> None:
        script = (
            "r.mapcalc x = row()\n\tr.stats -c -n\tinput=a,b after=1,* \r\n# r.stats -1 input=z\nr.reclass input=a output=d\n1 = 1 wood\n2 = 1 grove\nend\n"
            "r.clump output=k -d input=c\n r.mapcalc y = d[1,0] + k\nr.stats -1N\tinput=b,a,b -l \r"
        )
        found = protocol.plan(find_pipe(), ["a", "b", "c"], script.encode())
        self.assertEqual(
            [(one.line, one.command, one.made, one.inputs, one.options) for one in found],
            [
                (1, "r.mapcalc", "x", (), ""),
                (2, "r.stats", "", ("a", "b"), "cn"),
                (4, "r.reclass", "d", ("a",), ""),
                (8, "r.clump", "k", ("c",), ""),
                (9, "r.mapcalc", "y", (), ""),
                (10, "r.stats", "", ("b", "a", "b"), "l1N"),
            ],
        )
        self.assertEqual([one.labels for one in found], [{}, {}, {1: "grove"}, {}, {}, {}])
        self.assertEqual(
            (found[1].after, found[2].text, found[5].text),
            (
                (1, protocol.NULL),
                "r.reclass input=a output=d\n1 = 1 wood\n2 = 1 grove\nend",
                "r.stats -1N\tinput=b,a,b -l \r",
            ),
        )
        self.assertEqual(
            (found[4].reads, found[4].needs),
            ({"d": (0, 1, 0, 0), "k": (0, 0, 0, 0)}, {"a": (0, 1, 0, 0), "c": None}),
        )

    def test_rejections(self) -> None:
        numbers = a_map(
            name="n",
            type="i64",
            blocks=[protocol.Block(memoryview(array("q", [1, 2, 3, 4, 2**31, 6])))],
        )
        for maps, script, told in (
            ([a_map(), numbers], b"", (1, "request", 1, 2, 0, "cell out of range")),
            (
                [a_map()],
                b"\nr.mapcalc x = lc * 0.5",
                (1, "script", 0, 2, 20, "number not whole at column 20"),
            ),
            ([a_map()], b"r.stats -c", (1, "script", 0, 1, 0, "missing option")),
            ([a_map(), a_map()], b"", (1, "request", 1, 0, 0, "name used twice")),
        ):
            with self.subTest(told=told), self.assertRaises(protocol.Rejected) as caught:
                protocol.run(find_pipe(), maps_of(*maps), script)
            self.assertEqual(caught.exception.args, told)
        with self.assertRaises(protocol.Rejected) as caught:
            protocol.plan(find_pipe(), ["lc"], b"\nr.mapcalc x = lc * 0.5")
        self.assertEqual(
            caught.exception.args, (1, "script", 0, 2, 20, "number not whole at column 20")
        )


if __name__ == "__main__":
    unittest.main()

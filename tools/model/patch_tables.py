"""Add up tables whose first column is the patch in its tile, as docs/pipe.md defines it."""
from __future__ import annotations

import dataclasses
import random
import struct
from dataclasses import dataclass
from typing import Iterator, Optional

from joined_patches import MAGIC, MOST, NULL, Run, full_map_number

KIND = 3
MOST_TABLES = 2**32 - 2

Cell = Optional[int]
Line = tuple[Cell, ...]
Entry = tuple[Line, int]  # a combination and its count
Table = tuple[int, tuple[Entry, ...]]  # a tile, and the entries of its table
Sum = tuple[int, Line, int]  # the number in the full map or 0, the other cells, and the count


@dataclass(frozen=True)
class PatchTables:
    """A join request: the runs of a numbering, the number of maps, and a table of each tile."""

    runs: tuple[Run, ...]
    width: int
    tables: tuple[Table, ...]

    def data(self) -> bytes:
        out = MAGIC + struct.pack("<BQ", KIND, len(self.runs))
        out += b"".join(struct.pack("<4Q", *run) for run in self.runs)
        out += struct.pack("<BI", self.width, len(self.tables))
        for tile, table in self.tables:
            cells = [NULL if cell is None else cell for line, _ in table for cell in line]
            out += struct.pack("<2Q", tile, len(table))
            out += struct.pack(f"<{len(table)}Q{len(cells)}i", *(it for _, it in table), *cells)
        return out


def number_of(runs: tuple[Run, ...], tile: int, patch: Cell) -> Optional[int]:
    """Return the number of a cell's patch in the full map, 0 for null, or None if no run has it."""
    return 0 if patch is None else full_map_number(runs, tile, patch)


def patch_sums(request: PatchTables) -> list[Sum]:
    """Return each pair of a number and the other cells once, in order and with null last, with the
    sum of its counts."""
    sums: dict[tuple[int, Line], int] = {}
    for tile, table in request.tables:
        for (patch, *others), count in table:
            number = number_of(request.runs, tile, patch)
            if number is None:
                raise ValueError(f"no patch: {patch}")
            sums[number, tuple(others)] = sums.get((number, tuple(others)), 0) + count

    def place(key: tuple[int, Line]) -> tuple[int, list[tuple[bool, int]]]:
        return key[0], [(cell is None, cell or 0) for cell in key[1]]

    return [(*key, sums[key]) for key in sorted(sums, key=place)]


# Requests to try

# Tile 2 is listed twice, and patches 1 of tile 1 and 2 of tile 2 are one patch of the full map.
TWO_TILES = PatchTables(
    ((1, 1, 1, 2), (2, 1, 3, 1), (7, 2**31 - 1, 2**40, 2**63)),
    2,
    (
        (2, (((3, 5), 1), ((2, None), 4), ((2, -7), 2**40), ((None, 5), 9))),
        (1, (((None, None), 2), ((1, -7), 3))),
        (7, (((2**31 - 1, 0), 6),)),
        (2, (((2, None), 5), ((1, 1), 1), ((2, None), 1))),
        (9, (((None, 5), 1),)),
    ),
)
SUMS_OF_TWO_TILES = [
    (0, (5,), 10),
    (0, (None,), 2),
    (1, (1,), 1),
    (2, (-7,), 2**40 + 3),
    (2, (None,), 10),
    (3, (5,), 1),
    (2**63, (0,), 6),
]


def with_tables(*tables: Table) -> bytes:
    """Return a request of these tables with one map."""
    return PatchTables(TWO_TILES.runs, 1, tables).data()


def named_patch_table_errors() -> Iterator[tuple[str, bytes]]:
    """Yield requests of patch tables with each error, and the error's text."""
    runs, one = TWO_TILES.runs, (1, (((1,), 1),))
    for bad in ((2, 3, 3, 1), (8, 1, 1, 0), (8, 2, 1, 1), (8, 1, 3, MOST - 1)):
        yield "bad run", PatchTables((*runs, bad), 1, (one,)).data()
    head = PatchTables(runs, 1, ()).data()[:-5]
    for width in (0, 17, 255):
        yield "bad width", head + struct.pack("<BI", width, 1)
    for count in (0, MOST_TABLES + 1):
        yield "bad number of tables", head + struct.pack("<BI", 1, count)
    for tile, patch in ((1, 2), (2, 0), (2, -1), (2, 4), (0, 1), (3, 1), (MOST, 1), (7, 1)):
        yield "unknown patch", with_tables(one, (tile, (((None,), 1), ((patch,), 1))))
    yield "bad count", with_tables(one, (1, (((1,), 1), ((9,), 0))))
    yield "too many cells", with_tables(one, (1, (((1,), MOST),)))
    yield "request too short", head + struct.pack("<BI", 16, MOST_TABLES)
    yield "request too short", head + struct.pack("<BI2Q", 16, 1, 1, MOST)
    yield "request too short", MAGIC + struct.pack("<BQ", KIND, MOST)
    yield "request too short", with_tables(one, (1, (((9,), 1),)))[:-1]
    yield "bytes after the request", TWO_TILES.data() + b"\0"


def randomly_changed_tables(chance: random.Random, request: PatchTables) -> PatchTables:
    """Return a request of which one run, tile, patch or count has another number."""
    runs, tables = list(request.runs), list(request.tables)
    if runs and chance.random() < 0.3:
        at, field = chance.randrange(len(runs)), chance.randrange(4)
        value = chance.choice([0, 1, 2, 3, 5, 2**32, MOST])
        runs[at] = (*runs[at][:field], value, *runs[at][field + 1 :])
        return dataclasses.replace(request, runs=tuple(runs))
    at = chance.randrange(len(tables))
    tile, table = tables[at][0], list(tables[at][1])
    if not table or chance.random() < 0.3:
        tile = chance.choice([0, tile + 1, MOST, *(run[0] for run in runs)])
    else:
        place = chance.randrange(len(table))
        (patch, *others), count = table[place]
        patch = chance.choice([None, 0, -1, 1, 2, 2**31 - 1, patch])
        table[place] = (patch, *others), chance.choice([0, 1, 2**63, MOST, count])
    tables[at] = tile, tuple(table)
    return dataclasses.replace(request, tables=tuple(tables))

"""Damage requests, and compare the response to any request with the plain models."""
from __future__ import annotations

import random
import struct
from dataclasses import replace
from typing import Iterator, Sequence

import joined_patches
import test_join
import test_plan
from fuzz import damaged_bytes
from joined_patches import Patches
from patch_tables import TWO_TILES, PatchTables
from pipe_model import NULL, TEXT_GRID, Place, Question, Raster, request, tile_request
from run_model import RUN, TEXT, TILE, wrong_run
from test_join import BadRequest, JoinReader, Tables, Tiles, in_place

FLIPS = (0x01, 0x80, 0xFF)
PLAN, JOIN = b"RCELLP1\n", test_join.MAGIC
MAGICS = (RUN, TEXT, TILE, PLAN, JOIN)


def wrong_response(data: bytes, status: int, output: bytes) -> str:
    """Return the error in the response to any request, or ''."""
    if data[:8] == PLAN:
        plan, wanted = test_plan.ResponseReader(output).response(), test_plan.expected(data)
        return "" if (plan, status) == (wanted, wanted[1].status) else f"{plan}, {status}"
    if data[:8] == JOIN:
        found, expected = test_join.ResponseReader(output).response(), test_join.expected(data)
        is_so = status == found[1].status and expected in (None, found)
        return "" if is_so else f"{found}, {status}"
    return wrong_run(data, status, output)


def small_requests() -> Iterator[tuple[str, bytes]]:
    """Yield a small request of each kind."""
    land = Raster(b"a", (b"2", b"0", b"3.5", b"0"), 1, [[1, 1, 2], [2, 7, 255]], 255)
    land = replace(land, labels=[(1, b"x")])
    zone = replace(land, name=b"z", type=4, mask=[[0, 0, 1], [0, 0, 0]], labels=[])
    script = b"r.mapcalc b=a[0,1]\nr.clump input=b output=k\nr.stats -cl input=k,z\n"
    script += b"r.out.ascii input=b\n"
    town = replace(land, type=TEXT_GRID, rows=[[1, NULL, 2], [2, 7, 1]], nodata=NULL)
    asked = [Question(b"b", 8, 2, b"z", kind=7), Question(b"z", kind=6)]
    run = request([land, zone], script, asked)
    yield "run", run
    yield "text", TEXT + request([land], script.replace(b"k,z", b"k"))[8:]
    yield "text grid", request([town], script.replace(b"k,z", b"k"))
    place = Place(9, 8, 4, 5, 4, 5, 2, 2)
    yield "tile", tile_request(place, [land, zone], script.replace(b"-cl", b"-c"), asked)
    yield "plan", test_plan.request([b"a", b"z"], script)
    cut = test_join.cut_of("112 211 22.", [0, 2], [0, 1])
    for connectivity in (4, 8):
        tiles = replace(cut, connectivity=connectivity).request()
        yield f"borders, connectivity {connectivity}", tiles.data()
    yield "patches", joined_patches.TWO_PARTS.data()
    yield "tables", test_join.TWO_TABLES.data()
    yield "patch tables", TWO_TILES.data()


def all_spoiled(data: bytes) -> Iterator[bytes]:
    """Yield each truncation of a request, the request with further bytes after it, and the request
    with each byte changed."""
    yield from (data[:length] for length in range(len(data)))
    yield from (data + b"\0", data + data)
    for at, byte in enumerate(data):
        yield from (data[:at] + bytes([byte ^ flip]) + data[at + 1 :] for flip in FLIPS)


def with_other_number(draw: random.Random, data: bytes) -> bytes:
    """Return a request in which 1, 4 or 8 bytes are replaced with another number."""
    size = draw.choice([1, 4, 8])
    number = draw.choice([0, 1, 2, 255, 65536, 2**31 - 1, 2**31, 2**63, 2**64 - 1])
    at = draw.randrange(max(1, len(data) - size))
    return data[:at] + struct.pack("<Q", number)[:size] + data[at + size :]


def any_spoiled(draw: random.Random, data: bytes, others: Sequence[bytes]) -> bytes:
    """Return a request that is damaged at random, or mixed with another request."""
    other, at = draw.choice(others), draw.randrange(len(data))
    kind = draw.randrange(7)
    if kind == 0:
        return data[:at]
    if kind == 1:
        return data[:at] + bytes([data[at] ^ draw.randrange(1, 256)]) + data[at + 1 :]
    if kind == 2:
        return with_other_number(draw, data)
    if kind == 3:
        return data[:at] + other[at:]
    if kind == 4:
        return draw.choice(MAGICS) + data[8:]
    return damaged_bytes(draw, data) if kind == 5 else data + other[: draw.choice([8, len(other)])]


def swapped(draw: random.Random, data: bytes, others: Sequence[bytes]) -> bytes:
    """Return a join request in which tables, borders or patches are swapped, repeated, or taken
    from another request, or the connectivity is changed."""
    try:
        one, other = (JoinReader(it).request() for it in (data, draw.choice(others)))
    except BadRequest:
        return data
    if isinstance(one, Tiles):
        return with_other_tiles(draw, one, other if isinstance(other, Tiles) else one).data()
    if isinstance(one, Tables):
        others = other.tables if isinstance(other, Tables) else one.tables
        return replace(one, tables=with_other_item(draw, one.tables, others)).data()
    if isinstance(one, PatchTables):
        return with_other_patch_tables(draw, one, other).data()
    return with_other_patches(draw, one, other if isinstance(other, Patches) else one).data()


def with_other_item(draw: random.Random, items: tuple, others: tuple) -> tuple:
    """Return the items with two of them swapped, one repeated, or one replaced."""
    if not items:
        return others
    found, (one, two) = list(items), (draw.randrange(len(items)) for _ in range(2))
    kind = draw.randrange(4)
    if kind == 0:
        found[one], found[two] = found[two], found[one]
    elif kind == 1:
        found[one] = found[two]
    elif kind == 2:
        found.insert(one, found[two])
    else:
        found[one] = draw.choice(others or items)
    return tuple(found)


def with_other_tiles(draw: random.Random, one: Tiles, other: Tiles) -> Tiles:
    """Return other tiles or another connectivity, half of the time with matching positions."""
    spoiled = with_tiles_swapped(draw, one, other)
    return in_place(spoiled) if draw.random() < 0.5 else spoiled


def with_tiles_swapped(draw: random.Random, one: Tiles, other: Tiles) -> Tiles:
    if draw.random() < 0.25:
        return replace(one, connectivity=12 - one.connectivity)
    width = len(one.grid[0])
    flat = tuple(tile for row in one.grid for tile in row)
    flat = with_other_item(draw, flat, tuple(tile for row in other.grid for tile in row))
    grid = tuple(flat[at : at + width] for at in range(0, len(flat), width))
    return replace(one, grid=grid)


def with_other_patch_tables(draw: random.Random, one: PatchTables, other: object) -> PatchTables:
    """Return patch tables with other runs, tables or tiles."""
    kind = draw.randrange(4)
    runs = other.runs if isinstance(other, (Patches, PatchTables)) else one.runs
    if kind == 0:
        return replace(one, runs=runs)
    if kind == 1:
        return replace(one, runs=with_other_item(draw, one.runs, runs))
    others = other.tables if isinstance(other, PatchTables) else one.tables
    tables = with_other_item(draw, one.tables, others)
    if kind == 2:  # the tables of other tiles
        tables = tuple((tile, table) for (tile, _), (_, table) in zip(one.tables, tables))
    return replace(one, tables=tables)


def with_other_patches(draw: random.Random, one: Patches, other: Patches) -> Patches:
    kind = draw.randrange(4)
    if kind == 0:
        return replace(one, runs=other.runs)
    if kind == 1:
        return replace(one, runs=with_other_item(draw, one.runs, other.runs))
    if kind == 2 and one.parts:
        parts = with_other_item(draw, one.parts, other.parts)
        numbers = [(it.tile, it.number) for it in one.parts]
        return replace(
            one,
            parts=tuple(it._replace(tile=t, number=n) for it, (t, n) in zip(parts, numbers)),
        )
    return replace(one, parts=with_other_item(draw, one.parts, other.parts))

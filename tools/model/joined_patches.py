"""Join the patches of tiles, part by part, as docs/pipe.md defines it."""
from __future__ import annotations

import dataclasses
import random
import struct
from dataclasses import dataclass
from typing import Iterator, NamedTuple, Sequence

from patch_model import EDGES, Cells, Patch, Place, cell_at, near

KIND = 2
MAGIC = b"RCELLJ1\n"
MOST = 2**64 - 1
MOST_LINES = 2_147_483_647
NULL = -(2**31)
ADDED = "cells", "ends", "flanks", "core"

Run = tuple[int, ...]  # the tile, the first and last number in it, the number in the full map
Joined = list[tuple[int, Patch]]  # numbers in the full map, and patches


class Part(NamedTuple):
    """A patch of a tile."""

    tile: int
    number: int
    patch: Patch

    def data(self) -> bytes:
        fields = struct.pack("<i8Q", *dataclasses.astuple(self.patch))
        return struct.pack("<QQ", self.tile, self.number) + fields


@dataclass(frozen=True)
class Patches:
    """A join request: the runs of a numbering, and patches of tiles."""

    runs: tuple[Run, ...]
    parts: tuple[Part, ...]

    def data(self) -> bytes:
        runs = b"".join(struct.pack("<4Q", *run) for run in self.runs)
        parts = b"".join(part.data() for part in self.parts)
        head = MAGIC + struct.pack("<BQ", KIND, len(self.runs))
        return head + runs + struct.pack("<Q", len(self.parts)) + parts


def is_next_run(runs: Sequence[Run], run: Run) -> bool:
    """Return whether a run has patches, is counted from 1 to below 2^64, and comes after `runs`."""
    tile, first, last, number = run
    is_run = 0 not in run and first <= last and number + last - first <= MOST
    return is_run and (not runs or (runs[-1][0], runs[-1][2]) < (tile, first))


def full_map_number(runs: Sequence[Run], tile: int, number: int) -> int | None:
    """Return the number in the full map of a tile's patch, or None if no run has the patch."""
    for of, first, last, begin in runs:
        if of == tile and first <= number <= last:
            return begin + number - first
    return None


def is_patch(patch: Patch) -> bool:
    lines = (patch.first_row, patch.last_row), (patch.first_col, patch.last_col)
    are_lines = all(first <= last < MOST_LINES for first, last in lines)
    return patch.category != NULL and patch.cells > 0 and are_lines


def both(one: Patch, other: Patch) -> Patch:
    """Return the measures of two parts of one patch together."""
    return Patch(
        one.category,
        *(getattr(one, name) + getattr(other, name) for name in ADDED),
        min(one.first_row, other.first_row),
        max(one.last_row, other.last_row),
        min(one.first_col, other.first_col),
        max(one.last_col, other.last_col),
    )


def add(found: dict[int, Patch], number: int, patch: Patch) -> bytes:
    """Add a part to the patch with this number. Return the part's error, or nothing."""
    if number in found:
        if found[number].category != patch.category:
            return b"other class"
        patch = both(found[number], patch)
    if max(getattr(patch, name) for name in ADDED) > MOST:
        return b"too many cells"
    found[number] = patch
    return b""


def joined_patches(request: Patches) -> Joined:
    """Return the patches of the full map, in the order of their numbers."""
    found: dict[int, Patch] = {}
    for part in request.parts:
        number = full_map_number(request.runs, part.tile, part.number)
        if number is None or add(found, number, part.patch):
            raise ValueError(f"not a part: {part}")
    return sorted(found.items())


# Requests to try


def measured_part(cells: Cells, places: set[Place], depth: int) -> Patch:
    """Return the measures of some cells of a patch, in the full map."""
    category = next(cell_at(cells, *place) for place in places)
    sides = [
        (down, cell_at(cells, row + down, col + right) != category)
        for row, col in places
        for down, right in EDGES
    ]
    inside = [all(cell_at(cells, *at) == category for at in near(it, depth)) for it in places]
    rows, cols = [row for row, _ in places], [col for _, col in places]
    return Patch(
        category or 0,
        len(places),
        sum(leads_out for down, leads_out in sides if down),
        sum(leads_out for down, leads_out in sides if not down),
        sum(inside),
        min(rows),
        max(rows),
        min(cols),
        max(cols),
    )


def parts_of_tile(
    cells: Cells, numbers: Cells, tile: int, place: tuple[slice, slice], depth: int
) -> Iterator[Part]:
    """Yield the patches of a tile with their measures in the full map."""
    found: dict[int, set[Place]] = {}
    for row, line in enumerate(numbers, place[0].start):
        for col, number in enumerate(line, place[1].start):
            if number is not None:
                found.setdefault(number, set()).add((row, col))
    for number in sorted(found):
        yield Part(tile, number, measured_part(cells, found[number], depth))


PATCH = Patch(3, 5, 4, 2, 1, 0, 1, 2, 3)
TWO_PARTS = Patches(
    ((1, 1, 2, 1), (2, 1, 1, 1), (2, 2, 2, 7)),
    (
        Part(1, 1, PATCH),
        Part(1, 2, Patch(-4, 1, 2, 2, 0, 0, 0, 0, 0)),
        Part(2, 1, Patch(3, 2**40, 3, 9, 0, 1, 8, 1, 2)),
    ),
)
JOINED = [
    (1, Patch(3, 2**40 + 5, 7, 11, 1, 0, 8, 1, 3)),
    (2, Patch(-4, 1, 2, 2, 0, 0, 0, 0, 0)),
]


def with_patch(**fields: int) -> bytes:
    """Return a request whose second part of a patch has other fields."""
    part = Part(2, 1, dataclasses.replace(PATCH, **fields))
    return Patches(TWO_PARTS.runs, (TWO_PARTS.parts[0], part)).data()


def named_patch_errors() -> Iterator[tuple[str, bytes]]:
    """Yield requests of patches with each error, and the error's text."""
    runs, parts = TWO_PARTS.runs, TWO_PARTS.parts
    for bad in ((2, 2, 2, 1), (2, 1, 2, 1), (1, 3, 3, 1), (3, 2, 1, 1), (3, 1, 3, MOST - 1)):
        yield "bad run", Patches((*runs, bad), parts).data()
    for first_run in ((0, 1, 1, 1), (1, 0, 1, 1), (1, 1, 1, 0)):
        yield "bad run", Patches((first_run,), ()).data()
    for tile, number in ((1, 3), (2, 0), (2, 3), (3, 1), (MOST, MOST)):
        yield "unknown patch", Patches(runs, (Part(tile, number, PATCH),)).data()
    for order in ((0, 0), (1, 0), (2, 1), (2, 2)):
        yield "patch order", Patches(runs, tuple(parts[at] for at in order)).data()
    yield "bad patch", with_patch(category=NULL)
    yield "bad patch", with_patch(cells=0)
    for name in ("row", "col"):
        yield "bad patch", with_patch(**{f"first_{name}": 9, f"last_{name}": 8})
        yield "bad patch", with_patch(**{f"last_{name}": MOST_LINES})
        yield "bad patch", with_patch(**{f"last_{name}": 2**32})
    yield "other class", with_patch(category=4)
    for name in ADDED:
        yield "too many cells", with_patch(**{name: MOST})
    yield "request too short", MAGIC + struct.pack("<BQ", KIND, MOST)
    yield "request too short", Patches(runs, ()).data()[:-8] + struct.pack("<Q", MOST)
    yield "bytes after the request", TWO_PARTS.data() + b"\0"


def randomly_changed_patches(chance: random.Random, request: Patches) -> Patches:
    """Return a request of which one run or part has another number."""
    runs, parts = list(request.runs), list(request.parts)
    value = chance.choice([0, 1, 2, 3, 5, 2**32, MOST_LINES, MOST])
    if runs and chance.random() < 0.4:
        at, field = chance.randrange(len(runs)), chance.randrange(4)
        runs[at] = (*runs[at][:field], value, *runs[at][field + 1 :])
    elif parts:
        at = chance.randrange(len(parts))
        name = chance.choice([it.name for it in dataclasses.fields(Patch)][1:])
        patch = dataclasses.replace(parts[at].patch, **{name: value})
        parts[at] = chance.choice(
            [
                Part(value, *parts[at][1:]),
                parts[at]._replace(number=value),
                parts[at]._replace(patch=patch),
                parts[at]._replace(
                    patch=dataclasses.replace(patch, category=chance.choice([1, 9, NULL]))
                ),
                parts[chance.randrange(len(parts))],
            ]
        )
    return Patches(tuple(runs), tuple(parts))

"""Count the patches of a map cell by cell, as docs/pipe.md defines them."""
from __future__ import annotations

from collections import Counter
from dataclasses import dataclass
from typing import Iterator, Optional

Cells = list[list[Optional[int]]]
Place = tuple[int, int]

EDGES = ((-1, 0), (1, 0), (0, -1), (0, 1))
CORNERS = ((-1, -1), (-1, 1), (1, -1), (1, 1))


@dataclass(frozen=True)
class Patch:
    """The fields of a patch in a frame, in order."""

    category: int
    cells: int
    ends: int
    flanks: int
    core: int
    first_row: int
    last_row: int
    first_col: int
    last_col: int


def cell_at(cells: Cells, row: int, col: int) -> Optional[int]:
    """Return a cell, or null outside the map."""
    return cells[row][col] if 0 <= row < len(cells) and 0 <= col < len(cells[0]) else None


def places_of_patch(cells: Cells, first: Place, connectivity: int) -> set[Place]:
    """Return the positions of the cells that are connected to a cell."""
    steps = EDGES if connectivity == 4 else EDGES + CORNERS
    found, to_visit = {first}, [first]
    while to_visit:
        row, col = to_visit.pop()
        for down, right in steps:
            place = row + down, col + right
            if place not in found and cell_at(cells, *place) == cell_at(cells, *first):
                found.add(place)
                to_visit.append(place)
    return found


def near(place: Place, depth: int) -> Iterator[Place]:
    """Yield all positions within `depth` steps across edges."""
    for down in range(-depth, depth + 1):
        left = depth - abs(down)
        for right in range(-left, left + 1):
            yield place[0] + down, place[1] + right


def measured(cells: Cells, places: set[Place], depth: int) -> Patch:
    """Return the measures of a patch."""
    rows, cols = [row for row, _ in places], [col for _, col in places]
    sides = [
        (down, (row + down, col + right) not in places)
        for row, col in places
        for down, right in EDGES
    ]
    # Outside the map, no position is in a patch, so a depth beyond the map is equivalent to one at
    # its edge.
    depth = min(depth, len(cells) + len(cells[0]))
    return Patch(
        category=cells[rows[0]][cols[0]] or 0,
        cells=len(places),
        ends=sum(leads_out for down, leads_out in sides if down),
        flanks=sum(leads_out for down, leads_out in sides if not down),
        core=sum(all(other in places for other in near(place, depth)) for place in places),
        first_row=min(rows),
        last_row=max(rows),
        first_col=min(cols),
        last_col=max(cols),
    )


def places_of_patches(cells: Cells, connectivity: int) -> list[set[Place]]:
    """Return the positions of each patch of a map, in the order of first cells, row by row."""
    found: list[set[Place]] = []
    seen: set[Place] = set()
    for row, line in enumerate(cells):
        for col, cell in enumerate(line):
            if cell is not None and (row, col) not in seen:
                found.append(places_of_patch(cells, (row, col), connectivity))
                seen |= found[-1]
    return found


def patch_numbers(cells: Cells, connectivity: int) -> Cells:
    """Return the number of each cell's patch, from 1."""
    found: Cells = [[None] * len(row) for row in cells]
    for number, places in enumerate(places_of_patches(cells, connectivity), 1):
        for row, col in places:
            found[row][col] = number
    return found


def patches(cells: Cells, connectivity: int, depth: int) -> list[Patch]:
    """Return the measures of the patches of a map."""
    return [measured(cells, places, depth) for places in places_of_patches(cells, connectivity)]


def main_zone(places: set[Place], zones: Cells) -> Optional[int]:
    """Return the zone with most cells of a patch, or the smallest of several, or null if no cell
    has a zone."""
    counts = Counter(zones[row][col] for row, col in places)
    del counts[None]
    return min(counts, key=lambda zone: (-counts[zone], zone or 0), default=None)


def main_zones(cells: Cells, connectivity: int, zones: Cells) -> list[Optional[int]]:
    """Return the main zone of each patch of a map."""
    return [main_zone(places, zones) for places in places_of_patches(cells, connectivity)]

"""Make maps that are hard to cut, random maps, and grids of tiles."""
from __future__ import annotations

import random
from dataclasses import dataclass
from typing import Callable, Iterator

from patch_model import Cells

Cell = int | None
MOST_TILES = 5

Span = tuple[int, int]  # first row or column, and their number


def comb(rows: int, cols: int) -> Cells:
    """Return a comb whose teeth meet only in the last row: a single patch, which looks like many
    until the last row of tiles."""
    return [
        [1 if row == rows - 1 or col % 2 == 0 else 2 for col in range(cols)] for row in range(rows)
    ]


def spiral(rows: int, cols: int) -> Cells:
    """Return a path from the corner to the middle, one cell wide."""
    cells: Cells = [[2] * cols for _ in range(rows)]

    def is_way(row: int, col: int) -> bool:
        return 0 <= row < rows and 0 <= col < cols and cells[row][col] == 1

    row, col, down, right, turns = 0, 0, 0, 1, 0
    cells[0][0] = 1
    while turns < 2:
        ahead = (row + down, col + right)
        if (
            0 <= ahead[0] < rows
            and 0 <= ahead[1] < cols
            and not is_way(*ahead)
            and not is_way(ahead[0] + down, ahead[1] + right)
        ):
            row, col = ahead
            cells[row][col], turns = 1, 0
        else:
            down, right, turns = right, -down, turns + 1
    return cells


def of_places(cell: Callable[[int, int], Cell]) -> Callable[[int, int], Cells]:
    return lambda rows, cols: [[cell(row, col) for col in range(cols)] for row in range(rows)]


SHAPES: dict[str, Callable[[int, int], Cells]] = {
    "comb": comb,
    "comb upside down": lambda rows, cols: comb(rows, cols)[::-1],
    "comb of rows": lambda rows, cols: [list(row) for row in zip(*comb(cols, rows))],
    "spiral": spiral,
    "spiral from below": lambda rows, cols: [row[::-1] for row in spiral(rows, cols)[::-1]],
    "checkerboard": of_places(lambda row, col: (row + col) % 2),
    "checkerboard with null": of_places(lambda row, col: None if (row + col) % 2 else -7),
    "diagonals": of_places(lambda row, col: (row - col) % 3),
    "diagonals to the left": of_places(lambda row, col: (row + col) % 3 or None),
    "steep diagonals": of_places(lambda row, col: (row - 2 * col) % 5),
    "crossing lines": of_places(lambda row, col: int(row % 4 == 1 or col % 5 == 2)),
    "one patch": of_places(lambda row, col: 2147483647),
    "null": of_places(lambda row, col: None),
    "rows": of_places(lambda row, col: row % 2),
    "columns": of_places(lambda row, col: None if col % 3 == 2 else col % 3),
}


def random_rows(draw: random.Random, rows: int, cols: int) -> Cells:
    """Return random cells with one to nine categories, up to half of them null. Copies of
    neighbours make larger patches."""
    kinds: list[Cell] = [
        *draw.choice([range(1, 10), range(0, 9), range(-4, 5), [-2147483647, 2147483647]])
    ][: draw.randint(1, 9)]
    nulls, likeness = draw.choice([0, 0, 0.1, 0.5]), draw.choice([0, 0.4, 0.8])
    cells: Cells = []
    for row in range(rows):
        cells.append([])
        for col in range(cols):
            near = [
                line[at]
                for line, at in ((cells[max(row - 1, 0)], col), (cells[row], col - 1))
                if 0 <= at < len(line)
            ]
            is_like = near and draw.random() < likeness
            cells[row].append(
                draw.choice(near)
                if is_like
                else None
                if draw.random() < nulls
                else draw.choice(kinds)
            )
    return cells


def random_cells(draw: random.Random, rows: int, cols: int) -> Cells:
    """Return random cells, or a shape that is hard to cut."""
    if draw.random() < 0.2:
        return draw.choice(list(SHAPES.values()))(rows, cols)
    return random_rows(draw, rows, cols)


@dataclass(frozen=True)
class Cut:
    """A map and its cuts: the row after each row of tiles, and the column after each column of
    tiles."""

    cells: Cells
    ends: list[int]
    col_ends: list[int]

    def spans(self) -> Iterator[tuple[Span, Span]]:
        """Yield the rows and columns of each tile, row by row."""
        for top, bottom in zip([0, *self.ends], self.ends):
            for left, right in zip([0, *self.col_ends], self.col_ends):
                yield (top, bottom - top), (left, right - left)


def random_ends(draw: random.Random, count: int) -> list[int]:
    """Return one to five rows or columns of tiles."""
    return [
        *sorted(draw.sample(range(1, count), draw.randint(0, min(count, MOST_TILES) - 1))),
        count,
    ]


def random_cut(draw: random.Random, cells: Cells) -> Cut:
    """Return a grid of tiles with uneven sizes. One in four grids has only one column."""
    cols = len(cells[0])
    return Cut(
        cells,
        random_ends(draw, len(cells)),
        [cols] if draw.random() < 0.25 else random_ends(draw, cols),
    )


def some_cuts(draw: random.Random, cells: Cells) -> list[Cut]:
    """Return cuts into single cells, single columns, single rows, halves, and random cuts."""
    rows, cols = len(cells), len(cells[0])
    all_rows, all_cols = list(range(1, rows + 1)), list(range(1, cols + 1))
    return [
        Cut(cells, all_rows, all_cols),
        Cut(cells, [rows], all_cols),
        Cut(cells, all_rows, [cols]),
        Cut(cells, [rows // 2, rows], [cols // 2, cols]),
        Cut(cells, [rows], [cols]),
        *(random_cut(draw, cells) for _ in range(5)),
    ]


def hard_cuts() -> Iterator[tuple[str, Cut]]:
    """Yield maps that are hard to cut: each shape with many cuts, and larger maps with one or
    two."""
    for name, shape in SHAPES.items():
        draw = random.Random(name)
        yield from ((name, cut) for cut in some_cuts(draw, shape(5, 7)))
    for name, rows, cols in (("comb", 120, 401), ("spiral", 161, 150), ("checkerboard", 150, 201)):
        for col_ends in ([cols], [1, 75, 76, cols]):
            ends = [1, 2, 50, 51, rows - 1, rows]
            yield f"long {name}", Cut(SHAPES[name](rows, cols), ends, col_ends)
    noise = random_rows(random.Random(1), 200, 300)
    yield "noise", Cut(noise, list(range(10, 201, 10)), [300])
    yield "noise", Cut(noise, [60, 130, 200], [70, 71, 150, 300])

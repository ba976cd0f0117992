#!/usr/bin/env python3
"""Run rcell over random maps with many columns or many rows, and compare its tables and grids with
numpy.

    /usr/bin/python3 tools/model/wide_maps.py [--maps N] [--seed S] [--first F] [--program PATH]
    [--pieces CLANG]

Four of five maps have up to 3 rows of up to 20,000 columns, and the others up to 20,000 rows of up
to 20 columns. They consist of runs of different kinds: masks, small numbers, heights, long and
negative numbers, and null, each in its own spelling. Map F of seed S is the same everywhere. With
--pieces, half of the maps are read a few bytes at a time, as in compare.py. The last line is 'N
maps, M differences'.
"""
import argparse
import tempfile

import cases
import numpy as np
from compare import BIN, PIECES, Program
from made_cases import Made

NULL = -(2**31)
MOST = 2**31 - 1
MOST_LENGTH = 20_000
FEW_ROWS, FEW_COLS = 3, 20
WIDE_SHARE = 0.8
LENGTHS = (1, 3, 64, 65, 300, 5000)  # maximum cells of a run
# The smallest and the largest number of a run.
RANGES = (
    (0, 1),
    (7, 7),
    (1, 12),
    (0, 254),
    (0, 255),
    (1, 999),
    (0, 19_999),
    (0, 99_999_999),
    (-120, -1),
    (-9999, 9999),
    (-MOST, MOST),
)
SPELLINGS = ("%d",) * 4 + ("%d ", "%5d", "%d\t", "%05d", "%d\r\n", "%d\n", "%12d")
SCRIPT = b"""r.stats -c input=g
r.stats -c input=g,h
r.out.ascii input=g
r.mapcalc m = max(g[0,1], h)
r.out.ascii input=m
r.reclass input=h output=c
0 thru 9 = 1
10 thru 254 = 200
-120 thru -1 = NULL
* = 2
end
r.stats -c input=c
"""


def random_map(random, shape):
    """Return cells, and their text."""
    cells, words = np.empty(shape[0] * shape[1], np.int64), []
    longest, few = random.choice(LENGTHS), random.choice(len(RANGES), random.integers(1, 4))
    while len(words) < cells.size:
        size = min(int(random.integers(1, longest + 1)), cells.size - len(words))
        least, most = RANGES[random.choice(few)]
        part = random.integers(least, most + 1, size)
        part[random.random(size) < random.choice([0, 0, 0.05, 1])] = NULL
        cells[len(words) : len(words) + size] = part
        spelling = SPELLINGS[random.integers(len(SPELLINGS))]
        words += ["*" if cell == NULL else spelling % cell for cell in part.tolist()]
    return cells.reshape(shape), " ".join(words) + "\n"


def header(shape):
    return f"north: {shape[0]}\nsouth: 0\neast: {shape[1]}\nwest: 0\nrows: {shape[0]}\ncols: {shape[1]}\n"


def words_of(cells):
    return ["*" if cell == NULL else str(cell) for cell in cells.tolist()]


def table(*maps):
    """Return the text of r.stats -c for one or two maps, in which null follows all numbers."""
    keys = np.zeros(maps[0].size, np.uint64)
    for cells in maps:
        last = np.where(cells == NULL, MOST + 1, cells).ravel()
        keys = keys << np.uint64(32) | (last + MOST).astype(np.uint64)
    found, counts = np.unique(keys, return_counts=True)
    columns = [
        (found >> np.uint64(32 * at) & np.uint64(2**32 - 1)).astype(np.int64) - MOST
        for at in reversed(range(len(maps)))
    ]
    words = [words_of(np.where(column > MOST, NULL, column)) for column in columns]
    return "".join(" ".join(line) + "\n" for line in zip(*words, map(str, counts.tolist())))


def grid(cells):
    return header(cells.shape) + "".join(" ".join(words_of(row)) + "\n" for row in cells)


def expected(g, h):
    beside = np.full(g.shape, NULL, np.int64)
    beside[:, :-1] = g[:, 1:]
    largest = np.where((beside == NULL) | (h == NULL), NULL, np.maximum(beside, h))
    classes = np.select(
        [h == NULL, (0 <= h) & (h <= 9), (10 <= h) & (h <= 254), (-120 <= h) & (h <= -1)],
        [NULL, 1, 200, NULL],
        2,
    )
    return table(g) + table(g, h) + grid(g) + grid(largest) + table(classes)


def random_shape(random):
    """Return numbers of rows and columns: few of one, and up to 20,000 of the other."""
    most = int(random.choice([200, 3000, MOST_LENGTH]))
    if random.random() < WIDE_SHARE:
        return int(random.integers(1, FEW_ROWS + 1)), int(random.integers(1, most))
    return int(random.integers(1, most)), int(
        random.integers(1, min(FEW_COLS, FEW_ROWS * MOST_LENGTH // most) + 1)
    )


def is_equal(program, shim, seed, number):
    random = np.random.default_rng([seed, number])
    shape = random_shape(random)
    (g, text), (h, other) = random_map(random, shape), random_map(random, shape)
    files = {
        "script": SCRIPT,
        "grid0": (header(shape) + text).encode(),
        "grid1": (header(shape) + other).encode(),
    }
    made = Made(files, [(b"g", "grid0"), (b"h", "grid1")])
    program.put(made)
    pieces = (
        {"LD_PRELOAD": shim, "READ_PIECE": str(random.choice(PIECES))}
        if shim and random.random() < 0.5
        else {}
    )
    got = program.answer(made.words, **pieces)
    return (got.status, got.output, got.told) == (0, expected(g, h).encode(), b"")


def main():
    parser = argparse.ArgumentParser(
        description=__doc__, formatter_class=argparse.RawDescriptionHelpFormatter
    )
    parser.add_argument("--maps", type=int, default=100)
    parser.add_argument("--seed", type=int, default=1)
    parser.add_argument("--first", type=int, default=0)
    parser.add_argument("--program", default=f"{BIN}/rcell")
    parser.add_argument("--pieces", metavar="CLANG")
    wanted = parser.parse_args()
    with tempfile.TemporaryDirectory(prefix="rcell-wide-") as room:
        shim = f"{room}/devices.so" if wanted.pieces else ""
        if shim:
            cases.build_shim(wanted.pieces, shim, "devices")
        program = Program(wanted.program, room)
        numbers = range(wanted.first, wanted.first + wanted.maps)
        different = [
            number for number in numbers if not is_equal(program, shim, wanted.seed, number)
        ]
        for number in different:
            print(f"map {number} of seed {wanted.seed} differs")
    print(f"{wanted.maps} maps, {len(different)} differences")
    return 1 if different else 0


if __name__ == "__main__":
    raise SystemExit(main())

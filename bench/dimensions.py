#!/usr/bin/env python3
"""Print how the cost of rcell grows when one dimension of a run is doubled twice.

    dimensions.py [--program PATH] [--only WORD] [--write]

The table has one row for each dimension that could grow faster than linearly. Instructions are
counted with callgrind, so sizes can be small and other work on the machine does not matter. If
valgrind is not installed, the table is left out.

A row shows the instructions per unit of its dimension at three sizes, and the last of these divided
by the one before: 1 for linear growth, less if more units share a fixed cost, and slightly more if
something is sorted or found in a sorted table. The cost of an empty run is subtracted and, for some
rows, the cost of reading the grids. Rows that grow faster than n log n are marked. --write puts the
table into bench/RESULTS.md.
"""
import argparse
import concurrent.futures
import os
import shutil
import subprocess
import tempfile
from dataclasses import dataclass
from typing import Callable

from run import COLLECTED, ROOT, print_table, say

MARKS = ("<!-- The table of bench/dimensions.py -->\n", "<!-- End of the dimensions -->\n")
# n log n grows by less than this from the second size to the third, because all second sizes of
# sorted data are at least 32.
MOST = 1.2
TIMES = (1, 2, 4)
BEYOND = "beyond reading"


@dataclass(frozen=True)
class Run:
    """A script, and the texts of its grids by name."""

    script: str
    grids: dict[str, str]


@dataclass(frozen=True)
class Dimension:
    """A dimension: its smallest size, and the run for a size. `off` is subtracted: an empty run or
    BEYOND."""

    title: str
    least: int
    run: Callable[[int], Run]
    off: str = ""


def header(rows, cols, more=""):
    return f"north: {rows}\nsouth: 0\neast: {cols}\nwest: 0\nrows: {rows}\ncols: {cols}\n{more}"


def grid(rows, cols, cell, between=" ", end="\n", more=""):
    """Return the text of a grid, whose cells are a function of row and column."""
    return header(rows, cols, more) + "".join(
        between.join(cell(row, col) for col in range(cols)) + end for row in range(rows)
    )


def noise(row, col):
    """Return a category from 1 to 12 that looks random but is the same in each run."""
    bits = (row * 0x9E3779B1 + col * 0x85EBCA77 + 12345) & 0xFFFFFFFF
    bits = (bits ^ bits >> 15) * 0x2C1B3C6D & 0xFFFFFFFF
    return str((bits ^ bits >> 13) % 12 + 1)


def every(count, text, between=""):
    """Return the texts for all numbers below `count`, joined."""
    return between.join(text(i) for i in range(count))


ONE = grid(1, 1, noise)
EMPTY = Run("", {"g": ONE})
COLS = 100


def reading(text):
    return Run("", {"g": text})


def apart(between, width=0):
    """Return a run that reads n rows, whose cells are padded to `width` and separated by
    `between`."""
    return lambda n: reading(grid(n, COLS, lambda row, col: noise(row, col).rjust(width), between))


def distinct(rows):
    """Return a grid whose cells are all different and not sorted."""
    return grid(rows, COLS, lambda row, col: str((row * COLS + col) * 7919 % 1_000_003))


def over(text, script):
    """Return a function from a size to a run, for a script that depends on the size."""
    return lambda n: Run(script(n), {"g": text})


def of_distinct(script):
    return lambda n: Run(script(n), {"g": distinct(n)})


def of_noise(script):
    return lambda n: Run(script, {"g": grid(n, COLS, noise)})


def assigned(title, least, expression):
    """Return the dimension of an expression that depends on the size, over 1,000 cells."""
    return Dimension(
        title, least, over(SMALL, lambda n: f"r.mapcalc m = {expression(n)}\n"), BEYOND
    )


def comb(rows):
    """Return a comb whose teeth meet only in the last row."""
    return grid(rows, COLS, lambda row, col: "2" if col % 2 and row + 1 < rows else "1")


def names(count):
    return every(count, lambda i: f"a{i}", "+")


def made(count):
    return every(count, lambda i: f"r.mapcalc a{i} = {i}\n")


def rules(lines, then="r.stats -c input=m\n"):
    return f"r.reclass input=g output=m\n{lines}end\n{then}"


SMALL = grid(20, 50, noise)
TALL, WIDE = grid(300, 10, noise), grid(10, 300, noise)
GRIDS = (
    Dimension("rows of 100 columns", 400, apart(" ")),
    Dimension("columns of 100 rows", 400, lambda n: reading(grid(100, n, noise))),
    Dimension("rows of one column", 5000, lambda n: reading(grid(n, 1, noise))),
    Dimension("columns of one row", 15_000, lambda n: reading(grid(1, n, noise))),
    Dimension("rows, a cell a line", 400, apart("\n")),
    Dimension("rows, all in one line", 400, lambda n: reading(grid(n, COLS, noise, end=" "))),
    Dimension("rows, tabs", 400, apart("\t")),
    Dimension("rows, two blanks", 400, apart("  ")),
    Dimension("rows, cells set right in five places", 400, apart(" ", 5)),
    Dimension("rows, CR LF", 400, lambda n: reading(grid(n, COLS, noise, end="\r\n"))),
    Dimension(
        "rows, all cells equal", 1600, lambda n: reading(grid(n, COLS, lambda row, col: "7"))
    ),
    Dimension("rows, no two cells alike", 400, lambda n: reading(distinct(n))),
    Dimension(
        "blanks between two cells", 250_000, lambda n: reading(header(1, 2) + "1" + n * " " + "2\n")
    ),
    Dimension(
        "line feeds between two cells",
        250_000,
        lambda n: reading(header(1, 2) + "1" + n * "\n" + "2\n"),
    ),
    Dimension(
        "blanks, few, between each two of 5,000 cells",
        15,
        lambda n: reading(grid(50, COLS, noise, n * " ")),
    ),
    Dimension(
        "blanks, many, between each two of 1,000 cells",
        100,
        lambda n: reading(grid(10, COLS, noise, n * " ")),
    ),
    Dimension(
        "digits of each of 5,000 cells, zeros in front",
        15,
        lambda n: reading(grid(50, COLS, lambda row, col: noise(row, col).zfill(n))),
    ),
    Dimension(
        "bytes of the null text, 5,000 times",
        15,
        lambda n: reading(grid(50, COLS, lambda row, col: n * "x", more=f"null: {n * 'x'}\n")),
    ),
    Dimension("grids", 100, lambda n: Run("", {f"g{i}": ONE for i in range(n)})),
)
SCRIPTS = (
    Dimension(
        "maps, each over the one before",
        500,
        over(
            ONE, lambda n: "r.mapcalc a0 = g\n" + every(n, lambda i: f"r.mapcalc a{i + 1} = a{i}\n")
        ),
    ),
    Dimension(
        "bytes of the names of 400 maps",
        15,
        over(ONE, lambda n: every(400, lambda i: f"r.mapcalc {f'_{i}'.rjust(n, 'a')} = 1\n")),
    ),
    Dimension("tables", 1000, over(ONE, lambda n: n * "r.stats -c input=g\n")),
    Dimension("blank lines", 100_000, over(ONE, lambda n: n * "\n")),
    Dimension("comments", 10_000, over(ONE, lambda n: n * "# a comment\n")),
    Dimension("bytes of a comment", 16_000, over(ONE, lambda n: "#" + n * "x")),
    Dimension("blanks in a line", 16_000, over(ONE, lambda n: "r.stats" + n * " " + "input=g\n")),
    Dimension(
        "r.reclass, each of the map before",
        250,
        over(
            ONE,
            lambda n: "r.mapcalc a0 = g\n"
            + every(n, lambda i: f"r.reclass input=a{i} output=a{i + 1}\n* = *\nend\n"),
        ),
    ),
    Dimension(
        "r.clump, each of the map before",
        250,
        over(
            ONE,
            lambda n: "r.mapcalc a0 = g\n"
            + every(n, lambda i: f"r.clump input=a{i} output=a{i + 1}\n"),
        ),
    ),
)
RULES = (
    Dimension(
        "rules of a category each",
        1000,
        over(SMALL, lambda n: rules(every(n, lambda i: f"{i} = {i}\n"))),
        BEYOND,
    ),
    Dimension(
        "rules of ranges, each within the one before",
        1000,
        over(SMALL, lambda n: rules(every(n, lambda i: f"{i} thru {2 * n - i} = {i}\n"))),
        BEYOND,
    ),
    Dimension(
        "rules of ranges, each around the one before",
        1000,
        over(SMALL, lambda n: rules(every(n, lambda i: f"{n - i} thru {n + i} = {i}\n"))),
        BEYOND,
    ),
    Dimension(
        "categories of one rule",
        2000,
        over(SMALL, lambda n: rules(every(n, str, " ") + " = 1\n")),
        BEYOND,
    ),
    Dimension("rules of `*`", 4000, over(SMALL, lambda n: rules(n * "* = 1\n")), BEYOND),
    Dimension(
        "hundreds of labels, printed by -l",
        10,
        lambda n: Run(
            rules(every(100 * n, lambda i: f"{i} = {i} label {i}\n"), "r.stats -cl input=m\n"),
            {"g": grid(n, COLS, lambda row, col: str(row * COLS + col))},
        ),
        BEYOND,
    ),
    Dimension(
        "bytes of a label",
        16_000,
        over(SMALL, lambda n: rules(f"* = 1 {n * 'x'}\n", "r.stats -cl input=m\n")),
        BEYOND,
    ),
)
EXPRESSIONS = (
    ("terms of a sum", 100, lambda n: every(n, lambda i: "g", "+")),
    ("operands of `&&`", 100, lambda n: every(n, lambda i: "g", "&&")),
    ("parentheses", 100, lambda n: f"{n * '('}g{n * ')'}"),
    ("signs", 200, lambda n: f"{n * '- '}g"),
    ("sums in sums", 50, lambda n: f"{n * 'g+('}g{n * ')'}"),
    ("`if` in `if`", 25, lambda n: f"{every(n, lambda i: f'if(g=={i % 12},{i},')}g{n * ')'}"),
    ("`?:` in `?:`", 30, lambda n: f"{every(n, lambda i: f'g=={i % 12}?{i}:')}g"),
    ("arguments of max", 100, lambda n: f"max({every(n, lambda i: 'g', ',')})"),
    ("arguments of nmode", 50, lambda n: f"nmode({every(n, lambda i: f'g+{i % 7}', ',')})"),
    ("neighbours", 30, lambda n: every(n, lambda i: f"g[{i // 11},{i % 11}]", "+")),
)
WINDOWS = (
    Dimension(
        "maps of a sum", 50, over(SMALL, lambda n: f"{made(n)}r.mapcalc m = {names(n)}\n"), BEYOND
    ),
    Dimension(
        "rows of an offset, 3,000 cells",
        60,
        over(TALL, lambda n: f"r.mapcalc m = g[{n},0] + g[-{n},0]\n"),
        BEYOND,
    ),
    Dimension(
        "columns of an offset, 3,000 cells",
        60,
        over(WIDE, lambda n: f"r.mapcalc m = g[0,{n}] + g[0,-{n}]\n"),
        BEYOND,
    ),
)
TABLES = (
    Dimension(
        "hundreds of categories, each once",
        40,
        of_distinct(lambda n: "r.stats -c input=g\n"),
        BEYOND,
    ),
    Dimension(
        "hundreds of combinations of two maps, each once",
        40,
        of_distinct(lambda n: "r.mapcalc h = row()\nr.stats -c input=g,h\n"),
        BEYOND,
    ),
    Dimension(
        "maps of a table of 1,000 cells",
        4,
        over(SMALL, lambda n: f"r.stats -c input={every(n, lambda i: 'g', ',')}\n"),
        BEYOND,
    ),
    Dimension("rows of cells printed by -1", 100, of_noise("r.stats -1 input=g\n"), BEYOND),
    Dimension(
        "hundreds of categories, half of them passed by `after=`",
        40,
        of_distinct(lambda n: "r.stats -c input=g after=500000\n"),
        BEYOND,
    ),
    Dimension(
        "tables with `after=`, of 1,000 categories",
        10,
        over(distinct(10), lambda n: n * "r.stats -c input=g after=500000\n"),
        BEYOND,
    ),
    Dimension(
        "hundreds of patches of a cell",
        100,
        of_distinct(lambda n: "r.clump input=g output=m\n"),
        BEYOND,
    ),
    Dimension(
        "rows of a comb, one area",
        100,
        lambda n: Run("r.clump input=g output=m\n", {"g": comb(n)}),
        BEYOND,
    ),
    Dimension(
        "rows of noise, their patches and sizes",
        100,
        of_noise("r.clump input=g output=m\nr.stats -c input=m\n"),
        BEYOND,
    ),
    Dimension("rows written, noise", 100, of_noise("r.out.ascii input=g\n"), BEYOND),
    Dimension(
        "rows written, no two cells alike",
        100,
        of_distinct(lambda n: "r.out.ascii input=g\n"),
        BEYOND,
    ),
)
DIMENSIONS = (*GRIDS, *SCRIPTS, *RULES, *(assigned(*it) for it in EXPRESSIONS), *WINDOWS, *TABLES)


def counted(program, run):
    """Return the number of instructions of a run."""
    with tempfile.TemporaryDirectory() as folder:
        for name, text in {"script": run.script, **run.grids}.items():
            with open(f"{folder}/{name}.txt", "w", encoding="ascii", newline="") as file:
                file.write(text)
        named = [f"{name}={folder}/{name}.txt" for name in run.grids]
        words = [
            "valgrind",
            "--tool=callgrind",
            "--callgrind-out-file=/dev/null",
            program,
            f"{folder}/script.txt",
            *named,
        ]
        done = subprocess.run(words, stdout=subprocess.DEVNULL, stderr=subprocess.PIPE, text=True)
    if done.returncode != 0:
        raise SystemExit(
            f"a run ended with status {done.returncode}: {run.script[:200]}\n{done.stderr[-2000:]}"
        )
    return int(COLLECTED.search(done.stderr)[1])


def costs(program, dimension, empty):
    """Return the instructions per unit at each size."""
    for times in TIMES:
        size = dimension.least * times
        run = dimension.run(size)
        off = counted(program, Run("", run.grids)) if dimension.off == BEYOND else empty
        yield (counted(program, run) - off) / size


def row(dimension, found):
    sizes = ", ".join(f"{dimension.least * times:,}" for times in TIMES)
    growth = found[-1] / found[-2] if found[-2] > 0 else 1
    title = dimension.title + (f", {BEYOND}" if dimension.off == BEYOND else "")
    marked = f" (bends: {MOST:g})" if growth > MOST else ""
    return f"| {title} | {sizes} | {', '.join(f'{cost:,.0f}' for cost in found)} | {growth:.2f}{marked} |"


def rows(program, word):
    """Yield the lines of the table. One dimension is measured per processor at a time."""
    yield "| What grows | Sizes | Instructions a unit | Growth by the last doubling |"
    yield "| --- | --- | --- | --- |"
    wanted, empty = [it for it in DIMENSIONS if word in it.title], counted(program, EMPTY)
    with concurrent.futures.ThreadPoolExecutor(len(os.sched_getaffinity(0))) as pool:
        for dimension, found in zip(
            wanted, pool.map(lambda it: [*costs(program, it, empty)], wanted)
        ):
            yield row(dimension, found)


def main():
    parser = argparse.ArgumentParser()
    parser.add_argument("--program", default=f"{ROOT}/bin/rcell")
    parser.add_argument("--only", default="")
    parser.add_argument("--write", action="store_true")
    wanted = parser.parse_args()
    if not shutil.which("valgrind"):
        say("  valgrind is not installed: the dimensions are left out")
        return
    program = os.path.abspath(wanted.program)
    print_table(rows(program, wanted.only), MARKS, program, wanted.write)


if __name__ == "__main__":
    main()

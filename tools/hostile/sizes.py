"""Test the largest inputs, a stack of 64 KiB, memory per cell, and times as each kind of thing
grows."""
from __future__ import annotations

import math
import os
import random
import re
import resource
import signal
from dataclasses import dataclass
from typing import Callable

import model
from compare import Program, answer_of_model, read
from case_texts import Made, Report

STACK_KIB = 64
LEAST_STACK_KIB, STACK_STEP_KIB = 16, 1
MOST_FILES = min(resource.getrlimit(resource.RLIMIT_NOFILE)[1], 200000)
SPARE_FILES = 16
OUT_OF_TIME = -signal.SIGKILL
MOST_SECONDS = 30  # processor seconds
MOST_WORDS_KIB = 65536  # the kernel reserves a quarter of the stack for arguments
SIZES = (1000, 10000, 100000)
STEEPEST = 1.5  # the largest power of the number of things that a time may grow by, once it is longer than this
SLOW = 0.5

HEADER = b"north: %d\nsouth: 0\neast: %d\nwest: 0\nrows: %d\ncols: %d\n"


def grid(rows: int, cols: int, cell: Callable[[int, int], int]) -> bytes:
    lines = [b" ".join(b"%d" % cell(row, col) for col in range(cols)) for row in range(rows)]
    return HEADER % (rows, cols, rows, cols) + b"\n".join(lines) + b"\n"


ONE_CELL = grid(1, 1, lambda row, col: 1)


def over(text: bytes, script: bytes) -> Made:
    return Made({"script": script, "grid0": text}, [(b"g", "grid0")])


@dataclass(frozen=True)
class Spent:
    status: int
    seconds: float  # of a processor
    kib: int  # peak memory
    told: bytes
    output: bytes


HELD = re.compile(rb"VmHWM:\s*([0-9]+) kB")


def spent(program: Program, words: list[bytes], stack_kib: int = 0, shim: str = "") -> Spent:
    """Run the program and return its time. The stack may be limited, and memory is measured if a
    shim reports it."""
    limits = f'ulimit -c 0; ulimit -n {MOST_FILES}; ulimit -t {MOST_SECONDS}; ulimit -s {stack_kib or MOST_WORDS_KIB}; exec "$@"'
    whole = ["sh", "-c", limits, "sh", program.path, *words]
    more = {"LD_PRELOAD": shim, "DEVICE_STATUS": program.count} if shim else {}
    child = os.posix_spawn(
        "/bin/sh", whole, {"PATH": "/usr/bin:/bin", **more}, file_actions=program.actions
    )
    _, status, used = os.wait4(child, 0)
    seconds = used.ru_utime + used.ru_stime
    held = HELD.search(read(program.count)) if shim else None
    return Spent(
        os.waitstatus_to_exitcode(status),
        seconds,
        int(held[1]) if held else 0,
        read(program.told),
        read(program.output),
    )


# A small stack, and the largest inputs


def deep() -> dict[str, bytes]:
    """Return the expressions that nest deepest, each with 1000 tokens or the most that the grammar
    allows."""
    return {
        "997 signs": b"-" * 997 + b"g",
        "998 signs and no operand": b"-" * 998,
        "997 exclamation marks": b"!" * 997 + b"g",
        "498 parentheses": b"(" * 498 + b"g" + b")" * 498,
        "998 parentheses left open": b"(" * 998,
        "332 calls in each other": b"abs(" * 332 + b"g" + b")" * 332,
        "249 conditions on the right": b"g?1:" * 249 + b"2",
        "249 conditions in the middle": b"g?" * 249 + b"2" + b":1" * 249,
        "499 sums": b"g" + b"+1" * 498,
        "sums to the right": b"1+(" * 249 + b"g" + b")" * 249,
        "498 arguments": b"nmin(" + b",".join([b"g"] * 497) + b")",
        "199 ifs in each other": b"if(" * 199 + b"g" + b",1)" * 199,
        "offsets in each other": b"g[1,1]+(" * 99 + b"g" + b")" * 99,
    }


def on_stack(program: Program, made: Made, kib: int) -> model.Answer:
    got = spent(program, made.words, kib)
    return model.Answer(got.status, got.output, got.told)


def stack_needed(program: Program, made: Made, expected: model.Answer) -> int:
    """Return the smallest stack, to within a step, on which a run ends correctly."""
    few, enough = LEAST_STACK_KIB, STACK_KIB
    while enough - few > STACK_STEP_KIB:
        middle = (few + enough) // 2
        few, enough = (
            (few, middle) if on_stack(program, made, middle) == expected else (middle, enough)
        )
    return enough


def stack(report: Report, program: Program, cases: dict[str, Made], settings) -> None:
    """Test each case, and each deep expression over a few cells, on the small stack."""
    text = grid(3, 4, lambda row, col: row * col)
    made_deep = {
        f"a script of {name}": over(text, b"r.mapcalc x = %s\nr.out.ascii input=x\n" % body)
        for name, body in deep().items()
    }
    most = 0
    for name, made in {**cases, **made_deep}.items():
        program.put(made)
        expected = answer_of_model(made)
        if report.compare(
            f"stack of {STACK_KIB} KiB of {name}",
            made,
            expected,
            on_stack(program, made, STACK_KIB),
        ):
            report.check("")
            most = most if settings.short else max(most, stack_needed(program, made, expected))
    needed = f", none of which needs more than {most}" if most else ""
    print(
        f"stack: {len(cases)} cases and {len(made_deep)} deep expressions on a stack of {STACK_KIB} KiB{needed}",
        flush=True,
    )


def name_at(number: int) -> bytes:
    """Return short, distinct names other than g."""
    letters, name = b"abcdef_ABCDEFGHIJKLMNOPQRSTUVWXYZ", b""
    while True:
        number, letter = divmod(number, len(letters))
        name += letters[letter : letter + 1]
        if not number:
            return name


def fitting(head: list[bytes], many: list[bytes], tail: list[bytes]) -> tuple[bytes, int]:
    """Return a script of these lines with as many of the middle lines as fit, and their number."""
    left = model.LONGEST_SCRIPT - sum(len(line) + 1 for line in head + tail)
    count = 0
    for line in many:
        left -= len(line) + 1
        if left < 0:
            break
        count += 1
    return b"".join(line + b"\n" for line in head + many[:count] + tail), count


# Times as a kind of thing grows. Each kind makes a run of about this many things, and returns their
# exact number.

Kind = Callable[[int], tuple[Made, list[bytes], int]]


def of_script(
    head: list[bytes], many: list[bytes], tail: list[bytes], text: bytes = ONE_CELL
) -> tuple[Made, list[bytes], int]:
    script, count = fitting(head, many, tail)
    made = over(text, script)
    return made, made.words, count


def of_grid(text: bytes, script: bytes, count: int) -> tuple[Made, list[bytes], int]:
    made = over(text, script)
    return made, made.words, count


def in_rows(count: int, cell: Callable[[int], int]) -> bytes:
    """Return a grid with this many cells, at most 1000 per row."""
    cols = min(count, 1000)
    return grid(count // cols, cols, lambda row, col: cell(row * cols + col))


def grids(count: int):
    count = min(count, MOST_FILES - SPARE_FILES)
    made = over(ONE_CELL, b"r.stats -c input=%s\n" % name_at(count - 1))
    return made, [b"script", *(name_at(at) + b"=grid0" for at in range(count))], count


def statements(count: int):
    return of_script([], [b"r.stats input=g"] * count, [])


def names(count: int):
    return of_script([], [b"r.mapcalc %s=1" % name_at(at) for at in range(count)], [])


def names_in_a_chain(count: int):
    made = [name_at(at) for at in range(count)]
    return of_script(
        [], [b"r.mapcalc %s=%s" % (new, old) for new, old in zip(made, [b"g", *made])], []
    )


def rules(count: int):
    many = [b"%d=%d" % (at, at % 9) for at in range(count)]
    return of_script(
        [b"r.reclass input=g output=r"],
        many,
        [b"end", b"r.stats -c input=r"],
        in_rows(1000, lambda at: at),
    )


def rules_and_categories(count: int):
    many = [b"%d=%d" % (at, at % 9) for at in range(count)]
    return of_script(
        [b"r.reclass input=g output=r"],
        many,
        [b"end", b"r.stats -c input=r"],
        in_rows(count, lambda at: at),
    )


def ranges_in_ranges(count: int):
    """Return rules whose ranges each contain the next, and then the reverse."""
    inward = [b"%d thru %d=%d" % (at, 2 * count - at, at % 9) for at in range(count // 2)]
    return of_script(
        [b"r.reclass input=g output=r"],
        inward + inward[::-1],
        [b"end", b"r.stats -c input=r"],
        in_rows(count, lambda at: at),
    )


def ranges_of_a_rule(count: int):
    line = b" ".join(b"%d" % at for at in range(min(count, 11000))) + b"=1"
    made, words, _ = of_script(
        [b"r.reclass input=g output=r", line], [], [b"end"], in_rows(1000, lambda at: at)
    )
    return made, words, min(count, 11000)


def labels(count: int):
    many = [b"%d=%d a" % (at, at) for at in range(count)]
    return of_script(
        [b"r.reclass input=g output=r"],
        many,
        [b"end", b"r.stats -l input=r"],
        in_rows(1000, lambda at: at),
    )


def categories(count: int):
    return of_grid(in_rows(count, lambda at: at * 7919 % 1000003), b"r.stats -c input=g\n", count)


def areas(count: int):
    return of_grid(
        in_rows(count, lambda at: (at // 1000 + at % 1000) % 2),
        b"r.clump input=g output=c\nr.stats -c input=c\n",
        count,
    )


def combinations(count: int):
    script = b"r.mapcalc x = row()\nr.mapcalc y = col()\nr.stats -c input=g,x,y\n"
    return of_grid(in_rows(count, lambda at: at * 7919 % 1000003), script, count)


KINDS: dict[str, Kind] = {
    kind.__name__.replace("_", " "): kind
    for kind in (
        grids,
        statements,
        names,
        names_in_a_chain,
        rules,
        rules_and_categories,
        ranges_in_ranges,
        ranges_of_a_rule,
        labels,
        categories,
        areas,
        combinations,
    )
}


def time_of(program: Program, shim: str, kind: Kind, size: int) -> tuple[int, Spent]:
    made, words, count = kind(size)
    program.put(made)
    return count, spent(program, words, shim=shim)


def is_steep(times: list[tuple[int, Spent]]) -> bool:
    """Return whether the time grows much faster than the number of things, from one size to the
    next."""
    return any(
        late.status == OUT_OF_TIME
        or late.seconds > SLOW
        and math.log(late.seconds / max(early.seconds, 0.001)) > STEEPEST * math.log(more / less)
        for (less, early), (more, late) in zip(times, times[1:])
        if more > less
    )


def growing(report: Report, program: Program, shim: str) -> None:
    print(
        f"{'seconds and MB at':24} {SIZES[0]:>18,} {SIZES[1]:>18,} {SIZES[2]:>18,}, or as many as a script holds"
    )
    for name, kind in KINDS.items():
        times = [time_of(program, shim, kind, size) for size in SIZES]
        cells = [
            (
                f"over {MOST_SECONDS} s"
                if one.status == OUT_OF_TIME
                else f"{one.seconds:.2f} {one.kib / 1024:.0f}"
            )
            + ("" if count == size else f" ({count:,})")
            for size, (count, one) in zip(SIZES, times)
        ]
        print(f"{name:24} {cells[0]:>18} {cells[1]:>18} {cells[2]:>18}", flush=True)
        bad = [
            f"status {one.status}, {one.told!r}"
            for _, one in times
            if one.status not in (0, OUT_OF_TIME)
        ]
        report.runs += len(times)
        report.check(
            f"times of {name}", bad[0] if bad else "more than linear" if is_steep(times) else ""
        )


# The largest inputs


def sums_in_a_chain(count: int) -> Made:
    """Return a run in which each map is the previous map plus one, and the last is counted."""
    maps = [b"g", *(name_at(at) for at in range(count))]
    lines = [b"r.mapcalc %s=%s+1\n" % (new, old) for old, new in zip(maps, maps[1:])]
    return over(ONE_CELL, b"".join(lines) + b"r.stats -c input=%s\n" % maps[-1])


def greatest(report: Report, program: Program, shim: str) -> None:
    wide = (
        b"north: 1\nsouth: 0\neast: 65535\nwest: 0\nrows: 1\ncols: 65535\n" + b"1 2 3 4 5\n" * 13107
    )
    most = {
        "16 maps": (
            over(ONE_CELL, b"r.stats -c input=%s\n" % b",".join([b"g"] * 16)),
            b"1 " * 16 + b"1\n",
        ),
        "65535 columns": (
            over(wide, b"r.mapcalc x = g[0,255] * 2\nr.stats -c input=x\n"),
            b"2 13056\n4 13056\n6 13056\n8 13056\n10 13056\n* 255\n",
        ),
        "65535 rows": (
            over(
                HEADER % (65535, 1, 65535, 1) + b"7\n" * 65535,
                b"r.clump input=g output=c\nr.stats -c input=c\n",
            ),
            b"1 65535\n",
        ),
        "1200 maps made": (sums_in_a_chain(1200), b"1201 1\n"),
        "2000 grids": (None, b"1 1\n"),
    }
    for name, (made, output) in most.items():
        words = made.words if made else None
        if made is None:
            made, words, _ = grids(2000)
        program.put(made)
        one = spent(program, words, shim=shim)
        report.runs += 1
        good = (one.status, one.output, one.told) == (0, output, b"")
        report.check(
            f"sizes: {name}",
            "" if good else f"status {one.status}, told {one.told!r}, {one.output[:60]!r}",
        )
        print(f"sizes: {name}: {one.seconds:.2f} s, {one.kib // 1024} MB", flush=True)


# Memory a cell

SIDES = 1000, 2000
PATCH = 16
WORK = {
    "reading alone": b"# nothing\n",
    "r.stats -c": b"r.stats -c input=g\n",
    "r.stats -1": b"r.stats -1 input=g\n",
    "r.stats -c of two": b"r.stats -c input=g,g\n",
    "r.mapcalc": b"r.mapcalc x = g + 1\n",
    "r.mapcalc of nine cells": b"r.mapcalc x = "
    + b" + ".join(b"g[%d,%d]" % (row, col) for row in (-1, 0, 1) for col in (-1, 0, 1))
    + b"\n",
    "r.reclass": b"r.reclass input=g output=r\n1 thru 4 = 1 low\n* = 2 high\nend\n",
    "r.clump": b"r.clump input=g output=c\n",
    "r.clump -d": b"r.clump -d input=g output=c\n",
    "r.out.ascii": b"r.out.ascii input=g\n",
}


def patches_and_noise(side: int) -> dict[str, bytes]:
    """Return two square grids of eight categories: in patches, and with random cells."""
    choice = random.Random(1)
    patches = [
        [choice.randint(1, 8) for _ in range(side // PATCH + 1)] for _ in range(side // PATCH + 1)
    ]
    return {
        "patchy": grid(side, side, lambda row, col: patches[row // PATCH][col // PATCH]),
        "noise": grid(side, side, lambda row, col: choice.randint(1, 8)),
    }


def memory(report: Report, program: Program, shim: str) -> None:
    """Measure the bytes per cell of each command, from the difference between a larger and a
    smaller grid."""
    texts = {side: patches_and_noise(side) for side in SIDES}
    less, more = SIDES
    print(
        f"bytes a cell, {more}x{more} cells beyond {less}x{less}, MB of the larger, and its seconds"
    )
    print(f"{'':30} {'patchy':>20} {'noise':>20}")
    for name, script in WORK.items():
        cells = []
        for kind in ("patchy", "noise"):
            held = {}
            for side in SIDES:
                made = over(texts[side][kind], script)
                program.put(made)
                held[side] = spent(program, made.words, shim=shim)
                report.runs += 1
                report.check(
                    f"memory of {name}",
                    ""
                    if held[side].status == 0
                    else f"status {held[side].status}, {held[side].told!r}",
                )
            a_cell = (held[more].kib - held[less].kib) * 1024 / (more**2 - less**2)
            cells.append(f"{a_cell:.1f} {held[more].kib / 1024:.0f} {held[more].seconds:.2f}")
        print(f"{name:30} {cells[0]:>20} {cells[1]:>20}", flush=True)

#!/usr/bin/env python3
"""Send requests for tiles to rcell-pipe, and compare the responses with a plain model.

    test_tiles.py [--program PROGRAM] [--runs N] [--seed N]

- each error of a place by name
- N random scripts and questions over tiles of random maps, with halos that are large enough or too
  small: the response must be the plain model's
- N requests whose place is damaged

tools/join compares the tiles of a map with the full map, and damages requests.

The last line is 'N passed, M failed'.
"""
from __future__ import annotations

import argparse
import os
import random
import subprocess
import sys
from dataclasses import replace
from typing import Any, Iterator

import cases
import model
import run_model
from fuzz import damaged_bytes
from made_cases import NAMES, ScriptMaker
from model import Refused, ScriptReader
from pipe_model import BORDER, NUMBERS, PATCHES, Place, Question, Raster, Response, tile_request
from run_model import Halo, Statements
from test_pipe import BIN, known_names, random_edges, random_raster

SIZES = [(1, 1), (1, 30), (3, 5), (7, 40), (12, 12), (30, 1), (9, 17), (2, 3), (20, 6)]
SECONDS = 120
DEPTHS = [1, 1, 2, 3, 4]
MOST_HALO = 300

Span = tuple[int, int]  # first row or column, and their number


class Program:
    """Runs rcell-pipe."""

    def __init__(self, path: str):
        self.path = path

    def run(self, data: bytes) -> tuple[int, bytes]:
        """Return the status and the response."""
        ran = subprocess.run([self.path], input=data, stdout=subprocess.PIPE, timeout=SECONDS)
        return ran.returncode, ran.stdout


# Requests made at random


def random_maps(choice: random.Random) -> list[Raster]:
    rows, cols = choice.choice(SIZES)
    names = choice.sample(NAMES, choice.choice([1, 1, 2, 3]))
    edges = random_edges(choice)
    return [random_raster(choice, name, edges, rows, cols) for name in names]


def statements_of(names: list[bytes], script: bytes) -> Statements:
    return ScriptReader(script, names).read()


def random_script(choice: random.Random, names: list[bytes]) -> bytes:
    """Return a valid script. Few scripts print labels, which are an error in a tile."""
    maker = ScriptMaker(choice)
    makers = [
        maker.stats,
        maker.out_ascii,
        maker.mapcalc,
        maker.mapcalc,
        maker.reclass,
        maker.clump,
    ]
    while True:
        known, lines = list(names), []
        for _ in range(choice.randint(1, 6)):
            lines += choice.choice(makers)(known)
        lines += [b"r.out.ascii input=" + name for name in known if name not in names]
        script = b"\n".join(lines) + b"\n"
        try:
            statements = statements_of(names, script)
        except Refused:
            continue  # an expression is too long
        has_labels = any(isinstance(it, model.Stats) and b"l" in it.flags for _, it in statements)
        if not has_labels or choice.random() < 0.1:
            return script


def random_spans(choice: random.Random, size: int) -> list[Span]:
    """Cut rows or columns into spans."""
    cuts = sorted(choice.sample(range(1, size), choice.randint(0, min(3, size - 1))))
    ends = [0, *cuts, size]
    return [(first, last - first) for first, last in zip(ends, ends[1:])]


def widened(choice: random.Random, span: Span, size: int, least: int) -> Span:
    """Return a span with a halo of at least some rows or columns, or up to the full map's end."""
    before, after = (least + choice.choice([0, 0, 1, 3]) for _ in range(2))
    first = max(0, span[0] - before)
    return first, min(size, span[0] + span[1] + after) - first


def place_of(
    maps: list[Raster], rows: Span, cols: Span, outer_rows: Span, outer_cols: Span
) -> Place:
    size = len(maps[0].rows), len(maps[0].rows[0])
    return Place(*size, outer_rows[0], outer_cols[0], rows[0], cols[0], rows[1], cols[1])


def cut_rows(rows: list[list[Any]], height: Span, width: Span) -> list[list[Any]]:
    return [row[width[0] : width[0] + width[1]] for row in rows[height[0] : height[0] + height[1]]]


def cut_maps(maps: list[Raster], height: Span, width: Span) -> list[Raster]:
    return [
        replace(
            it,
            rows=cut_rows(it.rows, height, width),
            mask=it.mask and cut_rows(it.mask, height, width),
            text=None,
        )
        for it in maps
    ]


def least_halo(names: list[bytes], script: bytes) -> int:
    """Return the smallest halo that is enough for a script, in rows and columns, or 0 if no halo
    is."""
    statements = statements_of(names, script)
    enough = (halo for halo in range(MOST_HALO) if not Halo((halo,) * 4).fault(statements))
    return next(enough, 0)


def random_questions(choice: random.Random, names: list[bytes], script: bytes) -> list[Question]:
    known = sorted(known_names(names, script))

    def name() -> bytes:
        return b"nowhere" if choice.random() < 0.02 else choice.choice(known)

    def question(kind: int) -> Question:
        zones = choice.choice([b"", name()]) if kind & PATCHES else b""
        return Question(name(), choice.choice([4, 8]), choice.choice(DEPTHS), zones, kind)

    return [question(choice.randint(1, 7)) for _ in range(choice.choice([0, 1, 1, 2]))]


def random_request(choice: random.Random) -> bytes:
    """Return a request for a tile, whose halo is often enough for the script and the questions."""
    maps = random_maps(choice)
    names = [it.name for it in maps]
    script = random_script(choice, names)
    questions = random_questions(choice, names, script)
    deepest = max((it.depth for it in questions), default=0)
    least = choice.choice([0, 2, *[least_halo(names, script) + deepest] * 2])
    sizes = len(maps[0].rows), len(maps[0].rows[0])
    tile = [choice.choice(random_spans(choice, size)) for size in sizes]
    outer = [widened(choice, span, size, least) for span, size in zip(tile, sizes)]
    place = place_of(maps, *tile, *outer)
    return tile_request(place, cut_maps(maps, *outer), script, questions)


# What is wrong, or ''


def wrong_response(program: Program, data: bytes) -> str:
    wrong = run_model.wrong_run(data, *program.run(data))
    return f"{data!r}: {wrong}" if wrong else ""


def named_errors() -> Iterator[tuple[str, bytes]]:
    """Yield a request for each error of a place, with the error's text."""
    land = Raster(b"land", (b"2", b"0", b"3", b"0"), 1, [[1, 1, 2], [2, 2, 255]], 255)
    good = Place(10, 20, 4, 5, 4, 6, 2, 2)
    script = b"r.stats -c input=land\n"
    most = 2**31 - 1
    for wrong in (
        replace(good, tile_rows=0),
        replace(good, tile_cols=0),
        replace(good, tile_rows=3),
        replace(good, tile_cols=3),
        replace(good, tile_top=3),
        replace(good, tile_left=4),
        replace(good, full_rows=5),
        replace(good, full_cols=7),
        replace(good, full_rows=0),
        replace(good, full_rows=most + 1),
        replace(good, full_cols=most + 1),
        replace(good, top=9, tile_top=9, tile_rows=1),
        replace(good, top=2**32 - 1, tile_top=2**32 - 1),
        replace(good, tile_top=2**32 - 1, tile_rows=2**32 - 1),
    ):
        yield "bad place", tile_request(wrong, [land], script)
    outside = replace(good, tile_rows=3)
    yield "bad place", tile_request(outside, [replace(land, name=b"1")], script)
    yield "bad region", tile_request(
        outside, [replace(land, edges=(b"2", b"2", b"3", b"0"))], script
    )
    yield "", tile_request(good, [land], script)
    yield "", tile_request(replace(good, full_rows=most, full_cols=most), [land], script)
    yield "", tile_request(replace(good, full_rows=6, full_cols=8), [land], script)
    yield "labels in a tile", tile_request(good, [land], b"r.stats -l input=land\n")
    yield "halo too small", tile_request(good, [land], b"r.mapcalc a = land[-1,0]\n")
    yield "halo too small", tile_request(good, [land], b"r.mapcalc a = land[0,-2]\n")
    yield "", tile_request(good, [land], b"r.mapcalc a = land[0,-1]\n")
    yield "halo too small", tile_request(good, [land], script, [Question(b"land")])
    yield "", tile_request(good, [land], script, [Question(b"land", kind=NUMBERS + BORDER)])
    yield "bad magic", b"RCELLW2" + tile_request(good, [land], script)[7:]
    yield "bytes after the request", tile_request(good, [land], script) + b"\n"


def check_errors(program: Program, count: cases.Count) -> None:
    for number, (text, data) in enumerate(named_errors()):
        said = Response(program.run(data)[1]).frames()[-1]["text"].decode()
        count.add(f"error {number}, {text}", "" if said == text else f"{said!r}")
        count.add(f"the position of error {number}, {text}", wrong_response(program, data))


def check_random(program: Program, count: cases.Count, choice: random.Random, runs: int) -> None:
    for number in range(runs):
        data = random_request(choice)
        count.add(f"request {number}", wrong_response(program, data))
        front = run_model.TILE + damaged_bytes(choice, data[8:48])
        count.add(f"damaged place {number}", wrong_response(program, front + data[48:]))


def main() -> int:
    words = argparse.ArgumentParser(
        description=__doc__, formatter_class=argparse.RawDescriptionHelpFormatter
    )
    words.add_argument("--program", default=f"{BIN}/rcell-pipe")
    words.add_argument("--runs", type=int, default=400)
    words.add_argument("--seed", type=int, default=1)
    given, count = words.parse_args(), cases.Count()
    choice = random.Random(given.seed)
    program = Program(os.path.abspath(given.program))
    check_errors(program, count)
    check_random(program, count, choice, given.runs)
    print(f"{count.passed} passed, {count.failed} failed")
    return 1 if count.failed else 0


if __name__ == "__main__":
    sys.exit(main())

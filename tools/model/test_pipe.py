#!/usr/bin/env python3
"""Compare rcell-pipe with rcell on the same maps as text, and with a plain model.

    test_pipe.py [CLANG] [--program PROGRAM] [--rcell PROGRAM] [--runs N] [--seed N]

- N random requests of all types, with nodata, masks, labels and scripts of tools/model/fuzz.py: the
  printed frames must be the output of rcell, and errors of scripts the errors of rcell. As text,
  the response must be this output or error. With questions, the response must be the model's.
- N random grid texts, many with errors: the response must be what rcell prints for such a file
- the request of the crate rcell_pipe, and the response that the gate compares with the proved
  program's
- each error of a request by name: the response must be the model's
- a caller that stops reading, a request that announces a large map, and, with CLANG, each growth,
  read and write that fails

The last line is 'N passed, M failed'.
"""
from __future__ import annotations

import argparse
import os
import random
import re
import resource
import select
import struct
import subprocess
import sys
import tempfile
from dataclasses import replace
from typing import Iterator, Optional

import cases
import run_model
from made_cases import NAMES, GridMaker, ScriptMaker
from model import Refused, ScriptReader
from model_grids import GridText, Told, coordinate_text
from pipe_model import (
    NULL,
    NUMBERS,
    PATCHES,
    SIDES,
    TEXT_GRID,
    TYPES,
    UNITS,
    Edges,
    Frame,
    Question,
    Raster,
    Response,
    grid_text,
    printed,
    request,
)

ROOT = os.path.abspath(f"{__file__}/../../..")
BIN = os.environ.get("RCELL_BIN", f"{ROOT}/bin")
SIZES = [(1, 1), (1, 70), (3, 5), (7, 130), (40, 1), (9, 64), (5, 65), (2, 3), (4, 4)]
LABELS = [b"wood", b"a b", b"x", b"l\xc3\xa4nge"]
STATUS_DONE, STATUS_REJECTED, STATUS_MEMORY, STATUS_FAILED = 0, 1, 3, 4
MESSAGE = re.compile(rb"rcell: script:(\d+): (.*?(?: at column (\d+))?)\n")
MOST_MEMORY = 64 << 20  # for a program with a large header and no rows
MOMENT = 0.3  # seconds after which a program would have written
SECONDS = 120


class Programs:
    """Runs rcell-pipe and rcell in a folder."""

    def __init__(self, pipe: str, rcell: str, room: str):
        self.pipe, self.rcell, self.room = pipe, rcell, room

    def run(self, data: bytes, **more: str) -> tuple[int, bytes]:
        ran = subprocess.run(
            [self.pipe],
            input=data,
            stdout=subprocess.PIPE,
            timeout=SECONDS,
            env={"PATH": "/usr/bin:/bin", **more},
        )
        return ran.returncode, ran.stdout

    def frames(self, data: bytes, **more: str) -> list[Frame]:
        """Return the frames of a response, which contains the exit status of the process."""
        status, output = self.run(data, **more)
        frames = Response(output).frames()
        if frames[-1]["status"] != status:
            raise ValueError(f"status {status}, and {frames[-1]}")
        return frames

    def over_text(self, maps: list[Raster], script: bytes) -> tuple[int, bytes, bytes, int]:
        """Return rcell's result for the same maps as grids, and the number of lines added to its
        script to set labels with r.reclass."""
        words, before = [b"script"], b""
        for place, it in enumerate(maps):
            self.put(f"{place}", grid_text(it.edges, it.cells()))
            words.append(b"q%d=%d" % (place, place))
            labels = b"".join(
                b"%d = %d %s\n" % (category, category, text)
                for category, text in dict(it.labels).items()
            )
            before += b"r.reclass input=q%d output=%s\n%s* = *\nend\n" % (place, it.name, labels)
        self.put("script", before + script)
        ran = subprocess.run(
            [self.rcell, *words],
            cwd=self.room,
            stdin=subprocess.DEVNULL,
            capture_output=True,
            timeout=SECONDS,
        )
        return ran.returncode, ran.stdout, ran.stderr, before.count(b"\n")

    def put(self, name: str, text: bytes) -> None:
        with open(os.path.join(self.room, name), "wb") as file:
            file.write(text)


# Requests made at random


def random_raster(choice: random.Random, name: bytes, edges: Edges, rows: int, cols: int) -> Raster:
    code = choice.randint(1, 7)
    _, smallest, largest = TYPES[code]
    low, high = max(smallest, choice.choice([-2, -300, NULL + 1])), min(
        largest, choice.choice([3, 300, 254, 2**31 - 1])
    )
    nodata = choice.choice([None, low, high, smallest, largest])
    mask = (
        [[choice.randint(0, 1) for _ in range(cols)] for _ in range(rows)]
        if choice.random() < 0.3
        else None
    )
    table = []
    for place in range(rows):
        number, row = choice.randint(low, high), []
        for column in range(cols):
            number = number if choice.random() < 0.6 else choice.randint(low, high)
            row.append(
                choice.randint(smallest, largest) if mask and mask[place][column] else number
            )
        table.append(row)
    labels = [
        (choice.randint(low, high), choice.choice(LABELS))
        for _ in range(choice.choice([0, 0, 1, 4]))
    ]
    found = Raster(name, edges, code, table, nodata, mask, labels)
    return as_text_grid(choice, found) if choice.random() < 0.2 else found


def as_text_grid(choice: random.Random, it: Raster) -> Raster:
    """Return the same map as a text, in one of many spellings."""
    maker, cells = GridMaker(choice), it.cells()
    maker.badness, maker.cols = 0, len(cells[0])
    null = choice.choice([b"*", b"*", b"NA", b"x" * 59])
    sizes = (b"rows", b"%d" % len(cells)), (b"cols", b"%d" % len(cells[0])), (b"null", null)
    lines = [*zip(SIDES, it.edges), *(sizes if null != b"*" else sizes[:2])]
    choice.shuffle(lines)
    words = [null if cell is None else maker.spelled(cell) for row in cells for cell in row]
    text = maker.laid_out([maker.header_line(*line) for line in lines], words)
    rows = [[NULL if cell is None else cell for cell in row] for row in cells]
    return Raster(it.name, it.edges, TEXT_GRID, rows, NULL, None, it.labels, text)


def random_edges(choice: random.Random) -> Edges:
    """Return north, south, east and west as texts, which may differ from rcell's spelling."""
    south, west = (
        choice.choice([0, 1, -1, -99999999, 5 * 10**7, choice.randint(-(10**17), 10**17)])
        for _ in range(2)
    )
    north, east = (
        edge + choice.choice([1, 10**8, choice.randint(1, 10**16)]) for edge in (south, west)
    )
    return tuple(coordinate(choice, units) for units in (north, south, east, west))


def coordinate(choice: random.Random, units: int) -> bytes:
    """Return one of the texts for a number of units, with or without insignificant zeros."""
    sign = "-" if units < 0 else choice.choice(["", "", "+"])
    whole, part = divmod(abs(units), UNITS)
    digits = f"{part:08}"
    decimals = digits if choice.random() < 0.3 else digits.rstrip("0")
    return f"{sign}{whole}{'.' if decimals else ''}{decimals}".encode()


def known_names(names: list[bytes], script: bytes) -> set[bytes]:
    """Return the names of all maps at the end of a script, or up to its first error."""
    reader = ScriptReader(script, names)
    try:
        reader.read()
    except Refused:
        pass
    return reader.known


def random_questions(
    choice: random.Random, names: list[bytes], script: bytes, badness: float
) -> list[Question]:
    known = sorted(known_names(names, script))

    def name(others: list[bytes]) -> bytes:
        return choice.choice(others if choice.random() < badness else known)

    def zones(kind: int) -> bytes:
        is_empty = not kind & PATCHES and choice.random() >= badness
        return choice.choice([b"", b"" if is_empty else name([b"nowhere", b"2", b"a" * 65])])

    def question(kind: int) -> Question:
        depth = choice.choice([1, 1, 2, 3, 40, 2**32 - 1])
        return Question(name([b"", b"nowhere"]), choice.choice([4, 8]), depth, zones(kind), kind)

    return [
        question(choice.choice([0, 8, 255]) if choice.random() < badness else choice.randint(1, 7))
        for _ in range(choice.choice([0, 0, 1, 1, 2, 4]))
    ]


def random_request(choice: random.Random) -> tuple[list[Raster], bytes, list[Question]]:
    rows, cols = choice.choice(SIZES)
    names = choice.sample(NAMES, choice.choice([1, 1, 2, 3]))
    maker = ScriptMaker(choice)
    maker.badness = choice.choice([0, 0, 0, 0.02, 0.1])
    edges = random_edges(choice)
    maps = [random_raster(choice, name, edges, rows, cols) for name in names]
    script = maker.script(names)
    return maps, script, random_questions(choice, names, script, maker.badness)


# What is wrong, or ''


def as_text(data: bytes) -> bytes:
    """Return the same request for text."""
    return b"RCELLT1\n" + data[8:] if data.startswith(b"RCELLQ1\n") else data


def wrong_run(programs: Programs, maps: list[Raster], script: bytes) -> str:
    """Return the error in the response to an accepted request, compared with rcell."""
    data = request(maps, script)
    *frames, end = programs.frames(data)
    status, output, message, before = programs.over_text(maps, script)
    if end["status"] != status:
        return f"{end}; rcell: {status} {message!r}; {script!r}"
    as_rcell = (status, output) if status == STATUS_DONE else programs.run(data)
    if programs.run(as_text(data)) != as_rcell:
        return f"{script!r}: as text {programs.run(as_text(data))} is not {as_rcell}"
    if status == STATUS_DONE:
        text = b"".join(map(printed, frames))
        return "" if text == output else f"{script!r}: {text!r} is not {output!r}"
    found = MESSAGE.fullmatch(message)
    if found is None:
        return f"rcell says {message!r}"
    wanted = (2, 0, int(found[1]) - before, int(found[3] or 0), found[2])
    got = tuple(end[key] for key in ("source", "maps", "line", "column", "text"))
    return (
        ""
        if got == wanted and not frames
        else f"{script!r}: {got} is not {wanted}, after {len(frames)} frames"
    )


def wrong_response(programs: Programs, data: bytes) -> str:
    """Return the error in the response as frames or as text, compared with the plain model."""
    for form in (data, as_text(data)):
        wrong = run_model.wrong_run(form, *programs.run(form))
        if wrong:
            return f"{form!r}: {wrong}"
    return ""


def named_errors() -> Iterator[tuple[str, bytes]]:
    """Yield a request for each error in docs/pipe.md, with the error's text."""
    land = Raster(b"land", (b"2", b"0", b"3", b"0"), 1, [[1, 1, 2], [2, 2, 255]], 255)
    zone, script = replace(land, name=b"zone"), b"r.stats -c input=land\n"
    good = request([land, zone], script)
    yield "bad magic", b"RCELLQ2" + good[7:]
    yield "bad magic", good.replace(b"\n", b"\r\n", 1)
    yield "bad number", request([replace(land, edges=(b"2", b"0", b"3", b"1e1"))], script)
    yield "bad number", request([replace(land, edges=(b"2", b"0.123456789", b"3", b"0"))], script)
    yield "bad region", request([replace(land, edges=(b"0", b"2", b"3", b"0"))], script)
    for rows, cols, maps, text in (
        (65536, 3, 2, "bad region"),
        (65535, 32769, 2, "bad region"),
        (0, 3, 2, "bad region"),
        (2, 0, 0, "bad region"),
        (2, 3, 0, "bad number of maps"),
        (2, 3, 65536, "bad number of maps"),
    ):
        yield text, good.replace(
            struct.pack("<III", 2, 3, 2), struct.pack("<III", rows, cols, maps), 1
        )
    yield "bad name", request([land, replace(zone, name=b"1")], script)
    yield "name used twice", request([land, land], script)
    yield "bad type", request([land], script).replace(
        struct.pack("<BB", 1, 1) + struct.pack("<q", 255), struct.pack("<BBq", 9, 1, 255), 1
    )
    yield from named_errors_of_text_grids(land, script)
    yield "bad flags", request([land], script).replace(
        struct.pack("<BBq", 1, 1, 255), struct.pack("<BBq", 1, 4, 255), 1
    )
    yield "bad nodata", request([replace(land, nodata=256)], script)
    yield "bad nodata", request([land], script).replace(
        struct.pack("<BBq", 1, 1, 255), struct.pack("<BBq", 1, 0, 255), 1
    )
    yield "bad label", request([replace(land, labels=[(NULL, b"x")])], script)
    yield "bad label", request([replace(land, labels=[(1, b"a\nb")])], script)
    yield "bad mask", request(
        [
            replace(
                land,
                type=6,
                rows=[[1, 1, 2], [NULL, 2, 3]],
                nodata=None,
                mask=[[0, 0, 0], [0, 0, 2]],
            )
        ],
        script,
    )
    yield "cell out of range", request(
        [land, replace(zone, type=7, rows=[[1, 1, 2], [2, 2**31, 3]], nodata=None)], script
    )
    yield "script too long", request([land], b"#" * 1048577)
    yield from named_errors_of_questions([land, zone], script)
    yield "bytes after the request", good + b"\n"
    yield "bytes after the request", good + good
    yield "request too short", b""


def named_errors_of_text_grids(land: Raster, script: bytes) -> Iterator[tuple[str, bytes]]:
    """Yield a request for each error of a text grid."""
    text, zone = grid_text(land.edges, land.cells()), replace(land, name=b"zone", type=TEXT_GRID)
    good, maps = request([land, zone], script), [land, zone]
    format_of_texts = struct.pack("<BBq", TEXT_GRID, 0, 0)
    for flags, number, words in ((1, 0, "bad flags"), (4, 0, "bad flags"), (0, 255, "bad nodata")):
        yield words, good.replace(format_of_texts, struct.pack("<BBq", TEXT_GRID, flags, number), 1)
    yield "request too short", good[: good.index(text) + len(text) - 1]
    yield "request too short", good.replace(struct.pack("<Q", len(text)), b"\xff" * 8, 1)
    yield "bad label", request([replace(zone, labels=[(1, b"a\nb")], text=b"x")], script)
    for old, new, words in (
        (b"west: 0", b"west: 1", "other region"),
        (b"rows: 2\ncols: 3", b"rows: 3\ncols: 2", "other region"),
        (b"north: 2", b"north: 2 2", "bad header line"),
        (b"south", b"north", "key given twice"),
        (b"rows: 2\n", b"", "missing key"),
        (b"cols: 3", b"cols: 3.5", "bad number"),
        (b"cols: 3", b"cols: 3\ntype: float", "type not supported"),
        (b"rows: 2", b"rows: 0", "bad region"),
        (b" *", b" a", "bad cell"),
        (b" *", b" 2147483648", "cell out of range"),
        (b" *", b"", "too few cells"),
        (b" *", b" * *", "too many cells"),
        (b" *", b" *" + b" " * 1048577, "too many blanks"),
        (b" *", b" " + b"1" * 65, "token too long"),
    ):
        yield words, request([*maps[:1], replace(zone, text=text.replace(old, new, 1))], script)
    yield "missing key", request([replace(zone, text=b"")], script)


def named_errors_of_questions(maps: list[Raster], script: bytes) -> Iterator[tuple[str, bytes]]:
    """Yield a request for each error of a question."""
    first = Question(b"land")
    yield "bad question", request(maps, script, [replace(first, kind=0)])
    yield "bad question", request(maps, script, [first, replace(first, kind=8)])
    yield "bad connectivity", request(maps, script, [replace(first, connectivity=6)])
    yield "bad depth", request(maps, script, [first, first, replace(first, depth=0)])
    yield "bad zones", request(maps, script, [replace(first, map=b"lan", zones=b"2")])
    yield "bad zones", request(maps, script, [first, replace(first, zones=b"a" * 65)])
    yield "bad zones", request(maps, script, [replace(first, kind=6, zones=b"land")])
    yield "bad depth", request(maps, script, [replace(first, depth=0, zones=b"2")])
    yield "unknown map", request(maps, script, [first, replace(first, zones=b"lan")])
    yield "unknown map", request(maps, script, [first, replace(first, map=b"lan")])
    yield "unknown map", request(maps, script, [replace(first, map=b"")])
    yield "unknown map", request(maps, script, [replace(first, map=b"made")])
    yield "question for a text", as_text(request(maps, script, [replace(first, map=b"lan")]))
    yield "request too short", request(maps, script)[:-4] + struct.pack("<I", 2**32 - 1)
    yield "request too short", request(maps, script, [first, first])[:-1]
    yield "bytes after the request", request(maps, script, [first]) + b"\0"


def wrong_crate(programs: Programs) -> str:
    """Return the error in the request and response in the crate's folder, or ''."""
    with open(f"{ROOT}/crates/rcell_pipe/stdin", "rb") as file:
        data = file.read()
    with open(f"{ROOT}/crates/rcell_pipe/stdout", "rb") as file:
        response = file.read()
    if programs.run(data) != (STATUS_DONE, response):
        return "the response is another"
    return wrong_response(programs, data)


def check_errors(programs: Programs, count: cases.Count) -> None:
    for text, data in named_errors():
        said = programs.frames(data)[-1]["text"].decode()
        count.add(f"the error {text}", "" if said == text else f"{said!r}")
        count.add(f"the place of {text}", wrong_response(programs, data))


def check_random(programs: Programs, count: cases.Count, choice: random.Random, runs: int) -> None:
    for number in range(runs):
        maps, script, questions = random_request(choice)
        count.add(f"request {number}, by rcell", wrong_run(programs, maps, script))
        data = request(maps, script, questions)
        count.add(f"request {number}, by the model", wrong_response(programs, data))


def wrong_text(programs: Programs, text: bytes) -> str:
    """Return the error in the response to a map that is sent as a text, compared with rcell's
    output for this text in a file. If it has an error, its region is unknown."""
    found, script = GridText(text).read(), b"r.stats -cn input=g\n"
    region, edges = None if isinstance(found, Told) else found.region, (b"2", b"0", b"3", b"0")
    rows = [[0]] if region is None else [[0] * region.cols] * region.rows
    if region is not None:
        sides = region.north, region.south, region.east, region.west
        edges = tuple(map(coordinate_text, sides))
    data = request([Raster(b"g", edges, TEXT_GRID, rows, text=text)], script)
    programs.put("text", text)
    programs.put("script", script)
    ran = subprocess.run(
        [programs.rcell, b"script", b"g=text"],
        cwd=programs.room,
        stdin=subprocess.DEVNULL,
        capture_output=True,
        timeout=SECONDS,
    )
    *frames, end = programs.frames(data)
    message = b"rcell: g:%d: %s\n" % (end["line"], end["text"]) if end["status"] else b""
    same = b"".join(map(printed, frames)), message, end["status"], end["source"], end["maps"]
    wanted = ran.stdout, ran.stderr, ran.returncode, int(ran.returncode != 0), 0
    return "" if same == wanted else f"{text!r}: {same} is not {wanted}"


def check_texts(programs: Programs, count: cases.Count, choice: random.Random, runs: int) -> None:
    for number in range(runs):
        maker = GridMaker(choice)
        maker.badness = choice.choice([0, 0.005, 0.02, 0.1])
        count.add(f"text {number}", wrong_text(programs, maker.grid()))


# What the system does


def wide_request() -> bytes:
    """Return a request whose response fills a pipe several times."""
    rows = [[column % 250 for column in range(1000)]] * 400
    return request(
        [Raster(b"land", (b"400", b"0", b"1000", b"0"), 1, rows)], b"r.out.ascii input=land\n" * 3
    )


def wrong_stop(programs: Programs, data: bytes, taken: int) -> str:
    """Return the error if the program does not end when its caller stops reading a long
    response."""
    with subprocess.Popen(
        [programs.pipe], stdin=subprocess.PIPE, stdout=subprocess.PIPE, stderr=subprocess.PIPE
    ) as ran:
        assert ran.stdin and ran.stdout
        ran.stdin.write(data)
        ran.stdin.close()
        ran.stdout.read(taken)
        ran.stdout.close()
        status = ran.wait(SECONDS)
    return "" if status in (STATUS_FAILED, -13) else f"status {status}"


def limit_memory() -> None:
    resource.setrlimit(resource.RLIMIT_AS, (MOST_MEMORY, MOST_MEMORY))


def wrong_announcement(programs: Programs, rows: int, cols: int, labels: int) -> str:
    """Return the error for a header that announces cells or labels but provides none, with little
    memory."""
    data = (
        b"RCELLQ1\n\0011\0010\0011\0010"
        + struct.pack("<III", rows, cols, 1)
        + b"\4land"
        + struct.pack("<BBqI", 6, 0, 0, labels)
    )
    ran = subprocess.run(
        [programs.pipe],
        input=data,
        stdout=subprocess.PIPE,
        preexec_fn=limit_memory,
        timeout=SECONDS,
    )
    end = Response(ran.stdout).frames()[-1]
    return (
        ""
        if (ran.returncode, end["text"]) == (STATUS_REJECTED, b"request too short")
        else f"status {ran.returncode}, {end}"
    )


def wrong_order(programs: Programs) -> str:
    """Return the error if a response begins before the request is complete."""
    data = few_bytes()
    with subprocess.Popen([programs.pipe], stdin=subprocess.PIPE, stdout=subprocess.PIPE) as ran:
        assert ran.stdin and ran.stdout
        ran.stdin.write(data[: len(data) // 2])
        ran.stdin.flush()
        is_early = bool(select.select([ran.stdout], [], [], MOMENT)[0])
        ran.stdin.write(data[len(data) // 2 :])
        ran.stdin.close()
        output = ran.stdout.read()
    return (
        "bytes before the end of the request"
        if is_early
        else ""
        if (ran.returncode, output) == programs.run(data)
        else f"status {ran.returncode}"
    )


def few_bytes() -> bytes:
    first = Question(b"b", 8, 2, zones=b"land")
    numbers = Question(b"land", kind=NUMBERS)
    return request(*few_maps(), [first, numbers, Question(b"k", zones=b"k", kind=7)])


def text_bytes() -> bytes:
    """Return a request for text, without questions."""
    return as_text(request(*few_maps()))


def few_maps() -> tuple[list[Raster], bytes]:
    land = Raster(
        b"land",
        (b"2", b"0", b"3", b"0"),
        6,
        [[1, 1, 2], [2, 700, 255]],
        255,
        [[0, 0, 1], [0, 0, 0]],
        [(1, b"wood"), (2, b"x")],
    )
    script = b"r.mapcalc b = land + 1\nr.clump input=b output=k\nr.stats -cl input=land,k\nr.stats -1 input=land\n"
    script += b"r.stats -1nl input=land,k\nr.out.ascii input=b\n"
    town = Raster(
        b"town", land.edges, TEXT_GRID, [[1, NULL, 2], [2, 700, 1]], NULL, labels=land.labels
    )
    return [land, replace(land, name=b"zone", type=4), town], script


def wrong_growths(programs: Programs, shim: str) -> str:
    """Deny each growth of memory in turn. Either all is done, or the last frame reports, after
    complete frames, that memory ran out."""
    data, counter = few_bytes(), os.path.join(programs.room, "count")
    wanted, at, asked = programs.frames(data), 0, 1
    while at < asked:
        at += 1
        *frames, end = programs.frames(
            data, LD_PRELOAD=shim, REFUSE_AT=str(at), REFUSE_COUNT=counter
        )
        with open(counter, encoding="ascii") as file:
            asked = int(file.read())
        is_end = (
            end == wanted[-1]
            if end["status"] == STATUS_DONE
            else (end["status"], end["source"], end["text"]) == (STATUS_MEMORY, 0, b"no memory")
        )
        if not is_end or frames != wanted[: len(frames)]:
            return f"with growth {at} refused: {end}"
    return ""


def wrong_text_growths(programs: Programs, shim: str) -> str:
    """Deny each growth of memory in turn. The text must be complete, or the text of the first
    statements, or the request is rejected."""
    data, counter = text_bytes(), os.path.join(programs.room, "count")
    texts = [printed(frame) for frame in programs.frames(few_bytes())[:-1]]
    starts = [b"".join(texts[:count]) for count in range(len(texts) + 1)]
    at, asked = 0, 1
    while at < asked:
        at += 1
        status, output = programs.run(
            data, LD_PRELOAD=shim, REFUSE_AT=str(at), REFUSE_COUNT=counter
        )
        with open(counter, encoding="ascii") as file:
            asked = int(file.read())
        is_end = (
            output.startswith(b"RCELLA1\n")
            and Response(output).frames()[-1]["text"] == b"no memory"
        )
        if not (
            output == starts[-1]
            if status == STATUS_DONE
            else status == STATUS_MEMORY and (is_end or output in starts)
        ):
            return f"with growth {at} refused: status {status}, {output!r}"
    return ""


def wrong_devices(programs: Programs, shim: str) -> str:
    """Return the error when the system fails, for a request of either form."""
    return wrong_device(programs, shim, few_bytes()) or wrong_device(programs, shim, text_bytes())


def wrong_device(programs: Programs, shim: str, data: bytes) -> str:
    """Make each read fail or end once, limit reads and writes to few bytes, and make each write
    fail."""
    wanted = programs.run(data)
    for piece in (1, 7, 64):
        if (
            programs.run(data, LD_PRELOAD=shim, READ_PIECE=str(piece), WRITE_PIECE=str(piece))
            != wanted
        ):
            return f"by pieces of {piece} bytes"
    for at in range(1, len(data) // 7 + 2):
        for once in ("0", "1"):
            end = programs.frames(
                data, LD_PRELOAD=shim, READ_PIECE="7", READ_FAILS=str(at), READ_ONCE=once
            )[-1]
            if (end["status"], end["text"]) != (STATUS_FAILED, b"read failed"):
                return f"read {at} fails: {end}"
        if (
            at * 7 < len(data)
            and programs.frames(data, LD_PRELOAD=shim, READ_PIECE="7", READ_ENDS=str(at))[-1][
                "text"
            ]
            != b"request too short"
        ):
            return f"read {at} ends"
    status, output, at = STATUS_FAILED, b"", 0
    while status == STATUS_FAILED:
        at, before = at + 1, output
        status, output = programs.run(data, LD_PRELOAD=shim, WRITE_PIECE="7", WRITE_FAILS=str(at))
        if (
            not wanted[1].startswith(output)
            or not output.startswith(before)
            or (at == 1 and output)
        ):
            return f"write {at} fails: {len(output)} bytes"
    return "" if (status, output) == wanted else f"{at} writes, status {status}"


def check_system(programs: Programs, count: cases.Count, clang: Optional[str]) -> None:
    for taken in (0, 1, 100_000):
        for data in (wide_request(), as_text(wide_request())):
            count.add(
                f"a caller of {data[:7]!r} that stops after {taken} bytes",
                wrong_stop(programs, data, taken),
            )
    count.add("a header that announces 8 GB", wrong_announcement(programs, 32767, 65535, 0))
    count.add("a header that announces labels", wrong_announcement(programs, 1, 1, 2**32 - 1))
    count.add("half of a request", wrong_order(programs))
    if clang:
        for name, *wrong in (
            ("refuse", wrong_growths, wrong_text_growths),
            ("devices", wrong_devices),
        ):
            shim = os.path.join(programs.room, f"{name}.so")
            cases.build_shim(clang, shim, name)
            for one in wrong:
                count.add(f"the system fails: {name}, {one.__name__}", one(programs, shim))


def main() -> int:
    words = argparse.ArgumentParser(
        description=__doc__, formatter_class=argparse.RawDescriptionHelpFormatter
    )
    words.add_argument("clang", nargs="?")
    words.add_argument("--program", default=f"{BIN}/rcell-pipe")
    words.add_argument("--rcell", default=f"{BIN}/rcell")
    words.add_argument("--runs", type=int, default=1000)
    words.add_argument("--seed", type=int, default=1)
    given, count = words.parse_args(), cases.Count()
    choice = random.Random(given.seed)
    with tempfile.TemporaryDirectory(prefix="pipe-") as room:
        programs = Programs(os.path.abspath(given.program), os.path.abspath(given.rcell), room)
        count.add("the request of the crate", wrong_crate(programs))
        check_errors(programs, count)
        check_random(programs, count, choice, given.runs)
        check_texts(programs, count, choice, given.runs)
        check_system(programs, count, given.clang)
    print(f"{count.passed} passed, {count.failed} failed")
    return 1 if count.failed else 0


if __name__ == "__main__":
    sys.exit(main())

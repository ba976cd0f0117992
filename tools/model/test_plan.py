#!/usr/bin/env python3
"""Send plan requests to rcell-pipe, and compare each response with a plain model of docs/pipe.md,
field by field.

    test_plan.py [--program PROGRAM] [--runs N] [--seed N]

- worked examples: maps made from made maps, r.clump in between, a position, labels
- each error of a plan request by name
- N random scripts of tools/model/fuzz.py, most of them valid; some requests are damaged

The last line is 'N passed, M failed'.
"""
from __future__ import annotations

import argparse
import os
import random
import re
import struct
import subprocess
import sys
from dataclasses import dataclass
from typing import Iterator, NamedTuple

import model
from fuzz import damaged_bytes
from made_cases import ScriptMaker
from model_expressions import Binary, Call, Expression, MapCell, Negated, Not
from model_grids import Refused, is_name
from pipe_model import NULL

MOST_NAMES = 65535
WRITES, LABELS, WHOLE = 1, 2, 4
COMMANDS = (model.Mapcalc, model.Reclass, model.Clump, model.Stats, model.OutAscii)


class Need(NamedTuple):
    """How far a map is needed around a cell: rows above and below, columns to the left and right,
    or the full map."""

    up: int = 0
    down: int = 0
    left: int = 0
    right: int = 0
    whole: bool = False

    def moved(self, reach: Need) -> Need:
        return Need(*(a + b for a, b in zip(self[:4], reach[:4])), self.whole)


Needs = dict[bytes, Need]


@dataclass(frozen=True)
class Frame:
    line: int
    command: int
    flags: int
    made: bytes
    reads: tuple[tuple[bytes, Need], ...]
    needs: tuple[tuple[bytes, Need], ...]
    options: int
    inputs: tuple[bytes, ...]
    after: tuple[int, ...]
    labels: tuple[tuple[int, bytes], ...]


@dataclass(frozen=True)
class Done:
    status: int = 0
    source: int = 0
    maps: int = 0
    line: int = 0
    column: int = 0
    text: bytes = b""


Response = tuple[list[Frame], Done]


# What a script reads, makes and writes


def within(expression: Expression) -> Iterator[Expression]:
    """Yield the expression and all of its parts."""
    yield expression
    if isinstance(expression, (Negated, Not)):
        yield from within(expression.operand)
    elif isinstance(expression, Binary):
        yield from within(expression.left)
        yield from within(expression.right)
    elif isinstance(expression, Call):
        for argument in expression.arguments:
            yield from within(argument)


def reads_of(statement: model.Statement) -> list[tuple[bytes, Need]]:
    """Return the maps that a statement reads. A map may occur several times."""
    if isinstance(statement, model.Mapcalc):
        return [
            (
                part.name,
                Need(
                    max(0, -part.down), max(0, part.down), max(0, -part.right), max(0, part.right)
                ),
            )
            for part in within(statement.expression)
            if isinstance(part, MapCell)
        ]
    return [(name, Need()) for name in inputs_of(statement)]


def inputs_of(statement: model.Statement) -> list[bytes]:
    """Return the maps of `input=`."""
    if isinstance(statement, model.Mapcalc):
        return []
    return statement.inputs if isinstance(statement, model.Stats) else [statement.input]


def options_of(statement: model.Statement) -> int:
    if not isinstance(statement, model.Stats):
        return 0
    skip = 8 if b"n" in statement.flags else 16 if b"N" in statement.flags else 0
    return (
        sum(value for flag, value in ((b"c", 1), (b"l", 2), (b"1", 4)) if flag in statement.flags)
        + skip
    )


def after_of(statement: model.Statement) -> tuple[int, ...]:
    after = getattr(statement, "after", None) or ()
    return tuple(NULL if cell is None else cell for cell in after)


def labels_of(statement: model.Statement) -> tuple[tuple[int, bytes], ...]:
    """Return the labels of rules, in order."""
    return tuple(
        (rule.output, rule.label)
        for rule in getattr(statement, "rules", [])
        if isinstance(rule.output, int) and rule.label
    )


def flags_of(statement: model.Statement) -> int:
    if isinstance(statement, model.Stats):
        return WRITES + (LABELS if b"l" in statement.flags else 0)
    return {model.Clump: WHOLE, model.OutAscii: WRITES}.get(type(statement), 0)


def joined(found: list[tuple[bytes, Need]], order: list[bytes]) -> Needs:
    """Return each map once, with the largest need in each direction, in the order of the names."""
    most: Needs = {}
    for name, need in found:
        most[name] = Need(*map(max, most.get(name, need), need))
    return {name: most[name] for name in order if name in most}


def plan(names: list[bytes], statements: list[tuple[int, model.Statement]]) -> list[Frame]:
    known = list(names)
    needs_of: dict[bytes, Needs] = {name: {name: Need()} for name in names}
    frames = []
    for line, statement in statements:
        reads = joined(reads_of(statement), known)
        found = [
            (name, need.moved(reach))
            for read, reach in reads.items()
            for name, need in needs_of[read].items()
        ]
        if isinstance(statement, model.Clump):
            found = [(name, need._replace(whole=True)) for name, need in found]
        needs = joined(found, names)
        made = getattr(statement, "target", b"")
        if made:
            known.append(made)
            needs_of[made] = needs
        command = COMMANDS.index(type(statement)) + 1
        options = options_of(statement), tuple(inputs_of(statement)), after_of(statement)
        frames.append(
            Frame(
                line,
                command,
                flags_of(statement),
                made,
                tuple(reads.items()),
                tuple(needs.items()),
                *options,
                labels_of(statement),
            )
        )
    return frames


# Requests


class BadRequest(Exception):
    def __init__(self, text: bytes):
        super().__init__(text)
        self.text = text


class Reader:
    """Reads bytes from left to right."""

    def __init__(self, data: bytes):
        self.data, self.at = data, 0

    def take(self, count: int) -> bytes:
        piece = self.data[self.at : self.at + count]
        if len(piece) < count:
            raise BadRequest(b"request too short")
        self.at += count
        return piece

    def number(self, letter: str) -> int:
        return struct.unpack("<" + letter, self.take(struct.calcsize("<" + letter)))[0]


def request(names: list[bytes], script: bytes) -> bytes:
    head = (
        b"RCELLP1\n"
        + struct.pack("<I", len(names))
        + b"".join(bytes([len(name)]) + name for name in names)
    )
    return head + struct.pack("<I", len(script)) + script


def read_request(data: bytes, names: list[bytes]) -> bytes:
    """Put the names of a request into the list, and return its script."""
    reader = Reader(data)
    if reader.take(8) != b"RCELLP1\n":
        raise BadRequest(b"bad magic")
    count = reader.number("I")
    if count > MOST_NAMES:
        raise BadRequest(b"bad number of maps")
    for _ in range(count):
        name = reader.take(reader.number("B"))
        if not is_name(name):
            raise BadRequest(b"bad name")
        if name in names:
            raise BadRequest(b"name used twice")
        names.append(name)
    size = reader.number("I")
    if size > model.LONGEST_SCRIPT:
        raise BadRequest(b"script too long")
    script = reader.take(size)
    if reader.at < len(data):
        raise BadRequest(b"bytes after the request")
    return script


def expected(data: bytes) -> Response:
    """Return the expected response to the bytes of a request."""
    names: list[bytes] = []
    try:
        script = read_request(data, names)
        return plan(names, model.ScriptReader(script, names).read()), Done()
    except BadRequest as fault:
        return [], Done(1, 1, len(names), 0, 0, fault.text)
    except Refused as fault:
        column = re.search(r" at column (\d+)$", fault.text)
        return [], Done(1, 2, 0, fault.line, int(column[1]) if column else 0, fault.text.encode())


# Responses


class ResponseReader(Reader):
    def text(self) -> bytes:
        return self.take(self.number("Q"))

    def needs(self, has_whole: bool) -> tuple[tuple[bytes, Need], ...]:
        found = []
        for _ in range(self.number("Q")):
            name = self.text()
            margin = [self.number("Q") for _ in range(4)]
            found.append((name, Need(*margin, bool(self.number("B")) if has_whole else False)))
        return tuple(found)

    def frame(self) -> Frame:
        line, command, flags, made = (
            self.number("Q"),
            self.number("B"),
            self.number("B"),
            self.text(),
        )
        reads, needs, options = self.needs(False), self.needs(True), self.number("B")
        inputs = tuple(self.text() for _ in range(self.number("Q")))
        after = tuple(self.number("i") for _ in range(self.number("Q")))
        labels = tuple((self.number("i"), self.text()) for _ in range(self.number("Q")))
        return Frame(line, command, flags, made, reads, needs, options, inputs, after, labels)

    def response(self) -> Response:
        if self.take(8) != b"RCELLA1\n":
            raise ValueError("not a response")
        frames = []
        while (kind := self.take(4)) == b"PLAN":
            frames.append(self.frame())
        if kind != b"DONE":
            raise ValueError(f"no frame of a plan: {kind!r}")
        done = Done(*(self.number("Q") for _ in range(5)), self.text())
        if self.at < len(self.data):
            raise ValueError("bytes after the response")
        return frames, done


# Requests to try

GIVEN = [b"g", b"h", b"k"]
EXAMPLES = {
    "made maps add up": (
        b"r.mapcalc a = g[1,0]\nr.mapcalc b = a[0,-2] + h\nr.stats -c input=b\n",
        {b"b": {b"g": Need(0, 1, 2, 0), b"h": Need()}},
    ),
    "r.clump needs the full map": (
        b"r.mapcalc a = g[0,3]\nr.clump input=a output=b\nr.mapcalc c = b + h[-1,0]\n",
        {b"b": {b"g": Need(0, 0, 0, 3, True)}, b"c": {b"g": Need(0, 0, 0, 3, True), b"h": Need(1)}},
    ),
    "the widest of several": (
        b"r.mapcalc a = g[-1,4] + g[2,-3] + g\n",
        {b"a": {b"g": Need(1, 2, 3, 4)}},
    ),
    "rules pass needs on": (
        b"r.mapcalc a = k[5,0]\nr.reclass input=a output=b\n1 = 2 wood\nend\n",
        {b"b": {b"k": Need(0, 5)}},
    ),
    "maps in their order": (b"r.stats -nlc input=h,g,h after=1,*,-2\nr.stats -1N input=k\n", {}),
    "a position needs no map": (b"r.mapcalc a = row() * ncols()\n", {b"a": {}}),
    "labels in the order of the rules": (
        b"r.reclass input=g output=a\n# 7 = 7 no\n1 = 2 wood\n\n 3 thru 5=+2  a = b \n9 = NULL gone\n6 = 1\n* = * kept\n end \r\n"
        b"r.reclass input=a output=b\n7 = -1 x\nend\nr.mapcalc c = a\n",
        {},
    ),
}


def named_errors() -> Iterator[tuple[str, bytes]]:
    """Yield a request for each error, with the error's text."""
    good = request([b"g", b"h"], b"r.stats input=g\n")
    yield "bad magic", b"RCELLP2" + good[7:]
    yield "bad magic", b"RCELLA1" + good[7:]
    yield "bad number of maps", b"RCELLP1\n" + struct.pack("<I", MOST_NAMES + 1)
    yield "bad name", request([b"g", b"1"], b"")
    yield "bad name", request([b""], b"")
    yield "name used twice", request([b"g", b"h", b"g"], b"")
    yield "script too long", request([b"g"], b"")[:-4] + struct.pack("<I", model.LONGEST_SCRIPT + 1)
    yield "bytes after the request", good + good
    yield "request too short", good[:-1]
    yield "unknown map", request([b"g"], b"r.stats input=h\n")
    yield "map exists", request([b"g", b"h"], b"\nr.mapcalc h = g\n")
    yield "unexpected token at column 18", request([b"g"], b"r.mapcalc a = g +\n")


def random_request(chance: random.Random) -> bytes:
    maker = ScriptMaker(chance)
    maker.badness = chance.choice([0, 0, 0, 0.01])
    names = chance.sample([b"a", b"b", b"g", b"_x.1", b"h", b"unused"], chance.randint(1, 5))
    script = maker.script(list(names))
    if chance.random() < 0.05:
        script = damaged_bytes(chance, script)
    data = request(names, script)
    return damaged_bytes(chance, data) if chance.random() < 0.1 else data


class Tests:
    """Counts the tests, and prints the errors."""

    def __init__(self, program: str):
        self.program, self.passed, self.failed = program, 0, 0

    def check(self, name: str, wrong: str) -> None:
        self.passed += not wrong
        self.failed += bool(wrong)
        if wrong:
            print(f"{name}: {wrong}")

    def wrong(self, data: bytes) -> str:
        """Return the error in the response to a request, or nothing."""
        if data.startswith(b"RCELLQ1\n"):
            return ""  # the damage made it a run request
        run = subprocess.run([self.program], input=data, stdout=subprocess.PIPE, check=False)
        wanted = expected(data)
        given = ResponseReader(run.stdout).response()
        if (given, run.returncode) != (wanted, wanted[1].status):
            return f"{data!r}\nexpected {wanted}\nreceived {given} and status {run.returncode}"
        return ""


def check_examples(tests: Tests) -> None:
    for name, (script, needs) in EXAMPLES.items():
        frames, _ = expected(request(GIVEN, script))
        found = {frame.made: dict(frame.needs) for frame in frames}
        tests.check(
            name,
            ""
            if all(found[made] == wanted for made, wanted in needs.items())
            else f"the model says {found}",
        )
        tests.check(name, tests.wrong(request(GIVEN, script)))


def check_errors(tests: Tests) -> None:
    for text, data in named_errors():
        found = expected(data)[1].text.decode()
        tests.check(text, "" if found == text else f"the model says {found}")
        tests.check(text, tests.wrong(data))


def main() -> int:
    programs = os.environ.get("RCELL_BIN", os.path.abspath(f"{__file__}/../../../bin"))
    parser = argparse.ArgumentParser()
    parser.add_argument("--program", default=f"{programs}/rcell-pipe")
    parser.add_argument("--runs", type=int, default=500)
    parser.add_argument("--seed", type=int, default=1)
    settings = parser.parse_args()
    tests = Tests(settings.program)
    check_examples(tests)
    check_errors(tests)
    chance = random.Random(settings.seed)
    for number in range(settings.runs):
        tests.check(
            f"random request {number} of seed {settings.seed}", tests.wrong(random_request(chance))
        )
    print(f"{tests.passed} passed, {tests.failed} failed")
    return tests.failed > 0


if __name__ == "__main__":
    sys.exit(main())

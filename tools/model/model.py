#!/usr/bin/env python3
"""A plain, slow model of rcell SCRIPT NAME=PATH..., which follows its definitions directly.

The model shares no code with the program, and uses only simple lists: all errors of a grid are
collected and the first position wins, clumps are found by walking from each first cell, and tables
by examining each cell. `tools/model/compare.py` runs both.
"""
from __future__ import annotations

import os
import re
import sys
from dataclasses import dataclass, replace
from typing import Optional

from model_expressions import CalcRefused, Expression, Parser, Place
from model_grids import (
    BLANKS,
    TOKEN,
    Answer,
    Cell,
    CellMap,
    Failing,
    Refused,
    Region,
    cell_text,
    grid_text,
    is_name,
    map_of,
    order,
    read_map,
    whole_number,
)

MOST_INPUTS = 16
LONGEST_LINE = 65535
LONGEST_SCRIPT = 1048576
VISIBLE = re.compile(rb"[!-~]{1,64}")

# Rules of r.reclass


@dataclass(frozen=True)
class Rule:
    ranges: Optional[list[tuple[int, int]]]  # None: the rule covers all other categories
    output: Cell | str  # null, a category, or "same"
    label: bytes

    def lists(self, category: int) -> bool:
        return self.ranges is not None and any(low <= category <= high for low, high in self.ranges)


class RuleRefused(Exception):
    pass


def rule_number(text: bytes) -> int:
    number = whole_number(text)
    if number is None:
        raise RuleRefused("bad number in rule")
    return number


def left_items(tokens: list[bytes]) -> Optional[list[tuple[bytes, bytes]]]:
    """Return the ends of each item as they are spelled, or None for the single token `*`."""
    if tokens == [b"*"]:
        return None
    items, at = [], 0
    while at < len(tokens):
        is_range = tokens[at + 1 : at + 2] == [b"thru"]
        ends = (
            [tokens[at], tokens[at + 2] if at + 2 < len(tokens) else b"thru"]
            if is_range
            else [tokens[at]] * 2
        )
        if b"thru" in ends or b"*" in ends:
            raise RuleRefused("bad rule")
        items.append((ends[0], ends[1]))
        at += 3 if is_range else 1
    if not items:
        raise RuleRefused("bad rule")
    return items


def read_rule(line: bytes) -> Rule:
    left, equals, right = line.partition(b"=")
    items = left_items(TOKEN.findall(left.replace(b",", b" ")))
    output = TOKEN.search(right)
    if (
        not equals
        or not output
        or output.group() == b"thru"
        or (output.group() == b"*" and items is not None)
    ):
        raise RuleRefused("bad rule")
    ranges = None
    if items is not None:
        ends = [(rule_number(low), rule_number(high)) for low, high in items]
        ranges = [(min(low, high), max(low, high)) for low, high in ends]
    if output.group() in (b"NULL", b"null"):
        return Rule(ranges, None, b"")
    if output.group() == b"*":
        return Rule(ranges, "same", b"")
    return Rule(ranges, rule_number(output.group()), right[output.end() :].strip(BLANKS))


def reclassed(rules: list[Rule], cell: Cell) -> Cell:
    if cell is None:
        return None
    rules_for_it = [rule for rule in rules if rule.lists(cell)] or [
        rule for rule in rules if rule.ranges is None
    ]
    if not rules_for_it:
        return None
    return cell if rules_for_it[-1].output == "same" else rules_for_it[-1].output


# Areas


def neighbours(row: int, col: int, with_corners: bool) -> list[tuple[int, int]]:
    steps = [
        (down, right) for down in (-1, 0, 1) for right in (-1, 0, 1) if (down, right) != (0, 0)
    ]
    return [
        (row + down, col + right)
        for down, right in steps
        if with_corners or down == 0 or right == 0
    ]


def clumped(grid: CellMap, with_corners: bool) -> CellMap:
    numbers: dict[tuple[int, int], int] = {}
    areas = 0
    for first in grid.region.places():
        if grid.cell(*first) is None or first in numbers:
            continue
        areas += 1
        numbers[first] = areas
        to_visit = [first]
        while to_visit:
            place = to_visit.pop()
            for near in neighbours(*place, with_corners):
                if near not in numbers and grid.cell(*near) == grid.cell(*first):
                    numbers[near] = areas
                    to_visit.append(near)
    return map_of(grid.region, lambda row, col: numbers.get((row, col)))


# Statements


Maps = dict[bytes, CellMap]


@dataclass(frozen=True)
class Mapcalc:
    target: bytes
    expression: Expression

    def run(self, maps: Maps, region: Region) -> bytes:
        maps[self.target] = map_of(
            region, lambda row, col: self.expression.value(Place(maps, region, row, col))
        )
        return b""


@dataclass(frozen=True)
class Reclass:
    input: bytes
    target: bytes
    rules: list[Rule]

    def run(self, maps: Maps, region: Region) -> bytes:
        made = map_of(
            region, lambda row, col: reclassed(self.rules, maps[self.input].cell(row, col))
        )
        for rule in self.rules:
            if isinstance(rule.output, int) and rule.label:
                made.labels[rule.output] = rule.label
        maps[self.target] = made
        return b""


@dataclass(frozen=True)
class Clump:
    input: bytes
    target: bytes
    with_corners: bool

    def run(self, maps: Maps, region: Region) -> bytes:
        maps[self.target] = clumped(maps[self.input], self.with_corners)
        return b""


@dataclass(frozen=True)
class OutAscii:
    input: bytes
    null_text: bytes

    def run(self, maps: Maps, region: Region) -> bytes:
        return grid_text(maps[self.input], self.null_text)


Combination = tuple[Cell, ...]


def combination_order(combination: Combination) -> list[tuple[bool, int]]:
    return [order(cell) for cell in combination]


@dataclass(frozen=True)
class Stats:
    inputs: list[bytes]
    flags: frozenset[bytes]
    separator: bytes
    null_text: bytes
    after: Optional[Combination]

    def is_left_out(self, combination: Combination) -> bool:
        if b"n" in self.flags:
            return None in combination
        return b"N" in self.flags and all(cell is None for cell in combination)

    def run(self, maps: Maps, region: Region) -> bytes:
        picked = [maps[name] for name in self.inputs]
        cells = [tuple(grid.cell(row, col) for grid in picked) for row, col in region.places()]
        kept = [combination for combination in cells if not self.is_left_out(combination)]
        if b"1" in self.flags:
            return b"".join(self.line(picked, combination, None) for combination in kept)
        entries = sorted(set(kept), key=combination_order)
        if self.after is not None:
            entries = [
                entry
                for entry in entries
                if combination_order(entry) > combination_order(self.after)
            ]
        return b"".join(self.line(picked, entry, kept.count(entry)) for entry in entries)

    def line(self, picked: list[CellMap], combination: Combination, count: Optional[int]) -> bytes:
        fields = []
        for grid, cell in zip(picked, combination):
            fields.append(cell_text(cell, self.null_text))
            if b"l" in self.flags:
                fields.append(b"no data" if cell is None else grid.labels.get(cell, b""))
        if b"c" in self.flags:
            fields.append(b"%d" % count)
        return self.separator.join(fields) + b"\n"


Statement = Mapcalc | Reclass | Clump | Stats | OutAscii


# Scripts


def script_refused(line: int, text: str) -> Refused:
    return Refused(b"script", line, text)


@dataclass(frozen=True)
class Command:
    flags: bytes
    required: tuple[bytes, ...]
    others: tuple[bytes, ...] = ()


COMMANDS = {
    b"r.mapcalc": Command(b"", ()),
    b"r.reclass": Command(b"", (b"input", b"output")),
    b"r.clump": Command(b"d", (b"input", b"output")),
    b"r.stats": Command(b"clnN1", (b"input",), (b"separator", b"null_value", b"after")),
    b"r.out.ascii": Command(b"", (b"input",), (b"null_value",)),
}
SEPARATORS = {b"pipe": b"|", b"comma": b",", b"space": b" ", b"tab": b"\t"}


def script_lines(text: bytes) -> list[bytes]:
    pieces = text.split(b"\n")
    ended, last = pieces[:-1], pieces[-1]
    return [piece[:-1] if piece.endswith(b"\r") else piece for piece in ended] + (
        [last] if last else []
    )


def is_skipped(line: bytes) -> bool:
    return not line.strip(BLANKS) or line.lstrip(BLANKS).startswith(b"#")


def is_wrong_value(command: bytes, key: bytes, value: bytes) -> bool:
    """Return whether the value of an option is never valid."""
    if key == b"separator":
        return value not in SEPARATORS and not (len(value) == 1 and 33 <= value[0] <= 126)
    if key == b"null_value":
        return not VISIBLE.fullmatch(value) or (command == b"r.out.ascii" and b":" in value)
    return command == b"r.stats" and key == b"input" and len(value.split(b",")) > MOST_INPUTS


def input_names(command: bytes, value: bytes) -> list[bytes]:
    return value.split(b",") if command == b"r.stats" else [value]


class ScriptReader:
    """Reads a script over the names of the grids: its statements, or its first error from the
    top."""

    def __init__(self, text: bytes, names: list[bytes]):
        self.lines = script_lines(text)
        self.known = set(names)
        self.at = 0  # the number of lines read, which is the number of the last line

    def next_line(self) -> bytes:
        self.at += 1
        line = self.lines[self.at - 1]
        if len(line) > LONGEST_LINE:
            raise script_refused(self.at, "line too long")
        return line

    def read(self) -> list[tuple[int, Statement]]:
        """Return the statements with their lines."""
        statements = []
        while self.at < len(self.lines):
            line = self.next_line()
            if not is_skipped(line):
                statements.append((self.at, self.statement(line)))
        return statements

    def statement(self, line: bytes) -> Statement:
        tokens = list(TOKEN.finditer(line))
        command = tokens[0].group()
        if command not in COMMANDS:
            raise script_refused(self.at, "unknown command")
        if command == b"r.mapcalc":
            return self.mapcalc(line, tokens[0].end())
        flags, options = self.flags_and_options(command, [token.group() for token in tokens[1:]])
        if any(key not in options for key in COMMANDS[command].required):
            raise script_refused(self.at, "missing option")
        if b"1" in flags and (b"c" in flags or b"after" in options):
            raise script_refused(self.at, "bad option")
        inputs = input_names(command, options[b"input"])
        if any(name not in self.known for name in inputs):
            raise script_refused(self.at, "unknown map")
        if b"output" in options:
            self.make(options[b"output"])
        return self.with_options(command, inputs, flags, options)

    def make(self, name: bytes) -> None:
        if name in self.known:
            raise script_refused(self.at, "map exists")
        self.known.add(name)

    def mapcalc(self, line: bytes, begin: int) -> Statement:
        try:
            parser = Parser(line[begin:])
            target, expression = parser.assignment()
            for name, column in parser.maps:
                if name not in self.known:
                    raise CalcRefused(column, "unknown map")
        except CalcRefused as fault:
            raise script_refused(
                self.at, f"{fault.text} at column {begin + fault.column}"
            ) from None
        self.make(target)
        return Mapcalc(target, expression)

    def flags_and_options(
        self, command: bytes, tokens: list[bytes]
    ) -> tuple[frozenset[bytes], dict[bytes, bytes]]:
        flags: set[bytes] = set()
        options: dict[bytes, bytes] = {}
        for token in tokens:
            if token.startswith(b"-"):
                flags |= self.flags_of(command, token[1:])
                continue
            key, equals, value = token.partition(b"=")
            is_key = key in COMMANDS[command].required + COMMANDS[command].others
            if not equals or not is_key or key in options or is_wrong_value(command, key, value):
                raise script_refused(self.at, "bad option")
            names = {b"input": input_names(command, value), b"output": [value]}.get(key, [])
            if not all(is_name(name) for name in names):
                raise script_refused(self.at, "bad name")
            options[key] = value
        return frozenset(flags), options

    def flags_of(self, command: bytes, letters: bytes) -> set[bytes]:
        if not letters or any(letter not in COMMANDS[command].flags for letter in letters):
            raise script_refused(self.at, "bad option")
        return {bytes([letter]) for letter in letters}

    def with_options(
        self,
        command: bytes,
        inputs: list[bytes],
        flags: frozenset[bytes],
        options: dict[bytes, bytes],
    ) -> Statement:
        null_text = options.get(b"null_value", b"*")
        if command == b"r.clump":
            return Clump(inputs[0], options[b"output"], b"d" in flags)
        if command == b"r.reclass":
            return Reclass(inputs[0], options[b"output"], self.rules())
        if command == b"r.out.ascii":
            return OutAscii(inputs[0], null_text)
        separator = options.get(b"separator", b"space")
        after = self.combination(options[b"after"], len(inputs)) if b"after" in options else None
        return Stats(inputs, flags, SEPARATORS.get(separator, separator), null_text, after)

    def combination(self, text: bytes, width: int) -> Combination:
        parts = text.split(b",")
        if any(part != b"*" and whole_number(part) is None for part in parts):
            raise script_refused(self.at, "bad combination")
        if len(parts) != width:
            raise script_refused(self.at, "combination of another width")
        return tuple(None if part == b"*" else whole_number(part) for part in parts)

    def rules(self) -> list[Rule]:
        command_line, rules = self.at, []
        while self.at < len(self.lines):
            line = self.next_line()
            if is_skipped(line):
                continue
            if TOKEN.findall(line) == [b"end"]:
                return rules
            try:
                rules.append(read_rule(line))
            except RuleRefused as fault:
                raise script_refused(self.at, str(fault)) from None
        raise script_refused(command_line, "missing end")


# Runs and the program


Given = bytes | Failing  # a file's contents


def read_script(given: Given) -> bytes:
    """Return the text of a script. If reading fails, the size is checked for the bytes read."""
    text = given.text if isinstance(given, Failing) else given
    if len(text) > LONGEST_SCRIPT:
        raise Refused(b"script", 0, "script too long")
    if isinstance(given, Failing):
        raise Refused(b"script", 0, "read failed", 4)
    return text


def run(grids: list[tuple[bytes, Given]], script: Given) -> Answer:
    """Run a script over named grid texts."""
    maps: Maps = {}
    region = None
    names = tuple(name for name, _ in grids)
    try:
        for name, text in grids:
            grid = read_map(name, text)
            if name in maps:
                raise Refused(name, 0, "name used twice")
            region = region or grid.region
            if grid.region != region:
                raise Refused(name, 0, "other region")
            maps[name] = grid
        statements = ScriptReader(read_script(script), list(maps)).read()
    except Refused as fault:
        return replace(fault.answer(), grids=names)
    parts = tuple((line, statement.run(maps, region)) for line, statement in statements)
    return Answer(0, b"".join(output for _, output in parts), b"", parts, names)


def is_utf8(word: bytes) -> bool:
    try:
        word.decode()
    except UnicodeDecodeError:
        return False
    return True


def contents(folder: bytes, path: bytes, source: bytes) -> Given:
    try:
        with open(os.path.join(folder, path) if path else path, "rb") as file:
            return file.read()
    except IsADirectoryError:
        return Failing(b"")
    except OSError:
        raise Refused(source, 0, "cannot open", 4) from None


def program(words: list[bytes], folder: bytes = b"") -> Answer:
    """Return the result of the program for its arguments. Paths are relative to the folder."""
    try:
        if len(words) < 2 or any(word.startswith(b"-") or not is_utf8(word) for word in words):
            raise Refused(b"arguments", 0, "usage: rcell SCRIPT NAME=PATH...", 2)
        named = [word.partition(b"=") for word in words[1:]]
        for place, (name, _, path) in enumerate(named, 2):
            if not is_name(name) or not path:
                raise Refused(b"arguments", place, "bad grid argument", 2)
        script = contents(folder, words[0], b"script")
        grids = [(name, contents(folder, path, name)) for name, _, path in named]
    except Refused as fault:
        return fault.answer()
    return run(grids, script)


sys.setrecursionlimit(100000)  # an expression may be a thousand parentheses deep
sys.set_int_max_str_digits(0)  # and a number a script line long


def main() -> int:
    answer = program([os.fsencode(word) for word in sys.argv[1:]])
    sys.stdout.buffer.write(answer.output)
    sys.stderr.buffer.write(answer.told)
    return answer.status


if __name__ == "__main__":
    sys.exit(main())

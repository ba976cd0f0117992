"""The r.mapcalc expressions of the model in tools/model/model.py: tokens, grammar, and values at
cells."""
from __future__ import annotations

import re
from dataclasses import dataclass
from typing import Callable, Optional

from model_grids import BLANKS, GREATEST, Cell, CellMap, Region, is_in_range

MOST_CALC_TOKENS = 1000
GREATEST_OFFSET = 255


@dataclass(frozen=True)
class Place:
    """A cell of the region, and the maps that an expression sees there."""

    maps: dict[bytes, CellMap]
    region: Region
    row: int
    col: int


def fit(number: int) -> Cell:
    return number if is_in_range(number) else None


def divided(x: int, y: int) -> int:
    size = abs(x) // abs(y)
    return size if (x < 0) == (y < 0) else -size


def quotient(x: int, y: int) -> Cell:
    return None if y == 0 else fit(divided(x, y))


def remainder(x: int, y: int) -> Cell:
    return None if y == 0 else fit(x - y * divided(x, y))


STRICT_OPERATORS: dict[bytes, Callable[[int, int], Cell]] = {
    b"+": lambda x, y: fit(x + y),
    b"-": lambda x, y: fit(x - y),
    b"*": lambda x, y: fit(x * y),
    b"/": quotient,
    b"%": remainder,
    b"<": lambda x, y: int(x < y),
    b"<=": lambda x, y: int(x <= y),
    b">": lambda x, y: int(x > y),
    b">=": lambda x, y: int(x >= y),
    b"==": lambda x, y: int(x == y),
    b"!=": lambda x, y: int(x != y),
    b"&&": lambda x, y: int(x != 0 and y != 0),
    b"||": lambda x, y: int(x != 0 or y != 0),
}


def and_past_null(x: Cell, y: Cell) -> Cell:
    if x == 0 or y == 0:
        return 0
    return None if x is None or y is None else 1


def or_past_null(x: Cell, y: Cell) -> Cell:
    if x not in (0, None) or y not in (0, None):
        return 1
    return None if x is None or y is None else 0


def mode(values: list[int]) -> int:
    most = max(values.count(value) for value in values)
    return min(value for value in values if values.count(value) == most)


def if_value(values: list[Cell]) -> Cell:
    condition = values[0]
    if condition is None:
        return None
    chosen = values[1] if len(values) > 1 else 1
    other = values[2] if len(values) > 2 else 0
    return chosen if condition != 0 else other


def over_all(choose: Callable[[list[int]], int]) -> Callable[[list[Cell]], Cell]:
    return lambda values: None if None in values else choose(values)


def over_the_others(choose: Callable[[list[int]], int]) -> Callable[[list[Cell]], Cell]:
    def value(values: list[Cell]) -> Cell:
        others = [value for value in values if value is not None]
        return choose(others) if others else None

    return value


@dataclass(frozen=True)
class Function:
    least: int
    most: Optional[int]
    value: Callable[[list[Cell], Place], Cell]

    def takes(self, count: int) -> bool:
        return self.least <= count and (self.most is None or count <= self.most)


def of_values(least: int, most: Optional[int], value: Callable[[list[Cell]], Cell]) -> Function:
    return Function(least, most, lambda values, place: value(values))


def of_place(value: Callable[[Place], Cell]) -> Function:
    return Function(0, 0, lambda values, place: value(place))


FUNCTIONS = {
    b"if": of_values(1, 3, if_value),
    b"isnull": of_values(1, 1, lambda values: int(values[0] is None)),
    b"null": of_values(0, 0, lambda values: None),
    b"abs": of_values(1, 1, lambda values: None if values[0] is None else abs(values[0])),
    b"min": of_values(2, None, over_all(min)),
    b"max": of_values(2, None, over_all(max)),
    b"mode": of_values(2, None, over_all(mode)),
    b"row": of_place(lambda place: place.row + 1),
    b"col": of_place(lambda place: place.col + 1),
    b"nrows": of_place(lambda place: place.region.rows),
    b"ncols": of_place(lambda place: place.region.cols),
    b"eval": of_values(1, None, lambda values: values[-1]),
    b"nmin": of_values(2, None, over_the_others(min)),
    b"nmax": of_values(2, None, over_the_others(max)),
    b"nmode": of_values(2, None, over_the_others(mode)),
}


@dataclass(frozen=True)
class Number:
    number: int

    def value(self, place: Place) -> Cell:
        return self.number


@dataclass(frozen=True)
class MapCell:
    name: bytes
    down: int
    right: int

    def value(self, place: Place) -> Cell:
        return place.maps[self.name].cell(place.row + self.down, place.col + self.right)


@dataclass(frozen=True)
class Negated:
    operand: Expression

    def value(self, place: Place) -> Cell:
        operand = self.operand.value(place)
        return None if operand is None else fit(-operand)


@dataclass(frozen=True)
class Not:
    operand: Expression

    def value(self, place: Place) -> Cell:
        operand = self.operand.value(place)
        return None if operand is None else int(operand == 0)


@dataclass(frozen=True)
class Binary:
    operator: bytes
    left: Expression
    right: Expression

    def value(self, place: Place) -> Cell:
        left, right = self.left.value(place), self.right.value(place)
        if self.operator == b"&&&":
            return and_past_null(left, right)
        if self.operator == b"|||":
            return or_past_null(left, right)
        return (
            None if left is None or right is None else STRICT_OPERATORS[self.operator](left, right)
        )


@dataclass(frozen=True)
class Call:
    function: Function
    arguments: list[Expression]

    def value(self, place: Place) -> Cell:
        return self.function.value([argument.value(place) for argument in self.arguments], place)


Expression = Number | MapCell | Negated | Not | Binary | Call


class CalcRefused(Exception):
    def __init__(self, column: int, text: str):
        super().__init__(text)
        self.column, self.text = column, text


WORD = re.compile(rb"[A-Za-z0-9_.]+")
SIGN = re.compile(rb"&&&|\|\|\||&&|\|\||<=|>=|==|!=|[-+*/%<>!?:()\[\],=]")


@dataclass(frozen=True)
class CalcToken:
    kind: str  # name, number, sign or end
    text: bytes
    column: int


def word_token(text: bytes, column: int) -> CalcToken:
    if not (text[:1].isdigit() or text[:1] == b"."):
        if len(text) > 64:
            raise CalcRefused(column, "bad name")
        return CalcToken("name", text, column)
    if text.isdigit() and int(text) <= GREATEST:
        return CalcToken("number", text, column)
    is_float = not text.isdigit() and any(byte in b".eE" for byte in text)
    raise CalcRefused(column, "number not whole" if is_float else "bad number")


def calc_tokens(text: bytes) -> list[CalcToken]:
    """Return the tokens of an assignment, followed by an end token."""
    tokens, at = [], 0
    while at < len(text):
        if text[at] in BLANKS:
            at += 1
            continue
        if len(tokens) == MOST_CALC_TOKENS:
            raise CalcRefused(at + 1, "expression too long")
        found = WORD.match(text, at) or SIGN.match(text, at)
        if not found:
            raise CalcRefused(at + 1, "bad byte")
        is_word = found.re is WORD
        tokens.append(
            word_token(found.group(), at + 1)
            if is_word
            else CalcToken("sign", found.group(), at + 1)
        )
        at = found.end()
    return tokens + [CalcToken("end", b"", len(text) + 1)]


# Left-associative operators, from the loosest to the tightest level.
LEVELS = (
    (b"||", b"|||"),
    (b"&&", b"&&&"),
    (b"==", b"!="),
    (b"<", b"<=", b">", b">="),
    (b"+", b"-"),
    (b"*", b"/", b"%"),
)


class Parser:
    """Reads an assignment from the left, and reports the first detectable error."""

    def __init__(self, text: bytes):
        self.tokens = calc_tokens(text)
        self.at = 0
        self.maps: list[tuple[bytes, int]] = []  # names with their columns, in order of the text

    def next_is(self, *signs: bytes) -> bool:
        return self.tokens[self.at].kind == "sign" and self.tokens[self.at].text in signs

    def step(self) -> CalcToken:
        self.at += 1
        return self.tokens[self.at - 1]

    def expected(self) -> CalcRefused:
        return CalcRefused(self.tokens[self.at].column, "unexpected token")

    def take(self, kind: str) -> CalcToken:
        if self.tokens[self.at].kind != kind:
            raise self.expected()
        return self.step()

    def take_sign(self, *signs: bytes) -> CalcToken:
        if not self.next_is(*signs):
            raise self.expected()
        return self.step()

    def assignment(self) -> tuple[bytes, Expression]:
        target = self.take("name").text
        self.take_sign(b"=")
        expression = self.expression()
        self.take("end")
        return target, expression

    def expression(self) -> Expression:
        condition = self.level(0)
        if not self.next_is(b"?"):
            return condition
        self.step()
        chosen = self.expression()
        self.take_sign(b":")
        return Call(FUNCTIONS[b"if"], [condition, chosen, self.expression()])

    def level(self, depth: int) -> Expression:
        if depth == len(LEVELS):
            return self.unary()
        left = self.level(depth + 1)
        while self.next_is(*LEVELS[depth]):
            operator = self.step().text
            left = Binary(operator, left, self.level(depth + 1))
        return left

    def unary(self) -> Expression:
        if self.next_is(b"-", b"!"):
            return Negated(self.unary()) if self.step().text == b"-" else Not(self.unary())
        return self.primary()

    def primary(self) -> Expression:
        if self.next_is(b"("):
            self.step()
            inner = self.expression()
            self.take_sign(b")")
            return inner
        if self.tokens[self.at].kind == "number":
            return Number(int(self.step().text))
        name = self.take("name")
        return self.call(name) if self.next_is(b"(") else self.map_cell(name)

    def call(self, name: CalcToken) -> Expression:
        function = FUNCTIONS.get(name.text)
        if function is None:
            raise CalcRefused(name.column, "unknown function")
        self.step()
        arguments = [] if self.next_is(b")") else [self.expression()]
        while arguments and self.next_is(b","):
            self.step()
            arguments.append(self.expression())
        self.take_sign(b")")
        if not function.takes(len(arguments)):
            raise CalcRefused(name.column, "wrong number of arguments")
        return Call(function, arguments)

    def map_cell(self, name: CalcToken) -> Expression:
        self.maps.append((name.text, name.column))
        if not self.next_is(b"["):
            return MapCell(name.text, 0, 0)
        self.step()
        down = self.offset()
        self.take_sign(b",")
        right = self.offset()
        self.take_sign(b"]")
        return MapCell(name.text, down, right)

    def offset(self) -> int:
        sign = self.step().text if self.next_is(b"-", b"+") else b"+"
        number = self.take("number")
        if int(number.text) > GREATEST_OFFSET:
            raise CalcRefused(number.column, "offset out of range")
        return -int(number.text) if sign == b"-" else int(number.text)

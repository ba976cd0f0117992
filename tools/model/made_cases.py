"""Make random grids and scripts for tools/model/compare.py: mostly valid, small, with few names and
categories."""
from __future__ import annotations

import random
from dataclasses import dataclass

NAMES = [b"a", b"b", b"g", b"_x.1", b"script", b"N" * 64]
MADE_NAMES = b"c d e1 if r x y _ thru m0 m1 m2 m3 m4 m5 m6 m7 m8 m9".split()
WRONG_NAMES = [b"", b"A" * 65, *b"1a a-b h unknown a,b * a=b \xff a@b".split()]
CATEGORIES = [1, 1, 1, 2, 2, 3, 0, -1, 5, 10, 65536, 2147483647, -2147483647]
NUMBERS = [0, 1, 1, 2, 2, 3, 4, 7, 10, 46341, 65536, 1073741824, 2147483646, 2147483647]
WRONG_NUMBERS = [b"", *b"2147483648 -2147483648 1.5 x 1x - + 1e3 * 99999999999999999999".split()]
LABELS = [
    b"low",
    b"b",
    b"two words",
    b"=",
    b"# no",
    b"a\tb",
    b"no data",
    b"l\xc3\xa4nge",
    b"\xff|",
    b"5",
    b"end",
]

# Bytes that are inserted into texts to damage them.
ODD_BYTES = b": * - + = , . # 0 9 a \x00 \xff & | [ ) ( ? 1 65536".split()
ODD_BYTES += [b" ", b"\t", b"\r", b"\n", b"\r\n", b"\n\n", b"\x0b", b"end\n", b" thru "]
ODD_COORDINATES = [b"", b"1 2", *b"1e5 . 12345678901 1.123456789 - 3N 0:0:1 00000000000".split()]
ODD_HEADER_LINES = [(b"rows", b"2"), (b"colour", b"1"), (b"", b"3"), (b"North", b"3")]
ODD_CELLS = WRONG_NUMBERS + [
    b"9" * 64,
    b"0" * 63 + b"1",
    b"1" * 65,
    *b"a:b 2147483647 null -0 1,2".split(),
]
ODD_GRIDS = [b"", b"\n", b" ", b"1 2 3", b"north: 3", b"\r\n\r\n"]
ODD_OFFSETS = [
    offset.split()
    for offset in (b"256", b"- 256", b"- - 1", b"a", b"2147483648", b"+ 300", b"( 1 )")
]
ODD_OPTIONS = b"""- -x --c -c=1 colour=1 input = =3 input=a -cc after=1 -d output=new null_value=: separator= INPUT=a -1 #
    null_value=\x7f""".split()
ODD_SEPARATORS = [b"", b"newline", b"ab", b"\x80", b"Comma"]
ODD_NULL_VALUES = [b"", b"x" * 65, b"\xff", b"a:b", b":"]
ODD_ITEMS = [
    b"",
    b"thru",
    b"1 thru",
    b"thru 1",
    b"*",
    b"1 thru thru",
    b"1 thru 2 thru 3",
    b"NULL",
    b"x",
    b"1-3",
]
ODD_ITEMS += [b"2147483648", b"* thru 2"]
ODD_RULES = [
    b"end,",
    b"end = 5",
    b"1",
    b"=",
    b"1 =",
    b"= 5",
    b"1 = thru",
    b"1 = *",
    b",# x",
    b"1 = x y",
    b"x = thru",
]
ODD_RULES += [
    b"1 = 2=3",
    b",=1",
    b"1 = 5,6",
    b"END",
    b"r.stats -c input=a",
    b"1 = 2147483648",
    b"* * = 1",
    b"x = 1",
]
ODD_RULES += [b"1 = -2147483648", b"1 thru x =", b"* = NULL x"]
ODD_STATEMENTS = [
    b"r.what input=a",
    b"R.STATS input=a",
    b"r.mapcalc",
    b"r.stats",
    b"end",
    b"-c",
    b"r.clump",
    b"=",
    b"\x00",
]
ODD_STATEMENTS += [
    b"r.mapcalcx=1",
    b"r.mapcalc x",
    b"r.out.ascii",
    b"r.reclass",
    b"r.stats,input=a",
    b"1 = 2",
]
ODD_STATEMENTS += [b"r.mapcalc x == 1", b"r.mapcalc foo(1) = 2"]

OPERATORS = b"+ - * / % < <= > >= == != && || &&& |||".split()
ARGUMENTS = {
    b"if": (1, 3),
    b"isnull": (1, 1),
    b"null": (0, 0),
    b"abs": (1, 1),
    b"min": (2, 4),
    b"max": (2, 4),
    b"mode": (2, 6),
    b"row": (0, 0),
    b"col": (0, 0),
    b"nrows": (0, 0),
    b"ncols": (0, 0),
    b"eval": (1, 3),
    b"nmin": (2, 4),
    b"nmax": (2, 4),
    b"nmode": (2, 6),
}
WRONG_FUNCTIONS = b"foo a median xor IF nmedian".split()
ODD_TOKENS = (
    OPERATORS
    + b"""= ? : ( ) [ ] , 1 a & | &&&& ! 1.5 . 2a 1e2 ^ @ null( min(1) foo( a[256,0] a[0,-256] 2147483648
    \xff""".split()
    + [b"n" * 65]
)


@dataclass
class Made:
    files: dict[str, bytes]
    grids: list[tuple[bytes, str]]  # names and files
    other_words: list[bytes] | None = None  # instead of the arguments for the files

    @property
    def words(self) -> list[bytes]:
        if self.other_words is not None:
            return self.other_words
        return [b"script"] + [name + b"=" + path.encode() for name, path in self.grids]


class Maker:
    """Draws the choices of a run. `badness` is the probability that a choice is invalid."""

    def __init__(self, random_source: random.Random):
        self.random = random_source
        self.badness = 0.0
        self.rows, self.cols = self.number(1, 6), self.number(1, 6)
        if self.chance(0.02):
            self.rows, self.cols = self.one(
                [(1, self.number(7, 300)), (self.number(7, 40), self.number(1, 6)), (9, 9)]
            )
        self.categories = self.random.sample(CATEGORIES, self.number(1, 5))

    def number(self, least: int, most: int) -> int:
        return self.random.randint(least, most)

    def one(self, choices):
        return self.random.choice(choices)

    def chance(self, part: float) -> bool:
        return self.random.random() < part

    def slips(self) -> bool:
        return self.badness > 0 and self.chance(self.badness)

    def spelled(self, number: int, plain: float = 0.8) -> bytes:
        """Return an integer in one of its spellings."""
        if self.chance(plain):
            return b"%d" % number
        zeros = b"0" * self.number(0, 3)
        sign = b"-" if number < 0 else self.one([b"", b"+", b"-"] if number == 0 else [b"", b"+"])
        return sign + zeros + b"%d" % abs(number)

    def damaged(self, text: bytes) -> bytes:
        """Return the text with a few bytes inserted, left out, or cut off at the end."""
        for _ in range(self.number(1, 2)):
            at = self.number(0, len(text))
            kind = self.number(0, 9)
            if kind < 5:
                text = text[:at] + self.one(ODD_BYTES) + text[at:]
            elif kind < 8:
                text = text[:at] + text[at + self.number(1, 3) :]
            elif kind < 9:
                text = text[:at] + self.one(ODD_BYTES) + text[at + 1 :]
            else:
                text = text[:at]
        return text


class GridMaker(Maker):
    """Makes grids of one region, in many spellings."""

    def __init__(self, random_source: random.Random):
        super().__init__(random_source)
        self.edges = self.one(
            [(3, 0, 4, 0), (0, -3, 10, -2), (9999999999, -9999999999, 1, 0), (7, 1, 2, 1)]
        )
        self.fractions = (
            self.one([(b"", b"", b"", b""), (b"5", b"", b"25", b"")])
            if self.edges[0] > 0
            else (b"",) * 4
        )
        if self.edges[0] == 9999999999:
            self.fractions = (b"99999999", b"00000001", b"", b"")

    def coordinate(self, whole: int, fraction: bytes) -> bytes:
        if self.slips():
            return self.one(ODD_COORDINATES)
        digits = b"%d" % abs(whole)
        digits = self.one([digits, digits, b"0" * (10 - len(digits)) + digits])
        sign = (
            b"-"
            if whole < 0
            else self.one([b"", b"", b"+"] + ([b"-"] if whole == 0 and not fraction else []))
        )
        if not fraction:
            return sign + digits + self.one([b"", b"", b".", b".0", b".00000000"])
        before_point = b"" if whole == 0 and self.chance(0.5) else digits
        return sign + before_point + b"." + fraction + b"0" * self.number(0, 8 - len(fraction))

    def header_lines(self, null_text: bytes, multiplier: int) -> list[bytes]:
        rows, cols = self.rows, self.cols
        edges = list(self.edges)
        if self.chance(0.01):
            edges[self.number(0, 3)] += self.one([1, -1, 5, -20])
        if self.chance(0.01):
            sizes = [
                (rows + 1, cols),
                (0, cols),
                (-1, cols),
                (65536, 1),
                (1, 65536),
                (65535, 65535),
                (cols, rows),
            ]
            rows, cols = self.one(sizes)
        lines = [
            (key, self.coordinate(edge, fraction))
            for key, edge, fraction in zip(
                (b"north", b"south", b"east", b"west"), edges, self.fractions
            )
        ]
        lines += [(b"rows", self.whole(rows)), (b"cols", self.whole(cols))]
        if null_text != b"*" or self.chance(0.1):
            lines.append((b"null", null_text))
        if self.chance(0.1):
            lines.append(
                (b"type", self.one([b"float", b"INT", b"int:"]) if self.slips() else b"int")
            )
        if multiplier != 1 or self.chance(0.1):
            lines.append((b"multiplier", self.whole(multiplier)))
        if self.chance(0.5):
            self.random.shuffle(lines)
        if self.slips():
            lines.insert(self.number(0, len(lines)), self.one(lines + ODD_HEADER_LINES))
        if self.slips():
            lines.pop(self.number(0, len(lines) - 1))
        return [self.header_line(key, value) for key, value in lines]

    def whole(self, number: int) -> bytes:
        return self.one(WRONG_NUMBERS) if self.slips() else self.spelled(number)

    def header_line(self, key: bytes, value: bytes) -> bytes:
        if self.chance(0.6):
            return key + b": " + value
        before, between, behind = (self.one([b"", b" ", b"\t ", b"\r"]) for _ in range(3))
        return before + key + b":" + between + value + behind

    def cell(self, null_text: bytes, multiplier: int) -> bytes:
        if self.slips():
            return self.one(ODD_CELLS)
        if self.chance(0.15):
            return null_text
        category = self.one(self.categories)
        if abs(category * multiplier) > 2147483647:
            category = 1
        return self.spelled(category, 0.9)

    def grid(self) -> bytes:
        if self.chance(0.003):
            return self.one(ODD_GRIDS)
        null_text = (
            self.one([b"-9", b"1", b"NA", b"0", b"x" * 64, b"rows"]) if self.chance(0.12) else b"*"
        )
        if self.slips():
            null_text = self.one([b"a:b", b":", b"x" * 65, b"1 2"])
        multiplier = self.one([1, 2, 3, -1, 0, 2147483647]) if self.chance(0.1) else 1
        cells = [self.cell(null_text, multiplier) for _ in range(self.rows * self.cols)]
        if self.slips():
            cells = self.one([cells[:-1], cells + [b"1"], cells + [b"x:"], []])
        text = self.laid_out(self.header_lines(null_text, multiplier), cells)
        return self.damaged(text) if self.slips() else text

    def laid_out(self, header: list[bytes], cells: list[bytes]) -> bytes:
        line_end = self.one([b"\n", b"\n", b"\n", b"\r\n", b"\n\n", b" \n\t\r\n"])
        if self.chance(0.7):
            rows = [b" ".join(cells[at : at + self.cols]) for at in range(0, len(cells), self.cols)]
            text = line_end.join(header + rows)
        else:
            whites = [self.one([b" ", b"  ", b"\n", b"\t", b"\r\n", b" \n "]) for _ in cells]
            text = (
                line_end.join(header)
                + line_end
                + b"".join(cell + white for cell, white in zip(cells, whites))
            )
        return text + self.one([b"\n", b"\n", b"\n", b"", b"  ", b"\r\n", b"\n\n \t\n"])


class ExpressionMaker(Maker):
    """Makes expressions as lists of tokens over the known maps."""

    def expression(self, depth: int, known: list[bytes]) -> list[bytes]:
        kind = self.number(0, 19)
        if depth == 0 or kind < 5:
            return self.leaf(known)
        if kind < 12:
            return (
                self.expression(depth - 1, known)
                + [self.one(OPERATORS)]
                + self.expression(depth - 1, known)
            )
        if kind < 14:
            return [self.one([b"-", b"-", b"!"])] + self.expression(depth - 1, known)
        if kind < 15:
            return self.bracketed(self.expression(depth - 1, known))
        if kind < 16:
            condition, chosen, other = (self.expression(depth - 1, known) for _ in range(3))
            return condition + [b"?"] + chosen + [b":"] + other
        return self.call(depth, known)

    def bracketed(self, inner: list[bytes]) -> list[bytes]:
        return [b"(", *inner, b")"]

    def leaf(self, known: list[bytes]) -> list[bytes]:
        kind = self.number(0, 9)
        if kind < 4:
            return [self.spelled(self.one(NUMBERS)).lstrip(b"+")]
        if kind < 5:
            return [b"null", b"(", b")"]
        name = self.one(WRONG_NAMES[1:] + MADE_NAMES) if self.slips() else self.one(known)
        if kind < 8:
            return [name]
        return [name, b"[", *self.offset(), b",", *self.offset(), b"]"]

    def offset(self) -> list[bytes]:
        if self.slips():
            return self.one(ODD_OFFSETS)
        number = b"%d" % self.one([0, 0, 1, 1, 1, 2, 3, 5, 255])
        return self.one([[number], [b"-", number], [b"+", number]])

    def call(self, depth: int, known: list[bytes]) -> list[bytes]:
        name = self.one(list(ARGUMENTS))
        least, most = ARGUMENTS[name]
        count = self.number(0, 4) if self.slips() else self.number(least, most)
        if self.slips():
            name = self.one(WRONG_FUNCTIONS)
        arguments: list[bytes] = []
        for at in range(count):
            arguments += ([b","] if at else []) + self.expression(depth - 1, known)
        return [name, b"(", *arguments, b")"]

    def damaged_tokens(self, tokens: list[bytes]) -> list[bytes]:
        at = self.number(0, len(tokens) - 1)
        before, token, behind = tokens[:at], tokens[at], tokens[at + 1 :]
        odd = self.one(ODD_TOKENS)
        return self.one(
            [
                before,
                before + behind,
                before + [odd] + behind,
                before + [odd, token] + behind,
                before + [token, token] + behind,
            ]
        )

    def long_expression(self, known: list[bytes]) -> list[bytes]:
        leaf = self.one(known)
        count = self.one([10, 100, 498, 499, 500])
        inside, part = count - 1, count // 4
        return self.one(
            [
                [leaf] + [b"+", b"1"] * count,
                [b"-"] * (2 * count) + [leaf],
                [b"("] * inside + [leaf] + [b")"] * inside,
                [leaf, b"?"] * part + [b"1"] + [b":", leaf] * part,
            ]
        )

    def assignment(self, target: bytes, known: list[bytes]) -> bytes:
        body = (
            self.long_expression(known)
            if self.chance(0.004)
            else self.expression(self.number(0, 4), known)
        )
        return self.assignment_of(target, body)

    def assignment_of(self, target: bytes, body: list[bytes]) -> bytes:
        tokens = [target, b"=", *body]
        for _ in range(2):
            if self.slips():
                tokens = self.damaged_tokens(tokens) or [target]
        blanks = self.one([[b" "], [b" "], [b"", b" "], [b"", b"", b"  ", b"\t", b"\r"], [b""]])
        return b" " + b"".join(token + self.one(blanks) for token in tokens)


class ScriptMaker(GridMaker, ExpressionMaker):
    """Makes scripts with all five commands."""

    def known_name(self, known: list[bytes]) -> bytes:
        return self.one(WRONG_NAMES + MADE_NAMES) if self.slips() else self.one(known)

    def target(self, known: list[bytes]) -> bytes:
        if self.slips():
            return self.one(WRONG_NAMES + known)
        return self.one([name for name in MADE_NAMES if name not in known])

    def joined(self, command: bytes, words: list[bytes]) -> bytes:
        """Return a command with its flags and options in some order."""
        if self.slips():
            words = words + [self.one(ODD_OPTIONS)]
        if words and self.slips():
            words.pop(self.number(0, len(words) - 1))
        if self.chance(0.5):
            self.random.shuffle(words)
        blank = self.one([b" ", b" ", b" ", b"  ", b"\t", b" \r "])
        before, behind = self.one([b"", b"", b"", b" ", b"\t"]), self.one(
            [b"", b"", b"", b" ", b"\r"]
        )
        return before + blank.join([command] + words) + behind

    def flags(self, letters: bytes, part: float) -> list[bytes]:
        chosen = [bytes([letter]) for letter in letters if self.chance(part)]
        if chosen and self.chance(0.1):
            chosen.append(self.one(chosen))
        return (
            [b"-" + b"".join(chosen)]
            if chosen and self.chance(0.5)
            else [b"-" + letter for letter in chosen]
        )

    def null_value(self, part: float) -> list[bytes]:
        if self.slips():
            return [b"null_value=" + self.one(ODD_NULL_VALUES)]
        good = [b"-9", b"NA", b"*", b"1", b"x" * 64, b"=", b"!~", b"0"]
        return [b"null_value=" + self.one(good)] if self.chance(part) else []

    def combination(self, width: int) -> bytes:
        if self.slips():
            width = self.number(0, 3)
        numbers = self.categories * 2 + CATEGORIES
        parts = [
            b"*" if self.chance(0.3) else self.spelled(self.one(numbers)) for _ in range(width)
        ]
        if parts and self.slips():
            parts[self.number(0, width - 1)] = self.one(WRONG_NUMBERS)
        return b",".join(parts)

    def stats(self, known: list[bytes]) -> list[bytes]:
        width = self.one([1, 1, 2, 2, 3, 4]) if not self.chance(0.01) else self.one([15, 16])
        width = 17 if self.slips() and self.chance(0.3) else width
        words = [b"input=" + b",".join(self.known_name(known) for _ in range(width))]
        by_cell = self.chance(0.2)
        words += self.flags(b"lnN1" if by_cell and self.slips() else b"lnN", 0.25)
        if by_cell:
            words += [self.one([b"-1", b"-11"])]
        elif self.chance(0.7):
            words += [b"-c"]
        if self.chance(0.3):
            good = b"pipe comma space tab ; = * - 0".split()
            words += [b"separator=" + self.one(ODD_SEPARATORS if self.slips() else good)]
        words += self.null_value(0.2)
        if self.slips() if by_cell else self.chance(0.3):
            words += [b"after=" + self.combination(width)]
        return [self.joined(b"r.stats", words)]

    def rule_item(self) -> bytes:
        if self.slips():
            return self.one(ODD_ITEMS)
        low, high = (
            self.spelled(self.one(self.categories + [0, 2, 9, 2147483647, -2147483647]), 0.9)
            for _ in range(2)
        )
        return (
            low if self.chance(0.5) else low + self.one([b" thru ", b"\tthru ", b", thru ,"]) + high
        )

    def rule(self) -> bytes:
        if self.chance(0.08):
            return self.one([b"", b"  ", b"# note", b" #= 3", b"\r", b"#"])
        if self.slips():
            return self.one(ODD_RULES)
        is_star = self.chance(0.2)
        items = [self.rule_item() for _ in range(self.one([1, 1, 2, 3]))]
        left = (
            self.one([b"*", b" * ", b",*,"])
            if is_star
            else self.one([b" ", b",", b", "]).join(items)
        )
        outputs = [self.spelled(self.one(self.categories + [1, 2, 7])) for _ in range(5)] + [
            b"NULL",
            b"null",
        ]
        outputs += [b"*", b"*"] if is_star else []
        label = self.one([b" ", b"\t", b"  "]) + self.one(LABELS) if self.chance(0.5) else b""
        return (
            left
            + self.one([b"=", b" = ", b"\t= "])
            + self.one(outputs)
            + label
            + self.one([b"", b"", b" ", b" \r"])
        )

    def reclass(self, known: list[bytes]) -> list[bytes]:
        target = self.target(known)
        lines = [
            self.joined(b"r.reclass", [b"input=" + self.known_name(known), b"output=" + target])
        ]
        lines += [self.rule() for _ in range(self.one([0, 1, 2, 3, 4]))]
        known.append(target)
        return lines + ([] if self.slips() else [self.one([b"end", b"end", b" end ", b"end\r"])])

    def clump(self, known: list[bytes]) -> list[bytes]:
        target = self.target(known)
        words = [b"input=" + self.known_name(known), b"output=" + target] + self.flags(b"d", 0.5)
        line = self.joined(b"r.clump", words)
        known.append(target)
        return [line]

    def mapcalc(self, known: list[bytes]) -> list[bytes]:
        target = self.target(known)
        line = self.one([b"", b"", b" "]) + b"r.mapcalc" + self.assignment(target, known)
        known.append(target)
        return [line]

    def out_ascii(self, known: list[bytes]) -> list[bytes]:
        return [
            self.joined(b"r.out.ascii", [b"input=" + self.known_name(known)] + self.null_value(0.3))
        ]

    def statement(self, known: list[bytes]) -> list[bytes]:
        if self.slips():
            return [self.one(ODD_STATEMENTS)]
        if self.chance(0.1):
            return [self.one([b"", b" ", b"# note", b"\t# r.stats", b"\r", b"#" * 100])]
        makers = (
            [self.stats] * 2
            + [self.out_ascii] * 2
            + [self.mapcalc] * 3
            + [self.reclass, self.clump]
        )
        return self.one(makers)(known)

    def damaged_statement(self, known: list[bytes]) -> list[bytes]:
        """Return a statement that probably has an error, half of the time deep inside."""
        kind = self.number(0, 3)
        self.badness = 0.05
        if kind > 0:
            tokens = [self.target(known), b"=", *self.expression(self.number(1, 4), known)]
            for _ in range(self.one([1, 1, 2])):
                tokens = self.damaged_tokens(tokens) or [b"x"]
            return [
                b"r.mapcalc "
                + self.one([b" ", b" ", b"", b"  "]).join(tokens)
                + self.one([b"", b" "])
            ]
        self.badness = 0.15
        return self.one([self.stats, self.reclass, self.clump, self.out_ascii])(known)

    def script(self, names: list[bytes]) -> bytes:
        if self.chance(0.08):
            return b"\n".join(self.damaged_statement(list(names))) + b"\n"
        if self.chance(0.002):
            return self.one([b"", b"\n", b"\r", b"#", b"\r\n"])
        known, lines = list(names), []
        for _ in range(self.number(1, 5)):
            lines += self.statement(known)
        made = [name for name in known if name not in names]
        if made and self.badness == 0:
            lines += [b"r.out.ascii input=" + name for name in made] + [
                b"r.stats -cl input=" + b",".join(made)
            ]
        if self.slips():
            at = self.number(0, len(lines) - 1)
            lines[at] += self.one([b" ", b"x"]) * (65535 - len(lines[at]) + self.number(-1, 1))
        line_end = self.one([b"\n", b"\n", b"\r\n"])
        text = line_end.join(lines) + self.one([line_end, line_end, b"", b"\r", b"\n\n"])
        return self.damaged(text) if self.slips() else text

    def made(self) -> Made:
        """Make a run. Half of the runs are valid, some have invalid grids, and more have invalid
        scripts."""
        grid_badness, script_badness = self.one(
            [(0, 0)] * 5 + [(0.005, 0), (0.03, 0), (0, 0.02), (0, 0.05), (0, 0.15)]
        )
        self.badness = grid_badness
        names = self.random.sample(NAMES, self.one([1, 1, 2, 2, 3]))
        if self.slips():
            names.append(names[0])
        grids = [(name, f"grid{at}") for at, name in enumerate(names)]
        files = {path: self.grid() for _, path in grids}
        self.badness = script_badness
        return Made({"script": self.script(names), **files}, grids)


def make(random_source: random.Random) -> Made:
    return ScriptMaker(random_source).made()

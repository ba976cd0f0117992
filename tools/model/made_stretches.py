"""Make random grids of long runs for tools/model/compare.py: runs of one word that end within rows,
with them or after them, words that differ in only one byte, and texts whose blocks, as the program
reads them, end within words."""
from __future__ import annotations

import random

from made_cases import ODD_CELLS, Made, ScriptMaker

BLOCK = 65536  # bytes that the program reads at a time

LENGTHS = [
    1,
    1,
    2,
    3,
    4,
    5,
    6,
    7,
    8,
    9,
    12,
    15,
    16,
    17,
    24,
    31,
    32,
    33,
    63,
    64,
    65,
    127,
    128,
    129,
    300,
]
SEPARATORS = [b" "] * 6 + [b"  ", b"   ", b"\t", b" \t", b"\t\t", b"\r", b" \r", b" " * 8]
ROW_ENDS = (
    [b"\n"] * 4
    + [b"\r\n"] * 3
    + [b" \n", b" \r\n", b"\t\n", b"  \n", b"\n\n", b"\r\n\r\n", b" \n ", b"\n  "]
)
WORDS = [b"%d" % 10**digits for digits in range(10)] + [b"1" * digits for digits in range(1, 10)]
WORDS += [
    b"12345678",
    b"12345679",
    b"22345678",
    b"1234567",
    b"123456789",
    b"123456780",
    b"-1",
    b"-11",
    b"-123456",
    b"-1234567",
]
WORDS += [
    b"0",
    b"2",
    b"3",
    b"7",
    b"12",
    b"21",
    b"13",
    b"112",
    b"122",
    b"65535",
    b"65536",
    b"2147483647",
    b"-2147483647",
]
SPELLINGS = [b"+%s", b"0%s", b"00%s", b"0000000%s", b"00000000%s", b"+0%s", b"-0%s"]
NULL_TEXTS = [b"*"] * 6 + [b"0", b"1", b"-9999", b"NA", b"NoData12", b"***", b"11", b"x" * 64]
BAD_BYTES = [
    b"\x00",
    b"\x0b",
    b"\x0c",
    b"\xa0",
    b":",
    b"*",
    b"-",
    b".",
    b"\xff",
    b"9",
    b"\n",
    b"\r",
    b" ",
    b"",
]


class StretchMaker(ScriptMaker):
    """Makes grids of one region whose rows are runs of equal words, and scripts that print each
    cell."""

    def __init__(self, random_source: random.Random):
        super().__init__(random_source)
        shapes = [
            (self.number(1, 5), self.number(1, 60)),
            (self.number(1, 3), self.number(60, 200)),
            (self.number(1, 2), self.number(200, 700)),
        ]
        self.rows, self.cols = self.random.choices(shapes, [60, 30, 10])[0]
        if self.chance(0.003):
            self.rows, self.cols = self.number(20, 40), self.number(300, 600)
        self.words = self.random.sample(WORDS, self.one([1, 2, 2, 3, 5, 12]))
        self.lengths = self.one(
            [LENGTHS, LENGTHS, [self.cols], [self.cols * 2, self.cols, 7], [1, 2, 3], [64, 65, 200]]
        )
        self.breaks = self.break_places()
        self.has_fault = False

    def break_places(self) -> set[int]:
        """Return cells that start a run. The maps of a script share most of them."""
        found, at = set(), 0
        while at < self.rows * self.cols:
            found.add(at)
            at += self.one(self.lengths)
            if self.chance(0.2):  # a run that ends with its row
                at = (at + self.cols - 1) // self.cols * self.cols
        return found

    def cell_words(self, null_text: bytes) -> list[bytes]:
        """Return the word of each cell. Within a run, some words are spelled differently."""
        words, word = [], b""
        part_of_others = self.one([0, 0, 0, 0.01, 0.1])
        for at in range(self.rows * self.cols):
            if at in self.breaks or not words:
                word = null_text if self.chance(0.15) else self.one(self.words)
                if self.chance(0.1) and word not in (null_text, b"*"):
                    word = self.spelled_word(word)
            other = part_of_others and self.chance(part_of_others)
            words.append(
                self.one([null_text, self.one(self.words), self.spelled_word(word)])
                if other
                else word
            )
        return words

    def spelled_word(self, word: bytes) -> bytes:
        """Return the same number in another spelling, if the word is a number."""
        digits = word.lstrip(b"-")
        if not digits.isdigit():
            return word
        spelled = self.one(SPELLINGS) % digits
        return (
            b"-" + spelled.lstrip(b"+-")
            if word.startswith(b"-") or (spelled.startswith(b"-") and int(digits))
            else spelled
        )

    def separators(self, count: int) -> list[bytes]:
        """Return the text after each cell: usually one separator for the full map, sometimes
        another, and the row ends."""
        usual, row_end = self.one(SEPARATORS), self.one(ROW_ENDS)
        part_of_others = self.one([0, 0, 0, 0.005, 0.1])
        found = [
            self.one(SEPARATORS) if part_of_others and self.chance(part_of_others) else usual
            for _ in range(count)
        ]
        kind = self.number(0, 9)
        for at in range(self.cols - 1, count, self.cols):
            if kind > 0:  # else all cells are on one line
                found[at] = row_end if kind > 1 else self.one(ROW_ENDS)
        if kind == 9:  # lines that end anywhere
            for at in self.random.sample(range(count), min(count, 5)):
                found[at] = self.one(ROW_ENDS)
        if found:
            found[-1] = self.one([row_end, b"", b"\n", b" ", b"\r\n"])
        return found

    def grid(self) -> bytes:
        null_text = self.one(NULL_TEXTS)
        words = self.cell_words(null_text)
        multiplier = self.one([2, -1, 0]) if self.chance(0.05) else 1
        if self.slips() or self.chance(0.08):
            self.has_fault = True
            at = self.number(0, len(words) - 1)
            words[at : at + 1] = self.one(
                [
                    [self.one(ODD_CELLS)],
                    [],
                    [words[at]] * 2,
                    [words[at] + self.one(BAD_BYTES)],
                    [b"0" * self.number(60, 66) + b"1"],
                ]
            )
        cells = [piece for pair in zip(words, self.separators(len(words))) for piece in pair]
        header = self.one([b"\n", b"\r\n"]).join(
            self.header_lines(null_text, multiplier)
        ) + self.one([b"\n", b"\r\n", b"\n\n", b"\n "])
        text = self.padded(header, b"".join(cells))
        if self.chance(0.04):
            self.has_fault = True
            at = self.number(len(header), len(text))
            text = text[:at] + (self.one(BAD_BYTES) + text[at + 1 :] if self.chance(0.7) else b"")
        return text

    def padded(self, header: bytes, cells: bytes) -> bytes:
        """Return header and cells. In one of four grids, blanks are inserted so that a block ends
        within the cells."""
        if len(header) >= BLOCK or not self.chance(0.25):
            return header + cells
        place = self.number(0, min(len(cells), BLOCK - len(header)))
        blanks = self.one([1, 1, 1, 2]) * BLOCK - len(header) - place
        return header + self.one([b" ", b"\n", b"\t", b"\r"]) * blanks + cells

    def whole_script(self, names: list[bytes]) -> bytes:
        """Return a script that prints the cells: clumps, tables over all maps, and the maps
        themselves."""
        lines = (
            [b"r.clump %sinput=%s output=areas" % (self.one([b"", b"-d "]), self.one(names))]
            if self.chance(0.5)
            else []
        )
        lines += [
            b"r.mapcalc %s"
            % self.one(
                [
                    b"z = %s[0,1] == %s" % (names[0], names[-1]),
                    b"z = if(isnull(%s), 7, %s)" % (names[0], names[-1]),
                    b"z = %s + %s" % (names[0], names[-1]),
                    b"z = %s == 1 ? %s : row()" % (names[0], names[-1]),
                ]
            )
        ]
        lines += self.reclass(list(names)) if self.chance(0.2) else []
        made = [*names, b"z", *([b"areas"] if lines[0].startswith(b"r.clump") else [])]
        lines += [
            b"r.stats %sinput=%s"
            % (
                self.one([b"-c ", b"-c ", b"-cn ", b"-cN ", b"", b"-1 "]),
                b",".join(self.random.sample(made, self.number(1, len(made)))),
            )
        ]
        lines += [b"r.out.ascii input=" + name for name in made]
        return b"\n".join(lines) + b"\n"

    def made(self) -> Made:
        self.badness = self.one([0] * 9 + [0.01])
        names = self.random.sample([b"a", b"b", b"g"], self.one([1, 1, 2, 3]))
        grids = [(name, f"grid{at}") for at, name in enumerate(names)]
        files = {path: self.grid() for _, path in grids}
        self.badness = 0
        script = (
            self.whole_script(names)
            if self.has_fault or self.rows * self.cols > 400 or self.chance(0.6)
            else self.script(names)
        )
        return Made({"script": script, **files}, grids)


def make_stretches(random_source: random.Random) -> Made:
    """Make a run over grids of long runs."""
    return StretchMaker(random_source).made()

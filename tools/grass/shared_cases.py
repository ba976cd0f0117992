"""Make random grids and scripts for runs.py that rcell and GRASS both accept, and for which
docs/grass.md lists no differences.

The makers of made_cases.py are used. `SharedMaker` leaves out the spellings that the document
lists. If `IS_LISTED` finds a listed difference for a statement, over the maps known at that point,
the statement is made again.
"""
import re

from made_cases import Made, ScriptMaker
from model import Mapcalc, Reclass, ScriptReader, Stats, reclassed
from model_expressions import FUNCTIONS, Binary, Call, MapCell, Negated, Not, Place
from model_grids import GREATEST, Refused, read_map

# GRASS keeps an entry for each category in between, and with `* = *` its time grows with the square
# of their number.
FARTHEST_CATEGORY = 4000
NO_FRACTIONS = (b"", b"", b"", b"")
# Edges have at most 15 digits, because GRASS stores them as floating-point numbers.
REGIONS = [
    ((3, 0, 4, 0), NO_FRACTIONS),
    ((0, -3, 10, -2), NO_FRACTIONS),
    ((5812350, 5811000, 660150, 659250), NO_FRACTIONS),
    ((7, 1, 2, 1), (b"5", b"", b"25", b"")),
    ((51, 50, 9, 8), (b"12345678", b"5", b"00000001", b"75")),
]
SQUARE_WRAPS = 46341  # its square is above 2147483647
SMALL_NUMBERS = [0, 1, 1, 2, 2, 3, 4, 5, 7, 10, 100]
RULE_CATEGORIES = [0, 1, 2, 3, 5, 9, 10, -1, -5, 1000, -1000, 4000]
LABELS = [
    b"low",
    b"b",
    b"two words",
    b"=",
    b"# no",
    b"a\tb",
    b"no data",
    b"l\xc3\xa4nge",
    b"\xff|",
    b"5",
    b"end",
    b"a:b",
    b"%d",
    b"1 = 2",
]
TWO_SIGNS = re.compile(rb"[^\w.)\]\s]\s*[-!]\s*[-!](?!=)")


# What docs/grass.md lists


def operands(term):
    if isinstance(term, (Negated, Not)):
        return [term.operand]
    if isinstance(term, Binary):
        return [term.left, term.right]
    return term.arguments if isinstance(term, Call) else []


def is_tie(values):
    """Return whether several values are the most frequent."""
    counts = [values.count(value) for value in set(values) - {None}]
    return counts.count(max(counts, default=0)) > 1


def has_listed_value(term, place):
    """Return whether some part of an expression, evaluated or not, overflows 32 bits, is % 0, or is
    a mode with a tie."""
    if any(has_listed_value(operand, place) for operand in operands(term)):
        return True
    values = [operand.value(place) for operand in operands(term)]
    if isinstance(term, Call) and term.function in (FUNCTIONS[b"mode"], FUNCTIONS[b"nmode"]):
        return is_tie(values)
    if not isinstance(term, Binary) or None in values:
        return False
    left, right = values
    # In GRASS, 2147483648 is null, with either sign.
    exact = {b"+": left + right, b"-": left - right, b"*": left * right}.get(term.operator, 0)
    return abs(exact) > GREATEST + 1 or (term.operator == b"%" and right == 0)


def is_listed_of_mapcalc(statement, maps, line):
    """Return whether an r.mapcalc has overflow, % 0, a tie, two consecutive signs, or labels that
    only a plain map passes on."""
    region = next(iter(maps.values())).region
    term = statement.expression
    return (
        bool(TWO_SIGNS.search(line))
        or (isinstance(term, MapCell) and bool(maps[term.name].labels))
        or any(
            has_listed_value(term, Place(maps, region, row, col)) for row, col in region.places()
        )
    )


def cells_of(made):
    return [cell for row in made.rows for cell in row if cell is not None]


def may_be_empty(rules, given):
    """Return whether no cell gets a category, so that the table of GRASS, from the first map that
    was reclassed, may be empty."""
    return all(reclassed(rules, cell) is None for cell in cells_of(given))


def is_listed_of_reclass(statement, maps, line):
    """Return whether an r.reclass has no rules, rules of `*` before others, labels affected by
    these, wide ranges, or category 0 through an empty table."""
    rules, given = statement.rules, maps[statement.input]
    stars = [rule for rule in rules if rule.ranges is None]
    if not rules or rules[len(rules) - len(stars) :] != stars:
        return True
    ends = [end for rule in rules if rule.ranges for pair in rule.ranges for end in pair]
    ends += cells_of(given) if stars else []
    if max(map(abs, ends), default=0) > FARTHEST_CATEGORY:
        return True
    if may_be_empty(rules, given) and any(0 in cells_of(made) for made in maps.values()):
        return True
    if any(rule.output == "same" or rule.label for rule in stars[:-1]):
        return True
    last, labelled = stars[-1] if stars else None, {rule.output for rule in rules if rule.label}
    return bool(last) and (
        bool(given.labels) if last.output == "same" else not last.label and last.output in labelled
    )


def is_listed_of_stats(statement, maps, line):
    """Return whether an r.stats has the option `after` or the category 2147483647."""
    return statement.after is not None or any(
        GREATEST in cells_of(maps[name]) for name in statement.inputs
    )


IS_LISTED = {
    Mapcalc: is_listed_of_mapcalc,
    Reclass: is_listed_of_reclass,
    Stats: is_listed_of_stats,
}


# Grids and scripts


class SharedMaker(ScriptMaker):
    """Makes grids and scripts that rcell and GRASS both accept, without the spellings that
    docs/grass.md lists."""

    def __init__(self, random_source):
        super().__init__(random_source)
        self.edges, self.fractions = self.one(REGIONS)
        if self.chance(0.7):
            self.categories = self.random.sample(RULE_CATEGORIES, self.number(1, 5))
        if self.chance(0.3):
            self.rows, self.cols = self.number(5, 14), self.number(5, 14)
            self.categories = self.categories[:2]

    def header_line(self, key, value):
        return key + self.one([b": ", b": ", b":", b":\t"]) + value  # nothing before a key

    def laid_out(self, header, cells):
        text = super().laid_out([], cells).lstrip(b"\r\n")
        line_end = self.one([b"\n", b"\n", b"\r\n"])  # no empty line in a header
        return b"".join(line + line_end for line in header) + text

    def coordinate(self, whole, fraction):
        text = super().coordinate(whole, fraction)
        return text.removeprefix(b"-") if whole == 0 else text  # GRASS keeps the sign of -0

    def offset(self):
        number = b"%d" % self.one([0, 0, 1, 1, 1, 2, 3, 5, 255])
        return self.one([[number], [b"-", number]])  # no +

    def leaf(self, known):
        if self.chance(0.3):
            return [b"%d" % self.one(SMALL_NUMBERS)]
        return super().leaf(known)

    def call(self, depth, known):
        if self.chance(0.15):
            return self.mode_call(depth, known)
        return super().call(depth, known)

    def mode_call(self, depth, known):
        """Make a mode that usually has one most frequent value."""
        choices = [self.expression(depth - 1, known) for _ in range(self.number(1, 3))]
        arguments = choices + [choices[0]] * self.number(1, 3)
        self.random.shuffle(arguments)
        separated = [token for argument in arguments for token in [b",", *argument]][1:]
        return [self.one([b"mode", b"nmode"]), b"(", *separated, b")"]

    def rule_item(self):
        low, high = (b"%d" % self.one(RULE_CATEGORIES + self.categories[:1]) for _ in range(2))
        return (
            low if self.chance(0.5) else low + self.one([b" thru ", b"\tthru ", b"  thru  "]) + high
        )

    def rule(self):
        """Make a rule without commas, plus signs and comments."""
        if self.chance(0.05):
            return self.one([b"", b"  "])
        is_star = self.chance(0.25)
        items = [self.rule_item() for _ in range(self.one([1, 1, 2, 3]))]
        # r.stats of GRASS treats 2147483647 as a category of the map as soon as a rule assigns it.
        categories = [category for category in self.categories if category < GREATEST] + [
            0,
            1,
            2,
            7,
            SQUARE_WRAPS,
        ]
        outputs = [b"%d" % self.one(categories) for _ in range(5)]
        outputs += [b"NULL", b"null"] + [b"*", b"*"] * is_star
        label = self.one([b" ", b"\t", b"  "]) + self.one(LABELS) if self.chance(0.5) else b""
        left = b"*" if is_star else self.one([b" ", b"  ", b"\t"]).join(items)
        return (
            left
            + self.one([b" = ", b" = ", b"=", b"\t= "])
            + self.one(outputs)
            + label
            + self.one([b"", b"", b" "])
        )

    def reclass(self, known):
        """Make an r.reclass in which the rules of `*` are last."""
        command, *rules, end = super().reclass(known)
        return [command, *sorted(rules, key=lambda rule: rule.startswith(b"*")), end]

    def assignment(self, target, known):
        return self.assignment_of(target, self.expression(self.number(1, 5), known))

    def statement(self, known):
        if self.chance(0.05):
            return super().statement(known)
        makers = (
            [self.stats] * 3
            + [self.out_ascii]
            + [self.mapcalc] * 4
            + [self.reclass] * 4
            + [self.clump] * 2
        )
        return self.one(makers)(known)

    def unlisted(self, known, maps):
        """Make a statement without listed differences, and apply it to the maps."""
        while True:
            names = list(known)
            lines = self.statement(names)
            for _, statement in ScriptReader(
                b"".join(line + b"\n" for line in lines), known
            ).read():
                if IS_LISTED.get(type(statement), lambda *_: False)(statement, maps, lines[0]):
                    break
                statement.run(maps, next(iter(maps.values())).region)
            else:
                known[:] = names
                return lines

    def grids_of_one_region(self, names):
        while True:
            texts = {name: self.grid() for name in names}
            try:
                maps = {name: read_map(name, text) for name, text in texts.items()}
            except Refused:
                continue
            if all(made.region == maps[names[0]].region for made in maps.values()):
                return texts, maps

    def questions(self, made, maps):
        """Return statements that write each cell of the new maps, with its label if r.stats is
        used."""
        for_stats = [name for name in made if GREATEST not in cells_of(maps[name])]
        lines = [b"r.out.ascii input=" + name for name in made if name not in for_stats]
        return lines + ([b"r.stats -1l input=" + b",".join(for_stats)] if for_stats else [])

    def made(self):
        names = self.random.sample(
            [b"a", b"b", b"g", b"_x.1", b"script", b"N" * 64], self.one([1, 2, 2, 3])
        )
        texts, maps = self.grids_of_one_region(names)
        known, lines = list(names), []
        for _ in range(self.number(2, 8)):
            lines += self.unlisted(known, maps)
        lines += self.questions(known[len(names) :], maps)
        line_end = self.one([b"\n", b"\n", b"\r\n"])
        grids = [(name, f"grid{at}") for at, name in enumerate(names)]
        files = {path: texts[name] for name, path in grids}
        return Made({"script": b"".join(line + line_end for line in lines), **files}, grids)

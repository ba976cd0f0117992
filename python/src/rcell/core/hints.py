# SPDX-License-Identifier: Apache-2.0 OR GPL-2.0-or-later
"""Suggest a correction, or offer advice, for a script line that rcell rejects.

The corrections cover common mistakes. At most two corrected lines are tested with rcell-pipe, and a
line is suggested only if rcell-pipe accepts it. No result of a run depends on this module. Lines
contain one character per byte, because columns are counted in bytes.
"""

from __future__ import annotations

import functools
import json
import math
import os
import re
from collections.abc import Callable, Iterable, Iterator, Sequence
from fractions import Fraction
from typing import Optional, Union

__all__ = ["advice", "lines_of_error", "near", "sentence"]

SHOWN_BYTES, LONGEST_LINE = 100, 300
MOST_CHECKS, PLAN_SECONDS = 2, 10
LONGEST_MENDED = 4000  # the longest line that is corrected, in bytes
MOST_NAMES = 400
COMMANDS = ("r.mapcalc", "r.reclass", "r.clump", "r.stats", "r.out.ascii")
# The flags and the keys of each command.
OPTIONS = {
    "r.reclass": ("", ("input", "output")),
    "r.clump": ("d", ("input", "output")),
    "r.stats": ("clnN1", ("input", "separator", "null_value", "after")),
    "r.out.ascii": ("", ("input", "null_value")),
}
FUNCTIONS = "if isnull null abs min max mode row col nrows ncols eval nmin nmax nmode".split()
KEYS = {"in": "input", "map": "input", "out": "output", "fs": "separator", "null": "null_value"}
SEPARATORS = {"pipe", "comma", "space", "tab"}
OPERATORS = dict(
    zip("and or mod div eq ne lt gt le ge".split(), "&& || / % == != < > <= >=".split()),
    **{"<>": "!=", "=>": ">=", "=<": "<=", "≤": "<=", "≥": ">=", "≠": "!=", "×": "*", "÷": "/"},
)

_MARK = "\0"  # marks the place of the error in a line
_NO_BYTES = re.compile("[\ud800-\udc7f\udd00-\udfff]")  # surrogates other than escaped bytes
_COLUMN = re.compile(r" at column (\d+)$")
_MADE = re.compile(r"\boutput=([\w.]+)|^[ \t]*r\.mapcalc[ \t]+([\w.]+)[ \t]*=", re.MULTILINE)
_WORD = re.compile(r"[^ \t\r]+")
_NAME = re.compile(r"[A-Za-z_][\w.]*", re.ASCII)

Replacement = Union[str, "Callable[[re.Match[str]], str]"]


def _power(match: re.Match[str]) -> str:
    return "(" + " * ".join([match[1]] * int(match[2])) + ")"


def _operator(match: re.Match[str]) -> str:
    sign = match[0].replace(_MARK, "").encode("latin-1").decode("utf-8", "replace")
    return OPERATORS.get(sign.lower(), match[0])


def _lower(match: re.Match[str]) -> str:
    return match[0].lower()


def _whole(match: re.Match[str]) -> str:
    """Rewrite a comparison, product or quotient with a decimal number using whole numbers."""
    sign, value = match[1].strip(), Fraction(match[2])
    if sign in ("<", ">=", ">", "<="):  # `< 2.5` is `< 3`, and `> 2.5` is `> 2`
        return f"{sign} {math.ceil(value) if sign in ('<', '>=') else math.floor(value)}"
    if value.denominator == 1:
        return f"{match[1]}{value}"
    if sign not in ("*", "/"):
        return match[0]
    factor, divisor = value.as_integer_ratio()
    if sign == "/":
        factor, divisor = divisor, factor
    if factor == 1:  # the divisor is then above 1, because the value is not whole
        return f"/ {divisor}"
    return f"* {factor} / {divisor}" if divisor > 1 else f"* {factor}"


_COMMENT = (r"[ \t]*\0?#.*", "")
_FLAG = (r"[ \t]\0?-\0?-\0?(?:o|overwrite|q|quiet|v|verbose|help|ui)\b", "")
_QUOTES = (r"[\"']", "")
_KEY = (r"^([ \t]*r\.mapcalc[ \t]+)expression=", r"\1")
_NEXT = (r"^\0?[ \t]*(?=[rg]\.[a-z])", "end\n")
# The replacements for each message. All are tried together, then only the first that applies.
REWRITES: dict[str, list[tuple[str, Replacement]]] = {
    "unknown command": [
        (r"^\0?\xef\xbb\xbf|\xc2\xa0", " "),
        (r"^[ \t]*\0?[rR]\.\w+", _lower),
    ],
    "bad option": [
        _COMMENT,
        (r"[ \t]\0?(?:--\S*|(?:[<>|]|2>|&>).*)", ""),
        (r"\xe2\x80[\x93\x94]", "-"),
        (r"-[ \t]+(?=\w)", "-"),
        _QUOTES,
        (r"[ \t]*\0?=[ \t]*", "="),
    ],
    "bad name": [
        _QUOTES,
        (r"@[\w.]*", ""),
        (r"[ \t]*=[ \t]*", "="),
        (r",[ \t]+", ","),
        (r",+(?=[ \t]|$)", ""),
        (r"(?<=\w)-(?=\w)", "_"),
    ],
    "bad rule": [
        _NEXT,
        (r"^\0?[ \t]*end\b.+", "end"),
        (r"^\0?[ \t]*(-?\d+):(-?\d+):(-?\d+).*", r"\1 thru \2 = \3"),
    ],
    "bad number in rule": [
        _NEXT,
        (r"==+", "="),
        (r"[ \t]*;[ \t]*", "\n"),
        (r"(\d)[ \t]*(?:-|\.\.|:|\bto\b)[ \t]*(-?\d+)(?=.*=)", r"\1 thru \2"),
        (r"(?i)(=[ \t]*)(?:na|nan|null|nodata|none|null\(\))(?!\S)", r"\1NULL"),
        (r"(=[ \t]*)(?=[^\s\d*+-])(?!(?:NULL|null)(?!\S))", r"\g<1>1 "),
    ],
    "bad byte": [
        _COMMENT,
        _QUOTES,
        _FLAG,
        _KEY,
        (r"@[\w.]*", ""),
        (r"\0;[ \t]*(?:r\.mapcalc[ \t]+)?(?=\S)|\0;[ \t]*", "\nr.mapcalc "),
        (r"\nr\.mapcalc $", ""),
        (r"([A-Za-z_][\w.]*)[ \t]*\0\^[ \t]*([23])(?![\w.])", _power),
        (r"\0[\xc2-\xe2][\x80-\xbf]+", _operator),
    ],
    "unexpected token": [
        _FLAG,
        _KEY,
        (r"([A-Za-z_][\w.]*)[ \t]*\0?\*\0?\*[ \t]*([23])(?![\w.])", _power),
        (r"<\0?>|=\0?>|=\0?<|(?i:\0(?:and|or|mod|div|eq|ne|lt|gt|le|ge))(?![\w.])", _operator),
        (r"(?i)(?<![\w.])not[ \t]+\0?(?=\S)", "!"),
        (r"^([ \t]*r\.mapcalc[ \t]+[\w.]+[ \t]*)\0?=\0?=", r"\1="),
        (r"\0=(?!=)", "=="),
        (r"(\[[^\[\],]*)\0\]", r"\1,0]"),
        (r"^([ \t]*r\.mapcalc[ \t]+[\w.]+)\0-([\w.]*[ \t]*=)", r"\1_\2"),
        (r"\0\)", ""),
    ],
    "number not whole": [(r"([*/<>]=?[ \t]*|)\0?(\d+\.\d*|\.\d+)", _whole)],
    "unknown function": [
        (r"(?i)\0(?:int|float|double)(?=[ \t]*\()", ""),
        (r"\0?\b\w*[A-Z]\w*(?=[ \t]*\()", _lower),
    ],
    "wrong number of arguments": [(r"\0null(?=[ \t]*\()", "isnull")],
    "unknown map": [
        _FLAG,
        (r"(?i)\0null(?![\w.(])", "null()"),
        (r"\0(n?rows?|n?cols?)(?![\w.(])", r"\1()"),
    ],
}


class _Error:
    """A rejected line (one character per byte), the error message, and the known map names."""

    def __init__(self, text: str, line: str, column: int, names: list[str]) -> None:
        self.text, self.line, self.names = text, line, names
        self.part = "expression" if column else "script"  # of messages.json
        first_word = _WORD.search(line)
        self.command = first_word[0] if first_word else ""
        self.bad = None if column else self.bad_word()
        self.place = max(column - 1, 0)  # the index of the error in the line
        if self.bad:
            self.place = self.bad.start()

    def bad_word(self) -> Optional[re.Match[str]]:
        """Match the first word that is neither a valid option nor a known map, or return None."""
        if self.text == "unknown map":
            values = re.compile(r"(?<=[=,])[A-Za-z_][\w.]*(?=[,\s]|$)", re.ASCII)
            words = values.finditer(self.line) if self.command in OPTIONS else ()
            return next((word for word in words if word[0] not in self.names), None)
        if self.text not in ("bad option", "bad name"):
            return None
        keys: set[str] = set()
        for word in [*_WORD.finditer(self.line)][1:]:  # without the command
            key, equals, value = word[0].partition("=")
            if not self.is_option(key, equals, value) or key in keys:
                return word
            keys.add(key)
        return None

    def is_option(self, key: str, equals: str, value: str) -> bool:
        """Return whether a word is an option of the line's command and has a valid value."""
        flags, keys = OPTIONS.get(self.command, ("", ()))
        if key.startswith("-"):
            return len(key) > 1 and set(key[1:]) <= set(flags) and not equals
        if self.text == "bad name" and key in ("input", "output"):
            names = value.split(",") if self.command == "r.stats" else [value]
            return all(_NAME.fullmatch(name) and len(name) <= 64 for name in names)
        is_valid = {
            "separator": value in SEPARATORS or len(value) == 1,
            "null_value": 1 <= len(value) <= 64 and (self.command == "r.stats" or ":" not in value),
            "input": value.count(",") < 16,
        }
        return bool(equals) and key in keys and is_valid.get(key, True)

    # Corrections

    def lines(self) -> Iterator[str]:
        """Yield corrected lines, with the most likely correction first."""
        marked = self.line[: self.place] + _MARK + self.line[self.place :]
        all_changes, first_change = marked, None
        for pattern, new in REWRITES.get(self.text, ()):
            after = re.sub(pattern, new, all_changes, flags=re.ASCII)
            if first_change is None and after != all_changes:
                first_change = after
            all_changes = after
        for candidate in (all_changes, first_change, *self.near_lines()):
            if candidate is None:
                continue
            line = candidate.replace(_MARK, "").rstrip()
            if line != self.line.rstrip():
                yield line

    def near_lines(self) -> Iterator[str]:
        """Yield lines with an unknown name replaced by a similar one, or a missing part added."""
        head, tail = self.line[: self.place], self.line[self.place :]
        match = _NAME.match(tail) or _WORD.match(tail)
        word = match[0] if match else ""
        rest = tail[len(word) :]
        if self.text == "unknown command":
            yield from (head + name + rest for name in near(word.lower(), COMMANDS, cutoff=0.75))
        elif self.text == "bad option" and self.bad:
            after = tail[len(self.bad[0]) :]
            for new in self.near_options():
                yield head + new + (after if new else after.lstrip(" "))
        elif self.text == "unknown map":
            yield from (head + name + rest for name in near(word, self.names))
        elif self.text == "unknown function":
            yield from (head + name + rest for name in near(word, FUNCTIONS))
        elif self.text == "map exists":
            match = _MADE.search(self.line)
            if match:
                name = match[1] or match[2]  # of `output=` or of r.mapcalc
                yield self.line.replace(name, f"{name}_2", 1)
        elif self.text == "missing option":
            line = self.line
            if "input=" not in self.line:
                line += f" input={self.names[0]}"
            if "output=" not in self.line:
                line += " output=NAME"
            yield line
        elif self.text == "unexpected token":
            yield self.line + ")" * (self.line.count("(") - self.line.count(")"))

    def near_options(self) -> Iterator[str]:
        """Yield replacements for an invalid option. An empty string removes the option."""
        assert self.bad
        flags, keys = OPTIONS.get(self.command, ("", ()))
        key, equals, value = self.bad[0].partition("=")
        if key.startswith("-"):
            letters = dict.fromkeys(letter for letter in key[1:] if letter in flags)
            is_known_in_lower_case = key != "-" and set(key[1:].lower()) <= set(flags)
            if letters:
                yield "-" + "".join(letters)
            else:
                yield key.lower() if is_known_in_lower_case else ""
        elif not equals:
            yield f"input={key}"
        elif key not in keys:
            for new in (KEYS.get(key), *near(key, keys)):
                if new in keys:
                    yield f"{new}={value}"
        # A known option with an invalid value is not removed, unless the line repeats it.
        has_value = key in ("separator", "null_value", "input")
        is_once = self.line.count(key + "=") <= 1
        yield self.bad[0] if has_value and is_once else ""

    def divides(self, new: str) -> bool:
        """Return whether a corrected line contains a division that the original line does not."""
        return self.text == "number not whole" and new.count("/") > self.line.count("/")

    def sentence(self) -> str:
        """Return advice on the message, or an empty string."""
        text = self.text
        if text == "bad option":
            text = "options that exclude each other"
            if self.bad:
                key, _, _ = self.bad[0].partition("=")
                text = key if sentence("script", key) else self.text  # some keys have advice
        flags, keys = OPTIONS.get(self.command, ("", ()))
        options = [f"-{flag}" for flag in flags] + [f"{key}=" for key in keys]
        return sentence(self.part, text).format(
            maps=", ".join(self.names[:12]) or "none",
            command=self.command,
            options=" ".join(options),
            functions=", ".join(FUNCTIONS),
        )


def advice(
    program: str, script: bytes, names: Sequence[str], line: int, text: str
) -> tuple[Optional[int], Optional[str]]:
    """Return the column of the invalid word, and a corrected line or advice.

    The column is None if the message contains a column or no word is invalid. The second value is
    None if no advice is known.

    Parameters
    ----------
    program : str
        The path of rcell-pipe.
    script : bytes
    names : sequence of str
        The names of the given maps.
    line : int
        The number of the rejected line, counted from 1.
    text : str
        The program's message about the line.
    """
    lines = script.decode("latin-1").split("\n")
    column = _COLUMN.search(text)
    before, rejected, after = lines[: line - 1], lines[line - 1], lines[line:]
    outputs = (name or other for name, other in _MADE.findall("\n".join(before)))
    error = _Error(
        _COLUMN.sub("", text),
        rejected.rstrip("\r"),
        int(column[1]) if column else 0,
        [*dict.fromkeys([*names, *outputs])],
    )
    candidates = dict.fromkeys(error.lines()) if len(error.line) <= LONGEST_MENDED else {}
    place = error.bad.start() + 1 if error.bad else None
    for new in list(candidates)[:MOST_CHECKS]:
        mended = "\n".join([*before, new, *after])
        if _is_accepted(program, names, mended, line + new.count("\n")):
            note = f"  ({sentence('expression', 'quotient')})" if error.divides(new) else ""
            return place, new.strip().encode("latin-1").decode("utf-8", "surrogateescape") + note
    return place, error.sentence() or None


def _is_accepted(program: str, names: Sequence[str], script: str, line: int) -> bool:
    """Return whether rcell-pipe accepts the lines of a script up to the given line."""
    from . import protocol  # a circular import: protocol needs this module for its errors

    try:
        protocol.plan(program, names, script.encode("latin-1"), seconds=PLAN_SECONDS)
    except protocol.Rejected as error:
        # Later lines may have errors of their own, and rules may follow the line.
        return error.line > line or error.text == "missing end"
    return True


def near(word: str, known: Iterable[str], cutoff: float = 0.6) -> list[str]:
    """Return a list that contains the known word most similar to a word, or an empty list.

    Examples
    --------
    >>> near("contry", ["country", "zones"])
    ['country']
    """
    import difflib  # imported only if there is an error

    return difflib.get_close_matches(word[:64], list(known)[:MOST_NAMES], n=1, cutoff=cutoff)


@functools.lru_cache(maxsize=None)
def _sentences() -> dict[str, dict[str, str]]:
    path = os.path.join(os.path.dirname(os.path.realpath(__file__)), "messages.json")
    with open(path, encoding="utf-8") as file:
        sentences: dict[str, dict[str, str]] = json.load(file)
    return sentences


def sentence(part: str, text: str) -> str:
    """Return the advice on a message from messages.json, or an empty string.

    `part` is `arguments`, `files`, `grid`, `script` or `expression`.
    """
    return _sentences()[part].get(text, "")


def lines_of_error(content: str, column: Optional[int]) -> list[str]:
    """Return a script line and, if a column is given, a second line that marks the column.

    Columns are counted in bytes from 1. A long line is shortened to the part around the mark.
    """
    raw = _NO_BYTES.sub("\ufffd", content).encode("utf-8", "surrogateescape")
    start = (column or 1) - 1
    begin, end, errors = 0, len(raw), "surrogateescape"
    if len(raw) > LONGEST_LINE:
        begin = max(0, min(start - SHOWN_BYTES // 3, len(raw) - SHOWN_BYTES))
        end, errors = begin + SHOWN_BYTES, "replace"  # the ends may be inside a character
    cut = ".." if begin > 0 else ""
    rest = ".." if end < len(raw) else ""
    line = cut + raw[begin:end].decode("utf-8", errors) + rest
    before = cut + raw[begin:start].decode("utf-8", "replace")
    mark = "".join("\t" if letter == "\t" else " " for letter in before) + "^"
    return [line] if column is None else [line, mark]

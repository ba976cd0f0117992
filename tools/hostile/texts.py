"""Test every proper prefix of every text of the cases, and every byte of them replaced with
others."""
from __future__ import annotations

import re
from dataclasses import dataclass
from typing import Iterator

from compare import Program, answer_of_model
from case_texts import LONGEST_WHOLE, Made, Report, with_text

SAID_AT = 10000
TURNED_TO = [b"\0", b"\n", b"\r", b" ", b"#", b":", b"-", b"9", b"\xff"]
RULES = re.compile(rb"(?<=\n)(?:[^\n]*\n)*?[ \t\r]*end[ \t\r]*(?:\n|\Z)")
RECLASS = re.compile(rb"(?:\A|\n)[ \t\r]*r\.reclass[^\n]*(?=\n)")
EXPRESSION = re.compile(rb"(?:\A|(?<=\n))[ \t\r]*r\.mapcalc([^\n]*)")


@dataclass(frozen=True)
class Change:
    """A change to a case: bytes of a text, and their replacement."""

    case: str
    path: str
    begin: int
    end: int
    other: bytes

    def made(self, cases: dict[str, Made]) -> Made:
        made = cases[self.case]
        text = made.files[self.path]
        return with_text(made, self.path, text[: self.begin] + self.other + text[self.end :])

    def __str__(self) -> str:
        return f"{self.case} {self.path} {self.begin}-{self.end} {self.other.hex() or 'none'}"


def parts_of(script: bytes) -> Iterator[tuple[int, int]]:
    """Yield the start and end of the rule blocks and expressions in a script."""
    for head in RECLASS.finditer(script):
        block = RULES.match(script, head.end() + 1)
        if block:
            yield block.span()
    for line in EXPRESSION.finditer(script):
        yield line.span(1)


def changes_of(case: str, path: str, text: bytes, settings) -> Iterator[Change]:
    """Yield the changes to one text. A long text is changed only at some of its bytes."""
    at_bytes = range(len(text))
    if len(text) > LONGEST_WHOLE:
        at_bytes = sorted(settings.random.sample(at_bytes, settings.places_of_long))
    for at in at_bytes:
        yield Change(case, path, at, len(text), b"")
        for byte in TURNED_TO:
            if text[at : at + 1] != byte:
                yield Change(case, path, at, at + 1, byte)
    if path == "script" and len(text) <= LONGEST_WHOLE:
        for begin, end in parts_of(text):
            yield from (Change(case, path, at, end, b"") for at in range(begin, end))


def all_changes(cases: dict[str, Made], settings) -> list[Change]:
    """Return the changes to all cases. A text that several cases share is changed once."""
    seen, changes = set(), []
    for case, made in cases.items():
        for path, text in made.files.items():
            others = tuple(
                sorted((other, made.files[other]) for other in made.files if other != path)
            )
            if (text, others if path == "script" else made.files["script"]) not in seen:
                seen.add((text, others if path == "script" else made.files["script"]))
                changes += changes_of(case, path, text, settings)
    return changes


def spoiled(report: Report, program: Program, cases: dict[str, Made], settings) -> None:
    """Run the program and the model on each change, or on some of them."""
    cases = {
        name: made
        for name, made in cases.items()
        if sum(map(len, made.files.values())) <= settings.longest
    }
    changes = all_changes(cases, settings)
    place, slices = settings.slice
    chosen = changes[place - 1 :: slices]
    if settings.changes is not None:
        chosen = settings.random.sample(chosen, min(settings.changes, len(chosen)))
    wrong_cases, in_place = set(), ""
    for number, change in enumerate(chosen):
        if number and number % SAID_AT == 0:
            print(f"bytes: {number} changed texts so far", flush=True)
        made = change.made(cases)
        if change.case != in_place:
            program.put(made)
            in_place = change.case
        program.put_one(change.path, made.files[change.path])
        if not report.compare(
            f"bytes of {change}", made, answer_of_model(made), program.answer(made.words)
        ):
            wrong_cases.add(change.case)
        program.put_one(change.path, cases[change.case].files[change.path])
    for name in cases:
        if name not in wrong_cases:
            report.check(f"bytes of {name}")
    print(f"bytes: {len(cases)} cases, {len(chosen)} of {len(changes)} changed texts")

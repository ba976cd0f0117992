#!/usr/bin/env python3
"""Compare the program with the plain model in tools/model/model.py on random grids, scripts, rules,
expressions and arguments.

    fuzz.py [--seconds N] [--seed S] [--first F] [--program PATH] [--keep FOLDER]

Most runs are valid, and a few have small errors. Output, standard error and status must agree byte
for byte. A run that differs is made smaller and written to FOLDER as a case that can be put under
cases/, next to a folder with the program's result. Run F of seed S is the same everywhere. At the
end, the rate is printed, and how often each command was run and each error was reported. The last
line is 'N runs, M differences'.
"""
from __future__ import annotations

import argparse
import collections
import os
import random
import sys
import tempfile
import time
from dataclasses import replace
from typing import Callable, Sequence

import model
from compare import BIN, ROOT, Program, answer_of_model, keep, kind_of
from case_texts import LONGEST_WHOLE, cases_of
from made_cases import ODD_BYTES, Made, ScriptMaker, make
from made_stretches import make_stretches

COMMANDS = (b"r.mapcalc", b"r.reclass", b"r.clump", b"r.stats", b"r.out.ascii")
MOST_TRIALS = 3000  # maximum number of runs to make a difference smaller
WORDS = [
    b"",
    b"-",
    b"--help",
    b"-h",
    b"--",
    b"-c",
    b"script",
    b"other",
    b".",
    b"/",
    b"=",
    b"g",
    b"g=",
    b"=grid0",
    b"g=grid0",
    b"1a=grid0",
    b"g=other",
    b"g=.",
    b"g=a=b",
    b"h=grid0",
    b"script=grid0",
    b"\xff",
    b"g=\xff",
    b"\xff=grid0",
    b"g= grid0",
    b"A" * 64 + b"=grid0",
    b"A" * 65 + b"=grid0",
    b"g=script",
    b"g\xc3\xa4=grid0",
    b"g=grid0 ",
    b" =grid0",
    b"@file",
    b"g=/dev/null",
]


# Runs made at random


def damaged_bytes(choice: random.Random, text: bytes) -> bytes:
    """Return the text with a few of its bytes changed, left out, doubled, inserted or cut off."""
    for _ in range(choice.randint(1, 3)):
        at, length = choice.randint(0, len(text)), choice.choice((1, 1, 2, 5))
        piece = choice.choice(
            (
                bytes([choice.randint(0, 255)]),
                choice.choice(ODD_BYTES),
                text[at : at + length] * 2,
                b"",
            )
        )
        text = choice.choice(
            (
                text[:at] + piece + text[at:],
                text[:at] + piece + text[at + length :],
                text[:at],
                text[at:],
            )
        )
    return text


def damaged(choice: random.Random, cases: list[Made]) -> Made:
    made = make(choice)
    path = choice.choice(list(made.files))
    return replace(made, files={**made.files, path: damaged_bytes(choice, made.files[path])})


def of_cases(choice: random.Random, cases: list[Made]) -> Made:
    """Return the script of a case over the grids of another, with the names of the first."""
    first, second = choice.choice(cases), choice.choice(cases)
    grids = [(name, choice.choice(second.grids)[1]) for name, _ in first.grids]
    files = {"script": first.files["script"], **{path: second.files[path] for _, path in grids}}
    if choice.random() < 0.5:
        path = choice.choice(list(files))
        files[path] = damaged_bytes(choice, files[path])
    return Made(files, grids)


def with_script(
    choice: random.Random, lines: Callable[[ScriptMaker, list[bytes]], list[bytes]]
) -> Made:
    """Return valid grids and a script with one kind of line. Some of these lines have small
    errors."""
    maker = ScriptMaker(choice)
    names = maker.random.sample([b"a", b"b", b"g"], maker.number(1, 2))
    grids = [(name, f"grid{at}") for at, name in enumerate(names)]
    files = {path: maker.grid() for _, path in grids}
    maker.badness = maker.one([0, 0, 0.01, 0.05])
    known = list(names)
    text = lines(maker, known)
    for name in known[len(names) :]:
        text += [b"r.stats -cl input=" + name, b"r.out.ascii input=" + name]
    return Made({"script": b"\n".join(text) + b"\n", **files}, grids)


def of_expressions(choice: random.Random, cases: list[Made]) -> Made:
    def lines(maker, known):
        text = []
        for _ in range(maker.number(1, 4)):
            target = maker.target(known)
            text.append(
                b"r.mapcalc"
                + maker.assignment_of(target, maker.expression(maker.number(2, 7), known))
            )
            known.append(target)
        return text

    return with_script(choice, lines)


def of_rules(choice: random.Random, cases: list[Made]) -> Made:
    def lines(maker, known):
        target = maker.target(known)
        text = [b"r.reclass input=%s output=%s" % (maker.known_name(known), target)]
        text += [maker.rule() for _ in range(maker.number(3, 20))] + [b"end"]
        known.append(target)
        return text

    return with_script(choice, lines)


def of_words(choice: random.Random, cases: list[Made]) -> Made:
    made = make(choice)
    words = [choice.choice(WORDS) for _ in range(choice.randint(0, 4))]
    if choice.random() < 0.5:
        words = [
            choice.choice(([word], [word], [], [word, choice.choice(WORDS)])) for word in made.words
        ]
        words = [word for some in words for word in some]
    return replace(made, other_words=words)


KINDS = [
    (lambda choice, cases: make(choice), 40),
    (damaged, 15),
    (of_cases, 10),
    (of_expressions, 20),
    (of_rules, 10),
    (of_words, 5),
    (lambda choice, cases: make_stretches(choice), 10),
]


def made_at(seed: int, number: int, cases: list[Made]) -> Made:
    choice = random.Random(f"{seed}:{number}")
    kind = choice.choices([kind for kind, _ in KINDS], [weight for _, weight in KINDS])[0]
    return kind(choice, cases)


# The two programs, and what differs made smaller


def answers(program: Program, made: Made) -> tuple[model.Answer, model.Answer]:
    """Return the results of the model and the program."""
    for name in os.listdir("."):
        if name not in made.files and name.startswith("grid"):
            os.unlink(name)
    program.put(made)
    expected = answer_of_model(made) if made.other_words is None else model.program(made.words)
    return expected, program.answer(made.words)


def without_pieces(pieces: Sequence, is_wrong: Callable[[Sequence], bool]) -> Sequence:
    """Return as few of the pieces as still go wrong. First halves are left out, then quarters, and
    so on."""
    size = max(1, len(pieces) // 2)
    while pieces:
        at = 0
        while at < len(pieces):
            fewer = pieces[:at] + pieces[at + size :]
            if is_wrong(fewer):
                pieces = fewer
            else:
                at += size
        if size == 1:
            return pieces
        size //= 2
    return pieces


class Shrinking:
    """Makes a run that differs smaller, as long as it still differs."""

    def __init__(self, program: Program, made: Made):
        self.program, self.made, self.trials = program, made, 0

    def differs(self, made: Made) -> bool:
        self.trials += 1
        if self.trials > MOST_TRIALS:
            return False
        expected, got = answers(self.program, made)
        if expected != got:
            self.made = made
        return expected != got

    def small(self) -> Made:
        if self.made.other_words is None:
            without_pieces(
                self.made.grids,
                lambda grids: bool(grids) and self.differs(replace(self.made, grids=grids)),
            )
            used = {"script", *(path for _, path in self.made.grids)}
            self.made = replace(
                self.made,
                files={path: text for path, text in self.made.files.items() if path in used},
            )
        else:
            without_pieces(
                self.made.other_words,
                lambda words: self.differs(replace(self.made, other_words=words)),
            )
        for path in list(self.made.files):
            self.shrink(path, lambda text: text.splitlines(keepends=True))
            self.shrink(path, lambda text: [text[at : at + 1] for at in range(len(text))])
        return self.made

    def shrink(self, path: str, cut: Callable[[bytes], list[bytes]]) -> None:
        def is_wrong(pieces):
            return self.differs(
                replace(self.made, files={**self.made.files, path: b"".join(pieces)})
            )

        without_pieces(cut(self.made.files[path]), is_wrong)


# The counts


class Counts:
    """Counts how often each command was run and each error was reported."""

    def __init__(self):
        self.commands, self.ends = collections.Counter(), collections.Counter()

    def add(self, made: Made, expected: model.Answer) -> None:
        self.ends[kind_of(expected)] += 1
        lines = model.script_lines(made.files["script"]) if expected.parts else []
        for line, _ in expected.parts:
            self.commands[lines[line - 1].split()[0].decode()] += 1

    def show(self) -> None:
        for what, counts in (("statements run", self.commands), ("runs that ended so", self.ends)):
            print(f"{what}:")
            for name, count in counts.most_common():
                print(f"{count:10,} {name}")


def fuzz(settings, program: Program) -> int:
    whole = cases_of(f"{program.room}/cases").made.values()
    cases = [
        made for made in whole if all(len(text) <= LONGEST_WHOLE for text in made.files.values())
    ]
    counts, differences, number = Counts(), 0, settings.first
    begun = time.monotonic()
    while time.monotonic() - begun < settings.seconds:
        made = made_at(settings.seed, number, cases)
        expected, got = answers(program, made)
        counts.add(made, expected)
        if expected != got:
            differences += 1
            made = Shrinking(program, made).small()
            folder = f"{settings.keep}/{settings.seed}-{number}"
            keep(folder, made, *answers(program, made))
            print(f"run {number} of seed {settings.seed} differs: {folder}", flush=True)
        number += 1
    runs, seconds = number - settings.first, time.monotonic() - begun
    counts.show()
    print(
        f"seed {settings.seed}, runs {settings.first} to {number - 1}, in {seconds:.0f} s: {runs / seconds:.0f} a second"
    )
    print(f"{runs} runs, {differences} differences")
    return differences


def main():
    parser = argparse.ArgumentParser(
        description=__doc__, formatter_class=argparse.RawDescriptionHelpFormatter
    )
    parser.add_argument("--seconds", type=float, default=60)
    parser.add_argument("--seed", type=int, default=int(time.time()))
    parser.add_argument("--first", type=int, default=0)
    parser.add_argument("--program", default=f"{BIN}/rcell")
    parser.add_argument("--keep", default=os.path.join(tempfile.gettempdir(), "rcell-fuzz"))
    settings = parser.parse_args()
    settings.keep = os.path.abspath(settings.keep)
    with tempfile.TemporaryDirectory(
        prefix="rcell-fuzz-", dir="/dev/shm" if os.path.isdir("/dev/shm") else None
    ) as room:
        os.mkdir(f"{room}/run")
        program = Program(settings.program, room)
        os.chdir(f"{room}/run")
        differences = fuzz(settings, program)
        os.chdir(ROOT)
    return 1 if differences else 0


if __name__ == "__main__":
    sys.exit(main())

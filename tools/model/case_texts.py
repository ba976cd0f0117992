"""The cases of the repository as texts in memory, the model's results for them, and a report of
what passed."""
from __future__ import annotations

import os
from dataclasses import dataclass, replace

import model
from cases import folders
from compare import ROOT, answer_to_case, keep, read
from made_cases import Made
from model_grids import Failing, is_name

LONGEST_WHOLE = 5000  # a longer text is tested at random positions


def made_of(case, folder) -> Made | None:
    """Return a case, laid out in a folder, for comparison with the model, or None if the case is
    about its arguments or files."""
    words = read(f"{case}/args").decode(errors="surrogateescape").splitlines()
    named = [word.partition("=") for word in words[1:]]
    paths = [*words[:1], *(path for _, _, path in named)]
    is_plain = named and all(is_name(os.fsencode(name)) and path for name, _, path in named)
    if not is_plain or not all(os.path.isfile(f"{folder}/{path}") for path in paths):
        return None
    grids = [(os.fsencode(name), f"grid{at}") for at, (name, _, _) in enumerate(named)]
    texts = [read(f"{folder}/{path}") for path in paths]
    return Made(dict(zip(["script", *(path for _, path in grids)], texts)), grids)


@dataclass
class Cases:
    """The cases and examples, by name: those that can be made in memory, and those that are about
    their arguments or files, each laid out in a folder."""

    made: dict[str, Made]
    others: dict[str, tuple[str, list[bytes], model.Answer]]


def cases_of(room: str) -> Cases:
    cases = Cases({}, {})
    os.makedirs(room)
    for case in folders():
        if os.path.exists(f"{case}/output"):
            continue
        expected, folder, name = (
            answer_to_case(case, room),
            f"{room}/{os.path.basename(case)}",
            case[len(ROOT) + 1 :],
        )
        made = made_of(case, folder)
        if made:
            cases.made[name] = made
        else:
            cases.others[name] = folder, read(f"{case}/args").splitlines(), expected
    return cases


def with_text(made: Made, path: str, text: bytes) -> Made:
    return replace(made, files={**made.files, path: text})


def answer_of_stopped(made: Made, place: int, stopped) -> model.Answer:
    """Return the model's result if the file at index `place` (0 for the script) returns what
    `stopped` makes of its text."""

    def given(at, path):
        text = made.files[path]
        return stopped(text) if at == place else text

    grids = [(name, given(at, path)) for at, (name, path) in enumerate(made.grids, 1)]
    return model.run(grids, given(0, "script"))


def answer_of_failing(made: Made, place: int, taken: int) -> model.Answer:
    """Return the model's result if reading a file fails after `taken` bytes."""
    return answer_of_stopped(made, place, lambda text: Failing(text[:taken]))


def answer_of_ending(made: Made, place: int, taken: int) -> model.Answer:
    """Return the model's result if a file ends after `taken` bytes."""
    return answer_of_stopped(made, place, lambda text: text[:taken])


class Report:
    """Counts checks and their runs, and writes failed runs to a folder that can be put under
    cases/."""

    def __init__(self, folder):
        self.folder, self.passed, self.failed, self.runs = folder, 0, 0, 0

    def check(self, what: str, wrong: str = "") -> bool:
        self.passed, self.failed = self.passed + (not wrong), self.failed + bool(wrong)
        if wrong:
            print(f"{what}: FAILED: {wrong}", flush=True)
        return not wrong

    def differs(self, what: str, made: Made, expected: model.Answer, got: model.Answer) -> None:
        """Record a run that ended differently from the model."""
        folder = f"{self.folder}/{what.replace('/', '-').replace(' ', '-')}"
        keep(folder, made, expected, got)
        told = f"status {got.status}, told {got.told!r} after {len(got.output)} bytes"
        wanted = f"{expected.status}, {expected.told!r} after {len(expected.output)}"
        self.check(what, f"{told}, and not {wanted}; kept as {folder}")

    def compare(self, what: str, made: Made, expected: model.Answer, got: model.Answer) -> bool:
        self.runs += 1
        if got != expected:
            self.differs(what, made, expected, got)
        return got == expected

"""Compare random calls of the packages with an independent reference (reference.py).

    /usr/bin/python3 fronts/random_calls.py [--count N] [--seed N] [--from N] [--plants] [FRONT...]

Each call is a case in the format that cases.py reads, over random files. `--count` is the number of
calls for each package. The result of a call is equal, or rejected as documented, or different. A
different call is printed as a case, and its files are kept. `--plants` reintroduces old bugs, one
at a time, and checks that they are detected. The last line is 'N passed, M failed, K skipped'.
"""

from __future__ import annotations

import argparse
import copy
import math
import os
import pathlib
import shutil
import sys
import tempfile
from collections import Counter
from dataclasses import dataclass, field, replace
from typing import Any, Callable, Sequence

import numpy as np
import random_answers
import random_inputs as inputs
import random_maps
import reference
from random_inputs import Made, one_of
from random_plants import PLANTS
from reference import Frame, Raster, Refusal
from run import MISSING, PACKAGES, found_by

FRONTS = ("python", "shell", "qgis", "r")
BATCH = 500
EXACT = 1e-9
# The largest sum of rounded numbers that counts as 0.
ROUNDED = 1e-13
# The measure is divided by the logarithm of an area near 1 m2, which has fewer digits than the
# area.
FEWER_DIGITS = {"fractal_dimension": 1e-6}
ID_DIGITS = 11
IDS_OF = ("zone", "class", "patch", "from", "to", "neighbour", "cells", "sides")
PLANT_CALLS = 600
IDS = 2**63 - 1
ROOM = "/dev/shm" if os.access("/dev/shm", os.W_OK) else None
GOOD = ("equal", "refused")
AREAS = ("", "", "none", "ha", "km2", "m2")
STATED = "EPSG:32632"
Lines = list[str]


@dataclass
class Trial:
    """A call, and its expected result.

    Attributes
    ----------
    maps : dict of str to Made
    words : list of str
        The arguments of the call.
    answer : list of str or None
        None if the call must be rejected.
    reason : str
        Why the call must be rejected.
    refused : dict of str to str
        Why a package rejects the call.
    answer_in_r : list of str or None
        The table in R, if it differs because R's zone ids have 32 bits.
    """

    name: str
    maps: dict[str, Made]
    words: list[str]
    answer: Lines | None = None
    reason: str = ""
    refused: dict[str, str] = field(default_factory=dict)
    answer_in_r: Lines | None = None

    def text(self) -> str:
        """Return the call as the text of a case."""
        maps = " ".join(f"{name}={made.file}" for name, made in self.maps.items())
        lines = [
            f"# {self.reason or 'A random call.'}",
            f"maps: {maps}",
            f"call: {' '.join(self.words)}",
        ]
        if self.answer is None:
            return "\n".join([*lines, "refused:\n"])
        lines += ["answer:", *(f"  {line}" for line in self.answer)]
        lines += [f"refused {front}:" for front in self.refused]
        if self.answer_in_r:
            lines += ["answer r:", *(f"  {line}" for line in self.answer_in_r)]
        return "\n".join([*lines, ""])

    def judged(self, front: str, found: Lines) -> str:
        """Return whether a result is `equal`, `refused` as documented, or `different`."""
        is_refused = any(line.startswith("text: ") for line in found) and found[0][:5] != "error"
        if self.answer is None or front in self.refused:
            return "refused" if is_refused else "different"
        answer = self.answer_in_r or self.answer if front == "r" else self.answer
        return "equal" if are_equal(answer, found) else "different"


def are_equal(wanted: Lines, found: Lines) -> bool:
    """Return whether lines are the same, except for the last digits of measures."""
    if wanted[:1] != found[:1] or len(wanted) != len(found):
        return False
    rows = [(one.split("|"), other.split("|")) for one, other in zip(wanted, found)]
    if any(len(one) != len(other) for one, other in rows):
        return False
    columns = zip(*([*zip(one, other)] for one, other in rows if len(one) == len(rows[0][0])))
    return all(map(are_near, rows[0][0], columns)) and all(
        one == other for one, other in rows if len(one) != len(rows[0][0])
    )


def are_near(title: str, column: Sequence[tuple[str, str]]) -> bool:
    """Return whether the values of a column are the same, except for the last digits of
    measures."""
    if title in IDS_OF:
        return all(one == other for one, other in column)
    numbers = [(number_of(one), number_of(other)) for one, other in column]
    largest = max((abs(one) for one, _ in numbers if one is not None), default=0.0)
    near = FEWER_DIGITS.get(title, EXACT)
    return all(
        texts[0] == texts[1]
        or (
            one is not None
            and other is not None
            and not (is_id(texts[0]) and is_id(texts[1]))
            and math.isclose(one, other, rel_tol=near, abs_tol=max(near * largest, ROUNDED))
        )
        for texts, (one, other) in zip(column, numbers)
    )


def is_id(text: str) -> bool:
    """Return whether a text is an integer with so few digits that all of them are exact."""
    return text.lstrip("-").isdigit() and len(text) <= ID_DIGITS


def number_of(text: str) -> float | None:
    """Return a finite number, or None for any other text."""
    try:
        value = float(text)
    except ValueError:
        return None
    return value if math.isfinite(value) else None


# Calls


class Calls:
    """Draws random calls over files in a folder."""

    def __init__(self, folder: pathlib.Path, seed: int, has_newer: bool = True) -> None:
        self.folder, self.seed, self.has_newer = folder, seed, has_newer

    def trial(self, number: int) -> Trial:
        """Return call `number`."""
        found = self.made(number, IDS)
        if self.has_large_ids():
            with tempfile.TemporaryDirectory(dir=ROOM) as folder:
                in_r = Calls(pathlib.Path(folder), self.seed, self.has_newer).made(
                    number, reference.MOST
                )
            found.answer_in_r = in_r.answer if in_r.answer != found.answer else None
        return found

    def has_large_ids(self) -> bool:
        """Return whether zones may have ids that do not fit in R's integers."""
        return any(made.kind == "long" for made in self.found.maps.values())

    def made(self, number: int, most: int) -> Trial:
        """Return call `number`, if zone ids may be integers up to `most`."""
        self.random: Any = np.random.default_rng([self.seed, number])
        self.name, self.most = f"c{self.seed}_{number}", most
        # Calls are drawn in turn from this module, random_maps and random_answers.
        kinds = [[*MAKERS, *MORE], [*random_maps.MAKERS], [*random_answers.MAKERS]]
        kind = one_of(self.random, kinds[number % len(kinds) if self.has_newer else 0])
        self.frame = inputs.frame_of(self.random)
        self.found = Trial(self.name, {}, [kind])
        try:
            makers = {**MAKERS, **random_maps.MAKERS, **random_answers.MAKERS}
            self.found.answer = makers[kind](self)
        except Refusal as error:
            self.found.reason = str(error)
        for made in self.found.maps.values():
            self.found.refused.update(made.refused)
        if len(self.found.refused) == len(FRONTS):
            self.found.answer, self.found.reason = None, next(iter(self.found.refused.values()))
        return self.found

    # Parts of calls

    def chance(self, share: float) -> bool:
        return bool(self.random.random() < share)

    def option(self, name: str, value: Any) -> None:
        self.found.words.append(f"{name}={value}")

    def add(self, name: str, made: Made, is_word: bool = True) -> Made:
        self.found.maps[name] = made
        self.found.words += [name] * is_word
        return made

    def raster(
        self,
        name: str,
        is_word: bool = True,
        frame: Frame | None = None,
        like: Raster | None = None,
    ) -> Made:
        """Draw a raster, rarely without a reference system, and optionally with the classes of
        another raster."""
        has_system = not self.chance(0.03)
        codes = [] if like is None or self.chance(0.3) else np.unique(like.cells).tolist()
        made = inputs.raster_of(
            self.random, self.folder, f"{self.name}_{name}", frame or self.frame, has_system, codes
        )
        return self.add(name, made, is_word)

    def zones(self, is_word: bool = False) -> Made:
        """Draw zones: a raster or polygons."""
        system = self.frame.system
        is_plane = system.metres is not None or system.angle is not None
        if not is_word:
            self.option("zones", "zone")
        if not is_plane or self.chance(0.25):
            return self.raster("zone", is_word)
        made = inputs.zones_of(self.random, self.folder, f"{self.name}_zone", self.frame)
        return self.add("zone", made, is_word)

    def settled(self) -> None:
        """Optionally state a reference system, and give all maps their common system."""
        systems = {made.system for made in self.found.maps.values()}
        known = next((it for it in systems if it.text), inputs.NONE)
        stated = inputs.NONE
        if (
            inputs.NONE in systems
            and self.chance(0.5)
            and " " not in known.text
            and known is not inputs.LOCAL
        ):
            stated = known if known.text else inputs.METRES
            self.option("crs", stated.text)
        elif inputs.NONE in systems and known.text:
            raise Refusal("one map has no reference system")
        system = known if known.text else stated
        for made in self.found.maps.values():
            if made.held is not None:
                made.held = replace(made.held, frame=replace(made.held.frame, system=system))
        self.frame = replace(self.frame, system=system)

    def held(self, name: str) -> Raster:
        """Return the cells of a map. Polygons are converted to zones here."""
        made = self.found.maps[name]
        if made.held is None:
            if made.zone_field:
                self.option("zone_field", made.zone_field)
            made.held = reference.zones_of(
                made.features, bool(made.zone_field), self.frame, self.most
            )
        return made.held

    def zoned(self) -> Raster | None:
        """Return the zones, if there are any."""
        return self.held("zone") if "zone" in self.found.maps else None

    def area(self) -> str:
        area = str(one_of(self.random, AREAS))
        if area:
            self.option("area", area)
        return area

    def legend(self, option: str, held: Raster | None, share: float = 0.35) -> Any:
        """Return the labels of a legend, or None if no legend is drawn."""
        codes = [] if held is None else np.unique(held.cells[~held.null]).tolist()
        is_large = option == "zone_labels" and self.has_large_ids()
        if is_large or not codes or len(codes) > 30 or not self.chance(share):
            return None
        file, labels = inputs.legend_of(self.random, self.folder, f"{self.name}_{option}", codes)
        self.option(option, file)
        if labels is None:
            raise Refusal("a legend that is not right")
        return labels

    def picked(self, name: str, good: Sequence[Any], bad: Sequence[Any]) -> Any:
        """Return an option's value, which is rarely out of range, or None if the option is left
        out."""
        if self.chance(0.3):
            return None
        is_bad = self.chance(0.02)
        value = one_of(self.random, bad if is_bad else good)
        self.option(name, value)
        if is_bad:
            raise Refusal(f"{name} is out of its range")
        return value

    def selection(self, held: Raster) -> tuple[int, Any, int]:
        """Return the connectivity, the classes and the smallest patch size."""
        connectivity = self.picked("connectivity", (4, 8), (5, 0)) or 4
        classes = None
        codes = np.unique(held.cells[~held.null]).tolist()
        if codes and self.chance(0.3):
            classes = sorted({one_of(self.random, codes), one_of(self.random, [*codes, 99])})
            self.option("classes", ",".join(map(str, classes)))
        return connectivity, classes, self.picked("min_cells", (1, 2, 5), (-1,)) or 1


def composition(calls: Calls) -> Lines:
    calls.raster("lc")
    if calls.chance(0.8):
        calls.zones()
    calls.settled()
    zones, lc = calls.zoned(), calls.held("lc")
    nulls = calls.chance(0.3)
    if nulls:
        calls.option("include_null", "yes")
    labels, zone_labels = calls.legend("labels", lc), calls.legend("zone_labels", zones, 0.2)
    return reference.composition(
        lc, zones, area=calls.area(), nulls=nulls, labels=labels, zone_labels=zone_labels
    )


def cross(calls: Calls) -> Lines:
    names = ["a", "b", "c"][: int(calls.random.integers(2, 4))]
    for name in names:
        calls.raster(name)
    calls.settled()
    nulls = calls.chance(0.3)
    if nulls:
        calls.option("include_null", "yes")
    return reference.cross(
        {name: calls.held(name) for name in names}, area=calls.area(), nulls=nulls
    )


def change(calls: Calls) -> Lines:
    names = ["a", "b", "c"][: int(calls.random.integers(2, 4))]
    maps = [calls.raster(names[0]).held]
    maps += [calls.raster(name, like=maps[0]).held for name in names[1:]]
    shared: dict[int, str] = {}
    for it in maps:
        assert it is not None
        shared = shared or it.labels
    calls.settled()
    years: list[int] = []
    if len(names) > 2 or calls.chance(0.4):
        years = sorted(calls.random.permutation(range(1980, 2030))[: len(names)].tolist())
        calls.option("years", ",".join(map(str, years)))
    part = one_of(calls.random, ("table", "matrix", "summary"))
    calls.option("table", part)
    labels = calls.legend("labels", calls.held("a"), 0.5)
    if labels is None and any(calls.held(name).labels not in ({}, shared) for name in names):
        labels = calls.legend("labels", calls.held("a"), 1.0)  # one set of labels for all years
    area = calls.area()
    return reference.change(
        [calls.held(name) for name in names], years, area=area, labels=labels, part=part
    )


def patches(calls: Calls) -> Lines:
    calls.raster("lc")
    if calls.chance(0.5):
        calls.zones()
    calls.settled()
    zones, lc = calls.zoned(), calls.held("lc")
    connectivity, classes, least = calls.selection(lc)
    depth = calls.picked("core_depth", (1, 2, 3), (0, 21)) or 1
    labels, zone_labels = calls.legend("labels", lc), calls.legend("zone_labels", zones, 0.2)
    return reference.patches(
        lc,
        zones,
        area=calls.area(),
        connectivity=connectivity,
        classes=classes,
        min_cells=least,
        core_depth=depth,
        labels=labels,
        zone_labels=zone_labels,
    )


def zonal(calls: Calls) -> Lines:
    calls.raster("value")
    calls.zones(True)
    calls.settled()
    values, zones = calls.held("value"), calls.held("zone")
    quantiles = [0.5]
    if calls.chance(0.6):
        pool = calls.random.permutation([0, 0.05, 0.25, 0.5, 0.75, 0.9, 0.025, 1]).tolist()
        quantiles = pool[: int(calls.random.integers(1, 4))]
        calls.option("quantiles", ",".join(map(str, quantiles)))
    return reference.zonal(
        values, zones, quantiles=quantiles, zone_labels=calls.legend("zone_labels", zones, 0.2)
    )


def majority(calls: Calls) -> Lines:
    calls.raster("lc")
    calls.settled()
    size, fill = calls.picked("size", (3, 5, 7, 13, 15), (4, 1, 17)) or 3, calls.chance(0.3)
    if fill:
        calls.option("fill", "yes")
    return reference.majority(calls.held("lc"), size=size, fill=fill)


def align(calls: Calls) -> Lines:
    frame = calls.frame
    calls.raster("lc")
    rows, cols = (int(size) for size in calls.random.integers(1, 12, 2))
    down, across = (int(it) for it in calls.random.integers(-6, 7, 2))
    part = one_of(calls.random, (0.0, 0.0, 0.0, 0.25))
    scale = one_of(calls.random, (1.0, 1.0, 1.0, 2.0, 0.5))
    if calls.chance(0.15):
        down, across = down + frame.rows, across + 2 * frame.cols + 12
    if frame.system.angle is not None and part == 0:
        scale = 1.0
    to = Frame(
        rows,
        cols,
        frame.west + frame.width * (across + part),
        frame.north - frame.height * (down + part),
        frame.width * scale,
        frame.height * scale,
        frame.system,
    )
    calls.raster("to", False, to)
    calls.option("to", "to")
    calls.settled()
    resample = "nearest" if calls.chance(0.6) else ""
    if resample:
        calls.option("resample", resample)
    to_held = calls.held("to")
    return reference.align(calls.held("lc"), to_held.frame, resample=resample)


def reclass(calls: Calls) -> Lines:
    calls.raster("lc")
    calls.settled()
    lc = calls.held("lc")
    codes = np.unique(lc.cells[~lc.null]).tolist()
    rules: dict[int, int | None] = {
        code: one_of(calls.random, (None, 1, 2, -7, 500)) for code in codes if calls.chance(0.85)
    }
    rules = rules or {1: 2}
    lines = ["value,new"] + [f"{code},{'' if new is None else new}" for code, new in rules.items()]
    file = f"{calls.name}_rules.csv"
    (calls.folder / file).write_text("\n".join(lines) + "\n")
    calls.option("rules", file)
    other = one_of(calls.random, ("", "keep", "null"))
    if other:
        calls.option("other", other)
    return reference.reclass(lc, rules=rules, other=other)


def clump(calls: Calls) -> Lines:
    calls.raster("lc")
    calls.settled()
    lc = calls.held("lc")
    connectivity, classes, least = calls.selection(lc)
    return reference.clump(lc, connectivity=connectivity, classes=classes, min_cells=least)


def adjacency(calls: Calls) -> Lines:
    calls.raster("lc")
    calls.settled()
    lc = calls.held("lc")
    return reference.adjacency(lc, labels=calls.legend("labels", lc))


MAKERS: dict[str, Callable[[Calls], Lines]] = {
    "composition": composition,
    "cross": cross,
    "change": change,
    "patches": patches,
    "zonal": zonal,
    "majority": majority,
    "align": align,
    "reclass": reclass,
    "clump": clump,
    "adjacency": adjacency,
}

# Calls that are drawn more often, because packages tend to differ in polygons, legends and
# matrices.
MORE = ("composition", "composition", "zonal", "change", "patches")


# Runs


def made(
    folder: pathlib.Path, seed: int, numbers: Sequence[int], has_newer: bool = True
) -> list[Trial]:
    """Draw calls, and write their files."""
    for name in ("cases", "rasters"):
        (folder / name).mkdir(parents=True)
    calls = Calls(folder / "rasters", seed, has_newer)
    trials = [calls.trial(number) for number in numbers]
    for trial in trials:
        (folder / "cases" / f"{trial.name}.case").write_text(trial.text(), encoding="utf-8")
    return trials


def compared(
    front: str, folder: pathlib.Path, trials: Sequence[Trial]
) -> tuple[Counter[str], list[str]]:
    """Count the outcomes of a package's calls, print the different ones, and return the counts and
    the names of the different ones."""
    found, told = found_by(front, folder)
    counts: Counter[str] = Counter()
    wrong = []
    for trial in trials:
        lines = [
            line for line in found.get(trial.name, []) if line[:8] not in ("warned: ", "types: i")
        ]
        outcome = trial.judged(front, lines or ["error: nothing came out"])
        counts[outcome] += 1
        if outcome == "different":
            wrong.append(trial.name)
            print(
                f"fronts: {front}: {trial.name}",
                trial.text(),
                "  found:",
                *(f"    {line}" for line in lines[:30]),
                sep="\n",
            )
    if len(found) < len(trials):
        print(f"fronts: {front} ended early:", told[-2000:])
    return counts, wrong


def run(front_names: Sequence[str], count: int, seed: int, start: int) -> tuple[int, int]:
    """Run calls in batches with all packages, and return the numbers of right and of different
    calls."""
    totals: dict[str, Counter[str]] = {front: Counter() for front in front_names}
    room = tempfile.mkdtemp(prefix="calls-", dir=ROOM)
    for first in range(start, start + count, BATCH):
        folder = pathlib.Path(room, str(first))
        trials = made(folder, seed, range(first, min(first + BATCH, start + count)))
        wrong: list[str] = []
        for front in front_names:
            counts, names = compared(front, folder, trials)
            totals[front] += counts
            wrong += names
        tidy(folder, wrong)
    for front, counts in totals.items():
        parts = ", ".join(f"{counts[it]} {it}" for it in ("equal", "refused", "different"))
        print(
            f"fronts: {front}: {sum(counts.values())} random calls: {parts}; seed {seed}, from {start}"
        )
    failed = sum(counts["different"] for counts in totals.values())
    if failed:
        print(f"fronts: the files are in {room}")
    else:
        shutil.rmtree(room)
    return sum(sum(it.values()) for it in totals.values()) - failed, failed


def tidy(folder: pathlib.Path, wrong: Sequence[str]) -> None:
    """Remove the files of all calls that did not differ."""
    for path in [*folder.glob("cases/*"), *folder.glob("rasters/*")]:
        if not any(path.name.startswith((f"{name}_", f"{name}.")) for name in wrong):
            path.unlink()


def try_plants(seed: int) -> int:
    """Reintroduce each old bug in calls that pass in Python, and return the number of undetected
    bugs."""
    missed = 0
    with tempfile.TemporaryDirectory(dir=ROOM) as room:
        trials = made(pathlib.Path(room, "right"), seed, range(PLANT_CALLS), False)
        found, _ = found_by("python", pathlib.Path(room, "right"))
        right = [it for it in trials if it.judged("python", found.get(it.name, ["error"])) in GOOD]
        print(f"fronts: {len(right)} of {len(trials)} random calls are right; seed {seed}")
        for name, plant in PLANTS.items():
            folder = pathlib.Path(room, name)
            shutil.copytree(pathlib.Path(room, "right", "rasters"), folder / "rasters")
            (folder / "cases").mkdir()
            changed = [it for it in copy.deepcopy(right) if plant.spoil(folder / "rasters", it)]
            for trial in changed:
                path = folder / "cases" / f"{trial.name}.case"
                path.write_text(trial.text(), encoding="utf-8")
            spoiled = found_by("python", folder)[0] if changed else {}
            seen = [
                it.name
                for it in changed or right
                if it.judged("python", plant.tamper({**found, **spoiled}[it.name])) not in GOOD
            ]
            print(
                f"fronts: plant {name} ({plant.told}): seen in {len(seen)} calls: {', '.join(seen[:3])}"
            )
            missed += not seen
    print(f"{len(PLANTS) - missed} passed, {missed} failed, 0 skipped")
    return missed


def main() -> int:
    options = argparse.ArgumentParser()
    options.add_argument("--count", type=int, default=100)
    options.add_argument("--seed", type=int, default=1)
    options.add_argument("--from", type=int, default=0, dest="start", metavar="NUMBER")
    options.add_argument("--plants", action="store_true")
    options.add_argument("fronts", nargs="*", metavar="FRONT")
    asked = options.parse_args()
    if asked.plants:
        return 1 if try_plants(asked.seed) else 0
    named = [name for name in asked.fronts or FRONTS if name in FRONTS]
    missing = {name: MISSING[name]() for name in named}
    for name in filter(missing.get, named):
        print(f"skipped  fronts/{name}: {missing[name]}; install: apt-get install {PACKAGES[name]}")
    fronts = [name for name in named if not missing[name]]
    passed, failed = run(fronts, asked.count, asked.seed, asked.start)
    skipped = asked.count * (len(named) - len(fronts))
    print(f"{passed} passed, {failed} failed, {skipped} skipped")
    return 1 if failed else 0


if __name__ == "__main__":
    sys.exit(main())

"""Run the table of cases with the Python package. Print `case NAME` and, below it, the result, with
a blank before each line."""

from __future__ import annotations

import sys
import tempfile
import warnings
from dataclasses import replace
from typing import Any, Callable

import pandas
import rasterio.errors
import rcell
from cases import FACTS, MAPS, Case, Scratch, cases, copied, notes

KINDS = [
    ("other crs", rcell.OtherCrs),
    ("other region", rcell.OtherRegion),
    ("read failed", rcell.ReadFailed),
    ("bad map", rcell.BadMap),
    ("refused", rcell.RcellError),
]


# The type of each parameter of the ready-made calls, except for maps.
OPTIONS: dict[str, Callable[[str], Any]] = {
    "area": lambda text: None if text == "none" else text,
    **dict.fromkeys(("include_null", "fill", "each", "drop"), lambda text: text == "yes"),
    **dict.fromkeys(("labels", "zone_labels", "zone_field", "resample", "crs"), str),
    **dict.fromkeys(("rules", "other", "areas", "field", "level", "n", "seed", "allocation"), str),
    **dict.fromkeys(("years", "classes"), lambda text: [int(part) for part in text.split(",")]),
    **dict.fromkeys(("connectivity", "min_cells", "core_depth", "size", "factor", "scale"), int),
    **dict.fromkeys(
        ("quantiles", "distances"), lambda text: [float(part) for part in text.split(",")]
    ),
    **dict.fromkeys(("min_ha", "min_percent"), float),
}


def plain(value: Any, digits: int = 12) -> str:
    is_missing = value is None or value is pandas.NA or value != value
    return "*" if is_missing else f"{value:.{digits}g}" if isinstance(value, float) else str(value)


def of_table(case: Case) -> list[str]:
    words: dict[str, Any] = {"area": case.area or None, "percent": case.percent}
    return of_frame(case, rcell.table(case.script, case.maps, crs=case.crs or None, **words))


def of_grid(grid: rcell.Raster) -> list[str]:
    return [" ".join(plain(value) for value in row) for row in grid.array.tolist()]


def of_shares(names: list[str], layers: Any) -> list[str]:
    """Return the name of each class, followed by its shares."""
    return [
        line
        for name, layer in zip(names, layers.tolist())
        for line in (name, *(" ".join(plain(value) for value in row) for row in layer))
    ]


def of_frame(case: Case, frame: Any) -> list[str]:
    rows = frame.itertuples(index=False, name=None)
    lines = ["|".join(map(str, frame.columns))] + [
        "|".join(plain(value, case.digits) for value in row) for row in rows
    ]
    return lines + notes(case, types_of(frame), [])


def types_of(frame: Any) -> str:
    """Return the types of a table's columns."""
    kinds = {"i": "integer", "u": "integer", "f": "number"}
    return "|".join(kinds.get(getattr(kind, "kind", "O"), "text") for kind in frame.dtypes)


def options_of(case: Case) -> dict[str, Any]:
    """Return the parameters of a call."""
    return {
        key: case.maps[text] if key in ("zones", "to") else OPTIONS[key](text)
        for key, text in case.options.items()
        if key not in ("table", "map", "band")
    }


def answered(case: Case) -> list[str]:
    """Run one of the ready-made calls."""
    options = options_of(case)
    maps: list[Any] = [case.maps[name] for name in case.words]
    if "band" in case.options:
        maps[0] = rasterio.band(rasterio.open(maps[0]), int(case.options["band"]))
    if case.call == "cross":
        return of_frame(case, rcell.cross(dict(zip(case.words, maps)), **options))
    if case.call == "change":
        found = rcell.change(*maps, **options) if len(maps) == 2 else rcell.change(maps, **options)
        part = getattr(found, case.options.get("table", "table"))
        return of_frame(case, part.reset_index() if case.options.get("table") == "matrix" else part)
    if case.call == "trajectories":
        kept = rcell.trajectories(maps, include_maps="map" in case.options, **options)
        if "map" in case.options:
            return of_grid(kept.maps[case.options["map"]])
        return of_frame(case, getattr(kept, case.options.get("table", "table")))
    answer = getattr(rcell, case.call)(*maps, **options)
    if case.call == "accuracy":
        part = case.options.get("table", "classes")
        if part == "summary":
            return of_frame(case, pandas.DataFrame([answer[2:]], columns=answer._fields[2:]))
        answer = answer.classes if part == "classes" else answer.matrix.reset_index()
    if case.call == "aggregate":
        shares, is_wanted = answer.shares, case.options.get("map") == "shares"
        return of_shares(shares.names, shares.percent) if is_wanted else of_grid(answer.majority)
    if case.outs:
        answer.write(case.outs["out"])
        return [f"written: {case.outs['out']}"]
    if case.call in FACTS:
        facts, names = answer.aligned or answer.sieved, FACTS[case.call]
        return [
            "|".join(names),
            "|".join(plain(getattr(facts, name)) for name in names),
            *of_grid(rcell.grid("", "x", x=answer)),
        ]
    return of_grid(answer) if case.call in MAPS else of_frame(case, answer)


def answer(case: Case) -> list[str]:
    kind, *words = case.call.split()
    if kind == "table":
        return of_table(case)
    if kind == "grid":
        return of_grid(rcell.grid(case.script, words[0], case.maps, crs=case.crs or None))
    return written(case, words[0]) if kind == "write" else answered(case)


def written(case: Case, name: str) -> list[str]:
    """Write a map over another raster, and return it as read back."""
    with tempfile.TemporaryDirectory() as room:
        path = copied(case.over, room)
        rcell.grid(case.script, name, case.maps).write(path)
        return of_table(replace(case, script="r.stats -c -l input=x", maps={"x": path}))


def refusal(error: Any) -> list[str]:
    kind = next(name for name, group in KINDS if isinstance(error, group))
    found = [("kind", kind), ("source", error.source), ("line", getattr(error, "line", 0) or None)]
    if isinstance(error, rcell.BadMap):
        found += [("row", error.row), ("column", error.col)]
    else:
        found += [("column", getattr(error, "column", None))]
    found.append(("text", error.text.split("\n")[0]))
    return [f"{name}: {value}" for name, value in found if value is not None]


def tried(case: Case) -> list[str]:
    """Return the result of a case, with its warnings."""
    with warnings.catch_warnings(record=True) as caught:
        warnings.simplefilter("always", UserWarning)
        warnings.simplefilter("ignore", rasterio.errors.NotGeoreferencedWarning)
        try:
            lines = answer(case)
        except rcell.RcellError as error:
            lines = refusal(error)
        except Exception as error:
            lines = [f"error: {error!r}"]
    return lines + notes(replace(case, types=""), "", [str(it.message) for it in caught])


def main() -> None:
    for case in cases():
        if not case.is_for("python"):
            continue
        if case.outs:
            scratch = Scratch()
            lines = tried(scratch.moved(case)) + scratch.changed()
        else:
            lines = tried(case)
        print(f"case {case.name}", *(f" {line}" for line in lines), sep="\n")


if __name__ == "__main__":
    sys.stdout.reconfigure(encoding="utf-8")  # type: ignore[union-attr]
    main()

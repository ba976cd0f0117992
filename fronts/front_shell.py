"""Run the ready-made calls of the table of cases with `rcell-gis`.

Prints `case NAME` for each case and, below it, the result, with a blank before each line. The
libraries are loaded only once, because each case runs in a process forked from this one.
"""

from __future__ import annotations

import csv
import os
import re
import runpy
import sys
import tempfile
import warnings

import pandas  # noqa: F401  (loaded before a fork)
import rasterio
import rcell  # noqa: F401
from cases import FACTS, MAPS, Case, Scratch, cases, kind_of, notes

warnings.simplefilter("ignore", rasterio.errors.NotGeoreferencedWarning)
PROGRAM = os.path.join(os.path.dirname(__file__), "..", "helpers", "rcell-gis")
FLAGS = ("include_null", "fill", "each", "drop")


def ran(words: list[str]) -> tuple[int, str, str]:
    """Return the status, the output and the error output of a call."""
    with tempfile.TemporaryFile() as out, tempfile.TemporaryFile() as told:
        child = os.fork()
        if not child:
            os.dup2(out.fileno(), 1)
            os.dup2(told.fileno(), 2)
            sys.argv = [PROGRAM, *words]
            try:
                runpy.run_path(PROGRAM, run_name="__main__")
            except SystemExit as end:
                os._exit(end.code if isinstance(end.code, int) else 0)
            except BaseException:
                sys.excepthook(*sys.exc_info())
            os._exit(1)
        status = os.waitstatus_to_exitcode(os.waitpid(child, 0)[1])
        texts = []
        for file in (out, told):
            file.seek(0)
            texts.append(file.read().decode("utf-8", "replace"))
    return status, texts[0], texts[1]


def words_of(case: Case, target: str) -> list[str]:
    """Return the arguments of a call that writes a map to `target`."""
    words = [
        f"{name}={case.maps[name]}" if case.call == "cross" else case.maps[name]
        for name in case.words
    ]
    options = dict(case.options)
    part = options.pop("map", "")
    words += [target] if case.call in MAPS and not part else []
    words += [f"{target}.tif", "--shares", target] if part == "shares" else []
    words += ["--map", f"{part}={target}"] if part and part != "shares" else []
    for key, text in options.items():
        option = f"--{key.replace('_', '-')}"
        value = case.maps[text] if key in ("zones", "to") else text
        words += [option] if key in FLAGS else [option, value]
    return [case.call, *words, *(["--out", target] if case.outs and not case.makes_map else [])]


def plain(title: str, text: str, digits: int) -> str:
    """Return a field, with `digits` digits if it is a measure. An empty field is null."""
    if text in ("", "nan"):
        return "*"
    is_measure = re.fullmatch(r"-?[0-9]+(\.[0-9]*)?(e[-+][0-9]+)?", text) and "label" not in title
    return f"{float(text):.{digits}g}" if is_measure and re.search("[.e]", text) else text


def of_table(case: Case, text: str) -> list[str]:
    titles, *rows = csv.reader(text.splitlines())
    return ["|".join(titles)] + [
        "|".join(map(plain, titles, row, [case.digits] * len(row))) for row in rows
    ]


def of_raster(path: str) -> list[str]:
    """Return the rows of a map or, for shares, the rows of each band, below its name."""
    with rasterio.open(path) as file:
        layers, names = file.read(masked=True).tolist(), file.descriptions
    lines = []
    for rows, name in zip(layers, names):
        lines += [name] if name else []
        for row in rows:
            texts = ("*" if value is None else f"{value:.12g}" for value in row)
            lines.append(" ".join(texts))
    return lines


def refusal(status: int, told: str) -> list[str]:
    """Return the parts of an error, which is a single line `rcell-gis: SOURCE: TEXT`."""
    lines = [line for line in told.splitlines() if not line.startswith("rcell-gis: warning: ")]
    # The output is a traceback, or names an argument that the program does not have.
    if (
        re.search("argument COMMAND: invalid choice|unrecognized arguments", told)
        or len(lines) != 1
        or not lines[0].startswith("rcell-gis")
        or status not in (1, 2, 3, 4)
    ):
        return [f"error: status {status}: {told[-300:]!r}"]
    source, _, text = lines[0].partition(": ")[2].partition(": ")
    if source.startswith("--"):
        source, text = "arguments", lines[0].partition(": ")[2]
    cell = re.search(r"the cell at row (\d+), column (\d+)", text)
    place = [f"row: {cell[1]}", f"column: {cell[2]}"] if cell else []
    return [f"kind: {kind_of(text)}", f"source: {source}", *place, f"text: {text}"]


def answer(case: Case, room: str) -> list[str]:
    target = case.outs.get("out", os.path.join(room, f"{case.name}.tif"))
    status, out, told = ran(words_of(case, target))
    start = "rcell-gis: warning: "
    warned = [line.removeprefix(start) for line in told.splitlines() if line.startswith(start)]
    is_map = case.makes_map and case.call not in FACTS
    lines = of_table(case, out) if out and not is_map else []
    if status:
        lines = refusal(status, told)
    elif case.outs:
        lines = [f"written: {target}"]
    elif case.makes_map:
        lines += of_raster(target)
    return lines + notes(case, case.types, warned)


def main() -> None:
    with tempfile.TemporaryDirectory() as room:
        for case in cases():
            if not case.is_for("shell"):
                continue
            if case.outs:
                scratch = Scratch()
                lines = answer(scratch.moved(case), room) + scratch.changed()
            else:
                lines = answer(case, room)
            print(f"case {case.name}", *(f" {line}" for line in lines), sep="\n")


if __name__ == "__main__":
    sys.stdout.reconfigure(encoding="utf-8")  # type: ignore[union-attr]
    main()

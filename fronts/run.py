"""Run the table of cases with each installed package, and compare the results.

    /usr/bin/python3 fronts/run.py [FRONT...]

Each package has a runner, which prints the line `case NAME` for each case and, below it, the
result, with a blank before each line. The last line is 'N passed, M failed, K skipped'.
"""

from __future__ import annotations

import os
import pathlib
import re
import shutil
import subprocess
import sys

from cases import Case, cases

HERE = pathlib.Path(__file__).resolve().parent
REPOSITORY = HERE.parent
PROGRAMS = os.environ.get("RCELL_BIN", str(REPOSITORY / "bin"))
FRONTS = ("python", "shell", "r", "qgis", "grass")


def environment() -> dict[str, str]:
    known = {
        "PYTHONDONTWRITEBYTECODE": "1",
        "LC_ALL": "C.UTF-8",
        "RCELL": os.environ.get("RCELL") or f"{PROGRAMS}/rcell",
    }
    return {**os.environ, **known, "PYTHONPATH": str(REPOSITORY / "python/src")}


def missing_of_python() -> str:
    for library in ("numpy", "rasterio", "pandas"):
        if subprocess.run(
            [sys.executable, "-c", f"import {library}"], capture_output=True
        ).returncode:
            return f"{library} is not installed"
    return ""


def missing_of_r() -> str:
    if not shutil.which("Rscript"):
        return "R is not installed"
    test = 'for (p in c("terra", "data.table", "digest", "processx", "rcell")) if (!nzchar(system.file(package = p))) cat(p, "")'
    missing = subprocess.run(
        ["Rscript", "--no-init-file", "-e", test], capture_output=True, text=True
    ).stdout.strip()
    return f"packages of R are not installed: {missing}" if missing else ""


def missing_of_qgis() -> str:
    test = "import osgeo.gdal, numpy, qgis.core, sys; sys.path.append('/usr/share/qgis/python/plugins'); import processing"
    ran = subprocess.run(
        [sys.executable, "-c", test],
        capture_output=True,
        env={**os.environ, "QT_QPA_PLATFORM": "offscreen"},
    )
    return "QGIS is not installed" if ran.returncode else ""


def missing_of_grass() -> str:
    return "" if shutil.which("grass") else "GRASS is not installed"


MISSING = {
    "python": missing_of_python,
    "shell": missing_of_python,
    "r": missing_of_r,
    "qgis": missing_of_qgis,
    "grass": missing_of_grass,
}
# Debian packages.
PACKAGES = {
    "python": "python3-numpy python3-rasterio python3-pandas",
    "shell": "python3-numpy python3-rasterio python3-pandas",
    "r": "r-base-core r-cran-terra r-cran-data.table r-cran-digest r-cran-processx r-cran-codetools",
    "qgis": "python3-qgis python3-gdal python3-numpy",
    "grass": "grass-core python3-numpy",
}
COMMANDS = {
    "python": [sys.executable, str(HERE / "front_python.py")],
    "shell": [sys.executable, str(HERE / "front_shell.py")],
    "r": ["Rscript", str(HERE / "front_r.R")],
    "qgis": [sys.executable, str(HERE / "front_qgis.py")],
    "grass": [sys.executable, str(HERE / "front_grass.py")],
}


def found_by(front: str, folder: pathlib.Path = HERE) -> tuple[dict[str, list[str]], str]:
    """Return the results of a package, by case, for a folder, and its other output."""
    known = {**environment(), "RCELL_CASES": str(folder)}
    ran = subprocess.run(
        COMMANDS[front], env=known, capture_output=True, encoding="utf-8", errors="replace"
    )
    found: dict[str, list[str]] = {}
    name = ""
    for line in ran.stdout.splitlines():
        if line.startswith("case "):
            name = line[5:]
            found[name] = []
        elif name:
            found[name].append(line[1:])
    return found, ran.stderr


def is_right(case: Case, front: str, lines: list[str]) -> bool:
    """Return whether a result is right. It must be the same; an error must match all parts that the
    case names, and its text as far as given."""
    expected, is_refused = case.expected_of(front)
    kept: dict[str, list[str]] = {"types: ": [], "warned: ": [], "changed: ": [], "": []}
    for line in lines:
        start = next(start for start in kept if line.startswith(start))
        kept[start].append(line.removeprefix(start))
    is_noted = is_refused or kept["types: "] == [case.types] * bool(case.types)
    if kept["changed: "] or not is_noted or not are_told(case.warned, kept["warned: "]):
        return False
    if not is_refused:
        return kept[""] == expected
    told = dict(line.split(": ", 1) for line in kept[""] if ": " in line)
    wanted = dict(line.split(": ", 1) for line in expected)
    text = wanted.pop("text", "")
    is_own = "text" in told  # an error that the product did not foresee has none
    return (
        is_own
        and told["text"].startswith(text)
        and all(told.get(key) == value for key, value in wanted.items())
    )


def are_told(wanted: list[str] | None, warnings: list[str]) -> bool:
    """Return whether each warning contains the parts that a case names, in this order."""
    forms = [".*".join(map(re.escape, text.split(" .. "))) for text in wanted or []]
    return wanted is None or (
        len(forms) == len(warnings)
        and all(re.search(form, text) for form, text in zip(forms, warnings))
    )


def run(front: str) -> tuple[int, int, int]:
    """Return how many cases passed, failed, and were skipped because the package is not
    installed."""
    tried = [case for case in cases() if case.is_for(front)]
    missing = MISSING[front]()
    if missing:
        print(f"skipped  fronts/{front}: {missing}; install: apt-get install {PACKAGES[front]}")
        return 0, 0, len(tried)
    found, said = found_by(front)
    wrong = [case for case in tried if not is_right(case, front, found.get(case.name, []))]
    for case in wrong:
        print(
            f"fronts: {front}: {case.name}",
            "  expected:",
            *(f"    {line}" for line in case.expected_of(front)[0]),
            *(f"    warned: {text}" for text in case.warned or []),
            *(f"    types: {case.types}" for _ in range(bool(case.types))),
            "  found:",
            sep="\n",
        )
        print(*(f"    {line}" for line in found.get(case.name, ["nothing"])), sep="\n")
    if wrong and said:
        print(said)
    right = len(tried) - len(wrong)
    without = f"; {len(cases()) - len(tried)} are not for it" if len(tried) < len(cases()) else ""
    print(f"fronts: {front}: {right} cases of {len(tried)}{without}")
    return right, len(wrong), 0


def main() -> int:
    counts = [run(front) for front in sys.argv[1:] or FRONTS]
    passed, failed, skipped = (sum(numbers) for numbers in zip(*counts))
    print(f"{passed} passed, {failed} failed, {skipped} skipped")
    return 1 if failed else 0


if __name__ == "__main__":
    sys.exit(main())

"""Check licences and versions: all places in the repository must name the same ones."""
import pathlib
import re
import subprocess

ROOT = pathlib.Path(__file__).resolve().parent.parent.parent
LICENCE = "Apache-2.0 OR GPL-2.0-or-later"
SPDX = f"SPDX-License-Identifier: {LICENCE}"
TOP_LINES = 5
HELPERS = ("rcell-gis",)
# The places that name the licence, each with its line in the format of that place.
NAMED = {
    "LICENSE.md": SPDX,
    "python/pyproject.toml": f'license = "{LICENCE}"',
    "qgis/rcell/metadata.txt": f"license={LICENCE}",
    "r/rcell/DESCRIPTION": "License: Apache License (== 2.0) | GPL (>= 2)",
    "CITATION.cff": "license:\n  - Apache-2.0\n  - GPL-2.0-or-later",
    "packaging/copyright.in": "License: Apache-2.0 or GPL-2+",
}
# The folders from which users copy files, and that contain the line themselves.
COPIED = re.compile(
    r"helpers/(?!tests/|.*\.(1|json|md|mk)$)|(python/src|qgis/rcell)/.*\.py$|r/rcell/R/.*\.R$|grass/r\.rcell/r\.rcell\.py$|Makefile$"
)
EXCEPTION = {"LICENSE.md": "LGPL-3.0-or-later", "packaging/copyright.in": "License: LGPL-3+"}


def read(name):
    return (ROOT / name).read_text(encoding="utf-8")


def tracked():
    """Return the files of the repository, including new ones that git does not ignore."""
    words = ["git", "ls-files", "--cached", "--others", "--exclude-standard"]
    names = subprocess.run(
        words, cwd=ROOT, capture_output=True, text=True, check=True
    ).stdout.splitlines()
    return [name for name in names if (ROOT / name).is_file()]


def licences():
    """Places that do not name the licence or the version that the others name."""
    version = read("VERSION").strip()
    wanted = {**{name: [line] for name, line in NAMED.items()}}
    for name, line in EXCEPTION.items():
        wanted[name].append(line)
    wanted["CITATION.cff"].append(f"version: {version}")
    for name in HELPERS:
        wanted[f"helpers/{name}"] = [f'VERSION = "{version}"']
    wanted["python/src/rcell/_version.py"] = [f'__version__ = "{version}"']
    found = [
        f"{name}: does not say {line!r}"
        for name, lines in wanted.items()
        for line in lines
        if f"\n{line}\n" not in f"\n{read(name)}\n"
        and not (name in EXCEPTION and line in read(name))
    ]
    tops = {name: read(name).split("\n")[:TOP_LINES] for name in tracked() if COPIED.match(name)}
    found += [
        f"{name}: no line {SPDX!r} within the first {TOP_LINES}"
        for name, top in tops.items()
        if not any(SPDX in line for line in top)
    ]
    others = [
        name
        for name in tracked()
        if name.endswith((".py", ".sh", ".R", ".toml", ".cff", ".txt", "DESCRIPTION"))
        and "lint/" not in name
    ]
    for name in others:
        said = re.findall(
            r"(?m)^\W*SPDX-License-Identifier: (.*)$",
            (ROOT / name).read_text(encoding="utf-8", errors="replace"),
        )
        found += [f"{name}: another licence, {it}" for it in said if it.strip() != LICENCE]
    return found

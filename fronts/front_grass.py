"""Run the table of cases with r.rcell, in a GRASS session.

Prints `case NAME` for each case and, below it, the result, with a blank before each line. GRASS has
one region for all maps, and maps of integers or of decimals. The rasters are imported with
r.in.gdal, and a case is run in the region of its first map.
"""

from __future__ import annotations

import os
import pathlib
import re
import subprocess
import sys
import tempfile

from cases import Case, cases
from rcell.core import protocol

HERE = pathlib.Path(__file__).resolve().parent
REFUSED = re.compile(r"rcell: ([^:]*):(\d+): (.*)")
NO_MAP = re.compile(r"Raster map <([^>]*)> (.*)")


def called(*words: str, text: str | None = None) -> subprocess.CompletedProcess[str]:
    return subprocess.run(
        words, input=text, capture_output=True, encoding="utf-8", errors="replace"
    )


def raster_of(path: str) -> str:
    """Return the name of a raster as a map in GRASS."""
    return "m_" + pathlib.Path(path).stem


def import_all() -> None:
    """Import the rasters of all cases, in any reference system. Rasters that r.in.gdal rejects are
    left out."""
    for path in sorted(
        {path for case in cases() if case.is_for("grass") for path in case.maps.values()}
    ):
        module = "r.in.ascii" if path.endswith(".txt") else "r.in.gdal"
        words = ("null_value=*",) if path.endswith(".txt") else ("-o", "band=1")
        called(
            module, *words, f"input={path}", f"output={raster_of(path)}", "--quiet", "--overwrite"
        )


def plain(row: list[str], titles: list[str]) -> list[str]:
    """Return a row in which missing labels are `*`, as in the table of cases. GRASS prints `no
    data` for null."""
    found = row[:]
    for at, title in enumerate(titles):
        if title.endswith("_label") and (not row[at] or row[at - 1] == "*"):
            found[at] = "*"
    return found


def tables_of(case: Case) -> list[protocol.Statement]:
    """Return the statements of a script that print tables, or none if the script is rejected."""
    program = str(pathlib.Path(os.environ["RCELL"]).with_name("rcell-pipe"))
    try:
        return [
            it
            for it in protocol.plan(program, list(case.maps), case.script.encode())
            if it.command == "r.stats"
        ]
    except protocol.Rejected:
        return []


def titles_of(case: Case) -> list[str]:
    """Return the titles of the only table of a script, because the script does not print them."""
    titles: list[str] = []
    table = tables_of(case)[0]
    for name in table.inputs:
        count = titles.count(name)
        titles += [f"{name}_{count + 1}" if count else name] + [f"{name}_label"] * (
            "l" in table.options
        )
    return titles + ["cells"] * ("c" in table.options)


def of_table(case: Case, text: str) -> list[str]:
    titles = titles_of(case)
    return ["|".join(titles)] + [
        "|".join(plain(line.split("|"), titles)) for line in text.splitlines()
    ]


def of_grid(name: str) -> list[str]:
    return (
        called("r.out.ascii", "-hi", f"input={name}", "null_value=*", "--quiet")
        .stdout.replace(" \n", "\n")
        .splitlines()
    )


def asked(case: Case) -> tuple[str, list[str]]:
    """Return the script, and the arguments of r.rcell."""
    kind, *words = case.call.split()
    lines = case.script.split("\n")
    for it in tables_of(case):
        lines[it.line - 1] += " separator=pipe"
    return "\n".join(lines), [f"output={words[0]}=found"] if kind == "grid" else []


def refusal(case: Case, told: str) -> list[str]:
    """Return the error of r.rcell, with the keys of the table of cases. Long lines, which GRASS
    breaks, are joined."""
    text = " ".join(
        line.removeprefix("ERROR: ").strip()
        for line in told.splitlines()
        if not line.startswith(("    ", "WARNING"))
    )
    found = REFUSED.search(text)
    if found:
        # The mark is printed below its column, four blanks to the right.
        beneath = [line for line in told.splitlines() if line.startswith("    ")]
        marks = [len(line) - 4 for line in beneath[1:] if line.endswith("^")]
        lines = [
            ("kind", "refused"),
            ("source", found[1]),
            ("line", int(found[2]) or None),
            ("column", marks[0] if marks else None),
        ]
        return [
            f"{key}: {value}"
            for key, value in [*lines, ("text", found[3].strip())]
            if value is not None
        ]
    missing = NO_MAP.search(text)
    names = {raster_of(path): name for name, path in case.maps.items()}
    if missing:
        kind = "read failed" if missing[2].startswith("not found") else "bad map"
        return [
            f"kind: {kind}",
            f"source: {names.get(missing[1], missing[1])}",
            f"text: {missing[2]}",
        ]
    return ["kind: refused", f"text: {text}"]


def answer(case: Case) -> list[str]:
    first = raster_of(next(iter(case.maps.values())))
    called("g.region", f"raster={first}", "--quiet")
    script, words = asked(case)
    maps = ",".join(f"{name}={raster_of(path)}" for name, path in case.maps.items())
    ran = called(
        "r.rcell", "script=-", f"maps={maps}", *words, "--quiet", "--overwrite", text=script
    )
    if ran.returncode:
        return refusal(case, ran.stderr)
    return of_table(case, ran.stdout) if case.call == "table" else of_grid("found")


def inside() -> None:
    """Run the cases within a session."""
    import_all()
    for case in cases():
        if case.is_for("grass"):
            print(f"case {case.name}", *(f" {line}" for line in answer(case)), sep="\n")


def main() -> int:
    """Make a location without a projection, and run the cases in it."""
    with tempfile.TemporaryDirectory(prefix="rcell-grass-") as room:
        os.mkdir(f"{room}/path")
        os.symlink(
            pathlib.Path(os.environ["RCELL"]).with_name("rcell-pipe"), f"{room}/path/rcell-pipe"
        )
        os.symlink(HERE.parent / "grass/r.rcell/r.rcell.py", f"{room}/path/r.rcell")
        environment = {**os.environ, "PATH": f"{room}/path:/usr/bin:/bin", "HOME": room}
        subprocess.run(
            ["grass", "-e", "-c", "XY", f"{room}/here"], env=environment, capture_output=True
        )
        words = [
            "grass",
            f"{room}/here/PERMANENT",
            "--exec",
            sys.executable,
            str(HERE / "front_grass.py"),
            "inside",
        ]
        return subprocess.run(words, env=environment).returncode


if __name__ == "__main__":
    sys.stdout.reconfigure(encoding="utf-8")  # type: ignore[union-attr]
    sys.exit(inside() if sys.argv[1:] else main())

"""Read the table of cases: for each file cases/NAME.case, a question and the expected result."""

from __future__ import annotations

import os
import pathlib
import re
import shutil
import tempfile
from dataclasses import dataclass, field, replace

# The folder that contains `cases` and `rasters`. It may differ from this folder.
HERE = pathlib.Path(os.environ.get("RCELL_CASES") or pathlib.Path(__file__).resolve().parent)
TABLES = (
    *("composition", "cross", "change", "trajectories", "patches", "zonal", "adjacency"),
    *("dominant", "accuracy", "metrics", "sample"),
)
MAPS = ("majority", "align", "reclass", "clump", "sieve", "within", "aggregate")
# Maps whose metadata states how they were made, and the columns of that metadata.
FACTS = {
    "align": ("shift_rows", "shift_columns", "cells_used", "cells_repeated", "cells_lost"),
    "sieve": ("patches_before", "patches_after", "cells_changed", "patches_below"),
}
ANSWERS = (*TABLES, *MAPS)
POLYGONS = re.compile(r"\.(geojson|gpkg|shp|fgb)(\|layername=.*)?$")
# Options of a call whose values are files. Errors of QGIS and of the shell have no kind except in
# their text.
FILES = ("labels", "zone_labels", "rules", "areas")
KINDS = [
    ("other crs", r"its coordinate reference system is |it has no coordinate reference system"),
    ("other region", r"its grid differs from |shifted by |cells of "),
    ("read failed", r"cannot open|rows \d+ to \d+ cannot be read"),
    (
        "bad map",
        r"not a map of whole numbers|has \d+ bands|its transform (is|must)|its values are scaled|no polygon|features must be|no field ",
    ),
    ("refused", r""),
]


@dataclass
class Case:
    """A case.

    Attributes
    ----------
    name : str
    maps : dict of str to str
        The rasters' paths, by map name.
    call : str
        `table`, `grid NAME`, `write NAME`, or one of the ready-made calls.
    words : list of str
        The maps of a function, in order.
    options : dict of str to str
        The parameters of a function.
    digits : int
        The number of digits to which numbers are compared.
    script : str
    area : str
        The requested unit of areas, or nothing.
    percent : bool
    crs : str
        The reference system stated for maps without one, or nothing.
    over : str
        The path of the raster that `write` replaces.
    outs : dict of str to str
        The files to which results are written, by `out`, `matrix` and `summary`.
    warned : list of str or None
        The warnings, as parts of their texts separated by ` .. `; None if they are not checked.
    types : str
        The types of the columns of a table, or nothing.
    expected : dict of str to (list of str, bool)
        The expected lines of the result or error, and whether it is an error. The key is a
        package whose result differs, or '' for all others.
    left_out : dict of str to str
        Why a package does not run the case, by package name.
    """

    name: str
    maps: dict[str, str] = field(default_factory=dict)
    call: str = "table"
    words: list[str] = field(default_factory=list)
    options: dict[str, str] = field(default_factory=dict)
    digits: int = 12
    script: str = ""
    area: str = ""
    percent: bool = False
    crs: str = ""
    over: str = ""
    outs: dict[str, str] = field(default_factory=dict)
    warned: list[str] | None = None
    types: str = ""
    expected: dict[str, tuple[list[str], bool]] = field(default_factory=dict)
    left_out: dict[str, str] = field(default_factory=dict)

    def expected_of(self, front: str) -> tuple[list[str], bool]:
        """Return the expected result for a package, and whether it is an error."""
        return self.expected.get(front, self.expected.get("", ([], False)))

    @property
    def makes_map(self) -> bool:
        """Return whether the result is a map."""
        return self.call in MAPS or "map" in self.options

    def is_for(self, front: str) -> bool:
        """Return whether a package runs the case: r.rcell has only scripts, and `rcell-gis` has
        only the ready-made calls."""
        is_answer = self.call in ANSWERS
        is_outside = {
            "grass": is_answer,
            "shell": not is_answer,
        }.get(front, False)
        return front not in self.left_out and not is_outside


def _blocks(text: str) -> dict[str, list[str]]:
    """Return the lines of each key: the text after its colon, or the lines indented below it."""
    found: dict[str, list[str]] = {}
    key = ""
    for line in text.splitlines():
        if line.startswith("  ") and key:
            found[key].append(line[2:])
        elif line and not line.startswith("#"):
            key, _, value = line.partition(":")
            found[key] = [value.strip()] if value.strip() else []
    return found


def _path(file: str) -> str:
    """Return the path of a raster in `rasters`, or of an example in the repository."""
    return str((HERE.parent if file.startswith("examples/") else HERE / "rasters") / file)


def read(path: pathlib.Path) -> Case:
    """Read the case in a file."""
    blocks = _blocks(path.read_text(encoding="utf-8"))
    maps = dict(word.split("=", 1) for word in blocks["maps"][0].split())
    expected = {}
    for key, lines in blocks.items():
        kind, _, front = key.partition(" ")
        if kind in ("answer", "refused"):
            expected[front] = (lines, kind == "refused")
    kind, *words = blocks["call"][0].split()
    options = dict(word.split("=", 1) for word in words if "=" in word)
    for key in FILES:
        if options.get(key, "map") != "map":
            options[key] = _path(options[key])
    outs = [word.rpartition("=") for line in blocks.get("out", []) for word in line.split()]
    return Case(
        name=path.stem,
        maps={name: _path(file) for name, file in maps.items()},
        call=kind if kind in ANSWERS else blocks["call"][0],
        words=[word for word in words if "=" not in word],
        options=options,
        digits=int("".join(blocks.get("digits", ["12"]))),
        script="\n".join(blocks.get("script", [])),
        area="".join(blocks.get("area", [])),
        percent="percent" in blocks,
        crs="".join(blocks.get("crs", [])),
        over=str(HERE / "rasters" / blocks["over"][0]) if "over" in blocks else "",
        outs={name or "out": _path(file) for name, _, file in outs},
        warned=[line for line in blocks["warned"] if line != "none"]
        if "warned" in blocks
        else None,
        types="".join(blocks.get("types", [])),
        expected=expected,
        left_out={
            key.split()[1]: " ".join(lines)
            for key, lines in blocks.items()
            if key.startswith("without ")
        },
    )


class Scratch:
    """Copies of all inputs, which a case reads and may try to overwrite."""

    def __init__(self) -> None:
        self._room = tempfile.TemporaryDirectory(prefix="rcell-cases-")
        self.folder = pathlib.Path(self._room.name, "rasters")
        shutil.copytree(HERE / "rasters", self.folder)
        self._before = self._bytes()

    def _bytes(self) -> dict[str, bytes]:
        return {it.name: it.read_bytes() for it in self.folder.iterdir() if it.is_file()}

    def moved(self, case: Case) -> Case:
        """Return the case with the copies as its inputs."""

        def here(paths: dict[str, str]) -> dict[str, str]:
            return {
                name: str(self.folder / pathlib.Path(text).name) if text.startswith("/") else text
                for name, text in paths.items()
            }

        return replace(case, maps=here(case.maps), options=here(case.options), outs=here(case.outs))

    def changed(self) -> list[str]:
        """Return a line for each input that has changed."""
        after = self._bytes()
        return [
            f"changed: {name}" for name, told in self._before.items() if after.get(name) != told
        ]


def kind_of(text: str) -> str:
    """Return the kind of an error, given its text."""
    return next(name for name, form in KINDS if re.match(form, text))


def notes(case: Case, types: str, warnings: list[str]) -> list[str]:
    """Return the lines about types and warnings, if the case checks them."""
    told = [f"types: {types}"] if case.types else []
    return told + [
        f"warned: {text.splitlines()[0]}" for text in warnings if case.warned is not None
    ]


def copied(path: str, folder: str) -> str:
    """Copy a raster with its accompanying files, and return the path of the copy."""
    source = pathlib.Path(path)
    for beside in source.parent.glob(f"{source.name}*"):
        shutil.copy(beside, folder)
    return str(pathlib.Path(folder) / source.name)


def cases() -> list[Case]:
    """Return all cases, sorted by name."""
    return [read(path) for path in sorted((HERE / "cases").glob("*.case"))]

"""Compare random rasters, read through the packages, with numpy, cell by cell.

    /usr/bin/python3 fronts/random_rasters.py [--count N] [--seconds N] [--seed N] [FRONT...]

The rasters vary in type, nodata, alpha, masks, blocks, transforms, reference systems and labels.
Sixteen rasters of one location go through one call of a package, which returns their cells and the
labels of one of them. A raster that is not a map must be rejected, with row and column if a cell is
bad, and so must maps of two locations. For r.rcell, only its own part is tested, from the numbers
that GRASS returns to the text of a grid. `shell` is `rcell-gis convert` and then rcell; `tiles`
is Python with tiles.

Progress is printed every 5,000 rasters. Repeat a group with --seed and --from. The last line is 'N
passed, M failed, K skipped'.
"""

from __future__ import annotations

import argparse
import json
import os
import pathlib
import re
import shutil
import subprocess
import sys
import tempfile
import time
from concurrent.futures import ThreadPoolExecutor
from dataclasses import dataclass, field
from typing import Any, Callable, NamedTuple

import numpy as np
from osgeo import gdal, osr
from run import MISSING, PACKAGES, REPOSITORY, environment

HERE = pathlib.Path(__file__).resolve().parent
FRONTS = ("python", "shell", "r", "qgis", "grass")
GROUP = 16
SHORT = 400  # rasters in the gate's run
LARGE = 100_000  # cells
PROGRESS = 5000
MOST_CATEGORY = 2147483647
NULL = -2147483648  # null among the returned cells
EXACT_FLOAT = 2**53
TYPES = {
    gdal.GDT_Byte: np.uint8,
    gdal.GDT_UInt16: np.uint16,
    gdal.GDT_Int16: np.int16,
    gdal.GDT_UInt32: np.uint32,
    gdal.GDT_Int32: np.int32,
    gdal.GDT_Float32: np.float32,
    gdal.GDT_Float64: np.float64,
    gdal.GDT_Int64: np.int64,
    gdal.GDT_UInt64: np.uint64,
}
SYSTEMS = (0, 4326, 25832, 32632, 2263, 31467, 9707)
BLOCKS: tuple[list[str], ...] = (
    ["TILED=YES", "BLOCKXSIZE=16", "BLOCKYSIZE=16"],
    ["BLOCKYSIZE=1"],
    ["BLOCKYSIZE=5"],
    [],
)
NAMES = ["", "water", "a b", "", "Wald", "5"]
REFUSED_SYSTEM = "reference system|CRS"


@dataclass
class Place:
    """The properties that the rasters of one call share."""

    rows: int
    cols: int
    transform: tuple[float, ...] | None
    epsg: int
    reason: str
    """Why no raster of it is a map; empty if they are."""


@dataclass
class Made:
    """A raster, its cells, and the expected error if it is not a map."""

    path: str
    cells: Any
    reason: str
    labels: dict[str, str]
    has_mask: bool
    has_wide_null: bool

    def reason_in(self, front: str) -> str:
        """Return why a package rejects the raster. R rejects masks, and nulls that a float cannot
        distinguish from nearby numbers."""
        own = ["its own mask"] * self.has_mask + ["64 bits"] * self.has_wide_null
        return "|".join(filter(None, [self.reason, *(own if front == "r" else [])]))


# Rasters


def place_of(random: Any) -> Place:
    chance = random.random()
    rows, cols = (
        (int(size) for size in random.integers(1, 19, 2))
        if chance < 0.9
        else (int(random.integers(1, 60)), 40)
    )
    if chance > 0.99:
        rows, cols = int(random.integers(900, 1500)), 1000  # more than a package reads at once
    width, height = (
        float(size) for size in random.choice([0.5, 1, 10, 25, 30, 1 / 3, 1 / 120, 1000], 2)
    )
    west, north = float(random.integers(-1000, 1000)), float(random.integers(-1000, 1000)) / 3
    usual = (west, width, 0.0, north, 0.0, -height)
    forms: list[tuple[tuple[float, ...] | None, str]] = [
        (None, ""),
        ((*usual[:5], height), ""),
        ((*usual[:5], height), ""),
        ((*usual[:2], 0.5, *usual[3:]), "rotated|mirrored"),
        ((west, -width, *usual[2:]), "west|mirrored"),
        ((float("nan"), *usual[1:]), "finite"),
    ]
    kind = int(random.integers(24))
    transform, reason = forms[kind] if kind < len(forms) else (usual, "")
    return Place(rows, cols, transform, int(random.choice(SYSTEMS)), reason)


def cells_of(random: Any, dtype: Any, shape: tuple[int, int]) -> Any:
    """Return integers that fit in the type: a few, many, or any, and sometimes the largest among
    them."""
    is_real = np.dtype(dtype).kind == "f"
    limits = (
        (-(2**24), 2**24)
        if dtype == np.float32
        else (-MOST_CATEGORY, MOST_CATEGORY)
        if is_real
        else (np.iinfo(dtype).min, np.iinfo(dtype).max)
    )
    least, most = max(int(limits[0]), -MOST_CATEGORY), min(int(limits[1]), MOST_CATEGORY)
    span = int(random.choice([2, 9, 300, 70_000, 2**33]))
    low = (
        int(random.integers(least, most + 1))
        if random.random() < 0.3
        else 0
        if least == 0
        else -(span // 3)
    )
    low = max(least, min(low, most))
    cells = random.integers(low, min(low + span, most) + 1, shape, np.int64)
    if random.random() < 0.2:
        cells[random.random(shape) < 0.2] = random.choice([least, most, most - 1])
    return cells.astype(dtype)


def nodata_of(random: Any, cells: Any) -> Any:
    """Return a nodata value, or None. The value may be a cell's, a value that no cell has or can
    have, a limit of the type, or NaN."""
    is_real, is_wide = cells.dtype.kind == "f", cells.dtype.itemsize == 8
    limits: Any = np.finfo(cells.dtype) if is_real else np.iinfo(cells.dtype)
    one, end, before = (
        cells.reshape(-1)[random.integers(cells.size)].item(),
        limits.max.item() if is_real else limits.max,
        limits.min,
    )
    odd = (
        [-9999, 255, 0.5, float("nan"), 2**31, -(2**31), 1e30]
        if is_real or not is_wide
        else [255, 2**31, end - 1]
    )
    choices = [
        None,
        None,
        one,
        one,
        one + 1,
        end,
        before.item() if is_real else before,
        odd[random.integers(len(odd))],
    ]
    found = choices[random.integers(len(choices))]
    return (
        min(found, end)
        if found is not None and found == found and is_wide and not is_real
        else found
    )


def null_cells(cells: Any, nodata: Any, opaque: list[Any]) -> Any:
    null = np.isnan(cells) if cells.dtype.kind == "f" else np.zeros(cells.shape, bool)
    for mask in opaque:
        null |= mask == 0
    if nodata is None or nodata != nodata:
        return null
    if cells.dtype.kind != "f" and not (
        nodata == int(nodata)
        and np.iinfo(cells.dtype).min <= int(nodata) <= np.iinfo(cells.dtype).max
    ):
        return null
    with np.errstate(over="ignore"):
        return null | (
            cells == cells.dtype.type(nodata if cells.dtype.kind == "f" else int(nodata))
        )


def spoil(random: Any, cells: Any, nodata: Any, null: Any) -> str:
    """Insert a cell that is not a category, and return where, or nothing if the type has no such
    value."""
    kind = cells.dtype
    if kind.kind == "f":
        bad: Any = random.choice([0.5, 1e12, -2147483648.0, np.inf])
    elif kind.itemsize == 8:
        bad = (EXACT_FLOAT + 1, MOST_CATEGORY + 1, int(np.iinfo(kind).max) - 1)[random.integers(3)]
    elif kind.itemsize == 4:
        bad = np.iinfo(kind).max if kind == np.uint32 else np.iinfo(kind).min
    else:
        return ""
    row, col = (int(random.integers(size)) for size in cells.shape)
    value = kind.type(bad)
    if null[row, col] or null_cells(np.array([value]), nodata, [])[0]:
        return ""
    cells[row, col] = value
    return rf"row {row + 1}, column {col + 1}\b"


@dataclass
class Form:
    """How a raster is stored, apart from its cells and nodata value."""

    kind: int
    options: list[str]
    alpha: Any
    mask: Any
    is_complex: bool
    is_scaled: bool
    labels: list[str]


def form_of(random: Any, kind: int, shape: tuple[int, int]) -> Form:
    chance = random.random(6)
    opaque = random.choice([0, 1, 100], shape, p=[0.2, 0.1, 0.7]).astype(TYPES[kind])
    options = [
        *BLOCKS[random.integers(len(BLOCKS))],
        *(["COMPRESS=DEFLATE"] if chance[0] < 0.2 else []),
    ]
    return Form(
        kind,
        options + (["ALPHA=YES", "PHOTOMETRIC=MINISBLACK"] if chance[1] < 0.15 else []),
        opaque if chance[1] < 0.15 else None,
        np.where(random.random(shape) < 0.2, 0, 255).astype(np.uint8) if chance[2] < 0.1 else None,
        bool(chance[3] < 0.01),
        bool(chance[4] < 0.01),
        NAMES if kind == gdal.GDT_Byte and chance[5] < 0.1 else [],
    )


def make(random: Any, place: Place, path: str, projection: str) -> Made:
    """Write a raster, and compute what a package must return."""
    shape, kind = (place.rows, place.cols), list(TYPES)[random.integers(len(TYPES))]
    cells, form = cells_of(random, TYPES[kind], shape), form_of(random, kind, shape)
    nodata = nodata_of(random, cells)
    null = null_cells(cells, nodata, [one for one in (form.alpha, form.mask) if one is not None])
    reason = spoil(random, cells, nodata, null) if random.random() < 0.04 else ""
    write(place, path, projection, cells, nodata, form)
    reason = "|".join(["type|complex"] * form.is_complex + ["scale"] * form.is_scaled) or reason
    known = (
        None
        if reason
        else np.where(null, NULL, np.where(null, 0, cells).astype(np.int64))
        .astype(np.int32)
        .reshape(-1)
    )
    is_wide = (
        kind in (gdal.GDT_Int64, gdal.GDT_UInt64)
        and nodata is not None
        and abs(nodata) >= EXACT_FLOAT
    )
    labels = {str(number): name for number, name in enumerate(form.labels) if name}
    return Made(
        path,
        known,
        "|".join(filter(None, (place.reason, reason))),
        labels,
        form.mask is not None,
        is_wide,
    )


def write(place: Place, path: str, projection: str, cells: Any, nodata: Any, form: Form) -> None:
    kind = gdal.GDT_CFloat32 if form.is_complex else form.kind
    dataset = gdal.GetDriverByName("GTiff").Create(
        path, place.cols, place.rows, 1 + (form.alpha is not None), kind, form.options
    )
    step = 1
    if place.transform is not None:
        step = -1 if place.transform[5] > 0 else 1
        north = place.transform[3] - (place.transform[5] * place.rows if step < 0 else 0)
        dataset.SetGeoTransform((*place.transform[:3], north, *place.transform[4:]))
    if projection:
        dataset.SetProjection(projection)
    band = dataset.GetRasterBand(1)
    if form.is_scaled:
        band.SetScale(0.5)
    if form.labels:
        band.SetCategoryNames(form.labels)
    if nodata is not None:
        band.Fill(1)
        dataset.FlushCache()  # all blocks are stored now: GDAL writes nodata, rounded, in place of zeros in a block that is not
        {
            gdal.GDT_Int64: band.SetNoDataValueAsInt64,
            gdal.GDT_UInt64: band.SetNoDataValueAsUInt64,
        }.get(kind, band.SetNoDataValue)(nodata)
    for number, array in enumerate([cells] if form.alpha is None else [cells, form.alpha], 1):
        dataset.GetRasterBand(number).WriteArray(np.ascontiguousarray(array[::step]))
    if form.mask is not None:
        gdal.SetConfigOption("GDAL_TIFF_INTERNAL_MASK", "YES" if form.mask[0, 0] else "NO")
        band.CreateMaskBand(
            0 if not form.mask[0, 0] and form.mask[-1, -1] else gdal.GMF_PER_DATASET
        )
        band.GetMaskBand().WriteArray(np.ascontiguousarray(form.mask[::step]))


def projection_of(epsg: int) -> str:
    system = osr.SpatialReference()
    if epsg:
        system.ImportFromEPSG(epsg)
    return str(system.ExportToWkt()) if epsg else ""


# What a package returns: the cells of all maps, the cells of one of them again, and its labels


class Asked(NamedTuple):
    """Maps that go through one call, and the index of the map that is returned with labels."""

    rows: int
    cols: int
    again: int
    paths: list[str]

    @property
    def script(self) -> str:
        return f"r.stats -1 input={','.join(self.names)}\nr.out.ascii input=m{self.again}"

    @property
    def names(self) -> list[str]:
        return [f"m{at}" for at in range(len(self.paths))]


Answer = tuple[list[Any], dict[int, str]]


def answer_of_python(asked: Asked) -> Answer:
    import rasterio
    import rcell

    with rasterio.Env():
        found = rcell.run(asked.script, dict(zip(asked.names, asked.paths)))
    categories = found[0].drop(columns="cells", errors="ignore").fillna(NULL)
    return [categories.to_numpy(np.int64), found[1].array.filled(NULL)], found[1].labels


def answer_of_tiles(asked: Asked) -> Answer:
    from rcell.core.tiling import working

    with working(workers=2, size=(asked.rows // 2 + 1, asked.cols // 3 + 1)):
        return answer_of_python(asked)


def answer_of_qgis(asked: Asked) -> Answer:
    from rcell.engine.core.scripts import Run
    from rcell.engine.core.text_grids import is_grid, open_path
    from rcell.engine.readers.gdal import open_raster

    maps = {
        name: open_path(name, path) if is_grid(path) else open_raster(name, path)
        for name, path in zip(asked.names, asked.paths)
    }
    table, grid = Run(asked.script, maps, {}).outputs()
    return [table.categories, grid.filled(NULL)], grid.labels


def answer_of_grass(asked: Asked) -> Answer:
    from test_without_grass import handing_out, rcell

    region = {
        "n": asked.rows,
        "s": 0,
        "e": asked.cols,
        "w": 0,
        "rows": asked.rows,
        "cols": asked.cols,
    }
    inputs = [rcell.Input(name, f"{path}.cells") for name, path in zip(asked.names, asked.paths)]
    with handing_out():
        maps = rcell.sources_of(inputs, {}, region, rcell.Progress(1))
        return (
            parsed(
                asked,
                b"".join(
                    rcell.tables_of(
                        asked.script, rcell.judged(asked.script, asked.names), lambda: maps
                    )
                ),
            ),
            {},
        )


def answer_of_shell(asked: Asked) -> Answer:
    def text_of(path: str) -> bytes:
        words = [str(REPOSITORY / "helpers/rcell-gis"), "convert", path, f"{path}.txt"]
        ran = subprocess.run(words, capture_output=True, check=False)
        if ran.returncode:
            raise ValueError(ran.stderr.decode())
        return pathlib.Path(f"{path}.txt").read_bytes()

    return answer_of_program(asked, text_of)


def answer_of_program(asked: Asked, text_of: Callable[[str], bytes]) -> Answer:
    """Return the output of rcell itself for grids."""
    script = f"{asked.paths[0]}.script"
    pathlib.Path(script).write_text(asked.script, encoding="ascii")
    grids = [f"{path}.grid" for path in asked.paths]
    with ThreadPoolExecutor() as pool:
        for grid, text in zip(grids, pool.map(text_of, asked.paths)):
            pathlib.Path(grid).write_bytes(text)
    words = [os.environ["RCELL"], script, *map("=".join, zip(asked.names, grids))]
    ran = subprocess.run(words, capture_output=True, check=False)
    if ran.returncode:
        raise ValueError(ran.stderr.decode())
    return parsed(asked, ran.stdout), {}


def parsed(asked: Asked, text: bytes) -> list[Any]:
    """Return the printed cells, as a list and as a grid."""
    lines, size = text.replace(b"*", b"%d" % NULL).split(b"\n"), asked.rows * asked.cols
    return [
        np.fromstring(b" ".join(part), np.int64, sep=" ")
        for part in (lines[:size], lines[size + 6 :])
    ]


def work(answer: Callable[[Asked], Answer]) -> None:
    """Read lines, and print a line for each, followed by the cells of each map in turn, if there
    are any."""
    for line in sys.stdin:
        rows, cols, again, *paths = line.rstrip("\n").split("\t")
        asked = Asked(int(rows), int(cols), int(again), paths)
        try:
            arrays, labels = answer(asked)
            told = b"".join(
                part.reshape(asked.rows * asked.cols, -1).T.astype(np.int32).tobytes()
                for part in arrays
            )
            head = f"cells {len(told)} {json.dumps({str(number): label for number, label in labels.items()})}"
        except Exception as error:
            told, head = b"", f"{type(error).__name__}: {error}".replace("\n", " ")
        sys.stdout.buffer.write(head.encode() + b"\n" + told)
        sys.stdout.buffer.flush()


# The packages at work


@dataclass
class Front:
    """A package's process, and its wrong results."""

    name: str
    passed: int = 0
    wrong: list[str] = field(default_factory=list)

    def __post_init__(self) -> None:
        paths = {"qgis": "qgis", "grass": "grass/tests"}
        words = (
            ["Rscript", str(HERE / "random_rasters.R")]
            if self.name == "r"
            else [sys.executable, "-W", "ignore", __file__, "--work", self.name]
        )
        # R starts programs with fork, which copies its page table. With huge pages, the table is
        # small.
        known = {
            **environment(),
            "PYTHONPATH": str(REPOSITORY / paths.get(self.name, "python/src")),
            "GLIBC_TUNABLES": "glibc.malloc.hugetlb=1",
        }
        self._process = subprocess.Popen(
            words, stdin=subprocess.PIPE, stdout=subprocess.PIPE, env=known
        )

    def ask(self, place: Place, rasters: list[Made], again: int) -> tuple[str, bytes]:
        """Return the package's result for the rasters of one call."""
        assert self._process.stdin is not None and self._process.stdout is not None
        line = "\t".join(
            [str(place.rows), str(place.cols), str(again), *(made.path for made in rasters)]
        )
        self._process.stdin.write(line.encode() + b"\n")
        self._process.stdin.flush()
        head = self._process.stdout.readline().decode().rstrip("\n")
        return (
            head,
            self._process.stdout.read(int(head.split()[1])) if head.startswith("cells ") else b"",
        )

    def judge(self, place: Place, rasters: list[Made], again: int) -> None:
        """Compare the package's result with numpy's."""
        head, told = self.ask(place, rasters, again)
        wanted, labels = [made.cells.tobytes() for made in [*rasters, rasters[again]]], rasters[
            again
        ].labels
        size = len(wanted[0])
        found = [told[at : at + size] for at in range(0, len(told), size)]
        if (
            self.name in ("python", "qgis", "r")
            and found
            and json.loads(head.split(" ", 2)[2]) != labels
        ):
            found = []
        for at, made in enumerate(rasters):
            if found[at : at + 1] == wanted[at : at + 1] and (
                at != again or found[-1:] == wanted[-1:]
            ):
                self.passed += 1
            else:
                self.wrong.append(
                    f"{made.path}: {head[:300]}; {np.frombuffer(b''.join(found[at:at + 1]), np.int32)[:20]}, not {made.cells[:20]}"
                )

    def refuses(self, place: Place, rasters: list[Made], reason: str) -> None:
        """Check that rasters are rejected, and for the right reason."""
        head = self.ask(place, rasters, 0)[0]
        if not head.startswith("cells ") and re.search(reason, head):
            self.passed += 1
        else:
            self.wrong.append(
                f"{' '.join(made.path for made in rasters)}: {head[:300]}, and not refused as {reason}"
            )

    def end(self) -> None:
        """End the package's process."""
        self._process.communicate()


def try_group(
    seed: int, number: int, room: str, fronts: list[Front], last: list[tuple[Place, Made]]
) -> None:
    random = np.random.default_rng([seed, number])
    place = place_of(random)
    projection = projection_of(place.epsg)
    count = GROUP if place.rows * place.cols < LARGE else 2
    rasters = [make(random, place, f"{room}/{number}_{at}.tif", projection) for at in range(count)]
    if any(front.name == "grass" for front in fronts):
        for made in rasters:
            if made.cells is not None:
                made.cells.tofile(f"{made.path}.cells")
    for front in fronts:
        mine = [made for made in rasters if front.name != "grass" or not made.reason]
        good = [made for made in mine if not made.reason_in(front.name)]
        if good:
            front.judge(place, good, number % len(good))
        for made in [made for made in mine if made.reason_in(front.name)][
            : 1 if place.reason else GROUP
        ]:
            front.refuses(place, [made], made.reason_in(front.name))
        if (
            good
            and last
            and front.name in ("python", "qgis", "r")
            and not last[0][1].reason_in(front.name)
        ):
            front.refuses(
                place,
                [good[0], last[0][1]],
                REFUSED_SYSTEM if last[0][0].epsg != place.epsg else "",
            )
    kept = "".join("\n".join(front.wrong) for front in fronts)
    for entry in list(os.scandir(room)):
        if entry.name.split(".")[0] not in kept and not (
            rasters[0].cells is not None and entry.path.startswith(rasters[0].path)
        ):
            os.unlink(entry.path)
    last[:] = [(place, rasters[0])] if not rasters[0].reason else []


def run(asked: argparse.Namespace, fronts: list[Front], room: str) -> None:
    """Test groups until there are enough, or time is up."""
    last: list[tuple[Place, Made]] = []
    began, told = time.monotonic(), 0
    for number in range(asked.start, asked.start + -(-asked.count // GROUP)):
        if time.monotonic() > began + asked.seconds:
            break
        try_group(asked.seed, number, room, fronts, last)
        done = (number + 1 - asked.start) * GROUP
        if done // PROGRESS > told:
            told = done // PROGRESS
            counts = ", ".join(
                f"{front.name} {front.passed} of {front.passed + len(front.wrong)}"
                for front in fronts
            )
            print(
                f"fronts: seed {asked.seed}, groups {asked.start} to {number}: {counts}; {time.monotonic() - began:.0f} s",
                flush=True,
            )


def main() -> int:
    options = argparse.ArgumentParser()
    options.add_argument("--count", type=int, default=SHORT)
    options.add_argument("--seconds", type=float, default=float("inf"))
    options.add_argument("--seed", type=int, default=1)
    options.add_argument("--from", type=int, default=0, dest="start", metavar="GROUP")
    options.add_argument("--work", choices=("python", "tiles", "shell", "qgis", "grass"))
    options.add_argument("fronts", nargs="*")
    asked = options.parse_args()
    gdal.UseExceptions()
    if asked.work:
        work(globals()[f"answer_of_{asked.work}"])
        return 0
    named = [name for name in asked.fronts or FRONTS if name in (*FRONTS, "tiles")]
    missing = {
        name: MISSING[{"tiles": "python"}.get(name, name)]()
        if name not in ("grass", "shell")
        else ""
        for name in named
    }
    for name in filter(missing.get, named):
        print(f"skipped  fronts/{name}: {missing[name]}; install: apt-get install {PACKAGES[name]}")
    fronts = [Front(name) for name in named if not missing[name]]
    room = tempfile.mkdtemp(
        prefix="rasters-", dir="/dev/shm" if os.access("/dev/shm", os.W_OK) else None
    )
    run(asked, fronts, room)
    for front in fronts:
        front.end()
        print(
            f"fronts: {front.name}: {front.passed} random rasters of {front.passed + len(front.wrong)}, seed {asked.seed}"
        )
        print(*front.wrong[:20], sep="\n", end="\n" * bool(front.wrong))
    failed = sum(len(front.wrong) for front in fronts)
    if not failed:
        shutil.rmtree(room)
    print(
        f"{sum(front.passed for front in fronts)} passed, {failed} failed, {asked.count * sum(map(bool, missing.values()))} skipped"
    )
    return 1 if failed else 0


if __name__ == "__main__":
    sys.exit(main())

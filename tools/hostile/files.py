#!/usr/bin/env python3
"""Pass hostile files through the helpers and the Python package, and check for tracebacks and wrong
numbers.

    files.py [--count N] [--tiffs N] [--seed N]

AAIGrids are read with rcell.core.esri_grids, grids with rcell.core.text_grids, and TIFFs with
changed or missing bytes with both readers. The output is compared with a plain reading of the text
or, for TIFFs, with GDAL's own arrays. Files must be rejected with the exceptions that end in one
line. TIFFs that GDAL itself reads differently each time are left out, and counted. There are N
files of each kind. Needs numpy and, for TIFFs, GDAL's Python. The last line is 'N passed, M
failed'.
"""
import argparse
import importlib.machinery
import importlib.util
import os
import random
import re
import resource
import shutil
import subprocess
import sys
import tempfile
import traceback
from fractions import Fraction

ROOT = os.path.abspath(f"{__file__}/../../..")
BIN = os.environ.get("RCELL_BIN", f"{ROOT}/bin")
sys.path[:0] = [f"{ROOT}/tools/model", f"{ROOT}/python/src"]
sys.dont_write_bytecode = True
GREATEST = 2**31 - 1
PROGRESS = 5000
MEMORY = 3 << 30  # bytes that a reader may request for a broken file
LEFT_OUT = "left out"
READ = "import sys; from osgeo import gdal; sys.stdout.buffer.write(gdal.Open(sys.argv[1]).ReadRaster())"
NUMBER = re.compile(r"[+-]?([0-9]+\.?[0-9]*|\.[0-9]+)([eE][+-]?[0-9]+)?")
WORDS = [
    "0",
    "00",
    "+0",
    "-0",
    "1",
    "7",
    "007",
    "+7",
    "255",
    "-9999",
    "-09999",
    "-9999.0",
    "2147483647",
    "-2147483647",
    "2147483648",
    "-2147483648",
    "1.0",
    "1.5",
    "1e2",
    "1e-2",
    "-",
    "+",
    "nan",
    "NaN",
    "-nan",
    "inf",
    "*",
    "1e309",
    "-3.4028235e38",
    "-3.4028234663852886e+38",
    "1234567",
    "1234567.5",
    "x",
    "1_0",
    "\u0661",
    "1,5",
    "9" * 30,
    "1e400",
    "-2147481600",
]
NODATA = [
    "0",
    "-9999",
    "-9999.0",
    "255",
    "7",
    "nan",
    "-2147483648",
    "2147483648",
    "1234567.5",
    "1e309",
    "-1e400",
    "1e4000",
    "-3.4028234663852886e+38",
    "x",
    "*",
    "+7",
    "00",
]


def value_of(word):
    """Return the number that a word spells, or None."""
    found = NUMBER.fullmatch(word)
    if not found or len(word) > 64 or abs(int((found[2] or "e0")[1:])) > 400:
        return None
    return Fraction(word)


def is_null(word, nodata):
    """Return whether a cell of an AAIGrid is null: by its value, by its text, or as a 32-bit float
    that is spelled differently."""
    if nodata is None:
        return False
    if word == nodata or (nodata.lstrip("+-").lower() == "nan" == word.lstrip("+-").lower()):
        return True
    cell, null = value_of(word), value_of(nodata)
    if cell is None or null is None:
        return False
    return cell == null or (abs(null) > 10**10 and abs(cell - null) * 10**6 <= abs(null))


def cells_of(text):
    """Return the cells of an rcell grid, read in the plainest way, or None if rcell would reject
    one."""
    lines, fields = text.decode("latin-1").split("\n"), {}
    while lines and ":" in lines[0]:
        key, _, value = lines.pop(0).partition(":")
        fields[key] = value.strip()
    words = re.findall(r"[^ \t\r\n]+", "\n".join(lines))
    null = fields.get("null", "*")
    good = all(
        word == null
        or (re.fullmatch(r"[+-]?[0-9]+", word) and len(word) <= 64 and abs(int(word)) <= GREATEST)
        for word in words
    )
    return (
        [None if word == null else int(word) for word in words]
        if good and len(words) == int(fields["rows"]) * int(fields["cols"])
        else None
    )


def hostile_aaigrid(chance):
    """Return the text of an AAIGrid, its nodata value, and its cells as words."""
    rows, cols = chance.randint(1, 4), chance.randint(1, 5)
    nodata = chance.choice(NODATA) if chance.random() < 0.8 else None
    some = chance.sample(WORDS, 3) + ["1", "7", "0", nodata or "3"]
    words = [
        chance.choice(some)
        if chance.random() < 0.3
        else chance.choice(["1", "2", "300", nodata or "3"])
        for _ in range(rows * cols)
    ]
    header = [f"ncols {cols}", f"nrows {rows}", "xllcorner 0", "yllcorner 0", "cellsize 1"] + (
        [f"NODATA_value {nodata}"] if nodata else []
    )
    text = (
        "\n".join(header)
        + "\n"
        + chance.choice([" ", "\n", "\t", " \r\n"]).join(words)
        + chance.choice(["\n", "", " "])
    )
    if chance.random() < 0.2:
        at = chance.randrange(len(text))
        text = (
            text[:at]
            + chance.choice(["", "\0", "\x1b", "9" * 80, "-", "e", ":", "\n\n"])
            + text[at + chance.randint(0, 3) :]
        )
        words = None
    return text.encode("utf-8"), nodata, words


def fault_of_aaigrid(esri_grids, chance, folder):
    text, nodata, words = hostile_aaigrid(chance)
    with open(f"{folder}/in.asc", "wb") as file:
        file.write(text)
    try:
        written = list(esri_grids.grid_of_esri(f"{folder}/in.asc"))
    except esri_grids.Refused:
        return None
    found = cells_of(b"".join(written))
    if found is None or words is None:  # rcell rejects it, or the header was spoiled
        return None
    wanted = [None if is_null(word, nodata) else value_of(word) for word in words]
    return None if found == wanted else f"{text!r}: {found}, not {wanted}"


def hostile_grid(chance):
    rows, cols = chance.randint(1, 3), chance.randint(1, 4)
    some = chance.sample(WORDS, 2) + ["1", "7", "*"]
    words = [
        chance.choice(some) if chance.random() < 0.2 else chance.choice(["1", "2", "300", "*"])
        for _ in range(rows * cols)
    ]
    header = [
        f"north: {rows}",
        "south: 0",
        f"east: {cols}",
        "west: 0",
        f"rows: {rows}",
        f"cols: {cols}",
    ]
    header += (
        [
            chance.choice(
                [
                    "null: 7",
                    "null: -",
                    "null: a b",
                    "null: " + "n" * 65,
                    "multiplier: 2",
                    "multiplier: 0",
                    "multiplier: 9999999999",
                    "type: int",
                    "type: float",
                    "null: 00",
                ]
            )
        ]
        if chance.random() < 0.4
        else []
    )
    text = "\n".join(header) + "\n" + " ".join(words) + chance.choice(["\n", "", " "])
    return (text[: chance.randint(1, len(text))] if chance.random() < 0.2 else text).encode("utf-8")


def fault_of_grid(text_grids, refused, model, chance, path):
    """Check that the Python package reads grids as rcell does, with the same cells and errors."""
    text = hostile_grid(chance)
    with open(path, "wb") as file:
        file.write(text)
    if not text_grids.is_grid(path):
        return None
    null = text_grids.TextMap.nodata
    try:
        blocks = [block.cells for block in text_grids.open_path("m", path).blocks()]
        cells = [cell for block in blocks for cell in block.ravel().tolist()]
        found = [None if cell == null else cell for cell in cells]
    except refused as fault:
        found = fault.line, fault.text
    try:
        wanted = [cell for row in model.read_map(b"m", text).rows for cell in row]
    except model.Refused as fault:
        wanted = fault.line, fault.text
    return None if found == wanted else f"{text!r}: {found}, not {wanted}"


def hostile_tiff(chance, gdal, numpy, path):
    """Write a TIFF with changed or missing bytes."""
    shape = chance.randint(1, 40), chance.randint(1, 40)
    code, dtype = chance.choice(
        [(1, "u1"), (3, "i2"), (5, "i4"), (6, "f4"), (12, "u8"), (13, "i8")]
    )
    options = chance.choice(
        [[], ["COMPRESS=DEFLATE"], ["COMPRESS=LZW", "TILED=YES", "BLOCKXSIZE=16", "BLOCKYSIZE=16"]]
    )
    if os.path.exists(path):
        os.unlink(path)
    made = gdal.GetDriverByName("GTiff").Create(path, shape[1], shape[0], 1, code, options)
    made.SetGeoTransform([0, 1, 0, shape[0], 0, -1])
    made.GetRasterBand(1).WriteArray(numpy.full(shape, chance.randint(0, 100), dtype))
    made.GetRasterBand(1).SetNoDataValue(7)
    made = None
    with open(path, "rb") as file:
        data = bytearray(file.read())
    for _ in range(chance.randint(1, 6)):
        data[
            chance.randrange(min(len(data), 500) if chance.random() < 0.7 else len(data))
        ] = chance.choice([0, 1, 7, 0x7F, 0x80, 0xFF])
    with open(path, "wb") as file:
        file.write(data[: chance.randint(8, len(data))] if chance.random() < 0.2 else data)


def ways_of_tiff(rcell, gdal_reader):
    """Return the readers of TIFFs, with their exceptions that end in one line."""

    def with_gdal(path):
        return with_rasterio(gdal_reader.open_raster("m", path))

    def with_rasterio(path):
        cells = rcell.run("r.stats -1 input=m", m=path)[0]["m"]
        return [int(cell) if known else None for cell, known in zip(cells, cells.notna())]

    return [(way, (rcell.RcellError, MemoryError)) for way in (with_gdal, with_rasterio)]


def fault_of_tiff(ways, chance, gdal, numpy, path):
    hostile_tiff(chance, gdal, numpy, path)
    answers = []
    for way, expected in ways:
        try:
            answers.append(way(path))
        except expected:
            continue
    if len(answers) < 2 or answers[0] == answers[1]:
        return None
    if is_unsteady(path):
        return LEFT_OUT
    kept = shutil.copy(
        path, f"{tempfile.gettempdir()}/hostile-{os.getpid()}-{chance.randrange(10**6)}.tif"
    )
    return f"{kept}: the readers differ"


def is_unsteady(path):
    """Return whether the cells that GDAL itself reads depend on uninitialized memory: if a block
    ends early, GDAL leaves its rest unchanged."""
    readings = [
        subprocess.run(
            [sys.executable, "-c", READ, path],
            env={**os.environ, "MALLOC_PERTURB_": str(byte)},
            capture_output=True,
            check=False,
        ).stdout
        for byte in (1, 85, 170)
    ]
    return len(set(readings)) > 1


def tried(name, count, seed, fault_of):
    """Return the numbers of good and of bad files of a kind."""
    failed = left_out = 0
    for at in range(count):
        chance = random.Random(f"{seed} {name} {at}")
        try:
            fault = fault_of(chance)
        except Exception:
            fault = traceback.format_exc(limit=-2)
        left_out += fault == LEFT_OUT
        if fault and fault != LEFT_OUT:
            failed += 1
            print(f"{name} {at}: {fault[:600]}", flush=True)
        if (at + 1) % PROGRESS == 0 or at + 1 == count:
            print(
                f"{name}: {at + 1 - failed - left_out} of {at + 1}, {left_out} left out, seed {seed}",
                flush=True,
            )
    return count - failed - left_out, failed


def main():
    words = argparse.ArgumentParser(
        description=__doc__, formatter_class=argparse.RawDescriptionHelpFormatter
    )
    words.add_argument("--count", type=int, default=500)
    words.add_argument("--tiffs", type=int, help="of TIFFs, another number")
    words.add_argument("--seed", type=int, default=1)
    settings = words.parse_args()
    resource.setrlimit(resource.RLIMIT_AS, (MEMORY, MEMORY))
    import model_grids
    from rcell.core import errors, esri_grids, text_grids

    os.environ.setdefault("RCELL", f"{BIN}/rcell")

    with tempfile.TemporaryDirectory(prefix="rcell-hostile-") as folder:
        counts = [
            tried(
                "AAIGrid",
                settings.count,
                settings.seed,
                lambda chance: fault_of_aaigrid(esri_grids, chance, folder),
            ),
            tried(
                "grid",
                settings.count,
                settings.seed,
                lambda chance: fault_of_grid(
                    text_grids, errors.Refused, model_grids, chance, f"{folder}/grid"
                ),
            ),
        ]
        try:
            import numpy
            from osgeo import gdal

            importlib.import_module("rasterio")
        except ImportError as fault:
            print(
                f"skipped  hostile TIFFs: {fault}; install: apt-get install python3-gdal python3-rasterio"
            )
        else:
            import rcell
            from rcell.readers import gdal as gdal_reader

            gdal.UseExceptions()
            ways = ways_of_tiff(rcell, gdal_reader)
            counts.append(
                tried(
                    "TIFF",
                    settings.count if settings.tiffs is None else settings.tiffs,
                    settings.seed,
                    lambda chance: fault_of_tiff(ways, chance, gdal, numpy, f"{folder}/m.tif"),
                )
            )
    print(
        f"{sum(passed for passed, _ in counts)} passed, {sum(failed for _, failed in counts)} failed"
    )
    return 1 if any(failed for _, failed in counts) else 0


if __name__ == "__main__":
    sys.exit(main())

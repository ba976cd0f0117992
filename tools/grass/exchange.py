#!/usr/bin/env python3
"""Compare the program and the documents with GRASS and GDAL, if they are installed (Debian:
grass-core, gdal-bin).

    exchange.py [CHECK..]

Without arguments, all checks are run:
    grids        GRASS reads the output of bin/rcell, and bin/rcell reads the output of GRASS's
                 r.out.ascii; GRASS writes no line for a null text other than `*`, so that line is
                 added to its output
    exports      the commands in README.md and docs/howto.md that export a map from GRASS and carry
                 labels in both directions, in locations in metres, in degrees and without a
                 projection
    areas        square kilometres by row (docs/howto.md) compared with r.stats -a
    differences  each result of GRASS in docs/grass.md
    pairs        each pair in docs/grass.md, with both programs
    random       100 runs of tools/grass/runs.py: random grids and scripts, with both programs
    addon        the tests of grass/r.rcell in the three locations, on a million cells
    tasks        tools/grass/tasks.py: five tasks on 20 million cells, with GRASS, rcell and r.rcell
    gdal         GDAL reads the output of bin/rcell, and its AAIGrid comes back through
                 `rcell-gis convert`; the commands in the documents export a GeoTIFF
    pictures     the pictures in docs/howto.md are those that its commands make

If something is not installed, its checks are skipped with a message. The last line is 'N passed, M
failed'.
"""
import os
import re
import shutil
import subprocess
import sys
import tempfile

ROOT = os.path.abspath(f"{__file__}/../../..")
BIN = os.environ.get("RCELL_BIN", f"{ROOT}/bin")
sys.path.insert(1, f"{ROOT}/tools/documents")

import differences
import documents
import pairs
import runs
import tasks

PROGRAM = f"{BIN}/rcell"
HEADER = "north: {n}\nsouth: {s}\neast: {e}\nwest: {w}\nrows: {r}\ncols: {c}\n"
GRIDS = {
    "land cover": HEADER.format(n=3, s=0, e=4, w=0, r=3, c=4) + "1 1 2 *\n1 2 2 2\n3 3 1 1\n",
    "fractions": HEADER.format(n="10.50", s="-.25", e="4.", w="+0", r=1, c=2) + "7 *\n",
    "greatest and least": HEADER.format(n=2, s=1, e=3, w=0, r=1, c=3)
    + "2147483647 -2147483647 0\n",
    "another null text": HEADER.format(n=2, s=1, e=3, w=0, r=1, c=3) + "null: -9\n-9 9 8\n",
    "multiplier": HEADER.format(n=2, s=1, e=3, w=0, r=1, c=3) + "multiplier: 3\n1 -2 *\n",
}
LOCATIONS = {"metres": "EPSG:32632", "degrees": "EPSG:4326", "no projection": "XY"}
# Edges of the exported map; in degrees, infinite decimals, and across the date line.
REGIONS = [
    ("metres", {}),
    ("no projection", {}),
    ("degrees", {"n": "48.3333333333333", "s": "40", "w": "-10", "e": "10"}),
    ("degrees", {"n": "90", "s": "-90", "w": "-180", "e": "180"}),
    ("degrees", {"n": "10", "s": "-10", "w": "170", "e": "190"}),
]

RANDOM_RUNS = 100
TASK_ROWS, TASK_COLS = 4000, 5000
DEVIATION = 1e-6  # relative, of areas
OWN_MAP = f"{ROOT}/examples/land-cover/landuse.txt"
LABELS = '1\tforest, old\n2\tmeadow: wet\n4\t"town" | grün\n'
WRITES, WRITES_NUMBER = b"r.out.ascii input=g\n", b"r.out.ascii input=g null_value=-9999\n"


def environment():
    """Return the environment of a user after `make install`, in which the program, the helpers and
    r.rcell are on the path."""
    return {**os.environ, "PATH": f"{ROOT}/bin:{ROOT}/helpers:/usr/bin:/bin", "LC_ALL": "C.UTF-8"}


def ran(words, room):
    """Run a program and return its output, or its message if it failed."""
    done = subprocess.run(words, cwd=room, capture_output=True, env=environment())
    return done.stdout if done.returncode == 0 else done.stderr


def put(room, **files):
    for name, content in files.items():
        with open(f"{room}/{name.replace('_', '.')}", "wb") as file:
            file.write(content)


def content(path):
    with open(path, "rb") as file:
        return file.read()


def by_rcell(room, text, script):
    """Return the output of rcell for a grid text."""
    put(room, g_txt=text, script=script)
    return ran([PROGRAM, "script", "g=g.txt"], room)


def made_location(room, kind="no projection"):
    subprocess.run(
        ["grass", "-e", "-c", LOCATIONS[kind], f"{room}/here"], check=True, capture_output=True
    )


def by_grass(room, command):
    """Return the output of commands in a GRASS location."""
    return ran(["grass", f"{room}/here/PERMANENT", "--exec", "sh", "-c", command], room)


def exchange(room, text, null_value):
    """Return the differences between rcell and GRASS: in the tables, or in the grid text after
    GRASS has read and written it."""
    counts = b"r.stats -c input=g\n"
    writes = b"r.out.ascii input=g null_value=" + null_value + b"\n"
    table, written = by_rcell(room, text, counts), by_rcell(room, text, writes)
    put(room, written=written)
    found = by_grass(
        room,
        "r.in.ascii input=written output=g type=CELL --overwrite --quiet && g.region raster=g "
        "&& r.stats -c input=g --quiet",
    )
    back = by_grass(
        room,
        "g.region raster=g && r.out.ascii -i input=g output=- null_value="
        + null_value.decode()
        + " --quiet",
    )
    if null_value != b"*":
        back = back.replace(b"cols:", b"null: " + null_value + b"\ncols:", 1)
    again = by_rcell(room, back, writes)
    return [
        f"{wanted!r}, by GRASS {other!r}"
        for wanted, other in ((table, found), (written, again))
        if wanted != other
    ]


def grids_by_grass():
    """Yield the differences when grids are passed to GRASS and back, one list per grid and null
    text."""
    with tempfile.TemporaryDirectory() as room:
        made_location(room)
        for name, text in GRIDS.items():
            for null_value in (b"*", b"-9999"):
                yield [
                    f"{name}, null {null_value.decode()}: {it}"
                    for it in exchange(room, text.encode(), null_value)
                ]


def differences_by_grass():
    """Yield the results of GRASS that differ from docs/grass.md, one list per row."""
    for row in differences.rows():
        with tempfile.TemporaryDirectory() as room:
            answer = differences.by_grass(row, room)
        yield [
            f"{differences.DOCUMENT}:{row.line}: GRASS answers {answer!r}, and not {row.grass!r}"
        ] * (answer != row.grass)


def blocks_with(name, word):
    """Yield the shell blocks of a document that contain this word, each with its position."""
    with open(f"{ROOT}/{name}", encoding="utf-8") as file:
        for block in documents.blocks_of(file.read()):
            if block.language == "sh" and word in block.text:
                yield f"{name}:{block.line}", block.text


def file_of(name, path):
    """Return the file with this name in a document."""
    with open(f"{ROOT}/{name}", encoding="utf-8") as file:
        return next(block.text for block in documents.blocks_of(file.read()) if block.file == path)


def with_edges(text, edges):
    """Return a grid with different edges, as rcell writes it."""
    for key, value in edges.items():
        text = re.sub(rf"(?m)^{key}(\w+): .*", rf"{key}\1: {float(value):.8f}", text)
    return text


def export(place, commands, kind, edges):
    """Return the errors in the grid landuse.txt that a document's commands export from the map
    landuse, and in the way back."""
    with tempfile.TemporaryDirectory() as room:
        made_location(room, kind)
        wanted = with_edges(content(OWN_MAP).decode(), edges).encode()
        put(room, own_txt=wanted)
        exact = " ".join(f"{key}={value}" for key, value in edges.items())
        by_grass(
            room,
            "r.in.ascii input=own.txt output=landuse type=CELL"
            + f" && r.region map=landuse {exact}" * bool(edges),
        )
        told = by_grass(room, commands)
        if not os.path.exists(f"{room}/landuse.txt"):
            return [f"{place}: in {kind} there is no landuse.txt: {told!r}"]
        wanted, found = by_rcell(room, wanted, WRITES), by_rcell(
            room, content(f"{room}/landuse.txt"), WRITES
        )
        if wanted != found:
            return [f"{place}: in {kind} the map {wanted!r} is exported as {found!r}"]
        return [f"{place}: in {kind} {it}" for it in way_back(room)]


def way_back(room):
    """Return the errors in the map that comes back as described in docs/howto.md."""
    ((_, commands),) = blocks_with("docs/howto.md", "r.region map=result")
    put(room, script=b"r.out.ascii input=landuse\n")
    by_grass(room, commands)
    told = by_grass(
        room,
        "for map in landuse result; do r.info -g $map | sort; g.region raster=$map; r.stats -1g $map --quiet; echo =; done",
    )
    theirs, ours, *_ = told.split(b"=\n") if told.count(b"=\n") == 2 else (told, b"")
    return [f"the map comes back as {ours!r}, and not as {theirs!r}"] * (ours != theirs)


def labels_by_grass():
    """Return the errors when labels are passed to rcell and back with the commands in
    docs/howto.md."""
    ((_, there),) = blocks_with("docs/howto.md", "> labelled")
    ((_, back),) = blocks_with("docs/howto.md", "labels.rcell")
    rules = b"r.reclass input=landuse output=classes\n1 2 = 1 green, all\n3 = 3 a: b | c\nend\n"
    with tempfile.TemporaryDirectory() as room:
        made_location(room)
        put(room, labels=LABELS.encode(), classes_rcell=rules, landuse_txt=content(OWN_MAP))
        by_grass(
            room,
            "r.in.ascii input=landuse.txt output=landuse type=CELL; g.region raster=landuse; "
            "r.category landuse rules=labels separator=tab; g.copy raster=landuse,classes",
        )
        theirs = by_grass(room, "r.stats -cl landuse separator=tab --quiet")
        ours = by_grass(room, there)
        yield [f"labels: GRASS has {theirs!r}, and rcell {ours!r}"] * (ours != theirs)
        by_grass(room, back)
        found = by_grass(room, "r.category classes separator=tab cats=1,3")
        yield [f"labels come back as {found!r}"] * (found != b"1\tgreen, all\n3\ta: b | c\n")


def exports_by_grass():
    """Yield the differences when a map is exported from GRASS as in the documents, one list per
    block and location."""
    for place, commands in blocks_with("README.md", "r.out.ascii"):
        yield export(place, commands, "metres", {})
    ((place, commands),) = blocks_with("docs/howto.md", "r.out.ascii -h")
    for kind, edges in REGIONS:
        yield export(place, commands, kind, edges)
    yield from labels_by_grass()


def areas_by_grass():
    """Yield the differences between square kilometres by row and the output of r.stats -a, in
    degrees."""
    files = {name: file_of("docs/howto.md", name) for name in ("world.txt", "rows", "cells.awk")}
    with tempfile.TemporaryDirectory() as room:
        made_location(room, "degrees")
        put(room, **{name.replace(".", "_"): text.encode() for name, text in files.items()})
        by_grass(room, "r.in.ascii input=world.txt output=world type=CELL && g.region raster=world")
        theirs = dict(
            line.split()
            for line in by_grass(room, "r.stats -an world --quiet").decode().splitlines()
        )
        size = "-v north=90 -v south=-90 -v width=360 -v rows=6 -v cols=6"
        told = ran(
            ["sh", "-c", f"rcell rows world=world.txt | awk {size} -f cells.awk"], room
        ).decode()
    ours = {
        line.split()[0]: float(line.split()[1]) for line in told.splitlines() if line[:1].isdigit()
    }
    for category, area in theirs.items():
        square = float(area) / 1e6
        yield [f"category {category}: {ours.get(category)} km2, by GRASS {square}"] * (
            abs(ours.get(category, 0) - square) > DEVIATION * square
        )


def runs_by_grass():
    """Return the differences on random grids and scripts, one list per run."""
    return runs.compared(PROGRAM, seed=1, first=0, count=RANDOM_RUNS)


def pairs_by_grass():
    return pairs.compared(PROGRAM)


def addon_by_grass():
    """Yield the results of r.rcell's tests, one list per location."""
    for kind in LOCATIONS:
        with tempfile.TemporaryDirectory() as room:
            made_location(room, kind)
            home = {**environment(), "HOME": room}
            ((_, install),) = blocks_with("docs/howto.md", "cp grass/r.rcell")
            subprocess.run(["sh", "-ec", install], cwd=ROOT, env=home, check=True)
            tests = f"{ROOT}/grass/r.rcell/testsuite/test_r_rcell.py"
            words = ["grass", f"{room}/here/PERMANENT", "--exec", "/usr/bin/python3", tests]
            done = subprocess.run(
                words, cwd=room, env=home, capture_output=True, text=True, errors="replace"
            )
            counted = re.search(r"^Ran (\d+) tests?", done.stdout + done.stderr, re.MULTILINE)
            is_right = counted and re.search(r"^OK$", done.stdout + done.stderr, re.MULTILINE)
            print(
                f"r.rcell in a location of {kind}: {counted[0] if counted else 'no tests'}",
                flush=True,
            )
            yield [f"r.rcell in {kind}:\n{done.stdout}{done.stderr}"] * (not is_right)


def tasks_by_grass():
    """Yield the results of the five tasks, one list each."""
    lines = tasks.compared(PROGRAM, TASK_ROWS, TASK_COLS)
    print("\n".join(lines[:-1]), flush=True)
    passed, failed = (int(word) for word in re.findall(r"\d+", lines[-1]))
    return [[] for _ in range(passed)] + [["a task differs"] for _ in range(failed)]


def to_gdal(room, text, script, path, form):
    """Translate the output of rcell for a grid text with GDAL."""
    put(room, written=by_rcell(room, text, script))
    ran(["gdal_translate", "-q", "-of", form, "-ot", "Int32", "written", path], room)


def from_gdal(room):
    """Return the output of rcell for an AAIGrid that GDAL wrote."""
    return by_rcell(
        room, ran([f"{ROOT}/helpers/rcell-gis", "convert", "back.asc", "-"], room), WRITES
    )


def grids_by_gdal():
    """Yield the differences when grids are passed to GDAL and back, one list per grid: with a
    number for null, and with `*`, which GDAL reads as 0."""
    for name, text in GRIDS.items():
        with tempfile.TemporaryDirectory() as room:
            written = by_rcell(room, text.encode(), WRITES)
            to_gdal(room, text.encode(), WRITES_NUMBER, "back.asc", "AAIGrid")
            again = from_gdal(room)
            to_gdal(room, text.encode(), WRITES, "back.asc", "AAIGrid")
            zeros = from_gdal(room)
        yield [f"{name}: {written!r}, by GDAL {again!r}"] * (again != written)
        yield [f"{name}: {written!r}, by GDAL with zeros for nulls {zeros!r}"] * (
            zeros != written.replace(b"*", b"0")
        )


def exports_by_gdal():
    """Yield the differences when a GeoTIFF that GDAL made from our text is exported as in the
    documents, one list per block."""
    blocks = [
        block
        for name in ("README.md", "docs/howto.md")
        for word in ("landuse.asc", "rcell-gis convert landuse.tif")
        for block in blocks_with(name, word)
    ]
    for place, commands in dict(blocks).items():
        with tempfile.TemporaryDirectory() as room:
            to_gdal(room, content(OWN_MAP), WRITES_NUMBER, "landuse.tif", "GTiff")
            told = ran(["sh", "-c", commands], room)
            wanted = by_rcell(room, content(OWN_MAP), WRITES)
            found = (
                by_rcell(room, content(f"{room}/landuse.txt"), WRITES)
                if os.path.exists(f"{room}/landuse.txt")
                else told
            )
        yield [f"{place}: the map {wanted!r} is exported as {found!r}"] * (found != wanted)


def pictures_by_gdal():
    """Yield the pictures in docs/howto.md that differ from those that its commands make, one list
    per picture."""
    ((place, commands),) = blocks_with("docs/howto.md", "gdaldem")
    with tempfile.TemporaryDirectory() as room:
        for name in ("landcover.colours", "show"):
            with open(f"{room}/{name}", "w", encoding="ascii") as file:
                file.write(file_of("docs/howto.md", name))
        ran(
            [
                f"{ROOT}/helpers/rcell-gis",
                "convert",
                f"{ROOT}/examples/study/landcover.asc",
                "landcover.txt",
            ],
            room,
        )
        told = ran(["sh", "-ec", commands], room)
        for name in ("landcover.png",):
            sums = [
                re.findall(rb"Checksum=\d+|Size is .*", ran(["gdalinfo", "-checksum", path], room))
                for path in (f"{ROOT}/docs/{name}", name)
            ]
            yield [f"{place}: {name} is another picture ({told!r})"] * (
                sums[0] != sums[1] or not sums[0]
            )


CHECKS = {
    "grids": ("grass", grids_by_grass),
    "exports": ("grass", exports_by_grass),
    "areas": ("grass", areas_by_grass),
    "differences": ("grass", differences_by_grass),
    "pairs": ("grass", pairs_by_grass),
    "random": ("grass", runs_by_grass),
    "addon": ("grass", addon_by_grass),
    "tasks": ("grass", tasks_by_grass),
    "gdal": ("gdal_translate", lambda: [*grids_by_gdal(), *exports_by_gdal()]),
    "pictures": ("gdaldem", pictures_by_gdal),
}


def main():
    passed = failed = 0
    for name in sys.argv[1:] or CHECKS:
        program, check = CHECKS[name]
        if not shutil.which(program):
            print(f"{name}: {program} is not installed, skipped")
            continue
        good = 0
        for found in check():
            good, failed = good + (not found), failed + bool(found)
            print("".join(f"{it}\n" for it in found), end="", flush=True)
        passed += good
        print(f"{name}: {good} as they should be", flush=True)
    print(f"{passed} passed, {failed} failed")
    sys.exit(failed > 0)


if __name__ == "__main__":
    main()

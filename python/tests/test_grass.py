"""Compare calls with modules of GRASS, such as r.stats, r.univar, r.neighbors and r.li."""

from __future__ import annotations

import os
import re
import shutil
import subprocess
from typing import Any, Callable

import numpy as np
import pytest

import rcell

pytest.importorskip("pandas")
pytest.importorskip("rasterio")
Session = Callable[..., str]
SIZE = (40, 50)
METRES, UTM = (30.0, 0, 500_000.0, 0, -30.0, 5_500_000.0), "EPSG:32632"
PRINTED = "r.out.ascii input={} null_value=-1 --quiet | tail -n +7\n"
# Indices of r.li and their names in rcell. r.li.edgedensity also counts sides to null and along the
# map's edge.
INDICES = {
    "shannon": "shannon_diversity",
    "simpson": "simpson_diversity",
    "pielou": "shannon_evenness",
    "richness": "classes",
    "patchnum": "patches",
    "patchdensity": "patches_km2",
    "mps": "mean_patch_ha",
    "edgedensity": "edge",
}


@pytest.fixture(scope="module")
def grass(tmp_path_factory: pytest.TempPathFactory) -> Any:
    """Return a function that runs shell lines in a location over imported maps.

    The first map sets the region.
    """
    if shutil.which("grass") is None:
        pytest.skip("GRASS is not installed")
    room = tmp_path_factory.mktemp("grass")

    def session(crs: str, lines: str, **maps: rcell.Raster) -> str:
        paths = {name: room / f"{name}-{crs[5:]}.txt" for name in maps}
        for name, path in paths.items():
            rcell.grid("", name, {name: maps[name]}).write(path)
        imports = "\n".join(
            f"r.in.ascii input={path} output={name} type=CELL" for name, path in paths.items()
        )
        script = room / "script"
        script.write_text(
            f"set -e\nexport GRASS_OVERWRITE=1\n{imports}\ng.region "
            f"raster={next(iter(maps))}\n{lines}\n"
        )
        where = room / f"location-{crs[5:]}"
        if not where.exists():
            subprocess.run(["grass", "-e", "-c", crs, str(where)], check=True, capture_output=True)
        # r.li writes files to the user's home folder.
        ran = subprocess.run(
            ["grass", str(where / "PERMANENT"), "--exec", "sh", str(script)],
            capture_output=True,
            text=True,
            env={**os.environ, "HOME": str(room)},
        )
        assert ran.returncode == 0, ran.stderr
        return ran.stdout

    return session


def made(seed: int, transform: tuple[float, ...], crs: str, classes: int = 5) -> rcell.Raster:
    random = np.random.default_rng(seed)
    cells = np.repeat(
        np.repeat(random.integers(0, classes + 1, (SIZE[0] // 2, SIZE[1] // 2)), 2, 0), 2, 1
    )
    cells[random.random(SIZE) < 0.2] = random.integers(0, classes + 1)
    return rcell.Raster(cells, transform, crs, nodata=0)


def lines_of(text: str) -> list[list[float]]:
    return [[float(word) for word in line.split("|")] for line in text.strip().splitlines()]


def test_areas_and_cells(grass: Session) -> None:
    for crs, transform in (
        ("EPSG:32632", (30.0, 0, 500_000.0, 0, -30.0, 5_500_000.0)),
        ("EPSG:4326", (0.5, 0, 3.0, 0, -0.5, 62.0)),
    ):
        land, zone = made(1, transform, crs), made(2, transform, crs, 3)
        text = grass(
            crs, "r.stats -n -c -a input=zone,land separator=pipe --quiet", land=land, zone=zone
        )
        frame = rcell.composition(land, zone, area="m2")
        expected = lines_of(text)
        assert frame[["zone", "class", "cells"]].to_numpy(int).tolist() == [
            [int(row[0]), int(row[1]), int(row[3])] for row in expected
        ]
        assert frame["area_m2"].tolist() == pytest.approx([row[2] for row in expected], rel=1e-8)


def test_statistics_by_zone(grass: Session) -> None:
    transform, crs = (30.0, 0, 500_000.0, 0, -30.0, 5_500_000.0), "EPSG:32632"
    values, zone = made(3, transform, crs, 200), made(4, transform, crs, 4)
    text = grass(
        crs, "r.univar -e -t map=values zones=zone percentile=90 --quiet", values=values, zone=zone
    )
    head, *rows = [line.split("|") for line in text.strip().splitlines()]
    at = {name: place for place, name in enumerate(head)}
    frame = rcell.zonal(values, zone)
    for row, mine in zip(rows, frame.itertuples()):
        assert (mine.zone, mine.cells, mine.minimum, mine.maximum, mine.sum) == tuple(
            float(row[at[name]]) for name in ("zone", "non_null_cells", "min", "max", "sum")
        )
        assert (mine.mean, mine.variance) == pytest.approx(
            (float(row[at["mean"]]), float(row[at["variance"]])), rel=1e-9
        )
    assert len(rows) == len(frame)
    text = grass(
        crs,
        "r.stats.zonal base=zone cover=values method=average output=means --quiet\nr.univar -t "
        "map=means zones=zone --quiet",
        values=values,
        zone=zone,
    )
    means = [float(line.split("|")[at["mean"]]) for line in text.strip().splitlines()[1:]]
    assert means == pytest.approx(
        frame["mean"].tolist(), rel=1e-6
    )  # GRASS writes 32-bit floats here


def test_the_majority_of_nine(grass: Session) -> None:
    """Cells with ties are left out, because GRASS chooses another class in a tie."""
    transform, crs = (30.0, 0, 500_000.0, 0, -30.0, 5_500_000.0), "EPSG:32632"
    land = made(5, transform, crs)
    text = grass(
        crs,
        "r.neighbors input=land selection=land output=mode method=mode size=3 "
        "--quiet\nr.out.ascii input=mode null_value=0 --quiet",
        land=land,
    )
    theirs = np.array(
        [[int(word) for word in line.split()] for line in text.strip().splitlines()[6:]]
    )
    cells = np.asarray(land.array)
    wide = np.pad(cells, 1)
    counts = [
        sum(
            (np.roll(wide, (row, col), (0, 1)) == one)[1:-1, 1:-1].astype(int)
            for row in (-1, 0, 1)
            for col in (-1, 0, 1)
        )
        for one in range(1, 6)
    ]
    ordered = np.sort(np.array(counts), axis=0)
    is_clear = (cells > 0) & (ordered[-1] > ordered[-2])
    assert is_clear.mean() > 0.5
    assert (rcell.majority(land).array.filled(0)[is_clear] == theirs[is_clear]).all()


def test_buffers(grass: Session) -> None:
    """r.buffer writes 1 for the source cells and 2, 3, .. for the distances."""
    land = made(5, (30.0, 0, 500_000.0, 0, -30.0, 5_500_000.0), "EPSG:32632", 12)
    text = grass(
        "EPSG:32632",
        "r.mapcalc 'source = if(land == 3, 1, null())' --quiet\n"
        "r.buffer input=source output=rings distances=45,90,200 --quiet\n"
        "r.out.ascii input=rings null_value=0 --quiet",
        land=land,
    )
    expected = [[int(word) - 1 for word in line.split()] for line in text.splitlines()[6:]]
    found = rcell.within(land, [3], [45, 90, 200])
    assert np.ma.filled(found.array, -1).tolist() == expected


def cells_of(text: str) -> Any:
    return np.array([[int(word) for word in line.split()] for line in text.splitlines()])


def test_accuracy_is_that_of_r_kappa(grass: Session) -> None:
    land, later = made(6, METRES, UTM), made(7, METRES, UTM)
    line = "r.kappa classification=land reference=later -w --quiet"
    text = grass(UTM, line, land=land, later=later)
    found = rcell.accuracy(land, later)
    number = r"\s+([-\d.]+)"
    kappa = re.search(rf"Kappa\s+Kappa Variance{number}", text)
    correct = re.search(rf"% Observed Correct\s+(\d+)\s+(\d+){number}", text)
    assert kappa and float(kappa[1]) == pytest.approx(found.kappa, abs=1e-6)
    right = int(np.trace(found.matrix.to_numpy()))
    assert correct and (int(correct[1]), int(correct[2])) == (right, found.cells)
    rows = re.findall(rf"^ *(\d+){number}{number}{number}\s*$", text, re.MULTILINE)
    errors = {int(row[0]): (float(row[1]), float(row[2])) for row in rows}
    assert len(errors) == len(found.classes)
    for row in found.classes.itertuples():
        wrong = 100 * (1 - row.users), 100 * (1 - row.producers)
        assert errors[getattr(row, "_1")] == pytest.approx(wrong, abs=1e-4)


def test_metrics_are_those_of_r_li(grass: Session) -> None:
    land = made(8, METRES, UTM)
    text = grass(
        UTM,
        f"""mkdir -p $HOME/.grass8/r.li/output
        printf 'SAMPLINGFRAME 0|0|1|1\\nSAMPLEAREA 0.0|0.0|1|1\\n' > $HOME/.grass8/r.li/whole
        for index in {" ".join(INDICES)}; do
            r.li.$index input=land config=whole output=$index --quiet
            echo "$index|$(cat $HOME/.grass8/r.li/output/$index)"
        done""",
        land=land,
    )
    theirs = {line.split("|")[0]: float(line.split("|")[-1]) for line in text.splitlines()}
    [own] = rcell.metrics(land, "landscape").to_dict("records")
    perimeters = rcell.metrics(land, "patch")["perimeter_m"].sum()
    own["edge"] = (perimeters - own["edge_m"]) / own["area_ha"]
    wanted = {index: own[name] for index, name in INDICES.items()}
    assert theirs == pytest.approx(wanted, rel=1e-5)


def test_maps_of_classes(grass: Session) -> None:
    """r.mode and r.resamp.stats choose the smallest class in a tie; r.grow excludes its radius."""
    land, zone = made(9, METRES, UTM), made(10, METRES, UTM, 9)
    lines = "r.mode base=zone cover=land output=mode --quiet\nr.stats -n input=zone,mode --quiet"
    modes = cells_of(grass(UTM, lines, land=land, zone=zone))
    assert (rcell.dominant(land, zone)[["zone", "majority"]].to_numpy(int) == modes).all()
    lines = "g.region res=150\nr.resamp.stats input=land output=mode method=mode --quiet\n"
    modes = cells_of(grass(UTM, lines + PRINTED.format("mode"), land=land))
    assert (rcell.aggregate(land, 5).majority.array.filled(-1) == modes).all()
    lines = "r.mapcalc 'source = if(land == 3, 1, null())' --quiet\n"
    lines += "r.grow input=source output=grown radius=3 old=1 new=2 --quiet\n"
    grown = cells_of(grass(UTM, lines + PRINTED.format("grown"), land=land))
    found = rcell.within(land, [3], [89.99]).array.filled(-2) + 1
    assert (found == grown).all()


def test_small_areas(grass: Session) -> None:
    """r.reclass.area merges in another order, and fills small null areas with classes."""
    land = made(11, METRES, UTM, 9)
    lines = "r.reclass.area input=land output=cut value=0.4 mode=lesser method=rmarea --quiet\n"
    theirs = cells_of(grass(UTM, lines + PRINTED.format("cut"), land=land))
    found = rcell.sieve(land, min_ha=0.4)
    own, is_null = found.array.filled(-1), np.asarray(land.array.mask)
    assert (theirs[is_null] > 0).any() and (own[is_null] == -1).all()
    assert 0.6 < (own == theirs)[~is_null].mean() < 1

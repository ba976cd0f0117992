# SPDX-License-Identifier: Apache-2.0 OR GPL-2.0-or-later
"""Compare all processing modes of calls with one run, on random maps and tiles.

    /usr/bin/python3 tests/any_way.py [--count N] [--seed N] [WAY ...]

Each case is a call over two random maps in metres or degrees, some with polygons, some in files.
The modes alternate: `threads`, `processes` (Dask workers on this machine), `cluster` (workers in
two network namespaces), `arrays` (Dask arrays, computed immediately) and `later` (compute=False).
Tables, maps and errors must be equal. Repeat a case with --seed and --from. The last line is 'N
passed, M failed, K skipped'.
"""

from __future__ import annotations

import argparse
import logging
import pathlib
import sys
import tempfile
import traceback
import warnings
from collections import Counter
from collections.abc import Callable
from contextlib import ExitStack
from typing import Any

import numpy as np

sys.path.insert(0, str(pathlib.Path(__file__).resolve().parent.parent))

import rcell  # noqa: E402
from rcell.core import tiling  # noqa: E402
from rcell.core.protocol import NULL  # noqa: E402
from tests.namespaces import Namespaces, NotPossible  # noqa: E402
from tests.test_any_size import (  # noqa: E402
    ANSWERS,
    DEGREES,
    METRES,
    NO_CELL,
    _polygons,
    check_equal,
)
from tests.test_xarray import MAPS, TABLES  # noqa: E402

WAYS = ("threads", "processes", "cluster", "arrays", "later")
MOST_SIDE = 24
VALUES = [1, 1, 1, 1, 2, 3, 300, NO_CELL]
# These cases access the arrays of Rasters directly.
OF_RASTERS = ("zonal of decimals", "sample")


class Case:
    """Two random maps, polygons, and a tile size.

    Parameters
    ----------
    seed, number : int
    folder : path
        The folder for maps in files.
    """

    def __init__(self, seed: int, number: int, folder: pathlib.Path) -> None:
        self.random = random = np.random.default_rng([seed, number])
        rows, cols = (int(side) for side in random.integers(2, MOST_SIDE, 2))
        self.shape = rows, cols
        self.place = METRES if random.random() < 0.5 else DEGREES
        self.size = int(random.integers(2, rows + 1)), int(random.integers(2, cols + 1))
        self.zones = _polygons(rows, cols, self.place)
        self.rasters = [self._raster() for _ in range(2)]
        self.maps: list[Any] = list(self.rasters)
        if random.random() < 0.3:
            paths = (folder / f"{letter}.tif" for letter in "ab")
            self.maps = [raster.write(path) for raster, path in zip(self.rasters, paths)]

    def _raster(self) -> Any:
        cells = self.random.choice(VALUES, self.shape).astype(np.int16)
        if self.random.random() < 0.5:  # larger patches
            high, wide = self.random.integers(1, 5, 2)
            cells = np.repeat(np.repeat(cells, high, 0), wide, 1)[: self.shape[0], : self.shape[1]]
        return rcell.Raster(cells, nodata=NO_CELL, labels={1: "wood", 300: "lake"}, **self.place)

    def lazy(self) -> list[Any]:
        """Return the maps as Dask DataArrays, with the tiles as chunks."""
        chunks = dict(zip("yx", self.size))
        return [raster.to_xarray().chunk(chunks) for raster in self.rasters]


def outcome_of(call: Callable[[], Any]) -> Any:
    """Return the result of a call, or the type and first line of its error."""
    try:
        with warnings.catch_warnings():
            warnings.simplefilter("ignore")
            return call()
    except rcell.RcellError as error:
        return type(error), str(error).split("\n")[0][:40]


def compare(found: Any, expected: Any) -> None:
    """Raise AssertionError unless two results are equal."""
    if isinstance(expected, tuple) and isinstance(expected[0], type):
        assert found == expected, (found, expected)
    elif hasattr(found, "attrs") and hasattr(found, "dims"):
        assert found.values.tolist() == expected.array.filled(NULL).tolist()
    else:
        assert not isinstance(found, tuple) or not isinstance(found[0], type), found
        check_equal(found, expected)


def run_case(case: Case, way: str, client: Any) -> str:
    """Run a case in a mode and in one run, and return the name of its call."""
    if way == "later":
        return run_later(case)
    name = str(case.random.choice([*ANSWERS]))
    answer = ANSWERS[name]
    one = case.rasters if name in OF_RASTERS or way == "arrays" else case.maps
    maps = case.lazy() if way == "arrays" and name not in OF_RASTERS else one
    with tiling.working(workers=1):
        expected = outcome_of(lambda: answer(one[0], one[1], case.zones))
    with tiling.working(workers=client if client is not None else 2, size=case.size):
        found = outcome_of(lambda: answer(maps[0], maps[1], case.zones))
    compare(found, expected)
    return name


def run_later(case: Case) -> str:
    """Run a call with compute=False, and compute its result."""
    name = str(case.random.choice([*TABLES, *MAPS]))
    call, count = {**TABLES, **MAPS}[name], 2 if name in TABLES else 1
    scheduler = str(case.random.choice(["threads", "sync"]))

    def later() -> Any:
        return call(*case.lazy()[:count], compute=False).compute(scheduler=scheduler)

    compare(outcome_of(later), outcome_of(lambda: call(*case.rasters[:count], workers=1)))
    return name


def clients_of(ways: list[str], opened: ExitStack, folder: pathlib.Path) -> dict[str, Any]:
    """Return the clients for modes; modes that are impossible here are removed from `ways`."""
    distributed: Any = __import__("distributed")
    logging.getLogger("distributed").setLevel(logging.ERROR)
    clients = {}
    if "processes" in ways:
        words = {"n_workers": 2, "threads_per_worker": 1, "dashboard_address": None}
        local = distributed.LocalCluster(**words, local_directory=str(folder))
        clients["processes"] = distributed.Client(opened.enter_context(local), set_as_default=False)
    if "cluster" in ways:
        try:
            made = Namespaces(opened, folder)
            clients["cluster"] = distributed.Client(made.address, set_as_default=False)
        except NotPossible as error:
            print(f"skipped  cluster: {error}")
            ways.remove("cluster")
    for client in clients.values():
        opened.enter_context(client)
        client.wait_for_workers(2, 120)
    return clients


def main() -> int:
    parser = argparse.ArgumentParser(description=__doc__)
    parser.add_argument("--count", type=int, default=2000)
    parser.add_argument("--seed", type=int, default=1)
    parser.add_argument("--from", dest="first", type=int, default=0)
    parser.add_argument("ways", nargs="*", default=list(WAYS))
    given = parser.parse_args()
    ways, failed, passed = list(given.ways), 0, Counter[str]()
    with ExitStack() as opened:
        folder = pathlib.Path(opened.enter_context(tempfile.TemporaryDirectory()))
        clients = clients_of(ways, opened, folder)
        skipped = len(given.ways) - len(ways)
        for number in range(given.first, given.first + given.count):
            way = ways[number % len(ways)]
            try:
                run_case(Case(given.seed, number, folder), way, clients.get(way))
                passed[way] += 1
            except Exception:
                failed += 1
                print(f"failed  {way}: --seed {given.seed} --from {number} --count 1")
                traceback.print_exc()
            if (number + 1) % 200 == 0:
                print(f"{number + 1:,}: {dict(passed)}", flush=True)
    print(", ".join(f"{way} {count:,}" for way, count in passed.items()))
    print(f"{sum(passed.values())} passed, {failed} failed, {skipped} skipped")
    return 1 if failed else 0


if __name__ == "__main__":
    sys.exit(main())

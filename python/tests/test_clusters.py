# SPDX-License-Identifier: Apache-2.0 OR GPL-2.0-or-later
"""Test that Dask clusters have the same results, with remote and lost workers."""

from __future__ import annotations

import os
import pathlib
import signal
from collections.abc import Callable, Iterator
from concurrent.futures import CancelledError, Future
from contextlib import ExitStack
from typing import Any

import numpy as np
import pytest

import rcell
from rcell.core import clusters, pieces, tiling
from rcell.core.host import Host, serving
from tests.namespaces import Namespaces, NotPossible
from tests.test_any_size import ANSWERS, METRES, NO_CELL, _polygons, check_equal

dask: Any = pytest.importorskip("dask")
distributed: Any = pytest.importorskip("distributed")
xarray: Any = pytest.importorskip("xarray")

Write = Callable[..., str]

CELLS = np.random.default_rng(3).choice([1, 1, 1, 2, 3, NO_CELL], (60, 80)).astype(np.int16)
SIZE = (17, 23)


@pytest.fixture
def namespaces(tmp_path: pathlib.Path) -> Iterator[tuple[Any, Namespaces]]:
    """Return a client for a cluster in two namespaces, which is not the current client."""
    with ExitStack() as opened:
        try:
            made = Namespaces(opened, tmp_path)
        except NotPossible as error:
            pytest.skip(str(error))
        with distributed.Client(made.address, set_as_default=False) as client:
            client.wait_for_workers(2, 120)
            yield client, made


def maps_of(random: Any) -> tuple[Any, Any]:
    """Return two labelled maps in metres."""
    a, b = (
        rcell.Raster(
            random.choice([1, 1, 1, 2, 3, 300, NO_CELL], (40, 50)).astype(np.int16),
            nodata=NO_CELL,
            labels={1: "wood", 300: "lake"},
            **METRES,
        )
        for _ in range(2)
    )
    return a, b


@pytest.mark.filterwarnings("ignore::UserWarning")
def test_workers_in_other_namespaces(
    namespaces: tuple[Any, Namespaces], raster: Write, monkeypatch: pytest.MonkeyPatch
) -> None:
    client, made = namespaces
    a, b = maps_of(np.random.default_rng(5))
    zones = _polygons(40, 50, METRES)
    for name in (
        "composition",
        "by polygons",
        "change",
        "patches by corners",
        "summary of patches",
    ):
        call = ANSWERS[name]
        with tiling.working(workers=client, size=(13, 18)):
            found = call(a, b, zones)
        check_equal(found, call(a, b, zones))
    # Workers open files from any current folder.
    path = raster(np.where(CELLS == NO_CELL, 0, CELLS).astype(np.uint8), nodata=0)
    monkeypatch.chdir(os.path.dirname(path))
    expected = rcell.majority(path)
    with tiling.working(workers=client, size=SIZE):
        check_equal(rcell.majority("map.tif"), expected)
    used = set(client.has_what())
    assert {place.split(":")[1] for place in used} == {f"//{place}" for place in made.places}


def test_a_lost_worker_is_replaced(namespaces: tuple[Any, Namespaces]) -> None:
    client, made = namespaces
    left = [made.workers[1]]

    def kill(share: float) -> None:
        if share > 0.2 and left:
            os.kill(left.pop(), signal.SIGKILL)

    with serving(Host(progress=kill)), tiling.working(workers=client, size=(5, 9)):
        found = rcell.patches(rcell.Raster(CELLS, nodata=NO_CELL))
    assert not left and len(client.scheduler_info()["workers"]) == 1
    check_equal(found, rcell.patches(rcell.Raster(CELLS, nodata=NO_CELL)))


@pytest.fixture(scope="module")
def current(tmp_path_factory: pytest.TempPathFactory) -> Iterator[Any]:
    """Return the current client, whose workers are threads of this process."""
    words: dict[str, Any] = {"n_workers": 2, "threads_per_worker": 1, "processes": False}
    words["dashboard_address"] = None
    words["local_directory"] = str(tmp_path_factory.mktemp("workers"))
    with distributed.LocalCluster(**words) as cluster, distributed.Client(cluster) as client:
        yield client


def test_the_current_client_is_used(current: Any, monkeypatch: pytest.MonkeyPatch) -> None:
    done: list[Any] = []
    submit = clusters.Cluster.submit
    monkeypatch.setattr(clusters.Cluster, "submit", lambda *a: done.append(1) or submit(*a))  # type: ignore[func-returns-value]
    expected = rcell.composition(CELLS)
    for workers, count in ((None, 16), (current, 32), (2, 32)):
        with tiling.working(workers=workers, size=SIZE):
            check_equal(rcell.composition(CELLS), expected)
        assert len(done) == count
    with dask.config.set(scheduler="threads"), tiling.working(size=SIZE):
        check_equal(rcell.composition(CELLS), expected)
    assert len(done) == 32


def test_arrays_of_dask_stay_on_the_cluster(current: Any) -> None:
    lazy = xarray.DataArray(CELLS, dims=("y", "x")).chunk({"y": 20, "x": 30})
    whole = xarray.DataArray(CELLS, dims=("y", "x"))
    calls: tuple[Any, ...] = (
        rcell.composition,
        rcell.majority,
        rcell.patches,
        lambda a: rcell.zonal(a / 8, a, scale=8),
    )
    for call in calls:
        with tiling.working(size=SIZE):
            found = call(lazy)
        with tiling.working(workers=1):
            check_equal(found, call(whole))


def test_finished_tiles_of_a_cluster_are_kept(current: Any, tmp_path: pathlib.Path) -> None:
    for _ in range(2):
        with tiling.working(size=SIZE, resume=tmp_path / "shelf"):
            found = rcell.composition(CELLS)
    check_equal(found, rcell.composition(CELLS, workers=1))
    assert len(list((tmp_path / "shelf").iterdir())) == 16


def test_errors_and_warnings_of_workers(
    current: Any, raster: Write, tmp_path: pathlib.Path
) -> None:
    bad = np.where(CELLS == 3, 1.5, CELLS)
    row, col = np.argwhere(CELLS == 3)[0] + 1
    path = raster(np.full((40, 40), 255, np.uint8))
    with tiling.working(size=(13, 18)):
        with pytest.raises(rcell.BadMap, match=f"the cell at row {row}, column {col} is 1.5"):
            rcell.composition(bad)
        with pytest.warns(UserWarning, match="156 of the 156 cells along its border are 255"):
            rcell.patches(path)
        with pytest.raises(rcell.Refused, match="unknown map"):
            rcell.table("r.stats -c input=b", a=CELLS)


def test_a_file_that_was_replaced_is_opened_again(current: Any, raster: Write) -> None:
    for value in (1, 2):
        path = raster(np.full((20 * value, 30), value, np.uint8))
        with tiling.working(size=(9, 9)):
            assert rcell.composition(path).iloc[0, :2].tolist() == [value, 600 * value]


def test_a_plan_names_the_cluster(current: Any, monkeypatch: pytest.MonkeyPatch) -> None:
    monkeypatch.setattr(tiling, "SMALL_CELLS", 100)
    with pytest.raises(tiling.DryRun, match="2 tiles at a time on 2 workers of inproc://"):
        with tiling.working(is_dry=True):
            rcell.composition(CELLS)


def test_a_task_on_a_worker_uses_its_own_threads(current: Any) -> None:
    def nested() -> Any:
        with tiling.working(size=SIZE):
            return tiling.cluster(), rcell.composition(CELLS).cells.tolist()

    found = current.submit(nested).result(60)
    assert found == (None, rcell.composition(CELLS, workers=1).cells.tolist())


def test_files_that_differ_on_a_worker(raster: Write) -> None:
    path = raster(np.ones((3, 3), np.uint8))
    states = pieces.states_of([path, "/vsimem/none"])
    pieces.check_files_are(states)
    os.utime(path, (1, 1))
    with pytest.raises(
        rcell.ReadFailed, match="differs from the file on the caller's machine: .* modified 1970"
    ):
        pieces.check_files_are(states)
    os.unlink(path)
    with pytest.raises(rcell.ReadFailed, match="cannot open: No such file"):
        pieces.check_files_are(states)


def test_what_a_cluster_does_is_said() -> None:
    class KilledWorker(Exception):
        """A substitute for distributed's exception."""

    told = (
        (KilledWorker("tile"), rcell.RcellError, "workers of the cluster died one after another"),
        (ModuleNotFoundError("no rcell"), rcell.MissingProgram, "cannot import the package rcell"),
        (CancelledError(), rcell.RcellError, "the cluster cancelled the work"),
        (rcell.BadMap("a", "b"), rcell.BadMap, "a: b"),
    )
    for error, kind, words in told:
        future: Future[Any] = Future()
        future.set_exception(error)
        with pytest.raises(kind, match=words):
            clusters.result_of(future)
    with pytest.raises(
        rcell.WrongProgram, match="rcell .* is installed, but the calling machine has rcell 0.1"
    ):
        clusters.run_on_worker(None, {}, "0.1")  # type: ignore[arg-type]

"""Test devices, links, modes, old masks, closed streams, signals, forks and full disks."""

from __future__ import annotations

import os
import pathlib
import shlex
import signal
import stat
import subprocess
import sys
import threading
import time
from typing import Any, Callable

import numpy as np
import pytest

import rcell
from rcell.shell import script_of
from rcell.core import programs
from rcell.core.programs import find_program
from rcell.core.writing import write_beside

from .conftest import LAND, TRANSFORM
from .rows import rows_of
from .test_edge import cells, environment

rasterio = pytest.importorskip("rasterio")
Write = Callable[..., str]
SECONDS = 120
GRID = "north: 2\nsouth: 0\neast: 3\nwest: 0\nrows: 2\ncols: 3\n7 7 7\n8 8 8\n"
CSV = "class,cells,percent\n7,3,50\n8,3,50\n"
TABLE = f"{shlex.quote(sys.executable)} -m rcell composition in.txt --area none"
TIF = f"{shlex.quote(sys.executable)} -m rcell run <(echo) m=in.txt --out m="


@pytest.fixture
def room(tmp_path: pathlib.Path) -> pathlib.Path:
    """Return a folder with a grid."""
    (tmp_path / "in.txt").write_text(GRID)
    return tmp_path


def shell(room: pathlib.Path, command: str, **words: str) -> subprocess.CompletedProcess[str]:
    return subprocess.run(
        ["bash", "-c", command],
        cwd=room,
        capture_output=True,
        text=True,
        env=environment(**words),
        timeout=SECONDS,
        check=False,
    )


def hidden(room: pathlib.Path) -> list[str]:
    return [name for name in os.listdir(room) if name.startswith(".")]


# Files


def test_what_is_no_file_is_written_and_never_replaced(room: pathlib.Path) -> None:
    for command, begins, end in (
        (f"{TABLE} --out ", b"class,cells", "txt"),
        (TIF, b"II*\0", "tif"),
    ):
        if os.geteuid() == 0:
            subprocess.run(["mknod", str(room / f"null.{end}"), "c", "1", "3"], check=True)
            assert shell(room, f"{command}null.{end}").returncode == 0
            assert stat.S_ISCHR((room / f"null.{end}").stat().st_mode)
            (room / f"null.{end}").unlink()
        shell(
            room,
            f"rm -f fifo.{end} link.{end} real got; mkfifo fifo.{end}; ln -s real link.{end}; ln "
            f"-sf /proc/self/fd/1 stdout.{end}",
        )
        assert (
            shell(
                room, f"cat fifo.{end} > got & {command}fifo.{end}; status=$?; wait; exit $status"
            ).returncode
            == 0
        )
        assert stat.S_ISFIFO((room / f"fifo.{end}").stat().st_mode) and (
            room / "got"
        ).read_bytes().startswith(begins)
        assert shell(room, f"{command}link.{end}").returncode == 0
        assert (room / f"link.{end}").is_symlink() and (room / "real").read_bytes().startswith(
            begins
        )
        assert shell(room, f"echo old > log; {command}stdout.{end} >> log").returncode == 0
        assert (room / f"stdout.{end}").is_symlink() and (room / "log").read_bytes().startswith(
            b"old\n" + begins
        )
        full = shell(room, f"ln -sf /dev/full full.{end}; {command}full.{end}")
        assert (full.returncode, full.stderr) == (
            4,
            f"rcell-gis: full.{end} cannot be written: No space left on device\n",
        )
    assert hidden(room) == []


def test_a_file_that_is_replaced_keeps_its_mode(raster: Write, tmp_path: pathlib.Path) -> None:
    grid = rcell.grid("", "m", m=raster(LAND))
    for name in ("out.txt", "out.tif"):
        path = tmp_path / name
        path.touch(0o600)
        grid.write(path)
        assert stat.S_IMODE(path.stat().st_mode) == 0o600 and path.stat().st_size > 0


def test_a_map_over_one_with_a_mask_is_read_without_it(
    raster: Write, tmp_path: pathlib.Path
) -> None:
    path = raster(LAND)
    grid = rcell.grid("r.mapcalc x = m + 1", "x", m=LAND)
    with rasterio.Env(GDAL_TIFF_INTERNAL_MASK=False), rasterio.open(path, "r+") as dataset:
        dataset.write_mask(LAND != 1)
    for ending in (".aux.xml", ".ovr"):
        pathlib.Path(path + ending).write_text("<PAMDataset/>")
    assert cells(path)[0] == [None, None, 2, 0]
    grid.write(path)
    assert cells(path) == (LAND + 1).tolist() and os.listdir(tmp_path) == ["map.tif"]


def test_an_old_file_and_its_mask_survive_a_failure(
    raster: Write, tmp_path: pathlib.Path, monkeypatch: pytest.MonkeyPatch
) -> None:
    path = raster(LAND)
    pathlib.Path(path + ".msk").write_text("mask")
    before = pathlib.Path(path).read_bytes()
    grid = rcell.grid("", "m", m=LAND)

    def fail(*_: Any) -> None:
        raise OSError(28, "No space left on device")

    monkeypatch.setattr(os, "replace", fail)
    with pytest.raises(
        rcell.WriteFailed, match="map.tif cannot be written: No space left on device"
    ):
        grid.write(path)
    assert pathlib.Path(path).read_bytes() == before and sorted(os.listdir(tmp_path)) == [
        "map.tif",
        "map.tif.msk",
    ]


def test_an_input_is_no_output(room: pathlib.Path) -> None:
    (room / "script.txt").write_text("r.stats -c input=m\n")
    for command in (
        f"{TABLE} --out in.txt",
        f"{sys.executable} -m rcell run script.txt m=in.txt --out m=script.txt",
        f"{TIF}in.txt",
    ):
        ran = shell(room, f"ln -sf in.txt link; {command}")
        assert (
            ran.returncode,
            ran.stderr.endswith("the output file is the input file: choose another name\n"),
        ) == (2, True), ran.stderr
    assert (room / "in.txt").read_text() == GRID
    ran = shell(room, f"{TIF}x.tif --out n=./x.tif")
    assert (ran.returncode, ran.stderr) == (
        2,
        "rcell-gis: ./x.tif: two outputs are the same file: choose another name\n",
    )


def test_paths_that_are_not_utf8(room: pathlib.Path, raster: Write) -> None:
    """Grids and outputs may have such paths; rasterio cannot open them."""
    odd = str(room / os.fsdecode(b"\xff"))
    grid = rcell.grid("r.reclass input=m output=n\n* = 1 wood\nend", "n", m=raster(LAND))
    for ending in (".txt", ".tif"):
        grid.write(odd + ending)
    assert cells(odd + ".txt") == np.ones(LAND.shape, int).tolist()
    labels = os.fsencode(odd + ".tif.aux.xml")
    assert b"wood" in pathlib.Path(os.fsdecode(labels)).read_bytes()
    for given in (odd + ".tif", "/vsigzip/" + odd):
        with pytest.raises(
            rcell.ReadFailed, match="rasterio only accepts UTF-8 paths: rename the file"
        ):
            rcell.run("r.stats input=m", m=given)
    with pytest.raises(rcell.ReadFailed, match="a path cannot contain a surrogate character"):
        rcell.run("r.stats input=m", m="\ud800.txt")
    for legend in ("\ud800.csv", "\ud800.qml", "\0.csv", "\0.qml"):
        with pytest.raises(rcell.ReadFailed, match="^labels: cannot open"):
            rcell.composition(LAND, labels=legend)


# Streams and signals


def test_a_script_that_comes_late_is_read_whole(monkeypatch: pytest.MonkeyPatch) -> None:
    """Standard input is a non-blocking pipe."""
    reads, writes = os.pipe()
    os.set_blocking(reads, False)
    os.write(writes, b"r.stats -c input=m\n")

    def send() -> None:
        os.write(writes, b"r.stats input=m\n")
        os.close(writes)

    late = threading.Timer(0.3, send)
    late.start()
    with open(reads) as pipe:
        monkeypatch.setattr("sys.stdin", pipe)
        assert script_of("-") == "r.stats -c input=m\nr.stats input=m\n"
    late.join()


@pytest.mark.parametrize("closed", ["<&-", "2>&-", "<&- 2>&-"])
def test_closed_streams(room: pathlib.Path, closed: str) -> None:
    ran = shell(room, f"{TABLE} {closed}")
    assert (ran.returncode, ran.stdout) == (0, CSV)


def test_closed_and_full_standard_output(room: pathlib.Path) -> None:
    for redirection, reason in (
        (">&-", "is closed"),
        (">&- <&-", "is closed"),
        ("> /dev/full", "No space left on device"),
    ):
        ran = shell(room, f"{TABLE} {redirection}")
        assert (ran.returncode, ran.stderr) == (
            4,
            f"rcell-gis: standard output cannot be written: {reason}\n",
        )
    assert shell(room, f"{TABLE} | true; exit ${{PIPESTATUS[0]}}").returncode in (0, 4)


def test_a_library_with_closed_streams(room: pathlib.Path) -> None:
    code = (
        "import os, sys, rcell; t = rcell.run('r.stats -c input=m', m=sys.argv[1])[0]; "
        "open(sys.argv[2], 'w').write(str(t.values.tolist()))"
    )
    for closed in ("<&-", ">&-", "2>&-", "<&- >&- 2>&-"):
        ran = shell(room, f"{sys.executable} -c {shlex.quote(code)} in.txt out {closed}")
        assert (ran.returncode, (room / "out").read_text()) == (0, "[[7, 3], [8, 3]]"), closed


@pytest.mark.parametrize("name", ["SIGHUP", "SIGINT", "SIGTERM", "SIGQUIT", "SIGXCPU"])
def test_signals_leave_nothing(room: pathlib.Path, name: str) -> None:
    os.mkfifo(room / "fifo")
    # Under nohup, tests inherit ignored signals.
    command = [
        "env",
        "--default-signal",
        sys.executable,
        "-m",
        "rcell",
        "composition",
        "fifo",
        "--out",
        "out",
    ]
    (room / "out").write_text("old")
    with subprocess.Popen(
        command, cwd=room, env=environment(RCELL_TEST=str(room)), stderr=subprocess.PIPE, text=True
    ) as program:
        with open(room / "fifo", "w") as fifo:
            fifo.write(GRID[:-4])
            fifo.flush()
            time.sleep(1)
            program.send_signal(getattr(signal, name))
            said = program.communicate(timeout=SECONDS)[1]
    assert (program.returncode % 256, said) == (128 + getattr(signal, name), "")
    assert (hidden(room), (room / "out").read_text(), running(room)) == ([], "old", [])


def test_what_a_killed_process_left_goes_when_the_file_is_written(room: pathlib.Path) -> None:
    """The folder stays while its process runs, and when another file is written."""
    code = (
        "import sys, time\nfrom rcell.core.files import Output\nwith Output(sys.argv[1]) as "
        "output:\n"
        "    open(output.path(), 'w').write('half')\n    print(flush=True)\n    time.sleep(600)"
    )
    out, other = str(room / "out"), str(room / "out-2")
    with subprocess.Popen(
        [sys.executable, "-c", code, out], env=environment(), stdout=subprocess.PIPE
    ) as program:
        assert program.stdout is not None and program.stdout.readline()
        [left] = hidden(room)
        write_beside(out, b"first")
        assert hidden(room) == [left]
        program.kill()
    for path, still in ((other, [left]), (out, [])):
        write_beside(path, b"second")
        assert (hidden(room), pathlib.Path(path).read_bytes()) == (still, b"second")


def test_a_folder_without_a_lock_stays(room: pathlib.Path) -> None:
    folder = room / ".out-01234567"
    folder.mkdir()
    (room / ".out-89abcdef").symlink_to(folder)
    write_beside(str(room / "out"), b"whole")
    assert sorted(hidden(room)) == [".out-01234567", ".out-89abcdef"]


def running(room: pathlib.Path) -> list[str]:
    """Return the processes that use a folder, after waiting for ending processes."""
    found: list[str] = []
    for _ in range(50):
        found = []
        for number in filter(str.isdecimal, os.listdir("/proc")):
            try:
                given = pathlib.Path(f"/proc/{number}/environ").read_bytes()
            except OSError:
                continue
            found += [number] if f"RCELL_TEST={room}".encode() in given.split(b"\0") else []
        if not found:
            break
        time.sleep(0.1)
    return found


def test_a_run_does_not_wait_for_forked_processes() -> None:
    children = []

    class Forking(rcell.Raster):
        """A map that forks the process while it is read."""

    cells_of = np.ones((300, 300), np.uint8)
    source = Forking(cells_of).source("m")
    blocks = type(source).blocks

    def forking(given: Any) -> Any:
        child = os.fork()
        if child == 0:
            time.sleep(8)
            os._exit(0)
        children.append(child)
        return blocks(given)

    began = time.monotonic()
    with pytest.MonkeyPatch.context() as patched:
        patched.setattr(type(source), "blocks", forking)
        assert rows_of(rcell.table("r.stats -c input=m", m=source)) == [(1, 90_000)]
    took = time.monotonic() - began
    for child in children:
        os.kill(child, signal.SIGKILL)
        os.waitpid(child, 0)
    assert children and took < 7


# Programs


def test_programs_are_not_found_through_relative_folders(room: pathlib.Path) -> None:
    stranger = room / "rcell"
    stranger.write_text("#!/bin/sh\necho stranger\n")
    stranger.chmod(0o755)
    code = (
        "import os, rcell.core.programs as p; print([it for it in p.candidates('rcell') if "
        "os.path.realpath(os.path.dirname(it)) == os.getcwd()])"
    )
    for path in (".:/nowhere", ":/nowhere", "/nowhere:"):
        assert shell(room, f"PATH={path} {sys.executable} -c {shlex.quote(code)}").stdout == "[]\n"
    ran = shell(room, TABLE, RCELL="rcell", RCELL_PIPE="rcell")
    assert ran.stderr == (
        f"rcell-gis: {stranger} is not a supported version of the program rcell-pipe\n"
    )


def test_a_program_that_does_not_end_is_told(
    room: pathlib.Path, monkeypatch: pytest.MonkeyPatch
) -> None:
    stranger = room / "sleeper"
    stranger.write_text("#!/bin/sh\nexec sleep 60\n")
    stranger.chmod(0o755)
    monkeypatch.setattr(programs, "PROBE_SECONDS", 0.5)
    with pytest.raises(rcell.WrongProgram, match="did not finish a test run within 0.5 seconds"):
        find_program(stranger)


def test_too_many_open_files_are_told() -> None:
    code = (
        "import resource, rcell\nfrom rcell.core.programs import "
        "find_program\nfind_program()\nresource.setrlimit(resource.RLIMIT_NOFILE, (12, "
        "12))\nheld = [open('/dev/null') for _ in range(7)]\n"
        "try: rcell.run('r.stats -c input=m', m=[[1]])\nexcept rcell.MissingProgram as error: "
        "print(error)\n"
    )
    ran = subprocess.run(
        [sys.executable, "-c", code], capture_output=True, text=True, env=environment(), check=False
    )
    assert ran.stdout.endswith("cannot be executed: Too many open files\n"), ran.stderr


def test_a_command_states_a_reference_system(raster: Write) -> None:
    path = raster(LAND, crs="EPSG:25832")
    plain = path.replace("map.tif", "plain.txt")
    rcell.grid("", "m", m=(LAND, TRANSFORM)).write(plain)
    words = [
        sys.executable,
        "-m",
        "rcell",
        "run",
        "r.stats -c input=a,b",
        f"a={path}",
        f"b={plain}",
    ]
    ran = subprocess.run(words, capture_output=True, text=True, env=environment(), check=False)
    assert (ran.returncode, "state it with --crs EPSG:25832" in ran.stderr) == (1, True)
    ran = subprocess.run(
        [*words, "--crs", "EPSG:25832"],
        capture_output=True,
        text=True,
        env=environment(),
        check=False,
    )
    assert (ran.returncode, ran.stdout.splitlines()[0]) == (0, "a,b,cells")

#!/usr/bin/env python3
"""Compare GRASS and rcell in five tasks over 20 million cells: whether the results agree, and the
time of each.

    tasks.py [--program PATH] [--rows N] [--cols N]

Two land covers with cells of 1 m are made: patches of 12 classes, some changed cells, and 5 % null.
Before a task begins, the maps are in GRASS, and the texts for rcell are written. The results of a
task are compared byte for byte, with maps as grids. The output shows processor seconds, from the
start of the first program to the end of the last, and the seconds of r.rcell (grass/r.rcell), which
reads and makes maps of GRASS. The last line is 'N passed, M failed'.
"""
import argparse
import os
import resource
import shutil
import subprocess
import sys
import tempfile
from dataclasses import dataclass

ROOT = os.path.abspath(f"{__file__}/../../..")
CLASSES = 12
NULL = -2147483648
NINE = ",".join(f"lc[{row},{col}]" for row in (-1, 0, 1) for col in (-1, 0, 1))
CSV = """awk '{ printf "%d,%d,%.4f\\n", $1, $2, $2 / 10000 }'"""
LARGE = """awk '$2 / 10000 >= 0.1 { print $1 " = 1" }'"""
RULES = "1 2 = 1 town, old and new\n3 thru 5 = 2 wood: broad leaved\n6 thru 12 = 3 fields\n"
WOOD = "r.reclass input=lc output=wood\n3 thru 5 = 1\nend\n"
AREAS = WOOD + "r.clump -d input=wood output=areas\n"


@dataclass
class Task:
    """A task as shell commands for GRASS, for rcell and for r.rcell, and the map that it makes, if
    any."""

    name: str
    grass: str
    rcell: str
    addon: str
    map: str = ""


TASKS = [
    Task(
        "counts and hectares as CSV",
        f"r.stats -an input=lc | {CSV} > grass.out",
        f"rcell count lc=lc.txt | {CSV} > rcell.out",
        f"r.rcell script=count maps=lc | {CSV} > addon.out",
    ),
    Task(
        "patches of three classes from 0.1 ha",
        "r.reclass input=lc output=wood rules=wood.rules\n"
        "r.reclass.area -d input=wood output=large value=0.1 mode=greater",
        f"{{ cat areas; echo 'r.reclass input=areas output=large'; rcell sizes lc=lc.txt | {LARGE}; echo end; cat large; }} > second\n"
        "rcell second lc=lc.txt > rcell.out",
        f"{{ cat areas; echo 'r.reclass input=areas output=large'; r.rcell script=sizes maps=lc | {LARGE}; echo end; }} > third\n"
        "r.rcell script=third maps=lc output=large=large_addon",
        "large",
    ),
    Task(
        "majority in 3 x 3",
        "r.neighbors input=lc output=most method=mode size=3",
        "rcell majority lc=lc.txt > rcell.out",
        "r.rcell script=majority.map maps=lc output=most=most_addon",
        "most",
    ),
    Task(
        "matrix of changes",
        "r.stats -cn input=lc,yr2 separator=comma > grass.out",
        "rcell changes lc=lc.txt yr2=yr2.txt > rcell.out",
        "r.rcell script=changes maps=lc,yr2 > addon.out",
    ),
    Task(
        "classes with labels by changes",
        "r.reclass input=lc output=k rules=k.rules\nr.stats -cln input=k,yr2 separator=pipe > grass.out",
        "rcell labels lc=lc.txt yr2=yr2.txt > rcell.out",
        "r.rcell script=labels maps=lc,yr2 > addon.out",
    ),
]
FILES = {
    "count": "r.stats -cn input=lc\n",
    "areas": AREAS,
    "sizes": AREAS + "r.stats -cn input=areas\n",
    "large": "r.out.ascii input=large\n",
    "majority": f"r.mapcalc most = nmode({NINE})\nr.out.ascii input=most\n",
    "majority.map": f"r.mapcalc most = nmode({NINE})\n",
    "changes": "r.stats -cn input=lc,yr2 separator=comma\n",
    "labels": f"r.reclass input=lc output=k\n{RULES}end\nr.stats -cln input=k,yr2 separator=pipe\n",
    "wood.rules": "3 thru 5 = 1\n",
    "k.rules": RULES,
}


def covers(rows, cols):
    """Return two land covers: patches of 16 x 16 cells with single cells in between, and the same
    area some years later."""
    import numpy as np

    made = np.random.default_rng(7)
    patches = made.integers(1, CLASSES + 1, (rows // 16 + 1, cols // 16 + 1), dtype=np.int32)
    cover = np.kron(patches, np.ones((16, 16), np.int32))[:rows, :cols]
    for share in (0.1, 0.1):
        is_other = made.random((rows, cols), dtype=np.float32) < share
        cover = np.where(
            is_other, made.integers(1, CLASSES + 1, (rows, cols), dtype=np.int32), cover
        )
        yield np.where(made.random((rows, cols), dtype=np.float32) < 0.05, NULL, cover).astype(
            np.int32
        )


def write_grid(path, cover):
    """Write a grid for rcell. All categories have two digits."""
    import numpy as np

    rows, cols = cover.shape
    words = np.frombuffer(b"".join(b"%02d " % k for k in range(CLASSES + 1)) + b"** ", "S3")
    text = words[np.where(cover == NULL, CLASSES + 1, cover)].view(np.uint8).reshape(rows, 3 * cols)
    with open(path, "wb") as file:
        file.write(
            b"north: %d\nsouth: 0\neast: %d\nwest: 0\nrows: %d\ncols: %d\nnull: **\n"
            % (rows, cols, rows, cols)
        )
        for at in range(0, rows, 256):
            lines = text[at : at + 256].copy()
            lines[:, -1] = ord("\n")
            file.write(lines.tobytes())


def prepare(rows, cols):
    """Write the maps, texts and scripts in the current folder and mapset."""
    for name, cover in zip(("lc", "yr2"), covers(rows, cols)):
        cover.tofile("cells")
        write_grid(f"{name}.txt", cover)
        edges = [
            f"north={rows}",
            "south=0",
            f"east={cols}",
            "west=0",
            f"rows={rows}",
            f"cols={cols}",
        ]
        subprocess.run(
            [
                "r.in.bin",
                "-s",
                "input=cells",
                f"output={name}",
                "bytes=4",
                f"anull={NULL}",
                "--quiet",
                *edges,
            ],
            check=True,
        )
    os.remove("cells")
    subprocess.run(["g.region", "raster=lc"], check=True)
    for name, text in FILES.items():
        with open(name, "w", encoding="ascii") as file:
            file.write(text)


def seconds_of(commands):
    """Return the processor time of commands."""
    before = resource.getrusage(resource.RUSAGE_CHILDREN)
    subprocess.run(["sh", "-ec", commands], check=True, stderr=subprocess.PIPE)
    after = resource.getrusage(resource.RUSAGE_CHILDREN)
    return after.ru_utime + after.ru_stime - before.ru_utime - before.ru_stime


def take_out(task):
    """Write the maps of GRASS as grids, as rcell writes them."""
    for name, path in ((task.map, "grass.out"), (f"{task.map}_addon", "addon.out")):
        subprocess.run(
            ["sh", "-ec", f"r.out.ascii input={name} output=- | sed 's/ $//' > {path}"], check=True
        )


def same(left, right):
    return subprocess.run(["cmp", "-s", left, right], check=False).returncode == 0


def inside():
    """Run the part within a GRASS session, in a separate folder."""
    rows, cols = int(os.environ["TASK_ROWS"]), int(os.environ["TASK_COLS"])
    prepare(rows, cols)
    passed = failed = 0
    print(
        f"{rows * cols / 1e6:g} million cells, s of the processor: GRASS, rcell, r.rcell",
        flush=True,
    )
    for task in TASKS:
        times = [seconds_of(commands) for commands in (task.grass, task.rcell, task.addon)]
        if task.map:
            take_out(task)
        are_same = [same("grass.out", other) for other in ("rcell.out", "addon.out")]
        passed, failed = passed + sum(are_same), failed + 2 - sum(are_same)
        with open("rcell.out", "rb") as file:
            lines = sum(1 for _ in file)
        told = (
            "the same"
            if all(are_same)
            else f"rcell {'as' if are_same[0] else 'not as'} GRASS, r.rcell {'as' if are_same[1] else 'not as'} GRASS"
        )
        print(
            f"{task.name}: " + ", ".join(f"{it:.2f}" for it in times) + f"; {lines} lines, {told}",
            flush=True,
        )
    print(f"{passed} passed, {failed} failed")
    return 1 if failed else 0


def compared(program, rows, cols):
    """Run the tasks in their own location, and return the lines about them."""
    with tempfile.TemporaryDirectory(prefix="rcell-tasks-") as room:
        os.makedirs(f"{room}/path")
        shutil.copy(program, f"{room}/path/rcell")
        os.symlink(f"{ROOT}/grass/r.rcell/r.rcell.py", f"{room}/path/r.rcell")
        subprocess.run(
            ["grass", "-e", "-c", "EPSG:32632", f"{room}/here"], check=True, capture_output=True
        )
        environment = {
            **os.environ,
            "PATH": f"{room}/path:/usr/bin:/bin",
            "TASK_ROWS": str(rows),
            "TASK_COLS": str(cols),
            "GRASS_VERBOSE": "0",
        }
        words = [
            "grass",
            f"{room}/here/PERMANENT",
            "--exec",
            "/usr/bin/python3",
            os.path.abspath(__file__),
            "--inside",
        ]
        done = subprocess.run(
            words,
            cwd=room,
            env=environment,
            stdout=subprocess.PIPE,
            stderr=subprocess.PIPE,
            text=True,
        )
    lines = done.stdout.splitlines()
    return (
        lines
        if lines and lines[-1].endswith("failed")
        else [*lines, done.stderr, "0 passed, 1 failed"]
    )


def main():
    if sys.argv[1:] == ["--inside"]:
        return inside()
    words = argparse.ArgumentParser(
        description=__doc__, formatter_class=argparse.RawDescriptionHelpFormatter
    )
    words.add_argument("--program", default=f"{ROOT}/bin/rcell")
    words.add_argument("--rows", type=int, default=4000)
    words.add_argument("--cols", type=int, default=5000)
    settings = words.parse_args()
    if not shutil.which("grass"):
        sys.exit("grass: not installed")
    lines = compared(os.path.abspath(settings.program), settings.rows, settings.cols)
    print("\n".join(lines))
    return 0 if lines[-1].endswith(" 0 failed") else 1


if __name__ == "__main__":
    sys.exit(main())

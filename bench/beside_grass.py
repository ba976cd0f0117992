"""Time rcell and the corresponding GRASS modules, whose results must agree: part of run.py.

Each task is done in four ways, which take turns: with GRASS on a map that is already in GRASS; with
rcell after r.out.ascii; with rcell from text; and with GRASS after r.in.ascii. The start of a
module is counted, but not the start of a GRASS session.
"""
import os
import subprocess
import tempfile
from dataclasses import dataclass

HEAD = (
    "Task",
    "GRASS, map in GRASS",
    "r.out.ascii, rcell",
    "rcell, text there",
    "r.in.ascii, GRASS",
)
WAYS = len(HEAD) - 1
OFFSETS = ",".join(f"g[{row},{column}]" for row in (-1, 0, 1) for column in (-1, 0, 1))
WOOD = "41 thru 43 = 1 wood\n"


@dataclass(frozen=True)
class Task:
    """A task: an rcell script over the map `g`, and GRASS commands over the map `$map`. `is_map`
    states that the result is a map, not a table."""

    title: str
    script: str
    commands: str
    is_map: bool = False


TASKS = (
    Task("table (r.stats -c)", "r.stats -c input=g\n", "r.stats -c input=$map"),
    Task(
        "patches and their sizes (r.clump, r.stats -c)",
        "r.clump input=g output=m\nr.stats -c -n input=m\n",
        "r.clump input=$map output=m && r.stats -c -n input=m",
    ),
    Task(
        "patches of one class (r.reclass, r.clump -d, r.stats -c)",
        f"r.reclass input=g output=w\n{WOOD}end\nr.clump -d input=w output=m\nr.stats -c -n input=m\n",
        "r.reclass input=$map output=w rules=$room/wood && r.clump -d input=w output=m && r.stats -c -n input=m",
    ),
    Task(
        "mode of 3 by 3 cells, counted (r.neighbors)",
        f"r.mapcalc m = nmode({OFFSETS})\nr.stats -c input=m\n",
        "r.neighbors input=$map output=m method=mode size=3 && r.stats -c input=m",
    ),
    Task(
        "patches as a map (r.clump)",
        "r.clump input=g output=m\nr.out.ascii input=m\n",
        "r.clump input=$map output=m",
        is_map=True,
    ),
)


def session(room, program):
    """Return the environment of a session in a new location without a projection."""
    subprocess.run(["grass", "-e", "-c", "XY", f"{room}/here"], check=True, capture_output=True)
    base = subprocess.run(
        ["grass", "--config", "path"], check=True, capture_output=True, text=True
    ).stdout.strip()
    with open(f"{room}/gisrc", "w", encoding="utf-8") as file:
        file.write(f"GISDBASE: {room}\nLOCATION_NAME: here\nMAPSET: PERMANENT\nGUI: text\n")
    with open(f"{room}/wood", "w", encoding="ascii") as file:
        file.write(WOOD)
    return {
        **os.environ,
        "GISRC": f"{room}/gisrc",
        "GISBASE": base,
        "PATH": f"{base}/bin:{base}/scripts:{os.environ['PATH']}",
        "LD_LIBRARY_PATH": f"{base}/lib",
        "GRASS_VERBOSE": "0",
        "GRASS_OVERWRITE": "1",
        "room": room,
        "rcell": program,
    }


def ways(task):
    """Return the four ways of a task as shell commands. Commands that use an imported map come
    last."""
    rcell = '"$rcell" "$room/script" g='
    if not task.is_map:
        return (
            task.commands.replace("$map", "g"),
            f'r.out.ascii input=g output="$room/out" && {rcell}"$room/out"',
            f'{rcell}"$text"',
            "r.in.ascii input=$text output=h type=CELL && " + task.commands.replace("$map", "h"),
        )
    back = f'{rcell}"$room/out" > "$room/back" && r.in.ascii input="$room/back" output=m type=CELL'
    return (
        task.commands.replace("$map", "g"),
        f'r.out.ascii input=g output="$room/out" && {back}',
        f'{rcell}"$text" > "$room/back"',
        f'r.in.ascii input=$text output=h type=CELL && {task.commands.replace("$map", "h")} && r.out.ascii input=m output="$room/back"',
    )


def check(task, environment):
    """Check that rcell and GRASS print the same table. Patch numbers differ, so only the counts of
    patches are compared."""
    texts = []
    for command in (ways(task)[0], ways(task)[2]):
        texts.append(
            subprocess.run(
                ["sh", "-c", command], env=environment, check=True, capture_output=True, text=True
            ).stdout
        )
    lines = [
        sorted(line.split()[-1] for line in text.splitlines()) if "r.clump" in task.script else text
        for text in texts
    ]
    if not task.is_map and lines[0] != lines[1]:
        raise SystemExit(f"GRASS and rcell differ: {task.title}")


def table(text, cells, program, rounds, measure):
    """Return the rows of a table: CPU milliseconds per million cells, for each task in each way.
    `measure` accepts words and an environment."""
    with tempfile.TemporaryDirectory(prefix="rcell-grass-") as room:
        environment = {**session(room, program), "text": text}
        subprocess.run(
            ["sh", "-c", 'r.in.ascii input="$text" output=g type=CELL && g.region raster=g'],
            env=environment,
            check=True,
        )
        for task in TASKS:
            with open(f"{room}/script", "w", encoding="ascii") as file:
                file.write(task.script)
            check(task, environment)
            least = [float("inf")] * WAYS
            for _ in range(rounds):
                for number, command in enumerate(ways(task)):
                    least[number] = min(
                        least[number], measure(["/bin/sh", "-c", command], environment)
                    )
            yield [task.title, *(f"{seconds * 1e9 / cells:.1f}" for seconds in least)]

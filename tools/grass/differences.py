#!/usr/bin/env python3
"""Read the tables in docs/grass.md, and run the program and GRASS on their inputs.

A row whose first three cells are code contains an input and the results of GRASS and rcell. All
other rows are prose. The head of the document describes the format of the cells.
"""
import itertools
import os
import re
import signal
import subprocess
from dataclasses import dataclass

ROOT = os.path.abspath(f"{__file__}/../../..")
DOCUMENT = "docs/grass.md"
SECONDS = 10
CODE = re.compile(r"\s*`([^`]+)`\s*")
HEADER_LINE = re.compile(r"\s*[a-z]+:")
MAKERS = ("r.mapcalc", "r.reclass", "r.clump")
NAMED_GRID = re.compile(r"^\| ([a-z]) \| ([^|`]+?)(?:, and `([^`]+)`)? \|$", re.MULTILINE)
GRID_TITLE = "## Grids"


@dataclass
class Row:
    """A row of a table: a script, the lines of the grid `m` if the row is about a grid, and both
    results."""

    line: int
    script: list[str]
    grid: list[str]
    grass: str
    rcell: str


def cells_of(line):
    """Return the cells in a table row that are code, up to the first that is not."""
    cells = re.split(r"(?<!\\)\|", line)[1:-1]
    found = itertools.takewhile(bool, map(CODE.fullmatch, cells))
    return [cell[1].replace("\\|", "|") for cell in found]


def rows():
    """Yield the rows with an input and two results."""
    with open(f"{ROOT}/{DOCUMENT}", encoding="utf-8") as file:
        lines = file.read().splitlines()
    title = ""
    for at, line in enumerate(lines, 1):
        title = line if line.startswith("## ") else title
        cells = cells_of(line) if line.startswith("| ") else []
        if len(cells) < 3:
            continue
        texts = cells[0].split(" ; ")
        if title == GRID_TITLE:
            yield Row(at, ["r.out.ascii input=m"], texts, cells[1], cells[2])
        else:
            yield Row(at, texts, [], cells[1], cells[2])


def grid_text(lines):
    """Return the text of a grid: the header lines that are shown, then those that the cells imply,
    then the rows."""
    shown = [line for line in lines if HEADER_LINE.match(line) or not line.strip()]
    data = [line for line in lines if line not in shown]
    rows, cols = len(data), len(data[0].split())
    fitting = {"north": rows, "south": 0, "east": cols, "west": 0, "rows": rows, "cols": cols}
    keys = {line.split(":")[0].strip() for line in shown}
    return (
        "\n".join(
            [
                *shown,
                *(f"{key}: {value}" for key, value in fitting.items() if key not in keys),
                *data,
            ]
        )
        + "\n"
    )


def grids_of_head():
    """Return the grids in the head of the differences, each as the lines shown."""
    with open(f"{ROOT}/{DOCUMENT}", encoding="utf-8") as file:
        head = file.read().partition("\n## Differences\n")[2].partition("\n## ")[0]
    return {
        found[1]: [line for line in (found[3], *found[2].split(" / ")) if line]
        for found in NAMED_GRID.finditer(head)
    }


GRIDS = grids_of_head()


def inputs_of(line):
    """Return the words in a line that may name an input map."""
    name, _, rest = line.partition(" ")
    if name == "r.mapcalc":
        return re.findall(r"[A-Za-z_]\w*", rest.partition("=")[2])
    named = [
        word.rpartition("=")[2] for word in rest.split() if re.match(r"(in(put)?=|[^-=]+$)", word)
    ]
    return re.split("[,@]", ",".join(named))


def grids_of(row):
    """Return the grids that a row reads, by name."""
    if row.grid:
        return {"m": grid_text(row.grid)}
    named = {name for line in row.script if line.startswith("r.") for name in inputs_of(line)}
    return {name: grid_text(GRIDS[name]) for name in GRIDS if name in named} or {
        "one": grid_text(["1"])
    }


def made_map(script):
    """Return the map that the last statement of a script makes, or None."""
    statements = [line for line in script if line.startswith("r.")]
    name, _, rest = statements[-1].partition(" ")
    if name not in MAKERS:
        return None
    return (
        rest.split("=")[0].strip() if name == "r.mapcalc" else re.search(r"output=(\S+)", rest)[1]
    )


def asked(script):
    """Return the script with a last line that writes the map that it makes."""
    target = made_map(script)
    return script + [f"r.out.ascii input={target}"] if target else script


def joined(text, row):
    """Return lines of output as the document writes them: only the rows of a map, with _ for a
    space at the end of a line."""
    lines, is_map = text.splitlines(), row.grid or made_map(row.script)
    if is_map:
        return " / ".join(line.rstrip(" ") for line in lines if not HEADER_LINE.match(line))
    return " / ".join(
        line.rstrip(" ") + "_" * (len(line) - len(line.rstrip(" "))) for line in lines
    )


def by_rcell(row, program, room):
    """Return the program's result: its output, or its message without the program's name."""
    for name, text in {"script": "\n".join(asked(row.script)) + "\n", **grids_of(row)}.items():
        with open(f"{room}/{name}", "w", encoding="ascii") as file:
            file.write(text)
    words = [program, "script", *(f"{name}={name}" for name in grids_of(row))]
    ran = subprocess.run(words, cwd=room, capture_output=True, text=True)
    return ran.stderr.strip().removeprefix("rcell: ") if ran.returncode else joined(ran.stdout, row)


def commands_of_grass(script, room):
    """Yield a script as shell commands in GRASS. Rules are written to files."""
    at = 0
    while at < len(script):
        line, at = script[at], at + 1
        name, _, rest = line.partition(" ")
        if name == "r.mapcalc":
            yield f"r.mapcalc expression='{rest}' --quiet"
        elif name == "r.reclass":
            end = script.index("end", at)
            with open(f"{room}/rules{at}", "w", encoding="ascii") as file:
                file.write("".join(f"{rule}\n" for rule in script[at : end + 1]))
            yield f"{line} rules=rules{at} --quiet"
            at = end + 1
        elif name == "r.out.ascii":
            yield line
        else:
            yield f"{line} --quiet"


def by_grass(row, room):
    """Return the result of GRASS in its own location: its output, `refused` or `no end`."""
    subprocess.run(["rm", "-rf", f"{room}/here"], check=True)
    subprocess.run(["grass", "-e", "-c", "XY", f"{room}/here"], check=True, capture_output=True)
    grids, commands = grids_of(row), ["set -e"]
    for name, text in grids.items():
        with open(f"{room}/{name}.txt", "w", encoding="ascii") as file:
            file.write(text)
        # The type is determined only if the row is about it, because the module's guess varies.
        kind = "" if "2.5 1" in row.grid else " type=CELL"
        commands.append(
            f"r.in.ascii input={name}.txt output={name}{kind} --quiet && g.region raster={name}"
        )
    commands += commands_of_grass(asked(row.script), room)
    with open(f"{room}/commands", "w", encoding="ascii") as file:
        file.write("\n".join(commands) + "\n")
    words = ["grass", f"{room}/here/PERMANENT", "--exec", "sh", "commands"]
    ran = subprocess.Popen(
        words,
        cwd=room,
        stdout=subprocess.PIPE,
        stderr=subprocess.PIPE,
        text=True,
        start_new_session=True,
    )
    try:
        output, errors = ran.communicate(timeout=SECONDS)
    except subprocess.TimeoutExpired:
        os.killpg(ran.pid, signal.SIGKILL)
        ran.communicate()
        return "no end"
    return "refused" if ran.returncode else joined(output, row)

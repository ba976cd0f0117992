#!/usr/bin/env python3
"""Compare the program with the modules of GRASS, on random grids and scripts (Debian: grass-core).

    runs.py --runs N --seed S [--program PATH] [--keep FOLDER] [--first F]

The grids and scripts are from shared_cases.py. docs/grass.md lists no differences for them, except
for three that are undone here: grids of r.out.ascii get no space at line ends and a line for a null
text other than `*` (`as_here`), and the clumps of r.clump are numbered by their first cells
(`by_first_cells`).

GRASS reads the grids with r.in.ascii, and runs each command in its own module. The output must
equal the program's, byte for byte. Run F of seed S is the same everywhere. Each difference is
printed with its grids, its script and both results. With --keep it is also written to FOLDER as a
case whose expected files are from GRASS, next to a folder with the program's result. The last line
is 'N runs, M differences'.
"""
import argparse
import os
import random
import shutil
import subprocess
import sys
import tempfile

sys.path.insert(1, os.path.abspath(f"{__file__}/../../model"))

from compare import BIN, keep, write
from model import is_skipped, script_lines
from model_grids import BLANKS, Answer
from shared_cases import SharedMaker

SECONDS_OF_A_COMMAND = 60


def as_here(text, null_text):
    """Return a grid of r.out.ascii as rcell writes it: without a space at line ends, and with a
    line for a null text other than `*`."""
    lines = [line.removesuffix(b" ") for line in text.splitlines()]
    if null_text != b"*":
        lines.insert(6, b"null: " + null_text)
    return b"".join(line + b"\n" for line in lines)


def by_first_cells(text):
    """Return a grid of clumps, numbered by their first cells."""
    lines = text.splitlines()
    cells = [line.split() for line in lines[6:]]
    first = dict.fromkeys(cell for row in cells for cell in row if cell != b"*")
    numbers = {b"*": b"*", **{cell: b"%d" % number for number, cell in enumerate(first, 1)}}
    return b"".join(
        line + b"\n"
        for line in lines[:6] + [b"".join(numbers[cell] + b" " for cell in row) for row in cells]
    )


class RefusedByGrass(Exception):
    """A module reported an error, or did not end in time."""


class Grass:
    """Runs the modules of GRASS over a location in a folder, with one mapset per run."""

    def __init__(self, room):
        asked = subprocess.run(
            ["grass", "--config", "path"], check=True, capture_output=True, text=True
        )
        base = asked.stdout.strip().splitlines()[-1]
        subprocess.run(["grass", "-e", "-c", "XY", f"{room}/here"], check=True, capture_output=True)
        write(
            f"{room}/session",
            b"GISDBASE: %s\nLOCATION_NAME: here\nMAPSET: PERMANENT\nGUI: text\n"
            % os.fsencode(room),
        )
        paths = {
            "PATH": f"{base}/bin:{base}/scripts:/usr/bin:/bin",
            "LD_LIBRARY_PATH": f"{base}/lib",
        }
        self.environment = {
            **os.environ,
            **paths,
            "GISBASE": base,
            "GISRC": f"{room}/session",
            "GIS_LOCK": str(os.getpid()),
            "GRASS_VERBOSE": "0",
        }
        self.room, self.mapsets = room, 0

    def ran(self, room, *words):
        try:
            done = subprocess.run(
                words,
                cwd=room,
                env=self.environment,
                stdin=subprocess.DEVNULL,
                capture_output=True,
                timeout=SECONDS_OF_A_COMMAND,
            )
        except subprocess.TimeoutExpired:
            raise RefusedByGrass(f"no end: {words}") from None
        if done.returncode:
            raise RefusedByGrass(
                f"status {done.returncode}: {words}: {done.stderr.decode(errors='backslashreplace')}"
            )
        return done.stdout

    def answer(self, made, room):
        """Return the output of GRASS for a run, in the form of the program's output."""
        shutil.rmtree(
            f"{self.room}/here/run{self.mapsets - 1}", ignore_errors=True
        )  # not the current one
        self.mapsets += 1
        output = b""
        try:
            self.ran(room, "g.mapset", "-c", f"mapset=run{self.mapsets}")
            for name, path in made.grids:
                self.ran(room, "r.in.ascii", f"input={path}", b"output=" + name, "type=CELL")
            self.ran(room, "g.region", b"raster=" + made.grids[0][0])
            for line, rules in commands_of(made.files["script"]):
                output += self.output_of(room, line, rules)
        except RefusedByGrass as fault:
            return Answer(1, output, str(fault).encode())
        return Answer(0, output, b"")

    def output_of(self, room, line, rules):
        words = line.split()
        options = dict(
            word.split(b"=", 1) for word in words[1:] if not word.startswith(b"-") and b"=" in word
        )
        if words[0] == b"r.mapcalc":
            return self.ran(
                room, words[0], b"expression=" + line.strip(BLANKS).removeprefix(words[0])
            )
        if words[0] == b"r.reclass":
            write(f"{room}/rules", rules)
            return self.ran(room, *words, "rules=rules")
        output = self.ran(room, *words)
        if words[0] == b"r.clump":
            self.renumber(room, options[b"output"])
        return (
            as_here(output, options.get(b"null_value", b"*"))
            if words[0] == b"r.out.ascii"
            else output
        )

    def renumber(self, room, name):
        """Number the clumps of a map by their first cells, because their order is one of the listed
        differences."""
        areas = self.ran(room, "r.out.ascii", b"input=" + name)
        if by_first_cells(areas) != areas:
            write(f"{room}/areas", by_first_cells(areas))
            self.ran(
                room, "r.in.ascii", "input=areas", b"output=" + name, "type=CELL", "--overwrite"
            )


def commands_of(script):
    """Yield the lines of a script that are commands, each with the text of its rules."""
    lines = iter(script_lines(script))
    for line in lines:
        rules = []
        if line.split()[:1] == [b"r.reclass"]:
            for rule in lines:
                rules.append(rule + b"\n")
                if rule.split() == [b"end"]:
                    break
        if not is_skipped(line):
            yield line, b"".join(rules)


# Runs


def program_answer(program, made, room):
    words = [os.fsencode(program), *made.words]
    try:
        done = subprocess.run(
            words,
            cwd=room,
            stdin=subprocess.DEVNULL,
            capture_output=True,
            timeout=SECONDS_OF_A_COMMAND,
        )
    except subprocess.TimeoutExpired:
        return Answer(1, b"", b"no end\n")
    return Answer(done.returncode, done.stdout, done.stderr)


def report(name, made, expected, got):
    """Return a report of a run that differs: its files and both results."""
    texts = {
        **made.files,
        "GRASS": expected.output,
        "GRASS, standard error": expected.told,
        "rcell": got.output,
        "rcell, standard error": got.told,
    }
    shown = "".join(
        f"{title}:\n{text.decode(errors='backslashreplace')}\n" for title, text in texts.items()
    )
    return f"{name} differs\n{shown}"


def compared(program, seed, first, count, folder=None):
    """Yield the differences of each run: an empty list, or a list with one report."""
    program = os.path.abspath(program)
    with tempfile.TemporaryDirectory(prefix="rcell-grass-") as room:
        grass = Grass(room)
        for number in range(first, first + count):
            made = SharedMaker(random.Random(f"{seed}:{number}")).made()
            for name, content in made.files.items():
                write(f"{room}/{name}", content)
            expected, got = grass.answer(made, room), program_answer(program, made, room)
            if folder and expected != got:
                keep(f"{folder}/{seed}-{number}", made, expected, got)
            yield [report(f"run {number} of seed {seed}", made, expected, got)] * (expected != got)


def main():
    words = argparse.ArgumentParser(
        description=__doc__, formatter_class=argparse.RawDescriptionHelpFormatter
    )
    words.add_argument("--runs", type=int, required=True)
    words.add_argument("--seed", type=int, default=1)
    words.add_argument("--first", type=int, default=0)
    words.add_argument("--program", default=f"{BIN}/rcell")
    words.add_argument("--keep", metavar="FOLDER")
    settings = words.parse_args()
    if not shutil.which("grass"):
        sys.exit("grass: not installed")
    differences = 0
    for found in compared(
        settings.program, settings.seed, settings.first, settings.runs, settings.keep
    ):
        differences += len(found)
        print("".join(found), end="", flush=True)
    print(f"{settings.runs} runs, {differences} differences")
    return 1 if differences else 0


if __name__ == "__main__":
    sys.exit(main())

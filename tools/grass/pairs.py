#!/usr/bin/env python3
"""Read the pairs in docs/grass.md, and run GRASS and the program on them.

A table row whose first two cells begin with code is a pair. The document describes the format of
the cells. A result is the rows of the map that the last line of the script makes, or else the
output. Run by itself, this program runs only rcell, which must accept each script. The last line is
then 'N passed, M failed'.
"""
import os
import re
import subprocess
import sys
import tempfile
from dataclasses import dataclass

ROOT = os.path.abspath(f"{__file__}/../../..")
BIN = os.environ.get("RCELL_BIN", f"{ROOT}/bin")
DOCUMENT = "docs/grass.md"
COUNT = 42
SECONDS = 600
CODE = re.compile(r"\s*`([^`]+)`")
WOOD = "r.mapcalc wood = if(lc / 10 == 3, 1, null())"
RULES = "11 12 = 1 built, town\n21 thru 29 = 2 farmland\n31 thru 39 = 3 woodland\nend\n"
MAKERS = ("r.mapcalc", "r.reclass", "r.clump")
SIGN = "==== pair {} ===="
GRIDS = ("lc=lc.txt", "zones=zones.txt")


@dataclass
class Pair:
    """A pair: the lines for GRASS, the lines for rcell, the verdict on them, and the code in the
    verdict."""

    line: int
    grass: list[str]
    rcell: list[str]
    verdict: str

    @property
    def is_same(self):
        return self.verdict.startswith("=")

    @property
    def shown(self):
        """Return the lines that are shown if the results differ: one of GRASS and one of rcell."""
        return CODE.findall(self.verdict)[:2]

    @property
    def script(self):
        """Return the lines of the script, if the pair has any."""
        lines = [] if self.is_shell else [line for line in self.rcell if not self.is_behind(line)]
        return [WOOD] * any("wood" in line for line in lines) + lines

    @property
    def is_shell(self):
        return self.rcell[0].startswith("{")

    @staticmethod
    def is_behind(line):
        return line.startswith(("|", ">"))


def pairs():
    with open(f"{ROOT}/{DOCUMENT}", encoding="utf-8") as file:
        lines = file.read().splitlines()
    for at, line in enumerate(lines, 1):
        cells = re.split(r"(?<!\\)\|", line)[1:-1] if line.startswith("| `") else []
        if len(cells) == 3:
            grass, rcell = (
                CODE.match(cell)[1].replace("\\|", "|").split(" ; ") for cell in cells[:2]
            )
            yield Pair(at, grass, rcell, cells[2].strip().replace("\\|", "|"))


def made_map(script):
    """Return the map that the last statement of a script makes, or None."""
    statements = [line for line in script if line.startswith("r.")]
    name, _, rest = statements[-1].partition(" ")
    if name not in MAKERS:
        return None
    return (
        rest.split("=")[0].strip() if name == "r.mapcalc" else re.search(r"output=(\S+)", rest)[1]
    )


def rows_of(text):
    """Return the rows of a grid, without its header and without blanks at line ends."""
    lines = [line.rstrip() for line in text.splitlines()]
    return "\n".join(line for line in lines if ": " not in line and line) + "\n"


def put(room):
    """Write the grids and files that the pairs read."""
    for name, source in (("lc.txt", "landcover.txt"), ("zones.txt", "zones.txt")):
        with open(f"{ROOT}/examples/study/{source}", "rb") as grid, open(
            f"{room}/{name}", "wb"
        ) as file:
            file.write(grid.read())
    for name, text in (("rules.txt", RULES.removesuffix("end\n")), ("wood", WOOD + "\n")):
        with open(f"{room}/{name}", "w", encoding="ascii") as file:
            file.write(text)


def by_rcell(pair, program, room):
    """Return the result of rcell. Raises RuntimeError if the script is rejected."""
    put(room)
    environment = {"PATH": f"{os.path.dirname(program)}:/usr/bin:/bin", "LC_ALL": "C"}
    if pair.is_shell:
        subprocess.run(["sh", "-ec", "\n".join(pair.rcell)], cwd=room, env=environment, check=True)
        with open(f"{room}/script", encoding="ascii") as file:
            script = file.read().splitlines()
    else:
        script = pair.script
    target = made_map(script)
    with open(f"{room}/script", "w", encoding="ascii") as file:
        file.write(
            "".join(f"{line}\n" for line in script + [f"r.out.ascii input={target}"] * bool(target))
        )
    behind = "" if pair.is_shell else " ".join(line for line in pair.rcell if pair.is_behind(line))
    command = f"rcell script {' '.join(GRIDS)} {behind}" + "; cat t.txt" * ("t.txt" in behind)
    ran = subprocess.run(
        ["sh", "-c", command], cwd=room, env=environment, capture_output=True, text=True
    )
    if ran.stderr or ran.returncode:
        raise RuntimeError(ran.stderr.strip() or f"status {ran.returncode}")
    return rows_of(ran.stdout) if target else ran.stdout


def commands_of(number, pair, target):
    """Yield the shell lines that run a pair in GRASS, in its own mapset."""
    yield f"echo '{SIGN.format(number)}'"
    yield f"g.mapset -c mapset=pair{number} --quiet 2> /dev/null; g.region raster=lc --quiet"
    yield WOOD.replace("r.mapcalc ", "r.mapcalc --quiet expression='") + "'"
    yield from pair.grass
    if any("output=t.txt" in line for line in pair.grass):
        yield "cat t.txt"
    if target:
        yield f"r.out.ascii input={target} output=- --quiet"
    yield "r.mask -r --quiet 2> /dev/null"


def by_grass(asked, room):
    """Return the results of GRASS for pairs, in one session. Each pair is given with the map that
    rcell makes, or None."""
    put(room)
    subprocess.run(
        ["grass", "-e", "-c", "EPSG:32632", f"{room}/here"], check=True, capture_output=True
    )
    lines = ["export GRASS_VERBOSE=0"]
    for name in ("lc", "zones"):
        lines.append(f"r.in.ascii input={name}.txt output={name} type=CELL")
    lines.append("g.region -s raster=lc")
    for number, (pair, target) in enumerate(asked):
        lines += commands_of(number, pair, target)
    with open(f"{room}/commands", "w", encoding="ascii") as file:
        file.write("\n".join(lines) + "\n")
    words = ["grass", f"{room}/here/PERMANENT", "--exec", "sh", "commands"]
    ran = subprocess.run(words, cwd=room, capture_output=True, text=True, timeout=SECONDS)
    texts = re.split(
        "^" + re.escape(SIGN).replace(r"\{\}", r"\d+") + "\n", ran.stdout, flags=re.MULTILINE
    )[1:]
    return [
        rows_of(text) if target else text for text, (_pair, target) in zip(texts, asked)
    ], ran.stderr


def fault_of(pair, ours, theirs):
    """Return the error of a pair, or ''."""
    if pair.is_same:
        return "" if ours == theirs else f"GRASS answers {theirs!r}, and rcell {ours!r}"
    if ours == theirs:
        return f"both answer {ours!r}"
    missing = [
        shown
        for shown, answer in zip(pair.shown, (theirs, ours))
        if shown not in answer.splitlines()
    ]
    return f"no line of the answer is {missing}: {theirs!r}, {ours!r}" if missing else ""


def target_of(pair, room):
    """Return the map that the script of a pair makes, after rcell has run it."""
    with open(f"{room}/script", encoding="ascii") as file:
        return (
            made_map(
                [line for line in file.read().splitlines() if not line.startswith("r.out.ascii")]
            )
            if pair.is_shell
            else made_map(pair.script)
        )


def compared(program):
    """Return the error of each pair: an empty list, or a list with one text."""
    found, ours, asked = list(pairs()), [], []
    for pair in found:
        with tempfile.TemporaryDirectory() as room:
            ours.append(by_rcell(pair, program, room))
            asked.append((pair, target_of(pair, room)))
    with tempfile.TemporaryDirectory() as room:
        theirs, told = by_grass(asked, room)
    yield [f"{DOCUMENT} has {len(found)} pairs, and GRASS answered {len(theirs)}: {told}"] * (
        not len(found) == len(theirs) == COUNT
    )
    for pair, answer, other in zip(found, ours, theirs):
        fault = fault_of(pair, answer, other)
        yield [f"{DOCUMENT}:{pair.line}: {fault}"] * bool(fault)


def main():
    program = os.path.abspath(sys.argv[1] if len(sys.argv) > 1 else f"{BIN}/rcell")
    passed = failed = 0
    for pair in pairs():
        with tempfile.TemporaryDirectory() as room:
            try:
                by_rcell(pair, program, room)
                passed += 1
            except RuntimeError as fault:
                failed += 1
                print(f"{DOCUMENT}:{pair.line}: {fault}")
    failed += passed + failed != COUNT
    print(f"{passed} passed, {failed} failed")
    return 1 if failed else 0


if __name__ == "__main__":
    sys.exit(main())

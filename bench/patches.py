#!/usr/bin/env python3
"""Time the measures of patches in rcell-pipe and in a C++ program that writes the same response
(bench/patches.cpp), and print a table.

    patches.py [--rounds N] [--side N] [--program PATH] [--write]

The maps are land cover and noise of make_grid.cpp. The request asks for the measures of all patches
by edges, with depth 1. First, the responses are compared byte for byte. Then the programs take
turns, and the smallest processor time counts. Instructions are counted with callgrind. Memory is
compared with the memory of a request that only runs r.clump. --write puts the table into
bench/RESULTS.md.
"""
import argparse
import filecmp
import os
import struct
import subprocess
import sys

import run

sys.path.insert(1, f"{run.ROOT}/tools/model")

from pipe_model import PATCHES, Question, short

MARKS = ("<!-- The table of bench/patches.py -->\n", "<!-- End of the patches -->\n")
HEAD = (
    "Map",
    "ns a cell: rcell-pipe, C++",
    "instructions a cell: rcell-pipe, C++, ratio",
    "bytes a cell: rcell-pipe, C++",
    "more than r.clump alone",
)
NULL = 255
CLUMP = b"r.clump input=g output=m\n"


def cells_of_grid(path):
    """Return the cells of a grid as bytes."""
    with open(path, "rb") as file:
        words = file.read().split()[2 * run.HEADER_LINES :]
    return bytes(NULL if word == b"*" else int(word) for word in words)


def request(cells, side, script, questions):
    """Return a request for a map of bytes."""
    edges = b"%d" % side, b"0", b"%d" % side, b"0"
    data = b"RCELLQ1\n" + b"".join(map(short, edges)) + struct.pack("<III", side, side, 1)
    data += short(b"g") + struct.pack("<BBqI", 1, 1, NULL, 0) + cells
    asked = b"".join(it.data() for it in questions)
    return (
        data + struct.pack("<I", len(script)) + script + struct.pack("<I", len(questions)) + asked
    )


def written(name, data):
    path = f"{run.OUT}/{name}"
    with open(path, "wb") as file:
        file.write(data)
    return path


def measured(program, given, output="/dev/null"):
    """Return the processor seconds and the peak of memory of a program with a file as its input."""
    with open(given, "rb") as file:
        words = [f"{run.OUT}/measure", output, program]
        ran = subprocess.run(words, stdin=file, stdout=subprocess.PIPE, check=True, text=True)
    micros, peak, status = map(int, ran.stdout.split())
    if status != 0:
        sys.exit(f"{program} ended with status {status}")
    return micros / 1e6, peak


def instructions(program, given):
    with open(given, "rb") as file:
        return run.instructions([program], file) or 0


def check(programs, given):
    """Check that both programs write the same bytes."""
    outputs = [f"{run.OUT}/patches-{number}" for number in range(2)]
    for program, output in zip(programs, outputs):
        measured(program, given, output)
    if not filecmp.cmp(*outputs, shallow=False):
        sys.exit("the programs wrote different responses")
    for output in outputs:
        os.remove(output)


def row(title, kind, wanted):
    """Return a line of the table."""
    side, count = wanted.side, wanted.side**2
    cells = cells_of_grid(run.grid_file(kind, 1, side))
    given = written("patches-request", request(cells, side, b"", [Question(b"g", kind=PATCHES)]))
    clump = written("clump-request", request(cells, side, CLUMP, []))
    programs = wanted.program, f"{run.OUT}/patches"
    check(programs, given)
    taken = [run.Taken() for _ in programs]
    for _ in range(wanted.rounds):
        for program, it in zip(programs, taken):
            it.add(*measured(program, given))
    counts = [instructions(program, given) / count for program in programs]
    more = (taken[0].peak - measured(wanted.program, clump)[1]) / count
    return (
        title,
        ", ".join(f"{it.seconds * 1e9 / count:.1f}" for it in taken),
        ", ".join(f"{it:.1f}" for it in counts) + f", {counts[0] / counts[1]:.2f}",
        ", ".join(f"{it.peak / count:.1f}" for it in taken),
        f"{more:.1f}",
    )


def table(wanted):
    yield from map(run.line_of, (HEAD, ["---"] * len(HEAD)))
    for title, kind in (("patchy land cover", "patchy"), ("noise", "noise")):
        yield run.line_of(row(title, kind, wanted))


def main():
    parser = argparse.ArgumentParser(
        description=__doc__, formatter_class=argparse.RawDescriptionHelpFormatter
    )
    parser.add_argument("--rounds", type=int, default=5)
    parser.add_argument("--side", type=int, default=run.FEW_SIDE)
    parser.add_argument("--program", default=f"{run.ROOT}/bin/rcell-pipe", type=os.path.abspath)
    parser.add_argument("--write", action="store_true")
    wanted = parser.parse_args()
    run.build()
    run.compile_to("patches", "patches", machine="x86-64-v2")
    run.print_table(table(wanted), MARKS, wanted.program, wanted.write)


if __name__ == "__main__":
    main()

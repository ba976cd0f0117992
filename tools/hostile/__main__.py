#!/usr/bin/env python3
"""Use the program as an attacker would, and compare each run with the plain model in
tools/model/model.py.

    tools/hostile [--short] [--slice K/N] [--program PATH] [--seed S] [--keep FOLDER] --clang CLANG
    [PART..]

    growths   each growth of memory is denied in turn, for each case: status 3, and the output ends
              with a complete statement
    tests     the same for the built test programs of the crates: each ends with its own result or
              assertion; a call that leaves its object unchanged is repeated
    reads     each read fails in turn, once or for good; each reports an end once; and reads return
              pieces of 1 to 70 bytes and of about one block
    writes    the same for writes, and standard error that accepts nothing
    outputs   full, closed and waiting outputs, files limited to each size, a full disk
    inputs    named pipes, standard input as script and as grid, pauses in the middle of a token
    terminals each file on a terminal that reports an end at the start of a line and then continues
    bytes     each proper prefix of each grid, script, rule block and expression; each byte replaced
              with nine others
    stack     each case and the deepest expressions on a stack of 64 KiB
    sizes     the largest inputs, 2,000 grids and 1,200 maps
    memory    the bytes per cell of each command, over patches and over noise
    times     the time for 1,000, 10,000 and 100,000 things of each kind: it grows at most linearly

Without names, all parts are run. With --short, each part selects some of its runs and takes less
than a minute. Differences are written to FOLDER as cases that can be put under cases/. The last
line is 'N passed, M failed'.
"""
import argparse
import os
import random
import sys
import tempfile
import time

sys.path.insert(1, os.path.abspath(f"{__file__}/../../model"))

import devices
import growths
import sizes
import texts
from case_texts import Report, cases_of
from cases import build_shim
from compare import BIN, ROOT, Program

ALL = 10**9

# The size of each part in a short run.
SHORT = {
    "cases": 30,
    "longest": 1000,
    "places": 3,
    "places_of_long": 2,
    "changes": 1500,
    "growths": 2,
}
WHOLE = {
    "cases": ALL,
    "longest": ALL,
    "places": ALL,
    "places_of_long": 60,
    "changes": None,
    "growths": ALL,
}


def some(cases, settings):
    """Return all cases, or some of them in a short run."""
    names = settings.random.sample(list(cases.made), min(settings.cases, len(cases.made)))
    return {name: cases.made[name] for name in sorted(names)}


def of_devices(part):
    return lambda report, program, shims, cases, settings: part(
        report, devices.Devices(program, shims["devices"]), some(cases, settings), settings
    )


def of_sizes(part):
    return lambda report, program, shims, cases, settings: part(report, program, shims["devices"])


PARTS = {
    "growths": lambda report, program, shims, cases, settings: growths.growths(
        report, program, shims["refuse"], cases, settings
    ),
    "tests": lambda report, program, shims, cases, settings: growths.tests(
        report, program.room, shims["refuse"], settings
    ),
    "reads": of_devices(devices.reads),
    "writes": of_devices(devices.writes),
    "outputs": of_devices(devices.outputs),
    "inputs": of_devices(devices.inputs),
    "terminals": of_devices(devices.terminals),
    "bytes": lambda report, program, shims, cases, settings: texts.spoiled(
        report, program, cases.made, settings
    ),
    "stack": lambda report, program, shims, cases, settings: sizes.stack(
        report, program, cases.made, settings
    ),
    "sizes": of_sizes(sizes.greatest),
    "memory": of_sizes(sizes.memory),
    "times": of_sizes(sizes.growing),
}
NOT_SHORT = ("inputs", "memory", "times")
# The parts that are left out for a program compiled without proofs, and why.
NOT_UNPROVED = {
    "tests": "only the gate builds the tests of the crates",
    "stack": "an unproved program takes more of the stack",
}


def is_unproved(program):
    """Return whether a program was compiled without proofs, as recorded next to it by
    tools/build/unproved.py."""
    try:
        with open(f"{program}.origin", encoding="utf-8") as file:
            return file.read().startswith("NOT proved")
    except FileNotFoundError:
        return False


def processor_seconds():
    return sum(os.times()[:4])


def settings_of(words):
    parser = argparse.ArgumentParser(
        description=__doc__, formatter_class=argparse.RawDescriptionHelpFormatter
    )
    parser.add_argument("--short", action="store_true")
    parser.add_argument("--program", default=f"{BIN}/rcell")
    parser.add_argument("--seed", type=int, default=1)
    parser.add_argument("--keep", default=os.path.join(tempfile.gettempdir(), "rcell-hostile"))
    parser.add_argument("--clang", required=True)
    parser.add_argument(
        "--slice",
        type=lambda text: tuple(int(number) for number in text.split("/")),
        default=(1, 1),
        metavar="K/N",
        help="of the part bytes only one in N, beginning with number K",
    )
    parser.add_argument("parts", nargs="*", metavar="PART")
    settings = parser.parse_args(words)
    if set(settings.parts) - set(PARTS):
        parser.error(f"the parts are {', '.join(PARTS)}")
    for name, value in (SHORT if settings.short else WHOLE).items():
        setattr(settings, name, value)
    settings.random = random.Random(settings.seed)
    settings.parts = settings.parts or [
        part for part in PARTS if not settings.short or part not in NOT_SHORT
    ]
    return settings


def main():
    settings = settings_of(sys.argv[1:])
    report = Report(os.path.abspath(settings.keep))
    with tempfile.TemporaryDirectory(
        prefix="rcell-hostile-", dir="/dev/shm" if os.path.isdir("/dev/shm") else None
    ) as room:
        shims = {name: f"{room}/{name}.so" for name in ("refuse", "devices")}
        for name, shim in shims.items():
            build_shim(settings.clang, shim, name)
        program = Program(settings.program, room)
        cases = cases_of(f"{room}/cases")
        for part in settings.parts:
            if part in NOT_UNPROVED and is_unproved(settings.program):
                print(f"skipped  hostile/{part}: {NOT_UNPROVED[part]}")
                continue
            begun, spent = time.monotonic(), processor_seconds()
            PARTS[part](report, program, shims, cases, settings)
            print(
                f"{part}: {time.monotonic() - begun:.0f} s, {processor_seconds() - spent:.0f} of a processor",
                flush=True,
            )
        os.chdir(ROOT)
    print(f"{report.runs} runs")
    print(f"{report.passed} passed, {report.failed} failed")
    return 1 if report.failed else 0


if __name__ == "__main__":
    sys.exit(main())

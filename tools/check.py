#!/usr/bin/env python3
"""Run the gate: all proofs, then the proved programs on the cases, the documents and the release,
and each package.

    check.py [--complete] [PART..]
    check.py --unproved [PART..]      only what needs no proofs, with programs compiled without them
                                      (`make test`)

Without names, all parts are run; `list` prints their names. The programs are in bin/, or in
RCELL_BIN. A part is a program whose output ends in 'N passed, M failed' or 'N passed, M failed, K
skipped'; its standard error is shown but not counted. If something is not installed, the part is
skipped, with a line 'skipped  PART: NEEDS; install: apt-get install PACKAGES'. At the end, a table
of the parts with their processor seconds and a closing line with all counts are printed. The status
is 0 if nothing failed and, with --complete, nothing was skipped. The closing line of a full run is
kept in bin/gate, for PROVED.txt of the release.
"""
import argparse
import functools
import os
import re
import signal
import subprocess
import sys
import time
from concurrent.futures import ThreadPoolExecutor
from dataclasses import dataclass

sys.path.insert(1, f"{os.path.dirname(os.path.abspath(__file__))}/build")

import build

ROOT = build.ROOT
COUNTS = re.compile(r"(\d+) passed, (\d+) failed(?:, (\d+) skipped)?\n?")
SKIPPED = "skipped  "
# How a command reports what it ran, and what it kept from earlier runs.
NOTE = re.compile(r"rt: ok; |ran: ")
PYTHON = [sys.executable]
CLANG = "CLANG"  # stands for the kit's clang in a command
LINES_OF_A_FAILURE = 60  # repeated at the end, since logs of a gate are cut to their last lines


@dataclass
class Part:
    """A part of the gate: its name, what it tests, and its commands. Without counts, each command
    is one check."""

    name: str
    tries: str
    commands: list
    has_counts: bool = True
    needs_programs: bool = True
    needs_proofs: bool = False


@dataclass
class Result:
    """The counts of a part, its processor seconds, what its proofs reported as run or kept, and the
    end of what it printed."""

    name: str
    passed: int = 0
    failed: int = 0
    skipped: int = 0
    seconds: float = 0
    note: str = ""
    ending: str = ""

    def add(self, passed, failed, skipped):
        self.passed, self.failed, self.skipped = (
            self.passed + passed,
            self.failed + failed,
            self.skipped + skipped,
        )


def tool(name, *words):
    return [*PYTHON, f"tools/{name}", *words]


# The gate tries all edits of these crates, and the named edits of all other crates. `make edits`
# tries all edits of all crates, at about eight processor seconds each.
EDITED = (
    "cell_calc_grammar",
    "cell_core",
    "cell_core_devices",
    "cell_core_values",
    "cell_join_numbers",
    "cell_join_patches",
    "cell_stats_combinations",
    "rcell_command",
    "rcell_pipe_frames",
    "rcell_pipe_law",
    "rcell_pipe_request",
    "rcell_pipe_response",
    "rcell_pipe_rows",
    "rcell_plan",
    "rcell_plan_response",
    "rcell_worked",
)
# The parts before the proofs take seconds. If one fails, the gate ends there.
EARLY = [
    Part(
        "tools",
        "how the gate counts, and how it tries edits",
        [tool("build/test_gate.py")],
        needs_programs=False,
    ),
    Part(
        "stale_edits",
        "each edit fits its files",
        [tool("build/edits.py", "--stale")],
        needs_programs=False,
    ),
    Part(
        "texts",
        "messages, figures and pages that need no program",
        [tool("documents/documents.py", "--texts")],
        needs_programs=False,
    ),
    Part("lint", "widths, names, limits, licences", [tool("lint")], needs_programs=False),
]
PROOFS = Part(
    "proofs",
    "each proof, each test, and some wrong bodies",
    [["rt", "ci"]],
    needs_programs=False,
    needs_proofs=True,
)
LATE = [
    Part(
        "edits",
        "wrong bodies and turned definitions that the proofs must refuse",
        [tool("build/edits.py", "--evidence", "--named", *EDITED)],
        needs_programs=False,
        needs_proofs=True,
    ),
    Part(
        "cases",
        "rcell on each case, with each growth refused in turn",
        [tool("model/cases.py", CLANG)],
    ),
    Part(
        "joined",
        "scripts over tiles, joined with rcell-pipe, beside full maps; damaged requests",
        [tool("join")],
    ),
    Part(
        "pipe",
        "rcell-pipe on random requests beside rcell, and on damaged ones",
        [
            tool("model/test_pipe.py", CLANG),
            tool("model/test_tiles.py"),
            tool("model/test_plan.py"),
            tool("model/test_join.py"),
        ],
    ),
    Part("documents", "each example of the documents", [tool("documents/documents.py")]),
    Part(
        "hostile",
        "broken devices, bytes, sizes and memory, in short",
        [tool("hostile", "--short", "--clang", CLANG)],
    ),
    Part(
        "models",
        "rcell beside the plain model of the definitions",
        [
            tool("model/compare.py", "--cases"),
            tool("model/compare.py", "--runs", "3000", "--seed", "1"),
            tool(
                "model/compare.py",
                "--runs",
                "500",
                "--seed",
                "1",
                "--maps",
                "stretches",
                "--pieces",
                CLANG,
            ),
        ],
        has_counts=False,
    ),
    Part(
        "objects",
        "the objects that the programs were linked from",
        [tool("build/objects.py")],
        has_counts=False,
        needs_proofs=True,
    ),
    Part(
        "release",
        "the release, without the kit and the sources",
        [tool("build/check_release.py")],
        needs_proofs=True,
    ),
    *[
        Part(front, f"what {front}/ has of its own", [["sh", f"{front}/gate.sh"]])
        for front in ("python", "r", "qgis", "grass", "fronts")
    ],
]
PARTS = [*EARLY, PROOFS, *LATE]
LONGEST = ["fronts", "python", "r", "documents", "pipe", "cases", "hostile", "joined"]


def counts_of(lines, status, has_counts):
    """Return a command's counts, from the last line of its standard output in their format."""
    found = [it for it in map(COUNTS.fullmatch, lines) if it] if has_counts else []
    listed = sum(line.startswith(SKIPPED) for line in lines)
    if not found:
        return (1, 0, listed) if status == 0 and not has_counts else (0, 1, listed)
    passed, failed, skipped = (int(it or 0) for it in found[-1].groups())
    return passed, max(failed, int(status != 0)), max(skipped, listed)


def run(part, show=print):
    """Run a part, and show its output line by line."""
    show(f"== {part.name}: {part.tries}")
    result = Result(part.name)
    for command in part.commands:
        words = [f"{build.kit()}/toolchain/bin/clang" if it == CLANG else it for it in command]
        with subprocess.Popen(
            words,
            cwd=ROOT,
            env={**os.environ, "RCELL_BIN": programs()},
            stdin=subprocess.DEVNULL,
            stdout=subprocess.PIPE,
            text=True,
            errors="replace",
        ) as ran:
            lines = []
            for line in ran.stdout:
                lines.append(line)
                show(line.removesuffix("\n"))
            _, status, used = os.wait4(ran.pid, 0)
            ran.returncode = os.waitstatus_to_exitcode(status)
        result.seconds += used.ru_utime + used.ru_stime
        result.add(*counts_of(lines, ran.returncode, part.has_counts))
        if result.failed:
            result.ending = result.ending or "".join(lines[-LINES_OF_A_FAILURE:])
        result.note = next(
            (NOTE.sub("", it).strip() for it in reversed(lines) if NOTE.match(it)), result.note
        )
    return result


def programs():
    """Return the folder of the programs."""
    return os.path.abspath(os.environ.get("RCELL_BIN", f"{ROOT}/bin"))


def has_programs():
    return all(os.path.exists(f"{programs()}/{name}") for name in build.PROGRAMS.values())


def run_all(parts):
    """Run parts in order. If a part fails that the others need, stop there."""
    results = []
    for part in parts:
        if part.needs_programs and not has_programs():
            print(f"{part.name}: a program is missing in {programs()}: run make first")
            return [*results, Result(part.name, failed=1)]
        results.append(run(part, functools.partial(print, flush=True)))
        if part in [*EARLY, PROOFS] and results[-1].failed:
            return results
        if part is PROOFS:
            take_proved()
    return results


def take_proved():
    """Put the programs into bin/, and leave the libraries of all crates for the edits, which also
    try laws."""
    for crate in build.PROGRAMS:
        build.take_built(crate, ROOT)
    for crate in build.crates_of(build.uses()):
        crate.note_proved()


def run_unproved(part):
    """Run a part on unproved programs, and show its output when it has ended. A part about proofs
    is skipped."""
    if part.needs_proofs:
        print(f"{SKIPPED}{part.name}: it is about proofs; run: make check", flush=True)
        return Result(part.name, skipped=1)
    lines, begun = [], time.monotonic()
    result = run(part, lines.append)
    print(*lines, f"{part.name} ended after {time.monotonic() - begun:.0f} s", sep="\n", flush=True)
    return result


def compiled():
    """Compile the programs without proofs, and return the result."""
    unproved = Part(
        "programs",
        "the programs compile without proofs",
        [tool("build/unproved.py")],
        has_counts=False,
    )
    return run(unproved, functools.partial(print, flush=True))


def run_all_unproved(parts):
    """Run parts in parallel on programs compiled here, longest first."""
    results = [compiled()]
    if results[0].failed:
        return results
    order = sorted(parts, key=lambda it: LONGEST.index(it.name) if it.name in LONGEST else 99)
    with ThreadPoolExecutor(len(os.sched_getaffinity(0))) as pool:
        return results + list(pool.map(run_unproved, order))


def said_by(*words):
    return subprocess.run(
        words, cwd=ROOT, capture_output=True, text=True, check=False
    ).stdout.strip()


def sum_of(name):
    return said_by("sha256sum", f"bin/{name}").split(" ")[0]


def keep_closing(results, closing):
    """Record the closing line with its commit, kit and programs, unless the sources are
    modified."""
    commit = said_by("git", "rev-parse", "HEAD")
    if not commit or said_by("git", "status", "--porcelain"):
        return
    proofs = next(it.note for it in results if it.name == PROOFS.name)
    with open(f"{ROOT}/bin/gate", "w", encoding="utf-8") as file:
        file.write(
            f"commit: {commit}\nkit: {said_by('rt', 'version')}\nprogram: {sum_of('rcell')}\n"
            f"pipe: {sum_of('rcell-pipe')}\nproofs: {proofs}\nclosing: {closing}\n"
        )


def table(results, wall):
    rows = [("part", "passed", "failed", "skipped", "processor s")]
    rows += [(it.name, it.passed, it.failed, it.skipped, f"{it.seconds:.0f}") for it in results]
    rows += [
        (
            "all",
            *(sum(getattr(it, key) for it in results) for key in ("passed", "failed", "skipped")),
            f"{sum(it.seconds for it in results):.0f}",
        )
    ]
    lines = ["{:<12}{:>8}{:>8}{:>9}{:>13}".format(*row) for row in rows]
    notes = [f"{it.name}: {it.note}" for it in results if it.note]
    others = (
        "the other parts keep nothing: each of their checks was run"
        if len(results) > len(notes)
        else ""
    )
    return "\n".join(
        [
            *lines,
            *notes,
            *filter(None, [others]),
            f"{wall / 60:.0f} minutes on {len(os.sched_getaffinity(0))} processors",
        ]
    )


def hear_signals():
    """Restore the default handling of ignored signals. A shell ignores them for background
    processes, and tests send them."""
    for number in (signal.SIGHUP, signal.SIGINT, signal.SIGQUIT, signal.SIGTERM):
        if signal.getsignal(number) == signal.SIG_IGN:
            signal.signal(number, signal.SIG_DFL)


def main():
    hear_signals()
    words = argparse.ArgumentParser(
        description=__doc__, formatter_class=argparse.RawDescriptionHelpFormatter
    )
    words.add_argument(
        "--complete", action="store_true", help="what is skipped counts as a failure of the run"
    )
    words.add_argument(
        "--unproved", action="store_true", help="only what needs no proof, on unproved programs"
    )
    words.add_argument("parts", nargs="*", metavar="PART")
    given, begun = words.parse_args(), time.monotonic()
    names = [part.name for part in PARTS]
    if given.parts == ["list"]:
        print(*names, sep="\n")
        return 0
    if unknown := set(given.parts) - set(names):
        words.error(
            f"no part is called {' '.join(sorted(unknown))}; the parts are {' '.join(names)}"
        )
    parts = [part for part in PARTS if not given.parts or part.name in given.parts]
    if given.unproved:
        os.environ["RCELL_BIN"] = f"{ROOT}/test-bin"
    results = run_all_unproved(parts) if given.unproved else run_all(parts)
    passed, failed, skipped = (
        sum(getattr(it, key) for it in results) for key in ("passed", "failed", "skipped")
    )
    closing = f"{passed} passed, {failed} failed, {skipped} skipped"
    for result in results:
        if result.ending:
            print(f"== {result.name}: the end of its output, since it failed\n{result.ending}")
    print(table(results, time.monotonic() - begun))
    if len(results) == len(PARTS) and not given.unproved:
        keep_closing(results, closing)
    print(closing, flush=True)
    return 1 if failed or (given.complete and skipped) else 0


if __name__ == "__main__":
    sys.exit(main())

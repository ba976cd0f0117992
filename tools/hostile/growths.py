"""Deny each growth of memory in turn: for the program on each case, and for the built test programs
of the crates."""
from __future__ import annotations

import glob
import itertools
import os
import re
import signal
import subprocess
import time
from typing import Iterator

import model
from compare import ROOT, Program, answer_of_model, is_told_refusal, read
from case_texts import Cases, Made, Report

SECONDS = 120  # maximum time of a test
MOST_GROWTHS = 2000  # if a test grows more often, some growths are selected
SECONDS_OF_CHOICE = 60  # time for the selected growths
PASSED, FAILED = 0, 101  # statuses of a test that returned
ASSERTED = -signal.SIGABRT  # status of a test with a failed assertion
FIRST_REFUSED = b"rcell: arguments:0: no memory\n"  # the first growth is for the arguments
TEST = re.compile(r"^(\S+): test$", re.M)
AGAIN = "_again"  # suffix of tests that repeat a failed call on an unchanged object
TOLD_AGAIN = b"made again"  # printed by a test that repeats a call
CALLS_AGAIN = 8  # calls that leave their object unchanged, and runs whose flush works or fails


# The program


def numbers(settings, asked: int) -> Iterator[int]:
    """Return the numbers of the growths to deny: all, counted upwards without an end, or some of
    those requested."""
    if settings.growths >= asked:
        return itertools.count(1)
    return iter(sorted(settings.random.sample(range(1, asked + 1), settings.growths)))


def wrong_growth(
    program: Program, made: Made, expected: model.Answer, shim: str, settings
) -> tuple[str, int]:
    """Return the error of a run in which a growth is denied, and the number of denied growths."""
    plain, asked = program.answer_refused(made.words, shim, 0)
    if plain != expected:
        return f"{plain}, and not {expected}", 0
    first, _ = program.answer_refused(made.words, shim, 1)
    if (first.status, first.output, first.told) != (3, b"", FIRST_REFUSED):
        return f"with the first growth refused: {first}", 0
    refused = 0
    for at in numbers(settings, asked):
        got, asked = program.answer_refused(made.words, shim, at)
        if asked < at:
            return (
                "" if got == expected else f"growth {at} was not asked for, and yet {got}"
            ), refused
        refused += 1
        # If the program asks again, or does without memory that only saves time, it does all its
        # work.
        if got != expected and not is_told_refusal(expected, got):
            return f"with growth {at} refused: {got}", refused
    return "", refused


def in_turn(program: Program, cases: Cases) -> Iterator[tuple[str, Made, model.Answer]]:
    """Yield each case, with its files in the current folder, and the model's result."""
    for name, made in cases.made.items():
        program.put(made)
        yield name, made, answer_of_model(made)
    for name, (folder, words, expected) in cases.others.items():
        os.chdir(folder)
        yield name, Made({}, [], words), expected
    os.chdir(program.room)


def growths(report: Report, program: Program, shim: str, cases: Cases, settings) -> None:
    refused = number = 0
    for name, made, expected in in_turn(program, cases):
        wrong, count = wrong_growth(program, made, expected, shim, settings)
        refused, number = refused + count, number + 1
        report.check(f"growths of {name}", wrong)
    report.runs += refused
    print(f"growths: {number} cases, {refused} growths refused in turn")


# The tests of the crates


def run_test(path: str, test: str, room: str, shim: str, at: int) -> tuple[int, bytes, int]:
    """Return how a test ends with growth `at` denied, its output, and the number of growths that it
    requested."""
    count = f"{room}/count"
    environment = {
        "PATH": "/usr/bin:/bin",
        "LD_PRELOAD": shim,
        "REFUSE_AT": str(at),
        "REFUSE_COUNT": count,
    }
    done = subprocess.run(
        [path, test],
        cwd=room,
        env=environment,
        stdin=subprocess.DEVNULL,
        capture_output=True,
        timeout=SECONDS,
    )
    return done.returncode, done.stderr, int(read(count, b"0"))


def is_end(test: str, status: int, told: bytes) -> bool:
    """Return whether a test may end like this with a denied growth. A test that repeats a failed
    call must find everything as it asserts."""
    return (
        status in (PASSED, FAILED)
        or not test.endswith(AGAIN)
        and status == ASSERTED
        and b"assert" in told
    )


def end_of(status: int, told: bytes) -> str:
    if status == PASSED:
        return "made again" if TOLD_AGAIN in told else "passed"
    return "named memory" if re.search(rb"Alloc|[Mm]emory", told) else "failed"


def wrong_test(path: str, test: str, room: str, shim: str, settings) -> tuple[str, dict[str, int]]:
    """Deny each growth of a test in turn. Return the error, and how the runs ended."""
    status, told, asked = run_test(path, test, room, shim, 0)
    ends = {
        "growths": asked,
        "refused": 0,
        "passed": 0,
        "made again": 0,
        "named memory": 0,
        "failed": 0,
    }
    if status != PASSED:
        return f"status {status}, told {told!r}", ends
    chosen = (
        range(1, asked + 1)
        if asked <= MOST_GROWTHS
        else settings.random.sample(range(1, asked + 1), MOST_GROWTHS)
    )
    begun = time.monotonic()
    for at in chosen:
        if asked > MOST_GROWTHS and time.monotonic() - begun > SECONDS_OF_CHOICE:
            break
        status, told, _ = run_test(path, test, room, shim, at)
        ends["refused"] += 1
        if not is_end(test, status, told):
            return f"with growth {at} refused: status {status}, told {told!r}", ends
        ends[end_of(status, told)] += 1
    if test.endswith(AGAIN) and not ends["made again"]:
        return "no call was made again", ends
    return "", ends


def tests(report: Report, room: str, shim: str, settings) -> None:
    """Test the test programs that the gate built: with a denied growth, a test ends only with its
    own result or assertion.

    A short run includes only the tests that repeat a failed call.
    """
    programs = sorted(glob.glob(f"{ROOT}/crates/*/out/*_tests"))
    made_again = 0
    for path in programs:
        listed = subprocess.run([path, "--list"], capture_output=True, text=True, check=True).stdout
        for test in TEST.findall(listed):
            made_again += test.endswith(AGAIN)
            if settings.short and not test.endswith(AGAIN):
                continue
            name = f"{os.path.basename(path)} {test}"
            wrong, ends = wrong_test(path, test, room, shim, settings)
            report.runs += ends["refused"]
            if report.check(f"tests: {name}", wrong):
                print(
                    f"tests: {name}: " + ", ".join(f"{count} {end}" for end, count in ends.items()),
                    flush=True,
                )
    print(
        f"tests: {len(programs)} test programs, in which {made_again} tests make a refused call once more"
    )
    report.check(
        "tests: refused calls made again",
        "" if made_again >= CALLS_AGAIN else f"{made_again} of {CALLS_AGAIN} are built",
    )

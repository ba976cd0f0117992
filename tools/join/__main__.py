#!/usr/bin/env python3
"""Cut maps into tiles, run scripts and questions over the tiles with rcell-pipe, join the results,
and compare them with the full maps. Also send damaged requests.

    tools/join [--program PROGRAM] [--runs N] [--seed N] [--spoiled N]

- N random flows, and some over maps that are hard to cut. A flow consists of maps, a grid of tiles,
  the halo that the plan of its script needs, requests for all tiles, and requests that join the
  tiles' tables, borders and patches. Each result must equal the result for the full maps. In one
  flow in four, each response must also equal the plain model's.
- N damaged requests of each flow: truncated, with changed bytes, mixed with other requests, or with
  swapped parts. Also each truncation and each changed byte of a small request of each kind. The
  response must be the first error that the plain reader finds, or the plain model's response if the
  request is still valid. The program has at most 300 MB of memory.

The last line is 'N passed, M failed'.
"""
from __future__ import annotations

import argparse
import os
import random
import resource
import struct
import sys
import tempfile
from collections import Counter

ROOT = os.path.abspath(f"{__file__}/../../..")
BIN = os.environ.get("RCELL_BIN", f"{ROOT}/bin")
sys.path.insert(1, f"{ROOT}/tools/model")

import cases
import made
from flow import Flow, Job, Pipe, Wrong
from jobs import features, job_of_cut, random_job
from spoiled import JOIN, all_spoiled, any_spoiled, swapped, small_requests, wrong_response
from test_join import BadRequest

MODELLED = 0.25  # the share of flows that the model also runs
MOST_BYTES = 3000  # longer requests are not damaged, because the model is slow
MOST_MEMORY = 300 << 20
BAD = (Wrong, ValueError, BadRequest, struct.error, OSError)


class Checks:
    """Counts the checks that passed and failed, and what was tried."""

    def __init__(self, pipe: Pipe):
        self.pipe, self.count = pipe, cases.Count()
        self.tried: Counter[str] = Counter()

    def flow(self, name: str, job: Job) -> Flow:
        flow, wrong = Flow(self.pipe, job), ""
        try:
            flow.check()
        except BAD as error:
            wrong = repr(error)
        self.count.add(f"{name}, {job.cut.ends} and {job.cut.col_ends}, {job.script!r}", wrong)
        self.tried.update(features(job))
        self.tried["requests of flows"] += len(flow.sent)
        return flow

    def response(self, name: str, data: bytes, status: int, output: bytes) -> None:
        """Compare a response with the plain model's."""
        try:
            wrong = wrong_response(data, status, output)
        except BAD as error:
            wrong = repr(error)
        self.count.add(f"{name}: {data!r}", wrong)

    def spoiled(self, name: str, data: bytes) -> None:
        try:
            status, output = self.pipe.run(data)
        except BAD as error:
            self.count.add(f"{name}: {data!r}", repr(error))
            return
        self.response(name, data, status, output)
        self.tried["damaged requests"] += 1
        self.tried["damaged requests that are valid"] += status == 0


def spoil(checks: Checks, name: str, draw: random.Random, sent: list[bytes], runs: int) -> None:
    """Damage some of the requests of a flow."""
    small = [data for data in sent if len(data) <= MOST_BYTES]
    joins = [data for data in small if data.startswith(JOIN)]
    for _ in range(runs if small else 0):
        if joins and draw.random() < 0.3:
            checks.spoiled(f"{name}, swapped", swapped(draw, draw.choice(joins), joins))
        else:
            checks.spoiled(f"{name}, damaged", any_spoiled(draw, draw.choice(small), small))


def random_flows(checks: Checks, seeds: range, spoiled: int) -> None:
    before: list[bytes] = []
    for seed in seeds:
        draw = random.Random(seed)
        flow = checks.flow(f"flow {seed}", random_job(draw))
        if draw.random() < MODELLED:
            for it in flow.sent:
                checks.response(f"flow {seed}, by the model", *it)
            checks.tried["responses of flows compared with the model"] += len(flow.sent)
        sent = [it.data for it in flow.sent]
        spoil(checks, f"flow {seed}", draw, sent + before, spoiled)
        before = sent


def check_all(checks: Checks, runs: int, seed: int, spoiled: int) -> None:
    for name, cut in made.hard_cuts():
        for connectivity in (4, 8):
            checks.flow(f"{name}, {connectivity}", job_of_cut(cut, connectivity))
    resource.setrlimit(resource.RLIMIT_AS, (MOST_MEMORY, MOST_MEMORY))
    random_flows(checks, range(seed, seed + runs), spoiled)
    for name, data in small_requests():
        for number, it in enumerate([data, *all_spoiled(data)]):
            checks.spoiled(f"{name}, {number}", it)


def main() -> int:
    words = argparse.ArgumentParser(
        description=__doc__, formatter_class=argparse.RawDescriptionHelpFormatter
    )
    words.add_argument("--program", default=f"{BIN}/rcell-pipe")
    words.add_argument("--runs", type=int, default=150, help="random flows")
    words.add_argument("--seed", type=int, default=1)
    words.add_argument("--spoiled", type=int, default=4, help="damaged requests of each flow")
    given = words.parse_args()
    with tempfile.TemporaryDirectory(
        prefix="join-", dir="/dev/shm" if os.path.isdir("/dev/shm") else None
    ) as folder:
        checks = Checks(Pipe(given.program, folder))
        check_all(checks, given.runs, given.seed, given.spoiled)
    for what, times in checks.tried.most_common():
        print(f"{times:8} {what}")
    print(f"{checks.count.passed} passed, {checks.count.failed} failed")
    return 1 if checks.count.failed else 0


if __name__ == "__main__":
    sys.exit(main())

# SPDX-License-Identifier: Apache-2.0 OR GPL-2.0-or-later
"""Start a Dask cluster in two network namespaces of this machine."""

from __future__ import annotations

import os
import pathlib
import shutil
import subprocess
import sys
from contextlib import ExitStack
from itertools import count

__all__ = ["Namespaces", "NotPossible"]

_NUMBERS = count(1)

_SCHEDULER = """
import asyncio
from distributed import Scheduler
async def main():
    async with Scheduler(host="0.0.0.0", port=8786, dashboard=False) as scheduler:
        print("ready", flush=True)
        await scheduler.finished()
asyncio.run(main())
"""
_WORKER = """
import asyncio, sys
from distributed import Worker
async def main():
    words = {"host": sys.argv[1], "local_directory": sys.argv[2], "nthreads": 1}
    async with Worker(sys.argv[3], **words) as worker:
        print("ready", flush=True)
        await worker.finished()
asyncio.run(main())
"""


class NotPossible(Exception):
    """Raised if network namespaces cannot be created here; the argument is the reason."""


class Namespaces:
    """Two network namespaces with a worker each.

    The scheduler is in the first namespace, which this process can reach.

    Parameters
    ----------
    opened : ExitStack
        Stops all processes, and removes the namespaces.
    folder : path
        The folder for the workers.

    Attributes
    ----------
    address : str
        The address of the scheduler.
    places : list of str
        The addresses of the workers' machines.
    workers : list of int
        The process ids of the workers.
    """

    def __init__(self, opened: ExitStack, folder: pathlib.Path) -> None:
        if not shutil.which("ip") or os.geteuid() != 0:
            raise NotPossible("network namespaces need root, and ip of Debian's package iproute2")
        self._opened = opened
        self._link = f"rc{os.getpid()}-{next(_NUMBERS)}"[:15]
        # Other processes may create namespaces at the same time.
        outer, inner = (f"10.77.{os.getpid() % 100 * 2 + at}" for at in range(2))
        self.address = f"tcp://{outer}.2:8786"
        self.places = [f"{inner}.1", f"{inner}.2"]
        self.names = first, second = [f"{self._link}{letter}" for letter in "ab"]
        try:
            self._connect(first, second, outer, inner)
        except subprocess.CalledProcessError as error:
            told = error.stderr.decode().strip()
            raise NotPossible(f"network namespaces cannot be made here: {told}") from None
        self._start(first, _SCHEDULER)
        scheduler = f"tcp://{inner}.1:8786"
        self.workers = [
            self._start(name, _WORKER, place, str(folder), scheduler)
            for name, place in zip(self.names, self.places)
        ]

    def _connect(self, first: str, second: str, outer: str, inner: str) -> None:
        """Connect this namespace to the first, and the first to the second."""
        for name in self.names:
            self._ip("netns", "add", name)
            self._opened.callback(self._ip, "netns", "delete", name)
        here = self._link
        for link, where, other in ((here, None, first), ("middle", first, second)):
            words = [] if where is None else ["netns", where]
            peer = ["peer", "name", "outer", "netns", other]
            self._ip("link", "add", link, *words, "type", "veth", *peer)
        self._opened.callback(self._ip, "link", "delete", here)
        self._address(None, here, f"{outer}.1/24")
        self._address(first, "outer", f"{outer}.2/24")
        self._address(first, "middle", f"{inner}.1/24")
        self._address(second, "outer", f"{inner}.2/24")
        for name in self.names:
            self._ip("-n", name, "link", "set", "lo", "up")

    def _ip(self, *words: str) -> None:
        subprocess.run(["ip", *words], check=True, capture_output=True)

    def _address(self, name: str | None, link: str, address: str) -> None:
        where = [] if name is None else ["-n", name]
        self._ip(*where, "address", "add", address, "dev", link)
        self._ip(*where, "link", "set", link, "up")

    def _start(self, name: str, code: str, *words: str) -> int:
        """Start a program in a namespace, and return its process id."""
        command = ["ip", "netns", "exec", name, sys.executable, "-c", code, *words]
        process = subprocess.Popen(command, stdout=subprocess.PIPE, stderr=subprocess.DEVNULL)
        self._opened.callback(process.wait)
        self._opened.callback(process.kill)
        assert process.stdout is not None
        self._opened.callback(process.stdout.close)
        if process.stdout.readline() != b"ready\n":
            raise NotPossible("Dask cannot be started in a network namespace")
        return process.pid

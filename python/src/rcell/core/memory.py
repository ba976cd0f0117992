# SPDX-License-Identifier: Apache-2.0 OR GPL-2.0-or-later
"""Determine the memory and the number of processors available to this process."""

from __future__ import annotations

import contextlib
import os

__all__ = ["free_memory", "processors"]

_GROUP = "/sys/fs/cgroup"
# The free memory to assume if the system does not report it.
_UNKNOWN = 4 << 30


def processors() -> int:
    """Return the number of processors that this process may use."""
    if hasattr(os, "sched_getaffinity"):  # only on some systems, for example Linux
        return len(os.sched_getaffinity(0))
    return os.cpu_count() or 1


def free_memory() -> int:
    """Return the available memory in bytes, as limited by the machine and the control group."""
    limits = [_UNKNOWN]
    with contextlib.suppress(OSError, ValueError, KeyError, IndexError):
        with open("/proc/meminfo", encoding="ascii") as file:
            lines = dict(line.split(":", 1) for line in file)
        limits = [int(lines["MemAvailable"].split()[0]) * 1024]  # for example `8123456 kB`
    with contextlib.suppress(OSError, ValueError):
        limits.append(_number(f"{_GROUP}/memory.max") - _number(f"{_GROUP}/memory.current"))
    return max(min(limits), 0)


def _number(path: str) -> int:
    with open(path, encoding="ascii") as file:
        return int(file.read())

# SPDX-License-Identifier: Apache-2.0 OR GPL-2.0-or-later
"""Run `python3 -m rcell`, which is the same as `rcell-gis`."""

from __future__ import annotations

import sys

from .shell import main

__all__ = ["main"]

if __name__ == "__main__":
    sys.exit(main())

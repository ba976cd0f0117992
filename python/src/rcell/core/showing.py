# SPDX-License-Identifier: Apache-2.0 OR GPL-2.0-or-later
"""Show the progress of long calls."""

from __future__ import annotations

import contextlib
import sys
from typing import Any

from .host import Host

__all__ = ["Bar"]

# No bar is shown for calls that end earlier.
SECONDS = 2.0


class Bar:
    """A tqdm progress bar for terminals and notebooks, unless the host shows progress itself.

    Parameters
    ----------
    steps : int
    caller : Host
    """

    def __init__(self, steps: int, caller: Host) -> None:
        self._bar: Any = None
        is_seen = sys.stderr is not None and (sys.stderr.isatty() or _is_notebook())
        if caller.progress is None and is_seen:
            with contextlib.suppress(ImportError):
                from tqdm.auto import tqdm

                self._bar = tqdm(total=steps, unit="tile", delay=SECONDS, leave=False)

    def step(self) -> None:
        """Advance the bar by one finished tile."""
        if self._bar is not None:
            self._bar.update()

    def close(self) -> None:
        """Remove the bar."""
        if self._bar is not None:
            self._bar.close()


def _is_notebook() -> bool:
    return "ipykernel" in sys.modules

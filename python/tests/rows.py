"""Extract the rows of tables for tests."""

from __future__ import annotations

from typing import Any


def rows_of(frame: Any) -> list[tuple[Any, ...]]:
    """Return the rows of a DataFrame, with None for missing values."""
    listed = frame.astype(object).where(frame.notna(), None)
    return list(listed.itertuples(index=False, name=None))

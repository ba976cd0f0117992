# SPDX-License-Identifier: Apache-2.0 OR GPL-2.0-or-later
"""Reclassify maps with a crosswalk, a table of old and new classes."""

from __future__ import annotations

import dataclasses
import os
import re
from collections.abc import Iterable, Iterator, Mapping, Sequence
from typing import Any, NamedTuple, Optional

from .arguments import MAX_CATEGORY, first_of
from .errors import BadArgument, Refused
from .host import option
from .legends import is_missing, rows_of, whole_number
from .protocol import NULL
from .scripts import Run, Stats
from .sources import ArrayMap, MapLike, source_of

__all__ = ["reclass"]

_RANGE = re.compile(r"([+-]?[0-9]+) *- *([+-]?[0-9]+)")


class Rule(NamedTuple):
    """A rule that replaces a range of classes with a new class, or with null if `new` is None."""

    low: int
    high: int
    new: Optional[int]
    label: str

    @property
    def text(self) -> str:
        """The rule in r.reclass syntax."""
        classes = str(self.low) if self.low == self.high else f"{self.low} thru {self.high}"
        return f"{classes} = {'NULL' if self.new is None else self.new} {self.label}".rstrip()


def reclass(map: MapLike, rules: Any, other: Optional[str] = None, *, crs: Any = None) -> ArrayMap:
    """Replace the classes of a map with new classes, using a crosswalk.

    Parameters
    ----------
    map : path, array, or any map that `run` accepts
    rules : path, dict or DataFrame
        A CSV or DataFrame with the columns `value` (a class, or a range such as `31-39`), `new` (a
        class, or empty for null) and, optionally, `label`; or a dict that maps a class or a range
        `(first, last)` to a new class.
    other : {"keep", "null"}, optional
        Whether to keep classes without a rule or set them to null. By default, the call raises an
        error that lists these classes.
    crs : any, optional
        The coordinate reference system to assume for a map that does not have one.

    Returns
    -------
    Raster
        The new map, with labels from the rules. Classes without a rule keep their labels.

    Raises
    ------
    Refused
        A class of the map has no rule.
    BadArgument
        A class has two rules or is not a whole number, or an argument is invalid.

    Examples
    --------
    >>> import numpy as np, rcell
    >>> rcell.reclass(np.array([[31, 35, 51]]), {(31, 39): 3, 51: None}).array.tolist()
    [[3, 3, None]]
    """
    if other not in (None, "keep", "null"):
        raise BadArgument("other", f'must be "keep", "null" or None; got {other!r}')
    listed = _checked(_rules_of(rules))
    source = source_of("map", map)
    lines = ["r.reclass input=map output=new"]
    lines += [rule.text for rule in _joined(listed)]
    if other == "keep":
        lines.append("* = *")
    lines.append("end")
    if other is None:
        lines.append("r.stats -c input=map,new")
    run = Run("\n".join(lines), {"map": source}, named={}, crs=crs)
    *tables, reclassified = run.outputs(["new"])
    assert isinstance(reclassified, ArrayMap)
    for table in tables:  # one table, or none if `other` is given
        assert isinstance(table, Stats)
        _check_all(table.categories.tolist(), listed)
    labels = {rule.new: rule.label for rule in listed if rule.new is not None and rule.label}
    own = dict(source.labels) if other == "keep" else {}
    is_path = isinstance(rules, (str, os.PathLike))
    files = (*reclassified.files, *([os.fspath(rules)] if is_path else []))
    return dataclasses.replace(reclassified, labels={**own, **labels}, files=files)


def _checked(rules: Iterable[Rule]) -> Sequence[Rule]:
    """Sort rules by class, or raise BadArgument if there are no rules or a class has two."""
    listed = sorted(rules, key=lambda rule: (rule.low, rule.high))
    if not listed:
        raise BadArgument("rules", "must have at least one rule; got none")
    for rule, following in zip(listed, listed[1:]):
        if following.low <= rule.high:
            raise BadArgument(
                "rules", f"must have at most one rule for each class; got two for {following.low}"
            )
    return listed


def _joined(listed: Sequence[Rule]) -> Iterator[Rule]:
    """Merge equal rules for consecutive classes, because scripts are limited to 1 MiB."""
    merged = listed[0]
    for rule in listed[1:]:
        if (rule.low, rule.new, rule.label) == (merged.high + 1, merged.new, merged.label):
            merged = merged._replace(high=rule.high)
        else:
            yield merged
            merged = rule
    yield merged


def _check_all(entries: list[list[int]], listed: Sequence[Rule]) -> None:
    """Raise Refused if a class without a rule became null."""
    lost = []
    for old, new in entries:
        has_rule = any(rule.low <= old <= rule.high for rule in listed)
        if old != NULL and new == NULL and not has_rule:
            lost.append(old)
    if lost:
        problem = f"no rule for the class{'es' if len(lost) > 1 else ''} {first_of(lost)}"
        cure = f"add rules, or use {option('other', 'keep')} or {option('other', 'null')}"
        raise Refused(f"{problem}: {cure}", "map")


def _rules_of(crosswalk: Any) -> Iterator[Rule]:
    """Yield the rules of a crosswalk, which is a dict, a DataFrame or a CSV."""
    is_data_frame = hasattr(crosswalk, "columns")
    if isinstance(crosswalk, (str, os.PathLike)) or is_data_frame:
        for place, row in rows_of("rules", crosswalk, needed=("value", "new"), optional=("label",)):
            yield _rule(f"{place}: ", row["value"], row["new"], row.get("label"))
    elif isinstance(crosswalk, Mapping):
        for value, new in crosswalk.items():
            yield _rule("", value, new, "")
    else:
        raise BadArgument(
            "rules", f"must be a dict, a DataFrame or the path of a CSV; got {crosswalk!r}"
        )


def _rule(place: str, value: Any, new: Any, label: Any) -> Rule:
    """Return the rule for a class or for a range, given as a pair or as a string such as `1-9`."""
    first = last = value
    if isinstance(value, tuple) and len(value) == 2:
        first, last = value
    elif isinstance(value, str) and (match := _RANGE.fullmatch(value.strip())):
        first, last = match.groups()
    low, high = _class_of(place, first), _class_of(place, last)
    if high < low:
        raise BadArgument("rules", f"{place}{low}-{high} is not an ascending range")
    is_null = is_missing(new) or (isinstance(new, str) and not new.strip())
    text = "" if is_missing(label) else str(label).strip()
    return Rule(low, high, None if is_null else _class_of(place, new), text)


def _class_of(place: str, value: Any) -> int:
    code = whole_number(value)
    if code is None or abs(code) > MAX_CATEGORY:
        raise BadArgument("rules", f"{place}{value!r} is not a valid class")
    return code

# SPDX-License-Identifier: Apache-2.0 OR GPL-2.0-or-later
"""Check arguments that several calls accept."""

from __future__ import annotations

import difflib
import inspect
import numbers
import os
from typing import Any, Callable, Iterable, List, Mapping, Optional

from .errors import BadArgument

__all__ = [
    "MAX_CATEGORY",
    "check_arguments",
    "check_connectivity",
    "check_named_maps",
    "check_script",
    "classes_of",
    "first_of",
    "is_number",
    "known_names",
    "list_of",
    "whole_number_of",
]

MAX_CATEGORY = 2_147_483_647
_SHOWN = 5


def check_connectivity(connectivity: Any) -> None:
    """Raise BadArgument unless the connectivity is 4 or 8."""
    is_whole = isinstance(connectivity, numbers.Integral) and not isinstance(connectivity, bool)
    if not is_whole or connectivity not in (4, 8):
        raise BadArgument("connectivity", f"must be 4 or 8; got {connectivity!r}")


def whole_number_of(name: str, value: Any, least: int, most: Optional[int] = None) -> int:
    """Return an argument as an int, or raise BadArgument if it is not a whole number in a range.

    Examples
    --------
    >>> whole_number_of("core_depth", 0, 1, 20)
    Traceback (most recent call last):
      ...
    rcell.BadArgument: core_depth must be a whole number from 1 to 20; got 0
    """
    is_whole = isinstance(value, numbers.Integral) and not isinstance(value, bool)
    if not is_whole or value < least or (most is not None and value > most):
        limits = f", at least {least}" if most is None else f" from {least} to {most}"
        raise BadArgument(name, f"must be a whole number{limits}; got {value!r}")
    return int(value)


def is_number(value: Any) -> bool:
    """Return whether a value is a real number but not a bool."""
    return isinstance(value, numbers.Real) and not isinstance(value, bool)


def list_of(name: str, values: Any, rule: str) -> List[Any]:
    """Return an argument as a list, or raise BadArgument if it is neither a list nor a number."""
    if isinstance(values, numbers.Real):
        values = [values]
    if isinstance(values, (str, bytes)) or not isinstance(values, Iterable):
        raise BadArgument(name, f"must be a list of {rule}; got {values!r}")
    return list(values)


def classes_of(classes: Any) -> Optional[List[int]]:
    """Return a list of the classes to which a call is limited, or None for all classes.

    Examples
    --------
    >>> classes_of([31, 32.0]), classes_of(31)
    ([31, 32], [31])
    """
    if classes is None:
        return None
    numbers_of_classes = []
    for value in list_of("classes", classes, "whole numbers, for example [31, 32]"):
        # NaN is not <= MAX_CATEGORY, so int() is called only for finite numbers.
        if not is_number(value) or not abs(value) <= MAX_CATEGORY or value != int(value):
            limits = f"from -{MAX_CATEGORY} to {MAX_CATEGORY}"
            raise BadArgument("classes", f"must be whole numbers {limits}; got {value!r}")
        numbers_of_classes.append(int(value))
    return numbers_of_classes


def first_of(values: Iterable[Any], most: int = _SHOWN) -> str:
    """Return a string that lists the first values and the number of omitted values.

    Examples
    --------
    >>> first_of([31, 32], 1), first_of("ab")
    ('31 and 1 more', 'a, b')
    """
    texts = [str(value) for value in values]
    more = f" and {len(texts) - most:,} more" if len(texts) > most else ""
    return ", ".join(texts[:most]) + more


def known_names(noun: str, names: Iterable[str]) -> str:
    """Return the end of a message about an unknown name: the list of known names.

    Examples
    --------
    >>> known_names("field", ["name"]), known_names("field", [])
    ('the only field is name', 'there are no fields')
    >>> known_names("field", ["name", "code"])
    'the fields are name, code'
    """
    known = list(names)
    if len(known) == 1:
        return f"the only {noun} is {known[0]}"
    return f"the {noun}s are {', '.join(known)}" if known else f"there are no {noun}s"


def check_arguments(call: Callable[..., Any], named: Iterable[str]) -> None:
    """Raise BadArgument if any of the names is not a parameter of a call.

    Examples
    --------
    >>> check_arguments(first_of, ["most", "last"])
    Traceback (most recent call last):
      ...
    rcell.BadArgument: last is not an argument of first_of: the arguments are values, most
    """
    known = inspect.signature(call).parameters
    if any(parameter.kind is inspect.Parameter.VAR_KEYWORD for parameter in known.values()):
        return  # a call with **named accepts any name
    for name in named:
        if name not in known:
            rule = f"is not an argument of {call.__name__}: {known_names('argument', known)}"
            raise BadArgument(name, rule)


def check_script(script: Any) -> None:
    """Raise BadArgument unless the script is a string."""
    if not isinstance(script, str):
        raise BadArgument("script", f"must be a string; got {script!r}")


def check_named_maps(maps: Any, named: Mapping[str, Any], words: Iterable[str]) -> None:
    """Raise BadArgument if a map is not given by name, or a name is a misspelt parameter.

    Parameters
    ----------
    maps : any
        The positional argument: a mapping of maps, a Dataset, or None.
    named : mapping of str to any
        The keyword arguments that the call uses as maps.
    words : iterable of str
        The parameters of the call.
    """
    known = list(words)
    for name, value in named.items():
        close = difflib.get_close_matches(name, known, n=1, cutoff=0.75)
        if close and not _may_be_map(value):
            problem = f"is not an argument, and {value!r} is not a map: did you mean {close[0]}=?"
            raise BadArgument(name, problem)
    is_dataset = hasattr(maps, "data_vars")  # xarray is not imported
    is_mapping = isinstance(maps, Mapping) or is_dataset
    if (is_mapping and len(maps)) or (maps is None and named):
        return
    description = "none"
    if maps is not None and not is_mapping:
        is_short = isinstance(maps, (str, os.PathLike, int))
        description = repr(maps) if is_short else f"a {type(maps).__name__}"
    raise BadArgument("maps", f'must be given by name, for example a="a.tif"; got {description}')


def _may_be_map(value: Any) -> bool:
    """Return whether a value may be a map.

    Strings may be maps if they look like paths. None, booleans and numbers are not maps.
    """
    if isinstance(value, str):
        return "." in value or os.sep in value or os.path.exists(value)
    return not (value is None or isinstance(value, (bool, int, float)))

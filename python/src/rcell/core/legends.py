# SPDX-License-Identifier: Apache-2.0 OR GPL-2.0-or-later
"""Read legends from CSV or TSV files, QGIS styles, rasters and Python objects."""

from __future__ import annotations

import csv
import io
import numbers
import os
import re
from typing import Any, Dict, Iterable, Iterator, List, Mapping, NamedTuple, Optional, Tuple
from xml.parsers import expat

from .arguments import known_names
from .errors import BadArgument, ReadFailed, Refused
from .files import opened

__all__ = [
    "Legend",
    "labels_of",
    "legend_of",
    "legend_of_qml",
    "is_missing",
    "rows_of",
    "whole_number",
]

LARGEST_CLASS = 2_147_483_647
_COLOR = re.compile(r"#[0-9a-fA-F]{6}")
_COLOR_NAMES = ("colour", "color")
_STYLE, _TEXTS = ".qml", (".csv", ".tsv", ".tab", ".txt", "")
_UNWRITABLE = "\0"
# Stripped from fields. A no-break space is part of a label.
_BLANKS = " \t\r\n"
# Red, green, blue and optionally opacity, as newer versions of QGIS write them.
_PARTS = re.compile(r"([0-9]{1,3}),([0-9]{1,3}),([0-9]{1,3})(,.*)?")


class Legend(NamedTuple):
    """The labels and colours of classes.

    Attributes
    ----------
    labels : dict of int to str
    colors : dict of int to str
        The colours in the form `#rrggbb`.
    """

    labels: Dict[int, str]
    colors: Dict[int, str]


class Entry(NamedTuple):
    """A class of a legend, with the line or key that error messages name."""

    place: str
    value: Any
    label: Any
    color: Any


def labels_of(source: Any) -> Mapping[int, str]:
    """Return the labels in a legend of any kind that `legend_of` accepts.

    Examples
    --------
    >>> labels_of({1: "wood", 2: None})
    {1: 'wood'}
    """
    return legend_of(source).labels


def legend_of(source: Any) -> Legend:
    """Read a legend from a file, or convert a Python object to a legend.

    Parameters
    ----------
    source : path, dict, Series or DataFrame
        The path of a CSV or TSV file with the columns `value`, `label` and optionally `colour`, of
        a QGIS style (`.qml`), or of a raster with labels. Alternatively, a dict or Series of labels
        by value, or a DataFrame with the same columns as a CSV file.

    Raises
    ------
    Refused
        A value is not a whole number or occurs twice, a colour is invalid, or the header is
        missing. The error names the line.
    ReadFailed
        The file cannot be opened.
    BadArgument
        The source has none of these types.
    """
    if isinstance(source, (str, os.PathLike)):
        return _of_path(os.fspath(source))
    # Pandas may not be installed, so its types are recognised by their attributes.
    is_frame = hasattr(source, "columns") and hasattr(source, "itertuples")
    is_series = hasattr(source, "items") and hasattr(source, "index")
    if is_frame:
        return _of_entries(_entries_of(source))
    if isinstance(source, Mapping) or is_series:
        return _of_entries(
            Entry(repr(value), value, label, color=None) for value, label in source.items()
        )
    raise BadArgument("labels", f"must be a path, a dict, a Series or a DataFrame; got {source!r}")


def _of_path(path: str) -> Legend:
    """Read a legend from a style, a table or a raster, depending on the file extension."""
    ending = os.path.splitext(path)[1].lower()
    if ending == _STYLE:
        return legend_of_qml(path)
    if ending in _TEXTS:
        entries = list(_entries_of(path))
        if not entries:
            problem = "has no classes: it must have at least one line below the header"
            raise _refused(f"{path} {problem}")
        return _of_entries(entries)
    from .sources import source_of

    source = source_of("labels", path)
    if not source.labels:
        rule = "a legend must be a CSV, TSV or QML file or a raster with labels"
        raise _refused(f"{path} has no labels: {rule}")
    return Legend(dict(source.labels), dict(source.colors))


def _entries_of(source: Any) -> Iterator[Entry]:
    """Yield the rows of a table as legend entries."""
    for place, row in rows_of("labels", source, ("value", "label"), optional=_COLOR_NAMES):
        yield Entry(place, row["value"], row["label"], row.get("colour") or row.get("color"))


# Tables


def rows_of(
    source: str, table: Any, needed: Tuple[str, ...], optional: Tuple[str, ...] = ()
) -> Iterator[Tuple[str, Dict[str, Any]]]:
    """Yield the place and the selected fields of each row of a DataFrame or a CSV or TSV file.

    `source` is the argument that errors name. `needed` and `optional` are the columns to select.
    """
    if isinstance(table, (str, os.PathLike)):
        yield from _rows_of_file(source, os.fspath(table), needed, optional)
        return
    titles = [str(name) for name in table.columns]
    problem = (
        f"the columns must include {' and '.join(needed)}, but {known_names('column', titles)}"
    )
    columns = _columns_of(source, titles, needed, problem)
    wanted = {name: columns[name] for name in (*needed, *optional) if name in columns}
    for number, row in enumerate(table.itertuples(index=False, name=None), 1):
        yield f"row {number}", {name: row[place] for name, place in wanted.items()}


def _rows_of_file(
    source: str, path: str, needed: Tuple[str, ...], optional: Tuple[str, ...] = ()
) -> Iterator[Tuple[str, Dict[str, str]]]:
    """Yield the place and the selected fields of each row in a CSV or TSV file.

    Column titles may be in any order, in upper or lower case. Other columns and empty lines are
    skipped.

    Raises
    ------
    ReadFailed
        The file cannot be opened.
    Refused
        A column is missing, or a line is not UTF-8 or has too many fields.
    """
    lines = _lines_of(source, path)
    if not lines:
        raise Refused(f"{path} is empty", source, status=1)
    delimiter = "\t" if "\t" in lines[0] else ","
    rows = csv.reader(lines, delimiter=delimiter, skipinitialspace=True)
    header = next(rows)
    problem = f"line 1: the header must contain {' and '.join(needed)}; got {lines[0].strip()!r}"
    if len(header) == 1 and ";" in header[0]:
        problem += ": separate the columns with commas"
    columns = _columns_of(source, header, needed, problem)
    wanted = {name: columns[name] for name in (*needed, *optional) if name in columns}
    while True:
        first = rows.line_num + 1
        try:
            row = next(rows, None)
        except csv.Error as error:
            raise Refused(f"line {first}: {error}", source, status=1) from None
        if row is None:
            return
        if not any(map(str.strip, row)):
            continue
        if any(map(str.strip, row[len(header) :])):
            text = f"{len(row)} fields, but the header has {len(header)}"
            raise Refused(
                f"line {first}: {text}: put labels that contain commas in quotes", source, status=1
            )
        fields = row + [""] * (len(header) - len(row))
        yield f"line {first}", {name: fields[place] for name, place in wanted.items()}


def _lines_of(source: str, path: str) -> List[str]:
    """Return the lines of a UTF-8 text file."""
    opened(path)
    try:
        with open(path, "rb") as file:
            content = file.read()
    except (OSError, ValueError) as error:
        reason = getattr(error, "strerror", None) or error
        raise ReadFailed(source, f"cannot open: {path}: {reason}") from None
    if content[:2] in (b"\xff\xfe", b"\xfe\xff"):  # a byte order mark
        raise Refused(
            f"{path} is UTF-16: save the file as UTF-8 (in Excel: CSV UTF-8)", source, status=1
        )
    try:
        text = content.decode("utf-8-sig")
    except UnicodeDecodeError as error:
        line = content.count(b"\n", 0, error.start) + 1
        cure = (
            "save the file as UTF-8 (in Excel: CSV UTF-8), or convert it, for example from Latin-1 "
            "with iconv -f latin1 -t utf8"
        )
        raise Refused(f"line {line} is not UTF-8: {cure}", source, status=1) from None
    return list(io.StringIO(text, newline=""))


def _columns_of(
    source: str, titles: List[str], needed: Tuple[str, ...], problem: str
) -> Dict[str, int]:
    """Return the index of each column by lower-case title, or raise Refused if one is missing."""
    columns: Dict[str, int] = {}
    for place, title in enumerate(titles):
        columns.setdefault(title.strip().lower(), place)
    if any(name not in columns for name in needed):
        raise Refused(problem, source, status=1)
    return columns


# Classes


def _of_entries(entries: Iterable[Entry]) -> Legend:
    """Convert entries to a legend, or raise Refused if an entry is invalid.

    Values must be unique whole numbers, and labels and colours must be valid.
    """
    legend = Legend({}, {})
    places: Dict[int, str] = {}
    for entry in entries:
        if isinstance(entry.value, str) and not entry.value.strip():
            raise _refused(f"{entry.place}: the label has no value")
        value = whole_number(entry.value)
        if value is None:
            raise _refused(f"{entry.place}: {entry.value!s} is not a whole number")
        if abs(value) > LARGEST_CLASS:
            raise _refused(f"{entry.place}: {value} is outside -{LARGEST_CLASS} to {LARGEST_CLASS}")
        if value in places:
            raise _refused(f"{entry.place}: value {value} occurs twice, first in {places[value]}")
        places[value] = entry.place
        label = _text(entry.label)
        if _UNWRITABLE in label:
            raise _refused(f"{entry.place}: the label contains a NUL character")
        if label:
            legend.labels[value] = label
        color = _of_parts(_text(entry.color))
        if color and not _COLOR.fullmatch(color):
            raise _refused(f"{entry.place}: {color} is not a colour in the form #rrggbb")
        if color:
            legend.colors[value] = color.lower()
    return legend


def _of_parts(color: str) -> str:
    """Convert a colour given by its components to `#rrggbb`, and return other text unchanged."""
    match = _PARTS.fullmatch(color)
    if not match:
        return color
    red, green, blue, _ = match.groups()
    parts = [int(part) for part in (red, green, blue)]
    return color if max(parts) > 255 else "#" + bytes(parts).hex()


def is_missing(value: Any) -> bool:
    """Return whether a value is None, NaN or pandas' missing value."""
    try:
        return value is None or bool(value != value)  # only NaN differs from itself
    except TypeError:  # pandas' missing value is neither true nor false
        return True


def _text(value: Any) -> str:
    """Return a field as a string, which is empty if the field is missing."""
    return "" if is_missing(value) else str(value).strip(_BLANKS)


def whole_number(value: Any) -> Optional[int]:
    """Convert a string or a number to an int, or return None if it is not a whole number.

    Examples
    --------
    >>> values = (1.0, " +2.00 ", "1e3", "1.5", True, float("nan"), "0x1f")
    >>> [whole_number(value) for value in values]
    [1, 2, None, None, None, None, None]
    """
    if isinstance(value, str):
        match = re.fullmatch(r"([+-]?[0-9]+)(\.0*)?", value.strip(_BLANKS), re.ASCII)
        return int(match[1]) if match else None
    if isinstance(value, bool) or not isinstance(value, numbers.Real):
        return None
    is_finite = value - value == 0
    return int(value) if is_finite and value == int(value) else None


# QGIS styles


def legend_of_qml(path: str) -> Legend:
    """Read a legend from the palette or the colour ramp of a QGIS style.

    Raises
    ------
    ReadFailed
        The file cannot be opened.
    Refused
        The file is not a style, declares entities, or contains a class that is not a whole number.
    """
    palette: List[Entry] = []
    ramp: List[Entry] = []
    parser = expat.ParserCreate("utf-8")
    open_tags: List[str] = []

    def begin(tag: str, fields: Dict[str, str]) -> None:
        place = f"line {parser.CurrentLineNumber}"
        entry = Entry(place, fields.get("value", ""), fields.get("label"), fields.get("color"))
        if tag == "paletteEntry":
            palette.append(entry)
        elif tag == "item" and open_tags[-1:] == ["colorrampshader"]:
            ramp.append(entry)
        open_tags.append(tag)

    def refuse(name: str, *_: Any) -> None:
        raise _refused(f"{path} declares the entity {name}: a style must not declare entities")

    parser.StartElementHandler = begin
    parser.EndElementHandler = lambda tag: open_tags.pop()
    parser.EntityDeclHandler = refuse
    opened(path)
    try:
        with open(path, "rb") as file:
            parser.ParseFile(file)
    except (OSError, ValueError) as error:
        reason = getattr(error, "strerror", None) or error
        raise ReadFailed("labels", f"cannot open: {path}: {reason}") from None
    except expat.ExpatError as error:
        reason = expat.errors.messages[error.code]
        raise _refused(f"{path} is not a QGIS style: line {error.lineno}: {reason}") from None
    if not palette and not ramp:
        raise _refused(f"{path} has no classes: it contains neither a palette nor a colour ramp")
    return _of_entries(palette or ramp)


def _refused(text: str) -> Refused:
    return Refused(text, "labels", status=1)

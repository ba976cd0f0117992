# SPDX-License-Identifier: Apache-2.0 OR GPL-2.0-or-later
"""Read and write the labels and colours of categories in the formats of GDAL and QGIS."""

from __future__ import annotations

import contextlib
import numbers
import os
import re
import xml.etree.ElementTree as ElementTree
from collections.abc import Iterable, Mapping, Sequence
from typing import Any, Optional

from .errors import BadMap, RcellError
from .legends import Legend, legend_of_qml
from .protocol import NULL

__all__ = ["checked_labels", "flags_of", "legend_of_band", "write_labels"]

# GDAL's numbers for types and usages of attribute table columns.
_INTEGER, _TEXT = 0, 2
_USAGE_NAME, _USAGE_VALUE = 2, 5
_VALUE_USAGES = (_USAGE_VALUE, 3)
_USAGES_RGB = (6, 7, 8)
# Category names are a list that starts at 0. For larger or negative categories, an attribute table
# is smaller.
_MOST_NAMES = 1 << 16
# NUL and lone surrogates.
_UNWRITABLE = re.compile("[\0\ud800-\udfff]")


def checked_labels(name: str, labels: Any) -> dict[int, str]:
    """Return labels by category, or raise BadMap if a category or a label is invalid.

    Raises
    ------
    BadMap
        The labels do not map categories to strings, or a label contains a character that files
        cannot store.

    Examples
    --------
    >>> checked_labels("land", {"1": "wood"})  # doctest: +ELLIPSIS
    Traceback (most recent call last):
      ...
    rcell.BadMap: land: the keys of labels must be whole numbers from ...
    """
    if not isinstance(labels, Mapping):
        raise BadMap(
            name, f"labels must be a dict, for example {{1: 'wood'}}; got a {type(labels).__name__}"
        )
    for category, label in labels.items():
        if not (isinstance(category, numbers.Integral) and abs(int(category)) < -NULL):
            raise BadMap(
                name,
                "the keys of labels must be whole numbers from -2147483647 to 2147483647, for "
                f"example {{1: 'wood'}}; got {category!r}",
            )
        if not isinstance(label, str):
            raise BadMap(name, f"the label of {category} must be a string; got {label!r}")
        bad = _UNWRITABLE.search(label)
        if bad:
            problem = "contains a character that files cannot store"
            raise BadMap(name, f"the label of {category} {problem}: {bad[0]!r}")
    return {int(category): label for category, label in labels.items()}


def legend_of_band(band: ElementTree.Element, path: str) -> Legend:
    """Return the labels and colours of a raster band from GDAL's VRT description.

    Labels are read from category names, an attribute table, CF's `flag_meanings`, or a QGIS style
    next to the raster. Colours are read from a colour table, an attribute table, or the style.

    Parameters
    ----------
    band : Element
        The `VRTRasterBand` element.
    path : str
        The path of the raster, or an empty string to ignore styles.

    Examples
    --------
    >>> names = "<CategoryNames><Category/><Category>wood</Category></CategoryNames>"
    >>> band = ElementTree.fromstring(f"<VRTRasterBand>{names}</VRTRasterBand>")
    >>> legend_of_band(band, "lc.tif").labels
    {1: 'wood'}
    """
    table = _Attributes.of(band)
    tags = {tag.get("key"): tag.text for tag in band.findall("Metadata/MDI")}
    names = [name.text or "" for name in band.findall("CategoryNames/Category")]
    style = _style_of(path)
    labels = (
        {category: name for category, name in enumerate(names) if name}
        or table.labels()
        or flags_of(tags.get("flag_values"), tags.get("flag_meanings"))
        or style.labels
    )
    return Legend(labels, _color_table(band, labels) or table.colors() or style.colors)


def _style_of(path: str) -> Legend:
    style_path = os.path.splitext(path)[0] + ".qml"
    if path and os.path.isfile(style_path):
        with contextlib.suppress(RcellError):  # ignore styles that are not legends
            return legend_of_qml(style_path)
    return Legend({}, {})


def flags_of(values: Any, meanings: Any) -> dict[int, str]:
    """Return labels by category from the CF attributes `flag_values` and `flag_meanings`.

    Examples
    --------
    >>> flags_of("{1,2}", "wood water")
    {1: 'wood', 2: 'water'}
    """
    codes: list[Any] = []
    if isinstance(values, str):
        codes = re.findall(r"[+-]?[0-9]+", values)
    elif values is not None:
        codes = list(values)
    words = str(meanings).split() if meanings else []
    if len(codes) != len(words):
        return {}
    return _labels_of_rows(zip(codes, words))


def _color_table(band: ElementTree.Element, labels: Mapping[int, str]) -> dict[int, str]:
    """Return the colours by category from a band's colour table.

    Categories that are black and have no label are left out.
    """
    colors = {}
    for code, entry in enumerate(band.findall("ColorTable/Entry")):
        parts = [int(entry.get(key, "0")) for key in ("c1", "c2", "c3")]  # red, green, blue
        if code in labels or any(parts):
            colors[code] = "#" + bytes(parts).hex()
    return colors


class _Attributes:
    """The attribute table of a band, which may be empty."""

    def __init__(self, usages: list[int], titles: list[str], rows: list[list[str]]) -> None:
        self.usages = usages
        self.titles = titles
        self.rows = [row for row in rows if len(row) == len(usages)]

    @classmethod
    def of(cls, band: ElementTree.Element) -> _Attributes:
        """Return the attribute table of a band, or an empty table if the band has none."""
        table = band.find("GDALRasterAttributeTable")
        if table is None:
            return cls([], [], [])
        usages, titles = [], []
        for field in table.findall("FieldDefn"):
            usages.append(_category_of(field.findtext("Usage", "0")) or 0)
            titles.append(field.findtext("Name", ""))
        rows = []
        for row in table.findall("Row"):
            rows.append([cell.text or "" for cell in row.findall("F")])
        return cls(usages, titles, rows)

    def _column(self, usages: Sequence[int], titles: Sequence[str]) -> Optional[int]:
        """Return the index of the first column with a given usage, else a given title, or None."""
        for place, usage in enumerate(self.usages):
            if usage in usages:
                return place
        for place, title in enumerate(self.titles):
            if title.lower() in titles:
                return place
        return None

    def labels(self) -> dict[int, str]:
        """Return the labels by category, or an empty dict if the table has no labels."""
        value = self._column(_VALUE_USAGES, ("value",))
        name = self._column(
            (_USAGE_NAME,), ("class_name", "class_names", "name", "label", "category")
        )
        if value is None or name is None:
            return {}
        return _labels_of_rows((row[value], row[name]) for row in self.rows)

    def colors(self) -> dict[int, str]:
        """Return the colours by category, or an empty dict if the table has no colours."""
        value = self._column(_VALUE_USAGES, ("value",))
        if value is None or not set(_USAGES_RGB) <= set(self.usages):
            return {}
        places = [self.usages.index(usage) for usage in _USAGES_RGB]
        colors = []
        for row in self.rows:
            parts = [_category_of(row[place]) or 0 for place in places]
            color = bytes(part & 255 for part in parts)
            colors.append((row[value], "#" + color.hex()))
        return _labels_of_rows(colors)


def _labels_of_rows(rows: Iterable[Sequence[Any]]) -> dict[int, str]:
    """Return labels by category from (category, label) pairs, skipping invalid pairs.

    Examples
    --------
    >>> _labels_of_rows([("1", "wood"), ("1.5", "heath"), ("2", "")])
    {1: 'wood'}
    """
    pairs = ((_category_of(number), label) for number, label in rows)
    return {category: label for category, label in pairs if category is not None and label}


def _category_of(number: Any) -> Optional[int]:
    """Convert a number or a string to a category, or return None for an invalid category."""
    with contextlib.suppress(TypeError, ValueError, OverflowError):
        if float(number).is_integer() and abs(float(number)) < -NULL:
            return int(float(number))
    return None


def write_labels(path: str, labels: Mapping[int, str]) -> str | None:
    """Write the labels of a raster's first band to GDAL's `.aux.xml` file next to the raster.

    Parameters
    ----------
    path : str
        The path of the raster, which must be complete and closed.
    labels : mapping of int to str

    Returns
    -------
    str or None
        The path of the file with the labels, or None if there are no labels.

    Raises
    ------
    OSError
        The labels were not written completely.
    """
    if not labels:
        return None
    aux_path = path + ".aux.xml"
    root = _root_of(aux_path)
    band = root.find("PAMRasterBand[@band='1']")
    if band is None:
        band = ElementTree.SubElement(root, "PAMRasterBand", band="1")
    if min(labels) >= 0 and max(labels) < _MOST_NAMES:
        names = ElementTree.SubElement(band, "CategoryNames")
        for category in range(max(labels) + 1):
            ElementTree.SubElement(names, "Category").text = labels.get(category, "")
    else:
        _put_table(band, labels)
    ElementTree.ElementTree(root).write(aux_path, encoding="utf-8")
    try:
        ElementTree.parse(aux_path)
    except ElementTree.ParseError as error:
        raise OSError(f"the label file was not written correctly: {error}") from None
    return aux_path


def _root_of(aux_path: str) -> ElementTree.Element:
    """Return the root element of a raster's `.aux.xml`, or a new one if there is no such file."""
    with contextlib.suppress(OSError, ElementTree.ParseError):
        root = ElementTree.parse(aux_path).getroot()
        if root.tag == "PAMDataset":
            return root
    return ElementTree.Element("PAMDataset")


def _put_table(band: ElementTree.Element, labels: Mapping[int, str]) -> None:
    """Add a GDAL attribute table of values and labels to a band."""
    table = ElementTree.SubElement(band, "GDALRasterAttributeTable", tableType="thematic")
    columns = [("Value", _INTEGER, _USAGE_VALUE), ("Class_Name", _TEXT, _USAGE_NAME)]
    for place, (title, kind, usage) in enumerate(columns):
        field = ElementTree.SubElement(table, "FieldDefn", index=str(place))
        for tag, text in (("Name", title), ("Type", str(kind)), ("Usage", str(usage))):
            ElementTree.SubElement(field, tag).text = text
    for place, (category, label) in enumerate(sorted(labels.items())):
        row = ElementTree.SubElement(table, "Row", index=str(place))
        ElementTree.SubElement(row, "F").text = str(category)
        ElementTree.SubElement(row, "F").text = label

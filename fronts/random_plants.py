"""Old bugs, each reintroduced into what a package reads or prints, for `random_calls.py --plants`.

A plant imitates a bug of any package. It changes the files of a call in the way in which the bug
misread them, or it changes the lines of the result.
"""

from __future__ import annotations

import pathlib
from dataclasses import dataclass, replace
from typing import Any, Callable, Sequence

import numpy as np
import random_inputs as inputs
from osgeo import gdal
from random_inputs import Made

Lines = list[str]


@dataclass(frozen=True)
class Plant:
    """A bug.

    Attributes
    ----------
    told : str
        The effect of the bug.
    spoil : function of a folder and a call
        Changes the files of the call, and returns whether it changed something.
    tamper : function of lines
        Changes the result.
    """

    told: str
    spoil: Callable[[pathlib.Path, Any], bool] = lambda folder, trial: False
    tamper: Callable[[Lines], Lines] = list


def _rewritten(folder: pathlib.Path, made: Made, value_of: Callable[[Any], Any]) -> bool:
    """Write polygons of one layer again with different values of their field, and return whether
    one changed."""
    if not made.features or "|" in made.file or made.refused or not made.kind:
        return False
    features = [replace(it, value=value_of(it.value)) for it in made.features]
    if features == made.features:
        return False
    path = folder / made.file
    for part in path.parent.glob(f"{path.stem}.*"):
        part.unlink()
    inputs.write_zones(path, replace(made, features=features), path.stem)
    return True


def _spoiled_values(
    kinds: Sequence[str], value_of: Callable[[Any], Any]
) -> Callable[[pathlib.Path, Any], bool]:
    def spoil(folder: pathlib.Path, trial: Any) -> bool:
        return any(
            [
                _rewritten(folder, made, value_of)
                for made in trial.maps.values()
                if made.kind in kinds
            ]
        )

    return spoil


def _fifteen_digits(value: Any) -> Any:
    return value if value is None else type(value)(float(f"{value:.15g}"))


def _first_layer(folder: pathlib.Path, trial: Any) -> bool:
    several = [made for made in trial.maps.values() if len(made.refused) > 1]
    for made in several:
        source = inputs.ogr.Open(str(folder / made.file))
        made.file += f"|layername={source.GetLayer(0).GetName()}"
    return bool(several)


def _edited(trial: Any, folder: pathlib.Path, edit: Callable[[Any], bool]) -> bool:
    """Edit the rasters of a call, and return whether one changed."""
    changed = False
    for made in trial.maps.values():
        if made.file.endswith(".tif"):
            dataset = gdal.Open(str(folder / made.file), gdal.GA_Update)
            changed = edit(dataset) or changed
            dataset = None
    return changed


def _in_metres(dataset: Any) -> bool:
    system = dataset.GetSpatialRef()
    if system is None or not system.IsLocal():
        return False
    dataset.SetSpatialRef(inputs.srs_of("EPSG:32632"))
    return True


def _turned_over(dataset: Any) -> bool:
    if dataset.GetGeoTransform() != (0, 1, 0, 0, 0, 1) or dataset.RasterYSize == 1:
        return False
    band = dataset.GetRasterBand(1)
    band.WriteArray(np.ascontiguousarray(band.ReadAsArray()[::-1]))
    return True


def _unread_marks(folder: pathlib.Path, trial: Any) -> bool:
    changed = False
    for word in trial.words:
        if word.endswith(".qml"):
            path = folder / word.partition("=")[2]
            text = path.read_text(encoding="utf-8")
            path.write_text(
                text.replace("&#", "&amp;#").replace("&gt;", "&amp;gt;"), encoding="utf-8"
            )
            changed = changed or "&#" in text or "&gt;" in text
    return changed


def _joined_columns(lines: Lines) -> Lines:
    """Return only the first of a matrix's columns that have the same label."""
    titles = lines[0].split("|")
    if "from" not in titles:
        return lines
    labels = [title.rpartition(" (")[0] if title.endswith(")") else title for title in titles]
    kept = [place for place, label in enumerate(labels) if label not in labels[:place]]
    rows = [[*labels], *(line.split("|") for line in lines[1:])]
    return ["|".join(row[place] for place in kept) for row in rows]


def _no_quantiles(lines: Lines) -> Lines:
    """Return lines in which quantiles are null if the values are too far apart for 32 bits."""
    titles = lines[0].split("|")
    if "minimum" not in titles:
        return lines
    low, high = titles.index("minimum"), titles.index("maximum")
    found = [lines[0]]
    for line in lines[1:]:
        row = line.split("|")
        if float(row[high]) - float(row[low]) > 2147483647:
            row = ["*" if title.startswith("q") else text for title, text in zip(titles, row)]
        found.append("|".join(row))
    return found


PLANTS = {
    "zone_0": Plant(
        "a missing whole number is zone 0",
        _spoiled_values(("int", "long"), lambda value: 0 if value is None else value),
    ),
    "joined_columns": Plant("a matrix drops the second class of a label", tamper=_joined_columns),
    "first_layer": Plant("the first of several layers is taken", _first_layer),
    "local_metres": Plant(
        "a local system is in metres", lambda folder, trial: _edited(trial, folder, _in_metres)
    ),
    "turned_over": Plant(
        "a grid from the south at the corner is turned over",
        lambda folder, trial: _edited(trial, folder, _turned_over),
    ),
    "fifteen_digits": Plant(
        "numbers of zones have 15 digits", _spoiled_values(("real", "long"), _fifteen_digits)
    ),
    "no_quantiles": Plant("quantiles are null between distant values", tamper=_no_quantiles),
    "unread_marks": Plant("marks of XML are not read", _unread_marks),
}

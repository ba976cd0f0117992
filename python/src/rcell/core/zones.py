# SPDX-License-Identifier: Apache-2.0 OR GPL-2.0-or-later
"""Convert polygons to zones: number the zones, and find the zone of each cell."""

from __future__ import annotations

import datetime
import sys
import threading
from collections.abc import Callable, Iterable, Mapping, Sequence
from dataclasses import dataclass, replace
from typing import Any, Optional, Protocol

import numpy as np

from .arguments import first_of, known_names
from .arrays import NDArray
from .crews import Crew
from .crs import common_crs
from .errors import BadMap
from .host import option, warn
from .kept import cells_for
from .legends import is_missing, whole_number
from .protocol import NULL
from .rectangles import Rectangle, rectangles_of
from .region import Transform
from .sources import ArrayMap, Source
from .tiling import threads

__all__ = ["Feature", "Layer", "Zones", "zones_of"]

_KINDS = ("Polygon", "MultiPolygon")
_LARGEST_ID = 2**63 - 1
_SHOWN = 3
# Polygons are burned in blocks of this size, independent of the call's tiles, so that results are
# always the same.
_BLOCK = 2048


@dataclass(frozen=True)
class Feature:
    """A feature of a layer.

    Attributes
    ----------
    id : any
        The feature's id in the layer: the fid, or the index in a GeoDataFrame.
    value : any
        The field's value as a Python object (int, float, str, bool, date, ..), or None if the value
        is missing or NaN, or if no field is named.
    kind : str
        The OGC name of the geometry type, for example `MultiPolygon`, or empty without a geometry.
    geometry : any
        The geometry, as an object that the layer's `burn` and `bounds` accept.
    """

    id: Any
    value: Any
    kind: str
    geometry: Any


class Layer(Protocol):
    """A layer of features with fields, as returned by readers of vector files."""

    @property
    def name(self) -> str:
        """The layer's name in messages."""

    @property
    def crs(self) -> Any:
        """The layer's coordinate reference system, or None."""

    @property
    def fields(self) -> Sequence[str]:
        """The names of the layer's fields."""

    def features(self, field: Optional[str]) -> Iterable[Feature]:
        """Yield the features in order, with their values of a field and with curves as lines."""

    def burn(
        self, shapes: Sequence[tuple[Any, int]], transform: Transform, shape: tuple[int, int]
    ) -> NDArray[np.int32]:
        """Return, for each cell, the number of the last geometry that contains its centre, or 0."""

    def bounds(self, geometry: Any) -> tuple[float, float, float, float]:
        """Return the west, south, east and north bounds of a geometry."""


@dataclass(frozen=True)
class Zones:
    """Zones from polygons, as maps of categories.

    Attributes
    ----------
    maps : list of ArrayMap
        Maps with the categories 1, 2, .. There are several maps if overlapping polygons are
        processed separately.
    ids : array of int64
        The zone of each category, in ascending order.
    labels : dict of int to str
        The labels of the zones.
    """

    maps: list[ArrayMap]
    ids: NDArray[np.int64]
    labels: dict[int, str]


def zones_of(
    layer: Layer, field: Optional[str], like: Source, crs: Any = None, each: bool = False
) -> Zones:
    """Convert polygons to zones on a map's grid.

    A cell belongs to the last polygon that contains its centre. A feature's zone is its value of
    the field or, without a field, its id. Features without a geometry or without a value have no
    zone. Whole numbers are used as zones directly. Other values become the labels of zones 1, 2, ..
    in the order of their appearance.

    Parameters
    ----------
    layer : Layer
    field : str, optional
    like : Source
        The map whose grid is used.
    crs : any
        The coordinate reference system to assume for maps that do not have one.
    each : bool
        Whether to process overlapping polygons separately, so that no polygon loses a cell.

    Raises
    ------
    OtherCrs
        The polygons' reference system differs from the map's.
    BadMap
        The field is missing, a feature is not a polygon, or no polygon contains a cell centre.
    """
    if field is not None and field not in layer.fields:
        raise BadMap(layer.name, f"no field {field}: {known_names('field', layer.fields)}")
    titles = {"map": like.name, "zones": layer.name}
    systems = {"map": like.crs, "zones": layer.crs}
    common_crs(systems, crs, warp="ogr2ogr", titles=titles)
    features = _with_a_zone(layer, field)
    zones, labels = _numbered([feature.value for feature in features])
    ids = np.array(sorted(set(zones)), np.int64)
    categories = np.searchsorted(ids, zones) + 1
    names = [_name(feature, zone, labels) for feature, zone in zip(features, zones)]
    grid = _Grid(layer, like, features, categories, names)
    parts = [list(range(len(features)))]
    if each:
        parts = _apart([layer.bounds(feature.geometry) for feature in features], zones)
    maps = [grid.map(part) for part in parts]
    grid.check_centres()
    return Zones(maps, ids, labels)


def _with_a_zone(layer: Layer, field: Optional[str]) -> list[Feature]:
    """Return the features that have a geometry and a zone, with the zone as `value`."""
    features = []
    for feature in layer.features(field):
        if not feature.kind or feature.geometry is None:
            continue
        if feature.kind not in _KINDS:
            raise BadMap(
                layer.name,
                f"features must be polygons, but feature {feature.id} is a {feature.kind}",
            )
        value = feature.id if field is None else feature.value
        if not is_missing(value) and not (isinstance(value, str) and not value):
            features.append(replace(feature, value=value))
    if not features:
        raise BadMap(layer.name, "no polygon contains the centre of a cell: no cell has a zone")
    return features


def _numbered(values: Sequence[Any]) -> tuple[list[int], dict[int, str]]:
    """Return the zone of each value, and the labels of zones.

    Examples
    --------
    >>> _numbered([7, 2.0]), _numbered(["b", "a", "b"]), _numbered([True, False])
    (([7, 2], {}), ([1, 2, 1], {1: 'b', 2: 'a'}), ([1, 2], {1: 'true', 2: 'false'}))
    """
    whole = [None if isinstance(value, str) else whole_number(value) for value in values]
    ids = [number for number in whole if number is not None and _is_id(number)]
    if len(ids) == len(whole):
        return ids, {}
    numbers: dict[str, int] = {}
    zones = [numbers.setdefault(_text(value), len(numbers) + 1) for value in values]
    return zones, {number: text for text, number in numbers.items()}


def _is_id(number: int) -> bool:
    return abs(number) <= _LARGEST_ID and number != NULL


def _text(value: Any) -> str:
    """Convert a field value to the label of its zone.

    Examples
    --------
    >>> [_text(value) for value in (1.0, 0.1 + 0.2, True, datetime.date(2020, 1, 31), "Ost")]
    ['1.0', '0.30000000000000004', 'true', '2020-01-31', 'Ost']
    """
    if isinstance(value, (bool, np.bool_)):
        return str(bool(value)).lower()
    if isinstance(value, (datetime.date, datetime.time)):
        return value.isoformat()
    return repr(float(value)) if isinstance(value, (float, np.floating)) else str(value)


def _name(feature: Feature, zone: int, labels: Mapping[int, str]) -> str:
    """Return a feature's name for messages: its id, and its zone if the two differ."""
    label = labels.get(zone, str(zone))
    return f"feature {feature.id}" + ("" if label == str(feature.id) else f" ({label})")


class _Losses:
    """Counts the cells in several polygons and collects the features that lose cells."""

    def __init__(self) -> None:
        self.cells = 0
        self.first_cell = (sys.maxsize, 0)  # row and column
        self.features: set[int] = set()
        self._lock = threading.Lock()

    def add(self, place: Rectangle, feature: NDArray[np.int32], lost: NDArray[np.bool_]) -> None:
        """Record the `lost` cells of a block, which each cell's `feature` loses to a later one."""
        if not lost.any():
            return
        row, col = np.unravel_index(int(np.argmax(lost)), lost.shape)
        with self._lock:
            self.cells += int(np.count_nonzero(lost))
            self.features |= set(np.unique(feature[lost]).tolist())
            self.first_cell = min(self.first_cell, (int(row) + place.top, int(col) + place.left))


@dataclass
class _Grid:
    """The features of a layer on the grid of a map.

    Attributes
    ----------
    categories : array of int
        The category of each feature's zone.
    names : list of str
    """

    layer: Layer
    like: Source
    features: list[Feature]
    categories: NDArray[np.intp]
    names: list[str]

    def __post_init__(self) -> None:
        self._has_centre = np.zeros(len(self.features) + 1, np.bool_)
        boxes = [self.layer.bounds(feature.geometry) for feature in self.features]
        self._boxes = np.array(boxes, np.float64)

    def map(self, part: Sequence[int]) -> ArrayMap:
        """Return a map of the zone categories of these features, computed block by block."""
        like, name = self.like, self.layer.name
        categories = np.concatenate([[0], self.categories])
        dtype = np.min_scalar_type(int(categories.max()))
        cells = cells_for(like.region.shape, dtype if dtype.itemsize <= 2 else np.int32)
        full = Rectangle(0, 0, *like.region.shape)
        losses = _Losses()

        def burn(place: Rectangle) -> NDArray[np.bool_]:
            # In reverse order, the first feature is burnt last.
            last, are_last = self._burnt(part, place)
            first, are_first = self._burnt(part[::-1], place)
            place.part_of(full, cells)[...] = categories[last]
            # If a cell's first and last polygon have different zones, the first polygon loses the
            # cell.
            losses.add(place, first, categories[first] != categories[last])
            return are_first | are_last

        self._over_blocks(burn)
        if losses.cells:
            self._find_hidden([index for index in part if not self._has_centre[index + 1]])
            self._warn_of_losers(losses)
        return ArrayMap(
            name, cells, like.region, nodata_value=0, crs=like.crs, exact_transform=like.transform
        )

    def _over_blocks(self, burn: Callable[[Rectangle], NDArray[np.bool_]]) -> None:
        """Burn features into all blocks and record which features contain a cell centre."""
        places = rectangles_of(self.like.region.shape, (_BLOCK, _BLOCK))
        if len(places) == 1:
            self._has_centre |= burn(places[0])
            return
        with Crew(threads(), len(places), is_shown=False) as crew:
            for _, occurs in crew.each(burn, places):
                self._has_centre |= occurs

    def _burnt(
        self, part: Sequence[int], place: Rectangle
    ) -> tuple[NDArray[np.int32], NDArray[np.bool_]]:
        """Return the last feature that contains each cell, and a mask of the features that occur.

        Features are numbered from 1. A cell that no feature contains is 0.
        """
        width, _, west, _, height, north = self.like.transform
        left, top = west + width * place.left, north + height * place.top
        right, bottom = left + width * place.cols, top + height * place.rows
        transform = (width, 0.0, left, 0.0, height, top)
        is_near = _meets(np.array([left, bottom, right, top]), self._boxes)
        shapes = [(self.features[index].geometry, index + 1) for index in part if is_near[index]]
        shape = (place.rows, place.cols)
        last = self.layer.burn(shapes, transform, shape) if shapes else np.zeros(shape, np.int32)
        cells = np.bincount(last.reshape(-1), minlength=self._has_centre.size)
        return last, cells > 0

    def _find_hidden(self, rest: list[int]) -> None:
        """Find the features that contain a cell centre but are hidden by other features."""
        # Without the features that have been found, the features below them are visible.
        while rest:
            self._over_blocks(lambda place: self._burnt(rest, place)[1])
            hidden = [index for index in rest if not self._has_centre[index + 1]]
            if len(hidden) == len(rest):
                return
            rest = hidden

    def _warn_of_losers(self, losses: _Losses) -> None:
        losers = [self.names[number - 1] for number in sorted(losses.features)]
        row, col = losses.first_cell
        warn(
            f"{self.layer.name}: {losses.cells:,} cells are in more than one polygon, the first "
            f"at row {row + 1}, column {col + 1}: "
            f"they belong to the later polygon, and not to {first_of(losers, _SHOWN)}; "
            f"{option('each', True)} processes overlapping polygons separately"
        )

    def check_centres(self) -> None:
        """Warn about features without a cell centre, or raise BadMap if no feature contains one."""
        without = [self.names[index] for index in np.flatnonzero(~self._has_centre[1:]).tolist()]
        if len(without) == len(self.features):
            raise BadMap(self.layer.name, "no polygon contains the centre of a cell")
        if without:
            message = f"{len(without)} of {len(self.features)} polygons contain no cell centre"
            warn(f"{self.layer.name}: {message}: {first_of(without, _SHOWN)}")


def _apart(
    bounds: Sequence[tuple[float, float, float, float]], zones: Sequence[int]
) -> list[list[int]]:
    """Split features into parts in which the bounding boxes of different zones do not overlap.

    Examples
    --------
    >>> _apart([(0, 0, 2, 2), (1, 1, 3, 3), (5, 5, 6, 6)], [1, 2, 3])
    [[0, 2], [1]]
    """
    members: dict[int, list[int]] = {}
    for index, zone in enumerate(zones):
        members.setdefault(zone, []).append(index)
    parts: list[list[int]] = []
    boxes_of_parts: list[NDArray[np.float64]] = []
    for indices in members.values():
        boxes = np.array([bounds[index] for index in indices])
        zone_box = np.concatenate([boxes[:, :2].min(axis=0), boxes[:, 2:].max(axis=0)])
        for part, part_boxes in enumerate(boxes_of_parts):
            if not _meets(zone_box, part_boxes).any():
                break
        else:  # the zone overlaps a zone of each part
            part = len(parts)
            parts.append([])
            boxes_of_parts.append(np.empty((0, 4)))
        parts[part] += indices
        boxes_of_parts[part] = np.concatenate([boxes_of_parts[part], zone_box[None]])
    return parts


def _meets(box: NDArray[np.float64], others: NDArray[np.float64]) -> NDArray[np.bool_]:
    """Return a mask of the other boxes (west, south, east, north) that a box touches."""
    is_below = (others[:, :2] <= box[2:]).all(axis=1)
    is_above = (others[:, 2:] >= box[:2]).all(axis=1)
    touches: NDArray[np.bool_] = is_below & is_above
    return touches

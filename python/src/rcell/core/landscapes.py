# SPDX-License-Identifier: Apache-2.0 OR GPL-2.0-or-later
"""Count the patches, classes and borders of landscapes: the full map, or each zone of a map."""

from __future__ import annotations

from collections.abc import Sequence
from dataclasses import dataclass
from typing import Any, NamedTuple

import numpy as np

from .adjacency import side_lines, sides_of
from .area import Measure
from .arrays import Floats, Integers, NDArray
from .counting import Maps, places_of, sums_of
from .patch_measures import clump_line

__all__ = ["Landscapes", "landscapes_of", "summed"]


class Sides(NamedTuple):
    """The pairs of members that share cell sides.

    Contains the indices of both members, and the numbers of ends and flanks that they share.
    """

    first: Integers
    second: Integers
    ends: Integers
    flanks: Integers


@dataclass(frozen=True)
class Landscapes:
    """The counts of each landscape. A landscape is a zone or, without zones, the full map.

    Attributes
    ----------
    zones : array
        The zone of each landscape.
    classes, zone_at : array
        For each member, the class and the index of the landscape. A member is a class in a
        landscape.
    member_at, cells, weights, ends, flanks : array
        For each patch, in the order of zones and first cells: the index of the patch's member, the
        number of cells, the weight, and the numbers of ends and flanks on the patch's border. The
        weight is in square metres if the map is in degrees, otherwise in cells. Ends are northern
        and southern cell sides, and flanks are western and eastern cell sides.
    like : array
        For each member, the number of sides between its own cells.
    sides : Sides
        The sides between different members of the same landscape.
    end, flank : float
        The lengths of an end and a flank in metres, or NaN if the lengths are unknown.
    """

    zones: Integers
    classes: Integers
    zone_at: Integers
    member_at: Integers
    cells: Integers
    weights: Floats
    ends: Integers
    flanks: Integers
    like: Integers
    sides: Sides
    end: float
    flank: float

    @property
    def perimeters(self) -> Floats:
        """The perimeter of each patch in metres."""
        return self.ends * self.end + self.flanks * self.flank

    @property
    def borders(self) -> Floats:
        """The length in metres of the border between each pair of members."""
        return self.sides.ends * self.end + self.sides.flanks * self.flank

    def by_member(self, values: NDArray[Any]) -> NDArray[Any]:
        """Return the sum of the patches' values for each member."""
        return summed(self.member_at, values, self.classes.size)

    def by_zone(self, values: NDArray[Any]) -> NDArray[Any]:
        """Return the sum of the members' values for each landscape."""
        return summed(self.zone_at, values, self.zones.size)


def summed(groups: Integers, values: NDArray[Any], size: int) -> NDArray[Any]:
    """Return the sum of the values in each group, for group indices from 0 to `size` - 1."""
    sums: NDArray[Any] = np.bincount(groups, weights=values, minlength=size)
    return sums.astype(values.dtype)


def landscapes_of(maps: Maps, connectivity: int, measure: Measure, has_zones: bool) -> Landscapes:
    """Count the patches and sides of the map `map` in each zone or, without zones, in total."""
    member_map, lines = "map", []
    zones, classes, class_count = np.zeros(1, np.int64), None, 1
    if has_zones:
        # Combine zone and class in one number, so that patches end at the border of a zone.
        [occurring] = maps.tables("r.stats -n input=zones,map")
        zones, classes = np.unique(occurring[:, 0]), np.unique(occurring[:, 1])
        class_count = max(classes.size, 1)
        member_map = "member"
        lines += _ranked("zones", "zone", zones, step=class_count)
        lines += _ranked("map", "code", classes, step=1)
        lines.append("r.mapcalc member = zone + code")
    lines += _script(member_map, connectivity, measure)
    patch_sides, right, below, *by_row = maps.tables("\n".join(lines))
    # Overlapping polygons are counted in several runs with separate patch numbers. Each member is
    # in one run, so a patch is identified by its number and its member.
    first = places_of(patch_sides[:, :2])
    _, codes, like, counts = patch_sides.T  # like: 1 (right neighbour) + 2 (lower neighbour)
    cells = sums_of(counts, first)
    like_right = sums_of(counts * (like % 2), first)
    like_below = sums_of(counts * (like // 2), first)
    weights = _weights(cells, by_row, measure)
    members, member_at = np.unique(codes[first], return_inverse=True)
    zone_indices = members // class_count if has_zones else np.zeros(members.size, np.int64)
    present, zone_at = np.unique(zone_indices, return_inverse=True)
    by_zone = np.argsort(zone_at[member_at], kind="stable")
    metres = measure.length()
    width, _, _, _, height, _ = maps.first.transform  # the height is negative
    return Landscapes(
        zones=zones[present],
        classes=members if classes is None else classes[members % class_count],
        zone_at=zone_at,
        member_at=member_at[by_zone],
        cells=cells[by_zone],
        weights=weights[by_zone],
        # Each cell has two ends and two flanks, and each pair of like neighbours removes two.
        ends=2 * (cells - like_below)[by_zone],
        flanks=2 * (cells - like_right)[by_zone],
        like=summed(member_at, like_right + like_below, members.size),
        sides=_borders(members, zone_at, right, below),
        end=width * metres,
        flank=-height * metres,
    )


def _weights(cells: Integers, by_row: Sequence[Integers], measure: Measure) -> Floats:
    """Return each patch's weight, in square metres if the map is in degrees, otherwise in cells."""
    if measure.by_row is None:
        return cells.astype(np.float64)
    [table] = by_row
    _patches, _members, rows, cells_of_row = table.T
    areas = cells_of_row * measure.by_row[rows - 1]
    return sums_of(areas, places_of(table[:, :2]))


def _ranked(source: str, name: str, values: Integers, step: int) -> list[str]:
    """Return script lines that renumber a map's categories as 0, step, 2 * step, ..."""
    rules = [f"{value} = {place * step}" for place, value in enumerate(values.tolist())]
    return [f"r.reclass input={source} output={name}", *rules, "end"]


def _script(name: str, connectivity: int, measure: Measure) -> list[str]:
    """Return script lines that count the cells and sides of patches and of pairs of members.

    If the map is in degrees, the lines also count each patch's cells in each row.
    """
    # Cells of one class that share a side are in one patch, so two comparisons yield all
    # perimeters. A comparison with a null or missing cell is null, which nmax() turns into 0.
    is_like_right = f"nmax({name} == {name}[0,1], 0)"
    is_like_below = f"nmax({name} == {name}[1,0], 0)"
    lines = [
        clump_line(connectivity, name),
        f"r.mapcalc like = {is_like_right} + 2 * {is_like_below}",
        f"r.stats -c -n input=patch,{name},like",
        *side_lines(name),
    ]
    if measure.by_row is not None:
        lines += ["r.mapcalc row = row()", f"r.stats -c -n input=patch,{name},row"]
    return lines


def _borders(members: Integers, zone_at: Integers, right: Integers, below: Integers) -> Sides:
    """Return the pairs of different members that share cell sides within a landscape."""
    pairs, flanks, ends = sides_of(right, below)
    first, second = np.searchsorted(members, pairs.T)
    is_border = (first != second) & (zone_at[first] == zone_at[second])
    return Sides(first[is_border], second[is_border], ends[is_border], flanks[is_border])

# SPDX-License-Identifier: Apache-2.0 OR GPL-2.0-or-later
"""Define the algorithms that write tables: composition, cross, change, zonal and others."""

from __future__ import annotations

from typing import Any

from qgis.core import QgsProcessingParameterNumber, QgsProcessingParameterRasterLayer

from ..engine.core.adjacency import adjacency
from ..engine.core.change import change
from ..engine.core.composition import composition, cross
from ..engine.core.dominant import dominant
from ..engine.core.errors import Refused
from ..engine.core.trajectories import trajectories
from ..engine.core.zonal import zonal
from ..layers import made_names, raster_of
from ..results import named_classes
from ..translation import noop, tr
from .base import RcellAlgorithm, renamed

_DEGREES = noop(
    "<p>For rasters in degrees, the cell area of each row is computed on the ellipsoid of the "
    "reference system.</p>"
)
_ZONES = noop(
    "<p>Zones are a raster on the same grid, or polygons: a cell belongs to the polygon that "
    "contains its centre. Whole numbers in the field are used as zones. Other values become the "
    "labels of zones 1, 2, ..</p>"
)

# The largest number of rasters for trajectories, if they have few classes.
MOST_DATES = 500


class CompositionAlgorithm(RcellAlgorithm):
    """Counts the cells of each class, in total or by zone."""

    NAME = "composition"
    TITLE = noop("Composition")
    SHORT = noop(
        "Lists the classes of a raster with their cell counts, areas and percentages, "
        "in total or by zone."
    )
    TAGS = (
        "area, land cover, unique values, count, percent, zonal histogram, tabulate area, "
        "r.report, r.stats"
    )
    HELP = (
        noop(
            "<p>The table has a row for each class that occurs, or for each class in each zone. "
            "Percentages refer to the area that has data, in total or in each zone.</p>"
        ),
        _ZONES,
        _DEGREES,
    )

    def initAlgorithm(self, configuration: Any = None) -> None:
        """Declare the parameters."""
        self.add_raster()
        self.add_zones()
        self.add_flag("EACH", tr("Process overlapping polygons separately"))
        self.add_area()
        self.add_labels()
        self.add_null()
        self.add_crs()
        self.add_table()

    def read(self) -> None:
        """Read the raster and its zones."""
        self.read_zoned()

    def answer(self) -> dict[str, Any]:
        """Write the table and return its path."""
        table = self.called(
            composition,
            self.rasters[0],
            zones=self.zones,
            area=self.area(),
            labels=self.labels(),
            include_null=self.flag("INCLUDE_NULL"),
            each=self.flag("EACH"),
            **self.zoning(),
        )
        return {"OUTPUT": self.put_table("OUTPUT", table)}


class CrossAlgorithm(RcellAlgorithm):
    """Counts the cells of each combination of classes of several rasters."""

    NAME = "cross"
    TITLE = noop("Cross table")
    SHORT = noop(
        "Counts the cells of each combination of classes of up to 16 rasters, with areas, "
        "percentages and labels."
    )
    TAGS = "cross table, crosstab, tabulate area, zonal, zonal histogram, r.stats, overlay, combine"
    IS_OF_ONE_RASTER = False
    HELP = (
        noop(
            "<p>The table has a column for each raster, named after its layer, and a column for "
            "its labels if there are any, followed by cells, areas and percentages. The percentage "
            "is each row's share of the area that has data in every raster.</p>"
        ),
        noop(
            "<p>The rasters must have the same coordinate reference system and the same grid: "
            "nothing is reprojected or "
            "resampled. <i>Align</i> puts one raster on the grid of another.</p>"
        ),
        _DEGREES,
    )

    def initAlgorithm(self, configuration: Any = None) -> None:
        """Declare the parameters."""
        self.add_rasters(tr("Rasters (1 to 16)"))
        self.add_area()
        self.add_null()
        self.add_crs()
        self.add_table()

    def read(self) -> None:
        """Read the rasters and check that they have the same grid."""
        layers = self.raster_layers()
        self.rasters = [raster_of(layer, layer.name()) for layer in layers]
        self.fit(self.rasters)

    def answer(self) -> dict[str, Any]:
        """Write the table and return its path."""
        names = made_names([raster.name for raster in self.rasters])
        maps = dict(zip(names, self.rasters))
        crossed = self.called(
            cross,
            maps,
            area=self.area(),
            include_null=self.flag("INCLUDE_NULL"),
            crs=self.crs(),
        )
        table = renamed(crossed, {name: raster.name for name, raster in maps.items()})
        return {"OUTPUT": self.put_table("OUTPUT", table)}


class ChangeAlgorithm(RcellAlgorithm):
    """Compares rasters of two or more years."""

    NAME = "change"
    TITLE = noop("Change between years")
    SHORT = noop(
        "Lists the changes between years, as a table, a matrix and a summary of gains and losses."
    )
    TAGS = "change, transition, gain, loss, swap, cross table, land cover change, time series"
    IS_OF_ONE_RASTER = False
    HELP = (
        noop(
            "<p>The rasters must be in chronological order. For more than two rasters, list the "
            "years. Only cells with data in both years count.</p>"
        ),
        noop(
            "<p>For each class, the summary contains its area before and after, gain, loss, net "
            "change (gain minus loss), swap (twice the smaller of gain and loss) and "
            "persistence. The matrix has a row for each class of the earlier raster and a column "
            "for each class of the later raster.</p>"
        ),
        _DEGREES,
    )

    def initAlgorithm(self, configuration: Any = None) -> None:
        """Declare the parameters."""
        self.add_rasters(tr("Rasters in chronological order (2 to 16)"))
        title = tr("Years, separated by commas (required for more than two rasters)")
        self.add_text("YEARS", title)
        self.add_area()
        self.add_labels()
        self.add_crs()
        self.add_table()
        self.add_table(tr("Matrix"), "MATRIX", is_optional=True)
        self.add_table(tr("Summary"), "SUMMARY", is_optional=True)

    def read(self) -> None:
        """Read the rasters and check that they have the same grid."""
        layers = self.raster_layers()
        self.rasters = [raster_of(layer, layer.name()) for layer in layers]
        self.fit(self.rasters)

    def answer(self) -> dict[str, Any]:
        """Write the table and, if requested, the matrix and the summary."""
        years = [int(year) for year in numbers_of(self.text("YEARS"), "years")]
        result = self.called(
            change,
            self.rasters,
            years=years or None,
            area=self.area(),
            labels=self.labels(),
            crs=self.crs(),
        )
        results = {"OUTPUT": self.put_table("OUTPUT", result.table)}
        for name, part in (("MATRIX", result.matrix), ("SUMMARY", result.summary)):
            if self.parameter_values.get(name):
                results[name] = self.put_table(name, part)
        return results


class TrajectoriesAlgorithm(RcellAlgorithm):
    """Counts the sequences of classes over years."""

    NAME = "trajectories"
    TITLE = noop("Trajectories over years")
    SHORT = noop(
        "Lists each sequence of classes over the years, and maps the number of changes and "
        "the years of the first and last change."
    )
    TAGS = "trajectory, time series, sequence, change, first change, last change, intensity"
    IS_OF_ONE_RASTER = False
    HELP = (
        noop(
            "<p>The rasters must be in chronological order. Only cells with data in all years "
            "count. A change is dated to the year in which the new class is first seen.</p>"
        ),
        noop(
            "<p>The table of changes has a row for each number of changes. The table of "
            "intervals has a row for each pair of consecutive years, with the change between "
            "them as a percentage of the area, in total and per year.</p>"
        ),
        _DEGREES,
    )
    _MAPS = {"changes": "CHANGES_MAP", "first_change": "FIRST_CHANGE", "last_change": "LAST_CHANGE"}

    def initAlgorithm(self, configuration: Any = None) -> None:
        """Declare the parameters."""
        self.add_rasters(tr("Rasters in chronological order (two or more)"))
        self.add_text("YEARS", tr("Years, separated by commas"))
        self.add_area()
        self.add_labels()
        self.add_crs()
        self.add_table()
        self.add_table(tr("By number of changes"), "CHANGES", is_optional=True)
        self.add_table(tr("By interval"), "INTERVALS", is_optional=True)
        self.add_map(tr("Map of the number of changes"), "CHANGES_MAP", is_optional=True)
        self.add_map(tr("Map of the year of the first change"), "FIRST_CHANGE", is_optional=True)
        self.add_map(tr("Map of the year of the last change"), "LAST_CHANGE", is_optional=True)

    def read(self) -> None:
        """Read the rasters and check that they have the same grid."""
        layers = self.raster_layers(most=MOST_DATES)
        self.rasters = [raster_of(layer, layer.name()) for layer in layers]
        self.fit(self.rasters)

    def answer(self) -> dict[str, Any]:
        """Write the table and, if requested, the other tables and the maps."""
        wanted = {
            name: output for name, output in self._MAPS.items() if self.parameter_values.get(output)
        }
        result = self.called(
            trajectories,
            self.rasters,
            [int(year) for year in numbers_of(self.text("YEARS"), "years")] or None,
            area=self.area(),
            labels=self.labels(),
            include_maps=bool(wanted),
            crs=self.crs(),
        )
        results = {"OUTPUT": self.put_table("OUTPUT", result.table)}
        for name, part in (("CHANGES", result.changes), ("INTERVALS", result.intervals)):
            if self.parameter_values.get(name):
                results[name] = self.put_table(name, part)
        for name, output in wanted.items():
            raster = result.maps[name]
            results[output] = self.put_map(raster, named_classes(raster), output)
        return results


class ZonalAlgorithm(RcellAlgorithm):
    """Computes statistics of a raster in each zone."""

    NAME = "zonal"
    TITLE = noop("Statistics by zone")
    SHORT = noop(
        "Lists the sum, mean, minimum, maximum, variance and quantiles of a raster in each zone."
    )
    TAGS = (
        "zonal statistics, mean, median, quantile, sum, r.stats.zonal, raster layer zonal "
        "statistics"
    )
    HELP = (
        noop(
            "<p>Zones without data have no row. The variance is the population variance. "
            "Quantiles between two values are interpolated. The columns of quantiles are named "
            "after their percentages, for example q50 and q2_5.</p>"
        ),
        _ZONES,
    )

    def initAlgorithm(self, configuration: Any = None) -> None:
        """Declare the parameters."""
        self.addParameter(QgsProcessingParameterRasterLayer("INPUT", tr("Raster of values")))
        self.add_band()
        self.add_zones(is_optional=False)
        self.add_flag("EACH", tr("Process overlapping polygons separately"))
        self.add_text("QUANTILES", tr("Quantiles from 0 to 1, separated by commas"), "0.5")
        title = tr("Scale of decimals: 100 rounds to 1/100 (empty: whole numbers only)")
        kind = QgsProcessingParameterNumber.Integer
        options = {"optional": True, "minValue": 1}
        self.addParameter(QgsProcessingParameterNumber("SCALE", title, kind, **options))
        self.add_crs()
        self.add_table()

    def read(self) -> None:
        """Read the values and the zones."""
        self.read_zoned()

    def answer(self) -> dict[str, Any]:
        """Write the table and return its path."""
        quantiles = numbers_of(self.text("QUANTILES"), "quantiles")
        table = self.called(
            zonal,
            self.rasters[0],
            self.zones,
            quantiles=quantiles,
            scale=self.number("SCALE") if self.has_scale() else None,
            each=self.flag("EACH"),
            **self.zoning(),
        )
        return {"OUTPUT": self.put_table("OUTPUT", table)}

    def has_scale(self) -> bool:
        """Return whether decimals are rounded."""
        return self.parameter_values.get("SCALE") not in (None, "")

    def glanced(self) -> list[Any]:
        """Return the rasters to check before the run, without values that may be decimals."""
        return [self.zones] if self.has_scale() else super().glanced()


class DominantAlgorithm(RcellAlgorithm):
    """Finds the most frequent class and the rarest class of each zone."""

    NAME = "dominant"
    TITLE = noop("Dominant class of zones")
    SHORT = noop(
        "Lists the most frequent class and the rarest class of each zone, and the number of "
        "classes."
    )
    TAGS = "majority, minority, variety, mode, zonal statistics, dominant, r.mode"
    HELP = (
        noop(
            "<p>Frequencies and percentages refer to the zone's cells that have data. In a tie, "
            "the smallest class is used. Zones without data have no row.</p>"
        ),
        _ZONES,
    )

    def initAlgorithm(self, configuration: Any = None) -> None:
        """Declare the parameters."""
        self.add_raster()
        self.add_zones(is_optional=False)
        self.add_flag("EACH", tr("Process overlapping polygons separately"))
        self.add_area()
        self.add_labels()
        self.add_crs()
        self.add_table()

    def read(self) -> None:
        """Read the raster and its zones."""
        self.read_zoned()

    def answer(self) -> dict[str, Any]:
        """Write the table and return its path."""
        table = self.called(
            dominant,
            self.rasters[0],
            self.zones,
            area=self.area(),
            labels=self.labels(),
            each=self.flag("EACH"),
            **self.zoning(),
        )
        return {"OUTPUT": self.put_table("OUTPUT", table)}


class AdjacencyAlgorithm(RcellAlgorithm):
    """Counts the cell sides between each pair of classes."""

    NAME = "adjacency"
    TITLE = noop("Adjacency of classes")
    SHORT = noop("Counts the cell sides between each pair of classes, and measures their length.")
    TAGS = "adjacency, contact, edges, neighbours, perimeter, fragmentation"
    HELP = (noop("<p>Each side counts once. For rasters in degrees, there are no lengths.</p>"),)

    def initAlgorithm(self, configuration: Any = None) -> None:
        """Declare the parameters."""
        self.add_raster()
        self.add_labels()
        self.add_crs()
        self.add_table()

    def answer(self) -> dict[str, Any]:
        """Write the table and return its path."""
        named = {"labels": self.labels(), "crs": self.crs()}
        table = self.called(adjacency, self.rasters[0], **named)
        return {"OUTPUT": self.put_table("OUTPUT", table)}


# The parameters with decimals, and an example of each list.
_DECIMALS = ("quantiles", "distances")
_EXAMPLES = {
    "quantiles": "0.25,0.5",
    "distances": "100,500",
    "years": "2012,2018",
    "classes": "31,32",
}


def numbers_of(text: str, name: str) -> list[float]:
    """Parse a comma-separated list of numbers.

    Raises
    ------
    Refused
        A part of the list is not a number, or a year or class is not an integer.
    """
    is_whole = name not in _DECIMALS
    try:
        parts = text.split(",") if text.strip() else []
        return [int(part) if is_whole else float(part) for part in parts]
    except ValueError:
        kind, example = "whole numbers" if is_whole else "numbers", _EXAMPLES[name]
        raise Refused(
            f"{name} must be comma-separated {kind}, for example {example}; got `{text}`",
            status=2,
        ) from None

# SPDX-License-Identifier: Apache-2.0 OR GPL-2.0-or-later
"""Define the algorithms' base class, which reads layers, runs calls and writes results."""

from __future__ import annotations

import os
from collections.abc import Callable, Mapping, Sequence
from typing import Any, Optional

import qgis.utils
from processing.core.ProcessingConfig import ProcessingConfig
from qgis.core import (
    QgsCoordinateReferenceSystem,
    QgsProcessing,
    QgsProcessingAlgorithm,
    QgsProcessingContext,
    QgsProcessingException,
    QgsProcessingFeedback,
    QgsProcessingOutputLayerDefinition,
    QgsProcessingParameterBand,
    QgsProcessingParameterBoolean,
    QgsProcessingParameterCrs,
    QgsProcessingParameterDefinition,
    QgsProcessingParameterEnum,
    QgsProcessingParameterFeatureSink,
    QgsProcessingParameterFile,
    QgsProcessingParameterMapLayer,
    QgsProcessingParameterMultipleLayers,
    QgsProcessingParameterNumber,
    QgsProcessingParameterRasterDestination,
    QgsProcessingParameterRasterLayer,
    QgsProcessingParameters,
    QgsProcessingParameterString,
    QgsWkbTypes,
)
from qgis.PyQt.QtCore import QUrl
from qgis.PyQt.QtGui import QIcon

from ..engine.core.columns import Column, Table
from ..engine.core.errors import RcellError, ReadFailed, Refused
from ..engine.core.files import writing
from ..engine.core.host import Host, serving, warn
from ..engine.core.protocol import NULL
from ..engine.core.record import BandOf, RecordedCall, csv_of, make, table_of
from ..engine.core.sources import ArrayMap, Source, sources_of
from ..engine.readers.gdal import RasterMap, open_dataset
from ..host import find_program, host_of, version, watch_of
from ..layers import FeatureLayer, colours_of, raster_of, wkt_of, zones_of
from ..results import MOST_CLASSES, fields_of, put_features, put_legend, put_raster
from ..tables import Check, check_target, is_file_of_table, no_check, write_table
from ..translation import tr

# The units of areas, as in the other packages. The unit auto means hectares if there is a reference
# system.
AREAS = ["auto", "none", "ha", "km2", "m2"]
MOST_RASTERS = 16
_NO_BREAK = "\u00a0"
# The plugin's help page, in the zip or in the sources.
_HELP = ("../help/qgis.html", "../../../docs/qgis.md")
_ICON = os.path.join(os.path.dirname(os.path.dirname(os.path.abspath(__file__))), "icon.svg")

Parameters = Mapping[str, Any]


class RcellAlgorithm(QgsProcessingAlgorithm):
    """An algorithm that processes the band `BAND` of the raster `INPUT`.

    Algorithms that process several rasters override some of the methods.
    """

    NAME = ""
    TITLE = ""
    SHORT = ""
    HELP: tuple[str, ...] = ()
    TAGS = ""
    IS_OF_ONE_RASTER = True

    def __init__(self) -> None:
        super().__init__()
        self.parameter_values: Parameters = {}
        self.context = QgsProcessingContext()
        self.feedback = QgsProcessingFeedback()
        self.rasters: list[Source] = []
        self.zones: Source | FeatureLayer | None = None
        self.colours: dict[int, Any] = {}
        self.check: Check = no_check
        self.recorded: Optional[RecordedCall] = None

    # Methods called by QGIS

    def createInstance(self) -> QgsProcessingAlgorithm:
        """Return a new instance, for QGIS to run."""
        return type(self)()

    def name(self) -> str:
        """Return the algorithm's name, without `rcell:`."""
        return self.NAME

    def displayName(self) -> str:
        """Return the algorithm's name in the toolbox."""
        return tr(self.TITLE)

    def shortDescription(self) -> str:
        """Return the algorithm's tooltip."""
        return tr(self.SHORT)

    def shortHelpString(self) -> str:
        """Return the help text that QGIS shows next to the dialog."""
        return "".join(tr(part) for part in self.HELP)

    def helpUrl(self) -> str:
        """Return the URL of the plugin's help page, which the Help button opens."""
        paths = [
            os.path.normpath(os.path.join(os.path.dirname(os.path.abspath(__file__)), name))
            for name in _HELP
        ]
        path = next((path for path in paths if os.path.isfile(path)), "")
        return str(QUrl.fromLocalFile(path).toString()) if path else ""

    def tags(self) -> list[str]:
        """Return the search words for the toolbox."""
        return self.TAGS.split(", ")

    def icon(self) -> QIcon:
        """Return the algorithm's icon in the toolbox."""
        return QIcon(_ICON)

    def canExecute(self) -> tuple[bool, str]:
        """Return whether the program was found, and an error message if not.

        QGIS calls this method before the dialog; qgis_process does not call it.
        """
        try:
            find_program(program_setting())
        except RcellError as error:
            return False, str(error)
        return True, ""

    def checkParameterValues(
        self, parameters: Parameters, context: QgsProcessingContext
    ) -> tuple[bool, str]:
        """Check parameters and rasters before the run, while the dialog is still open."""
        self.parameter_values, self.context = parameters, context
        try:
            words = self.chosen_words()
            if parameters.get("INPUT") is not None:
                with serving(Host(words="qgis")):
                    self.check_words()
                    self.record_path()
                    self.read()
                    _glance(self.glanced())
        except RcellError as error:
            return False, str(error)
        answer: tuple[bool, str] = super().checkParameterValues({**parameters, **words}, context)
        return answer

    def prepareAlgorithm(
        self, parameters: Parameters, context: QgsProcessingContext, feedback: QgsProcessingFeedback
    ) -> bool:
        """Read the layers in the main thread, because other threads must not use them."""
        self.parameter_values, self.context, self.feedback = parameters, context, feedback
        try:
            with serving(host_of(program_setting(), feedback)):
                self.read()
            if self.IS_OF_ONE_RASTER:
                layer = self.parameterAsRasterLayer(parameters, "INPUT", context)
                band = getattr(self.rasters[0], "band", 1)  # a text grid has only one band
                self.colours = colours_of(layer, band)
        except RcellError as error:
            raise QgsProcessingException(str(error)) from None
        return True

    def processAlgorithm(
        self, parameters: Parameters, context: QgsProcessingContext, feedback: QgsProcessingFeedback
    ) -> dict[str, Any]:
        """Run the algorithm in a separate thread and return its results by output name.

        Errors contain the program's message.
        """
        self.parameter_values, self.context, self.feedback = parameters, context, feedback
        self.check = watch_of(feedback)
        try:
            with serving(host_of(program_setting(), feedback)), writing(*self.targets()):
                results = self.answer()
            feedback.setProgress(100)
            return results
        except RcellError as error:
            raise QgsProcessingException(message_of(error, feedback)) from None

    def chosen_words(self) -> dict[str, str]:
        """Return the given choices as strings, because QGIS rejects the integer 8 for choice `8`.

        Raises
        ------
        Refused
            A choice is unknown.
        """
        words = {}
        for parameter in self.parameterDefinitions():
            word = self.parameter_values.get(parameter.name())
            if isinstance(parameter, QgsProcessingParameterEnum) and isinstance(word, (int, str)):
                options = parameter.options()
                if str(word) not in options:
                    listed = ", ".join(map(repr, options))
                    raise Refused(
                        f"{parameter.name()} must be one of {listed}; got {word!r}", status=2
                    )
                words[parameter.name()] = str(word)
        return words

    # Methods overridden by algorithms

    def answer(self) -> dict[str, Any]:
        """Run the calls and return the results by output name."""
        raise NotImplementedError

    def check_words(self) -> None:
        """Check the text parameters."""

    def read(self) -> None:
        """Read the layers and check that they have the same grid."""
        self.rasters = [self.raster()]

    def glanced(self) -> list[Any]:
        """Return the rasters whose first rows are read before the run."""
        return [*self.rasters, self.zones]

    # Methods called by algorithms

    def add_raster(self) -> None:
        """Add the parameters for one raster and its band."""
        self.addParameter(QgsProcessingParameterRasterLayer("INPUT", tr("Raster")))
        self.add_band()

    def add_band(self) -> None:
        """Add the parameter for the band of `INPUT`."""
        title = tr("Band (required if the raster has several)")
        of_input = {"parentLayerParameterName": "INPUT", "optional": True}
        self.addParameter(QgsProcessingParameterBand("BAND", title, **of_input))

    def add_crs(self) -> None:
        """Add the parameter for the reference system of rasters that have none."""
        title = tr("Coordinate reference system for rasters that have none")
        parameter = QgsProcessingParameterCrs("CRS", title, optional=True)
        parameter.setFlags(parameter.flags() | QgsProcessingParameterDefinition.FlagAdvanced)
        self.addParameter(parameter)

    def add_rasters(self, title: str) -> None:
        """Add the parameter for several rasters."""
        self.addParameter(
            QgsProcessingParameterMultipleLayers("INPUT", title, QgsProcessing.TypeRaster)
        )

    def add_count(self, name: str, title: str, most: int = 2**31 - 1, default: int = 1) -> None:
        """Add a parameter for a positive number."""
        kind = QgsProcessingParameterNumber.Integer
        limits = {"minValue": 1, "maxValue": most}
        self.addParameter(QgsProcessingParameterNumber(name, title, kind, default, **limits))

    def add_area(self) -> None:
        """Add the parameter for the unit of areas."""
        self.add_choice("AREA", tr("Unit of areas"), AREAS)

    def add_labels(self) -> None:
        """Add the parameter for a legend in a file."""
        title = tr("Class labels: a CSV with value,label or a style (empty: the layer's labels)")
        self.add_file("LABELS", title)

    def add_file(self, name: str, title: str) -> None:
        """Add a parameter for a legend or a crosswalk in a file."""
        kinds = "Legends and crosswalks (*.csv *.tsv *.qml);;All files (*)"
        self.addParameter(QgsProcessingParameterFile(name, title, optional=True, fileFilter=kinds))

    def add_zones(self, is_optional: bool = True) -> None:
        """Add the parameters for zones and their labels."""
        kinds = [QgsProcessing.TypeRaster, QgsProcessing.TypeVectorPolygon]
        title = tr("Zones: a raster or polygons")
        self.addParameter(
            QgsProcessingParameterMapLayer("ZONES", title, optional=is_optional, types=kinds)
        )
        self.add_text("ZONE_FIELD", tr("Polygon field with the ids or names of the zones"))
        title = tr("Zone labels: a CSV with value,label or a style (empty: the layer's labels)")
        self.add_file("ZONE_LABELS", title)

    def add_text(self, name: str, title: str, default: Optional[str] = None) -> None:
        """Add a parameter for an optional text."""
        self.addParameter(QgsProcessingParameterString(name, title, default, optional=True))

    def add_lines(self, name: str, title: str, default: Optional[str] = None) -> None:
        """Add a parameter for lines of text."""
        self.addParameter(QgsProcessingParameterString(name, title, default, multiLine=True))

    def add_choice(self, name: str, title: str, words: Sequence[str]) -> None:
        """Add a parameter for a choice of words, the first of which is the default."""
        options = {"options": words, "defaultValue": words[0], "usesStaticStrings": True}
        self.addParameter(QgsProcessingParameterEnum(name, title, **options))

    def add_flag(self, name: str, title: str) -> None:
        """Add a yes-or-no parameter, with no as the default."""
        self.addParameter(QgsProcessingParameterBoolean(name, title, defaultValue=False))

    def add_map(self, title: str, name: str = "OUTPUT", is_optional: bool = False) -> None:
        """Add the parameter for an output map."""
        parameter = QgsProcessingParameterRasterDestination(name, title, optional=is_optional)
        self.addParameter(parameter)

    def add_table(self, title: str = "", name: str = "OUTPUT", is_optional: bool = False) -> None:
        """Add the parameter for an output table."""
        kind, title = QgsProcessing.TypeVector, title or tr("Table")
        presence = {"optional": is_optional, "createByDefault": not is_optional}
        self.addParameter(QgsProcessingParameterFeatureSink(name, title, kind, **presence))
        if name == "OUTPUT":
            self.add_flag("RECORD", tr("Write a record, which Verify can check (CSV tables only)"))

    def add_null(self) -> None:
        """Add the parameter for counting cells without data."""
        self.add_flag("INCLUDE_NULL", tr("Also count cells without data"))

    def text(self, name: str) -> str:
        """Return the text of a parameter."""
        return str(self.parameterAsString(self.parameter_values, name, self.context))

    def word(self, name: str) -> str:
        """Return the chosen option of a parameter."""
        return str(self.parameterAsEnumString(self.parameter_values, name, self.context))

    def flag(self, name: str) -> bool:
        """Return whether a yes-or-no parameter is set."""
        return bool(self.parameterAsBoolean(self.parameter_values, name, self.context))

    def number(self, name: str) -> int:
        """Return the numeric value of a parameter."""
        return int(self.parameterAsInt(self.parameter_values, name, self.context))

    def area(self) -> Optional[str]:
        """Return the unit of areas, or None for no areas."""
        unit = self.word("AREA")
        return None if unit == "none" else unit

    def path(self, name: str) -> Optional[str]:
        """Return the file that a parameter names, or None."""
        return self.parameterAsFile(self.parameter_values, name, self.context) or None

    def labels(self) -> Optional[str]:
        """Return the path of the legend file, or None."""
        return self.path("LABELS")

    def record_path(self) -> str:
        """Return the path of the table to record, or an empty string if no record is requested.

        Raises
        ------
        Refused
            A record is requested, but the table is not a CSV.
        """
        path = plain_path(self.parameter_values.get("OUTPUT")) if self.flag("RECORD") else ""
        if self.flag("RECORD") and not path.lower().endswith(".csv"):
            raise Refused("RECORD requires an OUTPUT whose name ends in .csv", status=2)
        return path

    def called(
        self, call: Callable[..., Any], *words: Any, part: Optional[str] = None, **named: Any
    ) -> Any:
        """Run a call and record it on request, with the table `part` if it returns several tables.

        Raises
        ------
        Refused
            The call cannot be recorded, because the layers differ from their files.
        """
        result, path = call(*words, **named), self.record_path()
        if path:
            file_words = [self.file_of(word) for word in words]
            file_named = {name: self.file_of(value) for name, value in named.items()}
            self.recorded = make(path, call, file_words, file_named, part)
            if csv_of(self.recorded.table) != csv_of(table_of(result, part)):
                raise Refused(
                    "RECORD describes files, but these layers have values, labels or features that "
                    "differ from their files: save the layers to new files first",
                    status=2,
                )
        return result

    def file_of(self, argument: Any) -> Any:
        """Replace each layer in an argument with the layer's file."""
        if isinstance(argument, Mapping):
            return {name: self.file_of(value) for name, value in argument.items()}
        if isinstance(argument, list):
            return [self.file_of(value) for value in argument]
        files = getattr(argument, "files", ())
        if files and self.has_band() and argument is self.rasters[0]:
            return BandOf(files[0], self.number("BAND"))
        return files[0] if files else argument

    def has_band(self) -> bool:
        """Return whether a band is chosen. For no band, QGIS may also pass -1 or 0."""
        return self.parameter_values.get("BAND") not in (None, "", -1, 0)

    def raster(self) -> Source:
        """Open the band `BAND` of the raster `INPUT` as a map."""
        layer = self.parameterAsRasterLayer(self.parameter_values, "INPUT", self.context)
        if layer is None or not layer.isValid():
            raise_unreadable(self.parameter_values["INPUT"])
        return raster_of(layer, layer.name(), self.number("BAND") if self.has_band() else None)

    def read_zoned(self) -> None:
        """Read the raster `INPUT` and, if given, its zones."""
        self.rasters = [self.raster()]
        self.zones = None
        if self.parameter_values.get("ZONES"):
            zones = self.parameterAsLayer(self.parameter_values, "ZONES", self.context)
            if zones is None or not zones.isValid():
                raise_unreadable(self.parameter_values["ZONES"])
            self.zones = zones_of(zones)
        is_raster = self.zones is not None and not isinstance(self.zones, FeatureLayer)
        self.fit([*self.rasters, self.zones] if is_raster else self.rasters)

    def zoning(self) -> dict[str, Any]:
        """Return the zone arguments of a call."""
        return {
            "zone_field": self.text("ZONE_FIELD") or None,
            "zone_labels": self.path("ZONE_LABELS"),
            "crs": self.crs(),
        }

    def fit(self, rasters: Sequence[Any]) -> None:
        """Check that rasters have the same reference system and region."""
        sources_of({f"map_{place}": raster for place, raster in enumerate(rasters)}, self.crs())

    def raster_layers(self, names: Sequence[str] = (), most: int = MOST_RASTERS) -> list[Any]:
        """Return the raster layers that the user selected for `INPUT`.

        Raises
        ------
        RcellError
            A layer cannot be read, or there are too many layers.
        """
        input = self.parameter_values["INPUT"]
        values = input if isinstance(input, (list, tuple)) else [input]
        if not values:
            raise Refused("INPUT must have at least one raster; got none", status=2)
        layers = self.parameterAsLayerList(self.parameter_values, "INPUT", self.context)
        is_lacking = len(layers) < len(values)  # QGIS leaves out layers that it cannot read
        for place, value in enumerate(values if is_lacking else []):
            if not self.parameterAsLayerList({"INPUT": [value]}, "INPUT", self.context):
                raise_unreadable(value, names[place] if place < len(names) else "")
        if len(layers) > most:
            rule = f"INPUT must have at most {most} rasters"
            raise Refused(f"{rule}; got {len(layers)}", status=2)
        return list(layers)

    def crs(self) -> Optional[str]:
        """Return the reference system for rasters that have none, as well-known text, or None.

        Raises
        ------
        Refused
            The parameter value is not a coordinate reference system.
        """
        parameter = self.parameter_values.get("CRS")
        wkt = wkt_of(self.parameterAsCrs(self.parameter_values, "CRS", self.context))
        if parameter and not wkt and isinstance(parameter, str):
            raise Refused(f"CRS must be a coordinate reference system; got '{parameter}'", status=2)
        return wkt or None

    def targets(self) -> list[str]:
        """Return the output files, after checking that they can be written."""
        destinations = self.destinationParameterDefinitions()
        names = [each.name() for each in destinations if each.type() != "folderDestination"]
        paths = list(filter(None, (plain_path(self.parameter_values.get(name)) for name in names)))
        if self.record_path():
            paths.append(f"{self.record_path()}.json")
        for path in paths:
            check_target(path, self.inputs())
        return paths

    def inputs(self) -> list[str]:
        """Return the input files."""
        maps = [*self.rasters, *([self.zones] if self.zones else [])]
        files = ("LABELS", "ZONE_LABELS", "RULES_FILE", "AREAS_FILE")
        named = [self.path(name) for name in files if self.parameter_values.get(name)]
        return [path for map in maps for path in map.files] + list(filter(None, named))

    def put_map(
        self,
        map: ArrayMap,
        classes: Sequence[tuple[int, str]],
        name: str = "OUTPUT",
        like: Optional[Source] = None,
        null: int = NULL,
    ) -> str:
        """Write a map with its legend and return the map's path."""
        path: str = self.parameterAsOutputLayer(self.parameter_values, name, self.context)
        put_raster(path, map, like or self.rasters[0], self.check, null)
        if not put_legend(path, classes, self.colours, self.context):
            self.feedback.pushInfo(
                f"The map has {len(classes):,} classes. Maps with more than {MOST_CLASSES:,} "
                "classes have no legend and are shown in grey."
            )
        return path

    def put_table(self, name: str, table: Table) -> str:
        """Write a table to a file, or to another QGIS sink such as a memory layer."""
        if not len(table):
            warn(tr("The table is empty: all cells are excluded or without data."))
        path = plain_path(self.parameter_values.get(name))
        if path and is_file_of_table(path):
            target: str = QgsProcessingParameters.parameterAsOutputLayer(
                self.parameterDefinition(name), self.parameter_values[name], self.context
            )
            write_table(target, table, self.check)
            if name == "OUTPUT" and self.recorded is not None:
                self.recorded.write(target, version())
            return target
        self.check()
        fields, no_crs = fields_of(table), QgsCoordinateReferenceSystem()
        sink, target = self.parameterAsSink(
            self.parameter_values, name, self.context, fields, QgsWkbTypes.NoGeometry, no_crs
        )
        if sink is None:
            raise QgsProcessingException(self.invalidSinkError(self.parameter_values, name))
        put_features(sink, table, target)
        return target


def _glance(maps: Sequence[Any]) -> None:
    """Read the first rows of rasters, to detect most invalid cells while the dialog is open."""
    for map in maps:
        if isinstance(map, RasterMap):
            next(map.blocks())


def renamed(table: Table, titles: Mapping[str, str]) -> Table:
    """Rename the columns of maps in a table, including their label columns."""
    names = {**titles, **{f"{name}_label": f"{title}_label" for name, title in titles.items()}}
    return Table(
        Column(names.get(column.name, column.name), column.kind, column.values)
        for column in table.data
    )


def as_log(text: str) -> str:
    """Format a text for the log, which drops spaces at the beginning of lines."""
    if qgis.utils.iface is None:
        return text
    lines = (line.replace("\t", "    ") for line in text.split("\n"))
    return "\n".join(
        _NO_BREAK * (len(line) - len(line.lstrip(" "))) + line.lstrip(" ") for line in lines
    )


def message_of(error: RcellError, feedback: QgsProcessingFeedback) -> str:
    """Return the message of an error.

    In the QGIS window, the script line and its mark are written to the log, which has a fixed-width
    font.
    """
    text = str(error)
    if (
        qgis.utils.iface is None
        or not isinstance(error, Refused)
        or error.content is None
        or error.column is None
    ):
        return as_log(text)
    first, content, mark, *advice = text.split("\n")
    feedback.pushConsoleInfo(as_log(f"{content}\n{mark}"))
    return as_log("\n".join([first, content, *advice]))


def program_setting() -> str:
    """Return the program's path from the settings, or an empty string."""
    return str(ProcessingConfig.getSetting("RCELL_PROGRAM") or "").strip()


def plain_path(value: Any) -> str:
    """Return the path of a destination file, or an empty string for other destinations.

    Other destinations include memory layers, databases and temporary outputs.
    """
    if isinstance(value, QgsProcessingOutputLayerDefinition):
        value = value.sink.staticValue()
    text = str(value or "")
    is_other = text in ("", QgsProcessing.TEMPORARY_OUTPUT) or text.startswith(
        ("memory:", "ogr:", "postgis:", "postgres:", "spatialite:")
    )
    return "" if is_other else text


def raise_unreadable(value: Any, name: str = "") -> None:
    """Raise an error that explains why a raster, given as a path or a layer, cannot be read.

    For a path, the error contains GDAL's message.

    Raises
    ------
    ReadFailed
    """
    name_of = getattr(value, "name", lambda: "raster")  # a method of layers
    text = value if isinstance(value, str) else name_of()
    title = name or os.path.splitext(os.path.basename(text))[0] or "raster"
    open_dataset(title, text)  # raises GDAL's error
    raise ReadFailed(title, f"cannot open: {text} is not a raster")

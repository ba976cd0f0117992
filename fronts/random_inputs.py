"""Random maps, zones and legends in files, together with their contents, for random_calls.py."""

from __future__ import annotations

import csv
import io
import math
import pathlib
from dataclasses import dataclass, field, replace
from typing import Any, Sequence
from xml.sax.saxutils import quoteattr

import numpy as np
from osgeo import gdal, ogr, osr
from reference import MOST, Feature, Frame, Raster, System

gdal.UseExceptions()
ogr.UseExceptions()
FOOT, SURVEY_FOOT, DEGREE = 0.3048, 12 / 39.37, math.pi / 180
CLARKE = (6378206.4, 1 - 6356583.8 / 6378206.4)
METRES, NONE = System("EPSG:32632", 1.0), System("")
LOCAL = System('LOCAL_CS["site",UNIT["foot",0.3048],AXIS["x",EAST],AXIS["y",NORTH]]')
DEGREES = [
    System("EPSG:4326", None, DEGREE),
    System("EPSG:4267", None, DEGREE, CLARKE),
    System("+proj=longlat +R=6371000", None, DEGREE, (6371000.0, 0.0)),
]
SYSTEMS = [
    METRES,
    METRES,
    System("EPSG:25832", 1.0),
    System("EPSG:3035", 1.0),
    System("EPSG:2263", SURVEY_FOOT),
    System("EPSG:2222", FOOT),
    System("+proj=utm +zone=32 +datum=WGS84 +units=km", 1000.0),
    NONE,
    *DEGREES,
    *DEGREES[:1],
    LOCAL,
    System("EPSG:4978"),
]
TYPES = {
    "Byte": (gdal.GDT_Byte, np.uint8),
    "Int8": (gdal.GDT_Byte, np.int8),
    "UInt16": (gdal.GDT_UInt16, np.uint16),
    "Int16": (gdal.GDT_Int16, np.int16),
    "UInt32": (gdal.GDT_UInt32, np.uint32),
    "Int32": (gdal.GDT_Int32, np.int32),
    "Int64": (gdal.GDT_Int64, np.int64),
    "UInt64": (gdal.GDT_UInt64, np.uint64),
    "Float32": (gdal.GDT_Float32, np.float32),
    "Float64": (gdal.GDT_Float64, np.float64),
}
DRIVERS = {"gpkg": "GPKG", "shp": "ESRI Shapefile", "fgb": "FlatGeobuf", "geojson": "GeoJSON"}
LABELS = [
    "wood",
    "heath",
    "wood",
    "moor, wet",
    "Wiese \u00fc",
    "a > b",
    "a & b",
    "5",
    "from",
    "=x",
    "T\u00fcrk\u00e7e",
    "town",
]
NAMES = ["Nord", "S\u00fcd", "Ost", "a, b", "7", "7.0", "x'y", "\u0130zmir"]


@dataclass
class Made:
    """A map or zones in a file.

    Attributes
    ----------
    file : str
    held : Raster or None
        The contents that the product must find; None if it must reject the file.
    zone_field : str
        The polygons' field of zones, or nothing.
    refused : dict of str to str
        Why a package rejects the file, as documented.
    system : System
    """

    file: str
    held: Raster | None
    zone_field: str = ""
    refused: dict[str, str] = field(default_factory=dict)
    system: System = METRES
    features: list[Feature] = field(default_factory=list)
    kind: str = ""


def one_of(random: Any, values: Sequence[Any]) -> Any:
    return values[int(random.integers(len(values)))]


def srs_of(text: str) -> Any:
    system = osr.SpatialReference()
    system.SetFromUserInput(text)
    system.SetAxisMappingStrategy(osr.OAMS_TRADITIONAL_GIS_ORDER)
    return system


# Frames


def frame_of(random: Any) -> Frame:
    """Draw a grid: in metres, feet or degrees, at a pole, or at the corner of the plane."""
    system = one_of(random, SYSTEMS)
    most = one_of(random, (3, 6, 12, 12, 40))
    rows, cols = (int(size) for size in random.integers(1, most + 1, 2))
    if random.random() < 0.06:  # a map at the corner of the plane, with cells of 1 m
        return Frame(rows, cols, 0.0, float(rows), 1.0, 1.0, METRES)
    if system.angle is None:
        width, height = (float(it) for it in random.choice([0.5, 1, 10, 25, 30, 1 / 3, 100], 2))
        west, north = (
            5e5 + float(random.integers(-1000, 1000)),
            5.4e6 + float(random.integers(-1000, 1000)) / 3,
        )
        return Frame(rows, cols, west, north, width, height, system)
    width = one_of(random, (0.001, 1 / 120, 0.25, 1.0))
    height = one_of(random, (0.001, 1 / 120, 0.25, 1.0))
    north = float(random.integers(-40, 85)) + 1 / 3
    chance = random.random()
    if chance < 0.25:
        north = 90 + height * one_of(random, (0.0, 0.5))
    elif chance < 0.35:
        north = -90 + height * (rows - one_of(random, (0.0, 0.5)))
    elif chance < 0.38:
        north = 90 + height * 0.75
    return Frame(rows, cols, float(random.integers(-179, 100)), north, width, height, system)


# Rasters


def classes_of(random: Any, kind: str) -> list[int]:
    """Draw a few classes that fit in a type: with gaps, around 0, or at the limits."""
    dtype = TYPES[kind][1]
    low, high = (-(2**24), 2**24) if dtype == np.float32 else (-MOST, MOST)
    if np.dtype(dtype).kind != "f":
        low, high = max(low, int(np.iinfo(dtype).min)), min(high, int(np.iinfo(dtype).max))
    count = one_of(random, (1, 2, 3, 5, 9))
    near = [it for it in range(-3, 12) if low <= it <= high]
    wide = [
        low,
        low + 1,
        high - 1,
        high,
        *(int(it) for it in random.integers(low, high, 6, np.int64)),
    ]
    chosen = random.permutation(near if random.random() < 0.75 else near[:4] + wide)[:count]
    return sorted({int(it) for it in chosen})


def holds(kind: str, code: int) -> bool:
    """Return whether a class fits in a type."""
    dtype = np.dtype(TYPES[kind][1])
    if dtype.kind == "f":
        return dtype == np.float64 or abs(code) <= 2**24
    return bool(np.iinfo(dtype).min <= code <= np.iinfo(dtype).max)


def cells_of(random: Any, classes: Sequence[int], shape: tuple[int, int]) -> Any:
    """Return noise, or larger spots of noise."""
    step = one_of(random, (1, 1, 2, 4))
    small = random.integers(len(classes), size=(-(-shape[0] // step), -(-shape[1] // step)))
    cells = np.repeat(np.repeat(small, step, 0), step, 1)[: shape[0], : shape[1]]
    return np.array(classes, np.int64)[cells]


def raster_of(
    random: Any,
    folder: pathlib.Path,
    name: str,
    frame: Frame,
    has_system: bool,
    codes: Sequence[int],
) -> Made:
    """Draw a raster in a frame, with some given classes or random ones."""
    kind = one_of(random, [it for it in TYPES if it != "Int8" or random.random() < 0.3])
    classes = [code for code in codes if holds(kind, code)] or classes_of(random, kind)
    cells = cells_of(random, classes, (frame.rows, frame.cols))
    null = random.random(cells.shape) < one_of(random, (0, 0, 0.1, 0.4))
    labels = {}
    if kind == "Byte" and max(classes) < 40 and random.random() < 0.3:
        codes = [it for it in classes if random.random() < 0.8]
        labels = dict(zip(codes, (one_of(random, LABELS) for _ in codes)))
    form = Form(kind, labels, one_of(random, ("nodata", "nodata", "mask", "alpha", "nan")))
    system = frame.system if has_system else NONE
    made = Made(
        f"{name}.tif",
        None,
        "",
        write_raster(random, folder / f"{name}.tif", frame, cells, null, form, system),
    )
    made.held = Raster(cells, form.null, replace(frame, system=system), labels)
    made.system = system
    return made


@dataclass
class Form:
    """How a raster is stored. `null` is set when the raster is written."""

    kind: str
    labels: dict[int, str]
    nulls: str
    null: Any = None


def write_raster(
    random: Any, path: pathlib.Path, frame: Frame, cells: Any, null: Any, form: Form, system: System
) -> dict[str, str]:
    """Write a raster, and return the packages that reject it."""
    kind, dtype = TYPES[form.kind]
    is_real = np.dtype(dtype).kind == "f"
    options = ["PIXELTYPE=SIGNEDBYTE"] if form.kind == "Int8" else []
    refused = {"r": "signed bytes"} if form.kind == "Int8" else {}
    way = form.nulls if null.any() else "none"
    way = (
        "nodata" if way == "nan" and not is_real or way == "alpha" and form.kind != "Byte" else way
    )
    values: Any = np.where(null, 0, cells).astype(dtype)
    nodata = None
    if way == "nodata":
        nodata = _nodata_of(random, cells, null, dtype)
        way = "mask" if nodata is None else way
    if way == "nodata":
        values[null] = dtype(nodata)
    elif way == "nan":
        values[null] = np.nan
    elif way == "alpha":
        options += ["ALPHA=YES", "PHOTOMETRIC=MINISBLACK"]
    elif way == "mask":
        refused["r"] = "its own mask"
    if nodata is not None and not is_real and abs(nodata) >= 2**53:
        refused["r"] = "nodata of 64 bits"
    form.null = null
    dataset = gdal.GetDriverByName("GTiff").Create(
        str(path), frame.cols, frame.rows, 1 + (way == "alpha"), kind, options
    )
    is_up = random.random() < (0.5 if (frame.west, frame.height) == (0.0, 1.0) else 0.1)
    south = frame.north - frame.height * frame.rows
    edges = (south, frame.height) if is_up else (frame.north, -frame.height)
    dataset.SetGeoTransform((frame.west, frame.width, 0, edges[0], 0, edges[1]))
    if system.text:
        dataset.SetSpatialRef(srs_of(system.text))
    step = -1 if is_up else 1
    band = dataset.GetRasterBand(1)
    if nodata is not None:
        band.Fill(1)
        dataset.FlushCache()
        setter = {
            gdal.GDT_Int64: band.SetNoDataValueAsInt64,
            gdal.GDT_UInt64: band.SetNoDataValueAsUInt64,
        }
        setter.get(kind, band.SetNoDataValue)(nodata)
    if form.labels:
        band.SetCategoryNames([form.labels.get(code, "") for code in range(max(form.labels) + 1)])
    band.WriteArray(
        np.ascontiguousarray(
            values[::step].view(np.uint8) if form.kind == "Int8" else values[::step]
        )
    )
    opaque = np.where(null, 0, 255).astype(np.uint8)[::step]
    if way == "alpha":
        dataset.GetRasterBand(2).WriteArray(np.ascontiguousarray(opaque))
    elif way == "mask":
        gdal.SetConfigOption("GDAL_TIFF_INTERNAL_MASK", one_of(random, ("YES", "NO")))
        dataset.CreateMaskBand(gdal.GMF_PER_DATASET)
        band.GetMaskBand().WriteArray(np.ascontiguousarray(opaque))
    return refused


def _nodata_of(random: Any, cells: Any, null: Any, dtype: Any) -> Any:
    """Return a nodata value that no cell has, or None if there is none."""
    if np.dtype(dtype).kind == "f":
        ends = [float(np.finfo(dtype).min), -9999.0, 0.0]
    else:
        ends = [int(np.iinfo(dtype).min), int(np.iinfo(dtype).max), 0]
    kept = set(cells[~null].tolist())
    free = [it for it in ends if it not in kept]
    return one_of(random, free) if free else None


# Zones


KINDS = {
    "int": ogr.OFTInteger,
    "long": ogr.OFTInteger64,
    "real": ogr.OFTReal,
    "text": ogr.OFTString,
    "bool": ogr.OFTInteger,
}


def values_of(random: Any, kind: str, count: int) -> list[Any]:
    """Return values of a field, some of which are missing."""
    pool: list[Any] = {
        "int": [0, 1, 2, 5, -4, 7, 2147483647],
        "long": [5, 3000000000, 1234567890123456, 1234567890123457, 8],
        "real": one_of(random, ([1.0, 2.0, 5.0], [1.0, 2.5, 0.25, 3.0], [0.1 + 0.2, 0.3, 1.0])),
        "text": [*NAMES, ""],
        "bool": [True, False],
    }[kind]
    share = one_of(random, (0, 0, 0.3))
    return [None if random.random() < share else one_of(random, pool) for _ in range(count)]


def ring_of(random: Any, frame: Frame) -> list[tuple[float, float]]:
    """Return a box along cell edges, or a star with three to six corners, as a closed ring."""
    east, south = frame.west + frame.width * frame.cols, frame.north - frame.height * frame.rows
    if random.random() < 0.4:
        x = sorted(int(it) for it in random.integers(-1, frame.cols + 2, 2))
        y = sorted(int(it) for it in random.integers(-1, frame.rows + 2, 2))
        x[1], y[1] = x[1] + (x[0] == x[1]), y[1] + (y[0] == y[1])
        places = [(x[0], y[0]), (x[1], y[0]), (x[1], y[1]), (x[0], y[1])]
        corners = [
            (frame.west + frame.width * a, frame.north - frame.height * b) for a, b in places
        ]
    else:
        count = int(random.integers(3, 7))
        angles = np.sort(random.random(count)) * 2 * math.pi
        x0, y0 = frame.west + random.random() * (east - frame.west), south + random.random() * (
            frame.north - south
        )
        reach = random.random(count) * 0.9 + 0.1
        corners = [
            (
                float(x0 + math.cos(a) * r * (east - frame.west)),
                float(y0 + math.sin(a) * r * (frame.north - south)),
            )
            for a, r in zip(angles.tolist(), reach.tolist())
        ]
    return [*corners, corners[0]]


def zones_of(random: Any, folder: pathlib.Path, name: str, frame: Frame) -> Made:
    """Write random polygons to a file."""
    has_code = frame.system.text.startswith("EPSG")
    endings = [it for it in DRIVERS if it not in ("geojson", "shp") or has_code]
    ending = one_of(random, endings)
    kind = one_of(random, [it for it in ("", *KINDS) if it != "bool" or ending not in ("shp",)])
    count = int(random.integers(1, 6))
    values = values_of(random, kind, count) if kind else [None] * count
    if ending in ("shp", "geojson"):  # formats with fewer digits
        values = [round(it, 6) if isinstance(it, float) else it for it in values]
    features = []
    for place, value in enumerate(values):
        parts = None if random.random() < 0.1 else [[ring_of(random, frame)]]
        features.append(Feature(place + (ending == "gpkg"), parts, value))
    if ending == "fgb":  # GDAL leaves out features without geometry
        features = [it for it in features if it.parts is not None]
        for place, it in enumerate(features):
            it.fid = place
    if ending == "gpkg" and random.random() < 0.3:
        for place, it in enumerate(features):
            it.fid = place * 3 + 2
    made = Made(f"{name}.{ending}", None, "f" if kind else "", {}, frame.system, features, kind)
    is_unknown = ending in ("gpkg", "fgb") and random.random() < 0.2
    has_two = ending == "gpkg" and random.random() < 0.3
    layer = name if not has_two else one_of(random, ("aa", "zz"))
    write_zones(folder / made.file, made, layer, is_unknown)
    if has_two:
        other = Made(
            made.file,
            None,
            made.zone_field,
            {},
            frame.system,
            [Feature(1, [[ring_of(random, frame)]], 1)],
        )
        other.kind = "int" if kind else ""
        write_zones(folder / made.file, other, "mm", False)
        if random.random() < 0.5:
            made.file += f"|layername={layer}"
        else:
            made.refused = dict.fromkeys(("python", "shell", "qgis", "r"), "several layers")
    return made


def write_zones(path: pathlib.Path, made: Made, layer: str, is_unknown: bool = False) -> None:
    """Write polygons as a layer."""
    kind = made.kind
    ending = path.suffix[1:]
    gdal.SetConfigOption("OGR_SQLITE_SYNCHRONOUS", "OFF")
    driver = ogr.GetDriverByName(DRIVERS[ending])
    source = ogr.Open(str(path), 1) if path.exists() else driver.CreateDataSource(str(path))
    system = srs_of(made.system.text) if made.system.text else None
    words = {
        "fgb": ["SPATIAL_INDEX=NO"],
        "shp": ["ENCODING=UTF-8"],
        "gpkg": ["SPATIAL_INDEX=NO"],
        "geojson": ["COORDINATE_PRECISION=15"],
    }.get(ending, [])
    of_layer = source.CreateLayer(
        layer, system, ogr.wkbUnknown if is_unknown else ogr.wkbPolygon, words
    )
    if kind:
        of_field = ogr.FieldDefn("f", KINDS[kind])
        if kind == "bool":
            of_field.SetSubType(ogr.OFSTBoolean)
        of_layer.CreateField(of_field)
    for it in made.features:
        feature = ogr.Feature(of_layer.GetLayerDefn())
        if ending == "gpkg":
            feature.SetFID(it.fid)
        if kind and it.value is None:
            feature.SetFieldNull("f")
        elif kind:
            feature.SetField("f", it.value)
        if it.parts is not None:
            feature.SetGeometry(ogr.CreateGeometryFromWkt(_text_of(it.parts)))
        of_layer.CreateFeature(feature)


def _text_of(parts: Any) -> str:
    rings = ", ".join("(" + ", ".join(f"{x!r} {y!r}" for x, y in ring) + ")" for ring in parts[0])
    return f"POLYGON ({rings})"


# Legends


def legend_of(
    random: Any, folder: pathlib.Path, name: str, codes: Sequence[int]
) -> tuple[str, dict[int, str] | None]:
    """Write a legend of some classes, and return it with its labels, or with None if it must be
    rejected."""
    kept = [code for code in codes if random.random() < 0.9] or list(codes)
    pool = LABELS[: one_of(random, (3, 6, len(LABELS)))]
    labels = {code: one_of(random, pool) for code in kept}
    if random.random() < 0.4:
        entries = list(labels.items())
        bad = random.random() < 0.08
        (folder / f"{name}.qml").write_text(
            _style(random, [*entries, ("0.5", "x")] if bad else entries), encoding="utf-8"
        )
        return f"{name}.qml", None if bad else labels
    ending = one_of(random, ("csv", "csv", "tsv", "txt"))
    text = _rows(random, labels, "\t" if ending == "tsv" or random.random() < 0.1 else ",")
    bad = random.random() < 0.08
    if bad:
        text += one_of(
            random, (f"{kept[0]},again\n", "1.5,half\n", "x,word\n", "99999999999,far\n")
        ).replace(",", "\t" if "\t" in text else ",")
    (folder / f"{name}.{ending}").write_bytes(text.encode(one_of(random, ("utf-8", "utf-8-sig"))))
    return f"{name}.{ending}", None if bad else labels


def _rows(random: Any, labels: dict[int, str], mark: str) -> str:
    """Return the lines of a CSV, in one of the common styles."""
    titles = [
        one_of(random, ("value", "Value", "VALUE")),
        one_of(random, ("label", "Label", " label")),
    ]
    more = random.random() < 0.3
    is_turned = random.random() < 0.3
    is_decimal = random.random() < 0.2
    out = io.StringIO()
    writer = csv.writer(out, delimiter=mark, lineterminator=one_of(random, ("\n", "\r\n")))
    rows: list[list[Any]] = [titles]
    rows += [[f"{code}.0" if is_decimal else code, label] for code, label in labels.items()]
    for place, row in enumerate(rows):
        row = row[::-1] if is_turned else row
        writer.writerow([*row, "note" if place == 0 else "n"] if more else row)
        if random.random() < 0.05 and place:
            out.write("\n")
    return out.getvalue()


def _style(random: Any, entries: Sequence[Any]) -> str:
    """Return a QGIS style."""
    is_ramp = random.random() < 0.4
    tag = "item" if is_ramp else "paletteEntry"
    turned = random.random() < 0.3
    is_decimal = random.random() < 0.2
    lines = []
    for code, label in entries:
        value = f"{code}.0" if is_decimal and code != "0.5" else code
        words = [f'value="{value}"', f"label={quoteattr(label)}", 'color="#102030"', 'alpha="255"']
        text = f"<{tag} {one_of(random, (' ', chr(10))).join(words[::-1] if turned else words)}/>"
        lines.append(text.replace("\u00fc", "&#252;") if random.random() < 0.3 else text)
    if random.random() < 0.2:
        lines.insert(0, f'<!-- <{tag} value="1" label="old"/> -->')
    body = "\n".join(lines)
    shade = f"<rastershader><colorrampshader>{body}</colorrampshader></rastershader>"
    inner = shade if is_ramp else f"<colorPalette>{body}</colorPalette>"
    kind = "singlebandpseudocolor" if is_ramp else "paletted"
    return f"<!DOCTYPE qgis PUBLIC 'http://mrcc.com/qgis.dtd' 'SYSTEM'>\n<qgis><pipe><rasterrenderer type=\"{kind}\">{inner}</rasterrenderer></pipe></qgis>\n"

"""Make polygons, and legends and maps for them, for the table of cases, with GDAL, in
fronts/rasters.

    /usr/bin/python3 fronts/make_zones.py
"""

from __future__ import annotations

import datetime
import math
import re
from typing import Any, Sequence
from xml.sax.saxutils import escape

import numpy as np
from make_rasters import METRES, ROOM, write, write_by_gdal
from osgeo import gdal, ogr, osr
from rasterio.transform import Affine

gdal.UseExceptions()
Feature = tuple[Any, dict[str, Any]]
LEFT, RIGHT, ALL, AWAY = (0, 0, 40, 80), (40, 0, 80, 80), (0, 0, 80, 80), (200, 0, 280, 80)
SPHERE, KILOMETRES = "+proj=longlat +R=6371000", "+proj=utm +zone=32 +datum=WGS84 +units=km"
FEET = 'LOCAL_CS["site",UNIT["foot",0.3048],AXIS["x",EAST],AXIS["y",NORTH]]'
KINDS = {
    "bool": (ogr.OFTInteger, ogr.OFSTBoolean),
    "date": (ogr.OFTDate, ogr.OFSTNone),
    "int": (ogr.OFTInteger, ogr.OFSTNone),
    "long": (ogr.OFTInteger64, ogr.OFSTNone),
    "real": (ogr.OFTReal, ogr.OFSTNone),
    "text": (ogr.OFTString, ogr.OFSTNone),
}
DRIVERS = {"gpkg": "GPKG", "shp": "ESRI Shapefile", "fgb": "FlatGeobuf"}


def box(
    edges: Sequence[float], scale: float = 1.0, place: tuple[float, float] = (5e5, 54e5)
) -> str:
    """Return a rectangle as text. Its edges are given in metres to the east and south of the maps'
    corner."""
    west, north, east, south = (edge * scale for edge in edges)
    corners = [(west, north), (east, north), (east, south), (west, south), (west, north)]
    return (
        f"POLYGON (({', '.join(f'{place[0] + x:.17g} {place[1] - y:.17g}' for x, y in corners)}))"
    )


def system_of(text: str) -> Any:
    """Return a reference system with x before y, or None for an empty text."""
    if not text:
        return None
    system = osr.SpatialReference()
    system.SetFromUserInput(text)
    system.SetAxisMappingStrategy(osr.OAMS_TRADITIONAL_GIS_ORDER)
    return system


def write_layer(
    file: str,
    fields: dict[str, str],
    features: Sequence[Feature],
    *,
    crs: str = "EPSG:32632",
    kind: int = ogr.wkbPolygon,
    layer: str = "",
) -> None:
    """Write features as a layer of a file. Each has a geometry as text, or None, and a value for
    each field."""
    stem, ending = file.rsplit(".", 1)
    path, is_first = str(ROOM / file), not layer or not (ROOM / file).exists()
    driver = ogr.GetDriverByName(DRIVERS[ending])
    # Small pages keep the GeoPackage small.
    gdal.SetConfigOption("OGR_SQLITE_PRAGMA", "page_size=512")
    gdal.SetConfigOption("OGR_CURRENT_DATE", "2026-01-01T00:00:00Z")
    words = ["VERSION=1.2", "ADD_GPKG_OGR_CONTENTS=NO"] if ending == "gpkg" else []
    if is_first:
        (ROOM / file).unlink(missing_ok=True)
    source = driver.CreateDataSource(path, options=words) if is_first else ogr.Open(path, 1)
    made = source.CreateLayer(layer or stem, system_of(crs), kind, ["SPATIAL_INDEX=NO"])
    for name, word in fields.items():
        of_field = ogr.FieldDefn(name, KINDS[word][0])
        of_field.SetSubType(KINDS[word][1])
        made.CreateField(of_field)
    for shape, values in features:
        feature = ogr.Feature(made.GetLayerDefn())
        for name, value in values.items():
            if value is None:
                feature.SetFieldNull(name)
            else:
                feature.SetField(
                    name, value.isoformat() if isinstance(value, datetime.date) else value
                )
        if shape is not None:
            feature.SetGeometry(ogr.CreateGeometryFromWkt(shape))
        made.CreateFeature(feature)


def write_missing() -> None:
    """Write polygons with missing values in fields of each type, with NaN, and features without
    geometry."""
    fields = {"number": "int", "long": "long", "name": "text", "share": "real"}
    values = {"number": 5, "long": 5, "name": "left", "share": 0.5}
    nothing = dict.fromkeys(values)
    for ending in DRIVERS:
        write_layer(f"missing.{ending}", fields, [(box(LEFT), values), (box(ALL), nothing)])
        if ending == "fgb":
            continue  # it has no features without geometry
        shapes = [(None, {"number": 7}), (box(LEFT), {"number": 8}), (box(RIGHT), {"number": 9})]
        write_layer(f"no_geometry.{ending}", {"number": "int"}, shapes)
    for ending in ("shp", "fgb"):
        shapes = [(box(LEFT), {"share": 1.0}), (box(ALL), {"share": math.nan})]
        write_layer(f"not_a_number.{ending}", {"share": "real"}, shapes)


# Metres to the east and south of the maps' corner, and the class: two points in a cell, at its
# edges, on null, outside the map, and without a class.
POINTS = [
    *((10, 10, 1), (12, 14, 2), (20, 0, 1), (50, 10, 2), (70, 10, 1), (90, 10, 3), (10, 50, 3)),
    *((30, 50, 1), (50, 50, 1), (90, 70, 2), (70, 70, 1), (100, 10, 3), (30, 30, None)),
]


def write_reference() -> None:
    """Write points with a class, as a number and as a text."""
    names = {1: "wood", 2: "meadow", 3: "town"}
    rows = [
        (f"POINT ({5e5 + east} {54e5 - south})", {"class": code, "name": names.get(code, "")})
        for east, south, code in POINTS
    ]
    write_layer("reference.gpkg", {"class": "int", "name": "text"}, rows, kind=ogr.wkbPoint)


def write_kinds() -> None:
    """Write fields of all types without missing values, for the left and the right half of the
    map."""
    values = {
        "whole": ("real", 3.0, 2.0),
        "half": ("real", 1.0, 2.5),
        "third": ("real", 0.1 + 0.2, 0.3),
        "code": ("long", 5, 3000000000),
        "parcel": ("long", 1234567890123456, 1234567890123457),
        "digits": ("text", "7", "3"),
        "name": ("text", "S\u00fcd", ""),
        "flag": ("bool", True, False),
        "day": ("date", datetime.date(2020, 1, 1), datetime.date(2019, 12, 31)),
    }
    fields = {name: kind for name, (kind, _, _) in values.items()}
    rows = [
        (box(edges), {name: value[place] for name, value in values.items()})
        for place, edges in ((1, LEFT), (2, RIGHT))
    ]
    for ending in ("gpkg", "fgb"):
        write_layer(f"kinds.{ending}", fields, rows)


def write_shapes() -> None:
    """Write several layers: overlapping and separate polygons, layers of unknown type, curved
    polygons, and points."""
    number = {"number": "int"}
    (ROOM / "layers.gpkg").unlink(missing_ok=True)
    write_layer("layers.gpkg", number, [(box(LEFT), {"number": 1})], layer="zz")
    write_layer("layers.gpkg", number, [(box(ALL), {"number": 2})], layer="aa")
    left, right, whole, away = (
        (box(edges), {"number": value})
        for edges, value in ((LEFT, 3), (RIGHT, 4), (ALL, 6), (AWAY, 8))
    )
    write_layer("under.gpkg", number, [left, whole])
    write_layer("partly_under.gpkg", number, [whole, left])
    write_layer("away.gpkg", number, [left, away])
    write_layer("halves.gpkg", number, [left, right])
    write_layer("no_system.fgb", number, [left, right], crs="")
    several = (box(RIGHT).replace("POLYGON (", "MULTIPOLYGON ((") + ")", {"number": 4})
    write_layer("unknown_type.gpkg", number, [left, several], kind=ogr.wkbUnknown)
    circle = "CURVEPOLYGON (CIRCULARSTRING (500005 5399960, 500075 5399960, 500005 5399960))"
    write_layer("curved.gpkg", number, [(circle, {"number": 3})], kind=ogr.wkbCurvePolygon)
    points = [left, ("POINT (500050 5399950)", {"number": 4})]
    write_layer("points.gpkg", number, points, kind=ogr.wkbUnknown)
    of_sphere = (box(LEFT, 0.01, (8, 48)), {"number": 3})
    write_layer("sphere.gpkg", number, [of_sphere], crs=SPHERE)
    of_km = (box(LEFT, 0.001, (500, 5400)), {"number": 3})
    write_layer("kilometres.gpkg", number, [of_km], crs=KILOMETRES)


def write_systems() -> None:
    """Write maps whose reference system is spelled in several ways, or does not imply areas."""
    ones = np.ones((4, 4), np.uint8)
    write("ones", ones, "uint8", nodata=None)
    write(
        "sphere", ones, "uint8", nodata=None, crs=SPHERE, transform=Affine(0.2, 0, 8, 0, -0.2, 48)
    )
    write(
        "kilometres",
        ones,
        "uint8",
        nodata=None,
        crs=KILOMETRES,
        transform=Affine(0.02, 0, 500, 0, -0.02, 5400),
    )
    of_proj = system_of("EPSG:3035").ExportToProj4()
    for name, crs in {
        "europe": "EPSG:3035",
        "europe_by_proj": of_proj,
        "crs84": "OGC:CRS84",
        "wgs84": "EPSG:4326",
        "local_feet": FEET,
        "geocentric": "EPSG:4978",
    }.items():
        write_by_gdal(name, [ones], gdal.GDT_Byte, transform=(8, 0.5, 0, 48, 0, -0.5))
        file = gdal.Open(str(ROOM / f"{name}.tif"), gdal.GA_Update)
        file.SetSpatialRef(system_of(crs))
        file = None
    esri = system_of("EPSG:3035")
    esri.MorphToESRI()
    write_virtual("europe_by_esri", "europe", escape(esri.ExportToWkt(["FORMAT=WKT1_ESRI"])))
    rows = [[1, 1], [2, 2]]
    write_by_gdal("rows_up", [rows], gdal.GDT_Byte, transform=(0, 1, 0, 0, 0, 1))
    write_by_gdal("rows_down", [rows], gdal.GDT_Byte, transform=(0, 1, 0, 2, 0, -1))
    globe = np.arange(20).reshape(5, 4) % 3 + 1
    for name, north in (("poles", 112.5), ("beyond_poles", 120.0)):
        transform = Affine(90, 0, -180, 0, -45, north)
        write(name, globe, "uint8", nodata=None, transform=transform, crs="EPSG:4326")
    # Two classes: one has more cells, the other has the larger area.
    write(
        "north",
        [[1, 1, 1, 1]] * 3 + [[2, 2, 2, 2]] * 2,
        "uint8",
        nodata=None,
        transform=Affine(10, 0, 0, 0, -16, 80),
        crs="EPSG:4326",
    )


def write_virtual(name: str, source: str, crs: str = "") -> None:
    """Write a virtual raster over another raster, optionally with another text for its reference
    system."""
    path = ROOM / f"{name}.vrt"
    gdal.GetDriverByName("VRT").CreateCopy(str(path), gdal.Open(str(ROOM / f"{source}.tif")))
    text = path.read_text().replace(str(ROOM) + "/", "")
    text = re.sub("<SRS.*</SRS>", f"<SRS>{crs}</SRS>", text) if crs else text
    path.write_text(text.replace('relativeToVRT="0"', 'relativeToVRT="1"'))


def write_maps() -> None:
    """Write maps for individual bugs."""
    write("abc", [[1, 2, 3]])
    write("earlier", [[1, 2, 3, 4, 4, 1]])
    write("after", [[2, 2, 3, 1, 3, 1]])
    write("apart", [[-1500000000, 1500000000]], "int32")
    write("pair", [[1, 1]])
    write("beside", np.arange(42).reshape(6, 7), transform=Affine(20, 0, 502000, 0, -20, 5402000))
    write("beside_small", [[1, 2]], transform=Affine(20, 0, 502000, 0, -20, 5402000))
    border = np.full((4, 5), 255)
    border[1:3, 1:4] = 1
    border[3, 4] = 2
    write("border", border, "uint8", nodata=None)
    write_by_gdal("two_bands", [[[1, 1], [2, 2]], [[3, 3], [3, 4]]], gdal.GDT_Byte)
    write("loose_rows", [[0, 1, 2]], "uint8", nodata=None)
    fields = "".join(
        f'<FieldDefn index="{at}"><Name>{name}</Name><Type>{kind}</Type><Usage>{usage}</Usage></FieldDefn>'
        for at, (name, kind, usage) in enumerate([("Value", 0, 5), ("Class", 2, 2)])
    )
    rows = "".join(
        f'<Row index="{at}"><F>{value}</F><F>{label}</F></Row>'
        for at, value, label in ((0, 0, "ice"), (4000000, 1, "wood"), (-1, 2, "town"))
    )
    table = (
        f'<GDALRasterAttributeTable tableType="thematic">{fields}{rows}</GDALRasterAttributeTable>'
    )
    text = f'<PAMDataset><PAMRasterBand band="1">{table}</PAMRasterBand></PAMDataset>\n'
    (ROOM / "loose_rows.tif.aux.xml").write_text(text, encoding="utf-8")
    (ROOM / "erdas.img").unlink(missing_ok=True)
    file = gdal.GetDriverByName("HFA").Create(str(ROOM / "erdas.img"), 3, 1, 1, gdal.GDT_Byte)
    file.SetGeoTransform(METRES.to_gdal())
    file.SetSpatialRef(system_of("EPSG:32632"))
    file.GetRasterBand(1).WriteArray(np.array([[1, 2, 2]]))
    table = gdal.RasterAttributeTable()
    table.CreateColumn("Value", gdal.GFT_Integer, gdal.GFU_MinMax)
    table.CreateColumn("Class_Names", gdal.GFT_String, gdal.GFU_Name)
    for row, label in enumerate(["", "wood", "meadow"]):
        table.SetValueAsInt(row, 0, row)
        table.SetValueAsString(row, 1, label)
    file.GetRasterBand(1).SetDefaultRAT(table)
    file = None
    write_virtual("virtual", "cover")


# The example of Olofsson et al. 2014, with a row for each class of the map and a column for each
# class of the reference.
SAMPLE = [[66, 0, 5, 4], [0, 55, 8, 12], [1, 0, 153, 11], [2, 1, 9, 313]]
LEGENDS = {
    "capitals.csv": "Value,LABEL\n1,wood\n2,heath\n3,moor\n",
    "label_first.csv": "label,value\nwood,1\nheath,2\nmoor,3\n",
    "more_columns.csv": "code,value,label,note\nx,1,wood,a\ny,2,heath,b\nz,3,moor,c\n",
    "color.csv": "value,label,Color\n1,wood,#228b22\n2,heath,#9acd32\n3,moor,#123456\n",
    "blank_line.csv": "value,label\n1,wood\n\n2,heath\n3,moor\n\n",
    "decimals.csv": "value,label\n1.0,wood\n2.0,heath\n3.00,moor\n",
    "trailing_comma.csv": "value,label,\n1,wood,\n2,heath,\n3,moor,\n",
    "blanks.csv": 'value, label\n1, "wood, wet"\n2, heath \n3 ,moor\n',
    "plain.txt": "value,label\n1,wood\n2,heath\n3,moor\n",
    "no_ending": "value,label\n1,wood\n2,heath\n3,moor\n",
    "tabs.tsv": "value\tlabel\n1\twood, wet\n2\theath\n3\tmoor\n",
    "tabs.csv": "value\tlabel\n1\twood, wet\n2\theath\n3\tmoor\n",
    "bom.csv": "\ufeffvalue,label\r\n1,wood\r\n2,heath\r\n3,moor\r\n",
    "hard_blank.csv": "value,label\n1,wood\u00a0\n2,\u00a0heath\n3,moor\n",
    "odd.csv": "value,label\n1,=cmd|calc\n2,'@x'\n3,NA\n",
    "empty_label.csv": "value,label\n1,wood\n2,\n3,\n",
    "one_label.csv": "value,label\n1,wood\n2,wood\n3,field\n4,town\n",
    "from.csv": "value,label\n1,from\n2,wood\n3,field\n4,town\n",
    "label_of_a_number.csv": "value,label\n1,2\n3,wood\n4,wood\n",
    "header_only.csv": "value,label\n",
    "no_header.csv": "1,wood\n2,heath\n3,moor\n",
    "empty.csv": "",
    "too_large.csv": "value,label\n1,wood\n99999999999,heath\n3,moor\n",
    "hard_blank_value.csv": "value,label\n1\u00a0,wood\n2,heath\n3,moor\n",
    "nul.csv": "value,label\n1,wo\0od\n2,heath\n3,moor\n",
    "half.csv": "value,label\n1,wood\n1.5,heath\n3,moor\n",
    "crosswalk.csv": "value,new,label\n1,10,green\n2,10,green\n3,,\n",
    "crosswalk_short.csv": "value,new,label\n1,10,green\n2,20,meadow\n",
    "crosswalk_ranges.csv": "value,new,label\n1-2,10,green\n3,20,town\n",
    "crosswalk_twice.csv": "value,new,label\n1-2,10,green\n2,20,town\n",
    "sample.csv": "map,reference,cells\n"
    + "".join(
        f"{mapped},{actual},{cells}\n"
        for mapped, row in enumerate(SAMPLE, 1)
        for actual, cells in enumerate(row, 1)
        if cells
    ),
    "areas.csv": "value,area\n1,18000\n2,13500\n3,288000\n4,580500\n",
    "areas_short.csv": "value,area\n1,18000\n2,13500\n3,288000\n",
}
PALETTE = '<qgis><pipe><rasterrenderer type="paletted"><colorPalette>{}</colorPalette></rasterrenderer></pipe></qgis>\n'
RAMP = '<qgis><pipe><rasterrenderer type="singlebandpseudocolor"><rastershader><colorrampshader>{}</colorrampshader></rastershader></rasterrenderer></pipe></qgis>\n'
ENTRIES = '<paletteEntry value="{}" label="wood" color="#228b22" alpha="255"/><paletteEntry value="2" label="heath" color="#9acd32" alpha="255"/><paletteEntry value="3" label="moor" color="#123456" alpha="255"/>'
STYLES = {
    "palette.qml": PALETTE.format(ENTRIES.format(1)),
    "decimals.qml": PALETTE.format(ENTRIES.format("1.0")),
    "half.qml": PALETTE.format(ENTRIES.format("0.5")),
    "infinite.qml": PALETTE.format(ENTRIES.format("inf")),
    "ramp.qml": RAMP.format(
        "".join(
            f'<item alpha="255" color="#228b22" value="{at}" label="{name}"/>'
            for at, name in ((1, "wood"), (2, "heath"), (3, "moor"))
        )
    ),
    "comment.qml": PALETTE.format(
        '<!-- <paletteEntry value="1" label="ash" color="#000000"/> -->' + ENTRIES.format(1)
    ),
    "apostrophes.qml": PALETTE.format(ENTRIES.format(1).replace('"', "'")),
    "line_breaks.qml": PALETTE.format(ENTRIES.format(1).replace(" ", "\n  ")),
    "marks.qml": PALETTE.format(
        '<paletteEntry value="1" label="a > b" color="#228b22"/><paletteEntry value="2" label="w&#246;d &amp; &lt;x&gt;" color="#9acd32"/><paletteEntry value="3" label="m&#xF6;r" color="#123456"/>'
    ),
    "colours.qml": PALETTE.format(ENTRIES.format(1).replace("#228b22", "34,139,34,255")),
    "entity.qml": '<!DOCTYPE qgis [<!ENTITY w "wood">]>\n'
    + PALETTE.format(ENTRIES.format(1).replace('"wood"', '"&w;"')),
    "broken.qml": PALETTE.format(ENTRIES.format(1)).replace("</qgis>", ""),
    "qgis.qml": "<!DOCTYPE qgis PUBLIC 'http://mrcc.com/qgis.dtd' 'SYSTEM'>\n"
    + PALETTE.format(ENTRIES.format(1)),
    "no_classes.qml": "<qgis><pipe/></qgis>\n",
    "twice.qml": PALETTE.format(ENTRIES.format(2)),
}


def main() -> None:
    write_missing()
    write_kinds()
    write_reference()
    write_shapes()
    write_systems()
    write_maps()
    for name, text in {**LEGENDS, **STYLES}.items():
        (ROOM / name).write_bytes(text.encode())
    latin = '<?xml version="1.0" encoding="ISO-8859-1"?>\n' + STYLES["palette.qml"]
    (ROOM / "latin.qml").write_bytes(latin.replace("heath", "Gr\u00fcnland").encode("latin-1"))


if __name__ == "__main__":
    main()

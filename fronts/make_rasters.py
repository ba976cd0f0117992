"""Make the rasters of the table of cases, fronts/rasters/*.tif, with rasterio.

    /usr/bin/python3 fronts/make_rasters.py
"""

from __future__ import annotations

import json
import pathlib
from typing import Mapping, Sequence
from xml.sax.saxutils import escape

import numpy as np
import rasterio
from osgeo import gdal
from rasterio.transform import Affine

ROOM = pathlib.Path(__file__).resolve().parent / "rasters"
NULL = -9999
LEAST_FLOAT = float(np.finfo("float32").min)
COVER = [[1, 1, 2, NULL, 3], [1, 2, 2, 2, 3], [3, 3, 1, 1, 2], [3, 1, 1, 2, 2]]
LATER = [[1, 2, 2, 3, 3], [2, 2, 2, NULL, 3], [3, 1, 1, 1, 2], [1, 1, 3, 2, 2]]
HEIGHTS = [[-5, 10, 12, 1000000, 40], [3, NULL, 8, 8, 9], [7, 7, 2, 0, 15], [100, 6, 5, 4, NULL]]
ZONES = [[7, 7, 8, 8, 8], [7, 7, 8, 8, 8], [NULL, 7, 8, 8, 8], [NULL, 7, 7, 8, 8]]
LABELS = ["", "wood, wet", "Wiese \u00fc", "built up"]
# Labels that could confuse a table or a shell, for categories far from 0.
ODD_LABELS = {-3: "NA", 7: "**", 12: "no data", 100000: 'a "b", #c', 100001: "null"}
OWN_FORM = "north: 5400000\nsouth: 5399920\neast: 500100\nwest: 500000\nrows: 4\ncols: 5\n"
METRES = Affine(20, 0, 500000, 0, -20, 5400000)


def write(
    name: str,
    cells: object,
    dtype: str = "int16",
    *,
    transform: Affine = METRES,
    crs: str = "EPSG:32632",
    nodata: float | None = NULL,
    bands: int = 1,
    scale: float | None = None,
) -> None:
    array = np.asarray(cells, dtype)
    with rasterio.open(
        ROOM / f"{name}.tif",
        "w",
        driver="GTiff",
        height=array.shape[0],
        width=array.shape[1],
        count=bands,
        dtype=dtype,
        crs=crs,
        transform=transform,
        nodata=nodata,
        compress="deflate",
    ) as file:
        for band in range(1, bands + 1):
            file.write(array, band)
        if scale is not None:
            file.scales = [scale]


def write_wide(name: str, cells: object) -> None:
    """Write 64-bit integers directly with GDAL, because rasterio 1.3 mistakes signed for unsigned
    ones."""
    array = np.asarray(cells, "int64")
    file = gdal.GetDriverByName("GTiff").Create(
        str(ROOM / f"{name}.tif"),
        array.shape[1],
        array.shape[0],
        1,
        gdal.GDT_Int64,
        ["COMPRESS=DEFLATE"],
    )
    file.SetGeoTransform(METRES.to_gdal())
    file.SetProjection(rasterio.crs.CRS.from_epsg(32632).to_wkt())
    file.GetRasterBand(1).WriteArray(array)
    file.GetRasterBand(1).SetNoDataValue(NULL)


def write_by_gdal(
    name: str,
    bands: list[object],
    kind: int,
    *,
    transform: Sequence[float] = METRES.to_gdal(),
    options: Sequence[str] = (),
    nodata: int | None = None,
) -> None:
    """Write what rasterio does not: complex cells, alpha bands, transforms that are not locations,
    and unsigned 64-bit integers."""
    arrays = [np.asarray(cells) for cells in bands]
    file = gdal.GetDriverByName("GTiff").Create(
        str(ROOM / f"{name}.tif"),
        arrays[0].shape[1],
        arrays[0].shape[0],
        len(arrays),
        kind,
        list(options),
    )
    file.SetGeoTransform(transform)
    file.SetProjection(rasterio.crs.CRS.from_epsg(32632).to_wkt())
    for number, array in enumerate(arrays, 1):
        file.GetRasterBand(number).WriteArray(array)
    if nodata is not None:
        band = file.GetRasterBand(1)
        set_nodata = {
            gdal.GDT_Int64: band.SetNoDataValueAsInt64,
            gdal.GDT_UInt64: band.SetNoDataValueAsUInt64,
        }
        set_nodata.get(kind, band.SetNoDataValue)(nodata)


def write_edges() -> None:
    """Write rasters at the limits of what a file can represent."""
    cover, alpha, nan, inf = np.asarray(COVER), np.full((4, 5), 255), float("nan"), float("inf")
    alpha[0, 3] = alpha[1, 1] = 0
    bytes_of_cover = np.where(cover == NULL, 9, cover).astype("uint8")
    grey = ["ALPHA=YES", "PHOTOMETRIC=MINISBLACK"]
    write_by_gdal("alpha", [bytes_of_cover, alpha.astype("uint8")], gdal.GDT_Byte, options=grey)
    write_by_gdal(
        "alpha_nodata",
        [bytes_of_cover, alpha.astype("uint8")],
        gdal.GDT_Byte,
        options=grey,
        nodata=3,
    )
    write_by_gdal("complex", [np.where(cover == NULL, 0, cover) + 5j], gdal.GDT_CFloat32)
    write_by_gdal(
        "nowhere_at_all", [cover], gdal.GDT_Int16, transform=(nan, 20, 0, 5400000, 0, -20)
    )
    write_by_gdal("endless", [cover], gdal.GDT_Int16, transform=(500000, inf, 0, 5400000, 0, -20))
    write_by_gdal("mirrored", [cover], gdal.GDT_Int16, transform=(500100, -20, 0, 5400000, 0, -20))
    great = np.where(cover == NULL, 0, cover).astype("uint64")
    great[0, 3] = 2**64 - 1
    write_by_gdal("unsigned", [great], gdal.GDT_UInt64, nodata=2**64 - 1)
    write_by_gdal("unsigned_undeclared", [great], gdal.GDT_UInt64)
    near = np.where(cover == NULL, 2**53, cover).astype("int64")
    near[2, 0] = 2**53 + 1
    write_by_gdal("near_null", [near], gdal.GDT_Int64, nodata=2**53)
    write("gauss", COVER, crs="EPSG:31467")
    write("bare", ZONES, crs="")
    write("old", COVER)
    write_labels("old")
    with rasterio.Env(GDAL_TIFF_INTERNAL_MASK=False), rasterio.open(ROOM / "old.tif", "r+") as file:
        file.write_mask(np.arange(20).reshape(4, 5) % 3 > 0)


def write_labels(name: str) -> None:
    """Write category names next to the raster, where GDAL keeps them."""
    names = "".join(f"<Category>{label}</Category>" for label in LABELS)
    text = f'<PAMDataset><PAMRasterBand band="1"><CategoryNames>{names}</CategoryNames></PAMRasterBand></PAMDataset>\n'
    (ROOM / f"{name}.tif.aux.xml").write_text(text, encoding="utf-8")


def write_table(name: str, labels: Mapping[float, str]) -> None:
    """Write an attribute table next to the raster."""
    rows = "".join(
        f'<Row index="{at}"><F>{value}</F><F>{escape(label)}</F></Row>'
        for at, (value, label) in enumerate(labels.items())
    )
    fields = "".join(
        f'<FieldDefn index="{at}"><Name>{title}</Name><Type>{kind}</Type><Usage>{usage}</Usage></FieldDefn>'
        for at, (title, kind, usage) in enumerate(
            [("Value", int(any(value % 1 for value in labels)), 5), ("Class", 2, 2)]
        )
    )
    text = f'<PAMDataset><PAMRasterBand band="1"><GDALRasterAttributeTable tableType="thematic">{fields}{rows}</GDALRasterAttributeTable></PAMRasterBand></PAMDataset>\n'
    (ROOM / f"{name}.tif.aux.xml").write_text(text, encoding="utf-8")


def write_text(name: str, rows: list[str]) -> None:
    """Write a grid in the program's own format."""
    (ROOM / f"{name}.txt").write_text(OWN_FORM + "\n".join(rows) + "\n", encoding="utf-8")


def write_polygons() -> None:
    """Write districts with names and numbers, of which two overlap and one contains no cell centre,
    and a district in another reference system."""
    boxes = [
        ("Nord", 20, 0, 0, 60, 40),
        ("S\u00fcd", 10, 0, 40, 60, 80),
        ("Ost", 30, 50, 0, 100, 55),
        ("Punkt", 40, 99, 79, 100, 80),
    ]
    features = []
    for name, number, west, top, east, bottom in boxes:
        ring = [
            [500000 + x, 5400000 - y]
            for x, y in [(west, top), (east, top), (east, bottom), (west, bottom), (west, top)]
        ]
        features.append(
            {
                "type": "Feature",
                "properties": {"name": name, "number": number},
                "geometry": {"type": "Polygon", "coordinates": [ring]},
            }
        )
    for file, code, kept in [
        ("districts", 32632, features),
        ("far_districts", 31467, features),
        ("dot", 32632, features[3:]),
    ]:
        crs = {"type": "name", "properties": {"name": f"urn:ogc:def:crs:EPSG::{code}"}}
        text = json.dumps(
            {"type": "FeatureCollection", "crs": crs, "features": kept},
            ensure_ascii=False,
            indent=None,
        )
        (ROOM / f"{file}.geojson").write_text(text + "\n", encoding="utf-8")


def write_legends() -> None:
    """Write legends of the cover: one lacks a class, one lists a class twice, and one has labels
    that must not be guessed."""
    (ROOM / "legend.csv").write_text(
        'value,label,colour\n1,"wood, wet",#228b22\n2,Wiese \u00fc,#9acd32\n', encoding="utf-8"
    )
    (ROOM / "twice.csv").write_text("value,label\n1,wood\n2,meadow\n1,town\n", encoding="utf-8")
    (ROOM / "latin.csv").write_text(
        "value,label\n1,wood\n2,Gr\u00fcnland\n3,town\n", encoding="latin-1"
    )
    (ROOM / "sixteens.csv").write_text("value,label\n0x1,wood\n", encoding="utf-8")
    (ROOM / "lines.csv").write_text("value,label\n0_1,wood\n", encoding="utf-8")
    (ROOM / "comma.csv").write_text("value,label\n1,wood, wet\n2,meadow\n", encoding="utf-8")
    (ROOM / "comma_for_colour.csv").write_text(
        "value,label,colour\n1,wood, wet\n2,meadow,#9acd32\n", encoding="utf-8"
    )


def write_masked(name: str, cells: object) -> None:
    """Write a raster with its own mask, in which the null cells are 0."""
    with rasterio.Env(GDAL_TIFF_INTERNAL_MASK=True):
        write(name, np.where(np.asarray(cells) == NULL, 1, cells), "uint8", nodata=None)
        with rasterio.open(ROOM / f"{name}.tif", "r+") as file:
            file.write_mask(np.asarray(cells) != NULL)


def write_other_masks() -> None:
    """Write rasters with a mask of the band, not of the file, and with a nodata value for all bands
    of the file."""
    cover = np.asarray(COVER)
    write_by_gdal("band_mask", [np.where(cover == NULL, 1, cover)], gdal.GDT_Byte)
    file = gdal.Open(str(ROOM / "band_mask.tif"), gdal.GA_Update)
    gdal.SetConfigOption("GDAL_TIFF_INTERNAL_MASK", "NO")
    file.GetRasterBand(1).CreateMaskBand(0)
    file.GetRasterBand(1).GetMaskBand().WriteArray(np.where(cover == NULL, 0, 255).astype("uint8"))
    gdal.SetConfigOption("GDAL_TIFF_INTERNAL_MASK", None)
    write_by_gdal("nodata_of_all", [cover], gdal.GDT_Int16)
    file = gdal.Open(str(ROOM / "nodata_of_all.tif"), gdal.GA_Update)
    file.SetMetadataItem("NODATA_VALUES", str(NULL))


def noise(rows: int, cols: int) -> object:
    """Return three classes and some nulls, without a pattern."""
    cells = np.random.default_rng(7).choice(
        [1, 2, 3, NULL], (rows, cols), p=[0.32, 0.32, 0.31, 0.05]
    )
    return cells


def changed(row: int, col: int, value: float) -> object:
    cells = np.asarray(COVER, "float64")
    cells[row - 1, col - 1] = value
    return cells


def main() -> None:
    ROOM.mkdir(exist_ok=True)
    write("cover", COVER)
    write_labels("cover")
    write("zones", ZONES)
    write("floats", COVER, "float32")
    write("fraction", changed(2, 3, 2.5), "float64")
    write("beyond", changed(3, 1, 3e9), "float64")
    write("least", changed(4, 5, -2147483648), "int32")
    write("bands", COVER, bands=2)
    write("scaled", COVER, scale=0.1)
    write("rotated", COVER, transform=Affine(20, 3, 500000, 3, -20, 5400000))
    write("shifted", COVER, transform=Affine(20, 0, 500010, 0, -20, 5400000))
    write("smaller", np.asarray(COVER)[:, :4])
    write("degrees", COVER, transform=Affine(0.5, 0, 8, 0, -0.5, 48), crs="EPSG:4326")
    write("near", COVER, transform=Affine(0.5, 0, 8 + 3e-9, 0, -0.5, 48), crs="EPSG:4326")
    write("farther", COVER, transform=Affine(0.5, 0, 8 + 7e-8, 0, -0.5, 48), crs="EPSG:4326")
    write("higher", COVER, transform=Affine(20, 0, 500000, 0, -20, 5400020))
    write("finer", np.repeat(COVER, 2, axis=0), transform=Affine(20, 0, 500000, 0, -10, 5400000))
    write("upside", COVER[::-1], transform=Affine(20, 0, 500000, 0, 20, 5399920))
    write("oblong", COVER, transform=Affine(20, 0, 500000, 0, -50, 5400000))
    write("feet", COVER, transform=Affine(100, 0, 900000, 0, -100, 200000), crs="EPSG:2263")
    write("nothing", np.full((2, 3), NULL))
    write("one", [[5]])
    write("ends", [[2147483647, -2147483647, 0], [-2147483648, -1, 1]], "int32", nodata=-2147483648)
    write("nan", np.where(np.asarray(COVER) == NULL, np.nan, COVER), "float32", nodata=None)
    write(
        "least_float",
        np.where(np.asarray(COVER) == NULL, LEAST_FLOAT, COVER),
        "float32",
        nodata=LEAST_FLOAT,
    )
    write("zero", np.where(np.asarray(COVER) == NULL, 0, COVER), "uint8", nodata=0)
    write("undeclared", COVER, nodata=None)
    write(
        "signed",
        np.where(np.asarray(COVER) == 3, -5, np.where(np.asarray(COVER) == NULL, -128, COVER)),
        "int8",
        nodata=-128,
    )
    write_wide("wide", COVER)
    write_wide("beyond_wide", changed(3, 1, 3e9))
    write("odd", [[-3, 7, 12], [100000, 100001, NULL]], "int32")
    write_table("odd", ODD_LABELS)
    write("halves", COVER)
    write_table("halves", {1: "wood", 1.5: "heath", 2.5: "moor", 2: "meadow"})
    write("noise", noise(9, 12))
    write_masked("masked", COVER)
    write_other_masks()
    write("later", LATER)
    write("heights", HEIGHTS, "int32")
    write(
        "lonlat", COVER, transform=Affine(0.0003, 0, 8.9999, 0, -0.0002, 48.75305), crs="EPSG:4326"
    )
    write_polygons()
    write_legends()
    write_edges()
    write_text("own", ["1 1 2 * 3", "1 2 2 2 3", "3 3 1 1 2", "3 1 1 2 2"])
    write_text("broken", ["1 1 2 * 3", "1 2 2.5 2 3", "3 3 1 1 2", "3 1 1 2 2"])
    write_text("short", ["1 1 2 * 3", "1 2 2 2 3", "3 3 1 1 2"])


if __name__ == "__main__":
    main()

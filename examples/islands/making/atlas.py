#!/usr/bin/env python3
"""Prints what sources that can be looked up say of the areas of islands, one line for each.

    atlas.py almanac | shoreline | natural-earth      the source's name of the island and its figure
    atlas.py                                          the file `atlas`: number, name, and the three figures, by tabs

The sources, each a package of Debian:
    almanac         r-base-core: the dataset `islands` of R, from The World Almanac and Book of Facts, 1975, page 406; in
                    thousands of square miles
    shoreline       gmt-gshhg-full: the figure that GSHHG 2.3.7 (World Vector Shoreline) keeps with each polygon, in square
                    kilometres
    natural-earth   qgis-common: the polygons of Natural Earth at 1:10,000,000, measured here, in square kilometres

It needs, of Debian, python3-numpy and python3-gdal.
"""
import subprocess
import sys

from osgeo import gdal, ogr, osr

# The number on our map (Madura is one with Java there), the name, the almanac's name, the western and southern edges of a degree
# square on its coast, and the longitude and latitude of a place within it.
ISLANDS = (
    (126, "New Guinea", "New Guinea", (138, -9), (138, -4)),
    (72, "Borneo", "Borneo", (109, 1), (114, 1)),
    (78, "Sumatra", "Sumatra", (100, -1), (102, -1)),
    (99, "Sulawesi", "Celebes", (119, -4), (120, -3)),
    (194, "Java", "Java", (108, -8), (110, -7.3)),
    (62, "Mindanao", "Mindanao", (125, 6), (125, 7.7)),
    (225, "Timor", "Timor", (124, -10), (125, -9)),
    (4, "Luzon", "Luzon", (120, 17), (121, 17)),
    (None, "Madura", "Madura", (113, -7), (113.3, -7.05)),
)
SHORELINE = "/usr/share/gmt-gshhg/binned_GSHHS_f.nc"
NATURAL_EARTH = "/usr/share/qgis/resources/data/world_map.gpkg"
AROUND = (92, -13, 156, 22)  # the map, with some room: west, south, east, north
DEGREES, EQUAL_AREA = 4326, 6933
SQUARE_METRES = 1e6  # of a square kilometre


def almanac():
    """The figure of each island, in thousands of square miles, or NA."""
    names = ", ".join(f'"{name}"' for _, _, name, _, _ in ISLANDS)
    words = ["Rscript", "-e", f"writeLines(as.character(datasets::islands[c({names})]))"]
    return subprocess.run(words, check=True, capture_output=True, text=True).stdout.split()


def shoreline():
    """The figure of each island: of the largest polygon that has a coast in its degree square."""
    group = gdal.OpenEx(SHORELINE, gdal.OF_MULTIDIM_RASTER).GetRootGroup()
    read = {
        name: group.OpenMDArray(name).ReadAsArray()
        for name in (
            "The_km_squared_area_of_polygons",
            "Id_of_GSHHS_ID",
            "Id_of_first_segment_in_a_bin",
            "N_segments_in_a_bin",
        )
    }
    areas = read["The_km_squared_area_of_polygons"][
        read["Id_of_GSHHS_ID"]
    ]  # of each segment of coast
    squares = [(89 - south) * 360 + west for *_, (west, south), _ in ISLANDS]
    firsts, counts = (
        read["Id_of_first_segment_in_a_bin"][squares],
        read["N_segments_in_a_bin"][squares],
    )
    return [
        round(float(areas[first : first + count].max())) for first, count in zip(firsts, counts)
    ]


def land():
    """The polygons of all land around, in degrees: provinces, joined."""
    provinces = ogr.Open(NATURAL_EARTH)
    layer = provinces.GetLayer("states_provinces")
    layer.SetSpatialFilterRect(*AROUND)
    joined = ogr.Geometry(ogr.wkbMultiPolygon)
    for province in layer:
        for polygon in province.GetGeometryRef():
            joined.AddGeometry(polygon)
    return joined.UnionCascaded()


def natural_earth():
    """The figure of each island: of the polygon that has its place on land."""
    systems = [osr.SpatialReference() for _ in range(2)]
    for system, code in zip(systems, (DEGREES, EQUAL_AREA)):
        system.ImportFromEPSG(code)
        system.SetAxisMappingStrategy(osr.OAMS_TRADITIONAL_GIS_ORDER)
    to_metres, polygons, found = osr.CoordinateTransformation(*systems), land(), []
    for *_, place in ISLANDS:
        point = ogr.CreateGeometryFromWkt("POINT (%s %s)" % place)
        polygon = next(polygon.Clone() for polygon in polygons if polygon.Contains(point))
        polygon.Transform(to_metres)
        found.append(round(polygon.GetArea() / SQUARE_METRES))
    return found


def main():
    gdal.UseExceptions()
    ogr.UseExceptions()
    sources = {"almanac": almanac, "shoreline": shoreline, "natural-earth": natural_earth}
    if sys.argv[1:]:
        for island, figure in zip(ISLANDS, sources[sys.argv[1]]()):
            print(f"{island[1]}\t{figure}")
        return
    for (number, name, *_), *figures in zip(ISLANDS, *(source() for source in sources.values())):
        if number:
            print(number, name, *figures, sep="\t")


if __name__ == "__main__":
    main()

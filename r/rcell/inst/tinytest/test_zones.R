source("helpers.R")

# Polygons as zones, with one test per rule. fronts/cases tests the rules for files of several formats.
room <- tempfile("zones")
dir.create(room)
file <- function(name) file.path(room, name)
land <- rast(matrix(1, 4, 8), extent = ext(0, 8, 0, 4), crs = "EPSG:32632")
box <- function(west, east) sprintf("POLYGON ((%1$g 0, %2$g 0, %2$g 4, %1$g 4, %1$g 0))", west, east)
polygons <- function(texts, ...) {
  shapes <- vect(texts, crs = "EPSG:32632")
  values(shapes) <- data.frame(...)
  shapes
}
stored <- function(shapes, name, layer = "zones", ...) {
  writeVector(shapes, file(name), layer = layer, ...)
  file(name)
}
cells_of <- function(...) {
  table <- suppressWarnings(rcell_composition(land, ..., area = NULL))
  stats::setNames(table$cells, if (is.null(table$zone_label)) table$zone else table$zone_label)
}

# A polygon with a missing value has no zone and takes no cells from others. terra would read the missing number as 0.
corners <- function(east) sprintf("[[[0,0],[%1$d,0],[%1$d,4],[0,4],[0,0]]]", east)
feature <- "{\"type\":\"Feature\",\"properties\":{\"number\":%s,\"name\":%s},\"geometry\":{\"type\":\"Polygon\",\"coordinates\":%s}}"
features <- sprintf(feature, c("5", "null"), c("\"west\"", "\"\""), corners(c(4L, 8L)))
path <- file("missing.geojson")
writeLines(c("{\"type\":\"FeatureCollection\",\"crs\":{\"type\":\"name\",\"properties\":{\"name\":\"urn:ogc:def:crs:EPSG::32632\"}},\"features\":[",
  paste(features, collapse = ",\n"), "]}"), path)
shapes <- polygons(c(box(0, 4), box(0, 8)), number = c(5, NA))
expect_identical(cells_of(zones = path, zone_field = "number"), c("5" = 16L))
expect_identical(cells_of(zones = path, zone_field = "name"), c(west = 16L))
expect_identical(cells_of(zones = shapes, zone_field = "number"), c("5" = 16L))
expect_identical(refusal(rcell_composition(land, zones = path, zone_field = "x"))$text, "no field x: the fields are number, name")

# Decimals and long numbers become labels with all their digits.
shapes <- polygons(c(box(0, 4), box(4, 8)), share = c(0.1 + 0.2, 0.3), code = c(5, 3e9), half = c(1, 2.5))
path <- stored(shapes, "decimals.gpkg")
expect_identical(cells_of(zones = path, zone_field = "share"), c("0.30000000000000004" = 16L, "0.3" = 16L))
expect_identical(cells_of(zones = shapes, zone_field = "code"), c("5.0" = 16L, "3000000000.0" = 16L))
expect_identical(cells_of(zones = path, zone_field = "half"), c("1.0" = 16L, "2.5" = 16L))

# Without a field, a zone has its feature's number: the fid in a layer, or the row in a SpatVector.
expect_identical(cells_of(zones = path), c("1" = 16L, "2" = 16L))
shapes$FID <- 7:8
path <- stored(shapes, "zones.shp")
expect_identical(cells_of(zones = path), c("0" = 16L, "1" = 16L))
expect_identical(cells_of(zones = path, zone_field = "FID"), c("7" = 16L, "8" = 16L))
shapes$FID <- NULL
expect_identical(cells_of(zones = shapes), c("1" = 16L, "2" = 16L))

# Several layers.
two <- stored(shapes, "two.gpkg", "first")
writeVector(shapes[1], two, layer = "second", insert = TRUE)
text <- sprintf("has the layers first, second: choose one, for example layer = \"first\" or \"%s|layername=first\"", two)
expect_identical(refusal(rcell_composition(land, zones = two))$text, text)
expect_identical(cells_of(zones = two, layer = "second"), c("1" = 16L))
expect_identical(cells_of(zones = paste0(two, "|layername=second")), c("1" = 16L))
expect_identical(refusal(rcell_composition(land, zones = two, layer = "x"))$text, "no layer x: the layers are first, second")

# If polygons overlap, the last one wins, and the warning names each feature that loses cells.
stack <- polygons(c(box(0, 4), box(0, 4), box(2, 8), box(0.1, 0.2)), name = c("a", "b", "c", "d"))
hidden <- polygons(rep(box(0, 4), 3), name = c("a", "b", "c"))
expect_warning(rcell_composition(land, zones = hidden), "and not to features 1, 2")
expect_warning(rcell_composition(land, zones = stack), "16 cells are in more than one polygon, the first at row 1, column 1: they belong to the later polygon, and not to feature 1")
expect_warning(rcell_composition(land, zones = stack), "zones: 1 of 4 polygons contain no cell centre: feature 4")
expect_warning(rcell_composition(land, zones = stack, zone_field = "name"), "and not to feature 1 [(]a[)]")
expect_identical(cells_of(zones = stack, zone_field = "name"), c(b = 8L, c = 24L))

# With each = TRUE, no polygon loses cells, in all calls with zones.
expect_identical(suppressWarnings(cells_of(zones = stack, zone_field = "name", each = TRUE)), c(a = 16L, b = 16L, c = 24L))
expect_identical(suppressWarnings(rcell_zonal(land, stack, each = TRUE))$cells, c(16L, 16L, 24L))
found <- suppressWarnings(rcell_dominant(land, stack, zone_field = "name", each = TRUE))
expect_identical(found$zone_label, c("a", "b", "c"))
expect_identical(found$cells, c(16L, 16L, 24L))
expect_identical(refusal(rcell_composition(land, zones = land, each = TRUE))$text, "each= requires polygons, but zones= is a raster")

# Decimals are accepted only with an explicit scale.
slope <- setValues(land, c(0.125, 0.5, 1.25, NA, rep(2.5, 28)))
expect_warning(found <- rcell_zonal(slope, land, quantiles = 0.5, scale = 100), "values: rounded to 1/100")
expect_equal(found$minimum, 0.12)
expect_equal(found$sum, 0.12 + 0.5 + 1.25 + 2.5 * 28)
expect_equal(found$variance, mean((c(0.12, 0.5, 1.25, rep(2.5, 28)) - found$mean)^2))
fault <- function(...) refusal(rcell_zonal(slope, land, ...))$text
expect_identical(fault(), "not a map of whole numbers: the cell at row 1, column 1 is 0.125; scale = 100 rounds to 1/100")
expect_identical(fault(scale = 2e9), "scale= is too large: the cell at row 1, column 3 is 1.25, and 2000000000 times that exceeds 2147483647")
expect_identical(fault(scale = 0.5), "scale= must be a whole number from 1 to 2147483647; got 0.5")

# terra reads a missing number as 0. A SpatVector whose file contains missing numbers is an error; if its file is
# unknown, a warning.
counted <- polygons(c(box(0, 4), box(4, 8)), number = c(0L, 5L))
known <- stored(counted, "known.gpkg")
expect_silent(found <- rcell_composition(land, zones = vect(known), zone_field = "number"))
expect_identical(found$zone, c(0L, 5L))
expect_warning(rcell_composition(land, zones = counted, zone_field = "number"), "the field number of feature 1 is 0, but terra reads missing numbers")
counted$number <- as.numeric(counted$number)
expect_silent(rcell_composition(land, zones = counted, zone_field = "number"))
counted$number <- c(NA, 5L)
lacking <- stored(counted, "lacking.gpkg")
if (!anyNA(vect(lacking)$number)) {
  text <- sprintf("the field number has 1 missing numbers, which terra reads as 0: pass the path of the file instead: \"%s\"", lacking)
  expect_identical(refusal(rcell_composition(land, zones = vect(lacking), zone_field = "number"))$text, text)
}

# Files that are not layers of polygons.
expect_identical(refusal(rcell_composition(land, zones = vect("POINT (1 1)", crs = "EPSG:32632")))$text, "features must be polygons; got points")
expect_identical(refusal(rcell_composition(land, zones = file("none.gpkg")))$text,
  sprintf("cannot open: %s: No such file or directory", file("none.gpkg")))
writeLines("north", file("text.md"))
expect_true(grepl("neither polygons nor a raster", refusal(rcell_composition(land, zones = file("text.md")))$text))
expect_identical(refusal(rcell_composition(land, zones = land, zone_field = "x"))$text, "zone_field= requires polygons, but zones= is a raster")
expect_identical(refusal(rcell_composition(land, zone_field = "x"))$text, "zone_field=, layer= and each= require zones=")

# The output file cannot be a file that the call reads: a raster, its sidecars, the sources of a VRT, a crosswalk.
labelled <- land
levels(labelled) <- data.frame(value = 1, cover = "wood")
writeRaster(labelled, file("in.tif"), datatype = "INT1U")
writeLines(sprintf("<VRTDataset rasterXSize=\"8\" rasterYSize=\"4\"><GeoTransform>0, 1, 0, 4, 0, -1</GeoTransform><VRTRasterBand dataType=\"Byte\" band=\"1\"><SimpleSource><SourceFilename>%s</SourceFilename><SourceBand>1</SourceBand></SimpleSource></VRTRasterBand></VRTDataset>", file("in.tif")), file("of.vrt"))
writeLines(c("value,new", "1,2"), file("rules.csv"))
before <- tools::md5sum(list.files(room, full.names = TRUE))
same <- "the output file is the input file: give another filename="
expect_identical(refusal(rcell_majority(file("of.vrt"), filename = file("in.tif"), overwrite = TRUE))$text, same)
expect_identical(refusal(rcell_majority(file("in.tif"), filename = file("in.tif.aux.xml"), overwrite = TRUE))$text, same)
expect_identical(refusal(rcell_reclass(land, file("rules.csv"), filename = file("rules.csv"), overwrite = TRUE))$text, same)
expect_identical(refusal(rcell_align(land, to = file("in.tif"), filename = file("in.tif"), overwrite = TRUE))$text, same)
expect_identical(tools::md5sum(names(before)), before)

unlink(room, recursive = TRUE)
expect_identical(leftovers(), character())

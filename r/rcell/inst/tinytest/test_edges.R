source("helpers.R")

# Unusual raster files: each is read exactly, or rejected with an error of this package.
room <- tempfile("edges \u00fc ")
dir.create(room)
file <- function(name) file.path(room, name)
counts <- function(map, ...) rcell_table("r.stats -c input=x", x = map, ...)

# Write a VRT that describes a raster of bytes: the header and the bands.
writeBin(as.raw(c(1, 2, 2, 3)), file("cells.raw"))
writeBin(as.raw(c(255, 0, 255, 1)), file("alpha.raw"))
band <- function(raw, number = 1, type = "Byte", inner = "", bytes = 1) c(
  sprintf("<VRTRasterBand dataType=\"%s\" band=\"%d\" subClass=\"VRTRawRasterBand\">%s", type, number, inner),
  sprintf("<SourceFilename relativeToVRT=\"1\">%s</SourceFilename><PixelOffset>%d</PixelOffset><LineOffset>%d</LineOffset>", raw, bytes, 2 * bytes),
  "</VRTRasterBand>")
transform_of <- function(numbers) sprintf("<GeoTransform>%s</GeoTransform>", numbers)
crs_of <- function(text) if (nzchar(text)) sprintf("<SRS>%s</SRS>", text)
write_vrt <- function(name, bands = band("cells.raw"), transform = "500000, 20, 0, 5400000, 0, -20", crs = "EPSG:25832") {
  writeLines(c("<VRTDataset rasterXSize=\"2\" rasterYSize=\"2\">", crs_of(crs), transform_of(transform), bands, "</VRTDataset>"), file(name))
  file(name)
}
plain <- write_vrt("plain.vrt")

# Transparent cells are null, even if only one layer or a window of the file is used.
alpha <- band("alpha.raw", 2, inner = "<ColorInterp>Alpha</ColorInterp>")
grey <- band("cells.raw", inner = "<ColorInterp>Gray</ColorInterp>")
transparent <- write_vrt("transparent.vrt", c(grey, alpha))
expected <- data.frame(x = c(1L, 2L, 3L, NA), cells = 1L)
expect_identical(counts(transparent), expected)
expect_identical(counts(rast(transparent)), expected)
expect_identical(counts(rast(transparent)[[1]]), expected)
expect_identical(counts(rast(transparent)[[2]])$x, c(0L, 1L, 255L))
expect_identical(as_rows(rcell_grid("", "x", x = transparent)), matrix(c(1, 2, NA, 3), 2))
# The same holds if both bands have a nodata value, as in a TIFF.
for (case in list(list(null = 0, x = expected), list(null = 255, x = expected), list(null = 2, x = data.frame(x = c(1L, 3L, NA), cells = c(1L, 1L, 2L))))) {
  inner <- sprintf("<NoDataValue>%d</NoDataValue>", case$null)
  both_bands <- c(band("cells.raw", inner = inner), band("alpha.raw", 2, inner = paste0(inner, "<ColorInterp>Alpha</ColorInterp>")))
  expect_identical(counts(write_vrt("null.vrt", both_bands)), case$x, info = case$null)
}
part <- rast(transparent)[[1]]
window(part) <- ext(500020, 500040, 5399960, 5400000)
expect_identical(counts(part), data.frame(x = c(3L, NA), cells = 1L))
three <- write_vrt("three.vrt", c(grey, band("cells.raw", 2), band("alpha.raw", 3, inner = "<ColorInterp>Alpha</ColorInterp>")))
expect_identical(refusal(counts(three))$text, "has 2 layers: choose one, for example x[[1]]")
expect_identical(counts(rast(three)[[2]]), expected)

# Complex cells are rejected because terra drops their imaginary part.
writeBin(as.numeric(1:8), file("complex.raw"), size = 4)
complex <- write_vrt("complex.vrt", band("complex.raw", type = "CFloat32", bytes = 8))
expect_identical(refusal(counts(complex))$text, "not a map of whole numbers: its cells are of type CFloat32")
expect_inherits(refusal(counts(rast(complex))), "rcell_bad_map")

# terra reads 64-bit integers as doubles, so a null value beyond 2^53 may hide other numbers.
writeBin(c(1L, 0L, 2L, 0L, 2L, 0L, 3L, 0L), file("wide.raw"))
wide <- function(name, nodata, type = "Int64") write_vrt(name, band("wide.raw", type = type, bytes = 8, inner = sprintf("<NoDataValue>%s</NoDataValue>", nodata)))
expect_identical(counts(wide("small.vrt", "3")), data.frame(x = c(1L, 2L, NA), cells = c(1L, 2L, 1L)))
for (nodata in c("9007199254740992", "-9223372036854775808")) {
  expect_true(grepl("^its cells have 64 bits and its nodata value is -?[0-9]+", refusal(counts(wide("wide.vrt", nodata)))$text), info = nodata)
}
expect_inherits(refusal(counts(wide("wide.vrt", "18446744073709551615", "UInt64"))), "rcell_bad_map")

# Invalid transforms are rejected.
for (transform in c("nan, 1, 0, 0, 0, -1", "0, inf, 0, 0, 0, -1", "0, 1, 0, 0, 0, nan")) {
  expect_true(grepl("^its transform must have finite numbers", refusal(counts(write_vrt("nan.vrt", transform = transform)))$text), info = transform)
}
mirrored <- write_vrt("mirrored.vrt", transform = "10, -1, 0, 100, 0, -1")
expect_true(grepl("^its transform must have columns from west to east", refusal(counts(mirrored))$text))
turned <- write_vrt("turned.vrt", transform = "10, 1, 0.5, 100, 0.5, -1")
expect_true(grepl("^its transform is rotated", refusal(counts(suppressWarnings(rast(turned))))$text))

# Maps with different reference systems are rejected, and a map without one needs crs=.
gauss <- write_vrt("gauss.vrt", crs = "EPSG:31467")
bare <- write_vrt("bare.vrt", crs = "")
both <- function(a, b, ...) rcell_table("r.stats -c input=a,b", a = a, b = b, ...)
other <- refusal(both(plain, gauss))
expect_identical(class(other)[1:3], c("rcell_other_crs", "rcell_bad_map", "rcell_refused"))
expect_identical(other[c("source", "status")], list(source = "b", status = 1L))
expect_identical(other$text, paste("its coordinate reference system is EPSG:31467 (DHDN / 3-degree Gauss-Kruger zone 3), but `a` has",
  "EPSG:25832 (ETRS89 / UTM zone 32N): reproject one of them first, for example with terra::project or gdalwarp -t_srs EPSG:25832"))
expect_inherits(refusal(rcell_cross(a = plain, b = gauss)), "rcell_other_crs")
expect_inherits(refusal(both(plain, write_vrt("far.vrt", crs = "EPSG:31467", transform = "0, 1, 0, 2, 0, -1"))), "rcell_other_crs")
lacking <- paste("it has no coordinate reference system, but `%s` has EPSG:25832 (ETRS89 / UTM zone 32N):",
  "state it with crs=\"EPSG:25832\"")
expect_identical(refusal(both(plain, bare))[c("source", "text")], list(source = "b", text = sprintf(lacking, "a")))
expect_identical(refusal(both(bare, plain))[c("source", "text")], list(source = "a", text = sprintf(lacking, "b")))
expect_identical(nrow(both(plain, bare, crs = "EPSG:25832")), 3L)
expect_identical(nrow(both(bare, bare)), 3L)
expect_true(same_crs_of(rcell_grid("", "a", a = bare, b = plain, crs = "EPSG:25832"), plain))
expect_inherits(refusal(both(plain, bare, crs = "EPSG:31467")), "rcell_other_crs")
expect_identical(refusal(counts(plain, crs = "nonsense"))[c("source", "status", "text")],
  list(source = "arguments", status = 2L, text = "crs= must be a coordinate reference system; got 'nonsense'"))
expect_identical(refusal(counts(plain, crs = 25832))$status, 2L)
expect_inherits(refusal(rcell_cross(a = plain, b = matrix(1, 2, 2), crs = "EPSG:25832")), "rcell_other_region")

# Spellings of the same system, with and without its code, are equal.
unnamed <- sub(",[^,]*ID\\[\"EPSG\",25832\\]\\]$", "]", crs(rast(plain)))
expect_false(identical(unnamed, crs(rast(plain))))
spelled <- rast(plain)
crs(spelled) <- unnamed
expect_identical(nrow(both(plain, spelled)), 3L)

# terra assumes degrees for a map without a system within 180 by 90. This package does not, when reading or writing.
near <- write_vrt("near.vrt", transform = "0, 1, 0, 2, 0, -1", crs = "")
expect_identical(counts(near, area = "m2", crs = "EPSG:25832")$area_m2, c(1, 2, 1))
written <- rcell_grid("", "x", x = near, filename = file("written.tif"))
expect_identical(crs(written), "")
expect_false(any(grepl("Coordinate System", describe(file("written.tif")))))
expect_identical(rcell_table("r.stats -c input=x", x = written, area = "m2", crs = "EPSG:25832")$area_m2, c(1, 2, 1))
expect_identical(rcell_patches(near, area = "m2", crs = "EPSG:25832")$area_m2, c(1, 1, 1, 1))

# Hectares are the exact decimal that is printed: 74183 cells of 30 m are 6676.47 ha.
many <- rast(nrows = 269, ncols = 277, xmin = 0, xmax = 277 * 30, ymin = 0, ymax = 269 * 30, crs = "EPSG:25832", vals = rep(1:2, c(74183, 330)))
expect_identical(rcell_table("r.stats -c input=x", x = many, area = "ha")$area_ha[[1]], 6676.47)
expect_identical(rcell_patches(many)$area_ha[[1]], 6676.47)

# The map of patches and their table have the same default connectivity as r.clump.
board <- matrix(c(1, 2, 1, 2, 1, 2, 1, 2, 3), 3)
expect_equal(max(values(rcell_grid("r.clump input=x output=p", "p", x = board), mat = FALSE)), max(rcell_patches(board)$patch))
expect_identical(formals(rcell_patches)$connectivity, 4)

# The script is checked before any map is opened.
quoted <- refusal(rcell_grid("r.mapcalc \"x = lc * 2\"", "x", lc = plain))
expect_identical(quoted[c("source", "line", "column", "text")],
  list(source = "script", line = 1L, column = 11L, text = "bad byte at column 11"))
expect_identical(conditionMessage(quoted), "script, line 1: bad byte at column 11\n  r.mapcalc \"x = lc * 2\"\n            ^")
expect_identical(refusal(rcell_grid("r.mapcalc y = lc", "x", lc = plain))$text, "no map x: the maps are lc, y")
expect_identical(conditionMessage(refusal(rcell_run("r.stats -cn lc", lc = plain))), "script, line 1: bad option\n  r.stats -cn lc")

# With Python, the message names the invalid option and suggests a correction.
python <- Sys.which("python3")[[1]]
folder <- system.file("python", package = "rcell")
has_code <- nzchar(python) && processx::run(python, c("-c", "import sys; sys.path.append(sys.argv[1]); import rcell.core.hints", folder),
  error_on_status = FALSE)$status == 0L
options(rcell.python = if (has_code) python else "")
for (case in if (has_code) list(c("r.stats -cn lc", "lc", 13, "r.stats -cn input=lc"), c("r.stats in=lc", "in=lc", 9, "r.stats input=lc"),
  c("r.stats -c input=lc output=t.txt", "output=t.txt", 21, "r.stats -c input=lc"), c("r.stats -cq input=lc", "-cq", 9, "r.stats -c input=lc"),
  c("r.stats input=lc input=lc", "input=lc", 18, "r.stats input=lc"), c("\tr.clump -n input=lc output=k", "-n", 10, "r.clump input=lc output=k"),
  c("r.stats input=lc separator=ab", "separator=ab", 18, "use `separator=` with pipe, comma, space, tab or one character"))) {
  found <- refusal(rcell_run(case[[1]], lc = plain))
  expect_identical(found$text, "bad option", info = case[[1]])
  expect_identical(found$column, as.integer(case[[3]]), info = case[[1]])
  mark <- paste0(if (startsWith(case[[1]], "\t")) "\t" else " ", strrep(" ", as.integer(case[[3]]) - 2))
  expect_identical(conditionMessage(found),
    sprintf("script, line 1: bad option: %s\n  %s\n  %s^\n  try: %s", case[[2]], case[[1]], mark, case[[4]]))
}
if (has_code) {
  both <- refusal(rcell_run("r.stats -c -1 input=lc", lc = plain))
  expect_identical(both$column, NA_integer_)
  expect_identical(conditionMessage(both), "script, line 1: bad option\n  r.stats -c -1 input=lc\n  try: use one of the two: `-1` cannot be combined with `-c` or `after=`")
}
options(rcell.python = "")
for (name in c("a=b", "a-b", "1a", strrep("x", 65))) {
  found <- refusal(rcell_run("r.stats input=a", maps = structure(list(plain), names = name)))
  expect_identical(found[c("source", "line", "status")], list(source = "arguments", line = 0L, status = 2L), info = name)
  expect_true(grepl("must have names of 1 to 64 letters", found$text, fixed = TRUE), info = name)
}

# A label keeps a leading Unicode blank.
labelled <- rcell_table("r.reclass input=lc output=k\n1 = 1 \u3000wide\n2 = 2 \u00a0wood\nend\nr.stats -cnl input=k", lc = plain)
expect_identical(labelled$k_label, c("\u3000wide", "\u00a0wood"))

unlink(room, recursive = TRUE)
expect_identical(leftovers(), character())

source("helpers.R")

room <- tempfile("maps \u00fc ")
dir.create(room)
file <- function(name) file.path(room, name)
counts <- function(map) rcell_table("r.stats -c input=x", x = map)
first <- made_map(4, 5, 3)

# A raster in memory, a file, a VRT, a south-up raster and a path with blanks and umlauts give the same result.
writeRaster(first, file("a b.tif"), datatype = "INT4S")
expect_identical(counts(file("a b.tif")), counts(first))
expect_identical(counts(rast(file("a b.tif"))), counts(first))
expect_identical(counts(vrt(file("a b.tif"), file("v.vrt"))), counts(first))
expect_identical(counts(classify(first, cbind(1, 1))), counts(first))
upside <- flip(first, "vertical")
expect_identical(as_rows(rcell_grid("", "x", x = upside)), as_rows(upside))
for (type in c("INT1U", "INT2U", "INT2S", "FLT4S", "FLT8S")) {
  writeRaster(first, file("typed.tif"), datatype = type, overwrite = TRUE)
  expect_identical(counts(file("typed.tif")), counts(first), info = type)
}

# A raster from a file keeps the file's type if its cells are set, even to fractions.
writeRaster(first, file("typed.tif"), datatype = "INT1U", overwrite = TRUE)
changed <- rast(file("typed.tif"))
changed[2, 3] <- 0.5
expect_identical(refusal(counts(changed))$text, "not a map of whole numbers: the cell at row 2, column 3 is 0.5")

# Several blocks of rows, and a single row or column.
many <- made_map(1100, 1000, 9, seed = 4)
expect_identical(counts(many)$cells, as.integer(table(values(many, mat = FALSE), useNA = "ifany")))
expect_identical(as_rows(rcell_grid("", "x", x = many)), as_rows(many))
for (size in list(c(1, 7), c(7, 1), c(1, 1))) {
  thin <- made_map(size[[1]], size[[2]], 3, seed = 9)
  expect_identical(as_rows(rcell_grid("", "x", x = thin)), as_rows(thin))
}

# NaN and NA are null; the ends of the range are categories.
expect_identical(counts(matrix(c(1, NaN, NA, 2147483647, -2147483647, -0), 2)),
  data.frame(x = c(-2147483647L, 0L, 1L, 2147483647L, NA), cells = c(1L, 1L, 1L, 1L, 2L)))
expect_identical(counts(matrix(c(TRUE, FALSE, NA), 1))$x, c(0L, 1L, NA))
expect_identical(as_rows(rcell_grid("", "x", x = matrix(1:6, 2))), matrix(c(1, 2, 3, 4, 5, 6), 2))

# The error about a cell that is not a whole number names its row and column.
bad <- function(value) {
  cells <- matrix(1, 3, 4)
  cells[2, 3] <- value
  refusal(counts(cells))
}
expect_identical(conditionMessage(bad(2.5)), "x: not a map of whole numbers: the cell at row 2, column 3 is 2.5")
expect_identical(bad(3e9)[c("name", "row", "column", "value")], list(name = "x", row = 2L, column = 3L, value = 3e9))
expect_identical(bad(3e9)$text, "not a map of whole numbers: the cell at row 2, column 3 is 3000000000, outside -2147483647 to 2147483647")
for (value in c(-2147483648, 4294967295, 1e300, Inf, 0.1)) expect_inherits(bad(value), "rcell_bad_map", info = value)
scaled <- first
writeRaster(scaled, file("scaled.tif"), datatype = "INT2S", scale = 0.1)
expect_true(grepl("^its values are scaled: each cell times 0.1, plus 0", refusal(counts(file("scaled.tif")))$text))
# 64-bit integers are accepted within the range. Signed bytes and masks are rejected, because terra misreads them.
writeRaster(first, file("long.tif"), datatype = "INT8S", NAflag = -9999)
expect_identical(counts(file("long.tif")), counts(first))
long <- first
long[2, 3] <- 3e9
writeRaster(long, file("long.tif"), datatype = "INT8S", NAflag = -9999, overwrite = TRUE)
expect_identical(refusal(counts(file("long.tif")))[c("row", "column", "value")], list(row = 2L, column = 3L, value = 3e9))
writeBin(as.raw(c(251, 1, 2, 3)), file("bytes.raw"))
raw_map <- function(name, kind) writeLines(c("<VRTDataset rasterXSize=\"2\" rasterYSize=\"2\"><GeoTransform>0, 1, 0, 2, 0, -1</GeoTransform>",
  "<VRTRasterBand dataType=\"Byte\" band=\"1\" subClass=\"VRTRawRasterBand\">", kind,
  "<SourceFilename relativeToVRT=\"1\">bytes.raw</SourceFilename></VRTRasterBand></VRTDataset>"), file(name))
raw_map("unsigned.vrt", "")
expect_identical(counts(file("unsigned.vrt"))$x, c(1L, 2L, 3L, 251L))
raw_map("signed.vrt", "<Metadata domain=\"IMAGE_STRUCTURE\"><MDI key=\"PIXELTYPE\">SIGNEDBYTE</MDI></Metadata>")
if (is.na(match("INT1S", datatype(rast(file("signed.vrt")))))) {
  expect_true(grepl("^its bytes are signed", refusal(counts(file("signed.vrt")))$text))
}
writeRaster(first * 1e9 * 2, file("wide.tif"), datatype = "INT4U")
expect_inherits(refusal(counts(file("wide.tif"))), "rcell_bad_map")
writeRaster(classify(first, cbind(NA, -2147483648)), file("least.tif"), datatype = "INT4S", NAflag = 0)
expect_inherits(refusal(counts(file("least.tif"))), "rcell_bad_map")

# The wrong cell may be in a later block.
late <- many
late[1090, 17] <- 0.5
expect_identical(refusal(counts(late))[c("row", "column")], list(row = 1090L, column = 17L))

# 32-bit floats beyond 2^24 are accepted with a warning.
writeRaster(first + 16777216, file("float.tif"), datatype = "FLT4S")
expect_warning(counts(file("float.tif")), "not exact beyond 16777216")
writeRaster(first, file("float.tif"), datatype = "FLT4S", overwrite = TRUE)
expect_silent(counts(file("float.tif")))

# Two layers with the same name can be two maps of a call. A raster with two layers is rejected.
expect_identical(names(rcell_cross(x = first, y = first)), c("x", "y", "cells", "area_ha", "percent"))
twice <- c(first, first)
names(twice) <- c("lc", "lc")
expect_identical(rcell_table("r.stats -c input=a,b", a = twice[[1]], b = twice[[2]])$cells, counts(first)$cells)
expect_inherits(refusal(counts(twice)), "rcell_bad_map")

# Several layers, no values, a file that is not a raster, and a truncated file.
expect_identical(refusal(counts(c(first, first)))$text, "has 2 layers: choose one, for example x[[1]]")
expect_identical(refusal(counts(rast(first)))$text, "the raster has no values")
expect_inherits(refusal(counts(file("nowhere.tif"))), "rcell_read_failed")
expect_identical(refusal(counts(file("nowhere.tif")))$status, 4L)
writeLines("nothing", file("text.tif"))
expect_inherits(refusal(counts(file("text.tif"))), "rcell_read_failed")
writeRaster(made_map(300, 300, 200), file("whole.tif"), datatype = "INT4S", gdal = "COMPRESS=NONE")
bytes <- readBin(file("whole.tif"), "raw", 1e6)
writeBin(bytes[seq_len(length(bytes) %/% 2)], file("half.tif"))
expect_inherits(refusal(suppressWarnings(counts(file("half.tif")))), "rcell_read_failed")

# A file with a rotated raster is rejected.
writeLines(c("<VRTDataset rasterXSize=\"5\" rasterYSize=\"4\"><GeoTransform>5, 1, 0.5, 9, 0.5, -1</GeoTransform>",
  "<VRTRasterBand dataType=\"Int32\" band=\"1\"><SimpleSource><SourceFilename relativeToVRT=\"1\">a b.tif</SourceFilename>",
  "<SourceBand>1</SourceBand></SimpleSource></VRTRasterBand></VRTDataset>"), file("turned.vrt"))
expect_true(grepl("^its transform is rotated", refusal(counts(file("turned.vrt")))$text))

# Edges are compared as texts with eight decimals.
placed <- function(west, east = 9) rast(matrix(1, 2, 2), extent = ext(west, east, 47, 48), crs = "EPSG:4326")
first_place <- placed(8.33333333)
expect_identical(nrow(rcell_table("r.stats -c input=a,b", a = first_place, b = placed(8 + 1 / 3))), 1L)
shifted <- refusal(rcell_table("r.stats -c input=a,b", a = first_place, b = placed(8.33333333 + 7e-8, 9 + 7e-8)))
expect_inherits(shifted, "rcell_other_region")
expect_true(grepl("b: north 48, south 47, east 9.00000007, west 8.3333334,", shifted$text, fixed = TRUE))
expect_true(grepl("east is 9.00000007, not 9 (0.00000007 more)", shifted$text, fixed = TRUE))
thirds <- rast(nrows = 60, ncols = 60, xmin = 1 / 3, xmax = 1 / 3 + 0.5, ymin = -0.5, ymax = 0, vals = 1)
expect_identical(as.vector(ext(rcell_grid("", "x", x = thirds))), as.vector(ext(thirds)))
expect_identical(counts(rast(matrix(1), extent = ext(500000, 600000, 5e6, 6e6)))$cells, 1L)
expect_true(grepl("^east must have at most ten digits", refusal(counts(rast(matrix(1), extent = ext(0, 1e10, 0, 1), crs = "EPSG:32632")))$text))
expect_true(grepl("^east must exceed west", refusal(counts(rast(matrix(1), extent = ext(0, 1e-9, 0, 1), crs = "EPSG:32632")))$text))
expect_inherits(refusal(counts(rast(nrows = 1, ncols = 65536, vals = 1))), "rcell_bad_map")

# rcell grids are passed to the program unchanged.
writeLines(c("north: 3", "south: 0", "east: 2.000000001", "west: 0", "rows: 1", "cols: 2", "1 *"), file("bad.txt"))
expect_identical(refusal(counts(file("bad.txt")))[c("source", "line", "text")], list(source = "x", line = 3L, text = "bad number"))
writeLines(c("north: 3", "south: 0", "east: 2", "west: 0", "rows: 1", "cols: 2", "1 *"), file("good.txt"))
expect_identical(counts(file("good.txt")), data.frame(x = c(1L, NA), cells = c(1L, 1L)))
expect_identical(rcell_patches(file("good.txt"))$class, 1L)
expect_identical(as.vector(ext(rcell_grid("", "x", x = file("good.txt")))), c(xmin = 0, xmax = 2, ymin = 0, ymax = 3))
expect_identical(refusal(rcell_table("r.stats input=x,y", x = file("good.txt"), y = matrix(1, 1, 2)))$name, "y")
grid <- function(text) {
  cat(text, file = file("grid.txt"))
  file("grid.txt")
}
head <- "north: 1.50\nsouth: -.5\neast: +3.\nwest: 000\nrows: 1\ncols: 03\n"
ways <- list(
  paste0(head, "7 * 254\n"), paste0(head, "7\n*\n255"), paste0(head, "type: int\nnull: no\n7 no +12"),
  gsub("\n", "\r\n", paste0(head, "7 * 12\n")), paste0("\n \nmultiplier: -2\n", gsub(": ", ":", head), "\t7  *\r\n -2147")
)
for (place in seq_along(ways)) {
  last <- list(254L, 255L, 12L, 12L, 4294L)[[place]]
  found <- rcell_grid("", "x", x = grid(ways[[place]]))
  expect_identical(as.integer(terra::values(found)), c(if (place == 5L) -14L else 7L, NA, last))
  expect_identical(as.vector(ext(found)), c(xmin = 0, xmax = 3, ymin = -0.5, ymax = 1.5))
}
expect_identical(rcell_composition(grid(ways[[1]]), labels = c("7" = "wood", "254" = "moor"), area = NULL)$label, c("wood", "moor"))
bad <- list(
  list("north: 3\nsouth: x\n1 2", 2L, "bad number"), list("north: 1\n", 2L, "missing key"),
  list(sub("03", "70000", head), 7L, "bad region"), list(sub("1.50", "-1", head), 7L, "bad region"),
  list(sub("1.50", "1e5", head), 1L, "bad number"), list(paste0(head, "type: float\n1 2 3"), 7L, "type not supported"),
  list(paste0(head, "1 x 3"), 7L, "bad cell"), list(paste0(head, "1\n\n2147483648"), 9L, "cell out of range"),
  list(paste0(head, "1 2\n"), 8L, "too few cells"), list(paste0(head, "1 2 3\n4 \xe4"), 8L, "too many cells")
)
for (each in bad) {
  found <- refusal(counts(grid(each[[1]])))
  expect_identical(found[c("source", "line", "text", "status")], list(source = "x", line = each[[2]], text = each[[3]], status = 1L))
}
expect_inherits(refusal(counts(grid(""))), "rcell_read_failed")
cells <- matrix(seq_len(65535 * 3) %% 300, ncol = 3)
many <- c("north: 65535", "south: 0", "east: 3", "west: 0", "rows: 65535", "cols: 3")
writeLines(c(many, apply(cells, 1, paste, collapse = " ")), file("grid.txt"))
expect_equal(terra::as.matrix(rcell_grid("", "x", x = file("grid.txt")), wide = TRUE), cells, check.attributes = FALSE)

# A file that is shortened while it is read is an error, and so is a grid with another header.
own <- asNamespace("rcell")
path <- grid(ways[[1]])
shorten <- function(bytes) cat("north", file = path)
shortened <- refusal(own$write_text(shorten, "x", path))
expect_inherits(shortened, "rcell_read_failed")
expect_true(grepl("was shortened from 68 to 5 bytes while it was read$", shortened$text))

unlink(room, recursive = TRUE)
expect_identical(leftovers(), character())

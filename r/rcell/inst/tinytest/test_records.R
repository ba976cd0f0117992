source("helpers.R")

# Tables with a record, and the results of verifying it.
room <- tempfile("records")
dir.create(file.path(room, "maps"), recursive = TRUE)
file <- function(name) file.path(room, name)
land <- made_map(8, 9, 3, seed = 3)
writeRaster(land, file("maps/land.tif"), datatype = "INT1U")
writeRaster(land > 1, file("maps/zones.tif"), datatype = "INT1U")
writeLines(c("value,label", "1,wood", "2,\"field, wet\"", "3,town"), file("legend.csv"))
recorded <- function() {
  rcell_record(file("table.csv"), rcell_composition, file("maps/land.tif"), zones = file("maps/zones.tif"), labels = file("legend.csv"))
}
verified <- function() rcell_verify(file("table.csv"))
found <- recorded()
expect_false(withVisible(recorded())$visible)
expect_identical(found, rcell_composition(land, zones = land > 1, labels = file("legend.csv")))
expect_identical(verified(), character())
read <- read.csv(file("table.csv"))
expect_equal(read, found, check.attributes = FALSE)
record <- readLines(file("table.csv.json"))
expect_true(any(grepl("\"path\": \"maps/land.tif\"", record, fixed = TRUE)))
before <- tools::md5sum(c(file("table.csv"), file("table.csv.json")))
recorded()
expect_identical(tools::md5sum(names(before)), before)

# Python records the same checksum for these cells.
sums <- rcell:::sum_of_cells(rcell:::sources_of(list(m = rast(matrix(c(1, NA, 3, 4), 2, byrow = TRUE), extent = ext(0, 2, 0, 2), crs = "")))$m)
expect_identical(substr(sums, 1, 12), "92c4ddb19ec7")

# A different type, nodata value, compression or folder does not change the checksum.
writeRaster(land, file("maps/land.tif"), datatype = "INT4S", NAflag = -5, gdal = "COMPRESS=DEFLATE", overwrite = TRUE)
expect_identical(verified(), character())
files <- list.files(room, full.names = TRUE)
dir.create(file("moved"))
file.copy(files, file("moved"), recursive = TRUE)
expect_identical(rcell_verify(file("moved/table.csv")), character())

# Changes to a cell, a letter of the table or a legend, and a deleted map are reported.
other <- setValues(land, replace(values(land, mat = FALSE), 5, 3))
writeRaster(other, file("maps/land.tif"), datatype = "INT1U", overwrite = TRUE)
told <- verified()
expect_identical(told[[1]], "the cells of map differ")
expect_true(grepl("^the table differs in line [0-9]+ and in [0-9]+ more lines?: `", told[[2]]))
writeRaster(land, file("maps/land.tif"), datatype = "INT1U", overwrite = TRUE)
text <- readLines(file("table.csv"))
writeLines(sub("wood", "woods", text), file("table.csv"))
told <- verified()
expect_identical(told[[1]], "the table has changed since it was written")
expect_true(grepl("woods", told[[2]]))
writeLines(text, file("table.csv"))
writeLines(c("value,label", "1,wood", "2,field", "3,town"), file("legend.csv"))
expect_identical(verified()[[1]], "legend.csv has changed")
unlink(file("maps/zones.tif"))
expect_true(any(startsWith(verified(), "the call fails: zones: cannot open")))

# Calls without named arguments, including calls that run scripts of several lines.
for (call in c("rcell_composition", "rcell_metrics", "rcell_patches", "rcell_adjacency")) {
  rcell_record(file("plain.csv"), call, file("maps/land.tif"))
  expect_identical(rcell_verify(file("plain.csv")), character(), info = call)
}
rcell_record(file("plain.csv"), rcell_sample, file("maps/land.tif"), 5, seed = "a\tb\\\"")
expect_identical(rcell_verify(file("plain.csv")), character())

# Calls that return several tables, named vectors, and maps that are not files.
writeRaster(land, file("maps/later.tif"))
rcell_record(file("change.csv"), "rcell_change", file("maps/land.tif"), file("maps/later.tif"), labels = c("1" = "a", "2" = "b", "3" = "c"), .table = "summary")
expect_identical(readLines(file("change.csv"))[[1]], "class,label,before_ha,after_ha,gain_ha,loss_ha,net_ha,swap_ha,persistence_ha")
expect_identical(rcell_verify(file("change.csv")), character())
maps <- list(file("maps/land.tif"), file("maps/later.tif"))
rcell_record(file("years.csv"), rcell_trajectories, maps, years = c(1990, 2000))
expect_identical(rcell_verify(file("years.csv")), character())
fault <- function(...) refusal(rcell_record(...))$text
expect_identical(fault(file("t.csv"), rcell_composition, land), "arguments must be paths, numbers or strings to be recorded; got an object of class SpatRaster")
expect_identical(fault(file("t.txt"), rcell_composition), sprintf(".path= must be a path that ends in .csv; got \"%s\"", file("t.txt")))
expect_identical(fault(file("t.csv"), sum), ".call= must be a function of this package, for example rcell_composition; got \"a function\"")
expect_identical(fault(file("t.csv"), rcell_majority, file("maps/land.tif")), "the call must return a table; got a SpatRaster")
expect_identical(fault(file("legend.csv"), rcell_composition, file("maps/land.tif"), labels = file("legend.csv")), "the output file is the input file: give another filename=")
expect_false(file.exists(file("t.csv")))
expect_true(startsWith(refusal(rcell_verify(file("maps/none.csv")))$text, "cannot open"))
writeLines("class,cells", file("bad.csv"))
fault_of_bad <- function() refusal(rcell_verify(file("bad.csv")))$text
expect_true(grepl("bad.csv has no record \\(.*bad.csv.json\\): write it with rcell_record", fault_of_bad()))
writeLines("{\"versions\": {\"python\": \"3.11\"}}", file("bad.csv.json"))
expect_true(grepl("bad.csv was not recorded in R: verify it in Python or QGIS, or with rcell-gis verify", fault_of_bad()))
writeLines("{\"rcell_record\": 1, \"call\": system(\"true\")}", file("bad.csv.json"))
expect_true(grepl("is not a record", refusal(rcell_verify(file("bad.csv")))$text))
for (text in c("{\"rcell_record\": 1}", "[]", "1", "{\"rcell_record\": 1, \"call\": {\"name\": \"sum\"}}", "{\"rcell_record\": 1, \"call\": 7}")) {
  writeLines(text, file("bad.csv.json"))
  expect_true(grepl("is not a record", refusal(rcell_verify(file("bad.csv")))$text), info = text)
}

unlink(room, recursive = TRUE)
expect_identical(leftovers(), character())

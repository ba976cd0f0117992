source("helpers.R")

room <- tempfile("out \u00fc ")
dir.create(room)
file <- function(name) file.path(room, name)
lc <- made_map(20, 30, 3)
rules <- "r.reclass input=lc output=kind\n1 = 1 wood\n2 3 = 100000 town, dense\nend"

# The file has type INT4S, the map's geometry and reference system, and the labels of the rules.
found <- rcell_grid(rules, "kind", lc = lc, filename = file("kind.tif"))
expect_identical(datatype(found), "INT4S")
expect_identical(basename(sources(found)), "kind.tif")
expect_true(compareGeom(found, lc))
expect_identical(levels(found)[[1]][[2]], c("wood", "town, dense"))
expect_identical(levels(found)[[1]][[1]], c(1L, 100000L))
expect_equivalent(values(found, mat = FALSE), values(rcell_grid(rules, "kind", lc = lc), mat = FALSE))
expect_equal(sort(unique(values(found, mat = FALSE))), c(1, 100000))
expect_identical(sort(list.files(room, all.files = TRUE, no.. = TRUE)), c("kind.tif", "kind.tif.aux.xml"))

# Large numbers stay unchanged.
rcell_grid("r.mapcalc x = 16777216 + lc", "x", lc = lc, filename = file("great.tif"))
expect_equal(values(rast(file("great.tif")), mat = FALSE), values(lc, mat = FALSE) + 16777216)

# A majority, and an existing file.
rcell_majority(lc, filename = file("majority.tif"))
expect_equivalent(as_rows(rast(file("majority.tif"))), as_rows(rcell_majority(lc)))
before <- tools::md5sum(file("majority.tif"))
expect_inherits(refusal(rcell_majority(lc, 5, filename = file("majority.tif"))), "rcell_write_failed")
expect_identical(tools::md5sum(file("majority.tif")), before)
rcell_majority(lc, 5, filename = file("majority.tif"), overwrite = TRUE)
expect_equivalent(as_rows(rast(file("majority.tif"))), as_rows(rcell_majority(lc, 5)))
rcell_grid("", "lc", lc = lc, filename = file("kind.tif"), overwrite = TRUE)
expect_false(file.exists(file("kind.tif.aux.xml")))

# An error leaves no file; a missing folder is reported before the run.
files <- list.files(room, all.files = TRUE)
expect_inherits(refusal(rcell_grid("r.mapcalc x = lc + 1.5", "x", lc = lc, filename = file("x.tif"))), "rcell_refused")
expect_inherits(refusal(rcell_grid("", "lc", lc = lc, filename = file("no/x.tif"))), "rcell_write_failed")
expect_inherits(refusal(rcell_grid("", "lc", lc = lc, filename = file("x.unknown"))), "rcell_write_failed")
expect_inherits(refusal(rcell_grid("", "lc", lc = lc, filename = room, overwrite = TRUE)), "rcell_write_failed")
expect_identical(list.files(room, all.files = TRUE), files)

unlink(room, recursive = TRUE)
expect_identical(leftovers(), character())

source("helpers.R")

# The accuracy of a map: the example of Olofsson et al. 2014, and references of all kinds.
room <- tempfile("reference")
dir.create(room)
file <- function(name) file.path(room, name)
counts <- matrix(c(66, 0, 5, 4, 0, 55, 8, 12, 1, 0, 153, 11, 2, 1, 9, 313), 4, byrow = TRUE)
sample <- data.frame(map = rep(1:4, each = 4), reference = rep(1:4, 4), cells = as.vector(t(counts)))
sizes <- c("1" = 18000, "2" = 13500, "3" = 288000, "4" = 580500)
found <- rcell_accuracy(NULL, sample, sizes)
expect_identical(names(found), c("matrix", "classes", "overall", "overall_se", "kappa", "quantity", "allocation", "cells"))
expect_equal(round(found$overall, 2), 0.95)
expect_equal(round(1.96 * found$overall_se, 2), 0.02)
expect_equal(round(found$classes$users, 2), c(0.88, 0.73, 0.93, 0.96))
expect_equal(round(found$classes$producers, 2), c(0.75, 0.85, 0.93, 0.96))
expect_equal(round(found$classes$area_ha[[1]]), 21158)
expect_equal(round(1.96 * found$classes$area_se_ha[[1]]), 6158)
expect_identical(found$cells, 640L)
expect_equal(unname(as.matrix(found$matrix[-1])), counts)
expect_equal(found$overall + found$quantity + found$allocation, 1)
write.csv(sample, file("sample.csv"), row.names = FALSE)
writeLines(c("value,area", sprintf("%s,%s", names(sizes), sizes)), file("sizes.csv"))
expect_equal(rcell_accuracy(NULL, file("sample.csv"), file("sizes.csv")), found)
expect_identical(names(rcell_accuracy(NULL, sample, sizes, area = NULL)$classes), names(found$classes)[1:7])

# The reference can be a map. Maps may have one class, and a stratum one cell.
before <- matrix(c(1, 1, 2, 2, NA, 2), 1)
after <- matrix(c(1, 2, 2, 2, 1, NA), 1)
whole <- rcell_accuracy(before, after, labels = c("1" = "wood", "2" = "field"))
expect_equal(whole[3:8], list(overall = 0.75, overall_se = 0.25, kappa = 0.5, quantity = 0.25, allocation = 0, cells = 4L))
expect_identical(whole$matrix$map, c("wood", "field"))
expect_identical(names(whole$matrix), c("map", "wood", "field"))
expect_true(is.nan(rcell_accuracy(matrix(1, 1, 3), matrix(1, 1, 3))$kappa))
single <- rcell_accuracy(NULL, data.frame(map = c(1, 2, 2), reference = c(1, 2, 1)), c("1" = 5, "2" = 5))
expect_identical(is.nan(single$classes$users_se), c(TRUE, FALSE))
expect_true(is.nan(single$overall_se))

# Points come from a SpatVector or a file. Two points in a cell both count. Cells include their northern and western
# edges.
land <- rast(matrix(c(1, 1, 2, NA), 1), extent = ext(0, 4, 0, 1), crs = "EPSG:32632")
places <- cbind(c(0.5, 0.6, 1, 2.5, 3.5, 9, 2.5), c(0.5, 0.6, 1, 0.5, 0.5, 0.5, 0.5))
points <- vect(places, crs = "EPSG:32632", atts = data.frame(class = c(1, 2, 1, 2, 2, 1, NA), name = letters[1:7]))
expect_warning(found <- rcell_accuracy(land, points), "reference: 3 of 7 points are left out: 1 without a class, 1 outside the map, 1 on null cells")
expect_identical(as.list(found$matrix), list(map = 1:2, "1" = c(2L, 0L), "2" = c(1L, 1L)))
writeVector(points, file("points.gpkg"))
expect_warning(again <- rcell_accuracy(land, file("points.gpkg"), "map"), "3 of 7 points")
expect_equal(again$matrix, found$matrix)
expect_equal(again$classes$mapped_ha, c(2, 1) / 1e4)

# A warning names points that are not a random sample.
long <- rast(matrix(c(rep(1, 9), 2), 1), extent = ext(0, 10, 0, 1), crs = "EPSG:32632")
drawn <- function(common, rare) {
  class <- rep(1:2, c(common, rare))
  vect(cbind(c(0.5, 9.5)[class], 0.5), crs = "EPSG:32632", atts = data.frame(class = class))
}
expect_warning(rcell_accuracy(long, drawn(80, 80)), "if the sample was drawn class by class, use areas = \"map\"")
expect_silent(rcell_accuracy(long, drawn(80, 80), "map"))
expect_silent(rcell_accuracy(long, drawn(144, 16)))
expect_silent(rcell_accuracy(long, drawn(3, 3)))

# Invalid input: messages show the value found.
fault <- function(...) refusal(suppressWarnings(rcell_accuracy(...)))$text
expect_true(startsWith(fault(NULL, sample, sizes[-1]), "areas= must include each class in the sample; got no area for 1"))
expect_true(startsWith(fault(NULL, sample, c(sizes, "7" = 1)), "each map class with an area must have sample cells; got none for 7"))
expect_identical(fault(NULL, sample, c(sizes, "x" = 1)), "areas= must be non-negative areas by class; got 1 for x")
expect_true(startsWith(fault(NULL, sample, 7), "areas= must be \"map\" or areas by class"))
expect_identical(fault(NULL, sample, "map"), "areas= must list areas by class if no map is given; got \"map\"")
expect_identical(fault(NULL, before), "x= must be a map unless reference= is a table; got NULL")
expect_identical(fault(before, matrix(NA_real_, 1, 6)), "the sample is empty: no cell has a class in both the map and the reference")
expect_identical(fault(NULL, data.frame(map = 1.5, reference = 1)), "row 1: 1.5 is not a valid class or number of cells")
expect_identical(fault(NULL, data.frame(map = 1, reference = 1, cells = -2)), "row 1: the number of cells must not be negative; got -2")
expect_identical(fault(NULL, data.frame(x = 1)), "a data frame must have the columns map and reference; got x")
expect_identical(fault(land, points, field = "name"), "classes must be whole numbers, but the class of feature 1 is a")
expect_identical(fault(land, points, field = "x"), "no field x: the fields are class, name")
expect_identical(fault(land, land, field = "x"), "field= requires points, but reference= has no points")
points$reference <- 1
expect_identical(fault(land, points), "has the fields class and reference: name one, for example field = \"reference\"")

# Hashes equal the output of sha256sum, for texts of one block and of several blocks.
for (text in c("", "abc", strrep("a", 55), strrep("a", 56), strrep("\u00fc", 100))) {
  known <- c("e3b0c44298fc", "ba7816bf8f01", "9f4390f8d30c", "b35439a4ac6f", "83af2e24c464")
  expect_true(sprintf("%06x%06x", rcell:::numbers_of(text) %/% 2^24, rcell:::numbers_of(text) %% 2^24) %in% known, info = text)
}
expect_identical(rcell:::drawn("7:1", 100, 5), c(60, 63, 64, 67, 73))
expect_identical(rcell:::drawn("a", 5, 9), c(0, 1, 2, 3, 4))

# A sample contains distinct cells of its classes and is reproducible. Each cell has the same probability.
noise <- made_map(30, 40, 3, seed = 12)
found <- rcell_sample(noise, 50, seed = "autumn")
expect_identical(found, rcell_sample(noise, 50, seed = "autumn"))
expect_identical(as.integer(table(found$class)), c(17L, 17L, 16L))
expect_identical(found$class, as.integer(as_rows(noise)[cbind(found$row, found$col)]))
expect_identical(anyDuplicated(found[c("row", "col")]), 0L)
expect_equal(extract(noise, as.matrix(found[c("x", "y")]))[[1]], as.numeric(found$class))
shares <- rcell_sample(noise, 100, 7, allocation = "proportional")
expect_true(all(abs(as.integer(table(shares$class)) - 100 * rcell_composition(noise)$cells / sum(rcell_composition(noise)$cells)) < 1))
expect_warning(few <- rcell_sample(matrix(c(1, 1, 2), 1), c("1" = 1, "2" = 5), 1), "some classes have fewer cells than requested: 2 [(]1 of 5[)]")
expect_identical(few$class, 1:2)
draws <- vapply(1:60, function(seed) rcell:::drawn(sprintf("%d:1", seed), 6, 2), numeric(2))
expect_true(all(table(draws) > 8))
fault <- function(...) refusal(rcell_sample(...))$text
expect_true(startsWith(fault(noise, 0, 1), "n= must be a whole number from 1 to 1000000, or one for each class"))
expect_identical(fault(noise, c("9" = 1), 1), "n= must name classes that occur in the map; got 9")
expect_identical(fault(noise, 5, 1.5), "seed= must be a whole number or a string; got 1.5")
expect_identical(fault(noise, 5, 1, "half"), "allocation= must be one of equal, proportional; got \"half\"")

unlink(room, recursive = TRUE)
expect_identical(leftovers(), character())

source("helpers.R")

# Maps made from others: merged small patches, buffers, blocks of cells.
# Sieve by its definition: the smallest small patch that touches another class gets the class of the neighbour with most common sides.
sieved <- function(map, fewest, connectivity) repeat {
  numbers <- flooded(map, connectivity)
  cells <- as_rows(map)
  sizes <- tabulate(numbers, max(0, numbers, na.rm = TRUE))
  sides <- rbind(
    cbind(as.vector(numbers[-1, ]), as.vector(numbers[-nrow(numbers), ])), cbind(as.vector(numbers[, -1]), as.vector(numbers[, -ncol(numbers)])))
  sides <- sides[!is.na(rowSums(sides)) & sides[, 1] != sides[, 2], , drop = FALSE]
  sides <- rbind(sides, sides[, 2:1, drop = FALSE])
  small <- intersect(which(sizes < fewest), sides[, 1])
  if (!length(small)) return(cells)
  # Patches are numbered by their first cells, row by row.
  patch <- small[order(sizes[small], small)][[1]]
  shared <- table(sides[sides[, 1] == patch, 2])
  into <- min(as.integer(names(shared))[shared == max(shared)])
  cells[which(numbers == patch)] <- cells[which(numbers == into)[1]]
  values(map) <- as.vector(t(cells))
}

for (seed in 1:3) for (connectivity in c(4, 8)) {
  map <- made_map(6, 8, 3, seed == 2, seed = seed)
  for (fewest in c(2, 4, 30)) {
    found <- rcell_sieve(map, fewest, connectivity = connectivity)
    expect_equal(as_rows(found), sieved(map, fewest, connectivity), info = paste(seed, connectivity, fewest))
  }
  account <- attr(found, "sieved")
  expect_identical(account$patches_before, max(flooded(map, connectivity), na.rm = TRUE))
  expect_identical(account$patches_after, nrow(rcell_patches(found, connectivity)))
  expect_identical(account$cells_changed, sum(as_rows(found) != as_rows(map), na.rm = TRUE))
}
map <- made_map(30, 40, 4, seed = 9)
levels(map) <- data.frame(value = 1:4, cover = c("wood", "field", "town", "lake"))
room <- tempfile("merging")
dir.create(room)
path <- file.path(room, "sieved.tif")
found <- rcell_sieve(map, min_ha = 0.3, filename = path)
expect_equal(as_rows(found), as_rows(rcell_sieve(map, 4)))
expect_identical(levels(rast(path))[[1]]$sieved, c("wood", "field", "town", "lake"))
patches <- rcell_patches(map)
dropped <- rcell_sieve(map, 3, drop = TRUE)
expect_identical(sum(!is.na(values(dropped))), sum(patches$cells[patches$cells >= 3]))
expect_equal(as_rows(rcell_sieve(map, 1)), as_rows(map))
fault <- function(...) refusal(rcell_sieve(...))$text
expect_identical(fault(map), "one of min_cells= and min_ha= must be given; got neither")
expect_identical(fault(map, 3, 4), "one of min_cells= and min_ha= must be given; got both")
expect_identical(fault(map, 0), "min_cells= must be a whole number, at least 1; got 0")
expect_identical(fault(map, min_ha = "a"), "min_ha= must be a number above 0; got \"a\"")
expect_true(startsWith(fault(matrix(1:4, 2), min_ha = 1), "min_ha= requires a coordinate reference system"))
degrees <- rast(matrix(1:4, 2), extent = ext(0, 2, 0, 2), crs = "EPSG:4326")
expect_true(startsWith(fault(degrees, min_ha = 1), "min_ha= requires a map in metres or feet"))

# Buffers are measured between cell centres, also of oblong cells and over long distances.
for (cell in list(c(30, 30), c(20, 50))) {
  map <- made_map(14, 17, 5, seed = 4, cell = cell)
  distances <- c(30, 75, 100.5)
  places <- xyFromCell(map, seq_len(ncell(map)))
  from <- places[values(map, mat = FALSE) %in% c(2, 5), ]
  apart <- apply(places, 1, function(place) min(sqrt((from[, 1] - place[1])^2 + (from[, 2] - place[2])^2)))
  wanted <- findInterval(apart, c(0, distances + 1e-9), left.open = TRUE)
  wanted[wanted > length(distances)] <- NA
  found <- rcell_within(map, c(5, 2), distances)
  expect_equal(values(found, mat = FALSE), wanted)
}
expect_identical(levels(found)[[1]]$within, c("inside", "up to 30 m", "30 to 75 m", "75 to 100.5 m"))
far <- rast(matrix(c(7, rep(1, 299)), 1), extent = ext(0, 3000, 0, 10), crs = "EPSG:32632")
expect_identical(sum(values(rcell_within(far, 7, 2550)) %in% 1), 255L)
# Many distances, and windows of many columns, do not fit into one expression.
expect_identical(as.integer(values(rcell_within(far, 7, seq(10, 1500, 10)))), c(0:150, rep(NA, 149)))
# Distances are exact: with decimal sides 0.3 and 0.4, cells are within 0.5, but not as floating-point numbers.
expect_identical(rcell:::reaches(0.5, c(0.1, 0.1)), c(4, 4, 4, 3, 2))
expect_identical(rcell:::reaches(150, c(30, 30)), c(5, 4, 4, 4, 3, 0))
fault <- function(...) refusal(rcell_within(...))$text
expect_identical(fault(far, 7, 2560), "distances= must be at most 255 cells; got 2560 m, which is 256.0 cells")
expect_identical(fault(far, 7, c(50, 20)), "distances= must be ascending numbers above 0, for example c(100, 500); got 50, 20")
expect_identical(fault(far, NULL, 20), "classes= must be whole numbers; got none")
expect_identical(fault(degrees, 1, 20), "distances= requires a map in metres or feet, but this map is in degrees")
expect_true(startsWith(fault(matrix(1:4, 2), 1, 20), "distances= requires a coordinate reference system"))

# Blocks contain the most frequent class, the number of cells with data, and the shares of classes.
map <- made_map(11, 14, 3, seed = 6)
levels(map) <- data.frame(value = 1:3, cover = c("wood", "field", "wood"))
blocks <- rcell_aggregate(map, 4)
expect_identical(names(blocks), c("majority", "cells", "wood (1)", "field", "wood (3)"))
expect_equal(as.vector(ext(blocks)), c(500000, 500480, 5399970, 5400330), check.attributes = FALSE)
modal <- aggregate(as.numeric(map), 4, function(cells, ...) {
  counts <- table(cells)
  as.integer(names(counts)[which.max(counts)])
})
expect_equal(as_rows(blocks$majority), as_rows(modal))
expect_equal(as_rows(blocks$cells), as_rows(aggregate(setValues(map, !is.na(values(map))), 4, sum, na.rm = TRUE)))
expect_equal(as_rows(blocks[["field"]]), 100 * as_rows(aggregate(setValues(map, values(map) %in% 2), 4, sum, na.rm = TRUE)) / as_rows(blocks$cells))
expect_true(is.na(as_rows(rcell_aggregate(map, 4, min_percent = 60)$majority)[3, 4]))
path <- file.path(room, "blocks.tif")
expect_equal(values(rcell_aggregate(map, 4, filename = path)), values(blocks))
expect_identical(levels(rast(path))[[1]]$majority, c("wood", "field", "wood"))
fault <- function(...) refusal(rcell_aggregate(...))$text
expect_identical(fault(map, 0), "factor= must be a whole number from 1 to 2147483647; got 0")
expect_identical(fault(map, 2, min_percent = 101), "min_percent= must be a number from 0 to 100; got 101")

unlink(room, recursive = TRUE)
expect_identical(leftovers(), character())

source("helpers.R")

# The maps of all tests: noise, patches, one class, one row, one cell, cells that are not squares.
maps <- list(
  noise = made_map(30, 40, 3, seed = 2), patchy = made_map(60, 50, 6, TRUE, seed = 3), one_class = made_map(20, 20, 1, seed = 5),
  row = made_map(1, 30, 2, seed = 6), cell = made_map(1, 1, 1, seed = 8), oblong = made_map(25, 20, 3, seed = 7, cell = c(20, 50)))

# A real map: the countries of South-East Asia, included in the built package, without labels.
real <- system.file("extdata", "country.tif", package = "rcell")
if (nzchar(real)) maps$real <- setValues(rast(rast(real)), values(rast(real), mat = FALSE))

# Return whether all cells in the diamond around a cell belong to its patch.
is_core <- function(numbers, depth) {
  rows <- row(numbers)
  cols <- col(numbers)
  found <- !is.na(numbers)
  for (down in -depth:depth) for (right in -(depth - abs(down)):(depth - abs(down))) {
    is_in <- rows + down >= 1 & rows + down <= nrow(numbers) & cols + right >= 1 & cols + right <= ncol(numbers)
    there <- cbind(as.vector(rows + down), as.vector(cols + right))[is_in, , drop = FALSE]
    found[!is_in] <- FALSE
    found[is_in] <- found[is_in] & numbers[there] %in% numbers & (numbers[there] == numbers[is_in]) %in% TRUE
  }
  found
}

clumped <- function(map, connectivity) rcell_grid(sprintf("r.clump%s input=x output=p", if (connectivity == 8) " -d" else ""), "p", x = map)

for (name in names(maps)) for (connectivity in c(4, 8)) {
  map <- maps[[name]]
  info <- paste(name, connectivity)
  patches <- clumped(map, connectivity)
  numbers <- as_rows(patches)
  if (ncell(map) <= 1200) expect_equal(numbers, flooded(map, connectivity), info = info)
  expect_true(compareGeom(patches, map), info = info)

  # For each class, the patches and their numbers equal terra's, which joins all values. (terra numbers a map with one
  # cell differently.)
  if (ncell(map) > 1) for (class in unique(na.omit(values(map, mat = FALSE)))) {
    of_class <- as_rows(clumped(ifel(map == class, class, NA), connectivity))
    terras <- as_rows(patches(map == class, directions = connectivity, zeroAsNA = TRUE, allowGaps = FALSE))
    expect_equal(of_class, terras, info = paste(info, class))
  }

  # Check numbers, classes, sizes and areas; perimeters and boxes equal the values of terra's polygons.
  found <- rcell_patches(map, connectivity)
  expect_identical(names(found), c("patch", "class", "cells", "area_ha", "perimeter_m", "core_ha", "west", "south", "east", "north"), info = info)
  expect_identical(found$patch, seq_len(max(numbers, na.rm = TRUE)), info = info)
  expect_identical(found$cells, tabulate(numbers), info = info)
  expect_equal(found$area_ha, found$cells * prod(res(map)) / 1e4, info = info)
  expect_equal(found$class, as_rows(map)[match(found$patch, numbers)], info = info)
  shapes <- as.polygons(patches)
  expect_equal(found$perimeter_m, perim(shapes), info = info)
  expect_equal(as.matrix(found[c("west", "east", "south", "north")]),
    t(sapply(seq_along(shapes), function(at) as.vector(ext(shapes[at])))), check.attributes = FALSE, info = info)

  # Core cells equal an erosion: all cells in the diamond around them belong to the patch.
  for (depth in c(1, 3)) {
    core <- rcell_patches(map, connectivity, area = NULL, core_depth = depth)$core_cells
    expect_identical(core, tabulate(numbers[is_core(numbers, depth)], max(numbers, na.rm = TRUE)), info = paste(info, depth))
  }
}

# Leaving out rows changes no number. The zone contains most of a patch's cells; ties go to the smaller zone.
all <- rcell_patches(maps$patchy, 8)
expect_equal(rcell_patches(maps$patchy, 8, min_cells = 30, classes = c(2, 5)), all[all$cells >= 30 & all$class %in% c(2, 5), ], check.attributes = FALSE)
zones <- made_map(60, 50, 4, seed = 21)
zoned <- rcell_patches(maps$patchy, 8, zones = zones)
counts <- table(as_rows(clumped(maps$patchy, 8)), factor(as_rows(zones), 1:4))
expect_identical(zoned$zone, as.integer(unname(ifelse(rowSums(counts) == 0, NA, max.col(counts, "first")))))
expect_identical(nrow(rcell_patches(matrix(NA_real_, 2, 2))), 0L)

# Count the sides that two classes share, each pair once, with tables of shifted matrices.
shifted <- function(map) {
  cells <- as_rows(map)
  codes <- sort(unique(as.vector(cells)))
  count <- function(a, b) unclass(table(factor(a, codes), factor(b, codes)))
  across <- count(cells[, -ncol(cells)], cells[, -1])
  down <- count(cells[-nrow(cells), ], cells[-1, ])
  once <- function(pairs) pairs + t(pairs) - diag(diag(pairs), nrow(pairs))
  list(codes = codes, flanks = once(across), ends = once(down))
}
for (name in setdiff(names(maps), "cell")) {
  found <- rcell_adjacency(maps[[name]])
  wanted <- shifted(maps[[name]])
  expect_identical(names(found), c("class", "neighbour", "sides", "border_m"), info = name)
  place <- cbind(match(found$class, wanted$codes), match(found$neighbour, wanted$codes))
  expect_identical(order(found$class, found$neighbour), seq_len(nrow(found)), info = name)
  expect_equal(found$sides, (wanted$flanks + wanted$ends)[place], info = name)
  size <- res(maps[[name]])
  expect_equal(found$border_m, (wanted$flanks * size[[2]] + wanted$ends * size[[1]])[place], info = name)
  all_pairs <- (wanted$flanks + wanted$ends)[upper.tri(wanted$flanks, diag = TRUE)]
  expect_equal(sum(found$sides), sum(all_pairs), info = name)
}
expect_identical(nrow(rcell_adjacency(maps$cell)), 0L)
expect_identical(rcell_adjacency(matrix(c(1, 1, NA, 7), 1)), data.frame(class = 1L, neighbour = 1L, sides = 1L, border_m = NA_real_))
expect_identical(nrow(rcell_adjacency(matrix(NA_real_, 1, 2))), 0L)

# The edges between classes are half as long as the polygons' perimeters without the outline.
map <- classify(maps$patchy, cbind(NA, 9))
pairs <- rcell_adjacency(map)
edges <- sum(pairs$border_m[pairs$class != pairs$neighbour])
outline <- 2 * (nrow(map) + ncol(map)) * 30
expect_equal(edges, (sum(perim(as.polygons(map))) - outline) / 2)

frequencies <- freq(maps$noise)
expect_equivalent(rcell_table("r.stats -cn input=x", x = maps$noise)$cells, as.integer(frequencies[, "count"]))
expect_identical(rcell_table("r.stats -c input=x", x = maps$noise)$cells[[4]], as.integer(freq(maps$noise, value = NA)[, "count"]))

# Majorities (without nulls, ties to the smallest) equal an R function. Windows above 9 are counted by class.
majority <- function(cells) if (all(is.na(cells))) NA else which.max(tabulate(cells))
for (name in intersect(c("noise", "patchy", "oblong"), names(maps))) for (size in c(3, 9, 11, 15)) {
  wanted <- as_rows(focal(maps[[name]], size, majority))
  expect_equal(as_rows(rcell_majority(maps[[name]], size, fill = TRUE)), wanted, info = paste(name, size))
  wanted[is.na(as_rows(maps[[name]]))] <- NA
  expect_equal(as_rows(rcell_majority(maps[[name]], size)), wanted, info = paste(name, size))
}
expect_equal(as_rows(rcell_majority(matrix(c(-5, NA, -5, 7, 1e9, 7), 2), 11, fill = TRUE)), matrix(-5, 2, 3))
expect_identical(refusal(rcell_majority(maps$cell, 4))$text, "size= must be odd, from 3 to 15; got 4")

# Labels, and maps in degrees, which have no lengths.
labelled <- maps$patchy
levels(labelled) <- data.frame(value = 1:5, cover = c("wood", "water", "town", "field", "heath"))
found <- rcell_patches(labelled)
expect_identical(names(found)[1:4], c("patch", "class", "label", "cells"))
expect_identical(found$label, c("wood", "water", "town", "field", "heath", NA)[found$class])
pairs <- rcell_adjacency(labelled)
expect_identical(names(pairs), c("class", "label", "neighbour", "neighbour_label", "sides", "border_m"))
expect_identical(pairs$label, c("wood", "water", "town", "field", "heath", NA)[pairs$class])
expect_identical(levels(rcell_majority(labelled))[[1]][[2]], levels(labelled)[[1]][[2]])
degrees <- rast(nrows = 2, ncols = 2, vals = c(1, 1, 2, 2))
expect_warning(found <- rcell_patches(degrees), "lengths are not computed for maps in degrees")
expect_identical(found$perimeter_m, c(NA_real_, NA_real_))
expect_equal(sum(found$area_ha) * 1e4, surface(6378137, 298.257223563), tolerance = 1e-12)
expect_equal(rcell_patches(maps$noise, area = "m2")$area_m2, rcell_patches(maps$noise)$area_ha * 1e4)
expect_identical(refusal(rcell_patches(maps$cell, connectivity = 6))$text, "connectivity= must be 4 or 8; got 6")
expect_identical(leftovers(), character())

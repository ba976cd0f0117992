source("helpers.R")

# Metrics equal their definitions, computed cell by cell, on noise, patches, one class, one row, one cell, oblong cells.
maps <- list(
  noise = made_map(12, 15, 3, seed = 2), patchy = made_map(20, 25, 4, TRUE, seed = 3), one_class = made_map(6, 7, 1, seed = 5),
  row = made_map(1, 12, 2, seed = 6), cell = made_map(1, 1, 1, seed = 8), oblong = made_map(10, 12, 3, seed = 7, cell = c(20, 50)))

# Return the sides of a map's cells: the classes on both sides (NA for null and outside the map), and their lengths.
sides_of <- function(cells, size) {
  wide <- rbind(NA, cbind(NA, cells, NA), NA)
  centre <- wide[seq_len(nrow(cells)) + 1, seq_len(ncol(cells)) + 1, drop = FALSE]
  found <- lapply(list(c(-1, 0), c(1, 0), c(0, -1), c(0, 1)), function(step) {
    near <- wide[seq_len(nrow(cells)) + 1 + step[1], seq_len(ncol(cells)) + 1 + step[2], drop = FALSE]
    data.frame(cell = seq_along(cells), from = as.vector(centre), to = as.vector(near), length = if (step[1] == 0) size[2] else size[1])
  })
  found <- do.call(rbind, found)
  found[!is.na(found$from), ]
}

entropy <- function(parts) {
  shares <- parts[parts > 0] / sum(parts)
  -sum(shares * log(shares))
}

# Areas and percentages equal a composition, to the last digit.
for (map in maps[c("noise", "patchy", "oblong")]) {
  columns <- c("cells", "area_ha", "percent")
  expect_identical(rcell_metrics(map)[columns], rcell_composition(map)[columns])
}

# Return the largest number of sides that this many cells of a class can share.
most_like <- function(n) {
  side <- floor(sqrt(n))
  rest <- n - side^2
  2 * side * (side - 1) + if (rest == 0) 0 else if (rest <= side) 2 * rest - 1 else 2 * rest - 2
}

cohesion <- function(sides, cells, all) if (all > 1) 100 * (1 - sum(sides) / sum(sides * sqrt(cells))) / (1 - 1 / sqrt(all)) else NaN

plain <- function(map, connectivity) {
  cells <- as_rows(map)
  numbers <- flooded(map, connectivity)
  sides <- sides_of(cells, res(map))
  sides$patch <- numbers[sides$cell]
  is_open <- is.na(sides$to) | sides$to != sides$from
  edges <- sides[!is.na(sides$to) & sides$to != sides$from, ]
  count <- max(numbers, na.rm = TRUE)
  patch <- data.frame(
    class = vapply(seq_len(count), function(p) cells[which(numbers == p)[1]], 0), cells = tabulate(numbers, count),
    perimeter = vapply(seq_len(count), function(p) sum(sides$length[is_open & sides$patch == p]), 0),
    sides = vapply(seq_len(count), function(p) sum(is_open & sides$patch == p), 0))
  patch$area <- patch$cells * prod(res(map))
  patch$shape <- 0.25 * patch$perimeter / sqrt(patch$area)
  all <- sum(patch$cells)
  whole <- sum(patch$area)
  classes <- sort(unique(patch$class))
  like <- vapply(classes, function(k) sum(sides$from == k & sides$to %in% k) / 2, 0)
  areas <- vapply(classes, function(k) sum(patch$area[patch$class == k]), 0)
  index <- ifelse(areas > prod(res(map)), 100 * like / vapply(areas / prod(res(map)), most_like, 0), NaN)
  sizes <- function(own) list(cells = sum(own$cells), area_ha = sum(own$area) / 1e4)
  measures <- function(own, edge) list(
    patches = nrow(own), patches_km2 = nrow(own) / whole * 1e6,
    largest_patch_percent = 100 * max(own$area) / whole, mean_patch_ha = mean(own$area) / 1e4,
    area_weighted_mean_patch_ha = sum(own$area^2) / sum(own$area) / 1e4, effective_mesh_ha = sum(own$area^2) / whole / 1e4,
    edge_m = sum(edge), edge_density_m_ha = sum(edge) / whole * 1e4, mean_shape_index = mean(own$shape))
  by_class <- do.call(rbind, lapply(seq_along(classes), function(place) {
    k <- classes[[place]]
    own <- patch[patch$class == k, ]
    mine <- edges[edges$from == k, ]
    mixed <- if (length(classes) > 2 && nrow(mine)) 100 * entropy(tapply(mine$length, mine$to, sum)) / log(length(classes) - 1) else NaN
    data.frame(class = k, sizes(own), percent = 100 * sum(own$area) / whole, measures(own, mine$length), aggregation_index = index[[place]],
      cohesion = cohesion(own$sides, own$cells, all), interspersion_index = mixed)
  }))
  pairs <- paste(pmin(edges$from, edges$to), pmax(edges$from, edges$to))
  m <- length(classes)
  mixed <- if (m > 2 && nrow(edges)) 100 * entropy(tapply(edges$length, pairs, sum)) / log(m * (m - 1) / 2) else NaN
  next_to <- sides[!is.na(sides$to), ]
  q <- unlist(lapply(seq_along(classes), function(place) {
    counts <- table(next_to$to[next_to$from == classes[[place]]])
    areas[[place]] / whole * counts / sum(counts)
  }))
  contagion <- if (m > 1) 100 * (1 + sum(q * log(q)) / (2 * log(m))) else NaN
  in_all <- data.frame(sizes(patch), classes = m, measures(patch, edges$length / 2), aggregation_index = sum(ifelse(is.nan(index), 0, index) * areas / whole),
    cohesion = cohesion(patch$sides, patch$cells, all), interspersion_index = mixed, contagion = contagion, shannon_diversity = entropy(areas),
    shannon_evenness = if (m > 1) entropy(areas) / log(m) else NaN, simpson_diversity = 1 - sum((areas / whole)^2))
  by_patch <- data.frame(patch = seq_len(count), class = patch$class, cells = patch$cells, area_ha = patch$area / 1e4, perimeter_m = patch$perimeter,
    shape_index = patch$shape, fractal_dimension = 2 * log(0.25 * patch$perimeter) / log(patch$area))
  list(class = by_class, landscape = in_all, patch = by_patch)
}

for (name in names(maps)) for (connectivity in c(4, 8)) {
  wanted <- plain(maps[[name]], connectivity)
  for (level in names(wanted)) expect_equal(rcell_metrics(maps[[name]], level, connectivity), wanted[[level]], info = paste(name, level))
}

# Each zone is a separate landscape.
zones <- init(maps$patchy, "col") > 12
for (level in c("class", "landscape")) {
  found <- rcell_metrics(maps$patchy, level, zones = zones)
  for (zone in 0:1) {
    own <- rcell_metrics(ifel(zones == zone, maps$patchy, NA), level)
    expect_equal(as.list(found[found$zone == zone, -1]), as.list(own))
  }
}

# In degrees, only metrics that need a length are missing, with one warning. Without data there are no rows.
degrees <- rast(as_rows(maps$patchy), extent = ext(10, 10.25, 50, 50.2), crs = "EPSG:4326")
expect_warning(found <- rcell_metrics(degrees, "landscape"), "lengths are not computed for maps in degrees")
expect_true(is.na(found$edge_m) && is.na(found$mean_shape_index) && !is.na(found$contagion) && !is.na(found$aggregation_index))
expect_equal(found$area_ha, sum(rcell_composition(degrees)$area_ha))
empty <- setValues(maps$noise, NA)
for (level in c("class", "landscape", "patch")) expect_identical(nrow(rcell_metrics(empty, level)), 0L)
plain_cells <- rcell_metrics(as_rows(maps$noise))
expect_true("mean_patch_cells" %in% names(plain_cells) && !any(c("patches_km2", "area_ha") %in% names(plain_cells)) && all(is.na(plain_cells$edge_m)))
expect_identical(refusal(rcell_metrics(maps$noise, "map"))$text, "level= must be one of class, landscape, patch; got \"map\"")

# The most frequent and the rarest class of zones; ties go to the smallest class.
land <- matrix(c(1, 1, 2, 5, 3, 2, 1, 1, 2, NA), 2, byrow = TRUE)
zone <- matrix(c(7, 7, 7, 8, 8, 7, 7, 7, 7, 9), 2, byrow = TRUE)
found <- rcell_dominant(land, zone, labels = c("1" = "wood", "2" = "field", "3" = "town", "5" = "lake"), zone_labels = c("7" = "north", "8" = "south"))
expect_identical(names(found), c("zone", "zone_label", "cells", "classes", "majority", "majority_label", "majority_percent", "minority", "minority_label", "minority_percent"))
expect_identical(found$majority, c(1L, 3L))
expect_identical(found$minority_label, c("field", "town"))
expect_equal(found$majority_percent, c(400 / 7, 50))
expect_identical(leftovers(), character())

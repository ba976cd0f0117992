# SPDX-License-Identifier: Apache-2.0 OR GPL-2.0-or-later
# Landscape metrics of patches, classes or the landscape, in total or by zone. They are defined as
# in FRAGSTATS 4, without a border; only sides between classes are edges.

LEVELS <- c("class", "landscape", "patch")
# Areas that differ from 1 m2 by at most this have no fractal dimension.
NEARLY_ONE <- 1e-9

rcell_metrics <- function(x, level = "class", connectivity = 4, area, zones = NULL, labels = NULL,
                          zone_labels = NULL, zone_field = NULL, layer = NULL, each = FALSE,
                          crs = NULL) {
  check_one_of(level, "level", LEVELS)
  check_selection(connectivity, classes = NULL, min_cells = NULL)
  request <- zoned_request(x, zones, area, labels, zone_labels, zone_field, layer, each, crs)
  warn_of_lengths(request$sources$map)
  counts <- landscapes_of(request$sources, connectivity, request$area)
  members <- counts$members
  # The member of each row, or NULL if a row is a landscape.
  member <- switch(level, patch = counts$patches$member, class = seq_along(members$class))
  landscape <- if (is.null(member)) seq_along(counts$zones) else members$landscape[member]
  columns <- list()
  if (!is.null(zones)) columns <- coded("zone", counts$zones[landscape], request$zone_labels)
  # Number the patches of each landscape from 1.
  if (level == "patch") columns$patch <- seq_along(landscape) - match(landscape, landscape) + 1L
  if (!is.null(member)) {
    columns <- c(columns, coded("class", members$class[member], request$labels, "label"))
  }
  measures <- list(patch = patch_measures, class = class_measures, landscape = whole_measures)
  frame_of(c(columns, measures[[level]](counts, request$area)))
}

# Return the counts of landscapes, which are the zones or the map, as a list:
# - `members` are the classes of each landscape. They have a `class`, a `landscape` (its position in
#   `zones`), and the number `like` of sides between their own cells.
# - `patches`, in the order of zones and first cells, have a `member`, `cells`, a `weight` (the area
#   in degrees, otherwise the cells), `square_metres`, and `ends` and `flanks` on their border.
# - `pairs` of members have the `ends`, `flanks` and `length` of their border.
# - `sides` are the lengths of an end and a flank. `area_of` converts weights to areas.
landscapes_of <- function(sources, connectivity, area) {
  name <- if (is.null(sources$zones)) "map" else "member"
  ranks <- character()
  if (name == "member") {
    known <- run_script("r.stats -n input=zones,map", sources)[[1]]$codes # zone, class
    ranks <- member_lines(known)
  }
  question <- list(map = name, connectivity = connectivity, depth = 1, zones = "")
  frames <- run_script(c(ranks, side_lines(name)), sources, list(question)) # two tables, patches
  patches <- as.data.frame(frames[[3]][c("class", "cells", "ends", "flanks")])
  codes <- sort(unique(patches$class)) # categories of the map `name`, in the order of members
  if (name == "map") known <- list(rep(1L, length(codes)), codes)
  landscape <- match(known[[1]], unique(known[[1]]))
  patches$member <- match(patches$class, codes)
  patches <- patches[order(landscape[patches$member]), ]
  patches$weight <- patches$cells
  if (!is.null(area) && is_in_degrees(sources$map)) {
    lines <- c(ranks, clump_line(connectivity, name))
    table <- count_cells(sources, list(c("patch", name)), area, before = lines)[[1]]
    patches$weight <- table$weights[order(landscape[match(table$codes[[2]], codes)])]
  }
  # A cell has four sides, and each side within a patch is a side of two cells.
  like <- 2 * patches$cells - (patches$ends + patches$flanks) / 2
  like <- summed(like, patches$member, length(codes))
  sides <- side_lengths(sources$map)
  patches$square_metres <- patches$cells * sides[["end"]] * sides[["flank"]]
  pairs <- pairs_of(frames[1:2])
  pairs[c("class", "neighbour")] <- lapply(pairs[c("class", "neighbour")], match, codes)
  is_within <- landscape[pairs$class] == landscape[pairs$neighbour]
  pairs <- pairs[is_within & pairs$class != pairs$neighbour, ]
  pairs$length <- length_of(pairs, sides)
  list(
    members = list(class = known[[2]], landscape = landscape, like = like), patches = patches,
    pairs = pairs, zones = unique(known[[1]]), sides = sides,
    area_of = function(weights) {
      if (is.null(area)) weights else areas_of(weights, sources$map, area)
    }
  )
}

# Return lines that make a map of members, numbered by the zone and class of each in `known`.
member_lines <- function(known) {
  zones <- sort(unique(known[[1]]))
  classes <- sort(unique(known[[2]]))
  if (as.numeric(length(zones)) * length(classes) > CATEGORY_LIMIT) {
    text <- "%d zones with %d classes are too many to distinguish: use fewer zones"
    bad_input("zones", text, length(zones), length(classes))
  }
  c(
    rank_lines("zones", zones, step = length(classes)), rank_lines("map", classes, step = 1L),
    "r.mapcalc member = rank_zones + rank_map"
  )
}

# Return lines that renumber the categories of a map as 0, step, 2 * step, ..
rank_lines <- function(name, codes, step) {
  rules <- sprintf("%d = %.0f", codes, (seq_along(codes) - 1) * step)
  c(sprintf("r.reclass input=%1$s output=rank_%1$s", name), rules, "end")
}

# Return the shape indices of patches, which are 1 for a square.
shapes_of <- function(counts) {
  0.25 * length_of(counts$patches, counts$sides) / sqrt(counts$patches$square_metres)
}

patch_measures <- function(counts, area) {
  patches <- counts$patches
  perimeters <- length_of(patches, counts$sides)
  areas <- patches$square_metres
  areas[abs(areas - 1) <= NEARLY_ONE] <- NaN
  sizes <- list(cells = as.integer(patches$cells), area = counts$area_of(patches$weight))
  c(cells_and_area(sizes, area), list(
    perimeter_m = perimeters, shape_index = shapes_of(counts),
    fractal_dimension = 2 * log(0.25 * perimeters) / log(areas)
  ))
}

class_measures <- function(counts, area) {
  landscape <- counts$members$landscape
  # A border counts for the classes on both sides.
  borders <- c(counts$pairs$class, counts$pairs$neighbour)
  groups <- list(patch = counts$patches$member, border = borders, landscape = landscape)
  others <- tabulate(landscape)[landscape] - 1
  columns <- group_measures(counts, groups, kinds = others, index = aggregation(counts), area)
  columns$classes <- NULL
  columns
}

whole_measures <- function(counts, area) {
  count <- length(counts$zones)
  landscape <- counts$members$landscape
  in_landscape <- function(values) summed(values, landscape, count)
  groups <- list(
    patch = landscape[counts$patches$member], border = landscape[counts$pairs$class],
    landscape = seq_len(count)
  )
  weight <- summed(counts$patches$weight, counts$patches$member, length(landscape))
  shares <- weight / in_landscape(weight)[landscape]
  classes <- tabulate(landscape, count)
  max_diversity <- ifelse(classes > 1, log(classes), NaN)
  index <- aggregation(counts)
  index <- in_landscape(ifelse(is.nan(index), 0, index) * shares)
  columns <- group_measures(counts, groups, kinds = classes * (classes - 1) / 2, index, area)
  columns$percent <- NULL
  diversity <- entropy(weight, landscape, count)
  c(columns, list(
    contagion = contagion(counts, shares, max_diversity), shannon_diversity = diversity,
    shannon_evenness = diversity / max_diversity, simpson_diversity = 1 - in_landscape(shares^2)
  ))
}

# Return the measures of groups (members or landscapes). `groups` has the group of each patch and of
# each border, and the landscape of each group. `kinds` is the number of different borders that a
# group can have. Columns whose names end with an underscore get the unit.
group_measures <- function(counts, groups, kinds, index, area) {
  count <- length(groups$landscape)
  by_group <- function(values) summed(values, groups$patch, count)
  in_landscape <- function(values) {
    landscape <- counts$members$landscape[counts$patches$member]
    summed(values, landscape, length(counts$zones))[groups$landscape]
  }
  area_of <- counts$area_of
  weights <- counts$patches$weight # of each patch
  weight <- by_group(weights)
  whole <- in_landscape(weights)
  patches <- tabulate(groups$patch, count)
  largest <- tapply(weights, factor(groups$patch, seq_len(count)), max)
  lengths <- rep(counts$pairs$length, length.out = length(groups$border))
  edge <- summed(lengths, groups$border, count)
  mixed <- 100 * entropy(lengths, groups$border, count) / log(kinds)
  mixed[kinds < 2 | !(edge > 0)] <- NaN
  if (anyNA(counts$sides)) edge[] <- NA # lengths are unknown, also of groups without an edge
  km2 <- if (!is.null(area)) area_of(whole) * (UNITS[[area]] / UNITS[["km2"]])
  columns <- list(
    cells = as.integer(by_group(counts$patches$cells)),
    area_ = if (!is.null(area)) area_of(weight), percent = 100 * weight / whole,
    classes = tabulate(counts$members$landscape, length(counts$zones)), patches = patches,
    patches_km2 = if (!is.null(area)) patches / km2,
    largest_patch_percent = 100 * as.vector(largest) / whole,
    mean_patch_ = area_of(weight) / patches,
    area_weighted_mean_patch_ = area_of(by_group(weights^2) / weight),
    effective_mesh_ = area_of(by_group(weights^2) / whole), edge_m = edge,
    edge_density_m_ = if (!is.null(area)) edge / area_of(whole),
    mean_shape_index = by_group(shapes_of(counts)) / patches, aggregation_index = index,
    cohesion = cohesion(counts$patches, groups$patch, in_landscape(counts$patches$cells)),
    interspersion_index = mixed
  )
  has_unit <- endsWith(names(columns), "_")
  names(columns)[has_unit] <- paste0(names(columns)[has_unit], if (is.null(area)) "cells" else area)
  Filter(Negate(is.null), columns)
}

# Return the number of sides between cells of a member, as a percentage of the maximum for its area,
# or NaN for a single cell.
aggregation <- function(counts) {
  cells <- summed(counts$patches$cells, counts$patches$member, length(counts$members$class))
  side <- floor(sqrt(cells)) # of the largest square, along which the rest lies
  rest <- cells - side^2
  most <- 2 * side * (side - 1) + ifelse(rest == 0, 0, 2 * rest - ifelse(rest <= side, 1, 2))
  ifelse(most > 0, 100 * counts$members$like / most, NaN)
}

# Compute patch cohesion, with perimeters in sides. `cells` are the cells of each group's landscape.
cohesion <- function(patches, group, cells) {
  perimeters <- patches$ends + patches$flanks
  sums <- summed(perimeters, group, length(cells))
  weighted <- summed(perimeters * sqrt(patches$cells), group, length(cells))
  ifelse(cells > 1, 100 * (1 - sums / weighted) / (1 - 1 / sqrt(cells)), NaN)
}

# Compute contagion from the shares of members and the maximum diversity of landscapes. Each side is
# counted from both of its cells.
contagion <- function(counts, shares, max_diversity) {
  pairs <- counts$pairs
  members <- seq_along(shares)
  member <- c(pairs$class, pairs$neighbour, members)
  sides <- c(rep(pairs$ends + pairs$flanks, 2L), 2 * counts$members$like)
  parts <- shares[member] * sides / summed(sides, member, length(members))[member]
  terms <- ifelse(sides > 0, parts * log(parts), 0)
  sums <- summed(terms, counts$members$landscape[member], length(max_diversity))
  100 * (1 + sums / (2 * max_diversity))
}

# Return the entropy of each group's parts, in nats.
entropy <- function(parts, group, count) {
  shares <- parts / summed(parts, group, count)[group]
  summed(ifelse(shares > 0, -shares * log(shares), 0), group, count)
}

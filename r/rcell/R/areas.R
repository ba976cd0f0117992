# SPDX-License-Identifier: Apache-2.0 OR GPL-2.0-or-later
# Cell areas: a single size in metres or feet, and in degrees a size for each row, on the ellipsoid
# of the reference system.

UNITS <- c(m2 = 1, ha = 1e4, km2 = 1e6)
DEFAULT_UNIT <- "ha"
# Cells may be centred on a pole, so rows may extend this far beyond it, in cells, plus rounding.
BEYOND_THE_POLE <- 0.5 + 1e-6

# Return the requested unit of areas, or the default unit if the caller's `area` is missing.
requested_unit <- function(area) {
  if (missing(area)) return(DEFAULT_UNIT)
  if (!is.null(area)) check_one_of(area, "area", names(UNITS))
  area
}

# Return the unit of areas of a map. If the map has no reference system, the unit is NULL unless the
# call requests one.
unit_of <- function(area, source, argument = "area=") {
  unit <- requested_unit(area)
  if (is.null(unit)) return(NULL)
  kind <- kind_of_crs(source$crs)
  instead <- if (argument == "area=") ", or use area = NULL" else ""
  if (kind == "none") {
    if (missing(area)) return(NULL)
    text <- paste(
      "%s requires a coordinate reference system, but %s has none:",
      "state one, for example crs = \"EPSG:25832\"%s"
    )
    bad_argument(text, argument, source$name, instead)
  }
  metres <- metres_of_unit(source)
  if (kind == "other" || (kind == "projected" && is.na(metres))) {
    text <- paste(
      "%s requires a map in metres, feet or degrees, but %s does not define the area of a",
      "cell%s"
    )
    instead <- sub("^, or", ":", instead) # this message names no other remedy
    bad_argument(text, argument, crs_name(source$crs), instead)
  }
  unit
}

area_title <- function(area) paste0("area_", area)

is_in_degrees <- function(source) kind_of_crs(source$crs) == "degrees"

# Reject a map whose cells do not all have the same size in metres, if an argument requires it.
check_metres <- function(source, argument, advice = "") {
  unit_of("m2", source, argument) # raises an error if the size of a cell is unknown
  if (!is_in_degrees(source)) return(invisible())
  text <- "%s requires a map in metres or feet, but this map is in degrees%s"
  bad_argument(text, argument, advice)
}

# Return the length of a projected map's unit in metres, or NA if it is unknown.
metres_of_unit <- function(source) {
  if (kind_of_crs(source$crs) != "projected") return(NA_real_)
  metres <- suppressWarnings(linearUnits(template_of(source)))
  if (isTRUE(metres > 0)) metres else NA_real_
}

# Return the size of a cell in square metres: a single number, or for a map in degrees a number for
# each row from the north.
cell_sizes <- function(source) {
  template <- template_of(source)
  size <- res(template)
  if (!is_in_degrees(source)) return(prod(size) * metres_of_unit(source)^2)
  shape <- ellipsoid_of(source$crs)
  edges <- (ymax(template) - 0:nrow(template) * size[[2]]) * shape$angle # latitudes in radians
  if (any(abs(edges) > pi / 2 + BEYOND_THE_POLE * size[[2]] * shape$angle)) {
    is_north <- edges[[1]] > -edges[[length(edges)]]
    edge <- if (is_north) ymax(template) else ymin(template)
    side <- if (is_north) "north" else "south"
    bad_input(source$name, "the map extends beyond the pole: %s is %.15g", side, edge, status = 2L)
  }
  parallels <- pmax(-pi / 2, pmin(pi / 2, edges))
  zones <- zone_areas(parallels[-length(parallels)], parallels[-1], shape$eccentricity)
  zones * shape$minor^2 / 2 * size[[1]] * shape$angle
}

# Compute the area between two parallels (equation 3-12 in Snyder 1987, Map Projections), without
# the factors for ellipsoid and longitude. This form loses no digits if the parallels are close.
zone_areas <- function(north, south, e) {
  sines <- sin(north) * sin(south)
  difference <- 2 * cos((north + south) / 2) * sin((north - south) / 2) # sin(north) - sin(south)
  if (e == 0) return(2 * difference)
  squares <- (1 - (e * sin(north))^2) * (1 - (e * sin(south))^2)
  difference * (1 + e^2 * sines) / squares + atanh(e * difference / (1 - e^2 * sines)) / e
}

# Read the ellipsoid (in metres) and the angle unit (in radians) of a reference system from its
# well-known text.
ellipsoid_of <- function(wkt) {
  flat <- gsub("[\r\n]+ *", "", wkt)
  number <- "([0-9.eE+-]+)"
  form <- paste0(
    "ELLIPSOID\\[\"[^\"]*\",", number, ",", number, "(,LENGTHUNIT\\[\"[^\"]*\",", number, ")?"
  )
  # The semi-major axis, the inverse flattening (0 for a sphere), and metres per unit (NA if none).
  numbers <- as.numeric(regmatches(flat, regexec(form, flat))[[1]][c(2, 3, 5)])
  major <- numbers[[1]] * (if (is.na(numbers[[3]])) 1 else numbers[[3]])
  flattening <- if (numbers[[2]] == 0) 0 else 1 / numbers[[2]]
  system <- sub("^.*CS\\[ellipsoidal", "", flat)
  # The match, and its groups: the name of the angle unit, and its size in radians.
  angle <- regmatches(system, regexec(paste0("ANGLEUNIT\\[\"([^\"]*)\",", number), system))[[1]]
  is_degree <- length(angle) < 3L || angle[[2]] == "degree"
  list(
    minor = major * (1 - flattening), eccentricity = sqrt(flattening * (2 - flattening)),
    angle = if (is_degree) pi / 180 else as.numeric(angle[[3]])
  )
}

# Convert weights (see `counted`) to areas. Dividing last keeps short numbers short when printed.
areas_of <- function(weights, source, unit) {
  if (is_in_degrees(source)) weights else weights * cell_sizes(source) / UNITS[[unit]]
}

# Return the lengths in metres of a cell's ends (its northern and southern sides) and flanks, or NA
# if they are unknown.
side_lengths <- function(source) {
  structure(res(template_of(source)) * metres_of_unit(source), names = c("end", "flank"))
}

# Return the length of borders, which consist of ends and flanks.
length_of <- function(borders, lengths) {
  borders$ends * lengths[["end"]] + borders$flanks * lengths[["flank"]]
}

# Count categories with r.stats, and return a table (see `counted`) for each of `combinations`, the
# names of its maps. `area` is a unit, and `before` are lines that make maps. For areas in degrees,
# the cells of each row are counted separately.
count_cells <- function(sources, combinations, area = NULL, before = character(),
                        include_null = FALSE) {
  by_row <- !is.null(area) && is_in_degrees(sources[[1]])
  row <- if (by_row) unused_name("row_number", c(before, unlist(combinations)), names(sources))
  maps <- vapply(combinations, function(maps) paste(c(maps, row), collapse = ","), "")
  script <- c(
    before, if (by_row) sprintf("r.mapcalc %s = row()", row),
    sprintf("r.stats %s input=%s", if (include_null) "-c" else "-cn", maps)
  )
  lapply(run_script(script, sources), function(frame) {
    if (by_row) return(summed_over_rows(frame, area, sources[[1]]))
    counted(frame$codes, frame$cells, weights = frame$cells, area, sources[[1]])
  })
}

# Return a table of counts: a list of columns of codes, the cells, the weights for shares, and the
# areas if there is a unit. Weights are cells, whose sums are exact, or in degrees areas.
counted <- function(codes, cells, weights, area, source) {
  list(
    codes = codes, cells = as.integer(cells), weights = as.numeric(weights),
    area = if (!is.null(area)) areas_of(as.numeric(weights), source, area)
  )
}

# Add up the cells and areas of each combination in all rows. The last code is the row.
summed_over_rows <- function(frame, area, source) {
  last <- length(frame$codes)
  codes <- frame$codes[-last]
  group <- rleidv(codes) # the table is sorted, so equal combinations follow each other
  cells <- as.numeric(frame$cells)
  sizes <- cell_sizes(source)[frame$codes[[last]]]
  sums <- rowsum(cbind(cells, areas = cells * sizes), group, reorder = FALSE)
  codes <- lapply(codes, `[`, !duplicated(group))
  counted(codes, sums[, "cells"], unname(sums[, "areas"]) / UNITS[[area]], area, source)
}

# Add up the rows of a table that have the same code. `code` has an element for each row.
summed_by <- function(table, code, area, source) {
  known <- sort(unique(code))
  sums <- lapply(table[c("cells", "weights")], summed, match(code, known), length(known))
  counted(list(known), sums$cells, sums$weights, area, source)
}

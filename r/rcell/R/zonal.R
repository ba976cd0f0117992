# SPDX-License-Identifier: Apache-2.0 OR GPL-2.0-or-later
# Statistics of a map's values by zone, computed from the table of zones and values.

MEASURES <- c("cells", "sum", "mean", "minimum", "maximum", "variance")

rcell_zonal <- function(values, zones, quantiles = 0.5, scale = NULL, zone_labels = NULL,
                        zone_field = NULL, layer = NULL, each = FALSE, crs = NULL) {
  is_right <- !length(quantiles) || are_between(quantiles, 0, 1)
  check_argument(is_right, quantiles, "quantiles= must be from 0 to 1")
  check_argument(!is.null(zones), zones, "zones= must be a map or polygons")
  if (!is.null(scale)) check_whole_number(scale, "scale", 1, CATEGORY_LIMIT)
  request <- zoned_request(
    values, zones, area = NULL, labels = NULL, zone_labels, zone_field, layer, each, crs,
    name = "values"
  )
  sources <- request$sources
  sources$values$scale <- scale
  sources$values$remedy <- "; scale = 100 rounds to 1/100"
  table <- count_cells(sources, list(c("zones", "values")))[[1]]
  if (!is.null(scale)) warn("values: rounded to 1/%.0f", scale)
  zones <- unique(table$codes[[1]])
  zone_columns <- coded("zone", zones, request$zone_labels)
  rows_of_zones <- split(seq_along(table$cells), match(table$codes[[1]], zones))
  numbers <- as.numeric(table$codes[[2]])
  statistics <- vapply(unname(rows_of_zones), function(rows) { # a column for each zone
    statistics_of(numbers[rows], as.numeric(table$cells[rows]), quantiles)
  }, numeric(length(MEASURES) + length(quantiles)))
  columns <- lapply(seq_len(nrow(statistics)), function(measure) statistics[measure, ])
  names(columns) <- unique_titles(c(MEASURES, quantile_titles(quantiles)))
  columns$cells <- as.integer(columns$cells)
  if (!is.null(scale)) {
    divisor <- ifelse(names(columns) == "variance", scale^2, scale)
    columns[-1] <- Map(`/`, columns[-1], divisor[-1])
  }
  frame_of(c(zone_columns, columns))
}

# Return MEASURES and quantiles of values in ascending order with their numbers of cells.
statistics_of <- function(values, cells, quantiles) {
  count <- sum(cells)
  sum <- sum(values * cells)
  mean <- sum / count
  variance <- sum(cells * (values - mean)^2) / count
  last <- cumsum(cells) # the last position of each value in the sorted list of all cells
  value_at <- function(place) values[findInterval(place, last, left.open = TRUE) + 1L]
  places <- (count - 1) * quantiles # positions from 0, between which values are interpolated
  low <- value_at(floor(places) + 1)
  high <- value_at(pmin(floor(places) + 2, count))
  interpolated <- low + (high - low) * (places - floor(places))
  c(count, sum, mean, values[[1]], values[[length(values)]], variance, interpolated)
}

# Return column titles, for example q50, or q2_5 for 0.025.
quantile_titles <- function(quantiles) {
  if (!length(quantiles)) return(character())
  paste0("q", sub(".", "_", sprintf("%.10g", 100 * quantiles), fixed = TRUE))
}

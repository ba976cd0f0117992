# SPDX-License-Identifier: Apache-2.0 OR GPL-2.0-or-later
# The most frequent and the rarest class of each zone.

rcell_dominant <- function(x, zones, area, labels = NULL, zone_labels = NULL, zone_field = NULL,
                           layer = NULL, each = FALSE, crs = NULL) {
  check_argument(!is.null(zones), zones, "zones= must be a map or polygons")
  request <- zoned_request(x, zones, area, labels, zone_labels, zone_field, layer, each, crs)
  table <- count_cells(request$sources, list(c("zones", "map")), request$area)[[1]]
  zone <- table$codes[[1]]
  class <- table$codes[[2]]
  check_legend(request$labels, class)
  totals <- summed_by(table, zone, request$area, request$sources$map)
  columns <- coded("zone", totals$codes[[1]], request$zone_labels)
  columns <- c(columns, cells_and_area(totals, request$area))
  columns$classes <- tabulate(match(zone, totals$codes[[1]]))
  for (title in c("majority", "minority")) {
    counts <- if (title == "majority") table$cells else -table$cells
    place <- most_frequent(zone, counts, class)
    columns <- c(columns, coded(title, class[place], request$labels, is_checked = TRUE))
    columns[[paste0(title, "_percent")]] <- 100 * table$cells[place] / totals$cells
  }
  frame_of(columns)
}

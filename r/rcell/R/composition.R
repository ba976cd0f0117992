# SPDX-License-Identifier: Apache-2.0 OR GPL-2.0-or-later
# The composition of a map and the cross table of several maps, with labels, areas and percentages.

rcell_composition <- function(x, zones = NULL, area, labels = NULL, zone_labels = NULL,
                              zone_field = NULL, layer = NULL, each = FALSE, include_null = FALSE,
                              crs = NULL) {
  check_flag(include_null, "include_null")
  request <- zoned_request(x, zones, area, labels, zone_labels, zone_field, layer, each, crs)
  maps <- rev(names(request$sources)) # the zones come first, if there are any
  table <- count_cells(request$sources, list(maps), request$area, include_null = include_null)[[1]]
  is_listed <- is.null(zones) | !is.na(table$codes[[1]]) # cells outside all zones are not listed
  table <- rapply(table, function(column) column[is_listed], how = "replace")
  zone <- if (is.null(zones)) rep(1L, length(table$cells)) else table$codes[[1]]
  columns <- coded("class", table$codes[[length(maps)]], request$labels, label_title = "label")
  if (!is.null(zones)) columns <- c(coded("zone", zone, request$zone_labels), columns)
  frame_of(c(columns, sized(table, request$area, zone)))
}

# Return what calls on a map and its zones have in common: the sources, the unit of areas, and the
# labels of both.
zoned_request <- function(x, zones, area, labels, zone_labels, zone_field, layer, each, crs,
                          name = "map") {
  check_flag(each, "each")
  if (is.null(zones) && (!is.null(zone_field) || !is.null(layer) || each)) {
    bad_argument("zone_field=, layer= and each= require zones=")
  }
  source <- with_stated(source_of(name, x), stated_crs(crs))
  sources <- list(source)
  if (!is.null(zones)) sources[[2]] <- zones_source(zones, zone_field, layer, source, each)
  sources <- fitted_sources(sources, crs)
  list(
    sources = sources, area = unit_of(area, sources[[1]]),
    labels = labels_from(labels, sources[[1]]),
    zone_labels = labels_from(zone_labels, sources$zones, name = "zone_labels")
  )
}

rcell_cross <- function(..., area, labels = NULL, include_null = FALSE, crs = NULL,
                        maps = list()) {
  check_flag(include_null, "include_null")
  sources <- sources_of(named_maps(list(...), maps), crs)
  area <- unit_of(area, sources[[1]])
  by_row <- !is.null(area) && is_in_degrees(sources[[1]])
  limit <- if (by_row) MAPS_LIMIT - 1L else MAPS_LIMIT # the row numbers are a map
  if (length(sources) > limit) {
    reason <- if (by_row) " with areas in degrees" else ""
    text <- "a cross table must have at most %d maps%s; got %d"
    bad_argument(text, limit, reason, length(sources))
  }
  check_legends(labels, names(sources))
  legends <- lapply(sources, function(source) labels_from(labels[[source$name]], source))
  table <- count_cells(sources, list(names(sources)), area, include_null = include_null)[[1]]
  columns <- do.call(c, unname(Map(coded, names(sources), table$codes, legends)))
  columns <- c(columns, sized(table, area))
  names(columns) <- unique_titles(names(columns))
  frame_of(columns)
}

check_legends <- function(labels, names) {
  is_named <- is.list(labels) && !is.data.frame(labels) && !is.null(names(labels))
  is_right <- is.null(labels) || (is_named && all(names(labels) %in% names))
  rule <- "labels= must be a list of legends by map name, for example list(%s = \"legend.csv\")"
  check_argument(is_right, labels, rule, names[[1]])
}

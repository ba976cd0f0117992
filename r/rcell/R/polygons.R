# SPDX-License-Identifier: Apache-2.0 OR GPL-2.0-or-later
# Polygons as zones: a cell belongs to the polygon that contains its centre.

# Return the source of zones: a map, or polygons drawn on the grid of the map.
zones_source <- function(zones, field, layer, source, each = FALSE) {
  polygons <- features_of(POLYGONS, zones, layer, field)
  if (is.null(polygons)) {
    if (!is.null(field) || each) {
      text <- if (each) "each=" else "zone_field="
      bad_argument("%s requires polygons, but zones= is a raster", text)
    }
    return(source_of("zones", zones))
  }
  check_crs_of_features(POLYGONS, polygons, source)
  template <- template_of(source)
  crs(template) <- polygons$crs
  zones <- zones_of(polygons)
  features <- seq_along(polygons$ids)
  parts <- if (each) apart(polygons, zones$of_feature) else list(features)
  state <- new.env(parent = emptyenv())
  state$without <- features # `winners_of` removes the features that contain a centre
  cells <- lapply(parts, function(part) {
    zones$of_feature[winners_of(polygons, zones$of_feature, part, template, state)]
  })
  check_centres(polygons, state$without)
  cells_source(
    "zones", cells[[1]], source, polygons$crs, parts = if (each) cells, labels = zones$labels,
    files = polygons$files
  )
}

# Return the zone of each polygon: the field's whole numbers; or, for other values, 1, 2, .. in the
# order in which they first occur, with the values as labels; or the feature number without a field.
zones_of <- function(polygons) {
  if (is.null(polygons$values)) {
    check_ids(polygons$ids)
    return(list(of_feature = as.integer(polygons$ids), labels = NULL))
  }
  numbers <- polygons$values$numbers
  if (all(is_category(numbers))) {
    return(list(of_feature = as.integer(numbers), labels = NULL))
  }
  texts <- polygons$values$texts
  known <- unique(texts)
  list(of_feature = match(texts, known), labels = list(codes = seq_along(known), labels = known))
}

check_ids <- function(ids) {
  beyond <- ids[abs(ids) > CATEGORY_LIMIT]
  if (!length(beyond)) return(invisible())
  text <- "feature %.0f has a number beyond 2147483647: name a field with zone_field="
  bad_map("zones", text, beyond[[1]])
}

# Divide features into parts in which no two zones overlap, judged by their bounding boxes.
apart <- function(polygons, zones) {
  if (!length(zones)) return(list(integer()))
  known <- unique(zones)
  features <- split(seq_along(zones), factor(zones, known))
  corners <- geom(polygons$shapes)
  zone <- match(zones, known)[corners[, "geom"]] # of each corner, as a row of `boxes`
  boxes <- cbind(
    west = tapply(corners[, "x"], zone, min), east = tapply(corners[, "x"], zone, max),
    south = tapply(corners[, "y"], zone, min), north = tapply(corners[, "y"], zone, max)
  )
  parts <- list()
  for (place in seq_along(known)) {
    box <- boxes[place, ]
    is_free <- vapply(parts, function(part) {
      others <- boxes[part, , drop = FALSE]
      !any(others[, "west"] <= box[["east"]] & others[, "east"] >= box[["west"]] &
        others[, "south"] <= box[["north"]] & others[, "north"] >= box[["south"]])
    }, NA)
    part <- match(TRUE, is_free, nomatch = length(parts) + 1L) # the first free part, or a new part
    parts[[part]] <- c(if (part <= length(parts)) parts[[part]], place)
  }
  lapply(parts, function(part) unlist(features[part], use.names = FALSE))
}

# Return, for each cell, the last feature of a part that contains its centre, or NA. `state` keeps
# the features that contain no centre so far.
winners_of <- function(polygons, zones, part, template, state) {
  draw <- function(order) { # the last feature wins
    if (!length(order)) return(NA_integer_)
    shapes <- polygons$shapes[order, ]
    values(shapes) <- data.frame(place = order)
    # GDAL warns of a raster without values.
    raster <- suppressWarnings(rasterize(shapes, template, field = "place", touches = FALSE))
    drawn <- as.integer(values(raster, mat = FALSE))
    state$without <- setdiff(state$without, drawn)
    drawn
  }
  winners <- draw(part)
  if (length(part) < 2L) return(winners)
  first <- draw(rev(part))
  contested <- which(zones[winners] != zones[first])
  losers <- unique(first[contested])
  # Find polygons hidden between the first and the last one.
  while (length(hidden <- intersect(part, state$without))) {
    drawn <- unique(as.vector(na.omit(draw(hidden))))
    if (!length(drawn)) break
    losers <- c(losers, drawn)
  }
  if (length(contested)) warn_of_losers(polygons, sort(losers), contested, ncol(template))
  winners
}

# Warn about the polygons `without` a cell centre. It is an error if no polygon contains one.
check_centres <- function(polygons, without) {
  if (length(without) == length(polygons$ids)) {
    bad_map("zones", "no polygon contains the centre of a cell")
  }
  if (!length(without)) return(invisible())
  text <- "zones: %d of %d polygons contain no cell centre: %s"
  names <- feature_names(polygons, without)
  warn(text, length(without), length(polygons$ids), names)
}

warn_of_losers <- function(polygons, losers, contested, columns) {
  text <- paste(
    "zones: %d cells are in more than one polygon, the first at row %d, column %d:",
    "they belong to the later polygon, and not to %s;",
    "each = TRUE processes overlapping polygons separately"
  )
  row <- (contested[[1]] - 1L) %/% columns + 1L
  column <- (contested[[1]] - 1L) %% columns + 1L
  names <- feature_names(polygons, losers)
  warn(text, length(contested), row, column, names)
}

# Name features by their numbers, and by their values if there is a zone field.
feature_names <- function(polygons, places) {
  names <- sprintf("%.0f", polygons$ids[places])
  if (!is.null(polygons$values)) {
    texts <- sub("[.]0$", "", polygons$values$texts[places])
    names <- sprintf("%s (%s)", names, texts)
  }
  paste(if (length(places) > 1L) "features" else "feature", shortened(names))
}


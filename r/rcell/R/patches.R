# SPDX-License-Identifier: Apache-2.0 OR GPL-2.0-or-later
# Patches, the map of patch numbers, and the sides that classes share.

CONNECTIVITIES <- c(4, 8)
DEPTH_LIMIT <- 20

rcell_patches <- function(x, connectivity = 4, area, zones = NULL, classes = NULL,
                          min_cells = NULL, core_depth = 1, labels = NULL, zone_labels = NULL,
                          zone_field = NULL, layer = NULL, each = FALSE, crs = NULL) {
  check_selection(connectivity, classes, min_cells)
  check_whole_number(core_depth, "core_depth", 1, DEPTH_LIMIT)
  request <- zoned_request(x, zones, area, labels, zone_labels, zone_field, layer, each, crs)
  warn_of_lengths(request$sources$map)
  patches <- patch_columns(measured_patches(request, connectivity, core_depth), request)
  patches <- patches[is_selected(patches, classes, min_cells), , drop = FALSE]
  rownames(patches) <- NULL
  patches
}

check_selection <- function(connectivity, classes, min_cells) {
  is_known <- is_whole(connectivity) && connectivity %in% CONNECTIVITIES
  check_argument(is_known, connectivity, "connectivity= must be 4 or 8")
  if (!is.null(min_cells)) check_whole_number(min_cells, "min_cells", 0)
  is_right <- is.null(classes) || (is.numeric(classes) && all(is_category(classes)))
  rule <- "classes= must be whole numbers from -2147483647 to 2147483647"
  check_argument(is_right, classes, rule)
}

is_selected <- function(patches, classes, min_cells) {
  (is.null(classes) | patches$class %in% classes) & patches$cells >= max(min_cells, 0)
}

warn_of_lengths <- function(source) {
  if (is_in_degrees(source)) warn("lengths are not computed for maps in degrees")
}

# Return the measures of patches as a list of columns. The program computes all measures except
# areas, and the zones if polygons overlap.
measured_patches <- function(request, connectivity, core_depth) {
  sources <- request$sources
  has_parts <- !is.null(sources$zones$parts)
  zones <- if (is.null(sources$zones) || has_parts) "" else "zones"
  question <- list(map = "map", connectivity = connectivity, depth = core_depth, zones = zones)
  maps <- if (has_parts) sources["map"] else sources
  patches <- run_script(character(), maps, list(question))[[1]]
  numbers <- seq_along(patches$cells)
  if (has_parts) {
    table <- count_cells(sources, list(c("patch", "zones")), before = clump_line(connectivity))[[1]]
    patch <- table$codes[[1]]
    zone <- table$codes[[2]]
    best <- most_frequent(patch, table$cells, zone)
    patches$zone <- zone[best][match(numbers, patch[best])]
  }
  if (is.null(request$area)) return(patches)
  weights <- patches[c("cells", "core")]
  if (is_in_degrees(sources$map)) {
    lines <- core_lines(connectivity, core_depth)
    tables <- count_cells(sources["map"], list("patch", "core"), request$area, before = lines)
    weights <- lapply(tables, function(table) {
      summed(table$weights, table$codes[[1]], length(numbers))
    })
  }
  patches[c("area", "core_area")] <- lapply(weights, areas_of, sources$map, request$area)
  patches
}

clump_line <- function(connectivity, name = "map") {
  sprintf("r.clump%s input=%s output=patch", if (connectivity == 8) " -d" else "", name)
}

# Return lines that make maps of the patch numbers, and of the patch numbers of core cells.
core_lines <- function(connectivity, core_depth) {
  maps <- c("patch", sprintf("core_%d", seq_len(core_depth - 1)), "core")
  steps <- c("0,0", "-1,0", "1,0", "0,-1", "0,1")
  inner <- vapply(seq_len(core_depth), function(depth) {
    is_inside <- paste(sprintf("patch == %s[%s]", maps[[depth]], steps), collapse = " && ")
    sprintf("r.mapcalc %s = if(%s, patch, null())", maps[[depth + 1]], is_inside)
  }, "")
  c(clump_line(connectivity), inner)
}

# Return a row for each patch, in the order of patch numbers. Perimeters are in metres, or NA if the
# length of the system's unit is unknown.
patch_columns <- function(patches, request) {
  area <- request$area
  template <- template_of(request$sources$map)
  size <- res(template)
  patches$cells <- as.integer(patches$cells)
  columns <- c(
    list(patch = seq_along(patches$cells)),
    coded("class", patches$class, request$labels, label_title = "label"),
    cells_and_area(patches, area)
  )
  columns$perimeter_m <- length_of(patches, side_lengths(request$sources$map))
  if (is.null(area)) columns$core_cells <- as.integer(patches$core)
  if (!is.null(area)) columns[[paste0("core_", area)]] <- patches$core_area
  columns <- c(columns, list( # rows and columns are from 0
    west = xmin(template) + patches$left * size[[1]],
    south = ymax(template) - (patches$bottom + 1) * size[[2]],
    east = xmin(template) + (patches$right + 1) * size[[1]],
    north = ymax(template) - patches$top * size[[2]]
  ))
  if (!is.null(patches$zone)) {
    columns <- c(columns, coded("zone", patches$zone, request$zone_labels, is_checked = TRUE))
  }
  frame_of(columns)
}

rcell_clump <- function(x, connectivity = 4, classes = NULL, min_cells = NULL, filename = "",
                        overwrite = FALSE, crs = NULL) {
  check_selection(connectivity, classes, min_cells)
  sources <- map_to_write(x, crs, filename, overwrite)
  script <- c(clump_line(connectivity), "r.stats -cn input=patch,map", "r.out.ascii input=patch")
  frames <- run_script(script, sources)
  table <- frames[[1]]
  patches <- list(number = table$codes[[1]], class = table$codes[[2]], cells = table$cells)
  is_left_out <- !is_selected(patches, classes, min_cells)
  new <- if (any(is_left_out)) replace(patches$number, is_left_out, NA)
  written(raster_of(frames[[2]], sources$map, labels = NULL, name = "patch", new), filename)
}

rcell_adjacency <- function(x, labels = NULL, crs = NULL) {
  sources <- sources_of(list(map = x), crs)
  labels <- labels_from(labels, sources$map)
  warn_of_lengths(sources$map)
  pairs <- pairs_of(run_script(side_lines("map"), sources))
  check_legend(labels, c(pairs$class, pairs$neighbour))
  frame_of(c(
    coded("class", pairs$class, labels, label_title = "label", is_checked = TRUE),
    coded("neighbour", pairs$neighbour, labels, is_checked = TRUE),
    list(
      sides = as.integer(pairs$ends + pairs$flanks),
      border_m = length_of(pairs, side_lengths(sources$map))
    )
  ))
}

# Return lines for two tables: of pairs of cells next to each other, and below each other.
side_lines <- function(name) {
  c(
    sprintf("r.mapcalc right = %s[0,1]", name), sprintf("r.mapcalc below = %s[1,0]", name),
    sprintf("r.stats -cn input=%s,%s", name, c("right", "below"))
  )
}

# Return each pair of classes once, with the smaller class first. `flanks` counts sides between
# cells next to each other, and `ends` sides between cells below each other.
pairs_of <- function(frames) {
  sides <- Map(function(frame, is_flank) {
    data.frame(
      class = pmin(frame$codes[[1]], frame$codes[[2]]),
      neighbour = pmax(frame$codes[[1]], frame$codes[[2]]),
      ends = as.numeric(frame$cells * !is_flank), flanks = as.numeric(frame$cells * is_flank)
    )
  }, frames, c(TRUE, FALSE))
  sides <- do.call(rbind, sides)
  sides <- sides[order(sides$class, sides$neighbour), ]
  pairs <- sides[c("class", "neighbour")]
  group <- rleidv(pairs)
  cbind(pairs[!duplicated(group), ], rowsum(sides[c("ends", "flanks")], group, reorder = FALSE))
}

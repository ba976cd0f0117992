# SPDX-License-Identifier: Apache-2.0 OR GPL-2.0-or-later
# The region of a map: its rows, columns, and edges as texts with eight decimals, as the program
# reads them.

DECIMALS <- 8L
EDGE_LIMIT <- 1e10
SIDE_LIMIT <- 65535L
CELL_LIMIT <- 2147483647

EDGES <- c("north", "south", "east", "west")

# Return an edge as a text with eight decimals. Only these texts are compared, never the numbers.
edge_text <- function(edge) sub("^-(0\\.0+)$", "\\1", sprintf("%.8f", edge))

region_of <- function(name, raster) {
  edges <- as.vector(ext(raster))[c("ymax", "ymin", "xmax", "xmin")]
  names(edges) <- EDGES
  spelled <- paste(EDGES, format(edges, digits = 15, trim = TRUE), collapse = ", ")
  if (any(!is.finite(edges))) {
    bad_map(name, "its transform must have finite numbers; its edges are %s", spelled)
  }
  if (edges[["east"]] < edges[["west"]]) {
    bad_map(name, "its transform must have columns from west to east; its edges are %s", spelled)
  }
  if (any(abs(edges) >= EDGE_LIMIT)) {
    bad <- which(abs(edges) >= EDGE_LIMIT)[[1]]
    bad_map(name, "%s must have at most ten digits; got %g", EDGES[[bad]], edges[[bad]])
  }
  region <- list(
    edges = edge_text(edges), rows = as.integer(nrow(raster)), cols = as.integer(ncol(raster))
  )
  check_region(name, region)
  region
}

check_region <- function(name, region) {
  is_long <- region$rows > SIDE_LIMIT || region$cols > SIDE_LIMIT
  if (is_long || as.numeric(region$rows) * region$cols > CELL_LIMIT) {
    text <- "must have at most %d rows, %d columns and %.0f cells; got %d rows and %d columns"
    bad_map(name, text, SIDE_LIMIT, SIDE_LIMIT, CELL_LIMIT, region$rows, region$cols)
  }
  numbers <- as.numeric(region$edges)
  names(numbers) <- EDGES
  for (pair in list(c(high = "north", low = "south"), c(high = "east", low = "west"))) {
    if (numbers[[pair[["high"]]]] > numbers[[pair[["low"]]]]) next
    text <- "%s must exceed %s after rounding to %d decimals; got %s"
    bad_map(name, text, pair[["high"]], pair[["low"]], DECIMALS, region_text(region))
  }
}

# Return the number of the cell that contains each point, or NA. A cell includes its northern and
# western edges; with a tolerance, as a fraction of a cell, points near an edge are in the cell to
# the south or east.
cells_at <- function(grid, x, y, tolerance = 0) {
  row <- floor((ymax(grid) - y) / res(grid)[[2]] + tolerance)
  col <- floor((x - xmin(grid)) / res(grid)[[1]] + tolerance)
  is_in <- row >= 0 & row < nrow(grid) & col >= 0 & col < ncol(grid)
  ifelse(is_in %in% TRUE, row * ncol(grid) + col + 1, NA)
}

# Remove trailing zeros.
short_edge <- function(text) sub("\\.$", "", sub("0+$", "", text))

region_text <- function(region) {
  edges <- paste(EDGES, short_edge(region$edges), collapse = ", ")
  sprintf("%s, %d rows, %d columns", edges, region$rows, region$cols)
}

# Return texts that describe how a region differs from the first map's region.
differences <- function(first, other) {
  more <- function(difference) if (difference > 0) "more" else "less"
  texts <- vapply(which(first$edges != other$edges), function(edge) {
    difference <- as.numeric(other$edges[[edge]]) - as.numeric(first$edges[[edge]])
    size <- short_edge(edge_text(abs(difference)))
    end <- short_edge(other$edges[[edge]])
    first_end <- short_edge(first$edges[[edge]])
    sprintf("%s is %s, not %s (%s %s)", EDGES[[edge]], end, first_end, size, more(difference))
  }, "")
  for (side in c("rows", "cols")) {
    difference <- other[[side]] - first[[side]]
    if (difference == 0L) next
    text <- "%s is %d, not %d (%d %s)"
    text <- sprintf(text, side, other[[side]], first[[side]], abs(difference), more(difference))
    texts <- c(texts, text)
  }
  texts
}

# Check that all maps of a call have the region of the first map.
check_regions <- function(sources) {
  first <- sources[[1]]
  for (source in sources[-1]) {
    if (identical(source$region, first$region)) next
    listed <- paste(differences(first$region, source$region), collapse = "; ")
    text <- "its grid differs from `%s`, and rcell does not resample: %s"
    text <- paste0(text, "\n  %s: %s\n  %s: %s\n  try: %s")
    text <- sprintf(
      text, first$name, listed, first$name, region_text(first$region), source$name,
      region_text(source$region), align_call(first, source)
    )
    bad_map(source$name, text, class = "rcell_other_region")
  }
}

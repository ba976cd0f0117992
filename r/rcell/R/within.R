# SPDX-License-Identifier: Apache-2.0 OR GPL-2.0-or-later
# Cells within a distance of some classes: buffers, made with map algebra.

# The largest offset of an expression.
STEPS_LIMIT <- 255
# The largest number of cells with offsets that fits into one expression.
TERMS_OF_AN_EXPRESSION <- 100L
# Cell sizes are fractions with at most this many parts, or decimals with this many digits.
MOST_PARTS <- 12
SECONDS_OF_ARC <- c(60, 120, 240, 360, 1200, 3600, 10800)
DIGITS_OF_SIZES <- 9
# The base of the digits with which distances are compared exactly, and their number.
BASE <- 2^16
DIGITS <- 5

rcell_within <- function(x, classes, distances, filename = "", overwrite = FALSE, crs = NULL) {
  check_selection(connectivity = 4, classes, min_cells = NULL)
  if (!length(classes)) bad_argument("classes= must be whole numbers; got none")
  is_right <- length(distances) && are_between(distances) && all(diff(c(0, distances)) > 0)
  rule <- "distances= must be ascending numbers above 0, for example c(100, 500)"
  check_argument(is_right, distances, rule)
  sources <- map_to_write(x, crs, filename, overwrite)
  check_metres(sources$map, "distances=")
  sizes <- exact_sizes(template_of(sources$map)) * metres_of_unit(sources$map)
  lines <- within_lines(sort(unique(classes)), rings = lapply(distances, reaches, sizes))
  frame <- run_script(c(lines, "r.out.ascii input=within"), sources)[[1]]
  ends <- sprintf("%.10g", distances)
  rings <- sprintf("%s to %s m", c("up", ends[-length(ends)]), ends)
  labels <- list(codes = c(0L, seq_along(rings)), labels = c("inside", rings))
  written(raster_of(frame, sources$map, labels, "within"), filename)
}

# Return the width and height of a cell as stored in the file. terra computes them from the map's
# edges, which makes their last digits inexact. Return the simplest number that is near enough: a
# fraction with few parts, a short decimal, or a fraction in seconds of arc.
exact_sizes <- function(template) {
  rounding <- 4 * .Machine$double.eps * max(abs(as.vector(ext(template))))
  tolerances <- rounding / c(ncol(template), nrow(template))
  mapply(function(size, tolerance) {
    fraction <- function(parts) round(size * parts) / parts
    decimal <- signif(size, DIGITS_OF_SIZES)
    candidates <- c(fraction(seq_len(MOST_PARTS)), decimal, fraction(SECONDS_OF_ARC), size)
    candidates[abs(candidates - size) <= tolerance][[1]]
  }, res(template), tolerances)
}

# Return how many rows away a cell within a distance may be at 0, 1, 2, .. columns.
reaches <- function(distance, sizes) {
  if (distance >= min(sizes) * (STEPS_LIMIT + 1)) {
    text <- "distances= must be at most %d cells; got %.10g m, which is %.1f cells"
    bad_argument(text, STEPS_LIMIT, distance, distance / min(sizes))
  }
  cols <- 0:STEPS_LIMIT
  estimates <- floor(sqrt(pmax(distance^2 - (cols * sizes[[1]])^2, 0)) / sizes[[2]])
  reach <- rep(-1, length(cols)) # no row
  # Rounding may have changed an estimate by 1.
  for (rows in list(estimates - 1, estimates, estimates + 1)) {
    is_near <- rows >= 0 & are_within(distance, cols, rows, sizes)
    reach[is_near] <- rows[is_near]
  }
  reach[reach >= 0]
}

# Return whether cells this many columns and rows apart are within a distance. Squares are compared
# digit by digit, without rounding.
are_within <- function(distance, cols, rows, sizes) {
  scale <- 2^ceiling(log2(distance)) # scales exactly, so that the distance is at most 1
  sizes <- pmin(sizes, 2 * distance) / scale
  distance_squared <- digits_of_square(distance / scale)
  width_squared <- digits_of_square(sizes[[1]])
  height_squared <- digits_of_square(sizes[[2]])
  carry <- 0 # its final value has the sign of the difference
  for (place in rev(seq_along(distance_squared))) {
    digit <- distance_squared[[place]] - cols^2 * width_squared[[place]] -
      rows^2 * height_squared[[place]]
    carry <- floor((carry + digit) / BASE)
  }
  carry >= 0
}

# Return the digits of the square of a number up to 2. They may exceed the base.
digits_of_square <- function(number) {
  parts <- floor(number * BASE^(seq_len(DIGITS) - 1))
  digits <- parts - BASE * c(0, parts[-DIGITS])
  places <- outer(seq_len(DIGITS), seq_len(DIGITS), `+`) # of the products of two digits
  as.vector(rowsum(as.vector(outer(digits, digits)), as.vector(places)))
}

# Return lines that make the rings, given the reaches of each. The map `v_N` is 1 if a cell of the
# classes is at most N rows above or below. A ring is the maximum of several of these maps, each
# shifted by columns.
within_lines <- function(classes, rings) {
  lines <- c(
    "r.reclass input=map output=listed", sprintf("%.0f = 1", classes), "end",
    "r.mapcalc v_0 = if(isnull(listed), 0, 1)"
  )
  last <- 0
  for (reach in setdiff(sort(unique(unlist(rings))), 0)) {
    # Combine windows of `last`, shifted so that they cover every row.
    step <- 2 * last + 1
    steps <- unique(c(step * seq_len((reach - last) %/% step), reach - last))
    windows <- sprintf("v_%d[%d,0]", last, c(0, steps, -steps))
    map <- sprintf("v_%d", reach)
    lines <- c(lines, combined_lines(map, "nmax(%s)", windows, ",", TERMS_OF_AN_EXPRESSION))
    last <- reach
  }
  for (number in seq_along(rings)) {
    ring <- rings[[number]] # the reach at column 0, and at columns on both sides
    cols <- seq_along(ring)[-1] - 1L
    windows <- sprintf("v_%d[0,%d]", c(ring, ring[-1]), c(0L, cols, -cols))
    # Without the 0, a part whose windows are all off the map would be null.
    map <- sprintf("ring_%d", number)
    lines <- c(lines, combined_lines(map, "nmax(0,%s)", windows, ",", TERMS_OF_AN_EXPRESSION))
  }
  numbers <- sprintf("if(ring_%1$d, %1$d, null())", seq_along(rings))
  # These terms are longer than windows.
  limit <- TERMS_OF_AN_EXPRESSION / 2
  c(
    lines, combined_lines("nearest", "nmin(null(),%s)", numbers, ",", limit),
    "r.mapcalc within = if(v_0, 0, nearest)"
  )
}

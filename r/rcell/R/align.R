# SPDX-License-Identifier: Apache-2.0 OR GPL-2.0-or-later
# Move a map onto the grid of another map: by whole cells, or to the nearest cells on request.

# Tolerances as fractions of a cell: for a shift by whole cells, and for a centre on a border, which
# belongs to the southern or eastern cell.
SHIFT_TOLERANCE <- 1e-3
BORDER_TOLERANCE <- 1e-6
TRY_NEAREST <- "use resample=\"nearest\" to get the nearest cells"

rcell_align <- function(x, to, resample = NULL, filename = "", overwrite = FALSE, crs = NULL) {
  is_known <- is.null(resample) || identical(resample, "nearest")
  check_argument(is_known, resample, "resample= must be \"nearest\" or NULL")
  check_filename(filename, overwrite)
  stated <- stated_crs(crs)
  map <- with_stated(source_of("map", x), stated)
  target <- with_stated(target_source("to", to), stated)
  check_inputs(filename, inputs_of(list(map, target)))
  if (nzchar(map$crs) != nzchar(target$crs)) check_crs(list(target, map), stated = "")
  is_same_crs <- !nzchar(map$crs) || same_crs(map$crs, target$crs)
  if (is.null(resample)) check_alignment(map, target, is_same_crs)
  find_places <- if (is_same_crs) places_by_side else places_by_centre
  places <- find_places(template_of(map), template_of(target))
  cells <- all_cells(map)
  if (is_same_crs) {
    moved <- as.vector(cells[places$cols, places$rows]) # each row of the map is a column of `cells`
  } else {
    moved <- cells[places$index]
  }
  raster <- rast(template_of(target), vals = moved)
  if (length(map$labels$codes)) {
    levels(raster) <- data.frame(value = map$labels$codes, label = map$labels$labels)
  }
  raster <- written(raster, filename)
  attr(raster, "aligned") <- facts_of(places, cells, moved)
  raster
}

# Return the source of a target map. Only its grid matters, so it may have no values.
target_source <- function(name, to) {
  if (!inherits(to, "SpatRaster") || hasValues(to)) return(source_of(name, to))
  list(name = name, raster = to, region = region_of(name, to), crs = crs(to))
}

# Check that a shift by whole cells is enough to align a map.
check_alignment <- function(map, target, is_same_crs) {
  if (!is_same_crs) check_crs(list(target, map), stated = "")
  size <- res(map$raster)
  target_size <- res(target$raster)
  difference <- abs(size - target_size) * c(map$region$cols, map$region$rows)
  if (any(difference > SHIFT_TOLERANCE * size)) {
    spelled <- function(size) paste(format(size, digits = 15, trim = TRUE), collapse = " x ")
    text <- "cells of %s, but `to` has cells of %s: %s"
    class <- "rcell_other_region"
    bad_map(map$name, text, spelled(size), spelled(target_size), TRY_NEAREST, class = class)
  }
  shift <- shift_of(map$raster, target$raster)
  if (any(shift != round(shift))) {
    text <- "shifted by %.10g rows and %.10g columns, not by whole cells: %s"
    class <- "rcell_other_region"
    bad_map(map$name, text, shift[[1]], shift[[2]], TRY_NEAREST, class = class)
  }
}

# Return the row and column of `from` at which `to` begins, rounded if they are nearly whole.
shift_of <- function(from, to) {
  size <- res(from)
  shift <- c((ymax(from) - ymax(to)) / size[[2]], (xmin(to) - xmin(from)) / size[[1]])
  ifelse(abs(shift - round(shift)) <= SHIFT_TOLERANCE, round(shift), shift)
}

# Return, for each row and column of `to`, the row and column of `from` that contain its centres, or
# NA.
places_by_side <- function(from, to) {
  shift <- shift_of(from, to)
  # `count` are the rows or columns of `to`, and `limit` the rows or columns of `from`.
  along <- function(shift, ratio, count, limit) {
    place <- floor(shift + (seq_len(count) - 0.5) * ratio + BORDER_TOLERANCE) + 1
    place[place < 1 | place > limit] <- NA
    as.integer(place)
  }
  ratio <- res(to) / res(from)
  list(
    rows = along(shift[[1]], ratio[[2]], nrow(to), nrow(from)),
    cols = along(shift[[2]], ratio[[1]], ncol(to), ncol(from)), shift = shift
  )
}

# Return, for each cell of `to`, the cell of `from` that contains its centre. The reference systems
# may differ.
places_by_centre <- function(from, to) {
  centres <- project(xyFromCell(to, seq_len(ncell(to))), from = crs(to), to = crs(from))
  index <- cells_at(from, centres[, 1], centres[, 2], BORDER_TOLERANCE)
  list(index = index, shift = c(NA_real_, NA_real_)) # no shift
}

# Count the map's cells with a value that are in the result, in it more than once, and not in it.
# `cells` are the cells of the map (each row in a column), and `moved` the cells of the result.
facts_of <- function(places, cells, moved) {
  with_value <- function(cells) length(cells) - sum(is.na(cells))
  # Without repetitions, the result contains each used cell once.
  used <- once <- with_value(moved)
  if (!is.null(places$index)) {
    times <- tabulate(places$index, length(cells))[!is.na(cells)]
    used <- sum(times > 0L)
    once <- sum(times == 1L)
  } else if (anyDuplicated(na.omit(places$rows)) || anyDuplicated(na.omit(places$cols))) {
    times_of_rows <- tabulate(places$rows, ncol(cells))
    times_of_cols <- tabulate(places$cols, nrow(cells))
    used <- with_value(cells[times_of_cols > 0L, times_of_rows > 0L])
    once <- with_value(cells[times_of_cols == 1L, times_of_rows == 1L])
  }
  data.frame(
    shift_rows = places$shift[[1]], shift_columns = places$shift[[2]], cells_used = used,
    cells_repeated = used - once, cells_lost = with_value(cells) - used
  )
}

# Return a call that moves a map onto the first map of a run, as text that users can paste.
align_call <- function(first, source) {
  spelled <- function(source) {
    if (is.character(source$given)) sprintf("\"%s\"", source$given) else source$name
  }
  is_of_same_size <- isTRUE(all.equal(res(first$raster), res(source$raster), tolerance = 1e-9))
  is_shifted <- is_of_same_size && all(shift_of(source$raster, first$raster) %% 1 == 0)
  resample <- if (is_shifted) "" else ", resample = \"nearest\""
  sprintf(
    "%s <- rcell_align(%s, to = %s%s)", source$name, spelled(source), spelled(first), resample
  )
}

# SPDX-License-Identifier: Apache-2.0 OR GPL-2.0-or-later
# Changes over many years: the sequences of classes, and maps of when classes changed.

# The largest number of changes that fits into one expression.
CHANGES_OF_AN_EXPRESSION <- 50L

rcell_trajectories <- function(maps, years = NULL, area, labels = NULL, include_maps = FALSE,
                               crs = NULL) {
  check_flag(include_maps, "include_maps")
  is_list <- is.list(maps) && length(maps) > 1L
  check_argument(is_list, maps, "maps= must be a list of two or more maps")
  check_years(years, length(maps))
  is_ascending <- !is.null(years) && !is.unsorted(years)
  check_argument(is_ascending, years, "years= must be ascending, one for each map")
  names(maps) <- sprintf("map_%d", seq_along(maps))
  sources <- sources_of(maps, crs)
  area <- unit_of(area, sources[[1]])
  legends <- legends_of_years(sources, labels)
  table <- count_sequences(sources, area)
  check_legend(legends[[1]], unlist(table$codes)) # if labels= is given
  codes <- matrix(unlist(table$codes), ncol = length(maps))
  is_changed <- codes[, -1, drop = FALSE] != codes[, -length(maps), drop = FALSE]
  changes <- summed_by(table, as.integer(rowSums(is_changed)), area, sources[[1]])
  result <- list(
    table = sequences_table(table, codes, is_changed, years, legends, area),
    changes = frame_of(c(list(changes = changes$codes[[1]]), sized(changes, area))),
    intervals = intervals_table(table, is_changed, years, sources[[1]], area)
  )
  if (include_maps) result$maps <- maps_of_changes(sources, years)
  result
}

# Return a row for each sequence of classes. `is_changed` has a column for each year but the first.
sequences_table <- function(table, codes, is_changed, years, legends, area) {
  is_labelled <- has_labels(legends)
  columns <- lapply(seq_along(years), function(place) {
    columns <- list(codes[, place], if (is_labelled) labels_for(legends[[place]], codes[, place]))
    names(columns) <- sprintf(c("class_%.0f", "label_%.0f"), years[[place]])
    columns
  })
  columns <- Filter(Negate(is.null), unlist(columns, recursive = FALSE))
  changes <- rowSums(is_changed)
  year_of <- function(ties) { # of the first or last change
    ifelse(changes > 0, as.integer(years[-1])[max.col(is_changed + 0, ties)], NA_integer_)
  }
  # Count the classes of each row.
  sorted <- matrix(codes[order(row(codes), codes)], ncol = ncol(codes), byrow = TRUE)
  is_other <- sorted[, -1, drop = FALSE] != sorted[, -ncol(codes), drop = FALSE]
  frame_of(c(columns, sized(table, area), list(
    changes = as.integer(changes), classes = as.integer(rowSums(is_other) + 1),
    first_change = year_of("first"), last_change = year_of("last")
  )))
}

# Return a row for each pair of consecutive years, with the yearly change and its mean over all
# years (Aldwaik and Pontius 2012, equations 1 and 2).
intervals_table <- function(table, is_changed, years, source, area) {
  weights <- colSums(is_changed * table$weights)
  percent <- 100 * weights / sum(table$weights)
  sizes <- counted(codes = NULL, colSums(is_changed * table$cells), weights, area, source)
  columns <- list(year_from = as.integer(years[-length(years)]), year_to = as.integer(years[-1]))
  frame_of(c(columns, cells_and_area(sizes, area), list(
    percent = percent, percent_year = percent / diff(years),
    uniform_percent_year = rep(sum(percent) / sum(diff(years)), length(percent))
  )))
}

# Count each sequence of classes. If there are more maps than a table has columns, the classes of
# several maps are packed into one number, whose digits are the positions of the classes.
count_sequences <- function(sources, area) {
  names <- names(sources)
  by_row <- !is.null(area) && is_in_degrees(sources[[1]])
  limit <- if (by_row) MAPS_LIMIT - 1L else MAPS_LIMIT # the row numbers are a map
  if (length(names) <= limit) return(count_cells(sources, list(names), area)[[1]])
  frames <- run_script(sprintf("r.stats -n input=%s", names), sources)
  classes <- sort(unique(unlist(lapply(frames, `[[`, "codes"))))
  base <- max(length(classes), 2)
  size <- floor(log(CATEGORY_LIMIT, base)) # the number of maps in a pack
  rule <- "maps= must list at most %d maps for %d classes"
  is_right <- length(names) <= size * limit
  check_argument(is_right, length(names), rule, size * limit, length(classes))
  packs <- chunks_of(sprintf("rank_%s", names), size)
  ranks <- unlist(lapply(names, rank_lines, classes, step = 1))
  packed <- sprintf("pack_%d", seq_along(packs))
  sums <- vapply(packs, Reduce, "", f = function(sum, rank) {
    sprintf("(%s) * %.0f + %s", sum, base, rank)
  })
  before <- c(ranks, sprintf("r.mapcalc %s = %s", packed, sums))
  table <- count_cells(sources, list(packed), area, before)[[1]]
  table$codes <- unlist(Map(function(numbers, pack) {
    powers <- base^rev(seq_along(pack) - 1)
    lapply(powers, function(power) classes[numbers %/% power %% base + 1])
  }, table$codes, packs), recursive = FALSE)
  table
}

# Return maps of the number of changes and of the years of the first and last change.
maps_of_changes <- function(sources, years) {
  names <- names(sources)
  changes <- sprintf("(%s != %s)", names[-length(names)], names[-1])
  dates <- sprintf("if(%s, %.0f, null())", changes, years[-1])
  limit <- CHANGES_OF_AN_EXPRESSION
  maps <- c("changes", "first_change", "last_change")
  first <- "if(isnull(changes), null(), nmin(null(), %s))"
  last <- "if(isnull(changes), null(), nmax(null(), %s))"
  lines <- c(
    combined_lines("changes", "%s", changes, " + ", limit),
    combined_lines("first_change", first, dates, ", ", limit),
    combined_lines("last_change", last, dates, ", ", limit)
  )
  frames <- run_script(c(lines, sprintf("r.out.ascii input=%s", maps)), sources)
  names(frames) <- maps
  lapply(frames, raster_of, sources[[1]], labels = NULL)
}

# SPDX-License-Identifier: Apache-2.0 OR GPL-2.0-or-later
# Change between the maps of two or more years.

rcell_change <- function(before, after = NULL, years = NULL, area, labels = NULL, crs = NULL) {
  maps <- if (is.null(after)) before else list(before, after)
  rule <- "before= must be a list of two or more maps unless after= is given"
  check_argument(is.list(maps) && length(maps) > 1L, before, rule)
  check_years(years, length(maps))
  is_pair <- length(maps) == 2L
  names(maps) <- if (is_pair) c("before", "after") else sprintf("map_%d", seq_along(maps))
  sources <- sources_of(maps, crs)
  area <- unit_of(area, sources[[1]])
  legends <- legends_of_years(sources, labels)
  combinations <- lapply(seq_len(length(maps) - 1L), function(first) names(maps)[first + 0:1])
  tables <- count_cells(sources, combinations, area)
  check_legend(legends[[1]], unlist(lapply(tables, `[[`, "codes"))) # if labels= is given
  pairs <- Map(function(table, first) {
    list(table = table, legends = unname(legends[first + 0:1]), years = years[first + 0:1])
  }, tables, seq_along(tables))
  summaries <- lapply(pairs, change_summary, area, sources[[1]])
  list(
    table = stacked(lapply(pairs, change_table, area)), matrix = change_matrix(pairs),
    summary = stacked(summaries)
  )
}

check_years <- function(years, count) {
  if (is.null(years)) {
    if (count > 2L) {
      bad_argument("years= must list one year for each map; got none for %d maps", count)
    }
    return(invisible())
  }
  is_right <- is.numeric(years) && length(years) == count && all(is_category(years)) &&
    !anyDuplicated(years)
  rule <- "years= must be %d different whole numbers, one for each map"
  check_argument(is_right, years, rule, count)
}

# Return each map's labels: the legend, its own, or the labels of the first map that has some.
legends_of_years <- function(sources, legend) {
  legend <- labels_from(legend, list(name = "the maps"))
  if (!is.null(legend)) return(lapply(sources, function(source) legend))
  legends <- lapply(sources, `[[`, "labels")
  is_without <- !lengths(lapply(legends, `[[`, "codes"))
  legends[is_without] <- legends[!is_without][1]
  legends
}

# Stack the tables of several pairs of years.
stacked <- function(frames) {
  frame <- do.call(rbind, unname(frames))
  rownames(frame) <- NULL
  frame
}

years_of <- function(pair, count) {
  if (is.null(pair$years)) return(list())
  years <- as.integer(pair$years)
  list(year_from = rep(years[[1]], count), year_to = rep(years[[2]], count))
}

change_table <- function(pair, area) {
  codes <- pair$table$codes
  label <- function(side) { # a list for c(), or NULL
    if (has_labels(pair$legends)) list(labels_for(pair$legends[[side]], codes[[side]]))
  }
  columns <- c(
    years_of(pair, length(codes[[1]])), list(from = codes[[1]]), from_label = label(1L),
    list(to = codes[[2]]), to_label = label(2L), sized(pair$table, area)
  )
  frame_of(columns)
}

# Return a matrix of earlier by later classes, with areas, or cells if there are no areas.
change_matrix <- function(pairs) {
  after <- sort(unique(unlist(lapply(pairs, function(pair) pair$table$codes[[2]]))))
  before <- lapply(pairs, function(pair) sort(unique(pair$table$codes[[1]])))
  first_titles <- c(names(years_of(pairs[[1]], count = 0L)), "from")
  legends <- c(lapply(pairs, function(pair) pair$legends[[1]]), list(legend_of_columns(pairs)))
  titles <- class_titles(legends, c(before, list(after)), taken = first_titles)
  column_titles <- titles[[length(titles)]]
  is_labelled <- has_labels(legends)
  frames <- Map(function(pair, before, titles) {
    table <- pair$table
    values <- if (is.null(table$area)) table$cells else table$area
    columns <- as.data.frame(crossed(values, table$codes, list(before, after)))
    from <- if (is_labelled) titles else before
    frame_of(c(years_of(pair, length(before)), list(from = from), columns))
  }, pairs, before, titles[seq_along(pairs)])
  frame <- stacked(frames)
  names(frame) <- c(first_titles, column_titles)
  frame
}

# Return the labels of the later classes, each from the last year in which it has a label.
legend_of_columns <- function(pairs) {
  legends <- rev(lapply(pairs, function(pair) pair$legends[[2]]))
  codes <- unlist(lapply(legends, `[[`, "codes"))
  labels <- unlist(lapply(legends, `[[`, "labels"))
  is_first <- !duplicated(codes)
  list(codes = codes[is_first], labels = labels[is_first])
}

# Summarise changes by class. Cells are added up before they become areas, except in degrees.
change_summary <- function(pair, area, source) {
  table <- pair$table
  classes <- sort(unique(unlist(table$codes)))
  changes <- crossed(table$weights, table$codes, list(classes, classes))
  kept <- diag(changes)
  diag(changes) <- 0
  gain <- colSums(changes)
  loss <- rowSums(changes)
  measures <- list(
    before = kept + loss, after = kept + gain, gain = gain, loss = loss, net = gain - loss,
    swap = 2 * pmin(gain, loss), persistence = kept
  )
  measures <- lapply(measures, function(weights) {
    if (is.null(area)) as.integer(weights) else areas_of(weights, source, area)
  })
  names(measures) <- paste(names(measures), if (is.null(area)) "cells" else area, sep = "_")
  label <- labels_for(pair$legends[[2]], classes)
  label <- ifelse(is.na(label), labels_for(pair$legends[[1]], classes), label)
  columns <- c(
    years_of(pair, length(classes)), list(class = classes),
    if (has_labels(pair$legends)) list(label = label), measures
  )
  frame_of(columns)
}

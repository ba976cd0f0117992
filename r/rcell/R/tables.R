# SPDX-License-Identifier: Apache-2.0 OR GPL-2.0-or-later
# Finish a script's table: add areas and percentages, or convert it to a matrix.

# Return a statement's table with the requested columns, or as a matrix.
finished <- function(table, answer, statement, area, percent, wide) {
  given <- c(if (!is.null(area)) "area=", if (percent) "percent=", if (wide) "wide=")
  if (length(given) && !("c" %in% statement$flags)) {
    text <- sprintf("%s requires a table with counts: use r.stats -c", given[[1]])
    refuse(text, "script", statement$line)
  }
  if (wide && length(statement$maps) != 2L) {
    text <- "wide= requires a table of two maps, but this table has %d"
    refuse(sprintf(text, length(statement$maps)), "script", statement$line)
  }
  if (!is.null(area)) table[[area_title(area)]] <- areas_of(table$cells, answer$source, area)
  if (percent) table$percent <- 100 * table$cells / sum(as.numeric(table$cells))
  if (!wide) return(table)
  value <- if (percent) "percent" else if (!is.null(area)) area_title(area) else "cells"
  wide_of(table, statement, answer$labels, table[[value]])
}

# Return a table of two maps as a matrix of `numbers`, a column of the table. Rows and columns are
# named by labels, or by categories without labels. Null is last.
wide_of <- function(table, statement, labels, numbers) {
  has_labels <- "l" %in% statement$flags
  sides <- list(table[[1]], table[[if (has_labels) 3L else 2L]]) # labels may be in between
  codes <- lapply(sides, function(side) sort(unique(side), na.last = TRUE))
  matrix <- crossed(numbers, sides, codes)
  legends <- lapply(statement$maps, function(map) if (has_labels) labels[[map]])
  # The rows and columns of this matrix are different maps, which may have equal labels.
  dimnames(matrix) <- Map(function(legend, codes) {
    as.character(class_titles(list(legend), list(codes))[[1]])
  }, legends, codes)
  names(dimnames(matrix)) <- statement$maps
  matrix
}

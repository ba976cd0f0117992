# SPDX-License-Identifier: Apache-2.0 OR GPL-2.0-or-later
# Table columns: codes with their labels, cells, areas and percentages.

# Return columns as a data frame.
frame_of <- function(columns) {
  structure(columns, class = "data.frame", row.names = seq_along(columns[[1]]))
}

# Return a column of codes, followed by a column of labels if there are any. Unless this is checked
# elsewhere, warn about codes for which a legend has no label.
coded <- function(title, codes, labels, label_title = paste0(title, "_label"),
                  is_checked = FALSE) {
  if (!is_checked) check_legend(labels, codes)
  columns <- list(codes)
  if (length(labels$codes)) columns[[2]] <- labels_for(labels, codes)
  names(columns) <- c(title, label_title)[seq_along(columns)]
  columns
}

# Return the label of each code, or NA.
labels_for <- function(labels, codes) {
  if (!length(labels$codes)) return(rep(NA_character_, length(codes)))
  labels$labels[match(codes, labels$codes)]
}

# Return class titles for each side of a matrix: labels, or class numbers. If another class has the
# same label, or the label is taken, the class is appended. The arguments are lists by side.
class_titles <- function(labels, codes, taken = character()) {
  labels <- Map(labels_for, labels, codes)
  titles <- Map(function(labels, codes) ifelse(is.na(labels), codes, labels), labels, codes)
  known <- unique(data.frame(title = unlist(titles), code = unlist(codes)))
  taken <- c(taken, known$title[duplicated(known$title)])
  Map(function(labels, titles, codes) {
    is_shared <- titles %in% taken & !is.na(labels)
    titles[is_shared] <- sprintf("%s (%d)", titles[is_shared], codes[is_shared])
    titles
  }, labels, titles, codes)
}

has_labels <- function(legends) any(lengths(lapply(legends, `[[`, "codes")) > 0L)

# Return a matrix of values by two columns of codes. `known` are the codes of its rows and columns.
crossed <- function(values, codes, known) {
  matrix <- array(if (is.integer(values)) 0L else 0, lengths(known))
  places <- do.call(cbind, Map(match, codes, known)) # the row and column of each value
  matrix[places] <- values
  matrix
}

# Sum values by group; groups are numbers from 1 to `count`.
summed <- function(values, group, count) {
  total <- numeric(count)
  if (!length(group)) return(total)
  sums <- rowsum(as.numeric(values), group, reorder = FALSE)
  total[as.integer(rownames(sums))] <- sums
  total
}

cells_and_area <- function(table, area) {
  columns <- list(cells = table$cells)
  if (!is.null(area)) columns[[area_title(area)]] <- table$area
  columns
}

# Return a table's cells, their area, and their percentage of the group's area that has data.
# Without areas, percentages refer to cells. Rows with null get no percentage.
sized <- function(table, area, group = rep(1L, length(table$cells))) {
  columns <- cells_and_area(table, area)
  share <- table$weights
  share[Reduce(`|`, lapply(table$codes, is.na))] <- NA
  columns$percent <- 100 * share / ave(share, group, FUN = function(x) sum(x, na.rm = TRUE))
  columns
}

# Return the position of the largest number of cells in each group, in the order of the groups. In a
# tie, the smallest code wins.
most_frequent <- function(group, cells, code) {
  order <- order(group, -cells, code)
  order[!duplicated(group[order])]
}

# Add `_2`, `_3`, .. to repeated titles.
unique_titles <- function(titles) {
  for (place in seq_along(titles)) {
    number <- 2L
    title <- titles[[place]]
    while (titles[[place]] %in% titles[seq_len(place - 1L)]) {
      titles[[place]] <- sprintf("%s_%d", title, number)
      number <- number + 1L
    }
  }
  titles
}

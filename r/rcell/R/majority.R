# SPDX-License-Identifier: Apache-2.0 OR GPL-2.0-or-later
# The most frequent class in the square around each cell.

SIZES <- seq(3, 15, 2)
# The size of the largest window whose cells fit into one expression.
SIZE_OF_AN_EXPRESSION <- 9
# The largest number of classes whose counts fit into one expression.
CLASSES_OF_AN_EXPRESSION <- 100L

rcell_majority <- function(x, size = 3, fill = FALSE, filename = "", overwrite = FALSE,
                           crs = NULL) {
  check_argument(is_whole(size) && size %in% SIZES, size, "size= must be odd, from 3 to 15")
  check_flag(fill, "fill")
  sources <- map_to_write(x, crs, filename, overwrite)
  if (size <= SIZE_OF_AN_EXPRESSION) {
    script <- window_lines(size)
  } else {
    table <- run_script("r.stats -n input=map", sources)[[1]]
    script <- class_lines(size, classes = table$codes[[1]])
  }
  filled <- if (fill) "commonest" else "if(isnull(map), null(), commonest)"
  script <- c(script, paste("r.mapcalc majority =", filled), "r.out.ascii input=majority")
  frame <- run_script(script, sources)[[1]]
  written(raster_of(frame, sources$map, sources$map$labels, "majority"), filename)
}

# Return an expression for the most frequent class in a window.
window_lines <- function(size) {
  steps <- seq_len(size) - (size + 1) / 2
  cells <- paste(sprintf("map[%d,%d]", rep(steps, each = size), steps), collapse = ",")
  sprintf("r.mapcalc commonest = nmode(%s)", cells)
}

# Return lines for the most frequent class in windows that are too large for one expression. They
# count the cells of each class along rows and then along columns, and take the largest count. In a
# tie, the first class wins, because a rank adds the class's position from the end to its count.
class_lines <- function(size, classes) {
  if (!length(classes)) return("r.mapcalc commonest = map")
  steps <- seq_len(size) - (size + 1) / 2
  count <- length(classes)
  counts <- unlist(Map(function(class, place) {
    along <- paste(sprintf("nmax(map[0,%d] == %d, 0)", steps, class), collapse = " + ")
    across <- paste(sprintf("nmax(along_%d[%d,0], 0)", place, steps), collapse = " + ")
    c(
      sprintf("r.mapcalc along_%d = %s", place, along),
      sprintf("r.mapcalc count_%d = %s", place, across)
    )
  }, classes, seq_len(count)))
  factor <- count + 1L # a rank is a count times this factor, plus `from_end`
  from_end <- count - seq_len(count)
  ranks <- sprintf("count_%d * %d + %d", seq_len(count), factor, from_end)
  largest <- combined_lines("best", "max(0, %s)", ranks, ", ", CLASSES_OF_AN_EXPRESSION)
  place <- sprintf("r.mapcalc place = if(best < %1$d, null(), best %% %1$d)", factor)
  rules <- sprintf("%d = %d", from_end, classes)
  c(counts, largest, place, "r.reclass input=place output=commonest", rules, "end")
}

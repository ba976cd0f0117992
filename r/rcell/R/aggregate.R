# SPDX-License-Identifier: Apache-2.0 OR GPL-2.0-or-later
# Coarser maps: the most frequent class of blocks of cells, and the share of each class.

rcell_aggregate <- function(x, factor, min_percent = 0, filename = "", overwrite = FALSE,
                            crs = NULL) {
  check_whole_number(factor, "factor", 1, CATEGORY_LIMIT)
  is_percent <- length(min_percent) == 1L && are_between(min_percent, 0, 100)
  check_argument(is_percent, min_percent, "min_percent= must be a number from 0 to 100")
  sources <- map_to_write(x, crs, filename, overwrite)
  blocks <- blocks_of(sources$map, factor)
  number <- "r.mapcalc block = (row() - 1) / %.0f * %.0f + (col() - 1) / %.0f"
  script <- c(sprintf(number, factor, ncol(blocks), factor), "r.stats -cn input=block,map")
  frame <- run_script(script, sources)[[1]]
  block <- frame$codes[[1]] + 1L
  class <- frame$codes[[2]]
  classes <- sort(unique(class))
  best <- most_frequent(block, frame$cells, class)
  majority <- summed(class[best], block[best], ncell(blocks)) # each sum has only one term
  cells <- summed(frame$cells, block, ncell(blocks))
  known <- list(seq_len(ncell(blocks)), classes)
  shares <- crossed(100 * frame$cells / cells[block], list(block, class), known)
  layers <- cbind(majority, cells, shares)
  is_sparse <- cells == 0 | 100 * cells < min_percent * factor^2
  layers[is_sparse, colnames(layers) != "cells"] <- NA
  raster <- rast(blocks, nlyrs = ncol(layers), vals = layers)
  titles <- c("majority", "cells")
  labels <- sources$map$labels
  set.names(raster, c(titles, class_titles(list(labels), list(classes), taken = titles)[[1]]))
  set_labels(raster, labels, "majority")
  written(raster, filename, type = "FLT8S")
}

# Return the grid of blocks, which may extend beyond the southern and eastern edges of the map.
blocks_of <- function(source, factor) {
  template <- template_of(source)
  size <- res(template) * factor
  rows <- ceiling(nrow(template) / factor)
  cols <- ceiling(ncol(template) / factor)
  rast(
    nrows = rows, ncols = cols, xmin = xmin(template), xmax = xmin(template) + cols * size[[1]],
    ymin = ymax(template) - rows * size[[2]], ymax = ymax(template), crs = source$crs
  )
}

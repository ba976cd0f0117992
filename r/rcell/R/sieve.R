# SPDX-License-Identifier: Apache-2.0 OR GPL-2.0-or-later
# A minimum mapping unit: small patches are merged into their neighbours.

SIDES <- c(right = "0,1", below = "1,0")
CORNERS <- c(falling = "1,1", rising = "1,-1")
CHANGED <- "r.mapcalc changed = if(isnull(map), null(), isnull(new) ||| map != new)"
# Decimals to which a number of cells is rounded before it is rounded up to whole cells.
DIGITS_OF_CELLS <- 9

rcell_sieve <- function(x, min_cells = NULL, min_ha = NULL, connectivity = 4, drop = FALSE,
                        filename = "", overwrite = FALSE, crs = NULL) {
  check_selection(connectivity, classes = NULL, min_cells = NULL)
  check_flag(drop, "drop")
  sources <- map_to_write(x, crs, filename, overwrite)
  fewest <- fewest_cells(min_cells, min_ha, sources$map)
  steps <- if (!drop) c(SIDES, if (connectivity == 8) CORNERS)
  lines <- touching_lines("map", connectivity, "patch,map", steps)
  frames <- run_script(c(lines, "r.out.ascii input=patch"), sources) # patches, pairs, the map
  class <- frames[[1]]$codes[[2]]
  cells <- frames[[1]]$cells
  is_small <- cells < fewest
  new <- replace(class, is_small, NA)
  if (!drop) {
    touching <- touching_of(pairs = frames[seq_along(steps) + 1L], is_small)
    new <- merged_classes(class, cells, touching, fewest)
  }
  raster <- raster_of(frames[[length(frames)]], sources$map, sources$map$labels, "sieved", new)
  sources$new <- sources$map # to count the patches and the changed cells of the result
  sources$new[c("name", "raster", "alpha")] <- list("new", raster, NULL)
  lines <- touching_lines("new", connectivity, c("patch", "changed"), if (!drop) SIDES)
  frames <- run_script(c(CHANGED, lines), sources)
  raster <- written(raster, filename)
  attr(raster, "sieved") <- account_of(frames, fewest, patches_before = length(class))
  raster
}

# Return the smallest number of cells that a patch may have.
fewest_cells <- function(min_cells, min_ha, source) {
  if (is.null(min_cells) == is.null(min_ha)) {
    met <- if (is.null(min_cells)) "neither" else "both"
    bad_argument("one of min_cells= and min_ha= must be given; got %s", met)
  }
  if (is.null(min_ha)) {
    check_whole_number(min_cells, "min_cells", 1)
    return(min_cells)
  }
  is_size <- length(min_ha) == 1L && are_between(min_ha) && min_ha > 0
  check_argument(is_size, min_ha, "min_ha= must be a number above 0")
  check_metres(source, "min_ha=", ": use min_cells=")
  max(1, ceiling(round(min_ha * UNITS[["ha"]] / cell_sizes(source), DIGITS_OF_CELLS)))
}

# Return lines for tables of patches with other maps, and of pairs of patches that are a step apart.
touching_lines <- function(name, connectivity, tables, steps) {
  other <- "r.mapcalc %1$s = if(patch != patch[%2$s], patch[%2$s], null())"
  pairs <- sprintf("r.stats -cn input=patch,%s", names(steps))
  c(
    clump_line(connectivity, name), sprintf("r.stats -cn input=%s", tables),
    if (length(steps)) rbind(sprintf(other, names(steps), steps), pairs) # each map, then its table
  )
}

# Return the patches that each small patch touches, and how many sides they share (0 at a corner).
# `pairs` are tables for SIDES, then CORNERS. `starts` and `counts` locate a patch's entries.
touching_of <- function(pairs, is_small) {
  one <- unlist(lapply(pairs, function(table) table$codes[[1]]))
  other <- unlist(lapply(pairs, function(table) table$codes[[2]]))
  cells <- lapply(pairs, `[[`, "cells")
  has_sides <- rep(seq_along(pairs) <= length(SIDES), lengths(cells))
  sides <- unlist(cells) * has_sides
  from <- as.integer(c(one, other)) # each pair is an entry of both of its patches
  order <- order(from)
  order <- order[is_small[from[order]]]
  counts <- tabulate(from[order], length(is_small))
  list(
    near = c(other, one)[order], sides = c(sides, sides)[order], counts = counts,
    starts = cumsum(counts) - counts + 1L
  )
}

# Return the final class of each patch. While a patch below the size shares a side with another
# class, the smallest patch (ties: the first) gets the class of the neighbour with which it shares
# most sides (ties: the first). It then merges with all patches of this class that it touches. A
# merged patch keeps the smallest number of its parts, which follow the order of first cells.
merged_classes <- function(class, cells, touching, fewest) {
  fewest <- min(fewest, sum(as.numeric(cells)) + 1)
  into <- seq_along(class) # the patch into which a patch was merged, or the patch itself
  parts <- as.list(into) # the original patches in a merged patch
  # Process patches by size, since a patch that grows is larger than all patches processed so far.
  waiting <- vector("list", fewest - 1) # the patches of each size
  small <- which(cells < fewest)
  by_size <- split(small, cells[small])
  waiting[as.integer(names(by_size))] <- by_size
  for (size in seq_along(waiting)) {
    for (patch in sort(waiting[[size]])) {
      if (into[[patch]] != patch || cells[[patch]] != size) next
      own_parts <- parts[[patch]]
      entries <- sequence(touching$counts[own_parts], touching$starts[own_parts])
      near <- touching$near[entries]
      while (any((merged <- into[near]) != near)) near <- merged # follow earlier mergers
      into[touching$near[entries]] <- near
      touched <- setdiff(near, patch)
      place <- match(near, touched, nomatch = 0L)
      shared <- tabulate(rep.int(place, touching$sides[entries]), length(touched)) # sums of sides
      if (!any(shared > 0L)) next
      code <- class[[min(touched[shared == max(shared)])]]
      joined <- c(patch, touched[class[touched] == code])
      grown <- min(joined)
      count <- sum(cells[joined])
      if (count < fewest) {
        parts[[grown]] <- unlist(parts[joined])
        waiting[[count]] <- c(waiting[[count]], grown)
      }
      into[joined] <- grown
      class[[grown]] <- code
      cells[[grown]] <- count
    }
  }
  while (any((merged <- into[into]) != into)) into <- merged
  class[into]
}

# Return the counts of the result, and check that no remaining small patch shares a side with
# another class. The frames are tables of patches, of changed cells (0 or 1), and of touching pairs.
account_of <- function(frames, fewest, patches_before) {
  cells <- frames[[1]]$cells
  changed <- frames[[2]]
  small <- which(cells < fewest)
  if (any(small %in% unlist(lapply(frames[-(1:2)], `[[`, "codes")))) {
    stop("a small patch still has a neighbour: this is a bug in rcell")
  }
  data.frame(
    patches_before = patches_before, patches_after = length(cells),
    cells_changed = sum(changed$cells[changed$codes[[1]] == 1L]), patches_below = length(small)
  )
}

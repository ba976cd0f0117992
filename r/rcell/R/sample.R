# SPDX-License-Identifier: Apache-2.0 OR GPL-2.0-or-later
# Random cells of each class for a reference sample. A seed draws the same cells in every package.

ALLOCATIONS <- c("equal", "proportional")
# The largest sample: its product with a map's number of cells is exact as a double.
POINTS_LIMIT <- 1e6
# Random numbers use this many bits of a hash.
NUMBERS_OF_A_HASH <- 2^48

rcell_sample <- function(x, n, seed, allocation = "equal", labels = NULL, crs = NULL) {
  is_seed <- is_whole(seed) || (is.character(seed) && length(seed) == 1L && !is.na(seed))
  check_argument(is_seed, seed, "seed= must be a whole number or a string")
  check_numbers(n, allocation)
  sources <- sources_of(list(map = x), crs)
  labels <- labels_from(labels, sources$map)
  frame <- run_script(c("r.mapcalc row = row()", "r.stats -cn input=map,row"), sources)[[1]]
  classes <- unique(frame$codes[[1]])
  sizes <- summed(frame$cells, match(frame$codes[[1]], classes), length(classes))
  counts <- divided(n, allocation, classes, sizes)
  warn_of_few(classes, sizes, counts)
  seed <- if (is.character(seed)) enc2utf8(seed) else sprintf("%.0f", seed)
  # The positions (from 0) of the drawn cells among all cells, in the order of classes and rows.
  places <- unlist(Map(function(class, size, count, before) {
    before + drawn(paste(seed, class, sep = ":"), size, count)
  }, classes, sizes, counts, cumsum(sizes) - sizes))
  ends <- cumsum(as.numeric(frame$cells))
  starts <- ends - frame$cells
  entry <- findInterval(places, ends) + 1L
  class <- frame$codes[[1]][entry]
  row <- frame$codes[[2]][entry]
  col <- columns_of(sources$map, class, row, places - starts[entry])
  template <- template_of(sources$map)
  frame_of(c(list(point = seq_along(row)), coded("class", class, labels, "label"), list(
    row = row, col = col, x = xFromCol(template, col), y = yFromRow(template, row)
  )))
}

check_numbers <- function(n, allocation) {
  check_one_of(allocation, "allocation", ALLOCATIONS)
  by_class <- !is.null(names(n))
  has_classes <- if (by_class) all(grepl(WHOLE, names(n))) else length(n) == 1L
  is_right <- length(n) && are_whole(n, if (by_class) 0 else 1, POINTS_LIMIT) && has_classes
  rule <- paste(
    "n= must be a whole number from 1 to %.0f, or one for each class, for example",
    "c(\"11\" = 50, \"31\" = 100)"
  )
  check_argument(is_right, n, rule, POINTS_LIMIT)
  rule <- "allocation= must be left out if n= has a number for each class"
  check_argument(!by_class || allocation == ALLOCATIONS[[1]], allocation, rule)
}

# Return how many cells to draw from each class. `n` is a total, or a number for each class.
divided <- function(n, allocation, classes, sizes) {
  if (!is.null(names(n))) {
    codes <- as.numeric(names(n))
    lacking <- sort(setdiff(codes, classes))
    if (length(lacking)) {
      bad_argument("n= must name classes that occur in the map; got %.0f", lacking[[1]])
    }
    counts <- unname(n[match(classes, codes)])
    return(replace(counts, is.na(counts), 0))
  }
  parts <- if (allocation == "proportional") sizes else rep(1, length(sizes))
  whole <- max(sum(parts), 1)
  counts <- (n * parts) %/% whole
  fractions <- (n * parts) %% whole # the classes with the largest fractions get the rest
  more <- head(order(-fractions), n - sum(counts))
  counts[more] <- counts[more] + 1
  counts
}

warn_of_few <- function(classes, sizes, counts) {
  few <- which(sizes < counts)
  if (!length(few)) return(invisible())
  listed <- sprintf("%d (%.0f of %.0f)", classes[few], sizes[few], counts[few])
  warn("some classes have fewer cells than requested: %s", shortened(listed))
}

# Return the columns of cells that are identified by class, row, and position (from 0) among the
# cells of this class in the row.
columns_of <- function(source, class, row, place) {
  col <- integer(length(row))
  width <- source$region$cols
  rows_before <- 0
  each_block(source, function(cells) {
    last_row <- rows_before + length(cells) %/% width
    for (point in which(row > rows_before & row <= last_row)) {
      cells_of_row <- cells[(row[[point]] - rows_before - 1) * width + seq_len(width)]
      cols_of_class <- which(cells_of_row == class[[point]])
      col[[point]] <<- cols_of_class[[place[[point]] + 1]]
    }
    rows_before <<- last_row
  })
  col
}

# Draw distinct numbers from 0 to size - 1, in ascending order, using Floyd's algorithm with numbers
# computed from a key and a counter.
drawn <- function(key, size, count) {
  count <- min(count, size)
  if (count == 0) return(numeric())
  limits <- size - count + seq_len(count) # each draw is below its limit
  counter <- count
  values <- numbers_of(sprintf("%s:%d", key, seq_len(counter)))
  # Skip numbers from the largest multiple of the limit on, which would make some draws more likely.
  while (!all(is_fair <- values < NUMBERS_OF_A_HASH %/% limits * limits)) {
    counter <- counter + 1L
    values <- c(values[-match(FALSE, is_fair)], numbers_of(sprintf("%s:%d", key, counter)))
  }
  numbers <- new.env(size = count) # an environment finds a number by its name in constant time
  for (place in seq_len(count)) {
    number <- values[[place]] %% limits[[place]]
    is_drawn <- exists(sprintf("%.0f", number), numbers, inherits = FALSE)
    if (is_drawn) number <- limits[[place]] - 1
    assign(sprintf("%.0f", number), number, numbers)
  }
  sort(unlist(as.list(numbers), use.names = FALSE))
}

# Return the first 48 bits of each text's SHA-256 as a number, computed from two halves of 24 bits.
numbers_of <- function(texts) {
  hashes <- getVDigest("sha256")(enc2utf8(texts), serialize = FALSE)
  strtoi(substr(hashes, 1L, 6L), 16L) * 2^24 + strtoi(substr(hashes, 7L, 12L), 16L)
}

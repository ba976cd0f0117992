# SPDX-License-Identifier: Apache-2.0 OR GPL-2.0-or-later
# Read the cells of sources, block by block.

BLOCK_CELLS <- 131072L
EXACT_FLOAT <- 16777216
EXACT_TYPES <- c("INT1U", "INT2U", "INT2S")
# Values that often mean no data. If one fills most of a map's border, a warning names it.
USUAL_NODATA <- c(255L, -9999L, -32768L)

# Call a function with the cells of each block of rows, as whole numbers.
each_block <- function(source, use) {
  border <- border_of(source)
  if (!is.null(source$cells)) {
    cells <- whole_cells(source, source$cells, first_row = 1L)
    border$add(cells, first_row = 1L)
    border$check()
    return(use(cells))
  }
  raster <- source$raster
  is_exact <- is_exact_type(raster) && is.null(source$scale)
  is_float <- datatype(raster) %in% "FLT4S" && is.null(source$scale)
  layers <- c(list(raster), source$alpha)
  failed <- function(e) read_failed(source$name, "cannot open: %s", told(e))
  for (layer in layers) tryCatch(readStart(layer), error = failed)
  on.exit(for (layer in layers) readStop(layer))
  rows <- source$region$rows
  count <- max(1L, BLOCK_CELLS %/% source$region$cols)
  for (row in seq(1L, rows, by = count)) {
    cells <- read_block(source, row, min(count, rows - row + 1L))
    whole <- if (is_exact) as.integer(cells) else whole_cells(source, cells, row)
    if (is_float && any(abs(whole) > EXACT_FLOAT, na.rm = TRUE)) {
      warn_of_floats(source$name)
      is_float <- FALSE # warn only once
    }
    border$add(whole, row)
    use(whole)
  }
  border$check()
}

# Return functions that count values that often mean no data on a map's border, and warn about them.
border_of <- function(source) {
  region <- source$region
  counts <- integer(length(USUAL_NODATA))
  add <- function(cells, first_row) {
    cols <- region$cols
    rows <- length(cells) %/% cols
    starts <- (seq_len(rows) - 1L) * cols
    places <- c(starts + 1L, starts + cols) # the western and eastern edge
    if (first_row == 1L) places <- c(places, seq_len(cols))
    if (first_row + rows - 1L == region$rows) places <- c(places, starts[[rows]] + seq_len(cols))
    border <- cells[unique(places)]
    counts <<- counts + vapply(USUAL_NODATA, function(value) sum(border == value, na.rm = TRUE), 1L)
  }
  check <- function() {
    inner <- max(region$rows - 2, 0) * max(region$cols - 2, 0)
    value <- USUAL_NODATA[counts > (region$rows * region$cols - inner) / 2]
    if (!length(value) || isTRUE(source$state$is_warned)) return(invisible())
    if (!is.null(source$state)) source$state$is_warned <- TRUE
    text <- paste(
      "%s: %d fills more than half of the map's border: if it means no data, declare it,",
      "for example with terra::NAflag(x) <- %d"
    )
    warn(text, source$name, value, value)
  }
  list(add = add, check = check)
}

# Return all cells of a map, with each row of the map in a column.
all_cells <- function(source) {
  blocks <- list()
  each_block(source, function(cells) blocks[[length(blocks) + 1L]] <<- cells)
  cells <- unlist(blocks)
  dim(cells) <- c(source$region$cols, source$region$rows)
  cells
}

warn_of_floats <- function(name) {
  text <- "%s: 32-bit floats are not exact beyond 16777216, but the map contains larger values"
  warn(text, name)
}

# Return whether a raster is in a file whose data type contains only categories.
is_exact_type <- function(raster) {
  !inMemory(raster) && isTRUE(is.int(raster)) && isTRUE(datatype(raster) %in% EXACT_TYPES)
}

# Return the cells of a range of rows, with null for transparent cells. Broken parts of a file raise
# an error and are never null.
read_block <- function(source, row, count) {
  cells <- read_rows(source, source$raster, row, count)
  if (!is.null(source$alpha)) {
    alpha <- read_rows(source, source$alpha, row, count)
    # If 0 is the nodata value of the file, terra reads an alpha of 0 as NA.
    cells[alpha %in% 0 | (is.na(alpha) & any(source$alpha_null %in% 0))] <- NA
  }
  cells
}

read_rows <- function(source, raster, row, count) {
  failed <- function(e) {
    last <- row + count - 1L
    read_failed(source$name, "rows %d to %d cannot be read: %s", row, last, told(e))
  }
  tryCatch(readValues(raster, row, count), error = failed, warning = failed)
}

# Return the cells of a block as whole numbers, scaled and rounded on request. Raise an error about
# the first cell that is not a whole number.
whole_cells <- function(source, cells, first_row) {
  if (is.integer(cells) && is.null(source$scale)) return(cells)
  exact <- if (is.null(source$scale)) cells else round(cells * source$scale)
  whole <- suppressWarnings(as.integer(exact))
  # An infinite or large number became NA.
  is_wrong <- is.na(whole) != is.na(cells) | (!is.na(whole) & whole != exact)
  if (!any(is_wrong)) return(whole)
  place <- which(is_wrong)[[1]]
  cols <- source$region$cols
  row <- first_row + (place - 1L) %/% cols
  column <- (place - 1L) %% cols + 1L
  value <- cells[[place]]
  problem <- sprintf("the cell at row %d, column %d is %.15g", row, column, value)
  if (is.null(source$scale)) {
    beyond <- ", outside -2147483647 to 2147483647"
    reason <- if (abs(value) > CATEGORY_LIMIT) beyond else source$remedy
    text <- paste0("not a map of whole numbers: ", problem, reason)
  } else {
    text <- "scale= is too large: %s, and %.0f times that exceeds %.0f"
    text <- sprintf(text, problem, source$scale, CATEGORY_LIMIT)
  }
  bad_map(source$name, text, row = row, column = column, value = value)
}

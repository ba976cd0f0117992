# Helpers of the tests: random maps, errors of calls, and R in another process.

suppressMessages({
  library(terra)
  library(rcell)
})
terraOptions(progress = 0)
# Keep messages independent of an installed Python.
options(rcell.python = "")

# Return a map of classes with nulls: noise, or patches like land cover.
made_map <- function(rows, cols, classes, is_patchy = FALSE, seed = 1, cell = c(30, 30)) {
  set.seed(seed)
  cells <- sample(c(NA, seq_len(classes)), rows * cols, replace = TRUE, prob = c(0.05, rep(0.95 / classes, classes)))
  map <- rast(nrows = rows, ncols = cols, xmin = 500000, xmax = 500000 + cols * cell[[1]], ymin = 5400000,
    ymax = 5400000 + rows * cell[[2]], crs = "EPSG:32632", vals = cells)
  if (is_patchy) map <- aggregate_up(map, 5, rows, cols)
  map
}

# Enlarge each cell of the top left part to a block with `side` rows and columns.
aggregate_up <- function(map, side, rows, cols) {
  cells <- matrix(values(map, mat = FALSE), rows, cols, byrow = TRUE)
  cells <- cells[(seq_len(rows) - 1) %/% side + 1, (seq_len(cols) - 1) %/% side + 1]
  values(map) <- as.vector(t(cells))
  map
}

# Return a matrix with rows from north to south. terra returns null as NA or NaN; here it is NA.
as_rows <- function(map) {
  cells <- values(map, mat = FALSE)
  matrix(replace(cells, is.na(cells), NA), nrow(map), ncol(map), byrow = TRUE)
}

# Return the error of a call, or NULL.
refusal <- function(call) tryCatch({
  force(call)
  NULL
}, rcell_error = function(e) e)

# Run lines of code in a separate R process with the same libraries and extra environment variables.
run_apart <- function(room, lines, env = character(), command = character()) {
  file <- file.path(room, "run.R")
  libraries <- sprintf(".libPaths(%s)", paste(deparse(.libPaths()), collapse = ""))
  writeLines(c(libraries, "suppressMessages({library(terra); library(rcell)})", lines), file)
  words <- c(command, file.path(R.home("bin"), "Rscript"), file)
  processx::process$new(words[[1]], words[-1], env = if (length(env)) c("current", env), stdout = "|", stderr = "2>&1")
}

# Return the output of a process after it has ended.
said_by <- function(process) {
  process$wait(600000)
  process$read_all_output()
}

leftovers <- function() list.files(tempdir(), pattern = "^rcell-", all.files = TRUE)

# Return whether a raster has the reference system of a file.
same_crs_of <- function(map, path) identical(crs(map), crs(rast(path)))

# Return the surface area of an ellipsoid, given its major axis and inverse flattening.
surface <- function(major, inverse) {
  e2 <- (2 - 1 / inverse) / inverse
  2 * pi * major^2 * (1 + (1 - e2) * atanh(sqrt(e2)) / sqrt(e2))
}

# Find the patches of a map with a flood fill in plain R, numbered by their first cells.
flooded <- function(map, connectivity) {
  cells <- as_rows(map)
  found <- matrix(NA_integer_, nrow(cells), ncol(cells))
  steps <- expand.grid(row = -1:1, col = -1:1)
  steps <- steps[rowSums(abs(steps)) %in% (if (connectivity == 4) 1 else 1:2), ]
  number <- 0L
  for (first in seq_len(length(cells))) {
    row <- (first - 1) %/% ncol(cells) + 1
    col <- (first - 1) %% ncol(cells) + 1
    if (is.na(cells[row, col]) || !is.na(found[row, col])) next
    number <- number + 1L
    open <- list(c(row, col))
    found[row, col] <- number
    while (length(open)) {
      here <- open[[length(open)]]
      open[[length(open)]] <- NULL
      for (step in seq_len(nrow(steps))) {
        there <- here + unlist(steps[step, ])
        if (all(there >= 1 & there <= dim(cells)) && is.na(found[there[1], there[2]]) && cells[there[1], there[2]] %in% cells[row, col]) {
          found[there[1], there[2]] <- number
          open[[length(open) + 1L]] <- there
        }
      }
    }
  }
  found
}

# Time the R package and terra: processor time in nanoseconds per cell (user and system, including children). Both take
# turns in one run, and the smallest time of all rounds counts.
#
#     RCELL=bin/rcell Rscript bench/r.R [--short]      maps of 3000 x 3000 cells, or of 300 x 300
#
# The package rcell must be installed. Compare only figures in the same row.

suppressMessages({
  library(terra)
  library(rcell)
})
terraOptions(progress = 0)
SHORT <- "--short" %in% commandArgs(TRUE)
SIDE <- if (SHORT) 300L else 3000L
# terra's time for patches of noise grows with the square of the number of cells.
SMALL <- 200L
ROUNDS <- if (SHORT) 3L else 2L
CLASSES <- 15L
room <- tempfile("bench")
dir.create(room)

spent <- function() sum(proc.time()[c(1, 2, 4, 5)])

# Run each method in turn, and return the smallest time of each in nanoseconds per cell.
by_turns <- function(ways, cells) {
  least <- rep(Inf, length(ways))
  for (round in seq_len(ROUNDS)) for (place in seq_along(ways)) {
    before <- spent()
    ways[[place]]()
    least[[place]] <- min(least[[place]], (spent() - before) / cells * 1e9)
  }
  names(least) <- names(ways)
  least
}

# Print a table row: the task, and the nanoseconds of each method.
show <- function(title, least) cat(sprintf("| %s | %s |\n", title, paste(sprintf("%.0f", least), collapse = " | ")))

# Make a map of patches like land cover, or of noise. Of 100 cells, 3 are null.
made <- function(side, is_patchy, classes = CLASSES) {
  set.seed(1)
  block <- if (is_patchy) 12L else 1L
  few <- (side - 1L) %/% block + 1L
  cells <- matrix(sample.int(classes, few * few, TRUE), few)
  at <- (seq_len(side) - 1L) %/% block + 1L
  cells <- cells[at, at]
  cells[sample.int(side * side, side * side %/% 33L)] <- NA
  map <- rast(nrows = side, ncols = side, xmin = 500000, xmax = 500000 + 30 * side, ymin = 5400000, ymax = 5400000 + 30 * side,
    crs = "EPSG:32632")
  values(map) <- as.vector(cells)
  path <- file.path(room, sprintf("%s%d.tif", if (is_patchy) "patchy" else "noise", side))
  writeRaster(map, path, datatype = "INT2S", overwrite = TRUE)
  path
}

# Count pairs of classes with the fastest method in R.
pairs_of <- function(one, other) matrix(tabulate(one + CLASSES * (other - 1L), CLASSES^2), CLASSES)

cells_of <- function(path) matrix(values(rast(path), mat = FALSE), SIDE, byrow = TRUE)

adjacency_by_tabulate <- function(path) {
  cells <- cells_of(path)
  across <- pairs_of(cells[, -SIDE], cells[, -1])
  down <- pairs_of(cells[-SIDE, ], cells[-1, ])
  across + t(across) + down + t(down)
}

pair <- function(terras, ours, cells) by_turns(list(terra = terras, rcell = ours), cells)

calls <- function(path, other) {
  cells <- SIDE^2
  rules <- c("r.reclass input=x output=k", sprintf("%d = %d", seq_len(CLASSES), seq_len(CLASSES) %/% 4L), "end")
  from_to <- cbind(seq_len(CLASSES), seq_len(CLASSES) %/% 4L)
  show("counts (`freq`)", pair(function() freq(rast(path)), function() rcell_table("r.stats -c input=x", x = path), cells))
  show("new classes (`classify`)", pair(function() classify(rast(path), from_to), function() rcell_grid(rules, "k", x = path), cells))
  show("majority of nine (`focal`, modal)", pair(function() focal(rast(path), 3, "modal", na.rm = TRUE), function() rcell_majority(path, fill = TRUE), cells))
  show("cross table (`crosstab`)", pair(function() crosstab(c(rast(path), rast(other)), long = TRUE), function() rcell_cross(x = path, y = other), cells))
  show("cross table (`tabulate`)", pair(function() pairs_of(cells_of(path), cells_of(other)), function() rcell_cross(x = path, y = other), cells))
  show("adjacency (`tabulate`)", pair(function() adjacency_by_tabulate(path), function() rcell_adjacency(path), cells))
}

patchy_calls <- function(path) {
  cells <- SIDE^2
  show("patches of one class (`patches`)", pair(function() patches(rast(path) == 3, directions = 8, zeroAsNA = TRUE),
    function() rcell_patches(path, 8, classes = 3), cells))
  show("sizes of one class (`freq` of `patches`); of all, with perimeters", pair(function() freq(patches(rast(path) == 3, directions = 8, zeroAsNA = TRUE)),
    function() rcell_patches(path, 8), cells))
}

small_calls <- function(path) {
  of_each <- function() lapply(seq_len(CLASSES), function(class) patches(rast(path) == class, directions = 4, zeroAsNA = TRUE))
  perimeters <- function() perim(as.polygons(rcell_grid("r.clump input=x output=p", "p", x = path)))
  show(sprintf("patches of each class, %d x %d (`patches` of each)", SMALL, SMALL), pair(of_each, function() rcell_patches(path, 4), SMALL^2))
  show(sprintf("perimeters, %d x %d (`perim` of `as.polygons`)", SMALL, SMALL), pair(perimeters, function() rcell_patches(path, 4), SMALL^2))
}

cat(sprintf("R %s, terra %s; %d x %d cells; ns a cell of the processor\n", getRversion(), packageVersion("terra"), SIDE, SIDE))
patchy <- made(SIDE, TRUE)
noise <- made(SIDE, FALSE)
for (kind in c("patchy", "noise")) {
  cat(sprintf("\n| %s | terra | rcell |\n| --- | --- | --- |\n", if (kind == "patchy") "Patchy land cover" else "Noise"))
  path <- if (kind == "patchy") patchy else noise
  calls(path, if (kind == "patchy") noise else patchy)
  if (kind == "patchy") patchy_calls(path)
  small_calls(made(SMALL, kind == "patchy"))
}
unlink(room, recursive = TRUE)

# SPDX-License-Identifier: Apache-2.0 OR GPL-2.0-or-later
# Input maps: SpatRasters, paths, matrices and rcell grids become sources, which have a name, a
# region, a reference system, labels, the files that were opened, and a raster or cells.

HEADER_BYTES <- 65536L
CATEGORY_LIMIT <- 2147483647
EDGE <- "[+-]?(?=\\.?\\d)\\d{0,10}(?:\\.\\d{0,8})?"
COUNT <- "\\+?\\d{1,63}"
HEADER_LINE <- "^[ \t\r\n]*(north|south|east|west|rows|cols|null|type|multiplier):"
# The parameters of functions that accept maps by name.
PARAMETERS <- c(
  "area", "percent", "wide", "labels", "include_null", "filename", "overwrite", "crs", "maps"
)
# GDAL paths that are not local files.
ADDRESS <- "^/vsi|^[A-Za-z][A-Za-z0-9+.-]+:"

# Return the maps of a call by name, from `...` and `maps`.
named_maps <- function(dots, maps) {
  check_argument(is.list(maps), maps, "maps= must be a named list of maps")
  named <- c(maps, dots)
  if (!length(named) || is.null(names(named)) || any(!nzchar(names(named)))) {
    bad_argument("pass at least one map, and name every map, for example lc = \"landcover.tif\"")
  }
  twice <- names(named)[duplicated(names(named))]
  if (length(twice)) bad_argument("maps must have different names; got %s twice", twice[[1]])
  check_names(names(named))
  for (name in names(dots)) check_spelling(name, dots[[name]])
  named
}

# Reject a misspelt parameter: a name close to a parameter's whose value is not the path of a file.
check_spelling <- function(name, map) {
  near <- PARAMETERS[adist(name, PARAMETERS) <= 2L]
  if (!length(near) || !is_path(map) || is_address(map) || file.exists(native_path(map))) {
    return(invisible())
  }
  text <- "%s= is taken for a map, but there is no file %s: did you mean %s=?"
  bad_argument(text, name, map, near[[1]])
}

# Return maps by name as sources. `crs` is the reference system to assume for maps without one.
sources_of <- function(maps, crs = NULL) fitted_sources(Map(source_of, names(maps), maps), crs)

# Return sources by name, after checking that they have the same reference system and region.
fitted_sources <- function(sources, crs) {
  stated <- stated_crs(crs)
  sources <- lapply(sources, with_stated, stated)
  names(sources) <- names_of(sources)
  check_crs(sources, stated)
  check_regions(sources)
  sources
}

names_of <- function(sources) vapply(sources, function(source) source$name, "")

check_names <- function(names) {
  bad <- names[!is_name(names)]
  if (!length(bad)) return(invisible())
  plain <- substr(gsub("[^A-Za-z0-9_.]", "_", bad[[1]], useBytes = TRUE), 1L, 63L)
  better <- if (is_name(plain)) plain else paste0("m", plain)
  text <- paste0(
    "maps must have names of 1 to 64 letters, digits, _ and ., beginning with a letter or _; ",
    "got '%s': write %s"
  )
  bad_argument(text, bad[[1]], better)
}

source_of <- function(name, map) {
  if (inherits(map, "SpatRaster")) return(raster_source(name, map))
  if (is.character(map) && length(map) == 1L && !is.na(map)) {
    return(c(path_source(name, map), given = map))
  }
  # R would read the bits of integer64 values as doubles.
  if (inherits(map, "integer64")) {
    bad_map(name, "must not be of class integer64: convert it with matrix(as.integer(x), nrow(x))")
  }
  if (is.matrix(map) && (is.numeric(map) || is.logical(map))) return(matrix_source(name, map))
  text <- "must be a path, a SpatRaster or a matrix of numbers; got an object of class %s"
  bad_map(name, text, class(map)[[1]])
}

# Return a source with new cells on the grid of another source. `...` are further fields.
cells_source <- function(name, cells, source, crs, ...) {
  list(
    name = name, cells = cells, region = source$region, raster = template_of(source), crs = crs, ...
  )
}

# Return a matrix as a source: cells of side 1, bottom left corner at 0, 0, no reference system.
matrix_source <- function(name, map) {
  if (!length(map)) {
    bad_map(name, "a matrix must have at least one cell; got %d x %d", nrow(map), ncol(map))
  }
  raster <- rast(
    nrows = nrow(map), ncols = ncol(map), xmin = 0, xmax = ncol(map), ymin = 0, ymax = nrow(map),
    crs = ""
  )
  values(raster) <- as.vector(t(map)) # row by row
  raster_source(name, raster)
}

path_source <- function(name, path) {
  path <- native_path(path)
  is_file <- file.exists(path)
  if (!is_file && !is_address(path)) no_such_file(name, path)
  if (is_file && !dir.exists(path)) {
    if (file.access(path, 4L) != 0L) {
      read_failed(name, "cannot open: %s: Permission denied", path)
    }
    if (is_grid_of_rcell(path)) return(grid_source(name, path))
  }
  raster_source(name, open_raster(name, path), is_opened_here = TRUE)
}

is_address <- function(path) grepl(ADDRESS, path)

no_such_file <- function(name, path) {
  read_failed(name, "cannot open: %s: No such file or directory", path)
}

is_grid_of_rcell <- function(path) {
  file.exists(path) && !dir.exists(path) && grepl(HEADER_LINE, start_of(path), useBytes = TRUE)
}

# Return the first bytes of a file as a text, or an empty text if the file is binary.
start_of <- function(path) {
  start <- readBin(path, "raw", HEADER_BYTES)
  if (any(start == 0L)) "" else rawToChar(start)
}

# Read an rcell grid with the program, because GDAL would read the null text `*` as 0.
grid_source <- function(name, path) {
  region <- region_in(start_of(path))
  text <- function(write) write_text(write, name, path)
  grid <- list(name = "grid", region = region, text = text)
  program <- program_path()
  answer <- ask_pipe(program, run_request(list(grid), "r.out.ascii input=grid"))
  frame <- frames_of(answer, program, name, lines = character())[[1]]
  region$edges <- vapply(frame$edges, decimals_of, "", USE.NAMES = FALSE)
  sides <- ext(rev(as.numeric(region$edges))) # west, east, south, north
  list(
    name = name, files = normalizePath(path), region = region, crs = "",
    cells = as.integer(values(frame$raster, mat = FALSE)),
    raster = rast(nrows = region$rows, ncols = region$cols, extent = sides, crs = "")
  )
}

# Return the region in the first bytes of an rcell grid. If the region is invalid, return a region
# of one cell, because the program then reports the error in the header.
region_in <- function(start) {
  value <- function(key, form) {
    line <- sprintf("(?m)^[ \t\r]*%s:[ \t\r]*(%s)(?=\\s|$)", key, form)
    regmatches(start, regexec(line, start, perl = TRUE, useBytes = TRUE))[[1]][2]
  }
  edges <- vapply(EDGES, value, "", EDGE, USE.NAMES = FALSE)
  side <- as.numeric(edges)
  counts <- as.numeric(vapply(c("rows", "cols"), value, "", COUNT))
  is_valid <- side[[1]] > side[[2]] && side[[3]] > side[[4]] &&
    all(counts >= 1 & counts <= SIDE_LIMIT) && prod(counts) <= CELL_LIMIT
  if (!is_valid %in% TRUE) return(small_map("grid", NA)$region)
  list(edges = edges, rows = as.integer(counts[[1]]), cols = as.integer(counts[[2]]))
}

# Write the text of an rcell grid, which must keep its size while it is read.
write_text <- function(write, name, path) {
  size <- file.size(path)
  from <- file(path, "rb")
  on.exit(close(from))
  write(text_head("grid", size))
  left <- size
  while (left > 0) {
    piece <- readBin(from, "raw", min(left, PIECE_BYTES))
    if (!length(piece)) {
      text <- "read failed: %s was shortened from %.0f to %.0f bytes while it was read"
      read_failed(name, text, path, size, size - left)
    }
    write(piece)
    left <- left - length(piece)
  }
}

# Return a coordinate with eight decimals, as text, because a double has too few digits.
decimals_of <- function(text) {
  parts <- strsplit(text, ".", fixed = TRUE)[[1]]
  decimals <- if (length(parts) > 1L) parts[[2]] else ""
  paste0(parts[[1]], ".", decimals, strrep("0", DECIMALS - nchar(decimals)))
}

# Return labels by category. They are never sent to the program.
labels_of <- function(raster) {
  if (!is.factor(raster)) return(NULL)
  table <- levels(raster)[[1]]
  if (!is.data.frame(table) || NCOL(table) < 2L) return(NULL)
  labels <- utf8_of(as.character(table[[2]]))
  codes <- suppressWarnings(as.numeric(table[[1]]))
  is_kept <- is_category(codes) & !is.na(labels)
  list(codes = as.integer(codes[is_kept]), labels = labels[is_kept])
}

# Return the geometry of a source without cells, labels and colours.
template_of <- function(source) {
  region <- source$region
  rast(nrows = region$rows, ncols = region$cols, extent = ext(source$raster), crs = source$crs)
}

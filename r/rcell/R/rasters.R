# SPDX-License-Identifier: Apache-2.0 OR GPL-2.0-or-later
# terra rasters: facts that GDAL reports about their files, and checks for files that terra
# misreads.

# terra returns 64-bit cells as doubles, in which a null value beyond this limit equals other
# numbers.
INEXACT_FLOAT <- 2^53
COMPLEX_TYPES <- c("CInt16", "CInt32", "CFloat32", "CFloat64")
ROTATED <- "its transform is rotated: warp the map to a north-up grid first (terra: rectify)"

raster_source <- function(name, raster, is_opened_here = FALSE) {
  # S4 methods would wrap errors of their arguments in their own errors.
  force(raster)
  chosen <- opaque_layer(name, raster) # with the alpha layer and the facts of its file
  raster <- chosen$raster
  # terra assumes degrees for a map without a system if its edges are within 180 by 90.
  if (is_opened_here && isFALSE(chosen$facts$has_crs)) crs(raster) <- ""
  if (!hasValues(raster)) bad_map(name, "the raster has no values")
  scale_and_offset <- scoff(raster) # the only layer's row has its scale and offset
  if (any(scale_and_offset != c(1, 0))) {
    text <- paste(
      "its values are scaled: each cell times %g, plus %g;",
      "write them out as whole numbers first"
    )
    bad_map(name, text, scale_and_offset[[1]], scale_and_offset[[2]])
  }
  check_file(name, raster, chosen$facts, chosen$band)
  list(
    name = name, raster = raster, alpha = chosen$alpha, alpha_null = chosen$alpha_null,
    files = chosen$files, region = region_of(name, raster), labels = labels_of(raster),
    crs = crs(raster)
  )
}

# Return the only layer that is not an alpha band, its file's alpha band if there is one, and the
# facts that GDAL reports about the file.
opaque_layer <- function(name, raster) {
  bands <- sources(raster, bands = TRUE)
  paths <- unique(bands$source[nzchar(bands$source)])
  facts <- if (length(paths) == 1L) file_facts(paths)
  is_alpha <- if (is.null(facts)) rep(FALSE, nlyr(raster)) else bands$bands %in% facts$alpha
  layer <- if (nlyr(raster) > 1L && any(is_alpha)) which(!is_alpha) else seq_len(nlyr(raster))
  if (length(layer) != 1L) {
    bad_map(name, "has %d layers: choose one, for example x[[1]]", length(layer))
  }
  if (nlyr(raster) > 1L) raster <- raster[[layer]]
  opaque <- list(raster = raster, files = paths, facts = facts)
  if (is.null(facts)) return(opaque)
  opaque$band <- bands$bands[[layer]]
  if (!length(facts$alpha) || opaque$band %in% facts$alpha) return(opaque)
  alpha_band <- facts$alpha[[1]]
  alpha <- alpha_layer(raster, paths, alpha_band)
  # A TIFF has one nodata value for all bands, and terra treats an alpha of this value as NA.
  null <- null_text(facts$bands[[alpha_band]])
  c(opaque, list(alpha = alpha, alpha_null = suppressWarnings(as.numeric(null))))
}

alpha_layer <- function(raster, path, band) {
  alpha <- with_path(path, rast(path))[[band]]
  # terra's window() may have selected a part of the file.
  if (nrow(alpha) != nrow(raster) || ncol(alpha) != ncol(raster)) window(alpha) <- ext(raster)
  alpha
}

# Return GDAL's description of a file, line by line.
description_of <- function(path) {
  tryCatch(suppressWarnings(with_path(path, describe(path))), error = function(e) character())
}

# Return facts about a file that GDAL reports but terra does not, such as the lines about each band.
file_facts <- function(path) {
  loose_rows <- character() # GDAL's warning about rows of an attribute table that it does not read
  keep <- function(w) {
    if (startsWith(conditionMessage(w), "iRow")) loose_rows <<- conditionMessage(w)
    invokeRestart("muffleWarning")
  }
  describe_it <- function() withCallingHandlers(with_path(path, describe(path)), warning = keep)
  lines <- tryCatch(describe_it(), error = function(e) character())
  starts <- grep("^Band [0-9]+ ", lines)
  ends <- c(starts[-1], length(lines) + 1L) - 1L
  list(
    bands = Map(function(first, last) lines[first:last], starts, ends),
    alpha = which(grepl("ColorInterp=Alpha", lines[starts], fixed = TRUE)),
    has_crs = if (length(lines)) any(grepl("^Coordinate System is:", lines)) else NA,
    is_rotated = any(grepl("^GeoTransform =", lines)),
    has_points_alone = any(grepl("^GCP\\[", lines)) && !any(grepl("^Origin = ", lines)),
    loose_rows = loose_rows
  )
}

# Return files with their sidecars and, for virtual rasters, the files from which they read.
files_of <- function(paths) {
  known <- character()
  while (length(paths)) {
    known <- c(known, paths)
    paths <- setdiff(unlist(lapply(paths, files_in)), known)
  }
  known
}

# Return the files that GDAL opens for a path: the lines after `Files:` are indented.
files_in <- function(path) {
  lines <- description_of(path)
  first <- match(TRUE, startsWith(lines, "Files: "))
  if (is.na(first) || lines[[first]] == "Files: none associated") return(character())
  rest <- lines[-seq_len(first)]
  count <- match(FALSE, startsWith(rest, "       "), nomatch = length(rest) + 1L) - 1L
  trimws(c(sub("^Files: ", "", lines[[first]]), rest[seq_len(count)]))
}

# Reject rasters that terra would misread: rotated rasters, complex cells, null values that are not
# exact as doubles, masks next to the cells, and, before GDAL 3.7, signed bytes (-5 is read as 251).
check_file <- function(name, raster, facts, band) {
  if (is.null(facts)) return(invisible())
  # After reading the cells, GDAL would overwrite the file's table without these rows.
  if (length(facts$loose_rows)) {
    read_failed(name, "its attribute table cannot be read: %s", facts$loose_rows)
  }
  if (facts$is_rotated) bad_map(name, ROTATED)
  if (facts$has_points_alone) {
    bad_map(name, "has ground control points but no transform: warp it first")
  }
  lines <- if (band <= length(facts$bands)) facts$bands[[band]] else character()
  type <- sub("^.*Type=([A-Za-z0-9]+).*$", "\\1", lines[1])
  if (type %in% COMPLEX_TYPES) {
    bad_map(name, "not a map of whole numbers: its cells are of type %s", type)
  }
  if (type %in% c("Int64", "UInt64")) check_wide_null(name, lines)
  if (any(grepl("PIXELTYPE=SIGNEDBYTE", lines, fixed = TRUE)) && "INT1U" %in% datatype(raster)) {
    bad_map(name, paste(
      "its bytes are signed, but terra reads them as 0 to 255:",
      "first convert it to 16 bits per cell in another program"
    ))
  }
  has_mask <- grepl("Mask Flags:", lines, fixed = TRUE) & !grepl("ALPHA", lines, fixed = TRUE)
  if (any(has_mask)) {
    bad_map(name, paste(
      "has its own mask, but terra reads the cells beneath the mask:",
      "write it with a nodata value first"
    ))
  }
}

# Return the nodata value of a band as GDAL writes it.
null_text <- function(lines) {
  sub("^ *NoData Value=", "", grep("^ *NoData Value=", lines, value = TRUE))
}

check_wide_null <- function(name, lines) {
  text <- null_text(lines)
  value <- suppressWarnings(as.numeric(text))
  if (length(value) == 1L && !is.na(value) && abs(value) >= INEXACT_FLOAT) {
    reason <- paste(
      "its cells have 64 bits and its nodata value is %s,",
      "which terra cannot distinguish from other numbers: write it with 32 bits per cell first"
    )
    bad_map(name, reason, text)
  }
}

# Open a raster. Reject rotated rasters, which terra reads as if they were not rotated, with a
# warning.
open_raster <- function(name, path) {
  failed <- function(e) read_failed(name, "cannot open: %s: %s", path, told(e))
  withCallingHandlers(
    tryCatch(with_path(path, rast(path)), error = failed),
    warning = function(w) {
      if (grepl("rotated", conditionMessage(w), fixed = TRUE)) bad_map(name, ROTATED)
      if (grepl("GDAL error", conditionMessage(w), fixed = TRUE)) invokeRestart("muffleWarning")
    }
  )
}

# Return the message of a terra error without the function name.
told <- function(e) sub("^\\[[a-zA-Z]+\\] ", "", conditionMessage(e))

# SPDX-License-Identifier: Apache-2.0 OR GPL-2.0-or-later
# Coordinate reference systems: all maps of a call must have the same one.

# Two systems count as the same if their coordinates differ by at most this, in their units.
SAME_PLACE <- 1e-6
PLACES <- as.matrix(expand.grid(x = seq(-175, 175, by = 5), y = seq(-85, 85, by = 5)))

# Return the well-known text of the system stated with `crs=` for maps that have none, or "".
stated_crs <- function(crs) {
  if (is.null(crs)) return("")
  bad <- function(e) {
    given <- paste(format(crs), collapse = " ")
    bad_argument("crs= must be a coordinate reference system; got '%s'", given)
  }
  if (!is.character(crs) || length(crs) != 1L || is.na(crs) || !nzchar(crs)) bad()
  text <- tryCatch(crs(crs), error = bad, warning = bad)
  if (nzchar(text)) text else bad()
}

with_stated <- function(source, stated) {
  if (!nzchar(source$crs)) source$crs <- stated
  source$state <- new.env(parent = emptyenv()) # the warnings about the source
  source
}

# Check that all maps have the same system: the stated one, or the first one found.
check_crs <- function(sources, stated) {
  known <- Filter(function(source) nzchar(source$crs), sources)
  if (!length(known)) return(invisible())
  first <- list(name = sprintf("`%s`", known[[1]]$name), crs = known[[1]]$crs)
  if (nzchar(stated)) first <- list(name = "crs=", crs = stated)
  for (source in sources) {
    if (!nzchar(source$crs)) lacks_crs(source$name, first)
    if (!same_crs(source$crs, first$crs)) other_crs(source, first)
  }
}

lacks_crs <- function(name, first) {
  code <- crs_facts(first$crs)$code
  stated <- if (nzchar(code)) sprintf("\"%s\"", code) else ""
  text <- "it has no coordinate reference system, but %s has %s: state it with crs=%s"
  bad_map(name, text, first$name, crs_name(first$crs), stated, class = "rcell_other_crs")
}

other_crs <- function(source, first, tool = "gdalwarp") {
  code <- crs_facts(first$crs)$code
  other <- if (first$name == "crs=") "crs= is" else sprintf("%s has", first$name)
  command <- if (nzchar(code)) sprintf(" or %s -t_srs %s", tool, code) else ""
  text <- paste(
    "its coordinate reference system is %s, but %s %s:",
    "reproject one of them first, for example with terra::project%s"
  )
  name <- crs_name(source$crs)
  bad_map(source$name, text, name, other, crs_name(first$crs), command, class = "rcell_other_crs")
}

# Return the name of a system, its code (or ""), its PROJ string, and a raster that has the system.
crs_facts <- function(wkt) {
  raster <- rast(nrows = 1, ncols = 1, xmin = 0, xmax = 1, ymin = 0, ymax = 1)
  crs(raster, warn = FALSE) <- wkt
  known <- crs(raster, describe = TRUE)
  code <- paste(known$authority, known$code, sep = ":")
  proj <- sub(" +towgs84=0,0,0,0,0,0,0", "", crs(raster, proj = TRUE), fixed = TRUE)
  list(
    name = known$name, code = if (anyNA(c(known$authority, known$code))) "" else code,
    proj = proj, raster = raster
  )
}

crs_name <- function(wkt) {
  known <- crs_facts(wkt)
  name <- known$name
  if (is.na(name)) name <- title_in(wkt)
  if (name %in% c("", "unknown")) {
    name <- if (nzchar(known$proj)) known$proj else "a system without a name"
  }
  if (nzchar(known$code)) sprintf("%s (%s)", known$code, name) else name
}

# Return the name of a system: the first quoted text in its well-known text.
title_in <- function(wkt) {
  title <- regmatches(wkt, regexec("^[A-Za-z_]+ *[[(] *\"([^\"]*)\"", wkt))[[1]]
  if (length(title) == 2L) title[[2]] else ""
}

# Return whether two systems are the same, regardless of axis order: they have the same datum and
# ellipsoid, and PROJ returns the same coordinates for places all over the earth. (terra also
# considers systems equal if only their datum differs, and unequal if a method has two names.)
same_crs <- function(one, other) {
  if (identical(one, other)) return(TRUE)
  kinds <- vapply(c(one, other), kind_of_crs, "")
  if (kinds[[1]] != kinds[[2]]) return(FALSE)
  if (kinds[[1]] == "other") {
    grids <- lapply(c(one, other), function(wkt) crs_facts(wkt)$raster)
    return(isTRUE(compareGeom(grids[[1]], grids[[2]], stopOnError = FALSE)))
  }
  same_earth(one, other) && same_places(one, other)
}

same_earth <- function(one, other) {
  datums <- lapply(c(one, other), datum_of)
  if (!nzchar(datums[[1]]) || datums[[1]] != datums[[2]]) return(FALSE)
  shapes <- lapply(c(one, other), function(wkt) unlist(ellipsoid_of(wkt)))
  is_compound <- grepl("^(COMPOUNDCRS|COMPD_CS)", c(one, other))
  is_compound[[1]] == is_compound[[2]] && isTRUE(all.equal(shapes[[1]], shapes[[2]]))
}

# Return the datum name in a well-known text, normalised so that different spellings compare equal.
datum_of <- function(wkt) {
  form <- "(DATUM|ENSEMBLE|TRF)\\[\"([^\"]*)\""
  match <- regmatches(wkt, regexec(form, wkt))[[1]] # [[3]] is the name
  if (!length(match)) return("")
  tolower(gsub("^D_| ensemble$|[^A-Za-z0-9]", "", match[[3]]))
}

same_places <- function(one, other) {
  coordinates <- lapply(c(one, other), function(wkt) {
    failed <- function(e) matrix(NA_real_, nrow(PLACES), 2L)
    tryCatch(suppressWarnings(project(PLACES, "EPSG:4326", wkt)), error = failed)
  })
  apart <- abs(coordinates[[1]] - coordinates[[2]])
  is_known <- lapply(coordinates, is.finite)
  any(is_known[[1]]) && identical(is_known[[1]], is_known[[2]]) &&
    all(apart[is_known[[1]]] <= SAME_PLACE)
}

# Return the kind of a system: "degrees" for latitude and longitude, "projected", "none" without a
# system, or "other" for local, geocentric and vertical systems.
kind_of_crs <- function(wkt) {
  if (!nzchar(wkt)) return("none")
  flat <- gsub("[\r\n]+ *", "", wkt)
  # A bound or compound system has the kind of its first system.
  inner <- sub("^(BOUNDCRS\\[SOURCECRS\\[|(COMPOUNDCRS|COMPD_CS)\\[\"[^\"]*\", *)", "", flat)
  if (inner != flat) return(kind_of_crs(inner))
  if (grepl("^(DERIVED)?PROJ(ECTED)?(CRS|CS)\\[", flat)) return("projected")
  if (grepl("^GEOG(RAPHIC)?(CRS|CS)\\[", flat)) return("degrees")
  is_on_ellipsoid <- grepl("^GEOD(ETIC)?CRS\\[", flat) && grepl("CS\\[ellipsoidal", flat)
  if (is_on_ellipsoid) "degrees" else "other"
}

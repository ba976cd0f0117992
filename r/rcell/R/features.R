# SPDX-License-Identifier: Apache-2.0 OR GPL-2.0-or-later
# Read the features of a layer of polygons or points, with the values of one field.

LAYER_MARK <- "|layername="
# The roles of a layer: its name in messages, the required kind of features, the argument that names
# a field, and the fields that are read if the caller names none.
POLYGONS <- list(
  name = "zones", are = "polygons", kinds = c("POLYGON", "MULTIPOLYGON"), type = "wkbMultiPolygon",
  field = "zone_field"
)
POINTS <- list(
  name = "reference", are = "points", kinds = c("POINT", "MULTIPOINT"), type = "wkbMultiPoint",
  field = "field", usual_fields = c("class", "reference")
)
CURVED_KINDS <- c("CURVEPOLYGON", "MULTISURFACE")
# The maximum number of feature ranges in a query.
RANGES_OF_A_QUERY <- 200L
SIDECARS_OF_A_LAYER <- c(
  "shx", "dbf", "prj", "cpg", "sbn", "sbx", "qix", "qpj", "qmd", "shp.xml", "tab", "dat", "map",
  "id", "ind", "mif", "mid", "xsd", "gfs"
)

# A layer in GDAL's virtual format, in which features keep their numbers. It contains a single
# field, as text, because terra 1.7 reads missing whole numbers as 0 and long ones inexactly.
VIRTUAL_LAYER <- paste0(
  "<OGRVRTDataSource><OGRVRTLayer name=\"features\"><SrcDataSource>%s</SrcDataSource>",
  "<SrcLayer>%s</SrcLayer>%s</OGRVRTLayer></OGRVRTDataSource>"
)
FIELD_AS_TEXT <- "<Field name=\"content\" src=\"%s\" type=\"String\"/>"
GEOMETRY_AS <- "<GeometryType>%s</GeometryType>"
DATE_OF_GDAL <- "^([0-9]{4})/([0-9]{2})/([0-9]{2})( 00:00:00$)?"

# Return the features with a geometry and a value, and their numbers, or NULL if there is no layer.
features_of <- function(role, given, layer, field) {
  check_text(field, role$field)
  check_text(layer, "layer")
  if (inherits(given, "SpatVector")) {
    if (!is.null(layer)) {
      text <- "layer= must be left out if %s= is a SpatVector, which has only one layer"
      bad_argument(text, role$name)
    }
    return(features_of_vector(role, given, chosen_field(role, field, names(given))))
  }
  if (!is_path(given)) return(NULL)
  parts <- strsplit(native_path(given), LAYER_MARK, fixed = TRUE)[[1]]
  path <- parts[[1]]
  if (length(parts) > 1L) {
    if (!is.null(layer) && !identical(layer, parts[[2]])) {
      text <- "layer= is %s, but %s= names the layer %s: name only one layer"
      bad_argument(text, layer, role$name, parts[[2]])
    }
    layer <- parts[[2]]
  }
  if (!is_address(path) && !file.exists(path)) no_such_file(role$name, path)
  # Layers next to a raster are used only if the call names a layer or a field.
  is_named <- !is.null(layer) || !is.null(field)
  layers <- character()
  if (!is_grid_of_rcell(path) && (is_named || !is_raster(path))) layers <- layers_of(path)
  if (length(layers)) {
    return(features_of_layer(role, path, chosen_layer(role, path, layers, layer), field))
  }
  if (!is_grid_of_rcell(path) && !is_raster(path)) {
    read_failed(role$name, "cannot open: %s: it contains neither %s nor a raster", path, role$are)
  }
  if (is.null(layer)) return(NULL)
  bad_input(role$name, "no layer %s: %s is a raster", layer, path, status = 2L)
}

is_raster <- function(path) {
  opened <- tryCatch(suppressWarnings(with_path(path, rast(path))), error = function(e) NULL)
  !is.null(opened)
}

layers_of <- function(path) {
  layers <- tryCatch(
    suppressWarnings(with_path(path, vector_layers(path))),
    error = function(e) character()
  )
  utf8_of(layers)
}

# Return the requested layer, or the only one.
chosen_layer <- function(role, path, layers, layer) {
  if (!is.null(layer)) {
    if (layer %in% layers) return(layer)
    known <- known_names("layer", layers)
    bad_input(role$name, "no layer %s: %s", layer, known, status = 2L)
  }
  if (length(layers) == 1L) return(layers)
  bad_input(
    role$name, "has the layers %s: choose one, for example layer = \"%s\" or \"%s%s%s\"",
    paste(layers, collapse = ", "), layers[[1]], path, LAYER_MARK, layers[[1]], status = 2L
  )
}

# Return the named field, or the only usual one, or NULL if features need no field.
chosen_field <- function(role, field, known) {
  if (is.null(field)) {
    if (is.null(role$usual_fields)) return(NULL)
    usual <- intersect(role$usual_fields, known)
    if (length(usual) == 1L) return(usual)
    if (length(usual)) {
      text <- "has the fields %s: name one, for example field = \"%s\""
      bad_map(role$name, text, paste(usual, collapse = " and "), usual[[2]])
    }
    field <- paste(role$usual_fields, collapse = " or ") # for the error below
  }
  if (field %in% known) return(field)
  bad_map(role$name, "no field %s: %s", field, known_names("field", known), status = 2L)
}

# Read a layer with queries. `definition` has the field and the type of its virtual layer.
features_of_layer <- function(role, path, layer, field) {
  force(layer) # its errors are not errors of opening the file
  failed <- function(e) read_failed(role$name, "cannot open: %s: %s", path, told(e))
  ask <- function(query, definition = "", what = "attributes") {
    use <- function(file) vect(file, query = paste("SELECT", query), what = what)
    tryCatch(suppressWarnings(with_layer(path, layer, definition, use)), error = failed)
  }
  typed <- ask("* FROM features")
  field <- chosen_field(role, field, names(typed))
  # Without a field, keep any field, so that no field named FID hides the feature numbers.
  kept_field <- if (is.null(field)) head(names(typed), 1L) else field
  one_field <- if (length(kept_field)) sprintf(FIELD_AS_TEXT, xml_text(kept_field)) else ""
  features <- ask("FID AS id, OGR_GEOMETRY AS kind, OGR_GEOM_AREA AS size FROM features", one_field)
  if (!nrow(features)) bad_map(role$name, "the layer %s has no features", layer)
  is_kept <- nzchar(features$kind) & !is.na(features$kind)
  values <- NULL
  if (!is.null(field)) {
    known <- ask("FID AS id, content FROM features WHERE content IS NOT NULL", one_field)
    texts <- utf8_of(as.character(known$content))[match(features$id, known$id)]
    values <- field_values(typed[[field]], texts)
    is_kept <- is_kept & !is.na(values$texts)
  }
  check_kinds(role, features$id[is_kept], features$kind[is_kept])
  # terra crashes on empty geometries.
  if (any(is_kept & features$size == 0)) {
    flat <- ask("FID AS id, OGR_GEOM_WKT AS shape FROM features WHERE OGR_GEOM_AREA = 0", one_field)
    is_kept <- is_kept & !(features$id %in% flat$id[grepl("EMPTY$", flat$shape)])
  }
  ids <- features$id[is_kept]
  definition <- paste0(one_field, sprintf(GEOMETRY_AS, role$type))
  parts <- lapply(ranges_of_ids(ids), function(where) {
    ask(paste("FID AS id FROM features WHERE", where), definition, what = "")
  })
  shapes <- if (length(parts) == 1L) parts[[1]] else do.call(rbind, unname(parts))
  list(
    ids = ids, shapes = if (length(ids)) shapes[match(ids, shapes$id), ],
    values = picked(values, is_kept), count = nrow(features), crs = crs(shapes),
    files = files_of_layer(path)
  )
}

# Return SQL conditions that select features by number. Without numbers, they select nothing.
ranges_of_ids <- function(ids) {
  if (!length(ids)) return("FID < -1")
  ends <- which(c(diff(ids) != 1, TRUE)) # a range ends where the next number does not follow
  starts <- c(1L, ends[-length(ends)] + 1L)
  ranges <- sprintf("(FID >= %.0f AND FID <= %.0f)", ids[starts], ids[ends])
  vapply(chunks_of(ranges, RANGES_OF_A_QUERY), paste, "", collapse = " OR ")
}

with_layer <- function(path, layer, definition, use) {
  file <- tempfile("rcell-", fileext = ".vrt")
  on.exit(unlink(file))
  where <- if (is_address(path)) path else normalizePath(path)
  lines <- sprintf(VIRTUAL_LAYER, xml_text(where), xml_text(layer), definition)
  writeLines(enc2utf8(lines), file, useBytes = TRUE)
  with_path(path, use(file))
}

xml_text <- function(text) {
  # The ampersand must come first because the other entities contain it.
  entities <- c("&" = "&amp;", "<" = "&lt;", ">" = "&gt;", "\"" = "&quot;")
  for (letter in names(entities)) text <- gsub(letter, entities[[letter]], text, fixed = TRUE)
  text
}

check_crs_of_features <- function(role, features, source) {
  if (!nzchar(features$crs) || !nzchar(source$crs) || same_crs(features$crs, source$crs)) {
    return(invisible())
  }
  map <- list(name = sprintf("`%s`", source$name), crs = source$crs)
  other_crs(list(name = role$name, crs = features$crs), map, tool = "ogr2ogr")
}

check_kinds <- function(role, ids, kinds) {
  wrong <- which(!(kinds %in% role$kinds))
  if (!length(wrong)) return(invisible())
  kind <- kinds[[wrong[[1]]]]
  text <- "features must be %s, but feature %.0f is a %s"
  text <- sprintf(text, role$are, ids[[wrong[[1]]]], kind)
  if (kind %in% CURVED_KINDS) {
    text <- paste0(
      text, ", which terra does not read: convert the layer first, with ogr2ogr -nlt ",
      "CONVERT_TO_LINEAR"
    )
  }
  bad_map(role$name, text)
}

# Return the features of a SpatVector, numbered by row, with the values that terra has read.
features_of_vector <- function(role, vector, field) {
  kind <- geomtype(vector)
  is_kept <- has_geometry(vector)
  if (any(is_kept) && kind != role$are) {
    bad_map(role$name, "features must be %s; got %s", role$are, kind)
  }
  values <- NULL
  if (!is.null(field)) {
    column <- as.data.frame(vector)[[field]]
    check_zeros(role, vector, field, column)
    values <- field_values(column, utf8_of(as.character(column)))
    is_kept <- is_kept & !is.na(values$texts)
  }
  rows <- which(is_kept)
  files <- sub("::.*$", "", sources(vector))
  list(
    ids = rows, shapes = if (length(rows)) vector[rows, ], values = picked(values, is_kept),
    count = nrow(vector), crs = crs(vector),
    files = unlist(lapply(files[nzchar(files)], files_of_layer))
  )
}

# Reject a field with missing numbers, which terra 1.7 reads as 0. If the file is unknown, only
# warn.
check_zeros <- function(role, vector, field, column) {
  if (!is.integer(column) || is.factor(column) || !any(column == 0L, na.rm = TRUE)) {
    return(invisible())
  }
  missing <- count_missing(sources(vector), field)
  if (identical(missing, 0L)) return(invisible())
  feature <- which(column == 0L)[[1]]
  if (is.na(missing)) {
    text <- paste(
      "%s: the field %s of feature %d is 0, but terra reads missing numbers in files as 0: pass",
      "the path of the file, or use x$%s <- as.numeric(x$%s) if 0 is correct"
    )
    return(warn(text, role$name, field, feature, field, field))
  }
  text <- paste(
    "the field %s has %d missing numbers, which terra reads as 0:",
    "pass the path of the file instead: %s"
  )
  bad_map(role$name, text, field, missing, shown(sub("::", LAYER_MARK, sources(vector))))
}

# Count the features in a file that have no value in a field, or return NA if this is unknown.
count_missing <- function(source, field) {
  if (length(source) != 1L || !nzchar(source)) return(NA_integer_)
  parts <- strsplit(source, "::", fixed = TRUE)[[1]] # PATH::LAYER, or PATH
  path <- parts[[1]]
  layer <- if (length(parts) > 1L) parts[[2]] else layers_of(path)[[1]]
  definition <- sprintf(FIELD_AS_TEXT, xml_text(field))
  query <- "SELECT FID AS id FROM features WHERE content IS NULL"
  tryCatch(suppressWarnings(with_layer(path, layer, definition, function(file) {
    nrow(vect(file, query = query, what = "attributes"))
  })), error = function(e) NA_integer_)
}

has_geometry <- function(vector) {
  if (!nrow(vector)) return(logical())
  corners <- geom(vector) # `geom` is the row of a corner's feature
  seq_len(nrow(vector)) %in% corners[!is.na(corners[, "x"]), "geom"]
}

# Return a field's values as numbers, if it contains numbers, and as texts, from a `column` of terra
# and the `texts` of GDAL. Null, NaN and empty texts are missing (NA).
field_values <- function(column, texts) {
  if (is.double(column) && !inherits(column, c("Date", "POSIXct"))) {
    column[is.na(texts)] <- NA
    texts <- number_text(column)
    texts[is.na(column)] <- NA
    return(list(numbers = column, texts = texts))
  }
  if (is.integer(column) && !is.factor(column)) { # exact only as text
    return(list(numbers = as.numeric(texts), texts = texts))
  }
  if (is.logical(column)) {
    is_true <- texts %in% c("1", "TRUE")
    texts[!is.na(texts)] <- ifelse(is_true, "true", "false")[!is.na(texts)]
  }
  texts <- sub(DATE_OF_GDAL, "\\1-\\2-\\3", ifelse(nzchar(texts), texts, NA))
  list(numbers = rep(NA_real_, length(texts)), texts = texts)
}

picked <- function(values, is_kept) {
  if (!is.null(values)) lapply(values, function(part) part[is_kept])
}

# Return the shortest decimal that reads back as the same number. Whole numbers end in `.0`.
number_text <- function(numbers) {
  texts <- sprintf("%.15g", numbers)
  for (digits in 16:17) {
    is_inexact <- is.finite(numbers) & suppressWarnings(as.numeric(texts)) != numbers
    texts[is_inexact] <- sprintf("%.*g", digits, numbers[is_inexact])
  }
  has_only_digits <- grepl("^-?[0-9]+$", texts)
  texts[has_only_digits] <- paste0(texts[has_only_digits], ".0")
  texts
}

# Return a layer's file and the files that belong to it.
files_of_layer <- function(path) {
  if (is_address(path) || !file.exists(path)) return(path)
  if (dir.exists(path)) return(list.files(path, full.names = TRUE))
  folder <- dirname(path)
  name <- tools::file_path_sans_ext(basename(path))
  present <- list.files(folder, all.files = TRUE)
  logs_of_sqlite <- paste0(basename(path), c("-wal", "-shm", "-journal"))
  known <- c(paste0(name, ".", SIDECARS_OF_A_LAYER), logs_of_sqlite)
  c(path, file.path(folder, present[tolower(present) %in% tolower(known)]))
}

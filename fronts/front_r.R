# Run the table of cases with the R package. Print `case NAME`, and below it the lines of the result, each after a
# blank.

suppressMessages(library(rcell))
here <- normalizePath(Sys.getenv("RCELL_CASES"))
kinds <- c(rcell_other_crs = "other crs", rcell_other_region = "other region", rcell_read_failed = "read failed", rcell_bad_map = "bad map", rcell_refused = "refused")

# Return the lines of each key: the line after its colon, or the indented lines below it.
blocks_of <- function(path) {
  found <- list()
  key <- ""
  for (line in readLines(path, encoding = "UTF-8")) {
    if (startsWith(line, "  ") && nzchar(key)) {
      found[[key]] <- c(found[[key]], substring(line, 3))
    } else if (nzchar(line) && !startsWith(line, "#")) {
      key <- sub(":.*", "", line)
      value <- trimws(sub("^[^:]*:", "", line))
      found[key] <- list(if (nzchar(value)) value)
    }
  }
  found
}

digits <- 12

plain <- function(values) {
  text <- if (is.double(values)) sprintf(paste0("%.", digits, "g"), values) else as.character(values)
  ifelse(is.na(values), "*", text)
}

# The types of the columns of the last table.
types <- ""

of_table <- function(table) {
  types <<- types_of(table)
  c(paste(names(table), collapse = "|"), do.call(paste, c(unname(lapply(table, plain)), sep = "|")))
}

# Write a map over another raster, and return the table of the raster that is read back.
written <- function(case, name, maps) {
  room <- tempfile("written")
  dir.create(room)
  on.exit(unlink(room, recursive = TRUE))
  file.copy(list.files(file.path(here, "rasters"), paste0("^", case$over), full.names = TRUE), room)
  path <- file.path(room, case$over)
  rcell_grid(case$script, name, maps = maps, filename = path, overwrite = TRUE)
  of_table(rcell_table("r.stats -c -l input=x", x = path))
}

# A folder with copies of all inputs, for cases that may overwrite them.
scratch <- NULL
folder <- function() if (is.null(scratch)) file.path(here, "rasters") else scratch

path_of <- function(file) if (startsWith(file, "examples/")) file.path(dirname(here), file) else file.path(folder(), file)

of_grid <- function(grid) {
  force(grid)
  cells <- matrix(plain(as.integer(terra::values(grid, mat = FALSE))), terra::nrow(grid), byrow = TRUE)
  apply(cells, 1, paste, collapse = " ")
}

# Return the name of each layer, followed by its cells.
of_shares <- function(layers) {
  unlist(lapply(seq_len(terra::nlyr(layers)), function(number) {
    cells <- matrix(plain(terra::values(layers[[number]], mat = FALSE)), terra::nrow(layers), byrow = TRUE)
    c(names(layers)[[number]], apply(cells, 1, paste, collapse = " "))
  }))
}

# Calls that return maps, and the attributes with their counts.
map_calls <- c("majority", "align", "reclass", "clump", "sieve", "within", "aggregate")
accounts <- c(align = "aligned", sieve = "sieved")
# Calls that return several tables, and the table to show by default.
parts <- c(change = "table", accuracy = "classes", trajectories = "table")
flags <- c("include_null", "fill", "each", "drop")
texts <- c("zone_field", "field", "layer", "resample", "crs", "other", "level", "allocation", "seed")
files <- c("labels", "zone_labels", "rules", "areas")

# Parse numbers by class, for example `1:50`.
by_class <- function(words) {
  numbers <- as.numeric(sub(".*:", "", words))
  names(numbers) <- sub(":.*", "", words)
  numbers
}

# Return the parameters of a call by their names in the package.
options_of <- function(words, maps) {
  values <- sub("^[^=]*=", "", words)
  options <- Map(function(key, value) {
    if (key == "area") return(if (value == "none") NULL else value)
    if (key %in% c("zones", "to")) return(maps[[value]])
    if (key %in% files) return(if (value == "map") value else path_of(value))
    if (key %in% flags) return(value == "yes")
    if (key %in% texts) return(value)
    if (grepl(":", value)) return(by_class(strsplit(value, ",")[[1]]))
    as.numeric(strsplit(value, ",")[[1]])
  }, sub("=.*", "", words), values)
  options
}

# Run a call other than a script. Cases use the parameter names of the package.
answered <- function(kind, words, maps, out) {
  is_option <- grepl("=", words)
  is_part <- grepl("^(table|map)=", words)
  part <- sub("^[^=]*=", "", words[is_part])
  is_map <- any(startsWith(words, "map="))
  given <- maps[words[!is_option]]
  options <- options_of(words[is_option & !is_part], maps)
  if (!is.null(options$band)) given[[1]] <- terra::rast(given[[1]], lyrs = options$band)
  options["band"] <- NULL
  if (!is.null(out)) options <- c(options, list(filename = path_of(out), overwrite = TRUE))
  is_series <- kind == "trajectories" || (kind == "change" && length(given) > 2L)
  if (kind == "trajectories") options$include_maps <- is_map
  if (kind != "cross") given <- if (is_series) list(unname(given)) else unname(given)
  found <- do.call(paste0("rcell_", kind), c(given, options))
  if (!is.null(out)) return(paste("written:", path_of(out)))
  if (kind == "aggregate") return(if (is_map) of_shares(found[[-(1:2)]]) else of_grid(found[[1]]))
  if (kind == "trajectories" && is_map) return(of_grid(found$maps[[part]]))
  if (kind %in% map_calls) {
    account <- if (kind %in% names(accounts)) of_table(attr(found, accounts[[kind]]))
    return(c(account, of_grid(found)))
  }
  if (kind %in% names(parts)) {
    part <- c(part, parts[[kind]])[[1]]
    found <- if (part == "summary" && kind == "accuracy") as.data.frame(found[-(1:2)]) else found[[part]]
  }
  of_table(found)
}

types_of <- function(table) {
  paste(ifelse(vapply(table, is.integer, NA), "integer", ifelse(vapply(table, is.numeric, NA), "number", "text")), collapse = "|")
}

answer <- function(case) {
  words <- strsplit(case$call, " ")[[1]]
  files <- strsplit(strsplit(case$maps, " ")[[1]], "=")
  maps <- lapply(files, function(file) path_of(paste(file[-1], collapse = "=")))
  names(maps) <- vapply(files, `[[`, "", 1)
  if (words[[1]] == "table") {
    return(of_table(rcell_table(case$script, maps = maps, area = case$area, percent = !is.null(case$percent), crs = case$crs)))
  }
  if (words[[1]] == "write") return(written(case, words[[2]], maps))
  if (words[[1]] == "grid") return(of_grid(rcell_grid(case$script, words[[2]], maps = maps, crs = case$crs)))
  answered(words[[1]], words[-1], maps, case$out)
}

refusal <- function(e) {
  found <- list(kind = unname(kinds[class(e)[class(e) %in% names(kinds)][[1]]]), source = e$source, line = if (e$line > 0) e$line,
    row = e$row, column = e$column, text = strsplit(e$text, "\n")[[1]][[1]])
  found <- found[!vapply(found, function(value) is.null(value) || is.na(value), NA)]
  paste0(names(found), ": ", unlist(found))
}

# Return the result of a case, with types and warnings if the case checks them.
tried <- function(case) {
  told <- character()
  types <<- ""
  lines <- withCallingHandlers(
    tryCatch(answer(case), rcell_refused = refusal, error = function(e) paste("error:", gsub("\n", " ", conditionMessage(e)))),
    warning = function(w) {
      told <<- c(told, strsplit(conditionMessage(w), "\n")[[1]][[1]])
      invokeRestart("muffleWarning")
    })
  c(lines, if (!is.null(case$types)) paste("types:", types), if (!is.null(case$warned) && length(told)) paste("warned:", told))
}

# Run a case on copies of all inputs. Return its result and the names of changed copies.
tried_in_scratch <- function(case) {
  scratch <<- tempfile("cases")
  dir.create(scratch)
  on.exit({
    unlink(scratch, recursive = TRUE)
    scratch <<- NULL
  })
  file.copy(list.files(file.path(here, "rasters"), full.names = TRUE), scratch)
  names <- list.files(scratch)
  sums <- function() tools::md5sum(file.path(scratch, names))
  before <- sums()
  lines <- tried(case)
  c(lines, paste("changed:", names[!mapply(identical, before, sums())], recycle0 = TRUE))
}

for (path in sort(list.files(file.path(here, "cases"), "[.]case$", full.names = TRUE), method = "radix")) {
  case <- blocks_of(path)
  if ("without r" %in% names(case)) next
  digits <- if (is.null(case$digits)) 12 else as.integer(case$digits)
  lines <- if (is.null(case$out)) tried(case) else tried_in_scratch(case)
  writeLines(enc2utf8(c(paste("case", sub("[.]case$", "", basename(path))), paste0(" ", lines))), useBytes = TRUE)
}

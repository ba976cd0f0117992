# SPDX-License-Identifier: Apache-2.0 OR GPL-2.0-or-later
# Tables with a record of their inputs, which anyone can verify later.

RECORD_FORM <- 1
# Arguments that are never paths. Other texts are paths if such a file exists.
WORDS <- c(
  "area", "crs", "zone_field", "field", "layer", "level", "allocation", "other", "resample", "seed"
)
# Files that are not sent as cells, so a record contains the checksum of their bytes.
TEXT_FILES <- "[.](csv|tsv|qml)$"

# Holds a function that notes each run while a call is recorded.
recorder <- new.env(parent = emptyenv())

rcell_record <- function(.path, .call, ..., .table = NULL) {
  check_text(.table, ".table")
  is_csv <- is_path(.path) && grepl("[.]csv$", .path, ignore.case = TRUE)
  check_argument(is_csv, .path, ".path= must be a path that ends in .csv")
  check_filename(.path, overwrite = TRUE)
  folder <- normalizePath(dirname(native_path(.path)))
  arguments <- list(...)
  keys <- names(arguments)
  if (is.null(keys)) keys <- rep("", length(arguments))
  plain <- unname(Map(plain_argument, keys, arguments, folder))
  named <- plain[nzchar(keys)]
  names(named) <- keys[nzchar(keys)]
  call <- list(
    name = name_of_call(.call), words = plain[!nzchar(keys)],
    named = named[order(names(named))], part = .table
  )
  outcome <- recorded_call(call, arguments, part = .table)
  check_inputs(.path, c(outcome$files, legend_files_in(arguments)))
  record <- list(
    rcell_record = RECORD_FORM, call = call, runs = outcome$runs, program = sum_of(program_path()),
    versions = list(
      R = as.character(getRversion()), rcell = as.character(packageVersion("rcell")),
      terra = as.character(packageVersion("terra"))
    )
  )
  write_record(.path, outcome$text, record)
  invisible(outcome$result)
}

rcell_verify <- function(path) {
  kept_text <- utf8_text(native_path(path), "record")
  record <- record_of(path)
  call <- record$call
  folder <- normalizePath(dirname(native_path(path)))
  is_changed <- sum_of(native_path(path)) != record$table$sha256
  changes <- c(
    character(), if (is_changed) "the table has changed since it was written",
    other_files(list(call$words, call$named), folder)
  )
  if (sum_of(program_path()) != record$program) {
    text <- "the program has changed: it was rcell %s, and is now rcell %s"
    changes <- c(changes, sprintf(text, record$versions$rcell, packageVersion("rcell")))
  }
  arguments <- lapply(c(call$words, call$named), placed_argument, folder)
  outcome <- tryCatch(recorded_call(call, arguments, call$part), rcell_error = function(e) e)
  if (inherits(outcome, "rcell_error")) {
    reason <- strsplit(conditionMessage(outcome), "\n", fixed = TRUE)[[1]][[1]] # the first line
    return(c(changes, paste("the call fails:", reason)))
  }
  c(changes, other_runs(outcome$runs, record$runs), other_lines(kept_text, outcome$text))
}

# Return the record of a table that was recorded in R.
record_of <- function(path) {
  beside <- paste0(path, ".json")
  if (!file.exists(native_path(beside))) {
    text <- "%s has no record (%s): write it with rcell_record"
    bad_input("record", text, path, beside, status = 4L)
  }
  wrong <- function() {
    bad_input("record", "%s is not a record from this version of the R package", beside)
  }
  record <- list_of_json(utf8_text(native_path(beside), "record"), wrong)
  if (is.list(record) && is.list(record$versions) && !is.null(record$versions$python)) {
    text <- "%s was not recorded in R: verify it in Python or QGIS, or with rcell-gis verify %s"
    bad_input("record", text, path, path)
  }
  if (!is_record(record)) wrong()
  record
}

# Return whether a record is complete and its call is a function of this package.
is_record <- function(record) {
  if (!is.list(record) || !identical(record$rcell_record, RECORD_FORM)) return(FALSE)
  parts <- list(record$call, record$runs, record$table, record$versions)
  if (!all(vapply(parts, is.list, NA))) return(FALSE)
  texts <- list(record$program, record$table$sha256, record$versions$rcell, record$call$name)
  all(vapply(texts, is_path, NA)) && is.list(record$call$words) && is.list(record$call$named) &&
    record$call$name %in% getNamespaceExports("rcell")
}

name_of_call <- function(call) {
  names <- grep("^rcell_", getNamespaceExports("rcell"), value = TRUE)
  if (is.function(call)) {
    is_it <- vapply(names, function(name) identical(call, getExportedValue("rcell", name)), NA)
    names <- names[is_it]
    call <- "a function" # for the message
  } else if (is_path(call)) {
    names <- intersect(call, names)
  }
  rule <- ".call= must be a function of this package, for example rcell_composition"
  check_argument(length(names) > 0L, call, rule)
  names
}

# Run a call. Return its result, the text of its table, the runs of the program, and the files read.
recorded_call <- function(call, arguments, part) {
  program_path() # tests the program before runs are recorded
  runs <- list()
  files <- character()
  recorder$add <- function(sources, script) {
    maps <- lapply(sources, sum_of_cells)
    names(maps) <- names_of(sources)
    runs[[length(runs) + 1L]] <<- list(maps = maps, script = paste(script, collapse = "\n"))
    files <<- c(files, inputs_of(sources))
  }
  on.exit(recorder$add <- NULL)
  result <- do.call(getExportedValue("rcell", call$name), arguments)
  list(result = result, text = csv_of(table_in(result, part)), runs = runs, files = files)
}

# Return the table of a result that `part` names, or the first one.
table_in <- function(result, part) {
  tables <- if (is.data.frame(result)) list(table = result)
  if (is.list(result) && is.null(tables)) tables <- Filter(is.data.frame, result)
  if (!length(tables)) {
    bad_argument("the call must return a table; got a %s", class(result)[[1]])
  }
  if (identical(part, "summary") && is.null(tables$summary) && "kappa" %in% names(result)) {
    return(as.data.frame(result[setdiff(names(result), names(tables))])) # the single numbers
  }
  if (is.null(part)) return(tables[[1]])
  check_one_of(part, ".table", names(tables))
  tables[[part]]
}

# Return a table as CSV text. Numbers have the shortest form that reads back the same; missing
# values are empty.
csv_of <- function(table) {
  quoted <- function(texts) {
    needs_quotes <- grepl("[\",\r\n]", texts)
    texts[needs_quotes] <- sprintf("\"%s\"", gsub("\"", "\"\"", texts[needs_quotes], fixed = TRUE))
    texts
  }
  columns <- lapply(table, function(column) {
    texts <- as.character(column)
    if (is.double(column)) texts <- sub("[.]0$", "", number_text(column))
    ifelse(is.na(column), "", quoted(texts))
  })
  rows <- if (nrow(table)) do.call(paste, c(unname(columns), sep = ","))
  paste0(enc2utf8(c(paste(quoted(names(table)), collapse = ","), rows)), "\n", collapse = "")
}

# Write the table and its record, or neither of them.
write_record <- function(path, text, record) {
  target <- linked_path(native_path(path))
  room <- private_folder(dirname(target), path)
  on.exit(room$remove())
  main <- file.path(room$path, basename(target))
  write_file(main, function(write) write(charToRaw(text)))
  record$table <- list(name = basename(target), sha256 = sum_of(main))
  json <- charToRaw(paste0(enc2utf8(json_of(record)), "\n"))
  write_file(paste0(main, ".json"), function(write) write(json))
  replace_files(room$path, target, path)
}

# Sums

# Return the SHA-256 of a file.
sum_of <- function(path) {
  failed <- function(e) read_failed("record", "cannot open: %s", path)
  tryCatch(digest(path, "sha256", file = TRUE), error = failed)
}

# Return the checksum of a map's region and of its cells as 32-bit integers, independent of the
# file's type. Python computes the same checksum.
sum_of_cells <- function(source) {
  folder <- new_folder()
  on.exit(unlink(folder, recursive = TRUE))
  region <- source$region
  head <- paste0(paste(c(short_edge(region$edges), region$rows, region$cols), collapse = " "), "\n")
  path <- file.path(folder, "cells")
  write_file(path, function(write) {
    write(charToRaw(head))
    each_block(source, write)
  })
  sum_of(path)
}

# Arguments

# Return an argument in the form stored in records. Paths become relative to a folder.
plain_argument <- function(name, value, folder) {
  if (is.character(value) && length(value) == 1L && is.null(names(value))) {
    return(plain_text(name, value, folder))
  }
  if (is.null(value)) return(NULL)
  if (!(is.numeric(value) || is.logical(value) || is.character(value) || is.list(value)) ||
    is.object(value) || !is.null(dim(value))) {
    text <- "arguments must be paths, numbers or strings to be recorded; got an object of class %s"
    bad_argument(text, class(value)[[1]])
  }
  if (is.null(names(value)) && !is.list(value) && length(value) == 1L) return(value)
  parts <- unname(lapply(as.list(value), function(part) plain_argument(name, part, folder)))
  if (is.null(names(value))) return(parts)
  list(items = unname(Map(list, names(value), parts))) # pairs, because JSON would sort the names
}

plain_text <- function(name, text, folder) {
  file <- sub("[|].*$", "", native_path(text)) # without |layername=
  if (name %in% WORDS || !file.exists(file) || dir.exists(file)) return(text)
  rest <- substring(native_path(text), nchar(file) + 1L)
  argument <- list(path = paste0(relative_path(normalizePath(file), folder), rest))
  if (grepl(TEXT_FILES, file, ignore.case = TRUE)) argument$sha256 <- sum_of(file)
  argument
}

relative_path <- function(path, folder) {
  parts <- strsplit(path, "/", fixed = TRUE)[[1]]
  folders <- strsplit(folder, "/", fixed = TRUE)[[1]]
  common <- seq_len(min(length(parts), length(folders)))
  shared <- sum(cumprod(parts[common] == folders[common])) # before the first difference
  up <- rep("..", length(folders) - shared)
  paste(c(up, parts[-seq_len(shared)]), collapse = "/")
}

# Return an argument from its form in a record (see `plain_argument`).
placed_argument <- function(argument, folder) {
  if (!is.list(argument)) return(argument)
  if (!is.null(argument$path)) return(file.path(folder, argument$path))
  pairs <- argument$items # of a name and a value
  items <- if (is.null(pairs)) argument else lapply(pairs, `[[`, 2L)
  values <- lapply(items, placed_argument, folder)
  if (!is.null(pairs)) names(values) <- vapply(pairs, `[[`, "", 1L)
  # Paths are lists in a record, so several paths form a list of maps.
  is_plain <- !vapply(items, is.list, NA)
  kinds <- unique(vapply(values, typeof, ""))
  if (all(is_plain) && length(kinds) == 1L) unlist(values) else values
}

legend_files_in <- function(arguments) {
  texts <- unlist(Filter(is.character, arguments))
  Filter(function(path) file.exists(path) && !dir.exists(path), as.character(texts))
}

# Differences

# Return texts for the text files that have changed, in a stored argument or a list of arguments.
other_files <- function(argument, folder) {
  if (!is.list(argument)) return(NULL)
  if (is.null(argument$sha256)) return(unlist(lapply(unname(argument), other_files, folder)))
  path <- file.path(folder, argument$path)
  if (file.exists(path) && sum_of(path) != argument$sha256) sprintf("%s has changed", argument$path)
}

other_runs <- function(runs, recorded_runs) {
  places <- seq_len(min(length(runs), length(recorded_runs)))
  maps <- unlist(lapply(places, function(place) {
    sums <- runs[[place]]$maps
    recorded_sums <- recorded_runs[[place]]$maps
    names <- names(recorded_sums)
    is_same <- vapply(names, function(name) identical(sums[[name]], recorded_sums[[name]]), NA)
    names[!is_same]
  }))
  scripts <- lapply(runs, `[[`, "script")
  recorded_scripts <- lapply(recorded_runs, `[[`, "script")
  c(
    if (length(maps)) sprintf("the cells of %s differ", unique(maps)),
    if (!identical(scripts, recorded_scripts)) "the scripts differ: the call ran different lines"
  )
}

# Return a text about the first line in which a table differs from its call's current result, and
# the number of other lines that differ.
other_lines <- function(kept_text, current_text) {
  if (identical(kept_text, current_text)) return(NULL)
  kept <- strsplit(kept_text, "\n", fixed = TRUE)[[1]]
  current <- strsplit(current_text, "\n", fixed = TRUE)[[1]]
  common <- seq_len(min(length(kept), length(current)))
  different <- which(kept[common] != current[common])
  if (!length(different)) {
    text <- "the table has %d lines, but the call returns %d"
    return(sprintf(text, length(kept), length(current)))
  }
  first <- different[[1]]
  rest <- length(different) - 1L
  more <- if (rest) sprintf(" and in %d more %s", rest, if (rest == 1L) "line" else "lines") else ""
  text <- "the table differs in line %d%s: `%s`, but the call returns `%s`"
  sprintf(text, first, more, kept[[first]], current[[first]])
}

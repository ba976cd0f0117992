# SPDX-License-Identifier: Apache-2.0 OR GPL-2.0-or-later
# Read text files, and the rows of CSV and TSV files.

BYTE_ORDER_MARK <- as.raw(c(0xef, 0xbb, 0xbf))
# A field of separated values, with or without quotation marks, and its separator or line end.
FIELD_FORM <- paste0(
  "\\G(?:[ ]*\"((?:[^\"]++|\"\")*+)\"[ ]*|([^%s\"\r\n][^%s\r\n]*|))(%s|\r\n|\r|\n|\\z)"
)

# Return the text of a file, which must be UTF-8.
utf8_text <- function(path, name) {
  if (!file.exists(path)) no_such_file(name, path)
  if (dir.exists(path)) read_failed(name, "cannot open: %s: Is a directory", path)
  failed <- function(e) read_failed(name, "cannot open: %s: Permission denied", path)
  bytes <- tryCatch(suppressWarnings(readBin(path, "raw", file.size(path))), error = failed)
  if (identical(head(bytes, 3L), BYTE_ORDER_MARK)) bytes <- bytes[-(1:3)]
  null <- match(as.raw(0L), bytes)
  if (!is.na(null)) {
    line <- sum(bytes[seq_len(null)] == as.raw(10L)) + 1L
    reason <- "%s, line %d contains a null byte, so this is not text: save the file as UTF-8"
    bad_input(name, reason, path, line)
  }
  text <- rawToChar(bytes)
  if (!validUTF8(text)) {
    lines <- strsplit(text, "\n", fixed = TRUE, useBytes = TRUE)[[1]]
    reason <- paste(
      "%s, line %d is not UTF-8: save the file as UTF-8, in a spreadsheet as \"CSV UTF-8\",",
      "or convert it with iconv -f latin1 -t utf8"
    )
    bad_input(name, reason, path, which(!validUTF8(lines))[[1]])
  }
  Encoding(text) <- "UTF-8"
  if (!grepl("[^ \t\r\n]", text)) bad_input(name, "%s is empty", path)
  text
}

# Remove blanks at both ends. No-break spaces stay.
trimmed <- function(texts) gsub("^[ \t\r\n]+|[ \t\r\n]+$", "", utf8_of(texts))

# Return consecutive matches of a regular expression in a text, with the bytes at which they begin,
# the first byte after the last one, and their groups.
parts_of <- function(text, form) {
  # Treat the text as bytes, because R would count letters from its beginning for each match.
  Encoding(text) <- "latin1"
  places <- gregexpr(form, text, perl = TRUE, useBytes = TRUE)[[1]]
  cut <- function(starts, ends) {
    parts <- substring(text, starts, ends - 1L)
    Encoding(parts) <- "UTF-8"
    parts
  }
  starts <- attr(places, "capture.start") # a matrix of matches by groups
  ends <- starts + attr(places, "capture.length")
  groups <- lapply(seq_len(NCOL(starts)), function(group) cut(starts[, group], ends[, group]))
  ends <- places + attr(places, "match.length")
  list(
    places = as.integer(places), texts = cut(places, ends), groups = groups, end = max(ends, 1L)
  )
}

# Return the line numbers of byte positions in a text.
lines_at <- function(text, places) {
  breaks <- gregexpr("\r\n|\r|\n", text, useBytes = TRUE)[[1]]
  findInterval(places, breaks[breaks > 0L] + 1L) + 1L
}

# Return the rows of a CSV file, or of a TSV file if its first line contains tabs but no commas,
# with the lines on which they begin. Blank lines are skipped.
separated_values <- function(path, name) {
  text <- utf8_text(path, name)
  first <- sub("[\r\n].*$", "", sub("^[ \r\n]+", "", text))
  separator <- if (grepl("\t", first) && !grepl(",", first)) "\t" else ","
  fields <- parts_of(text, sprintf(FIELD_FORM, separator, separator, separator))
  if (fields$end <= nchar(text, "bytes")) {
    line <- lines_at(text, fields$end)
    bad_input(name, "%s, line %d: a quotation mark is not closed", path, line)
  }
  # The groups of a field are its text with quotation marks, or without, and the separator or end.
  names(fields$groups) <- c("quoted", "plain", "end")
  quoted <- gsub("\"\"", "\"", fields$groups$quoted, fixed = TRUE)
  content <- paste0(quoted, fields$groups$plain)
  ends <- fields$groups$end
  row <- cumsum(c(TRUE, ends[-length(ends)] != separator)) # after the end of a line
  rows <- unname(split(content, row))
  is_blank <- vapply(rows, function(row) !any(nzchar(trimmed(row))), NA)
  lines <- lines_at(text, fields$places[!duplicated(row)])
  list(rows = rows[!is_blank], lines = lines[!is_blank], first = first)
}

# Return columns of a CSV or TSV file or a data frame, as texts. Titles may be in any case and
# order. `name` is the argument that names the table, for messages, and `places` names its rows.
table_of_columns <- function(given, name, needed, optional = character()) {
  columns_of <- if (is.data.frame(given)) frame_columns else file_columns
  table <- columns_of(given, name, needed)
  columns <- lapply(c(needed, optional), function(title) {
    place <- which(table$titles == title)
    if (length(place) > 1L) bad_input(name, "has two columns named %s", title)
    if (length(place)) table$column(place)
  })
  names(columns) <- c(needed, optional)
  list(columns = Filter(Negate(is.null), columns), places = table$places)
}

# Return the columns of a table (see `table_of_columns`), or of a named vector, whose names are the
# first column and whose values are the second one. Return NULL for anything else.
columns_given <- function(given, name, needed, optional = character()) {
  if (is_path(given) || is.data.frame(given)) {
    return(table_of_columns(given, name, needed, optional))
  }
  is_vector <- is.atomic(given) || is.list(given)
  if (!is_vector || !length(given) || is.null(names(given))) return(NULL)
  bad <- match(TRUE, lengths(given) != 1L)
  if (!is.na(bad)) {
    text <- "each class must have one value; got %d for %s"
    bad_input(name, text, lengths(given)[[bad]], names(given)[[bad]], status = 2L)
  }
  columns <- list(names(given), vapply(given, as.character, "", USE.NAMES = FALSE))
  names(columns) <- needed
  list(columns = columns, places = sprintf("element %d: ", seq_along(given)))
}

# Reject the first row that breaks a rule, with its place and its problem.
check_rows <- function(is_right, places, problems, name) {
  bad <- match(FALSE, is_right %in% TRUE)
  if (!is.na(bad)) bad_input(name, "%s%s", places[[bad]], problems[[bad]])
}

quoted_if_empty <- function(texts) ifelse(is.na(texts) | !nzchar(texts), "\"\"", texts)

file_columns <- function(path, name, needed) {
  path <- native_path(path)
  table <- separated_values(path, name)
  titles <- tolower(trimmed(table$rows[[1]]))
  if (!all(needed %in% titles)) {
    text <- "%s, line %d: the header must contain %s, separated by commas or tabs; got %s"
    listed <- paste(needed, collapse = " and ")
    bad_input(name, text, path, table$lines[[1]], listed, table$first)
  }
  rows <- table$rows[-1]
  places <- sprintf("%s, line %d: ", path, table$lines[-1])
  if (!length(rows)) bad_input(name, "%s has no values below its header", path)
  check_widths(rows, length(titles), places, name)
  column <- function(place) {
    trimmed(vapply(rows, function(row) if (length(row) < place) "" else row[[place]], ""))
  }
  list(titles = titles, column = column, places = places)
}

frame_columns <- function(frame, name, needed) {
  titles <- tolower(names(frame))
  if (!all(needed %in% titles)) {
    text <- "a data frame must have the columns %s; got %s"
    listed <- paste(needed, collapse = " and ")
    bad_input(name, text, listed, paste(names(frame), collapse = ", "), status = 2L)
  }
  column <- function(place) as.character(frame[[place]])
  list(titles = titles, column = column, places = sprintf("row %d: ", seq_len(nrow(frame))))
}

# Check that no label was split at a comma, which makes a row wider than the header.
check_widths <- function(rows, width, places, name) {
  is_right <- vapply(rows, function(row) {
    length(row) <= width || !any(nzchar(trimmed(row[-seq_len(width)])))
  }, NA)
  text <- "%d fields, but the header has %d: put labels that contain commas in quotes"
  check_rows(is_right, places, sprintf(text, lengths(rows), width), name)
}

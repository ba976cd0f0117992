# SPDX-License-Identifier: Apache-2.0 OR GPL-2.0-or-later
# Errors: conditions, each with its own class.

# An error shows only SHOWN characters of a script line longer than LONGEST_SHOWN.
LONGEST_SHOWN <- 300L
SHOWN <- 100L

# Stop with an error of the given class and fields.
signal <- function(class, message, ...) {
  fields <- list(message = message, call = NULL, ...)
  stop(structure(fields, class = c(class, "rcell_error", "error", "condition")))
}

# Print the message of an error on a new line, so that the mark is below its column.
print.rcell_error <- function(x, ...) {
  cat(sprintf("<%s>\n%s\n", class(x)[[1]], conditionMessage(x)))
  invisible(x)
}

# Reject a map, a script or a request. `content` is the text of the script's line, `bad` the wrong
# word with its column, and `advice` a correction.
refuse <- function(text, source = "arguments", line = 0L, status = 1L, content = NULL, class = NULL,
                   bad = NULL, advice = "") {
  column <- if (is.null(bad)) column_in(text) else bad$column
  place <- if (line > 0L) sprintf("%s, line %d", source, line) else source
  message <- paste0(place, ": ", text, if (!is.null(bad)) paste0(": ", bad$word))
  if (!is.null(content)) {
    message <- paste(c(message, lines_of_error(content, column)), collapse = "\n  ")
  }
  if (nzchar(advice)) {
    message <- paste0(message, "\n  try: ", gsub("\n", "\n       ", advice, fixed = TRUE))
  }
  signal(
    c(class, "rcell_refused"), message, source = source, line = line, column = column, text = text,
    status = status, content = content
  )
}

# Fill the placeholders of a text, if it has any.
filled <- function(text, ...) if (...length()) sprintf(text, ...) else text

bad_argument <- function(text, ...) refuse(filled(text, ...), status = 2L)

# Reject a legend, a table or a record.
bad_input <- function(source, text, ..., status = 1L) {
  refuse(filled(text, ...), source, status = status)
}

warn <- function(text, ...) warning(filled(text, ...), call. = FALSE)

# List the known names for a message about an unknown name.
known_names <- function(noun, names) {
  if (!length(names)) return(sprintf("there are no %ss", noun))
  if (length(names) == 1L) return(sprintf("the only %s is %s", noun, names))
  sprintf("the %ss are %s", noun, paste(names, collapse = ", "))
}

# Return the column that a program message names, in bytes from 1, or NA.
column_in <- function(text) {
  column <- regmatches(text, regexec(" at column ([0-9]+)$", text))[[1]]
  if (length(column) == 2L) as.integer(column[[2]]) else NA_integer_
}

# Return a script line and, if a column is given (in bytes, from 1), a line with a mark under it.
# Tabs before the mark stay tabs. Long lines are cut to the part around the column.
lines_of_error <- function(content, column) {
  bytes <- charToRaw(content)
  # A letter starts at each byte that is not a continuation byte of UTF-8.
  starts <- unique(c(1L, which(bitwAnd(as.integer(bytes), 0xC0L) != 0x80L)))
  from <- 1L
  if (length(bytes) > LONGEST_SHOWN) {
    ends <- c(starts[-1] - 1L, length(bytes))
    from <- min(starts[starts >= max(1L, column - SHOWN %/% 3L, na.rm = TRUE)])
    to <- max(from, ends[ends < from + SHOWN])
    part <- rawToChar(bytes[from:to])
    Encoding(part) <- Encoding(content)
    content <- paste0(if (from > 1L) "..", part, if (to < length(bytes)) "..")
  }
  if (is.na(column)) return(content)
  before <- bytes[starts[starts >= from & starts < column]]
  blanks <- paste(ifelse(before == charToRaw("\t"), "\t", " "), collapse = "")
  c(content, paste0(if (from > 1L) "  ", blanks, "^")) # two blanks below the dots
}

# Reject a map that contains decimals or has no regular grid. `row` and `column` locate the first
# wrong cell, from 1 at the top left.
bad_map <- function(name, text, ..., row = NA_integer_, column = NA_integer_, value = NA_real_,
                    class = NULL, status = 1L) {
  text <- filled(text, ...)
  signal(
    c(class, "rcell_bad_map", "rcell_refused"), paste0(name, ": ", text), name = name, row = row,
    column = column, value = value, source = name, line = 0L, text = text, status = status
  )
}

# Report a file that cannot be opened, or that is broken in part.
read_failed <- function(name, text, ...) {
  bad_map(name, text, ..., class = "rcell_read_failed", status = 4L)
}

# Format an argument for a message.
shown <- function(x) {
  if (is.null(x)) return("NULL")
  if (!is.atomic(x)) return(paste("a", class(x)[[1]]))
  if (!length(x)) return(sprintf("%s()", class(x)[[1]]))
  shortened(if (is.character(x)) sprintf("\"%s\"", x) else format(x, trim = TRUE, digits = 15))
}

# List the first few items for a message.
shortened <- function(items, most = 5L) {
  rest <- length(items) - most
  paste0(paste(head(items, most), collapse = ", "), if (rest > 0L) sprintf(" and %d more", rest))
}

are_between <- function(x, low = -Inf, high = Inf) {
  is.numeric(x) && all(is.finite(x) & x >= low & x <= high)
}

are_whole <- function(x, ...) are_between(x, ...) && all(x == trunc(x))

is_whole <- function(x, ...) length(x) == 1L && are_whole(x, ...)

# Return whether each number can be the category of a cell.
is_category <- function(x) !is.na(x) & x == trunc(x) & abs(x) <= CATEGORY_LIMIT

# Reject an argument that breaks a rule; `...` fills the rule's placeholders.
check_argument <- function(is_right, value, rule, ...) {
  if (is_right) return(invisible())
  bad_argument(paste0(rule, "; got %s"), ..., shown(value))
}

check_whole_number <- function(value, name, low, high = Inf) {
  range <- sprintf(", at least %.0f", low)
  if (high < Inf) range <- sprintf(" from %.0f to %.0f", low, high)
  check_argument(is_whole(value, low, high), value, "%s= must be a whole number%s", name, range)
}

check_flag <- function(flag, name) {
  check_argument(isTRUE(flag) || isFALSE(flag), flag, "%s= must be TRUE or FALSE", name)
}

check_one_of <- function(choice, name, known) {
  is_known <- is.character(choice) && length(choice) == 1L && choice %in% known
  check_argument(is_known, choice, "%s= must be one of %s", name, paste(known, collapse = ", "))
}

check_text <- function(text, name) {
  is_text <- is.character(text) && length(text) == 1L && isTRUE(nzchar(text))
  check_argument(is.null(text) || is_text, text, "%s= must be a single string", name)
}

# Report a file that could not be written completely. No part of it is left.
write_failed <- function(path, text, ...) {
  message <- sprintf("%s cannot be written: %s", path, filled(text, ...))
  signal("rcell_write_failed", message, path = path)
}

# Report that a signal killed the program.
killed <- function(number) {
  name <- switch(as.character(number),
    "4" = " (SIGILL)", "9" = " (SIGKILL)", "15" = " (SIGTERM)", "")
  cause <- switch(as.character(number),
    "4" = "the processor does not support x86-64-v2, which the program requires",
    "9" = "memory ran out, or someone ended the program", "someone ended the program")
  text <- sprintf("the program was killed by signal %d%s: %s", number, name, cause)
  signal("rcell_killed", text, signal = number)
}

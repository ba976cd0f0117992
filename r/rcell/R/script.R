# SPDX-License-Identifier: Apache-2.0 OR GPL-2.0-or-later
# Plan a script: the program reports its statements before any map is opened.

MAPS_LIMIT <- 16L
NAME <- "[A-Za-z_][A-Za-z0-9_.]{0,63}"

is_name <- function(words) grepl(paste0("^", NAME, "$"), words, useBytes = TRUE)

# Return texts as UTF-8. In the C locale, R does not recognise non-ASCII letters and would print
# their bytes.
utf8_of <- function(text) {
  if (is_ascii_locale()) Encoding(text)[Encoding(text) == "unknown" & validUTF8(text)] <- "UTF-8"
  enc2utf8(text)
}

is_ascii_locale <- function() Sys.getlocale("LC_CTYPE") %in% c("C", "POSIX")

# Return the lines of a script, which may be one text or a vector of lines.
lines_of <- function(script) {
  if (!is.character(script) || anyNA(script)) {
    bad_input("script", "must be a character vector without NA; got %s", shown(script))
  }
  text <- paste(utf8_of(script), collapse = "\n")
  lines <- strsplit(text, "\n", fixed = TRUE, useBytes = TRUE)[[1]]
  if (length(lines)) lines else ""
}

# Return a script that the program accepts for maps with these names: its lines, outputs, the names
# of the maps that it makes (`made`), and their labels.
accepted <- function(script, names) {
  lines <- lines_of(script)
  path <- program_path()
  statements <- frames_of(ask_pipe(path, plan_request(names, lines)), path, names, lines)
  makers <- Filter(function(statement) nzchar(statement$made), statements)
  made <- vapply(makers, `[[`, "", "made")
  labels <- lapply(makers, `[[`, "labels")
  names(labels) <- made
  outputs <- Filter(function(statement) statement$is_output, statements)
  list(program = path, lines = lines, outputs = outputs, made = made, labels = labels)
}

is_grid <- function(output) output$command == "r.out.ascii"

# Return the lines to send for an accepted script, with only the requested outputs. Lines keep their
# numbers, and an r.out.ascii for each wanted map follows the last line. Tables are sent without -l,
# because this package joins labels, a column at a time.
sent_script <- function(script, outputs, wanted) {
  lines <- script$lines
  for (output in script$outputs) lines[[output$line]] <- ""
  for (output in outputs) lines[[output$line]] <- statement_of(output)
  c(lines, sprintf("r.out.ascii input=%s", wanted))
}

# Return the statement of an output without labels.
statement_of <- function(output) {
  flags <- setdiff(output$flags, "l")
  after <- paste(ifelse(is.na(output$after), "*", output$after), collapse = ",")
  words <- c(
    output$command, if (length(flags)) paste0("-", paste(flags, collapse = "")),
    paste0("input=", paste(output$maps, collapse = ",")), if (nzchar(after)) paste0("after=", after)
  )
  paste(words, collapse = " ")
}

chunks_of <- function(items, size) split(items, (seq_along(items) - 1L) %/% size)

# Return lines that make a map from terms, joined with a separator and inserted into a form. If an
# expression cannot contain all terms, parts of them are combined first.
combined_lines <- function(map, form, terms, separator, limit) {
  if (length(terms) <= limit) {
    return(sprintf("r.mapcalc %s = %s", map, sprintf(form, paste(terms, collapse = separator))))
  }
  chunks <- chunks_of(terms, limit)
  parts <- sprintf("%s_%d", map, seq_along(chunks))
  lines <- unlist(Map(combined_lines, parts, form, chunks, separator, limit), use.names = FALSE)
  c(lines, combined_lines(map, form, parts, separator, limit))
}

unused_name <- function(name, lines, names) {
  while (any(grepl(name, c(lines, names), fixed = TRUE, useBytes = TRUE))) name <- paste0(name, "_")
  name
}

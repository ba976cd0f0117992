# Check that R files have lines of at most 100 columns and one statement per line; print lines that do not.
COLUMNS <- 100L
is_right <- TRUE
for (path in commandArgs(TRUE)) {
  wide <- which(nchar(readLines(path, encoding = "UTF-8")) > COLUMNS)
  parts <- getParseData(parse(path, keep.source = TRUE, encoding = "UTF-8"))
  several <- parts$line1[parts$token == "';'"]
  for (line in c(wide, several)) cat(path, ":", line, ": over 100 columns, or several statements\n", sep = "")
  is_right <- is_right && !length(c(wide, several))
}
quit(status = if (is_right) 0L else 1L)

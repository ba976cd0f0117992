# SPDX-License-Identifier: Apache-2.0 OR GPL-2.0-or-later
# Advice on rejected scripts: the wrong word of a line, and a correction. It is computed by the
# Python package's code, which is bundled here or installed in Python. Without Python there is no
# advice.

ADVICE_SECONDS <- 30
ADVICE_CODE <- "
import sys
code, program, path, line, text, *names = sys.argv[1:]
sys.path[:0] = [code] if code else []
from rcell.core.hints import advice
with open(path, 'rb') as script:
    column, found = advice(program, script.read(), names, int(line), text)
sys.stdout.buffer.write(('%d\\n%s' % (column or 0, found or '')).encode())
"

# Return a list: `bad` is the wrong word with its column (in bytes, from 1), or NULL, and `text` is
# the advice, which may be empty.
advice_on <- function(program, lines, line, text, names) {
  nothing <- list(bad = NULL, text = "")
  python <- getOption("rcell.python", Sys.which("python3")[[1]])
  if (!nzchar(python)) return(nothing)
  path <- tempfile("rcell-")
  on.exit(unlink(path))
  # A failure to get advice must not hide the message.
  tryCatch({
    writeLines(lines, path, useBytes = TRUE)
    words <- c(
      "-B", "-c", ADVICE_CODE, system.file("python", package = "rcell"), program, path, line,
      text, names
    )
    printed <- run(python, words, timeout = ADVICE_SECONDS)$stdout # column (or 0), line end, advice
    Encoding(printed) <- "UTF-8"
    column <- as.integer(sub("\n.*", "", printed))
    bad <- if (column > 0L) list(word = word_at(lines[[line]], column), column = column)
    list(bad = bad, text = sub("^[0-9]+\n", "", printed))
  }, error = function(e) nothing)
}

# Return the word that begins at a column of a line.
word_at <- function(line, column) {
  bytes <- charToRaw(line)
  word <- sub("[ \t\r].*", "", rawToChar(bytes[column:length(bytes)]), useBytes = TRUE)
  Encoding(word) <- "UTF-8"
  word
}

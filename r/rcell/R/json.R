# SPDX-License-Identifier: Apache-2.0 OR GPL-2.0-or-later
# JSON, the format of records.

JSON_TOKEN <- paste0(
  "\\G[ \t\r\n]*(\"(?:[^\"\\\\]|\\\\[\"\\\\/bfnrt]|\\\\u[0-9a-fA-F]{4})*\"|",
  "-?[0-9]+(?:[.][0-9]+)?(?:[eE][+-]?[0-9]+)?|true|false|null|[][{}:,])[ \t\r\n]*"
)
TOKENS_OF_R <- c(
  "{" = "list(", "[" = "list(", "}" = ")", "]" = ")", ":" = "=", "," = ",", "null" = "NULL",
  "true" = "TRUE", "false" = "FALSE"
)

# The backslash must come first because the other escapes contain it.
ESCAPES <- c("\\" = "\\\\", "\"" = "\\\"", "\t" = "\\t", "\r" = "\\r", "\n" = "\\n")

# Return a list as JSON. Names become keys, in alphabetical order; a single value is not an array.
json_of <- function(value, indent = "") {
  if (is.null(value)) return("null")
  if (is.character(value) && length(value) == 1L) return(json_text(value))
  if (is.logical(value) && length(value) == 1L) return(if (value) "true" else "false")
  if (is.numeric(value) && length(value) == 1L) return(sub("[.]0$", "", number_text(value)))
  keys <- names(value)
  ends <- if (is.null(keys)) c("[", "]") else c("{", "}")
  if (!length(value)) return(paste(ends, collapse = ""))
  inner <- paste0(indent, " ")
  if (!is.null(keys)) value <- value[order(keys, method = "radix")]
  parts <- vapply(as.list(value), json_of, "", inner)
  if (!is.null(keys)) parts <- paste0(json_text(names(value)), ": ", parts)
  lines <- paste0("\n", inner, parts, collapse = ",")
  paste0(ends[[1]], lines, "\n", indent, ends[[2]])
}

json_text <- function(text) {
  for (place in seq_along(ESCAPES)) {
    text <- gsub(names(ESCAPES)[[place]], ESCAPES[[place]], text, fixed = TRUE)
  }
  paste0("\"", text, "\"")
}

# Parse JSON into a list. JSON tokens are valid R except for punctuation and null, true and false.
list_of_json <- function(text, wrong) {
  tokens <- parts_of(text, JSON_TOKEN)
  if (tokens$end <= nchar(text, "bytes")) wrong()
  words <- tokens$groups[[1]] # the only group of JSON_TOKEN is the token without blanks
  is_text <- startsWith(words, "\"") # R does not accept the escape `\/`
  words[is_text] <- gsub("\\/", "/", words[is_text], fixed = TRUE)
  is_known <- words %in% names(TOKENS_OF_R)
  words[is_known] <- TOKENS_OF_R[words[is_known]]
  code <- tryCatch(str2expression(paste(words, collapse = " ")), error = function(e) wrong())
  if (length(code) != 1L) wrong()
  tryCatch(eval(code[[1]], baseenv()), error = function(e) wrong())
}

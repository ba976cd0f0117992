# Run each ```r block of a document, in the folder of the example rasters and in one environment, and compare the output
# with the lines `#>` below each part. With --write, rewrite these lines. The last line is 'N passed, M failed'.
#
#     Rscript r/check_docs.R DOCUMENT [--write]

arguments <- commandArgs(TRUE)
document <- normalizePath(arguments[[1]])
writes <- "--write" %in% arguments
lines <- readLines(document, encoding = "UTF-8")
room <- tempfile("docs")
dir.create(room)
copied <- file.copy(list.files("examples/rasters", full.names = TRUE), room)
setwd(room)
options(width = 110L, digits = 7L)
Sys.setenv(LANGUAGE = "en")
# Keep messages independent of an installed Python.
options(rcell.python = "")
suppressMessages(library(terra))
terraOptions(progress = 0)
world <- new.env(parent = globalenv())

# Return what a session would print for lines of code.
shown <- function(code) {
  out <- character()
  for (expression in parse(text = code, keep.source = FALSE)) {
    out <- c(out, utils::capture.output(tryCatch(
      {
        value <- withVisible(withCallingHandlers(eval(expression, world),
          warning = function(w) { cat("Warning: ", conditionMessage(w), "\n", sep = ""); invokeRestart("muffleWarning") },
          message = function(m) { cat(conditionMessage(m)); invokeRestart("muffleMessage") }))
        if (value$visible) print(value$value)
      },
      error = function(e) cat("Error: ", conditionMessage(e), "\n", sep = ""))))
  }
  sub(" +$", "", out)
}

passed <- 0L
failed <- 0L
result <- character()
code <- character()
expected <- character()
is_inside <- FALSE

# Compare the part that has ended.
finish <- function() {
  if (!length(code)) return(invisible())
  found <- shown(code)
  if (identical(found, expected)) {
    passed <<- passed + 1L
  } else {
    failed <<- failed + 1L
    if (!writes) cat("docs: ", code, "  expected:", paste("   ", expected), "  found:", paste("   ", found), sep = "\n")
  }
  result <<- c(result, code, if (length(found)) sub(" +$", "", paste("#>", found)))
  code <<- character()
  expected <<- character()
}

for (line in lines) {
  is_output <- is_inside && startsWith(line, "#>")
  if (is_output) {
    expected <- c(expected, sub("^#> ?", "", line))
    next
  }
  if (is_inside && (length(expected) || line == "```")) finish()
  if (is_inside && line != "```") code <- c(code, line) else result <- c(result, line)
  if (line == "```r") is_inside <- TRUE else if (line == "```") is_inside <- FALSE
}
if (writes) writeLines(result, document, useBytes = TRUE)
cat(passed, " passed, ", failed, " failed\n", sep = "")
quit(status = if (failed && !writes) 1L else 0L)

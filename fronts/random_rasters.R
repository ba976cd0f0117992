# Read lines that each list the maps of a call. Print for each a line and the cells of its maps in turn (see
# random_rasters.py).

suppressMessages(library(rcell))
options(warn = -1)

answer <- function(words) {
  paths <- words[-(1:3)]
  names(paths) <- sprintf("m%d", seq_along(paths) - 1L)
  again <- sprintf("m%s", words[[3]])
  script <- c(sprintf("r.stats -1 input=%s", paste(names(paths), collapse = ",")), sprintf("r.out.ascii input=%s", again))
  found <- rcell_run(script, maps = as.list(paths))
  names <- terra::levels(found[[2]])[[1]]
  told <- if (is.data.frame(names)) sprintf("\"%d\": \"%s\"", as.integer(names[[1]]), names[[2]]) else character()
  cells <- as.integer(c(unlist(found[[1]], use.names = FALSE), terra::values(found[[2]])))
  list(head = sprintf("cells %d {%s}", 4L * length(cells), paste(told, collapse = ", ")), cells = cells)
}

lines <- file("stdin", "r")
out <- pipe("cat", "wb")
while (length(line <- readLines(lines, 1L))) {
  found <- tryCatch(answer(strsplit(line, "\t", fixed = TRUE)[[1]]), error = function(e) {
    list(head = gsub("[\t\n]", " ", conditionMessage(e)), cells = integer())
  })
  writeBin(charToRaw(paste0(found$head, "\n")), out)
  writeBin(found$cells, out)
  flush(out)
}

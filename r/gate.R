# Run the tests of the gate. The last line is 'N passed, M failed'.
folder <- commandArgs(TRUE)[[1]]
failed <- 0L
passed <- 0L
for (name in paste0("test_", c("tables", "answers", "zones", "legends", "systems", "classes", "refusals", "files", "edges", "writing", "reference", "metrics", "merging", "peers", "records"), ".R")) {
  results <- tryCatch(tinytest::run_test_file(file.path(folder, name), verbose = 0L), error = function(e) {
    cat("r: ", name, ": ", conditionMessage(e), "\n", sep = "")
    NULL
  })
  if (is.null(results)) {
    failed <- failed + 1L
    next
  }
  is_right <- vapply(results, isTRUE, NA)
  for (result in results[!is_right]) cat(format(result, type = "long"), "\n")
  passed <- passed + sum(is_right)
  failed <- failed + sum(!is_right)
}
cat(passed, " passed, ", failed, " failed\n", sep = "")
quit(status = if (failed) 1L else 0L)

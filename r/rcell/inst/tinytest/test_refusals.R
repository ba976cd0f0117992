source("helpers.R")

lc <- made_map(3, 4, 3)

# Messages of the program are shown with the caller's line and a mark below it.
found <- refusal(rcell_run("# a note\nr.stats -c input=lc\nr.mapcalc x = lc + 1.5\nr.out.ascii input=x", lc = lc))
expect_identical(class(found), c("rcell_refused", "rcell_error", "error", "condition"))
expect_identical(found[c("source", "line", "column", "text", "status")],
  list(source = "script", line = 3L, column = 20L, text = "number not whole at column 20", status = 1L))
expect_identical(conditionMessage(found),
  "script, line 3: number not whole at column 20\n  r.mapcalc x = lc + 1.5\n                     ^")
expect_identical(capture.output(print(found)),
  c("<rcell_refused>", "script, line 3: number not whole at column 20", "  r.mapcalc x = lc + 1.5", "                     ^"))
expect_identical(refusal(rcell_run("r.stats -c input=lc\nr.stats -c input=lend\nr.stats input=lc", lc = lc))$line, 2L)
expect_identical(refusal(rcell_run("r.stats -q input=lc", lc = lc))$text, "bad option")
tabs <- refusal(rcell_run("r.mapcalc\tx = \u00fc", lc = lc))
expect_identical(tabs$column, 15L)
expect_true(endsWith(conditionMessage(tabs), "\n           \t    ^"))

# Long lines are cut to the part around the column.
long_line <- refusal(rcell_run(paste0("r.stats -c input=lc ", strrep("x", 2^19)), lc = lc))
expect_identical(long_line$text, "line too long")
expect_true(nchar(conditionMessage(long_line)) < 200)
marked <- refusal(rcell_run(paste0("r.mapcalc x = ", strrep("lc + ", 400), "1.5 * \u00fc"), lc = lc))
shown <- strsplit(conditionMessage(marked), "\n")[[1]]
expect_identical(shown[1:2], c(sprintf("script, line 1: number not whole at column %d", marked$column), "  .. + lc + lc + lc + lc + lc + lc + 1.5 * \u00fc"))
expect_identical(regexpr("^", shown[[3]], fixed = TRUE)[[1]], regexpr("1.5", shown[[2]], fixed = TRUE)[[1]])
# Scripts may contain invalid UTF-8 in comments.
expect_identical(as_rows(rcell_grid(rawToChar(as.raw(c(0x23, 0xed, 0xa0, 0x80))), "lc", lc = lc)), as_rows(lc))

# A script that ends within rules is rejected, even if the package appends lines for wanted maps.
expect_identical(refusal(rcell_run("r.stats input=lc\nr.reclass input=lc output=k\n1 = 1", lc = lc))[c("line", "text")],
  list(line = 2L, text = "missing end"))
expect_identical(refusal(rcell_grid("r.reclass input=lc output=k\n1 = 1", "k", lc = lc))$text, "missing end")
expect_identical(refusal(rcell_run("r.reclass input=lc output=k\n1 = 1\nr.stats input=k", lc = lc))$line, 3L)

# Map names.
expect_identical(refusal(rcell_run("r.stats input=lc"))$status, 2L)
expect_identical(refusal(rcell_run("r.stats input=lc", lc))$status, 2L)
expect_identical(refusal(rcell_run("r.stats input=lc", lc = lc, maps = list(lc = lc)))$text, "maps must have different names; got lc twice")
expect_identical(refusal(rcell_grid("", "lend", lc = lc))$text, "no map lend: the only map is lc")
expect_identical(refusal(rcell_run("r.stats input=lc", maps = list("land-use" = lc)))$source, "arguments")
expect_identical(refusal(rcell_run(NA, lc = lc))$text, "must be a character vector without NA; got NA")
expect_true(grepl("^must be a path, a SpatRaster", refusal(rcell_run("", lc = 1:3))$text))
expect_true(grepl("^must not be of class integer64", refusal(rcell_run("", lc = structure(matrix(0, 1, 2), class = "integer64")))$text))
expect_identical(refusal(rcell_patches(lc, 6))$text, "connectivity= must be 4 or 8; got 6")
expect_identical(refusal(rcell_patches(lc, classes = 3e9))$text, "classes= must be whole numbers from -2147483647 to 2147483647; got 3e+09")
expect_identical(refusal(rcell_patches(lc, min_cells = NA))$text, "min_cells= must be a whole number, at least 0; got NA")
expect_identical(refusal(rcell_majority(lc, filename = NA))$text, "filename= must be a single path; got NA")

# Paths that are not UTF-8 are rejected.
odd <- rawToChar(as.raw(c(0xff, utf8ToInt(".tif"))))
for (found in list(refusal(rcell_table("r.stats input=m", m = odd)), refusal(rcell_grid("", "lc", lc = lc, filename = odd)),
  refusal(rcell_composition(lc, labels = odd)), refusal(rcell_composition(lc, zones = odd)))) {
  expect_identical(found$text, "<ff>.tif: terra only accepts UTF-8 paths: rename the file")
}

# A script is rejected if it is too long, also with the line for a wanted map.
long <- paste(c(rep(paste0("#", strrep("x", 60000)), 17), "#", strrep("#", 28536)), collapse = "\n")
expect_identical(rcell_run(long, lc = lc), structure(list(), names = character()))
too_long <- list(source = "script", text = "script too long")
expect_identical(refusal(rcell_grid(long, "lc", lc = lc))[c("source", "text")], too_long)
expect_identical(refusal(rcell_run(paste0(long, strrep("x", 20)), lc = lc))[c("source", "text")], too_long)
# Required zones.
for (call in list(rcell_zonal, rcell_dominant)) {
  expect_identical(refusal(call(matrix(1:4, 2), NULL))$text, "zones= must be a map or polygons; got NULL")
}

expect_identical(leftovers(), character())

# R matches argument names partially, but maps may be called `s` or `n`, and a script cannot be passed by name.
expect_identical(rcell_table("r.stats -c input=s,n", s = lc, n = lc)$s, rcell_table("r.stats -c input=lc", lc = lc)$lc)
expect_identical(as_rows(rcell_grid("", "n", n = lc)), as_rows(lc))
expect_true(grepl("^pass the script as the first argument", refusal(rcell_run(script = "r.stats input=lc", lc = lc))$text))

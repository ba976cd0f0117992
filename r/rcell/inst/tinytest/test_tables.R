source("helpers.R")

lc <- rast(matrix(c(1, 1, 2, NA, 1, 2, 2, 2, 3, 3, 1, 1), 3, byrow = TRUE), extent = ext(0, 40, 0, 30), crs = "EPSG:32632")
zone <- rast(matrix(c(7, 7, 8, 8, 7, 7, 8, 8, NA, 7, 8, 8), 3, byrow = TRUE), extent = ext(0, 40, 0, 30), crs = "EPSG:32632")

# Counts, areas, percentages.
found <- rcell_table("r.stats -c input=lc", lc = lc)
expect_identical(found, data.frame(lc = c(1L, 2L, 3L, NA), cells = c(5L, 4L, 2L, 1L)))
expect_identical(rcell_table("r.stats -c -n input=lc", lc = lc, area = "m2")$area_m2, c(500, 400, 200))
expect_identical(rcell_table("r.stats -c -n input=lc", lc = lc, area = "ha")$area_ha, c(5, 4, 2) / 100)
expect_equal(rcell_table("r.stats -c input=lc", lc = lc, percent = TRUE)$percent, 100 * c(5, 4, 2, 1) / 12)
expect_identical(names(rcell_table("r.stats -c input=lc,lc", lc = lc)), c("lc", "lc_2", "cells"))
expect_identical(rcell_table("r.stats input=lc", maps = list(lc = lc)), data.frame(lc = c(1L, 2L, 3L, NA)))

# The matrix of two maps.
wide <- rcell_table("r.stats -c -n input=lc,zone", lc = lc, zone = zone, wide = TRUE)
expect_identical(wide, matrix(c(3L, 1L, 1L, 2L, 3L, 0L), 3, dimnames = list(lc = c("1", "2", "3"), zone = c("7", "8"))))
expect_identical(dim(rcell_table("r.stats -c input=lc,zone", lc = lc, zone = zone, wide = TRUE)), c(4L, 3L))
expect_identical(rcell_table("r.stats -c -n input=lc,zone", lc = lc, zone = zone, area = "m2", wide = TRUE), wide * 100)

# Tables with one row, no rows, and only nulls.
one <- rast(matrix(5), extent = ext(0, 1, 0, 1), crs = "EPSG:32632")
expect_identical(rcell_table("r.stats -c input=one", one = one), data.frame(one = 5L, cells = 1L))
nothing <- rast(matrix(NA_real_, 1, 3))
expect_identical(rcell_table("r.stats -c input=x", x = matrix(NA_real_, 1, 3)), data.frame(x = NA_integer_, cells = 3L))
expect_identical(nrow(rcell_table("r.stats -cn input=x", x = matrix(NA_real_, 1, 3))), 0L)
expect_identical(rcell_run("r.stats -cn input=x\nr.stats -c input=x", x = matrix(NA_real_, 1, 3))[[2]]$cells, 3L)

# Several outputs are separate and named after their maps; several tables form a list.
outputs <- rcell_run("r.stats -c input=lc\nr.out.ascii input=lc\nr.stats -1 input=zone\nr.stats -cn input=lc,zone", lc = lc, zone = zone)
expect_identical(names(outputs), c("lc", "lc", "zone", "lc,zone"))
expect_identical(outputs[[1]], found)
expect_identical(as_rows(outputs[[2]]), as_rows(lc))
expect_identical(outputs[[3]]$zone, as.integer(values(zone, mat = FALSE)))
expect_identical(sum(outputs[[4]]$cells), 10L)
expect_identical(length(rcell_table("r.stats -c input=lc\nr.stats -c input=zone", lc = lc, zone = zone)), 2L)
expect_identical(rcell_run("r.mapcalc x = lc", lc = lc), structure(list(), names = character()))

# Labels of rasters and of rules are joined by category. (terra treats the label `NA` as missing.)
odd <- c("wood, wet", "a b  c", "tab\there", "pipe|", "quote\"", "#no", "Wiese \u00fc", "n/a", "*", "null", "back\\slash", "'", " in front")
labelled <- rast(matrix(seq_along(odd), 1), extent = ext(0, 13, 0, 1), crs = "EPSG:32632")
levels(labelled) <- data.frame(value = seq_along(odd), cover = odd)
expect_identical(rcell_table("r.stats -cl input=x", x = labelled)$x_label, odd)
rules <- "r.reclass input=lc output=kind\n1 2 = 1 built \u00fcp, mostly\n3 = 2 water\n* = 3\nend\nr.stats -cl input=kind"
expect_identical(rcell_table(rules, lc = lc)$kind_label, c("built \u00fcp, mostly", "water", NA))
expect_identical(rcell_table("r.reclass input=lc output=k\n1 = 1 NA\n2 = 2   in # front \n3 = 3 *\nend\nr.stats -cnl input=k", lc = lc)$k_label,
  c("NA", "in # front", "*"))
expect_identical(rownames(rcell_table("r.stats -cnl input=lc,zone", lc = rcell_grid(sub("r.stats.*", "", rules), "kind", lc = lc),
  zone = zone, wide = TRUE)), c("built \u00fcp, mostly", "water"))

# Invalid arguments.
expect_identical(refusal(rcell_table("r.stats input=lc", lc = lc, area = "ha"))$text, "area= requires a table with counts: use r.stats -c")
expect_identical(refusal(rcell_table("r.stats -c input=lc", lc = lc, area = "acre"))$text, "area= must be one of m2, ha, km2; got \"acre\"")
expect_identical(refusal(rcell_table("r.stats -c input=lc", lc = lc, wide = TRUE))$line, 1L)
expect_inherits(refusal(rcell_table("r.out.ascii input=lc", lc = lc)), "rcell_refused")
degrees <- rast(nrows = 2, ncols = 2, vals = 1)
expect_true(grepl("in degrees", refusal(rcell_table("r.stats -c input=x", x = degrees, area = "ha"))$text))
feet <- rast(nrows = 1, ncols = 1, xmin = 0, xmax = 100, ymin = 0, ymax = 100, crs = "EPSG:2263", vals = 1)
expect_equal(rcell_table("r.stats -c input=x", x = feet, area = "m2")$area_m2, (100 * 1200 / 3937)^2, tolerance = 1e-9)
# Sequences of classes over more years than a table has columns equal a count in plain R.
for (count in c(2, 3, 20)) {
  series <- lapply(seq_len(count), function(year) made_map(5, 6, 2, seed = 30 + year))
  if (count == 20) series <- lapply(series, function(map) ifel(is.na(map), 1, map))
  years <- 2000 + 2 * seq_len(count)
  cells <- na.omit(do.call(cbind, lapply(series, values)))
  found <- rcell_trajectories(series, years, include_maps = count < 20)
  keys <- do.call(paste, as.data.frame(cells))
  codes <- as.matrix(found$table[sprintf("class_%d", years)])
  expect_identical(found$table$cells, as.integer(table(keys)[do.call(paste, as.data.frame(codes))]))
  expect_identical(sum(found$table$cells), nrow(cells))
  moved <- codes[, -1, drop = FALSE] != codes[, -count, drop = FALSE]
  expect_equal(found$table$changes, unname(rowSums(moved)))
  expect_identical(found$table$classes, unname(apply(codes, 1, function(row) length(unique(row)))))
  first <- apply(moved, 1, function(row) if (any(row)) years[[which(row)[[1]] + 1]] else NA)
  expect_equal(found$table$first_change, unname(first))
  expect_equal(sum(found$changes$percent), 100)
  changed <- colMeans(cells[, -1, drop = FALSE] != cells[, -count, drop = FALSE])
  expect_equal(found$intervals$percent, unname(100 * changed))
  expect_equal(found$intervals$percent_year, unname(100 * changed / 2))
  if (count == 20) next
  expect_identical(names(found$maps), c("changes", "first_change", "last_change"))
  expect_identical(as.integer(table(values(found$maps$changes))), found$changes$cells)
}
# Changes over more years than fit into one expression.
series <- lapply(1:60, function(year) matrix(c(1, year %% 2, year > 20, year > 55), 1))
found <- rcell_trajectories(series, 2001:2060, include_maps = TRUE)$maps
expect_equal(lapply(found, values, mat = FALSE), list(changes = c(0, 59, 1, 1), first_change = c(NaN, 2002, 2021, 2056), last_change = c(NaN, 2060, 2021, 2056)))
series <- rep(series, length.out = 20)
years <- function(...) refusal(rcell_trajectories(series, ...))$text
expect_identical(years(20:1), "years= must be ascending, one for each map; got 20, 19, 18, 17, 16 and 15 more")
expect_identical(refusal(rcell_trajectories(series[1], 2000))$text, "maps= must be a list of two or more maps; got a list")
many <- rep(list(matrix(1:30, 5)), 100)
expect_identical(refusal(rcell_trajectories(many, 1:100))$text, "maps= must list at most 96 maps for 30 classes; got 100")

expect_identical(leftovers(), character())

# Rules label all their categories, even categories that the map does not contain.
rules <- c(" r.reclass input=lc output=k", "# 5 = 77 a note", "1 = 1 early", "1 3 thru 5 = 1 low = \u00fc | 5", "-7 thru -2 = 3", "2147483647 = 4 last", "* = 2 high",
  "end")
expect_identical(levels(rcell_grid(rules, "k", lc = lc))[[1]], data.frame(value = c(1L, 2L, 4L), k = c("low = \u00fc | 5", "high", "last")))
many <- c("r.reclass input=lc output=k", sprintf("%d = %d class %d", 1:2500, 1:2500, 1:2500), "end", "r.mapcalc m = k", "r.stats -cl input=k,m")
expect_identical(levels(rcell_grid(many, "k", lc = lc))[[1]]$k, sprintf("class %d", 1:2500))
expect_true(all(is.na(rcell_table(many, lc = lc)$m_label)))

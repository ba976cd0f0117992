source("helpers.R")

# New classes from a crosswalk, the map of patches, and invalid arguments.
room <- tempfile("classes")
dir.create(room)
land <- rast(matrix(c(1, 1, 2, NA, 31, 32, 39, 5), 2, byrow = TRUE), extent = ext(0, 4, 0, 2), crs = "EPSG:32632")
levels(land) <- data.frame(value = c(1, 2, 5, 31), cover = c("wood", "water", "town", "moor"))
rules <- data.frame(value = c("1", "31-39", "2", "5"), new = c(10, 30, NA, 10), label = c("built", "heath", "", ""))
file <- file.path(room, "rules.csv")
writeLines(c("Value,NEW,label,note", "1,10,built,x", "31 - 39,30,heath,", "", "2,,,", "5.0,10"), file)
named <- c("1" = 10, "31-39" = 30, "2" = NA, "5" = 10)
wanted <- matrix(c(10, 10, NA, NA, 30, 30, 30, 10), 2, byrow = TRUE)
for (crosswalk in list(rules, file, named, as.list(named))) expect_equal(as_rows(rcell_reclass(land, crosswalk)), wanted)
expect_identical(levels(rcell_reclass(land, file))[[1]]$new, c("built", "heath"))
expect_identical(refusal(rcell_reclass(land, named[-1]))$text, "no rule for the class 1: add rules, or use other = \"keep\" or other = \"null\"")
expect_identical(refusal(rcell_reclass(land, named[1]))$text, "no rule for the classes 2, 5, 31, 32, 39: add rules, or use other = \"keep\" or other = \"null\"")
expect_equal(as_rows(rcell_reclass(land, c("1" = 7), other = "keep")), replace(as_rows(land), 1, 7) * 0 + matrix(c(7, 7, 2, NA, 31, 32, 39, 5), 2, byrow = TRUE))
expect_identical(levels(rcell_reclass(land, c("1" = 7), other = "keep"))[[1]]$new, c("wood", "water", "town", "moor"))
expect_equal(as_rows(rcell_reclass(land, c("1" = 7), other = "null")), matrix(c(7, 7, NA, NA, NA, NA, NA, NA), 2, byrow = TRUE))
fault <- function(...) refusal(rcell_reclass(land, ...))$text
expect_identical(fault(c("1" = 1, "0-3" = 2)), "must have at most one rule for each class; got two for 1")
expect_identical(fault(c("x" = 1)), "element 1: x is not a class or a range of classes such as 31-39")
expect_identical(fault(c("1" = 1.5)), "element 1: 1.5 is not a class, and must be empty for null")
expect_identical(fault(data.frame(value = 1)), "a data frame must have the columns value and new; got value")
expect_true(startsWith(fault(7), "must be the path of a CSV file or a data frame"))
expect_identical(fault(rules, other = "drop"), "other= must be one of keep, null; got \"drop\"")
writeLines(c("value,new", "1,2", "x,3"), file)
expect_identical(fault(file), paste0(file, ", line 3: x is not a class or a range of classes such as 31-39"))

# The map of patches has the same numbers as the table.
noise <- made_map(20, 30, 3, seed = 41)
all <- rcell_patches(noise, 8)
chosen <- rcell_patches(noise, 8, classes = c(1, 3), min_cells = 3)
expect_identical(sort(unique(na.omit(values(rcell_clump(noise, 8), mat = FALSE)))), as.numeric(all$patch))
counts <- table(values(rcell_clump(noise, 8, classes = c(1, 3), min_cells = 3), mat = FALSE))
expect_identical(as.integer(names(counts)), chosen$patch)
expect_identical(as.integer(counts), chosen$cells)
expect_true(all(is.na(values(rcell_clump(noise, min_cells = 1000)))))

# Invalid arguments raise this package's errors, which show the value found.
bad <- list(
  quote(rcell_patches(land, classes = Inf)), quote(rcell_patches(land, classes = "a")), quote(rcell_patches(land, classes = list(1))),
  quote(rcell_patches(land, min_cells = "5")), quote(rcell_patches(land, connectivity = NULL)), quote(rcell_patches(land, connectivity = "8")),
  quote(rcell_patches(land, core_depth = NA)), quote(rcell_zonal(land, land, quantiles = "a")), quote(rcell_zonal(land, land, quantiles = NaN)),
  quote(rcell_zonal(land, land, quantiles = list(0.5))), quote(rcell_composition(land, area = NA)), quote(rcell_composition(land, area = c("ha", "m2"))),
  quote(rcell_composition(land, include_null = NA)), quote(rcell_composition(land, include_null = "yes")), quote(rcell_composition(land, zones = land, zone_field = 1)),
  quote(rcell_composition(land, layer = NA)), quote(rcell_composition(land, crs = 25832)), quote(rcell_composition(land, labels = character())),
  quote(rcell_composition(list(land))), quote(rcell_composition(NULL)), quote(rcell_composition(land, zones = 7)), quote(rcell_composition(land, zones = NA)),
  quote(rcell_cross(a = land, labels = "legend.csv")), quote(rcell_cross(land)), quote(rcell_cross(a = land, maps = land)), quote(rcell_cross()),
  quote(rcell_change(land)), quote(rcell_change(list(land))), quote(rcell_change(land, land, years = c("a", "b"))), quote(rcell_change(land, land, years = 1:3)),
  quote(rcell_change(land, land, years = c(1, Inf))), quote(rcell_majority(land, size = "3")), quote(rcell_majority(land, fill = 1)),
  quote(rcell_align(land, to = 7)), quote(rcell_align(land, to = land, resample = NA)), quote(rcell_grid("", NA, lc = land)),
  quote(rcell_table("r.stats -c input=lc", lc = land, percent = NA)), quote(rcell_table("r.stats -c input=lc", lc = land, areas = "ha")),
  quote(rcell_clump(land, min_cells = -1)), quote(rcell_clump(land, filename = 7)), quote(rcell_adjacency(land, labels = 1)))
expect_identical(refusal(rcell_table("r.stats -c input=lc", lc = land, areas = "ha"))$text,
  "areas= is taken for a map, but there is no file ha: did you mean area=?")
for (call in bad) expect_inherits(refusal(eval(call)), "rcell_error", info = deparse(call))
unlink(room, recursive = TRUE)
expect_identical(leftovers(), character())

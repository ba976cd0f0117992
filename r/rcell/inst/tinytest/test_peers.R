source("helpers.R")

# Compare the calls with terra and the package survey.
maps <- list(
  noise = made_map(20, 25, 4, seed = 2), patchy = made_map(40, 30, 6, TRUE, seed = 3), one_class = made_map(9, 12, 1, seed = 5),
  row = made_map(1, 30, 3, seed = 6), oblong = made_map(25, 20, 3, seed = 7, cell = c(20, 50)))
most_frequent <- function(cells, ...) if (all(is.na(cells))) NA else which.max(tabulate(cells))

for (name in names(maps)) {
  map <- maps[[name]]
  codes <- values(map, mat = FALSE)

  # Adjacency: the pairs of cells that `adjacent` lists, each twice.
  pairs <- adjacent(map, seq_len(ncell(map)), pairs = TRUE)
  both <- cbind(codes[pairs[, 1]], codes[pairs[, 2]])
  both <- both[!is.na(rowSums(both)) & both[, 1] <= both[, 2], , drop = FALSE]
  theirs <- aggregate(list(sides = rep(1, nrow(both))), list(neighbour = both[, 2], class = both[, 1]), sum)
  theirs$sides[theirs$class == theirs$neighbour] <- theirs$sides[theirs$class == theirs$neighbour] / 2
  found <- rcell_adjacency(map)
  expect_equal(found[c("class", "neighbour", "sides")], theirs[c("class", "neighbour", "sides")], info = name)

  # Perimeters and areas of patches equal the values of their polygons.
  patches <- rcell_clump(map)
  shapes <- as.polygons(patches)
  found <- rcell_metrics(map, "patch")
  expect_equal(found$perimeter_m, perim(shapes), info = name)
  expect_equal(found$area_ha, expanse(shapes, transform = FALSE) / 1e4, info = name)

  # The majority of zones.
  zones <- init(map, "col") %/% 4 + 1
  theirs <- zonal(as.numeric(map), zones, fun = most_frequent)
  theirs <- theirs[!is.na(theirs[[2]]), ]
  expect_equal(rcell_dominant(map, zones)[c("zone", "majority")], setNames(theirs, c("zone", "majority")), check.attributes = FALSE, info = name)

  # Sequences of classes; new classes.
  later <- setValues(map, c(codes[-1], NA))
  last <- setValues(map, rev(codes))
  theirs <- as.data.frame(crosstab(c(map, later, last), long = TRUE))
  theirs <- theirs[theirs[[4]] > 0, ]
  found <- rcell_trajectories(list(map, later, last), c(2000, 2010, 2020))$table
  found <- found[c("class_2000", "class_2010", "class_2020", "cells")]
  expect_equal(found, theirs[do.call(order, theirs), ], check.attributes = FALSE, info = name)
  rules <- data.frame(value = 1:6, new = c(3, 1, 2, 9, 3, 1))
  expect_equal(as_rows(rcell_reclass(map, rules)), as_rows(classify(map, as.matrix(rules))), info = name)
}

# Areas, accuracies and their standard errors equal the results of a stratified survey.
if (requireNamespace("survey", quietly = TRUE)) for (seed in 1:4) {
  set.seed(seed)
  count <- seed + 1
  cells <- matrix(sample(0:24, count^2, TRUE), count) + diag(sample(20:80, count))
  sample <- data.frame(map = rep(seq_len(count), count), reference = rep(seq_len(count), each = count), cells = as.vector(cells))
  sizes <- setNames(sample(1000:900000, count), seq_len(count))
  found <- rcell_accuracy(NULL, sample, sizes)
  each <- sample[rep(seq_len(nrow(sample)), sample$cells), ]
  each$weight <- sizes[each$map] / tabulate(each$map)[each$map]
  # Return the share of cells that meet a condition among others, with its standard error.
  share <- function(is_so, among = TRUE) {
    data <- cbind(each, above = as.numeric(is_so & among), below = as.numeric(among))
    survey::svyratio(~above, ~below, survey::svydesign(~1, strata = ~map, weights = ~weight, data = data))
  }
  whole <- share(each$map == each$reference)
  expect_equal(c(found$overall, found$overall_se), c(coef(whole), survey::SE(whole)), check.attributes = FALSE)
  for (class in seq_len(count)) {
    row <- found$classes[class, ]
    area <- share(each$reference == class)
    users <- share(each$reference == class, each$map == class)
    producers <- share(each$map == class, each$reference == class)
    own <- c(row$area_ha, row$area_se_ha, row$users, row$users_se, row$producers, row$producers_se)
    theirs <- c(sum(sizes) * c(coef(area), survey::SE(area)), coef(users), survey::SE(users), coef(producers), survey::SE(producers))
    expect_equal(own, unname(theirs))
  }
}
expect_identical(leftovers(), character())

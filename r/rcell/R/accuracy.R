# SPDX-License-Identifier: Apache-2.0 OR GPL-2.0-or-later
# The accuracy of a map, and the areas of its classes corrected with a reference sample.

# For the test whether a sample is random: the normal deviate exceeded once in a thousand, and the
# smallest expected number of cells in a class.
DEVIATE <- 3.09
FEWEST_EXPECTED <- 5

rcell_accuracy <- function(x, reference, areas = NULL, area, field = NULL, layer = NULL,
                           labels = NULL, crs = NULL) {
  requested_unit(area)
  sample <- sample_of(x, reference, field, layer, crs, is_random = is.null(areas))
  if (!sum(sample$cells)) {
    text <- "the sample is empty: no cell has a class in both the map and the reference"
    bad_input("reference", text)
  }
  strata <- strata_of(areas, area, sample$sources)
  classes <- sort(unique(c(sample$map, sample$reference, strata$class[strata$size > 0])))
  pairs <- lapply(sample[c("map", "reference")], factor, classes)
  counts <- unname(tapply(sample$cells, pairs, sum, default = 0))
  mapped <- rowSums(counts)
  if (!is.null(strata)) {
    mapped <- strata$size[match(classes, strata$class)]
    mapped[is.na(mapped)] <- 0
    check_strata(classes, mapped, rowSums(counts))
  }
  labelled <- Find(function(source) length(source$labels$codes) > 0L, sample$sources)
  labels <- labels_from(labels, list(name = "the sample", labels = labelled$labels))
  estimate <- estimate_of(counts, mapped / sum(mapped))
  columns <- c(coded("class", classes, labels, "label"), estimate$classes)
  if (!is.null(strata$unit)) {
    sizes <- list(mapped, sum(mapped) * estimate$shares, sum(mapped) * estimate$shares_se)
    names(sizes) <- paste(c("mapped", "area", "area_se"), strata$unit, sep = "_")
    columns <- c(columns, sizes)
  }
  titles <- class_titles(list(labels), list(classes), taken = "map")[[1]] # of rows and columns
  storage.mode(counts) <- "integer"
  row_titles <- if (length(labels$codes)) titles else classes
  matrix <- frame_of(c(list(map = row_titles), as.data.frame(counts)))
  names(matrix)[-1] <- titles
  c(list(matrix = matrix, classes = frame_of(columns)), estimate$overall, cells = sum(counts))
}

# Estimate accuracies and area shares, with standard errors, from counts by map class (rows) and
# reference class (columns) in a sample stratified by map class. `weights` are the area shares of
# the map classes. The equations are from Olofsson et al. 2014, Remote Sensing of Environment 148.
# Pontius and Millones 2011 define the disagreements (quantity and allocation).
estimate_of <- function(counts, weights) {
  sampled <- rowSums(counts)
  within <- counts / pmax(sampled, 1) # shares of reference classes in each map class
  joint <- weights * within # equation 4
  shares <- colSums(joint) # equation 9
  variances <- within * (1 - within) / ifelse(sampled > 1, sampled - 1, NaN)
  squares <- weights^2 * variances
  squares[weights == 0, ] <- 0 # even if the variance is undefined
  # R's diag() would turn a matrix with one cell into an identity matrix.
  diagonal <- cbind(seq_along(sampled), seq_along(sampled))
  known_shares <- ifelse(shares > 0, shares, NaN)
  producers <- joint[diagonal] / known_shares # equation 3
  # Equation 7, with shares instead of cell counts.
  others <- colSums(squares) - squares[diagonal]
  producers_squares <- (1 - producers)^2 * squares[diagonal] + producers^2 * others
  overall <- sum(joint[diagonal]) # equation 1
  chance <- sum(rowSums(joint) * shares)
  has_kappa <- length(sampled) > 1L && chance < 1
  quantity <- sum(abs(rowSums(joint) - shares)) / 2
  list(
    shares = shares, shares_se = sqrt(colSums(squares)), # equation 10
    classes = list(
      cells_map = as.integer(sampled), cells_reference = as.integer(colSums(counts)),
      users = ifelse(sampled > 0, within[diagonal], NaN), # equation 2
      users_se = ifelse(sampled > 0, sqrt(variances[diagonal]), NaN), # equation 6
      producers = producers, producers_se = sqrt(pmax(producers_squares, 0)) / known_shares
    ),
    overall = list(
      overall = overall, overall_se = sqrt(sum(squares[diagonal])), # equation 5
      kappa = if (has_kappa) (overall - chance) / (1 - chance) else NaN,
      quantity = quantity, allocation = 1 - overall - quantity
    )
  )
}

check_strata <- function(classes, mapped, sampled) {
  lacking <- classes[mapped > 0 & sampled == 0]
  if (length(lacking)) {
    text <- paste(
      "each map class with an area must have sample cells; got none for %s: add cells,",
      "or merge the class with another one"
    )
    bad_input("reference", text, shortened(lacking))
  }
  extra <- classes[mapped == 0 & sampled > 0]
  if (length(extra)) {
    text <- "areas= must include each class in the sample; got no area for %s"
    bad_argument(text, shortened(extra))
  }
}

# Return pairs of a `map` and a `reference` class with their `cells`, and the `sources` if there are
# maps. Warn if points are treated as a random sample but are not one.
sample_of <- function(x, reference, field, layer, crs, is_random) {
  is_file <- is_path(reference) && grepl("[.](csv|tsv)$", reference, ignore.case = TRUE)
  points <- if (!is_file) features_of(POINTS, reference, layer, field)
  if (is.null(points) && !(is.null(field) && is.null(layer))) {
    name <- if (is.null(layer)) "field" else "layer"
    bad_argument("%s= requires points, but reference= has no points", name)
  }
  if (is_file || is.data.frame(reference)) {
    sources <- if (!is.null(x)) sources_of(list(map = x), crs)
    return(c(sample_of_table(reference), list(sources = sources)))
  }
  if (is.null(x)) bad_argument("x= must be a map unless reference= is a table; got NULL")
  if (!is.null(points)) return(sample_of_points(x, points, crs, is_random))
  sources <- sources_of(list(map = x, reference = reference), crs)
  frame <- run_script("r.stats -cn input=map,reference", sources)[[1]]
  names(frame$codes) <- names(sources)
  c(frame$codes, list(cells = frame$cells, sources = sources))
}

sample_of_table <- function(reference) {
  table <- table_of_columns(reference, "reference", c("map", "reference"), "cells")
  texts <- lapply(table$columns, function(column) ifelse(is.na(column), "", trimmed(column)))
  if (is.null(texts$cells)) texts$cells <- rep("1", length(table$places))
  is_kept <- nzchar(texts$map) & nzchar(texts$reference)
  texts <- do.call(rbind, texts)[, is_kept, drop = FALSE] # with the rows map, reference and cells
  places <- table$places[is_kept]
  numbers <- matrix(whole_numbers(texts), 3L, dimnames = dimnames(texts))
  text <- "%s is not a valid class or number of cells"
  problems <- sprintf(text, quoted_if_empty(texts))
  check_rows(is_category(numbers), rep(places, each = 3L), problems, "reference")
  text <- "the number of cells must not be negative; got %.0f"
  cells <- unname(numbers["cells", ])
  check_rows(cells >= 0, places, sprintf(text, cells), "reference")
  reference <- as.integer(numbers["reference", ])
  list(map = as.integer(numbers["map", ]), reference = reference, cells = cells)
}

# Look up the map class of each point: a map with the numbered cells that contain points is crossed
# with the map.
sample_of_points <- function(x, points, crs, is_random) {
  source <- with_stated(source_of("map", x), stated_crs(crs))
  check_crs_of_features(POINTS, points, source)
  placed <- placed_points(points, source)
  distinct <- unique(na.omit(placed$cell))
  cells <- rep(NA_integer_, ncell(template_of(source)))
  cells[distinct] <- seq_along(distinct)
  numbers <- cells_source("reference", cells, source, points$crs)
  sources <- fitted_sources(list(source, numbers), crs)
  frames <- run_script(c("r.stats -n input=reference,map", "r.stats -cn input=map"), sources)
  cell_numbers <- frames[[1]]$codes[[1]]
  cell_classes <- frames[[1]]$codes[[2]]
  map <- cell_classes[match(match(placed$cell, distinct), cell_numbers)]
  is_kept <- !is.na(map)
  warn_of_left_out(points$count, c(
    "without a class" = points$count - length(map), "outside the map" = sum(is.na(placed$cell)),
    "on null cells" = sum(!is.na(placed$cell) & !is_kept)
  ))
  if (is_random) warn_of_strata(map[is_kept], counts = frames[[2]])
  list(
    map = map[is_kept], reference = placed$class[is_kept], cells = rep(1, sum(is_kept)),
    sources = sources
  )
}

# Return the class of each point and the cell that contains it.
placed_points <- function(points, source) {
  if (!length(points$ids)) return(list(cell = integer(), class = integer()))
  corners <- geom(points$shapes) # a row for each point
  features <- corners[, "geom"]
  if (anyDuplicated(features)) {
    feature <- points$ids[[features[[anyDuplicated(features)]]]]
    bad_map("reference", "features must be single points, but feature %.0f has several", feature)
  }
  texts <- points$values$texts
  numbers <- ifelse(is.na(points$values$numbers), whole_numbers(texts), points$values$numbers)
  bad <- match(FALSE, is_category(numbers))
  if (!is.na(bad)) {
    text <- "classes must be whole numbers, but the class of feature %.0f is %s"
    bad_map("reference", text, points$ids[[bad]], texts[[bad]])
  }
  cell <- cells_at(template_of(source), corners[, "x"], corners[, "y"])
  list(cell = cell, class = as.integer(numbers))
}

warn_of_left_out <- function(count, left_out) {
  left_out <- left_out[left_out > 0]
  if (!length(left_out)) return(invisible())
  listed <- paste(left_out, names(left_out), collapse = ", ")
  warn("reference: %d of %d points are left out: %s", sum(left_out), count, listed)
}

# Warn if a chi-squared test shows that a random sample would hardly ever contain the map's classes
# in these shares. `map` are the classes of the sample, and `counts` the cells of each class of the
# map.
warn_of_strata <- function(map, counts) {
  cells <- as.numeric(counts$cells)
  order <- order(cells)
  drawn <- tabulate(match(map, counts$codes[[1]]), length(cells))[order]
  expected <- cells[order] * (length(map) / max(sum(cells), 1))
  # Pool the rarest classes, until the pool and each other class have enough expected cells.
  pooled <- max(sum(expected < FEWEST_EXPECTED), sum(cumsum(expected) < FEWEST_EXPECTED) + 1)
  freedom <- length(cells) - pooled
  if (freedom < 1) return(invisible())
  group <- pmax(seq_along(cells), pooled)
  sums <- rowsum(cbind(drawn, expected), group)
  chi_squared <- sum((sums[, "drawn"] - sums[, "expected"])^2 / sums[, "expected"])
  spread <- 2 / (9 * freedom) # of Wilson and Hilferty's approximation
  limit <- freedom * (1 - spread + DEVIATE * sqrt(spread))^3
  if (chi_squared <= limit) return(invisible())
  warn(paste(
    "reference: the shares of the map's classes differ between the sample and the map:",
    "if the sample was drawn class by class, use areas = \"map\""
  ))
}

# Return the area of each map class from which the sample was drawn, and the unit of the result.
strata_of <- function(areas, area, sources) {
  if (is.null(areas)) return(NULL)
  if (identical(areas, "map")) {
    rule <- "areas= must list areas by class if no map is given"
    check_argument(!is.null(sources), areas, rule)
    unit <- unit_of(area, sources$map)
    table <- count_cells(sources, list("map"), unit)[[1]]
    size <- if (is.null(unit)) table$weights else table$area
    return(list(class = table$codes[[1]], size = size, unit = unit))
  }
  given <- columns_given(areas, "areas", c("value", "area"))
  rule <- "areas= must be \"map\" or areas by class, for example c(\"1\" = 18000)"
  check_argument(!is.null(given), areas, rule)
  value <- whole_numbers(trimmed(given$columns$value))
  size <- suppressWarnings(as.numeric(given$columns$area))
  bad <- match(TRUE, is.na(value) | !is.finite(size) | size < 0)
  if (!is.na(bad)) {
    place <- if (is.numeric(areas)) "" else given$places[[bad]]
    text <- "areas= must be non-negative areas by class; got %s%s for %s"
    bad_argument(text, place, given$columns$area[[bad]], given$columns$value[[bad]])
  }
  list(class = as.integer(value), size = size, unit = requested_unit(area))
}

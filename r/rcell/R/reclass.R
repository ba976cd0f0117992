# SPDX-License-Identifier: Apache-2.0 OR GPL-2.0-or-later
# New classes from a crosswalk: a table of old and new classes.

OTHERS <- c("keep", "null")
VALUES <- "^([+-]?[0-9]+)(?:[.]0*)?(?:\\s*-\\s*([+-]?[0-9]+)(?:[.]0*)?)?$"
RULES_BYTES <- 1000000L

rcell_reclass <- function(x, rules, other = NULL, filename = "", overwrite = FALSE, crs = NULL) {
  if (!is.null(other)) check_one_of(other, "other", OTHERS)
  check_filename(filename, overwrite)
  files <- legend_files(rules)
  rules <- rules_of(rules)
  sources <- sources_of(list(map = x), crs)
  check_inputs(filename, c(inputs_of(sources), files))
  lines <- c(rule_lines(rules), if (identical(other, "keep")) "* = *")
  script <- c("r.reclass input=map output=new", lines, "end", "r.stats -n input=map")
  frames <- run_script(c(script, "r.out.ascii input=new"), sources)
  if (is.null(other)) check_covered(classes = frames[[1]]$codes[[1]], rules)
  labels <- new_labels(rules)
  if (!length(labels$codes) && identical(other, "keep")) labels <- sources$map$labels
  written(raster_of(frames[[2]], sources$map, labels, name = "new"), filename)
}

# Return rules sorted by value: the first and last value, the new class (NA for null), and its
# label.
rules_of <- function(rules) {
  given <- columns_given(rules, "rules", c("value", "new"), "label")
  if (is.null(given)) {
    text <- paste(
      "must be the path of a CSV file or a data frame with the columns value, new and",
      "optionally label, or a vector of new classes with the old classes as names; got %s"
    )
    bad_input("rules", text, shown(rules), status = 2L)
  }
  values <- trimmed(given$columns$value) # a value is a class, or a range LOW-HIGH
  low <- suppressWarnings(as.numeric(sub(VALUES, "\\1", values, perl = TRUE)))
  high <- suppressWarnings(as.numeric(sub(VALUES, "\\2", values, perl = TRUE)))
  high[is.na(high)] <- low[is.na(high)]
  is_range <- grepl(VALUES, values, perl = TRUE) & abs(low) <= CATEGORY_LIMIT &
    abs(high) <= CATEGORY_LIMIT & low <= high
  text <- "%s is not a class or a range of classes such as 31-39"
  check_rows(is_range, given$places, sprintf(text, quoted_if_empty(values)), "rules")
  new <- trimmed(given$columns$new)
  new[is.na(new)] <- ""
  codes <- suppressWarnings(as.numeric(new))
  is_class <- !nzchar(new) | (grepl(WHOLE, new) & abs(codes) <= CATEGORY_LIMIT)
  text <- "%s is not a class, and must be empty for null"
  check_rows(is_class, given$places, sprintf(text, quoted_if_empty(new)), "rules")
  labels <- given$columns$label
  labels <- if (is.null(labels)) rep("", length(low)) else trimmed(labels)
  labels[is.na(labels)] <- ""
  order <- order(low)
  rules <- list(low = low[order], high = high[order], new = codes[order], labels = labels[order])
  # A rule overlaps the previous rule unless it begins after the end of that rule.
  overlapping <- match(TRUE, rules$low[-1] <= rules$high[-length(low)])
  if (!is.na(overlapping)) {
    text <- "must have at most one rule for each class; got two for %.0f"
    bad_input("rules", text, rules$low[[overlapping + 1L]])
  }
  rules
}

# Return lines for r.reclass. Consecutive values with the same new class share a line.
rule_lines <- function(rules) {
  count <- length(rules$low)
  if (!count) return(character())
  new <- ifelse(is.na(rules$new), "NULL", sprintf("%.0f", rules$new))
  is_next <- rules$low[-1] == rules$high[-count] + 1 & new[-1] == new[-count]
  is_first <- c(TRUE, !is_next)
  low <- sprintf("%.0f", rules$low[is_first])
  high <- sprintf("%.0f", rules$high[c(!is_next, TRUE)])
  lines <- paste(ifelse(low == high, low, paste(low, "thru", high)), "=", new[is_first])
  if (sum(nchar(lines) + 1L) > RULES_BYTES) {
    text <- "%d ranges of classes do not fit into a script: use fewer ranges"
    bad_input("rules", text, length(lines))
  }
  lines
}

# Check that each class of the map has a rule.
check_covered <- function(classes, rules) {
  rule <- findInterval(classes, rules$low) # the last rule that begins at a class or before it, or 0
  is_covered <- classes <= c(-Inf, rules$high)[rule + 1L]
  if (all(is_covered)) return(invisible())
  text <- "no rule for the %s %s: add rules, or use other = \"keep\" or other = \"null\""
  noun <- if (sum(!is_covered) > 1L) "classes" else "class"
  bad_input("map", text, noun, shortened(classes[!is_covered]))
}

# Return the labels of new classes, in the order of the rules. The last label of a class applies.
new_labels <- function(rules) {
  is_kept <- nzchar(rules$labels) & !is.na(rules$new)
  codes <- as.integer(rules$new[is_kept])
  labels <- rules$labels[is_kept]
  is_last <- !duplicated(codes, fromLast = TRUE)
  list(codes = codes[is_last], labels = labels[is_last])
}

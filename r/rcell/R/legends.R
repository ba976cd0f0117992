# SPDX-License-Identifier: Apache-2.0 OR GPL-2.0-or-later
# Legends that a caller passes: a CSV or TSV file, a QGIS style, a data frame or a named vector.

COLOUR <- "^#[0-9a-fA-F]{6}$"
WHOLE <- "^[+-]?[0-9]+([.]0*)?$"

# Convert texts to whole numbers; other texts become NA.
whole_numbers <- function(texts) {
  suppressWarnings(as.numeric(ifelse(grepl(WHOLE, texts), texts, NA)))
}

# Return the labels of the legend, or without a legend the labels of a map.
labels_from <- function(legend, map, name = "labels") {
  if (is.null(legend)) return(map$labels)
  if (inherits(legend, "SpatRaster")) return(labels_of(legend))
  c(legend_of(legend, name), argument = name, map = map$name)
}

legend_of <- function(legend, name) {
  if (is_path(legend) && grepl("[.]qml$", legend, ignore.case = TRUE)) {
    return(legend_of_style(native_path(legend), name))
  }
  given <- columns_given(legend, name, c("value", "label"), c("colour", "color"))
  if (is.null(given)) {
    text <- paste(
      "must be the path of a CSV, TSV or QML file, a data frame with the columns value and label,",
      "or a vector with the classes as names; got %s"
    )
    bad_input(name, text, shown(legend), status = 2L)
  }
  if (is_path(legend)) {
    for (colours in given$columns[names(given$columns) %in% c("colour", "color")]) {
      is_right <- !nzchar(colours) | grepl(COLOUR, colours)
      problems <- paste(colours, "is not a colour in the form #rrggbb")
      check_rows(is_right, given$places, problems, name)
    }
  }
  checked_legend(given$columns$value, given$columns$label, name, given$places)
}

is_path <- function(x) is.character(x) && length(x) == 1L && is.null(names(x)) && !is.na(x)

# Return the files from which legends are read.
legend_files <- function(...) {
  paths <- unlist(Filter(is_path, list(...)))
  vapply(paths, native_path, "", USE.NAMES = FALSE)
}

# Return a legend. Check that each value is a whole number and occurs once. Messages begin with the
# place of the row.
checked_legend <- function(values, labels, name, places) {
  values <- trimmed(values)
  codes <- whole_numbers(values)
  text <- "%s is not a whole number from -2147483647 to 2147483647"
  check_rows(is_category(codes), places, sprintf(text, quoted_if_empty(values)), name)
  check_rows(!duplicated(codes), places, sprintf("value %s occurs twice", values), name)
  labels <- trimmed(labels)
  is_kept <- !is.na(labels) & nzchar(labels)
  list(codes = as.integer(codes[is_kept]), labels = utf8_of(labels[is_kept]))
}

# Warn about classes for which a legend has no label. A map's own labels may lack classes.
check_legend <- function(labels, codes) {
  without <- if (!is.null(labels$argument)) setdiff(sort(unique(codes)), labels$codes)
  if (!length(without)) return(invisible())
  warn("%s: no label for %s in %s", labels$argument, shortened(without), labels$map)
}

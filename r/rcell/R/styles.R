# SPDX-License-Identifier: Apache-2.0 OR GPL-2.0-or-later
# Read the classes of a paletted renderer or colour ramp from a QGIS style. Custom XML entities are
# rejected.

XML_NAME <- "[A-Za-z_:][-A-Za-z0-9_:.]*+"
XML_ATTRIBUTE <- sprintf("\\s++(%s)\\s*+=\\s*+(?:\"([^\"<]*+)\"|'([^'<]*+)')", XML_NAME)
XML_TOKEN <- paste0(
  "(?s)\\G(?:<!--.*?-->|<!\\[CDATA\\[.*?\\]\\]>|<\\?.*?\\?>|<!DOCTYPE[^\\[>]*>|</", XML_NAME,
  "\\s*+>|<", XML_NAME, "(?:", XML_ATTRIBUTE, ")*+\\s*+/?>|[^<]++)"
)
XML_REFERENCE <- "&(?:(amp|lt|gt|quot|apos)|#([0-9]+)|#x([0-9a-fA-F]+));"
XML_ENTITIES <- c(amp = "&", lt = "<", gt = ">", quot = "\"", apos = "'")
XML_ENCODING <- "^<\\?xml[^>]*encoding *= *[\"']([^\"']*)[\"']"
LAST_LETTER <- 0x10FFFF

legend_of_style <- function(path, name) {
  text <- utf8_text(path, name)
  wrong <- function(place, reason) {
    bad_input(name, "%s, line %d: %s", path, lines_at(text, place), reason)
  }
  encoding <- regmatches(text, regexec(XML_ENCODING, text))[[1]]
  if (length(encoding) == 2L && !(tolower(encoding[[2]]) %in% c("utf-8", "us-ascii"))) {
    wrong(1L, sprintf("its encoding is %s: save the file as UTF-8", encoding[[2]]))
  }
  tags <- tags_of(text, wrong)
  is_class <- tags$name == "paletteEntry"
  if (!any(is_class)) is_class <- tags$name == "item" & tags$parent == "colorrampshader"
  if (!any(is_class)) {
    bad_input(name, "%s has no classes: it contains neither a palette nor a colour ramp", path)
  }
  entries <- Map(attributes_of, tags$text[is_class], tags$place[is_class], list(wrong))
  attribute <- function(key) {
    texts <- vapply(entries, function(entry) unname(entry[key]), "")
    unname(ifelse(is.na(texts), "", texts))
  }
  places <- sprintf("%s, line %d: ", path, lines_at(text, tags$place[is_class]))
  checked_legend(attribute("value"), attribute("label"), name, places)
}

# Return the tags of an XML document: their text and position, the name of their element, and the
# name of its parent.
tags_of <- function(text, wrong) {
  tokens <- parts_of(text, XML_TOKEN)
  if (tokens$end <= nchar(text, "bytes")) {
    wrong(tokens$end, "not XML, or XML with custom entities, which are not supported")
  }
  is_tag <- grepl("^</?[A-Za-z_:]", tokens$texts)
  tags <- tokens$texts[is_tag]
  places <- tokens$places[is_tag]
  names <- sub(sprintf("(?s)^</?(%s).*$", XML_NAME), "\\1", tags, perl = TRUE)
  is_end <- startsWith(tags, "</")
  is_start <- !is_end & !endsWith(tags, "/>")
  parents <- character(length(tags))
  open <- "" # the open elements, the innermost first; the document has no name
  for (place in seq_along(tags)) {
    if (is_end[[place]]) {
      if (open[[1]] != names[[place]]) {
        reason <- sprintf("found </%s>, expected the end of <%s>", names[[place]], open[[1]])
        wrong(places[[place]], reason)
      }
      open <- open[-1]
    }
    parents[[place]] <- open[[1]]
    if (is_start[[place]]) open <- c(names[[place]], open)
  }
  if (length(open) > 1L) wrong(nchar(text, "bytes"), sprintf("<%s> is not closed", open[[1]]))
  list(
    text = tags[!is_end], place = places[!is_end], name = names[!is_end], parent = parents[!is_end]
  )
}

attributes_of <- function(tag, place, wrong) {
  attributes <- regmatches(tag, gregexpr(XML_ATTRIBUTE, tag, perl = TRUE))[[1]]
  keys <- sub(XML_ATTRIBUTE, "\\1", attributes, perl = TRUE)
  texts <- sub(XML_ATTRIBUTE, "\\2\\3", attributes, perl = TRUE) # one of the groups is empty
  if (anyDuplicated(keys)) wrong(place, sprintf("%s occurs twice", keys[duplicated(keys)][[1]]))
  texts <- vapply(texts, resolved, "", place, wrong, USE.NAMES = FALSE)
  names(texts) <- keys
  texts
}

# Replace a text's character references.
resolved <- function(text, place, wrong) {
  text <- gsub("[\t\r\n]", " ", text) # as XML requires in attributes
  rest <- gsub(XML_REFERENCE, "", text, perl = TRUE)
  if (grepl("&", rest, fixed = TRUE)) {
    entity <- regmatches(rest, regexpr("&[^; ]*;?", rest))
    wrong(place, sprintf("%s is not one of XML's own entities", entity))
  }
  places <- gregexpr(XML_REFERENCE, text, perl = TRUE)
  regmatches(text, places) <- lapply(regmatches(text, places), function(references) {
    vapply(references, letter_of, "", place, wrong, USE.NAMES = FALSE)
  })
  text
}

letter_of <- function(reference, place, wrong) {
  name <- gsub("[&;]", "", reference)
  if (name %in% names(XML_ENTITIES)) return(XML_ENTITIES[[name]])
  is_hex <- startsWith(name, "#x")
  digits <- sub("^#x?", "", name)
  code <- if (is_hex) suppressWarnings(as.numeric(paste0("0x", digits))) else as.numeric(digits)
  is_letter <- code > 0 && code <= LAST_LETTER && !(code >= 0xD800 && code <= 0xDFFF)
  if (!is_letter) wrong(place, sprintf("%s is not a character", reference))
  intToUtf8(code)
}

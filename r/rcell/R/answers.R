# SPDX-License-Identifier: Apache-2.0 OR GPL-2.0-or-later
# Run scripts on maps and return their outputs.

rcell_run <- function(.script, ..., crs = NULL, maps = list()) {
  if (missing(.script)) no_script()
  request <- request_of(.script, list(...), maps)
  answer <- answer_of(request, sources_of(request$maps, crs), request$outputs)
  results <- lapply(request$outputs, output_of, answer)
  names(results) <- vapply(request$outputs, function(output) paste(output$maps, collapse = ","), "")
  results
}

rcell_table <- function(.script, ..., area = NULL, percent = FALSE, wide = FALSE, crs = NULL,
                        maps = list()) {
  if (missing(.script)) no_script()
  requested_unit(area) # raises an error if the unit is unknown
  check_flag(percent, "percent")
  check_flag(wide, "wide")
  request <- request_of(.script, list(...), maps)
  sources <- sources_of(request$maps, crs)
  area <- unit_of(area, sources[[1]])
  outputs <- Filter(Negate(is_grid), request$outputs)
  if (!length(outputs)) no_table(request$outputs)
  if (!is.null(area) && is_in_degrees(sources[[1]])) {
    bad_input("arguments", paste(
      "area= requires a map in metres or feet, but this map is in degrees:",
      "use rcell_composition or rcell_cross, which compute the cell area of each row"
    ))
  }
  answer <- answer_of(request, sources, outputs)
  tables <- lapply(outputs, function(output) {
    finished(output_of(output, answer), answer, output, area, percent, wide)
  })
  if (length(tables) == 1L) tables[[1]] else tables
}

# The parameter names begin with a dot because R matches argument names partially: a map named `s`
# would otherwise be taken for the script.
no_script <- function() {
  bad_argument(paste(
    "pass the script as the first argument, without a name (in rcell_grid, the name of a map is",
    "the second), for example rcell_table(\"r.stats -c input=lc\", lc = x)"
  ))
}

no_table <- function(outputs) {
  grids <- vapply(outputs, function(output) sprintf("r.out.ascii in line %d", output$line), "")
  content <- if (length(grids)) paste(grids, collapse = ", ") else "no r.stats"
  text <- "the script must write a table; got %s: use rcell_run to get all outputs"
  bad_input("script", text, content)
}

rcell_grid <- function(.script, .name, ..., filename = "", overwrite = FALSE, crs = NULL,
                       maps = list()) {
  if (missing(.script) || missing(.name)) no_script()
  check_filename(filename, overwrite)
  check_text(.name, ".name")
  request <- request_of(.script, list(...), maps)
  known <- c(names(request$maps), request$made)
  if (!(.name %in% known)) {
    bad_argument("no map %s: %s", .name, known_names("map", known))
  }
  sources <- sources_of(request$maps, crs)
  check_inputs(filename, inputs_of(sources))
  answer <- answer_of(request, sources, wanted = .name)
  frame <- answer$frames[[1]]
  written(raster_of(frame, answer$source, answer$labels[[frame$maps]]), filename)
}

# Return the maps and script of a call. The program checks the script before any map is opened.
request_of <- function(script, dots, maps) {
  maps <- named_maps(dots, maps)
  c(accepted(script, names(maps)), list(maps = maps))
}

# Run an accepted script on its maps. Return the frames of the requested `outputs` and of the maps
# named in `wanted`, with the labels and the first source, which are needed to read them.
answer_of <- function(request, sources, outputs = list(), wanted = character()) {
  labels <- c(lapply(sources, `[[`, "labels"), request$labels)
  script <- sent_script(request, outputs, wanted)
  frames <- run_pipe(request$program, sources, script, request$lines)
  list(frames = frames, labels = labels, source = sources[[1]])
}

# Run a script that this package has written. Return a frame for each output, and then for each
# question. If polygons are counted separately, the script runs once for each part of the zones.
run_script <- function(script, sources, questions = list()) {
  path <- program_path()
  parts <- sources$zones$parts
  if (is.null(parts)) return(run_pipe(path, sources, script, questions = questions))
  runs <- lapply(parts, function(cells) {
    sources$zones$cells <- cells
    run_pipe(path, sources, script, questions = questions)
  })
  do.call(Map, c(list(joined_frames), runs))
}

# Join the frames of one output. Patches are listed part by part, and tables are sorted by code.
joined_frames <- function(...) {
  frames <- list(...)
  joined <- function(lists) do.call(Map, c(list(c), lists)) # concatenate each element
  if (frames[[1]]$kind == "PTCH") return(joined(frames))
  codes <- joined(lapply(frames, `[[`, "codes"))
  cells <- unlist(lapply(frames, `[[`, "cells"))
  order <- do.call(order, codes)
  list(codes = lapply(codes, `[`, order), cells = cells[order])
}

# Return an output as a data frame, or as a raster with the geometry of the first map.
output_of <- function(output, answer) {
  frame <- Find(function(frame) frame$line == output$line, answer$frames)
  if (!is_grid(output)) return(table_of(output, frame$codes, frame$cells, answer$labels))
  raster_of(frame, answer$source, answer$labels[[frame$maps]])
}

# Return a frame's raster with a source's geometry, a name and labels. `new` optionally has the new
# values of cells with the values 1, 2, .. Attributes are set in place, because assignment would
# make terra copy the cells.
raster_of <- function(frame, source, labels, name = frame$maps, new = NULL) {
  raster <- frame$raster
  if (!is.null(new)) values(raster) <- new[values(raster, mat = FALSE)]
  set.ext(raster, ext(source$raster))
  set.crs(raster, source$crs)
  set_labels(raster, labels, name)
  set.names(raster, name)
  raster
}

# Set the labels of a raster's first layer, in the order of the codes.
set_labels <- function(raster, labels, name) {
  if (!length(labels$codes)) return(invisible())
  order <- order(labels$codes)
  table <- data.frame(labels$codes[order], labels$labels[order])
  names(table) <- c("value", name)
  set.cats(raster, 1, table)
}

# Return columns of codes, each followed by its labels if they are requested, and the cells.
table_of <- function(output, codes, cells, labels) {
  has_labels <- "l" %in% output$flags
  columns <- list()
  titles <- character()
  for (place in seq_along(output$maps)) {
    name <- output$maps[[place]]
    columns <- c(columns, codes[place])
    titles <- c(titles, name)
    if (has_labels) {
      columns <- c(columns, list(labels_for(labels[[name]], codes[[place]])))
      titles <- c(titles, paste0(name, "_label"))
    }
  }
  if (!is.null(cells)) {
    columns <- c(columns, list(cells))
    titles <- c(titles, "cells")
  }
  names(columns) <- unique_titles(titles)
  frame_of(columns)
}

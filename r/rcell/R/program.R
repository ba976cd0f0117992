# SPDX-License-Identifier: Apache-2.0 OR GPL-2.0-or-later
# Find the program, and run it in temporary folders.

known_programs <- new.env(parent = emptyenv()) # size and time of each tested program, by path

PROBE_GRID <- "north: 1\nsouth: 0\neast: 3\nwest: 0\nrows: 1\ncols: 3\nnull: -\n01 - 2\n"
PROBE_SCRIPT <- c(
  "r.clump -d input=g output=k", "r.stats -c input=g,k after=7,1", "r.stats -1 input=k",
  "r.out.ascii input=grid"
)

rcell_program <- function() {
  path <- program_path()
  is_bundled <- identical(path, bundled_program(PIPE))
  version <- if (is_bundled) as.character(packageVersion("rcell")) else NA_character_
  list(path = path, version = version)
}

# Return the path of the program, after testing it once.
program_path <- function() {
  path <- find_program()
  is_one <- is.character(path) && length(path) == 1L && !is.na(path)
  check_argument(is_one, path, "the option rcell.program must be the path of a program")
  if (!nzchar(path)) {
    missing_program(paste(
      "the program rcell-pipe was not found in the option rcell.program, the environment",
      "variable RCELL_PIPE, the folder of RCELL, this package or the search path"
    ))
  }
  if (dir.exists(path) || file.access(path, 1L) != 0L) {
    missing_program("the program %s does not exist or is not executable", path)
  }
  path <- normalizePath(path)
  state <- file.info(path)
  stamp <- paste(state$size, format(as.numeric(state$mtime), digits = 20))
  if (!identical(known_programs[[path]], stamp)) {
    probe(path)
    assign(path, stamp, envir = known_programs)
  }
  path
}

PIPE <- "rcell-pipe"
REMEDY <- paste0(
  "\n  try: install the package with its programs (docs/r.md), ",
  "or Sys.setenv(RCELL_PIPE = \"/path/to/rcell-pipe\")"
)

missing_program <- function(text, ...) {
  signal("rcell_missing", paste0(filled(text, ...), REMEDY))
}
wrong_program <- function(text, ...) signal("rcell_wrong_program", filled(text, ...))

# Return the first that exists: the option, the environment variable, the program next to the
# program in RCELL, the program in this package, the program on the path.
find_program <- function() {
  option <- getOption("rcell.program", "")
  if (!identical(option, "")) return(option)
  rcell <- Sys.getenv("RCELL")
  neighbour <- ""
  if (nzchar(rcell)) neighbour <- file.path(dirname(rcell), sub("^rcell", PIPE, basename(rcell)))
  first_of(c(
    Sys.getenv("RCELL_PIPE"), if (file.exists(neighbour)) neighbour, bundled_program(PIPE),
    Sys.which(PIPE)[[1]]
  ))
}

first_of <- function(candidates) c(candidates[nzchar(candidates)], "")[[1]]

bundled_program <- function(name) {
  path <- system.file("bin", name, package = "rcell")
  if (nzchar(path)) normalizePath(path) else ""
}

# Test the program on maps of three cells, with all features that this package uses.
probe <- function(path) {
  wrong <- function(e) {
    text <- "%s is not a supported version of the program rcell-pipe"
    wrong_program(text, path)
  }
  grid <- c(text_head("grid", nchar(PROBE_GRID)), charToRaw(PROBE_GRID))
  text <- list(name = "grid", text = function(write) write(grid))
  request <- run_request(list(small_map("g", c(7L, NA, 12L)), text), PROBE_SCRIPT)
  frames <- tryCatch(
    frames_of(ask_pipe(path, request), path, c("g", "grid"), PROBE_SCRIPT),
    rcell_wrong_program = wrong, rcell_killed = wrong, rcell_refused = wrong
  )
  if (!identical(lapply(frames, `[[`, "kind"), list("TABL", "CELL", "GRID"))) wrong()
  names(frames) <- c("table", "list", "grid")
  patches <- c(1L, NA, 2L) # of the cells 7, null and 12
  cells <- as.integer(values(frames$grid$raster, mat = FALSE))
  is_right <- identical(frames$table$codes, list(c(12L, NA), c(2L, NA))) &&
    identical(frames$table$cells, c(1L, 1L)) && identical(frames$list$codes, list(patches)) &&
    identical(cells, patches)
  if (!is_right) wrong()
}

# Return a map with a single row of cells.
small_map <- function(name, cells) {
  cols <- length(cells)
  edges <- as.character(c(north = 1L, south = 0L, east = cols, west = 0L))
  region <- list(edges = edges, rows = 1L, cols = cols)
  list(name = name, cells = cells, region = region)
}

# Create a folder for files with ASCII names, which work in every locale.
new_folder <- function() {
  folder <- tempfile("rcell-")
  if (!dir.create(folder, showWarnings = FALSE)) {
    write_failed(folder, "the temporary folder cannot be created")
  }
  folder
}

# Return the words to put before a command so that it ends with R, even if R is killed. If the
# system has no such command, return none.
guard_words <- function() {
  if (is.null(known_programs[[" guard"]])) { # a key that is not a path
    setpriv <- Sys.which("setpriv")[["setpriv"]]
    options <- c("--pdeathsig", "KILL")
    works <- function() run(setpriv, c(options, "true"), error_on_status = FALSE)$status == 0L
    is_there <- nzchar(setpriv) && isTRUE(tryCatch(works(), error = function(e) FALSE))
    assign(" guard", if (is_there) c(setpriv, options) else character(), envir = known_programs)
  }
  known_programs[[" guard"]]
}

# Run a program in a folder, where it reads the file `request` and writes the file `out`. An
# interrupt ends the program and is passed on.
execute <- function(path, folder) {
  command <- c(guard_words(), path)
  failed <- function(text) {
    missing_program("the program %s cannot be executed: %s", path, trimws(text))
  }
  from <- file.path(folder, "request")
  to <- file.path(folder, "out")
  start <- function() {
    process$new(
      command[[1]], command[-1], stdin = from, stdout = to, stderr = "|", wd = folder,
      cleanup = TRUE
    )
  }
  child <- tryCatch(start(), rlib_error = function(e) failed(conditionMessage(e)))
  on.exit(child$kill())
  # Read the error texts here. processx::run would write them to a file, which fails on a full disk.
  text <- ""
  while (child$is_incomplete_error()) {
    child$poll_io(-1L)
    text <- paste0(text, child$read_error())
  }
  child$wait()
  status <- child$get_exit_status()
  if (status != 0L && startsWith(text, "setpriv: ")) failed(sub("^setpriv: ", "", text))
  if (status < 0L) killed(-status) # as processx reports signals
  if (status > 128L) killed(status - 128L) # as a shell reports signals
  list(status = status, stderr = trimws(text))
}

# Send a request and return the frames of the response. The last frame reports how the run ended.
ask_pipe <- function(path, request) {
  folder <- new_folder()
  on.exit(unlink(folder, recursive = TRUE))
  write_file(file.path(folder, "request"), request)
  ran <- execute(path, folder)
  unlink(file.path(folder, "request"))
  out <- file.path(folder, "out")
  wrong <- function() {
    if (ran$status == 4L) write_failed(out, "the disk may be full")
    if (ran$status == 0L) {
      wrong_program("%s returned a response that this package cannot read", path)
    }
    printed <- if (nzchar(ran$stderr)) ran$stderr else "nothing"
    wrong_program("the program ended with status %d and printed: %s", ran$status, printed)
  }
  frames <- tryCatch(
    read_response(out, wrong), rcell_error = function(e) stop(e), error = function(e) wrong()
  )
  if (end_of(frames)$status != ran$status) wrong()
  frames
}

end_of <- function(frames) frames[[length(frames)]]

# Run a script on maps and return its frames without the last. Errors of the script show the
# caller's `lines`.
run_pipe <- function(path, sources, script, lines = script, questions = list()) {
  if (is.function(recorder$add)) recorder$add(sources, c(script, question_texts(questions)))
  request <- run_request(sources, script, questions)
  frames_of(ask_pipe(path, request), path, names_of(sources), lines)
}

# Return the questions of a request as texts for records.
question_texts <- function(questions) {
  vapply(questions, function(question) {
    zones <- if (nzchar(question$zones)) paste0(", zones ", question$zones) else ""
    text <- "# question: patches of %s, connectivity %d, core depth %d%s"
    sprintf(text, question$map, question$connectivity, question$depth, zones)
  }, "")
}

# Return the frames of a response without the last, or raise the error that it contains.
frames_of <- function(frames, path, names, lines) {
  if (end_of(frames)$status != 0) fault(end_of(frames), path, names, lines)
  frames[-length(frames)]
}

# Raise the error that ended a run, as reported in the last frame.
fault <- function(end, path, names, lines) {
  status <- as.integer(end$status)
  kind <- if (status == 3L) "rcell_out_of_memory"
  is_of_request <- end$source == 1
  line <- as.integer(end$line)
  is_of_map <- is_of_request || (end$source == 0 && !length(lines)) # without a script
  if (is_of_map && end$maps < length(names)) { # `maps` counts complete maps
    refuse(end$text, names[[end$maps + 1]], line, status, class = kind)
  }
  if (is_of_request || !(line %in% seq_along(lines))) {
    refuse(end$text, "script", status = status, class = kind)
  }
  content <- sub("\r$", "", lines[[line]], useBytes = TRUE)
  Encoding(content) <- "UTF-8"
  advice <- advice_on(path, lines, line, end$text, names)
  bad <- if (end$text == "bad option") advice$bad
  refuse(end$text, "script", line, status, content, kind, bad = bad, advice = advice$text)
}

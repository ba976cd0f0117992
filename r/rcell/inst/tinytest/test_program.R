source("helpers.R")

lc <- made_map(20, 30, 3)
room <- tempfile("program")
dir.create(room)
script <- function(name, lines) {
  path <- file.path(room, name)
  writeLines(c("#!/bin/sh", lines), path)
  Sys.chmod(path, "755")
  path
}

# Return the error of a call with a given program.
refusal_by <- function(program, call = rcell_program()) {
  before <- options(rcell.program = program)
  on.exit(options(before))
  refusal(call)
}

# The program is looked up in the option, RCELL, the package and the path.
mine <- rcell_program()$path
expect_true(file.exists(mine))
expect_null(refusal_by(mine))
expect_inherits(refusal_by(file.path(room, "nowhere")), "rcell_missing")
expect_inherits(refusal_by(room), "rcell_missing")
expect_inherits(refusal_by("/bin/true"), "rcell_wrong_program")
before <- options(rcell.program = "/nowhere/rcell")
lines <- strsplit(conditionMessage(refusal(rcell_run("", lc = lc))), "\n")[[1]]
expect_identical(lines[[1]], "the program /nowhere/rcell does not exist or is not executable")
expect_true(startsWith(lines[[2]], "  try: "))
options(before)
old <- Sys.getenv("RCELL_PIPE", NA)
Sys.setenv(RCELL_PIPE = "/nowhere/by/environment")
options(rcell.program = NULL)
expect_true(grepl("by/environment", conditionMessage(refusal(rcell_program()))))
if (is.na(old)) Sys.unsetenv("RCELL_PIPE") else Sys.setenv(RCELL_PIPE = old)
options(before)

# Programs that are killed, use another format, or run out of memory after passing the first test run.
good <- sprintf("if grep -aq 'after=7,1' /dev/stdin; then exec '%s' < /dev/stdin; fi", mine)
death <- script("killed", c(good, "kill -9 $$"))
dead <- refusal_by(death, rcell_run("r.stats input=lc", lc = lc))
expect_inherits(dead, "rcell_killed")
expect_identical(conditionMessage(dead), "the program was killed by signal 9 (SIGKILL): memory ran out, or someone ended the program")
none <- script("none", good)
writeBin(as.raw(1:100), none)
expect_inherits(refusal_by(none), "rcell_wrong_program")
expect_inherits(refusal_by(c(mine, mine)), "rcell_refused")
odd <- script("odd", c(good, "echo what >&2; exit 3"))
expect_inherits(refusal_by(odd, rcell_run("r.stats input=lc", lc = lc)), "rcell_wrong_program")
short <- script("short", c(good, "echo 1"))
expect_inherits(refusal_by(short, rcell_grid("", "lc", lc = lc)), "rcell_wrong_program")
# A response that is truncated at any byte, or has an extra byte, is rejected. With status 4, the disk is full.
cut <- script("cut", c(good, sprintf("'%s' < /dev/stdin | head -c 157", mine)))
expect_inherits(refusal_by(cut, rcell_table("r.stats -c input=lc", lc = lc)), "rcell_wrong_program")
own <- asNamespace("rcell")
is_read <- function(bytes) {
  writeBin(bytes, file.path(room, "response"))
  tryCatch(length(own$read_response(file.path(room, "response"), function() stop("wrong"))) == 4L, error = function(e) FALSE)
}
outputs <- "r.stats -cl input=lc\nr.stats -1 input=lc\nr.out.ascii input=lc"
for (request in list(own$run_request(list(own$small_map("lc", c(1L, NA))), outputs), own$plan_request("lc", outputs))) {
  own$write_file(file.path(room, "request"), request)
  processx::run(mine, stdin = file.path(room, "request"), stdout = file.path(room, "response"))
  bytes <- readBin(file.path(room, "response"), "raw", 1e4)
  expect_true(is_read(bytes))
  expect_false(any(vapply(seq_along(bytes) - 1L, function(size) is_read(bytes[seq_len(size)]), NA)))
  expect_false(is_read(c(bytes, as.raw(0))))
}
more <- script("more", c(good, sprintf("'%s' < /dev/stdin; echo", mine)))
expect_inherits(refusal_by(more, rcell_table("r.stats -c input=lc", lc = lc)), "rcell_wrong_program")
other <- script("other", c(good, sprintf("'%s' < /dev/stdin; exit 1", mine)))
expect_inherits(refusal_by(other, rcell_table("r.stats -c input=lc", lc = lc)), "rcell_wrong_program")
full <- script("full", c(good, "printf 'RCELLA1\\nTABL'; exit 4"))
expect_inherits(refusal_by(full, rcell_table("r.stats -c input=lc", lc = lc)), "rcell_write_failed")
number <- function(value) sprintf("\\%o\\0\\0\\0\\0\\0\\0\\0", value)
ended <- paste(vapply(c(3L, 0L, 0L, 1L, 0L, 9L), number, ""), collapse = "")
memory <- script("memory", c(good, sprintf("printf 'RCELLA1\\nDONE%sno memory'; exit 3", ended)))
found <- refusal_by(memory, rcell_run("r.stats input=lc", lc = lc))
expect_identical(found[c("source", "line", "text", "status")], list(source = "script", line = 1L, text = "no memory", status = 3L))
expect_inherits(found, "rcell_out_of_memory")

# A grid for which memory runs out is named.
header <- c("north: 3", "south: 0", "east: 2", "west: 0", "rows: 3000", "cols: 3000")
writeLines(c(header, rep(strrep("7 ", 3000), 3000)), file.path(room, "large.txt"))
limited <- script("limited", c(sprintf("ulimit -v 30000; exec '%s' < /dev/stdin", mine)))
found <- refusal_by(limited, rcell_run("r.stats input=g", g = file.path(room, "large.txt")))
expect_identical(found[c("source", "line", "text", "status")], list(source = "g", line = 0L, text = "no memory", status = 3L))
expect_inherits(found, "rcell_out_of_memory")

# If Python is available, the message ends with a suggested correction.
advisor <- script("advisor", "printf '0\\nr.stats input=%s' \"$9\"")
before <- options(rcell.python = advisor)
expect_identical(conditionMessage(refusal(rcell_run("r.stats input=lend", lc = lc))),
  "script, line 1: unknown map\n  r.stats input=lend\n  try: r.stats input=lc")
for (python in c(script("failing", "exit 1"), "/nowhere/python3", script("silent", ":"))) {
  options(rcell.python = python)
  expect_identical(conditionMessage(refusal(rcell_run("r.stats input=lend", lc = lc))), "script, line 1: unknown map\n  r.stats input=lend")
}
options(before)

# An interrupt sent only to R ends the program and leaves no files.
slow <- script("slow", c(good, sprintf("echo $$ > '%s'; exec sleep 600", file.path(room, "pid"))))
at_work <- function() {
  unlink(file.path(room, "pid"))
  asked <- run_apart(room, c(
    sprintf("options(rcell.program = '%s')", slow),
    sprintf("answer <- tryCatch(rcell_grid('', 'x', x = matrix(1), filename = '%s'),", file.path(room, "x.tif")),
    "  interrupt = function(e) 'interrupted')", "cat(answer, length(list.files(tempdir(), '^rcell-')))"))
  begun <- Sys.time()
  while (!file.exists(file.path(room, "pid")) && asked$is_alive() && Sys.time() < begun + 300) Sys.sleep(0.1)
  if (!asked$is_alive()) stop(asked$read_all_output())
  Sys.sleep(0.5)
  asked
}
# An ended program may remain as a zombie until its new parent collects it.
is_running <- function() {
  state <- tryCatch(readLines(file.path("/proc", readLines(file.path(room, "pid")), "stat")), error = function(e) "", warning = function(w) "")
  nzchar(state) && !grepl(") Z ", state, fixed = TRUE)
}
files <- list.files(room, all.files = TRUE)
asked <- at_work()
asked$interrupt()
expect_identical(said_by(asked), "interrupted 0")
expect_false(is_running())

# If R itself is killed, the program ends with it.
if (nzchar(Sys.which("setpriv"))) {
  asked <- at_work()
  expect_true(is_running())
  asked$signal(15L)
  said_by(asked)
  Sys.sleep(1)
  expect_false(is_running())
}
expect_identical(setdiff(list.files(room, all.files = TRUE), files), c("pid", "run.R"))

# The package works in the C locale with blanks and umlauts in the temporary folder, in paths and in labels, encoded by
# the system or by R.
strange <- file.path(room, "a b \u00fc")
dir.create(strange)
labelled <- lc
levels(labelled) <- data.frame(value = 1:3, cover = c("gr\u00fcn", "b", "c"))
writeRaster(labelled, file.path(strange, "m \u00e4.tif"), datatype = "INT2S")
writeLines(c("north: 3", "south: 0", "east: 2", "west: 0", "rows: 1", "cols: 2", "1 *"), file.path(strange, "g \u00e4.txt"))
asked <- run_apart(room, c("folder <- room <- Sys.getenv('TMPDIR')", "path <- list.files(room, 'tif$', full.names = TRUE)",
  "green <- 'gr\\u00fcn'", "rules <- 'r.reclass input=lc output=k\\n1 thru 3 = 1 gr\\u00fcn\\nend\\nr.stats -cnl input=k'",
  "found <- rcell_table(rules, lc = path)", "Encoding(rules) <- 'unknown'", "again <- rcell_table(rules, lc = path)",
  "cat(found$cells, found$k_label == green, again$k_label == green, '')",
  "g <- rcell_grid('', 'lc', lc = path, filename = sub('m ', 'n ', path))",
  "Encoding(room) <- 'UTF-8'", "spelled <- paste0(room, '/o \\u00e4.tif')",
  "g <- rcell_grid('', 'lc', lc = path, filename = spelled)", "g <- rcell_majority(path, 3, filename = spelled, overwrite = TRUE)",
  "cat(rcell_table('r.stats -cnl input=lc', lc = path)$lc_label[1] == green, '')",
  "cat(rcell_table('r.stats -c input=g', g = sub('o ([^.]*).tif', 'g \\\\1.txt', spelled))$cells, '')",
  "cat(length(list.files(folder, '[.]tif$')), length(list.files(folder, '^[.]rcell', all.files = TRUE)))"),
  c(LC_ALL = "C", TMPDIR = strange))
expect_identical(said_by(asked), paste(sum(!is.na(values(lc))), "TRUE TRUE TRUE 1 1 3 0"))
expect_true(file.exists(file.path(strange, "o \u00e4.tif")))

unlink(room, recursive = TRUE)
expect_identical(leftovers(), character())

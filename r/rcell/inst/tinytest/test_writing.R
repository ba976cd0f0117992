source("helpers.R")

# Files are never written in part, combined with an older file's mask or labels, or written over an input or a special
# file.
room <- tempfile("writing \u00fc ")
dir.create(room)
file <- function(name) file.path(room, name)
lc <- made_map(20, 30, 3)
write <- function(name, ..., overwrite = TRUE) rcell_grid("r.mapcalc x = lc + 1", "x", lc = lc, filename = file(name), overwrite = overwrite, ...)
files <- function() sort(list.files(room, all.files = TRUE, no.. = TRUE))
is_kind <- function(test, name) system2("test", c(test, shQuote(file(name)))) == 0L

# Replacing a file removes its masks, labels and overviews.
labelled <- lc
levels(labelled) <- data.frame(value = 1:3, cover = c("wood", "water", "town"))
rcell_grid("", "lc", lc = labelled, filename = file("a.tif"))
invisible(file.create(file("a.tif.msk"), file("a.tif.ovr")))
expect_identical(files(), c("a.tif", "a.tif.aux.xml", "a.tif.msk", "a.tif.ovr"))
write("a.tif")
expect_identical(files(), "a.tif")
expect_equal(as_rows(rast(file("a.tif"))), as_rows(lc) + 1)

# Replacing a file keeps its permissions; a new file has default permissions.
Sys.chmod(file("a.tif"), "600")
write("a.tif")
expect_identical(format(file.mode(file("a.tif"))), "600")
write("new.tif")
invisible(file.create(file("usual")))
expect_identical(file.mode(file("new.tif")), file.mode(file("usual")))

# Links are followed, even to a file that does not exist yet.
dir.create(file("far"))
for (name in c("a.tif", "b.tif")) {
  unlink(file(name))
  if (name == "a.tif") write("far/a.tif")
  invisible(file.symlink(file.path("far", name), file(name)))
  write(name)
  expect_identical(Sys.readlink(file(name)), file.path("far", name), info = name)
  expect_equal(as_rows(rast(file(file.path("far", name)))), as_rows(lc) + 1, info = name)
}

# Special files are written to, and never replaced.
if (nzchar(Sys.which("mkfifo"))) {
  system2("mkfifo", shQuote(file("pipe")))
  reader <- processx::process$new("cat", file("pipe"), stdout = file("read.tif"))
  found <- write("pipe")
  reader$wait(600000)
  expect_true(is_kind("-p", "pipe"))
  expect_identical(as_rows(found), as_rows(lc) + 1)
  expect_equal(as_rows(rast(file("read.tif"))), as_rows(lc) + 1)
}
if (system2("mknod", c(shQuote(file("null")), "c", "1", "3"), stderr = FALSE) == 0L) {
  write("null")
  expect_true(is_kind("-c", "null"))
}
expect_inherits(refusal(write("far")), "rcell_write_failed")

# An input is never the output, whether it is named by path, by a link, or as a raster.
write("in.tif")
before <- tools::md5sum(file("in.tif"))
invisible(file.symlink("in.tif", file("link.tif")))
for (path in c("in.tif", "link.tif")) for (map in list(file("in.tif"), rast(file("in.tif")))) {
  found <- refusal(rcell_grid("", "x", x = map, filename = file(path), overwrite = TRUE))
  expect_identical(found[c("source", "text")], list(source = "arguments", text = "the output file is the input file: give another filename="), info = path)
  expect_inherits(refusal(rcell_majority(map, filename = file(path), overwrite = TRUE)), "rcell_refused")
}
writeLines(c("north: 2", "south: 0", "east: 2", "west: 0", "rows: 2", "cols: 2", "1 1", "1 2"), file("g.txt"))
expect_inherits(refusal(rcell_majority(file("g.txt"), filename = file("g.txt"), overwrite = TRUE)), "rcell_refused")
expect_identical(tools::md5sum(file("in.tif")), before)

# If any signal kills R while it writes, no new file is left and the old file is complete.
slow <- c("trace <- get('check_whole', asNamespace('rcell'))", sprintf("stop_here <- function(...) { writeLines('', '%s'); Sys.sleep(600) }", file("begun")),
  "assignInNamespace('check_whole', stop_here, 'rcell')",
  sprintf("rcell_grid('', 'x', x = matrix(1:4, 2), filename = '%s', overwrite = TRUE)", file("in.tif")))
for (signal in c(1L, 2L, 9L, 15L)) {
  unlink(file("begun"))
  # Under nohup, a test inherits ignored signals.
  asked <- run_apart(room, slow, command = c("env", "--default-signal"))
  begun <- Sys.time()
  while (!file.exists(file("begun")) && asked$is_alive() && Sys.time() < begun + 600) Sys.sleep(0.05)
  expect_true(any(grepl("^[.]rcell-", files())), info = signal)
  asked$signal(signal)
  said_by(asked)
  # The guard process notices the end of R a moment later.
  for (turn in 1:600) if (any(grepl("^[.]rcell-", files()))) Sys.sleep(0.1)
  expect_false(any(grepl("^[.]rcell-", files())), info = signal)
  expect_identical(tools::md5sum(file("in.tif")), before, info = signal)
}

# Runs also work with closed standard streams.
lines <- c("found <- rcell_table('r.stats -c input=x', x = matrix(c(1, 1, 2), 1))",
  sprintf("saveRDS(found, '%s')", file("found.rds")))
for (closed in c("<&-", ">&-", "2>&-", "<&- >&- 2>&-")) {
  unlink(file("found.rds"))
  ran <- run_apart(room, lines, command = c("timeout", "600", "sh", "-c", sprintf("exec \"$@\" %s", closed), "sh"))
  said_by(ran)
  expect_identical(readRDS(file("found.rds"))$cells, c(2L, 1L), info = closed)
}

unlink(room, recursive = TRUE)
expect_identical(leftovers(), character())

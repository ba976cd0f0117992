source("helpers.R")

# Full disks: limited file sizes on every system, and small memory disks if they can be mounted.
room <- tempfile("disk")
dir.create(room)

sizes <- c("noise <- function(side, most) { set.seed(1); matrix(sample.int(most, side * side, TRUE), side) }",
  "refused <- function(call) tryCatch({ call; 'nothing' }, rcell_error = function(e) class(e)[[1]])",
  "left <- function() length(list.files(tempdir(), '^rcell-'))")
# The disk is full while the request is written, and while the longer response is written.
sending <- "cat(refused(rcell_table('r.stats -c input=x', x = noise(1000, 9))), left(), '')"
answering <- "cat(refused(rcell_run(rep('r.out.ascii input=x', 20), x = noise(250, 9))), left(), '')"
full <- "rcell_write_failed 0"

limited <- run_apart(room, c(sizes, sending, answering), command = c("sh", "-c", "trap '' XFSZ; ulimit -f 1500; exec \"$@\"", "sh"))
expect_identical(said_by(limited), paste(full, full, ""))

# Two disks: `a` of 1 MB for the temporary folder, `b` of 64 kB for maps.
mounting <- paste("mkdir a b && mount -t tmpfs -o size=1m none a && mount -t tmpfs -o size=64k none b")
may_mount <- nzchar(Sys.which("unshare")) &&
  processx::run("unshare", c("-rm", "sh", "-c", mounting), wd = room, error_on_status = FALSE)$status == 0L
if (may_mount) {
  writing <- c("x <- rcell_grid('', 'x', x = matrix(1:4, 2), filename = 'b/old.tif')", "before <- tools::md5sum('b/old.tif')",
    "cat(refused(rcell_grid('', 'x', x = noise(150, 999999), filename = 'b/new.tif')), '')",
    "cat(refused(rcell_grid('', 'x', x = noise(150, 999999), filename = 'b/old.tif', overwrite = TRUE)), '')",
    "labelled <- rast(matrix(1:2000, 40)); levels(labelled) <- data.frame(value = 1:2000, label = strrep('x', 100))",
    "cat(refused(rcell_grid('', 'x', x = labelled, filename = 'b/new.tif')), '')",
    "cat(left(), list.files('b', all.files = TRUE, no.. = TRUE), before == tools::md5sum('b/old.tif'))")
  disks <- run_apart(room, c(sprintf("setwd('%s')", room), sizes, sending, answering, writing),
    command = c("unshare", "-rm", "sh", "-c", sprintf("cd '%s' && mkdir -p a b && mount -t tmpfs -o size=1m none a && mount -t tmpfs -o size=64k none b && TMPDIR=$PWD/a exec \"$@\"", room), "sh"))
  expect_identical(said_by(disks), paste(full, full, paste(rep("rcell_write_failed", 3), collapse = " "), "0 old.tif TRUE"))
} else {
  message("no disk may be mounted here: full disks are tried by limited files alone")
}
unlink(room, recursive = TRUE)
expect_identical(leftovers(), character())

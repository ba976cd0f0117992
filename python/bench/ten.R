# Does the tasks of ten.py by terra: a name a line in, and out the seconds of the processor (user and system, children too).
#
#     Rscript ten.R FOLDER

suppressMessages(library(terra))
terraOptions(progress = 0)
folder <- commandArgs(TRUE)[[1]]
map <- function(name) rast(file.path(folder, paste0(name, ".tif")))
codes <- c(11, 12, 21:24, 31, 41:43, 52, 71, 81, 82, 90)
from_to <- cbind(codes, c(1, 1, 2, 2, 2, 2, 3, 4, 4, 4, 5, 5, 5, 5, 5))
tasks <- list(
  "table" = function() freq(map("lc")),
  "cross table" = function() crosstab(c(map("lc"), map("zones")), long = TRUE),
  "masked table" = function() freq(mask(map("lc"), map("zones") > 450, maskvalues = 1)),
  "expression" = function() ifel(map("lc") > 40 & map("lc") < 50, map("zones"), 0),
  "reclass" = function() classify(map("lc"), from_to),
  "majority of nine" = function() focal(map("lc"), 3, "modal", na.rm = TRUE),
  "align" = function() crop(map("lc"), map("other"))
)
spent <- function() sum(proc.time()[c(1, 2, 4, 5)])
names_given <- file("stdin", "r")
while (length(name <- readLines(names_given, 1))) {
  task <- tasks[[name]]
  before <- spent()
  if (!is.null(task)) invisible(task())
  cat(if (is.null(task)) "inf 0" else sprintf("%f 0", spent() - before), "\n", sep = "")
  flush(stdout())
}

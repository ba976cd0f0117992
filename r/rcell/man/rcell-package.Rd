\name{rcell-package}
\alias{rcell-package}
\alias{rcell}
\docType{package}
\title{Tables, patches and overlays of land cover with the proved program rcell}
\description{
Compute the composition of maps, cross tables, changes between years, patches with their sizes and perimeters,
statistics by zone, landscape metrics, accuracies and new maps from rasters of whole numbers. The functions accept
\pkg{terra} rasters, and return data frames and \pkg{terra} rasters.

All cells are counted by the program rcell, which is proved from the bytes of its input to the bytes of its output. The
package itself is tested, not proved. It sends the cells of a raster unchanged, reads the response, and joins labels,
areas and percentages to the rows.
}
\section{Maps}{
A map is one of the following:
\itemize{
\item a \code{SpatRaster} with one layer, in memory or in a file;
\item the path or the URL of a raster that terra can open, including \code{/vsi} paths;
\item the path of an rcell grid;
\item a numeric matrix. The sides of its cells are 1, its bottom left corner is at 0, 0, and it has no coordinate
reference system. For areas, state a system with \code{crs}.
}
Cells are whole numbers from -2147483647 to 2147483647. Floating-point cells are accepted if they are whole numbers.
\code{NA} and \code{NaN} are null, and so are transparent cells (with an alpha of 0). Files that terra misreads are
rejected: rotated rasters, complex cells, rasters with a mask, signed bytes, and 64-bit cells with a nodata value beyond
2^53.

All maps of a call must have the same coordinate reference system, and the same rows, columns and edges (to 8 decimals)
as the first map. Maps are never reprojected or resampled; use \code{\link{rcell_align}}. If only some maps have a
coordinate reference system, \code{crs} must state the system of the others.

Labels are the \code{levels()} of a raster, or the labels in the rules of the \code{r.reclass} that made the map.
}
\section{Conditions}{
All errors inherit from \code{rcell_error} and have one of the following classes:
\tabular{ll}{
\code{rcell_refused} \tab A script, a map or an argument is invalid. Fields: \code{source} (the name of a map or an
argument, \code{"script"} or \code{"arguments"}), \code{line} (0 for none), \code{column} (in bytes, or \code{NA}),
\code{text}, \code{status} and \code{content} (the line of the script). If Python 3 is on the search path, the message
names a wrong option and suggests a correction; \code{options(rcell.python = "")} turns this off. \cr
\code{rcell_bad_map} \tab A map cannot be used, for example because it contains decimals, is rotated or has several
layers. Fields: \code{name}, \code{row}, \code{column} and \code{value}. Inherits from \code{rcell_refused}. \cr
\code{rcell_other_crs} \tab The coordinate reference system of a map is missing, or differs from the first map's.
Inherits from \code{rcell_bad_map}. \cr
\code{rcell_other_region} \tab The extent or the size of a map differs from the first map's. The last line of the
message is a call of \code{\link{rcell_align}} that you can paste. Inherits from \code{rcell_bad_map}. \cr
\code{rcell_read_failed} \tab A file cannot be opened, or part of it cannot be read. Inherits from
\code{rcell_bad_map}. \cr
\code{rcell_out_of_memory} \tab The program ran out of memory. Inherits from \code{rcell_refused}. \cr
\code{rcell_killed} \tab A signal killed the program. Field: \code{signal}. \cr
\code{rcell_missing} \tab The program was not found. \cr
\code{rcell_wrong_program} \tab The program is not a version of rcell-pipe that this package supports. \cr
\code{rcell_write_failed} \tab A file could not be written; no partial file is left. Field: \code{path}. \cr
}
An interrupt ends the program and is passed on. No call leaves a process or a temporary file. If R itself is killed,
unfinished files are removed, and only R's own temporary folder remains. The program then ends with R if the system has
\command{setpriv} (util-linux); otherwise it runs to its end.
}
\seealso{
Tables: \code{\link{rcell_composition}}, \code{\link{rcell_cross}}, \code{\link{rcell_change}},
\code{\link{rcell_trajectories}}, \code{\link{rcell_patches}}, \code{\link{rcell_adjacency}},
\code{\link{rcell_zonal}}, \code{\link{rcell_dominant}}, \code{\link{rcell_metrics}}, \code{\link{rcell_accuracy}},
\code{\link{rcell_sample}}, \code{\link{rcell_record}}.

Maps: \code{\link{rcell_majority}}, \code{\link{rcell_sieve}}, \code{\link{rcell_within}},
\code{\link{rcell_aggregate}}, \code{\link{rcell_reclass}}, \code{\link{rcell_clump}}, \code{\link{rcell_align}}.

Scripts: \code{\link{rcell_table}}, \code{\link{rcell_run}}, \code{\link{rcell_grid}}, \code{\link{rcell_program}}.
}
\examples{
lc <- matrix(c(1, 1, 2, 3, 2, 2), 2, byrow = TRUE)
tryCatch(rcell_run("r.mapcalc half = lc * 0.5", lc = lc),
  rcell_refused = function(e) message(conditionMessage(e)))
}
\keyword{package}

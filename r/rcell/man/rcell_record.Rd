\name{rcell_record}
\alias{rcell_record}
\alias{rcell_verify}
\title{Record and verify tables}
\description{
\code{rcell_record} writes the table that a call returns to a CSV file, with a record of the inputs.
\code{rcell_verify} repeats the call later, and reports any differences.
}
\usage{
rcell_record(.path, .call, ..., .table = NULL)
rcell_verify(path)
}
\arguments{
\item{.path, path}{The path of the CSV file, which is replaced if it exists. The record is next to it, in a file whose
name ends in \code{.csv.json}.}
\item{.call}{A function of this package that returns a table, or the name of the function.}
\item{...}{The arguments of the call: paths, numbers, strings, and vectors and lists of these. Paths are recorded
relative to the folder of the CSV file.}
\item{.table}{The name of the table to write, if the call returns several, for example \code{"summary"} for
\code{\link{rcell_change}}. By default, the first table.}
}
\details{
The record contains the call, the scripts that were run, and the versions of the packages. It also contains the SHA-256
checksums of the cells of each map, of the program and of the CSV file. The checksum of cells does not depend on the
data type, the nodata value, the compression or the folder of a raster.

A table that was recorded in Python, in QGIS or with \command{rcell-gis} must be verified there. The command
\command{rcell-gis report} of the Python package makes a page of recorded tables from all packages.
}
\value{
\code{rcell_record} invisibly returns the result of the call.

\code{rcell_verify} returns a character vector with an element for each difference: in the CSV file, a legend, the
program, the cells of a map, a script or the result. The vector is empty if there are no differences.
}
\examples{
folder <- tempfile("records")
dir.create(folder)
lc <- terra::rast(matrix(c(1, 1, 2, 3), 2), crs = "EPSG:25832")
terra::writeRaster(lc, file.path(folder, "lc.tif"), datatype = "INT1U")
table <- file.path(folder, "composition.csv")
rcell_record(table, rcell_composition, file.path(folder, "lc.tif"))
rcell_verify(table)
}

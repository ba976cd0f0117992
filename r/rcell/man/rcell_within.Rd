\name{rcell_within}
\alias{rcell_within}
\title{Buffers around classes}
\description{Find the cells within given distances of classes, measured between cell centres.}
\usage{
rcell_within(x, classes, distances, filename = "", overwrite = FALSE, crs = NULL)
}
\arguments{
\item{x}{A map in metres or feet (a \code{SpatRaster}, a path or a matrix); see \code{\link{rcell-package}}. Maps in
degrees are not accepted.}
\item{classes}{The classes from which distances are measured, as a numeric vector.}
\item{distances}{The distances in metres, as a numeric vector in ascending order, up to 255 cells.}
\item{filename, overwrite}{The output file; see \code{\link{rcell_grid}}.}
\item{crs}{The coordinate reference system to assume for maps that do not have one; see \code{\link{rcell_run}}.}
}
\details{
Distances are compared exactly, as in \code{r.buffer} of GRASS. \code{NA} cells of the map are treated like all other
cells.
}
\value{
A \code{SpatRaster} that is 0 in the classes, 1 up to the first distance, 2 up to the second distance, and so on, and
\code{NA} beyond the last distance. The labels name the distances. Passed as \code{zones} to
\code{\link{rcell_composition}}, the result yields the classes in each ring.
}
\examples{
lc <- terra::rast(matrix(c(7, 1, 1, 1), 1), extent = terra::ext(0, 40, 0, 10), crs = "EPSG:25832")
found <- rcell_within(lc, classes = 7, distances = c(10, 25))
terra::as.matrix(found, wide = TRUE)
terra::levels(found)
}

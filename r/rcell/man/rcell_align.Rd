\name{rcell_align}
\alias{rcell_align}
\title{Align a map with another map}
\description{
Align a map with another map's grid, by whole-cell shifts or nearest-neighbour resampling, so that both maps can be used
in the same call.
}
\usage{
rcell_align(x, to, resample = NULL, filename = "", overwrite = FALSE, crs = NULL)
}
\arguments{
\item{x}{The map to align (a \code{SpatRaster}, a path or a matrix); see \code{\link{rcell-package}}.}
\item{to}{The map with the new grid. A \code{SpatRaster} without values is also accepted.}
\item{resample}{By default (\code{NULL}), whole rows and columns are cropped or, with \code{NA} cells, added. It is an
error if the grids are shifted by part of a cell, or if the cell sizes or the coordinate reference systems differ.
\code{"nearest"} gives each new cell the value of the old cell that contains the new cell's centre. A centre on a border
belongs to the southern or eastern cell.}
\item{filename, overwrite}{The output file; see \code{\link{rcell_grid}}.}
\item{crs}{The coordinate reference system to assume for maps that do not have one; see \code{\link{rcell_run}}.}
}
\value{
A \code{SpatRaster} on the grid of \code{to}, with the labels of \code{x}. Its attribute \code{"aligned"} is a data
frame with one row and the columns:
\item{shift_rows, shift_columns}{The row and the column of \code{x}, counted from 0, at which \code{to} begins. They
are \code{NA} if the coordinate reference systems differ.}
\item{cells_used, cells_repeated, cells_lost}{The numbers of cells of \code{x}, other than \code{NA}, that the result
contains, contains more than once, and does not contain.}
}
\examples{
lc <- terra::rast(matrix(1:6, 2), extent = terra::ext(0, 3, 0, 2), crs = "EPSG:32632")
aligned <- rcell_align(lc, to = terra::shift(lc, 1, 0))
terra::as.matrix(aligned, wide = TRUE)
attr(aligned, "aligned")
}

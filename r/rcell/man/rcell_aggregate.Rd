\name{rcell_aggregate}
\alias{rcell_aggregate}
\title{Aggregate a map to larger cells}
\description{
Combine blocks of cells into larger cells, and return the most frequent class and the share of each class in each block.
}
\usage{
rcell_aggregate(x, factor, min_percent = 0, filename = "", overwrite = FALSE,
                crs = NULL)
}
\arguments{
\item{x}{A map (a \code{SpatRaster}, a path or a matrix); see \code{\link{rcell-package}}.}
\item{factor}{The number of rows and columns in a block, as a whole number. The first block is in the north-west corner.
Blocks at the southern and eastern edges may extend beyond the map.}
\item{min_percent}{The minimum percentage of a block's cells that must be inside the map and not \code{NA}, from 0 (the
default) to 100. Blocks with a lower percentage are \code{NA}. A block with only \code{NA} cells is always \code{NA}.}
\item{filename, overwrite}{The output file; see \code{\link{rcell_grid}}. Its data type is FLT8S.}
\item{crs}{The coordinate reference system to assume for maps that do not have one; see \code{\link{rcell_run}}.}
}
\value{
A \code{SpatRaster} with the following layers:
\item{majority}{The most frequent class of the block, with the labels of \code{x}. In a tie, the smallest class is
used.}
\item{cells}{The number of cells that are not \code{NA}.}
\item{one layer per class}{The class's percentage of these cells. The layer is named after the label of the class or,
without a label, its number.}
}
\examples{
lc <- matrix(c(1, 1, 2, 1, 3, 2), 2, byrow = TRUE)
terra::as.array(rcell_aggregate(lc, factor = 2))
}

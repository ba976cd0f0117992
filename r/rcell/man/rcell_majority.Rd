\name{rcell_majority}
\alias{rcell_majority}
\title{Majority filter}
\description{Assign each cell the most frequent class in the square around it.}
\usage{
rcell_majority(x, size = 3, fill = FALSE, filename = "", overwrite = FALSE,
               crs = NULL)
}
\arguments{
\item{x}{A map (a \code{SpatRaster}, a path or a matrix); see \code{\link{rcell-package}}.}
\item{size}{The number of rows and columns in the square. It must be odd, from 3 (the default) to 15.}
\item{fill}{Whether \code{NA} cells also get a class. By default (\code{FALSE}), they stay \code{NA}.}
\item{filename, overwrite}{The output file; see \code{\link{rcell_grid}}.}
\item{crs}{The coordinate reference system to assume for maps that do not have one; see \code{\link{rcell_run}}.}
}
\details{
\code{NA} cells and cells outside the map are ignored. In a tie, the smallest class is used.
}
\value{A \code{SpatRaster} with the labels of \code{x}.}
\examples{
lc <- matrix(c(1, 1, 2, 1, 2, 2, 1, 1, NA), 3, byrow = TRUE)
terra::as.matrix(rcell_majority(lc), wide = TRUE)
}

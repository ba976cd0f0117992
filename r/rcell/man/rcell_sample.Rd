\name{rcell_sample}
\alias{rcell_sample}
\title{Stratified random sample of cells}
\description{
Draw cells at random from each class of a map, without replacement. All cells of a class have the same probability.
}
\usage{
rcell_sample(x, n, seed, allocation = "equal", labels = NULL, crs = NULL)
}
\arguments{
\item{x}{A map (a \code{SpatRaster}, a path or a matrix), whose classes are the strata; see
\code{\link{rcell-package}}.}
\item{n}{The number of cells to draw, in total or, as a numeric vector with the classes as names, from each class. Each
number can be at most 1,000,000.}
\item{seed}{A whole number or a string that determines the draw.}
\item{allocation}{How to divide a total among classes: \code{"equal"} (the default), or \code{"proportional"} to their
numbers of cells. The remainder goes to the first classes (\code{"equal"}) or to the largest fractions
(\code{"proportional"}).}
\item{labels}{A legend; see \code{\link{rcell_composition}}.}
\item{crs}{The coordinate reference system to assume for maps that do not have one; see \code{\link{rcell_run}}.}
}
\details{
The draw depends only on the cells, \code{n}, \code{allocation} and \code{seed}. Cells are chosen with SHA-256, so the
draw is the same in all packages and versions of rcell. R's own random numbers are neither used nor changed.

If a class has too few cells, all of them are drawn, with a warning.
}
\value{
A data frame with a row for each cell, sorted by class and row, and the columns \code{point} (a number from 1),
\code{class}, \code{label} (if there are labels), \code{row} and \code{col} (from 1 at the top left), and \code{x} and
\code{y} (the centre of the cell).
}
\seealso{\code{\link{rcell_accuracy}}}
\examples{
lc <- matrix(c(1, 1, 2, 3, 2, 2), 2, byrow = TRUE)
rcell_sample(lc, c("1" = 1, "2" = 2), seed = 7)
}

\name{rcell_reclass}
\alias{rcell_reclass}
\title{Reclassify a map}
\description{Replace the classes of a map with new classes, using a crosswalk.}
\usage{
rcell_reclass(x, rules, other = NULL, filename = "", overwrite = FALSE, crs = NULL)
}
\arguments{
\item{x}{A map (a \code{SpatRaster}, a path or a matrix); see \code{\link{rcell-package}}.}
\item{rules}{The crosswalk: the path of a CSV or TSV file, or a data frame, with the columns \code{value}, \code{new}
and, optionally, \code{label}; or a vector of new classes with the old classes as names. A \code{value} is a class or a
range of classes, for example \code{31-39}. If \code{new} is empty, the class becomes \code{NA}.}
\item{other}{Whether to keep classes without a rule (\code{"keep"}) or set them to \code{NA} (\code{"null"}). By
default, the call raises an error that lists these classes.}
\item{filename, overwrite}{The output file; see \code{\link{rcell_grid}}.}
\item{crs}{The coordinate reference system to assume for maps that do not have one; see \code{\link{rcell_run}}.}
}
\value{
A \code{SpatRaster} with the labels of the rules. If the rules have no labels and \code{other} is \code{"keep"}, it has
the labels of \code{x}. \code{NA} cells stay \code{NA}.
}
\examples{
lc <- matrix(c(1, 1, 2, 3, 2, 2), 2, byrow = TRUE)
rules <- data.frame(value = c("1-2", "3"), new = c(1, 2), label = c("green", "blue"))
terra::levels(rcell_reclass(lc, rules))
terra::as.matrix(rcell_reclass(lc, c("3" = 7), other = "keep"), wide = TRUE)
}

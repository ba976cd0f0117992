\name{rcell_accuracy}
\alias{rcell_accuracy}
\title{Accuracy of a map}
\description{
Compare a map with a reference sample, and estimate each class's accuracy and area, with standard errors.
}
\usage{
rcell_accuracy(x, reference, areas = NULL, area, field = NULL, layer = NULL,
               labels = NULL, crs = NULL)
}
\arguments{
\item{x}{The map to assess (a \code{SpatRaster}, a path or a matrix); see \code{\link{rcell-package}}. It can be
\code{NULL} if \code{reference} is a table.}
\item{reference}{The reference sample: a map, whose \code{NA} cells are ignored; points, as a \code{SpatVector} or the
path of a vector file; or a table, as a data frame or the path of a CSV or TSV file, with the columns \code{map},
\code{reference} and, optionally, \code{cells}.}
\item{areas}{The areas of the map's classes, required if the sample was drawn class by class. Use \code{"map"} to
compute the areas from \code{x}, or list them by class in a named numeric vector, a data frame or a CSV file with the
columns \code{value} and \code{area}. If \code{NULL} (the default), the sample is treated as a simple random sample, and
no areas are estimated.}
\item{area}{The unit of areas; see \code{\link{rcell_composition}}. Areas that you pass must be in this unit, by default
in hectares.}
\item{field}{The field that contains each point's class, as a string. By default, \code{class} or \code{reference}.}
\item{layer}{The layer to read if the point file has several layers, as a string.}
\item{labels}{A legend; see \code{\link{rcell_composition}}.}
\item{crs}{The coordinate reference system to assume for maps that do not have one; see \code{\link{rcell_run}}.}
}
\details{
Accuracies, areas and standard errors are computed with equations 1 to 11 of Olofsson et al. (2014). All points count,
even if several are in the same cell. A point on the border between cells belongs to the southern or eastern cell.
Points without a class, outside the map or on \code{NA} cells are left out, with a warning that counts them. It is an
error if a class has an area but no sample cells.

Without \code{areas}, the standard errors are correct for a random sample, but meaningless if the reference covers the
full map. A warning is issued if points do not look like a random sample.
}
\value{
A list with the following elements. Accuracies are shares from 0 to 1, and undefined values are \code{NaN}.
\item{matrix}{A data frame with the number of sample cells, with a row for each map class (in the column \code{map}) and
a column for each reference class.}
\item{classes}{A data frame with a row for each class and the columns \code{class}, \code{label}, \code{cells_map} and
\code{cells_reference} (the sample cells in the class), \code{users} and \code{producers} (user's and producer's
accuracy) with the standard errors \code{users_se} and \code{producers_se} and, if there are areas,
\code{mapped_ha}, \code{area_ha} (the estimated area) and \code{area_se_ha} (its standard error).}
\item{overall, overall_se}{The share of the area that is mapped correctly, and its standard error.}
\item{kappa}{Cohen's kappa, computed from the estimated shares.}
\item{quantity, allocation}{Quantity disagreement and allocation disagreement. The sum of both and \code{overall} is 1.}
\item{cells}{The number of cells in the sample.}
}
\references{
Olofsson, P., Foody, G. M., Herold, M., Stehman, S. V., Woodcock, C. E. and Wulder, M. A. (2014) Good practices for
estimating area and assessing accuracy of land change. \emph{Remote Sensing of Environment} 148, 42--57.
}
\seealso{\code{\link{rcell_sample}} to draw a sample.}
\examples{
sample <- data.frame(map = c(1, 1, 2), reference = c(1, 2, 2), cells = c(66, 9, 97))
rcell_accuracy(NULL, sample, c("1" = 18000, "2" = 882000))$classes
rcell_accuracy(matrix(c(1, 1, 2, 2), 1), matrix(c(1, 2, 2, 2), 1))$matrix
}

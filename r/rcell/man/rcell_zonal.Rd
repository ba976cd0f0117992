\name{rcell_zonal}
\alias{rcell_zonal}
\title{Statistics by zone}
\description{Compute statistics of a map of whole numbers, or of scaled decimals, by zone.}
\usage{
rcell_zonal(values, zones, quantiles = 0.5, scale = NULL, zone_labels = NULL,
            zone_field = NULL, layer = NULL, each = FALSE, crs = NULL)
}
\arguments{
\item{values}{A map of whole numbers, or of decimals if \code{scale} is given (a \code{SpatRaster}, a path or a matrix);
see \code{\link{rcell-package}}.}
\item{zones, zone_labels, zone_field, layer, each}{See \code{\link{rcell_composition}}.}
\item{quantiles}{A numeric vector of quantiles from 0 to 1, each of which becomes a column: 0.5 (the default) is
\code{q50}, and 0.025 is \code{q2_5}. They are interpolated as in \code{quantile(type = 7)}.}
\item{scale}{Round decimals to multiples of 1 / \code{scale}, a whole number, with a warning. For example,
\code{scale = 100} keeps two decimals. By default (\code{NULL}), decimals are an error.}
\item{crs}{The coordinate reference system to assume for maps that do not have one; see \code{\link{rcell_run}}.}
}
\value{
A data frame with a row for each zone that has cells other than \code{NA}. The columns are:
\item{zone, zone_label}{The zone, and its label if the zones have labels.}
\item{cells}{The number of cells that are not \code{NA}.}
\item{sum, mean, minimum, maximum, variance}{The statistics of their values. The variance is the population variance.}
\item{one column per quantile}{For example, \code{q50}.}
}
\examples{
height <- matrix(c(10, 12, 30, 11, 31, 35), 2, byrow = TRUE)
zone <- matrix(c(1, 1, 2, 1, 2, 2), 2, byrow = TRUE)
rcell_zonal(height, zone, quantiles = c(0.25, 0.5))
}

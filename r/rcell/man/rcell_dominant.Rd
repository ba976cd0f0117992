\name{rcell_dominant}
\alias{rcell_dominant}
\title{Dominant class of each zone}
\description{Find the most frequent and the rarest class of each zone, and count the classes.}
\usage{
rcell_dominant(x, zones, area, labels = NULL, zone_labels = NULL, zone_field = NULL,
               layer = NULL, each = FALSE, crs = NULL)
}
\arguments{
\item{x}{A map (a \code{SpatRaster}, a path or a matrix); see \code{\link{rcell-package}}.}
\item{zones, area, labels, zone_labels, zone_field, layer, each}{See \code{\link{rcell_composition}}.}
\item{crs}{The coordinate reference system to assume for maps that do not have one; see \code{\link{rcell_run}}.}
}
\value{
A data frame with a row for each zone that has cells other than \code{NA}. The columns are:
\item{zone, zone_label}{The zone, and its label if the zones have labels.}
\item{cells, area_ha}{The number of cells that are not \code{NA}, and their area. The name of the column ends in the
unit.}
\item{classes}{The number of classes that occur.}
\item{majority, majority_label, majority_percent}{The most frequent class, its label if there are labels, and its
percentage of the cells, also if the map is in degrees. In a tie, the smallest class is returned.}
\item{minority, minority_label, minority_percent}{The rarest class, in the same form.}
}
\examples{
land <- matrix(c(1, 1, 2, 5), 1)
rcell_dominant(land, zones = matrix(c(7, 7, 7, 8), 1))
}

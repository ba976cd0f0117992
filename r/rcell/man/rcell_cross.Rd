\name{rcell_cross}
\alias{rcell_cross}
\title{Cross table of maps}
\description{
Count the cells of each combination of classes in several maps, with areas and percentages.
}
\usage{
rcell_cross(..., area, labels = NULL, include_null = FALSE, crs = NULL, maps = list())
}
\arguments{
\item{...}{The maps, as named arguments, for example \code{lc = "landcover.tif"}; see \code{\link{rcell-package}}. At
most 16 maps, or 15 with areas in degrees.}
\item{area}{The unit of areas; see \code{\link{rcell_composition}}.}
\item{labels}{A list of legends by map name, for example \code{list(lc = "legend.csv")}; each as in
\code{\link{rcell_composition}}.}
\item{include_null}{Whether to also count combinations that contain \code{NA}.}
\item{crs, maps}{See \code{\link{rcell_run}}.}
}
\value{
A data frame with a row for each combination that occurs. The columns are:
\item{the name of each map}{The class in this map, followed by its label in \code{NAME_label} if the map has labels.}
\item{cells, area_ha}{The number of cells, and their area. The name of the column ends in the unit.}
\item{percent}{The combination's percentage of the area that is not \code{NA} in any map. Without areas, the percentage
of the cells.}
}
\examples{
lc <- matrix(c(1, 1, 2, 3, 2, 2), 2, byrow = TRUE)
soil <- matrix(c(7, 7, 8, 7, 8, 8), 2, byrow = TRUE)
rcell_cross(lc = lc, soil = soil)
}

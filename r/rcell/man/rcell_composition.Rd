\name{rcell_composition}
\alias{rcell_composition}
\title{Composition of a map}
\description{Count the cells of each class, with areas and percentages, in the full map or by zone.}
\usage{
rcell_composition(x, zones = NULL, area, labels = NULL, zone_labels = NULL,
                  zone_field = NULL, layer = NULL, each = FALSE, include_null = FALSE,
                  crs = NULL)
}
\arguments{
\item{x}{A map (a \code{SpatRaster}, a path or a matrix); see \code{\link{rcell-package}}.}
\item{zones}{A map of zones on the grid of \code{x}, or polygons: a \code{SpatVector} or the path of a vector file,
which may end in the name of a layer (\code{"FILE|layername=NAME"}). See the section on polygons.}
\item{area}{The unit of areas: \code{"ha"}, \code{"km2"} or \code{"m2"}, or \code{NULL} to omit areas. By default, areas
are in hectares, and are omitted if \code{x} has no coordinate reference system. A local, geocentric or vertical system
does not define the area of a cell, and is an error unless \code{area} is \code{NULL}.}
\item{labels, zone_labels}{A legend that replaces the map's or the zones' labels: the path of a CSV or TSV file in
UTF-8, or a data frame, with the columns \code{value} and \code{label}; the path of a QGIS style (\code{.qml}); a vector
of labels with the classes as names; or a \code{SpatRaster} with labels. A warning lists the classes that a file, a data
frame or a vector does not label.}
\item{zone_field}{The polygon field that contains the ids or names of the zones, as a string. By default, zones are
identified by feature number.}
\item{layer}{The layer to read if the polygon file has several layers, as a string.}
\item{each}{Whether to process overlapping polygons separately, so that each polygon counts all of its cells. By default
(\code{FALSE}), cells in several polygons belong to the last polygon, and a warning is issued.}
\item{include_null}{Whether to also count \code{NA} cells. Their row is the last one of each zone.}
\item{crs}{The coordinate reference system to assume for maps that do not have one; see \code{\link{rcell_run}}.}
}
\section{Polygons}{
A cell belongs to the polygon that contains its centre. If several polygons contain it, the last one wins, and a warning
names the features that lose cells. Polygons with the same value in \code{zone_field} form one zone:
\itemize{
\item Whole numbers are the numbers of the zones.
\item Other values become the labels of zones, which are numbered 1, 2, .. in the order of the file.
\item Without \code{zone_field}, the number of a zone is the number of its feature: the fid in a layer, or the row in a
\code{SpatVector}.
\item Features without a geometry or without a value (null, NaN or an empty text) belong to no zone.
}
The fields of files are read with GDAL, so long numbers and decimals are exact. The fields of a \code{SpatVector} are
used as terra has read them, but terra 1.7 reads a missing whole number as 0. If the file of the \code{SpatVector}
contains missing numbers, an error is raised. If the file is unknown and a value is 0, a warning is issued. Curved
polygons are an error.
}
\section{Maps in degrees}{
The area of a cell differs from row to row. It is computed exactly, on the ellipsoid of the coordinate reference system.
}
\value{
A data frame with a row for each class or, with \code{zones}, for each class in each zone. Rows are sorted by zone and
class, and cells outside all zones are not counted. The columns are:
\item{zone, zone_label}{The zone, if there are zones, and its label, if the zones have labels.}
\item{class, label}{The class, and its label, if there are labels. A missing label is \code{NA}.}
\item{cells, area_ha}{The number of cells, and their area. The name of the column ends in the unit.}
\item{percent}{The class's percentage of the area in the zone or the map that is not \code{NA}. Without areas, the
percentage of the cells.}
}
\seealso{
\code{\link{rcell_cross}} for the combinations of classes in several maps, and \code{\link{rcell_change}} for two or
more years.
}
\examples{
lc <- matrix(c(1, 1, 2, 3, 2, 2), 2, byrow = TRUE)
rcell_composition(lc, area = "m2", crs = "EPSG:25832", labels = c("1" = "wood", "2" = "water", "3" = "town"))
rcell_composition(lc, zones = matrix(c(7, 7, 8, 7, 8, 8), 2, byrow = TRUE), area = NULL)
}

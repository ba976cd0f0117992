\name{rcell_patches}
\alias{rcell_patches}
\title{Patches of a map}
\description{List the patches of each class, with their sizes, perimeters, cores and bounding boxes.}
\usage{
rcell_patches(x, connectivity = 4, area, zones = NULL, classes = NULL,
              min_cells = NULL, core_depth = 1, labels = NULL, zone_labels = NULL,
              zone_field = NULL, layer = NULL, each = FALSE, crs = NULL)
}
\arguments{
\item{x}{A map (a \code{SpatRaster}, a path or a matrix); see \code{\link{rcell-package}}.}
\item{connectivity}{4 (the default) connects cells that share an edge, and 8 also connects cells that share a corner.}
\item{area}{The unit of areas; see \code{\link{rcell_composition}}. Without areas, the column \code{core_cells} replaces
\code{core_ha}.}
\item{zones}{The zones; see \code{\link{rcell_composition}}. A patch is assigned to the zone that contains most of its
cells. In a tie, the smallest zone is used.}
\item{classes}{List only patches of these classes, a numeric vector. Patch numbers do not change.}
\item{min_cells}{List only patches with at least this many cells. Patch numbers do not change.}
\item{core_depth}{The depth of the core in steps across edges, from 1 (the default) to 20. A cell is in the core of a
patch if all cells within this many steps are in the patch.}
\item{labels, zone_labels, zone_field, layer, each}{See \code{\link{rcell_composition}}.}
\item{crs}{The coordinate reference system to assume for maps that do not have one; see \code{\link{rcell_run}}.}
}
\details{
A patch is a group of connected cells of one class. Patches are numbered from 1 in the order of their first cells, as in
\code{r.clump}. \code{\link{rcell_clump}} returns a map of these numbers.
}
\value{
A data frame with a row for each patch, sorted by number, and the columns:
\item{patch, class, label}{The number of the patch, its class, and the label of the class if there are labels.}
\item{cells, area_ha}{The size of the patch, in cells and in the unit of areas.}
\item{perimeter_m}{The length in metres of the patch's sides next to other patches, next to \code{NA} cells and along
the edge of the map, including holes. It is \code{NA} if the map has no coordinate reference system or, with a warning,
if the map is in degrees.}
\item{core_ha}{The area of the core.}
\item{west, south, east, north}{The edges of the bounding box.}
\item{zone, zone_label}{The zone, and its label if the zones have labels. Both are \code{NA} if no cell of the patch is
in a zone.}
}
\examples{
lc <- matrix(c(5, 7, 5, 5, 5, 7), 2, byrow = TRUE)
rcell_patches(lc)
}

\name{rcell_metrics}
\alias{rcell_metrics}
\title{Landscape metrics}
\description{
Compute landscape metrics of each class, each patch or each landscape. The metrics are defined as in FRAGSTATS 4,
without a border.
}
\usage{
rcell_metrics(x, level = "class", connectivity = 4, area, zones = NULL, labels = NULL,
              zone_labels = NULL, zone_field = NULL, layer = NULL, each = FALSE,
              crs = NULL)
}
\arguments{
\item{x}{A map (a \code{SpatRaster}, a path or a matrix); see \code{\link{rcell-package}}.}
\item{level}{What each row of the table describes: a \code{"class"} (the default), a \code{"landscape"} or a
\code{"patch"}.}
\item{connectivity}{4 (the default) connects cells that share an edge, and 8 also connects cells that share a corner.}
\item{zones}{The zones, each of which is a separate landscape; see \code{\link{rcell_composition}}. Patches end at a
zone's border and are numbered from 1 in each zone. Cell sides along a zone's border are not edges.}
\item{area}{The unit of areas; see \code{\link{rcell_composition}}. Without areas, sizes are in cells, and
\code{patches_km2} and the edge density are omitted.}
\item{labels, zone_labels, zone_field, layer, each}{See \code{\link{rcell_composition}}.}
\item{crs}{The coordinate reference system to assume for maps that do not have one; see \code{\link{rcell_run}}.}
}
\details{
A landscape consists of all cells of the map or zone that are not \code{NA}. Undefined metrics are \code{NaN}. Metrics
that depend on a length are missing if the map has no coordinate reference system or, with a warning, if the map is in
degrees.
}
\value{
A data frame that begins with the columns \code{zone} and \code{zone_label} (with \code{zones}), \code{patch} (for
patches), and \code{class} and \code{label} (for classes and patches).

For patches, the other columns are:
\item{cells, area_ha}{The size of the patch.}
\item{perimeter_m}{The length of its perimeter in metres.}
\item{shape_index}{A quarter of the perimeter divided by the square root of the area, which is 1 for a square.}
\item{fractal_dimension}{Twice the logarithm of a quarter of the perimeter, divided by the logarithm of the area.}

For classes and landscapes, they are:
\item{cells, area_ha}{The size of the class or the landscape.}
\item{percent}{The class's percentage of the landscape (only for classes).}
\item{classes}{The number of classes (only for landscapes).}
\item{patches}{The number of patches.}
\item{patches_km2}{The number of patches per square kilometre of the landscape.}
\item{largest_patch_percent}{The largest patch's percentage of the landscape.}
\item{mean_patch_ha, area_weighted_mean_patch_ha}{The mean size of the patches, unweighted and weighted by size.}
\item{effective_mesh_ha}{The effective mesh size: the sum of the squared sizes of the patches, divided by the size of
the landscape.}
\item{edge_m, edge_density_m_ha}{The length of the edges, which are sides between two classes, in total and per hectare
of the landscape.}
\item{mean_shape_index}{The mean shape index of the patches.}
\item{aggregation_index}{The number of sides between cells of the class, as a percentage of the largest number that is
possible with the same number of cells. For landscapes, the mean of the classes, weighted by size.}
\item{cohesion}{The patch cohesion index.}
\item{interspersion_index}{The interspersion and juxtaposition index: how evenly the edges are distributed among the
pairs of classes, in percent.}
\item{contagion, shannon_diversity, shannon_evenness, simpson_diversity}{The indices of these names (only for
landscapes).}
}
\references{
McGarigal, K., Cushman, S. A. and Ene, E. (2012) \emph{FRAGSTATS v4: Spatial Pattern Analysis Program for Categorical
and Continuous Maps}.
}
\examples{
lc <- terra::rast(matrix(c(1, 1, 2, 1, 2, 2), 2, byrow = TRUE), crs = "EPSG:25832")
rcell_metrics(lc)
rcell_metrics(lc, "landscape")
}

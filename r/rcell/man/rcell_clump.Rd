\name{rcell_clump}
\alias{rcell_clump}
\title{Map of patch numbers}
\description{Return a map in which each cell contains the number of its patch, as in \code{\link{rcell_patches}}.}
\usage{
rcell_clump(x, connectivity = 4, classes = NULL, min_cells = NULL, filename = "",
            overwrite = FALSE, crs = NULL)
}
\arguments{
\item{x}{A map (a \code{SpatRaster}, a path or a matrix); see \code{\link{rcell-package}}.}
\item{connectivity}{4 (the default) connects cells that share an edge, and 8 also connects cells that share a corner.}
\item{classes}{Keep only patches of these classes, a numeric vector. All other cells become \code{NA}. Patch numbers do
not change.}
\item{min_cells}{Keep only patches with at least this many cells. Patch numbers do not change.}
\item{filename, overwrite}{The output file; see \code{\link{rcell_grid}}.}
\item{crs}{The coordinate reference system to assume for maps that do not have one; see \code{\link{rcell_run}}.}
}
\value{
A \code{SpatRaster} of patch numbers. Patches are numbered from 1 in the order of their first cells, as in
\code{r.clump}.
}
\examples{
lc <- matrix(c(5, 7, 5, 5, 5, 7), 2, byrow = TRUE)
terra::as.matrix(rcell_clump(lc, min_cells = 2), wide = TRUE)
}

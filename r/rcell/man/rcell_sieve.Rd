\name{rcell_sieve}
\alias{rcell_sieve}
\title{Apply a minimum mapping unit}
\description{Merge patches below a minimum size into their neighbours, or set these patches to \code{NA}.}
\usage{
rcell_sieve(x, min_cells = NULL, min_ha = NULL, connectivity = 4, drop = FALSE,
            filename = "", overwrite = FALSE, crs = NULL)
}
\arguments{
\item{x}{A map (a \code{SpatRaster}, a path or a matrix); see \code{\link{rcell-package}}.}
\item{min_cells}{The minimum number of cells in a patch.}
\item{min_ha}{The minimum area of a patch in hectares, instead of \code{min_cells}. Maps in degrees are not supported.}
\item{connectivity}{4 (the default) connects cells that share an edge, and 8 also connects cells that share a corner.}
\item{drop}{Whether to set small patches to \code{NA} instead of merging them.}
\item{filename, overwrite}{The output file; see \code{\link{rcell_grid}}.}
\item{crs}{The coordinate reference system to assume for maps that do not have one; see \code{\link{rcell_run}}.}
}
\details{
While any patch below the minimum size shares a side with another class, the smallest such patch gets the class of the
neighbour with which it shares the most sides, and is joined to all patches of this class that it touches. In a tie, the
patch whose first cell comes first is used. Small patches that share no side with another class stay unchanged.
}
\value{
A \code{SpatRaster} with the labels of \code{x}. Its attribute \code{"sieved"} is a data frame with one row and the
columns:
\item{patches_before, patches_after}{The numbers of patches in \code{x} and in the result.}
\item{cells_changed}{The number of cells whose class changed, or that became \code{NA}.}
\item{patches_below}{The number of patches in the result that are below the minimum size.}
}
\examples{
found <- rcell_sieve(matrix(c(1, 1, 2, 3, 3), 1), min_cells = 2)
terra::as.matrix(found, wide = TRUE)
attr(found, "sieved")
}

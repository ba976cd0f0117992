\name{rcell_table}
\alias{rcell_table}
\title{Table of a script}
\description{
Run a script, and return its table, optionally with areas and percentages, or as a matrix of two maps.
}
\usage{
rcell_table(.script, ..., area = NULL, percent = FALSE, wide = FALSE,
            crs = NULL, maps = list())
}
\arguments{
\item{.script}{The script; see \code{\link{rcell_run}}. It must contain at least one line with \code{r.stats}. Other
outputs are ignored.}
\item{...}{The maps, as named arguments, for example \code{lc = "landcover.tif"}; see \code{\link{rcell-package}}.}
\item{area}{The unit of a column of areas: \code{"m2"}, \code{"ha"} or \code{"km2"}. By default, there is no such
column. Areas are an error if the map has no coordinate reference system, unless \code{crs} states one, or if it is in
degrees, because the area of a cell then differs from row to row. Use \code{\link{rcell_composition}} or
\code{\link{rcell_cross}} for maps in degrees.}
\item{percent}{Whether to add a column of percentages of all cells in the table.}
\item{wide}{Whether to return the table of two maps as a matrix.}
\item{crs, maps}{See \code{\link{rcell_run}}.}
}
\value{
A data frame as in \code{\link{rcell_run}}, with the requested columns. If the script contains several \code{r.stats}, a
list of data frames.

With \code{wide = TRUE}, a matrix with a row for each category of the first map and a column for each category of the
second map. It contains percentages or areas if they are requested, otherwise numbers of cells. Rows and columns are
named by the labels if the flag \code{-l} is given.
}
\examples{
lc <- matrix(c(1, 1, 2, 3, 2, 2), 2, byrow = TRUE)
zone <- matrix(c(7, 7, 8, 7, 8, 8), 2, byrow = TRUE)
rcell_table("r.stats -c input=lc", lc = lc, percent = TRUE)
rcell_table("r.stats -c input=lc,zone", lc = lc, zone = zone, wide = TRUE)
}

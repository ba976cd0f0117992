\name{rcell_adjacency}
\alias{rcell_adjacency}
\title{Adjacency of classes}
\description{Count the cell sides that each pair of classes shares, and compute the length of their border.}
\usage{
rcell_adjacency(x, labels = NULL, crs = NULL)
}
\arguments{
\item{x}{A map (a \code{SpatRaster}, a path or a matrix); see \code{\link{rcell-package}}.}
\item{labels}{A legend; see \code{\link{rcell_composition}}.}
\item{crs}{The coordinate reference system to assume for maps that do not have one; see \code{\link{rcell_run}}.}
}
\value{
A data frame with a row for each pair of classes that share a side. Each pair is listed once, with the smaller class
first. A class is also paired with itself, to count the sides between its own cells. Sides next to \code{NA} cells and
along the map's edge are not counted. The columns are:
\item{class, label}{The smaller class, and its label if there are labels.}
\item{neighbour, neighbour_label}{The larger class, and its label if there are labels.}
\item{sides}{The number of cell sides that both classes share.}
\item{border_m}{The length of these sides in metres. It is \code{NA} if the map has no coordinate reference system or,
with a warning, if the map is in degrees.}
}
\examples{
rcell_adjacency(matrix(c(5, 7, 5, 5, 5, 7), 2, byrow = TRUE))
}

\name{rcell_trajectories}
\alias{rcell_trajectories}
\title{Sequences of classes over years}
\description{
Count each sequence of classes over the years, in cells that are not \code{NA} in any year.
}
\usage{
rcell_trajectories(maps, years = NULL, area, labels = NULL, include_maps = FALSE,
                   crs = NULL)
}
\arguments{
\item{maps}{A list of two or more maps in chronological order (each a \code{SpatRaster}, a path or a matrix); see
\code{\link{rcell-package}}. More than 16 maps, or 15 in degrees, are accepted only if they contain few classes.}
\item{years}{The year of each map, as a vector of whole numbers in ascending order.}
\item{area, labels}{See \code{\link{rcell_change}}.}
\item{include_maps}{Whether to compute maps of the number of changes, of the year of the first change, and of the year
of the last change.}
\item{crs}{The coordinate reference system to assume for maps that do not have one; see \code{\link{rcell_run}}.}
}
\value{
A list of data frames and, with \code{include_maps}, maps:
\item{table}{A row for each sequence: \code{class_YEAR} and \code{label_YEAR} for each year, \code{cells},
\code{area_ha}, \code{percent}, the numbers of \code{changes} and of different \code{classes}, and \code{first_change}
and \code{last_change}, the years in which the new class of the first and of the last change is first seen.}
\item{changes}{A row for each number of changes: \code{changes}, \code{cells}, \code{area_ha} and \code{percent}.}
\item{intervals}{A row for each pair of consecutive years: \code{year_from}, \code{year_to}, the change between both
years (\code{cells}, \code{area_ha}, \code{percent}), the change per year (\code{percent_year}), and the mean change per
year over all years (\code{uniform_percent_year}; Aldwaik and Pontius 2012, equations 1 and 2).}
\item{maps}{A list of three \code{SpatRaster} objects: \code{changes} (the number of changes), \code{first_change} and
\code{last_change}.}
}
\references{
Aldwaik, S. Z. and Pontius, R. G. (2012) Intensity analysis to unify measurements of size and stationarity of land
changes by interval, category, and transition. \emph{Landscape and Urban Planning} 106, 103--114.
}
\examples{
maps <- list(matrix(c(1, 1, 2), 1), matrix(c(1, 2, 2), 1), matrix(c(1, 1, 2), 1))
rcell_trajectories(maps, c(2000, 2010, 2020))
}

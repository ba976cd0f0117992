\name{rcell_change}
\alias{rcell_change}
\title{Change between years}
\description{
Compare the maps of two or more years, and list the changes between classes and the gains and losses of each class.
}
\usage{
rcell_change(before, after = NULL, years = NULL, area, labels = NULL, crs = NULL)
}
\arguments{
\item{before, after}{The maps of the two years (each a \code{SpatRaster}, a path or a matrix; see
\code{\link{rcell-package}}). For more years, pass a list of maps in chronological order as \code{before}. Each map is
then compared with the next one.}
\item{years}{The year of each map, as a vector of whole numbers. Required for more than two maps.}
\item{area}{The unit of areas; see \code{\link{rcell_composition}}. Without areas, \code{matrix} and \code{summary}
contain numbers of cells.}
\item{labels}{A legend for all maps, which replaces the maps' own labels; see \code{\link{rcell_composition}}. By
default, maps without labels get the labels of the first map with labels.}
\item{crs}{The coordinate reference system to assume for maps that do not have one; see \code{\link{rcell_run}}.}
}
\value{
A list of three data frames, which count the cells that have data in both years. With \code{years}, each data frame
begins with the columns \code{year_from} and \code{year_to}.
\item{table}{A row for each pair of an earlier and a later class: \code{from}, \code{from_label}, \code{to},
\code{to_label}, \code{cells}, \code{area_ha} and \code{percent}.}
\item{matrix}{The areas (without areas, the numbers of cells), with a row for each earlier class (in the column
\code{from}) and a column for each later class. Classes are named by their labels. If several classes have the same
label, their numbers are appended, for example \code{wood (31)}.}
\item{summary}{A row for each class: \code{class}, \code{label} (from the later map or, if it has none, from the earlier
map), \code{before_ha}, \code{after_ha}, \code{gain_ha}, \code{loss_ha}, \code{net_ha} (gain minus loss),
\code{swap_ha} (twice the smaller of gain and loss) and \code{persistence_ha}.}
}
\references{
Pontius, R. G., Shusas, E. and McEachern, M. (2004) Detecting important categorical land changes while accounting for
persistence. \emph{Agriculture, Ecosystems & Environment} 101, 251--268.
}
\seealso{\code{\link{rcell_trajectories}} for sequences of classes over many years.}
\examples{
before <- matrix(c(1, 1, 2, 3, 2, 2), 2, byrow = TRUE)
after <- matrix(c(1, 2, 2, 3, 3, 2), 2, byrow = TRUE)
rcell_change(before, after)
}

\name{rcell_run}
\alias{rcell_run}
\title{Run a script on maps}
\description{Run a script on maps of the same region, and return all of its outputs.}
\usage{
rcell_run(.script, ..., crs = NULL, maps = list())
}
\arguments{
\item{.script}{The script, as a single string or as a vector of lines. It must be the first argument, without a name.}
\item{...}{The maps, as named arguments, for example \code{lc = "landcover.tif"}; see \code{\link{rcell-package}}.}
\item{crs}{The coordinate reference system to assume for maps that do not have one, as a string, for example
\code{"EPSG:3035"} or well-known text. It is required if only some maps of a call have a system. A matrix or an rcell
grid has none.}
\item{maps}{A named list of further maps. Use it for maps whose names are also arguments of this function.}
}
\details{
The commands of a script are \code{r.mapcalc}, \code{r.reclass}, \code{r.clump}, \code{r.stats} and \code{r.out.ascii},
which are named after modules of GRASS. The program checks the script before any map is read, and errors name the line
of the script. The package then sends the maps and the script to the program as bytes, and reads the response as bytes.
\code{NA} cells are null in the program. Labels are joined by the package.
}
\value{
A list of the outputs, in the order of the script and named after their maps: a data frame for each \code{r.stats}, and
a \code{SpatRaster} for each \code{r.out.ascii}. A data frame has an integer column for each map, followed by its labels
in \code{NAME_label} if the flag \code{-l} is given, and the column \code{cells} if \code{-c} is given. Null is
\code{NA}. With \code{-1}, the data frame has a row for each cell. Repeated names get the suffix \code{_2}. Counts are
integers; convert them with \code{as.numeric} if their sum may exceed 2147483647.
}
\examples{
lc <- matrix(c(1, 1, 2, 3, 2, 2), 2, byrow = TRUE)
rcell_run("r.clump input=lc output=areas
           r.stats -c input=areas,lc", lc = lc)
}

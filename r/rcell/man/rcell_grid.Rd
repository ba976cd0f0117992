\name{rcell_grid}
\alias{rcell_grid}
\title{Map of a script}
\description{Run a script, and return one of its maps as a raster.}
\usage{
rcell_grid(.script, .name, ..., filename = "", overwrite = FALSE,
           crs = NULL, maps = list())
}
\arguments{
\item{.script}{The script; see \code{\link{rcell_run}}. Its outputs are ignored, and it needs none.}
\item{.name}{The name of a map that the script makes, or of an input map.}
\item{...}{The input maps, as named arguments, for example \code{lc = "landcover.tif"}; see
\code{\link{rcell-package}}.}
\item{filename}{The path of the file to write, or \code{""} (the default) to keep the raster in memory. The file is
written with \code{terra::writeRaster} and the data type INT4S. It appears under its name only after it has been
completed and verified; after an error, an existing file is unchanged. Links are followed. Devices and pipes are written
to, not replaced. The file must not be an input of the call, a file that belongs to an input, or the source of a virtual
raster.}
\item{overwrite}{Whether an existing file may be replaced. The new file keeps the permissions of the old file. The old
file's mask, labels and overviews (\code{.msk}, \code{.aux.xml}, \code{.ovr}) are removed.}
\item{crs, maps}{See \code{\link{rcell_run}}.}
}
\value{
A \code{SpatRaster} with the extent and the coordinate reference system of the first map. Its levels are the labels in
the rules that made the map, or the labels of the input map.
}
\examples{
lc <- matrix(c(1, 1, 2, 3, 2, 2), 2, byrow = TRUE)
kind <- rcell_grid("r.reclass input=lc output=kind
                    1 2 = 1 green
                    3 = 2 blue
                    end", "kind", lc = lc)
terra::levels(kind)
file <- tempfile(fileext = ".tif")
rcell_grid("r.mapcalc right = lc[0,1]", "right", lc = lc, filename = file)
unlink(file)
}

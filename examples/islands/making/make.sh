#!/bin/sh
# Makes archipelago.txt anew: the land of South-East Asia and New Guinea by country, in cells of 16 km of the equal-area
# projection EPSG:6933 (so that a cell is 256 square kilometres), sea null. Land is GSHHG's in its full resolution, countries
# are DCW's. It needs rcell-gis on the path and, of Debian: gmt gmt-gshhg-full gmt-dcw gdal-bin python3-gdal python3-scipy.
#
#     sh make.sh ROOM              ROOM is a folder for what lies between; archipelago.txt and labels are also made there
set -eu
here=$(cd "$(dirname "$0")" && pwd)
room=${1:?a folder for the files that are made}
mkdir -p "$room" && cd "$room"
python=/usr/bin/python3

[ -s countries.geojson ] || "$python" "$here/countries.py" countries.geojson countries
gmt grdlandmask -R94/153/-12/20 -I1m -r -Df -N0/1/1/1/1 -Gsea.nc=nb
gdal_translate -q -ot Byte -a_srs EPSG:4326 -a_nodata none sea.nc sea.tif
gdal_calc.py --quiet --overwrite -A sea.tif --calc='0*A' --type=UInt16 --outfile=countries.tif
gdal_rasterize -q -a code countries.geojson countries.tif
"$python" "$here/nearest.py" sea.tif countries.tif countries archipelago.geo.tif labels
gdalwarp -q -overwrite -t_srs EPSG:6933 -r near -te 9072000 -1424000 14656000 2416000 -tr 16000 16000 \
    -ot Byte -srcnodata 0 -dstnodata 0 archipelago.geo.tif archipelago.tif
rcell-gis convert archipelago.tif archipelago.txt

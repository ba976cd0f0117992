#!/bin/sh
# A map in two files, counted as one: the patches and cells of each class.
study=$(dirname "$0")/../study
room=$(mktemp -d) && trap 'rm -rf "$room"' EXIT

# The upper and the lower seven rows.
gdal_translate -q -srcwin 0 0 22 7 "$study/landcover.tif" "$room/upper.tif"
gdal_translate -q -srcwin 0 7 22 7 "$study/landcover.tif" "$room/lower.tif"
rcell-gis patches "$room/*.tif" --summary class --area none

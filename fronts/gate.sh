#!/bin/sh
# Runs the table of cases, random calls (CALLS of each package, or 100) and some random rasters on the packages that are installed,
# over bin/rcell. The last line is 'N passed, M failed, K skipped'.
cd "$(dirname "$0")/.." || exit 1
room=$(mktemp -d) || exit 1
trap 'rm -rf "$room"' EXIT
. tools/counting.sh
if command -v Rscript > /dev/null; then
    mkdir "$room/library"
    # If a package is missing that it needs, the cases say so.
    R CMD INSTALL --no-docs --no-byte-compile --no-test-load --library="$room/library" r/rcell > "$room/log" 2>&1 || tail -n 3 "$room/log"
    export R_LIBS="$room/library"
fi
# Each of them waits for one package after another, so they run side by side.
begin() {
    name=$1
    shift
    { "$@" > "$room/$name.lines"; echo $? > "$room/$name.status"; } &
}
ended() {
    cat "$room/$1.lines"
    return "$(cat "$room/$1.status")"
}
begin cases /usr/bin/python3 fronts/run.py "$@"
if /usr/bin/python3 -c 'import numpy, osgeo, scipy' 2> /dev/null; then
    begin calls /usr/bin/python3 fronts/random_calls.py --count "${CALLS:-100}" "$@"
    begin plants /usr/bin/python3 fronts/random_calls.py --plants
    begin rasters /usr/bin/python3 fronts/random_rasters.py "$@"
    wait
    add 'random calls' ended calls
    add 'old mistakes in random calls' ended plants
    add 'random rasters' ended rasters
else
    skip fronts/rasters 'GDAL for Python, numpy or scipy is not installed' python3-gdal python3-numpy python3-scipy
fi
wait
add 'the table of cases' ended cases
closing

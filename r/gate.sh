#!/bin/sh
# Run the R package's quick tests on bin/rcell, as the gate does. If R or a required package is not installed, skip them.
# The last line is 'N passed, M failed, K skipped'.
cd "$(dirname "$0")/.." || exit 1
room=$(mktemp -d) || exit 1
trap 'rm -rf "$room"' EXIT
. tools/counting.sh

missing=$(Rscript --vanilla -e 'for (p in c("terra", "data.table", "digest", "processx", "tinytest", "survey")) if (!nzchar(system.file(package = p))) cat(p, "")' 2> /dev/null || echo R)
if [ -z "$missing" ]; then
    mkdir "$room/library"
    check 'the package is installed' R CMD INSTALL --no-docs --no-byte-compile --no-test-load --library="$room/library" r/rcell
    export RCELL="${RCELL_BIN:-$PWD/bin}/rcell" R_LIBS="$room/library" LC_ALL=C.UTF-8 PYTHONPATH="$PWD/python/src" PYTHONDONTWRITEBYTECODE=1
    check 'lines of R code within 100 columns, one statement a line' Rscript --vanilla r/lines.R r/rcell/R/*.R
    add 'tests of the package' Rscript --no-save --no-restore --no-site-file r/gate.R r/rcell/inst/tinytest
else
    # shellcheck disable=SC2046
    skip -n 791 r "$missing is not installed" $(grep -v '^#' r/packages.txt)
fi
closing

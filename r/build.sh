#!/bin/sh
# Build the R package with the static program and its vignette: build.sh [FOLDER]. The default folder is dist/.
set -eu
cd "$(dirname "$0")/.."
dist=${1:-dist}
. packaging/same.sh
copy_tracked r/rcell "$room/source/rcell"
inst=$room/source/rcell/inst
install -D -m 755 bin/rcell-pipe-static "$inst/bin/rcell-pipe"
# The code that suggests corrections for invalid lines.
copy_tracked python/src/rcell/core "$inst/python/rcell/core"
install -m 644 python/src/rcell/__init__.py "$inst/python/rcell"
# The maps of docs/r.md, which tests also compare with terra.
copy_tracked examples/rasters "$inst/extdata"
python3 tools/build/linked.py --with-islands "$inst/licenses"
install -m 644 LICENSE.md "$inst/COPYRIGHTS"
sed -i "s/^Version: .*/Version: $version/" "$room/source/rcell/DESCRIPTION"
# R warns about a program in a package unless it is declared.
echo inst/bin/rcell-pipe > "$room/source/rcell/BinaryFiles"
(cd "$room/source" && env -u RCELL -u RCELL_PIPE LC_ALL=C.UTF-8 LANGUAGE=en TZ=UTC R CMD build rcell > build.log 2>&1) || { cat "$room/source/build.log" >&2; exit 1; }
# R records who built the package and when; make both reproducible.
tar -C "$room" -xzf "$room/source/rcell_$version.tar.gz"
sed -i "s/^Packaged: .*/Packaged: $(date -u -d "@$SOURCE_DATE_EPOCH" '+%Y-%m-%d %H:%M:%S UTC'); the Nibzoqel authors/" "$room/rcell/DESCRIPTION"
# The vignette must not load anything from a network.
sed -i '/<\(link\|script\)[^>]*https:/d' "$room/rcell/inst/doc/land-cover.html"
pack rcell "$dist/rcell_$version.tar.gz"
echo "dist: rcell_$version.tar.gz, the package for R"

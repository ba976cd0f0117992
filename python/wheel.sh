#!/bin/sh
# Makes the wheel and the source archive of the Python package, with the static programs in them: wheel.sh [FOLDER], dist/ if it is
# not given. The wheel is built from the archive, as anybody can build it again.
set -eu
cd "$(dirname "$0")/.."
dist=${1:-dist}
sh tools/debian.sh python3-hatchling
. packaging/same.sh
rm -f "$dist"/rcell-"$version".tar.gz "$dist"/rcell-*.whl
package=$room/package
for file in python/README.md python/pyproject.toml python/hatch_build.py; do install -D -m 644 "$file" "$package/${file#python/}"; done
copy_tracked python/src "$package/src"
install -m 644 VERSION "$package/VERSION"
install -D -m 755 -t "$package/bin" bin/rcell-static bin/rcell-pipe-static
python3 tools/build/linked.py "$room/licenses"
cp -r "$room"/licenses/* LICENSE.md "$package"
(cd "$package" && /usr/bin/python3 -m hatchling build -t sdist -d "$room/made" > /dev/null)
tar -C "$room" -xzf "$room/made/rcell-$version.tar.gz"
(cd "$room/rcell-$version" && /usr/bin/python3 -m hatchling build -t wheel -d "$room/made" > /dev/null)
install -m 644 "$room"/made/* "$dist"
echo "dist: $(cd "$room/made" && ls | tr '\n' ' ')for Python"

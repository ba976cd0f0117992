#!/bin/sh
# Makes the release of what is built, from bin/NAME-static (tools/build/static.sh): the tarball, the package of Debian,
# the proved objects, the packages for Python, R and QGIS, the bill of materials, and SHA256SUMS over all.
#
#     tools/build/dist.sh [FOLDER]         FOLDER is dist if it is not given
set -eu
cd "$(dirname "$0")/../.."
dist=${1:-dist}
. packaging/same.sh
find "$dist" -maxdepth 1 -type f -delete
name=rcell-$version-linux-x86_64

# What the tarball and the package have, below the folder $1 as below a prefix; further words are for tools/build/linked.py.
stage() {
    sh packaging/install.sh "$1" -static
    rm "$1/share/rcell/installed"
    documents=$1/share/doc/rcell
    shift
    python3 tools/build/proved.py > "$documents/PROVED.txt"
    python3 tools/build/linked.py "$@" "$documents/licenses"
}

stage "$room/$name" --with-islands
pack "$name" "$dist/$name.tar.gz"

# The changes of the package in Debian's form; CHANGELOG.md next to it has the program's.
changelog() {
    printf 'rcell (%s) unstable; urgency=medium\n\n  * CHANGELOG.md says what changed.\n\n' "$version"
    printf ' -- %s  %s\n' "$(sed -n 's/^Maintainer: //p' packaging/control.in)" "$(date -u -R -d "@$SOURCE_DATE_EPOCH")"
}

package=$room/package
documents=$package/usr/share/doc/rcell
mkdir -p "$package/DEBIAN"
stage "$package/usr" --without-own
python3 packaging/copyright.py > "$documents/copyright"
install -D -m 644 packaging/lintian-overrides "$package/usr/share/lintian/overrides/rcell"
gzip -9n "$package"/usr/share/man/man1/*.1
changelog | gzip -9nc > "$documents/changelog.gz"
size=$(find "$package/usr" -type f -printf '%s\n' | awk '{ kib += int(($1 + 1023) / 1024) } END { print kib }')
sed "s/@VERSION@/$version/; s/@SIZE@/$size/" packaging/control.in > "$package/DEBIAN/control"
(cd "$package" && find usr -type f | sort | xargs md5sum) > "$package/DEBIAN/md5sums"
find "$package" -type d -exec chmod 755 {} +
dpkg-deb --root-owner-group -Zgzip -z9 --build "$package" "$dist/rcell_${version}_amd64.deb" > /dev/null

# Objects with the stamps of their sources: for another C library, and for `make OBJECTS=FILE`.
object=rcell-$version-objects
kit=$(dirname "$(rt doc)")
mkdir "$room/$object"
install -m 644 bin/rcell.o bin/rcell-pipe.o "$kit/c/libos_c.a" "$kit/c/liblibc_c.a" "$room/$object"
install -m 644 packaging/objects.md "$room/$object/README.md"
python3 tools/build/objects.py --stamps "$room/$object"
python3 tools/build/linked.py "$room/$object/licenses"
pack "$object" "$dist/$object.tar.gz"

sh python/wheel.sh "$dist" > /dev/null
sh r/build.sh "$dist" > /dev/null
python3 qgis/build.py "$dist" > /dev/null
python3 tools/build/bill.py "$dist"
(cd "$dist" && find . -maxdepth 1 -type f -printf '%f\n' | sort | xargs sha256sum -- > "$room/sums" && install -m 644 "$room/sums" SHA256SUMS)
echo "made in $dist:"
ls "$dist"

#!/bin/sh
# Runs python/check.sh in a root of Debian 12 that has its base system and nothing else: there the wheel is installed, and each
# package of Debian that is missing, by name. As root, with debootstrap of Debian; not part of the gate.
#
#     python/debian12.sh [FOLDER [ROOT]]      FOLDER has the wheel, dist if it is not given; ROOT is made if it is missing
#
# The last line is 'N passed, M failed'.
set -eu
cd "$(dirname "$0")/.."
dist=${1:-dist}
root=${2:-${TMPDIR:-/tmp}/rcell-debian12}
mirror=${MIRROR:-http://deb.debian.org/debian}

[ "$(id -u)" = 0 ] || { echo 'rcell: chroot and debootstrap want root' >&2; exit 1; }
sh tools/debian.sh debootstrap debian-archive-keyring
if [ ! -f "$root/etc/debian_version" ]; then
    echo "making a root of Debian 12 in $root"
    debootstrap --variant=minbase bookworm "$root" "$mirror" > "$root.log" 2>&1 || { tail -5 "$root.log" >&2; exit 1; }
fi
echo "Debian $(cat "$root/etc/debian_version"), $(chroot "$root" sh -c 'command -v python3 || echo no python3')"

room=$root/srv/rcell
rm -rf "$room"
mkdir -p "$room/dist" "$room/docs" "$room/examples" "$room/tools"
cp "$dist"/rcell-*.whl "$room/dist"
cp -r python VERSION "$room"
cp docs/python.md "$room/docs"
cp -r examples/rasters examples/study.ipynb "$room/examples"
cp tools/debian.sh tools/counting.sh "$room/tools"
# Its mounts are seen by nothing else, and end with it.
unshare --mount sh -c 'mount -t proc proc "$1/proc" && mount --bind /dev "$1/dev" && exec chroot "$1" sh /srv/rcell/python/check.sh' sh "$root"

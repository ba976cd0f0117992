#!/bin/sh
# Runs the quick start of the release in a root of Debian 11, whose C library is older than Debian 12's: from the tarball,
# and again from the package, which is really installed there. As root, with debootstrap of Debian; not part of the gate.
#
#     tools/build/debian11.sh [FOLDER [ROOT]]      FOLDER has the release, dist if it is not given; ROOT is made if it is missing
#
# The last line of each run is 'N passed, M failed'.
set -eu
cd "$(dirname "$0")/../.."
dist=${1:-dist}
root=${2:-${TMPDIR:-/tmp}/rcell-debian11}
mirror=${MIRROR:-http://deb.debian.org/debian}

[ "$(id -u)" = 0 ] || { echo 'rcell: chroot and debootstrap want root' >&2; exit 1; }
sh tools/debian.sh debootstrap debian-archive-keyring
if [ ! -f "$root/etc/debian_version" ]; then
    echo "making a root of Debian 11 in $root"
    debootstrap --variant=minbase bullseye "$root" "$mirror" > "$root.log" 2>&1 || { tail -5 "$root.log" >&2; exit 1; }
fi
# The package brings python3 along, for its helpers.
chroot "$root" apt-get update -q > "$root.log" 2>&1 || { tail -5 "$root.log" >&2; exit 1; }
c=$(chroot "$root" dpkg-query -W libc6)
python=$(chroot "$root" sh -c 'command -v python3 || echo no python3')
echo "Debian $(cat "$root/etc/debian_version"), $c, $python"

status=0
for file in "$dist"/rcell-*-linux-x86_64.tar.gz "$dist"/rcell_*_amd64.deb; do
    rm -rf "$root/srv/quick-start"
    python3 tools/documents/quick_start.py "$file" --root "$root" || status=1
done
chroot "$root" dpkg --purge rcell > /dev/null 2>&1 || true
exit $status

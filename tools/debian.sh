#!/bin/sh
# Installs the packages of Debian that are missing here, and says so.
#
#     tools/debian.sh PACKAGE...
#     tools/debian.sh -f FILE...       the packages that files list, one a line; '#' begins a comment
#
# Status 0: all are there. Status 1: some are missing and cannot be installed, and standard error says which and why.
if [ "$1" = -f ]; then
    shift
    # shellcheck disable=SC2046
    set -- $(sed 's/#.*//' "$@" | awk 'NF { print $1 }' | sort -u)
fi
missing=
for package in "$@"; do
    dpkg-query -W -f '${Status}\n' "$package" 2> /dev/null | grep -q '^install ok installed$' || missing="$missing $package"
done
[ -n "$missing" ] || exit 0

refuse() {
    echo "rcell: packages of Debian are missing:$missing ($1)" >&2
    exit 1
}

command -v apt-get > /dev/null || refuse 'this system has no apt-get: install what they hold in its own way'
[ "$(id -u)" = 0 ] || refuse "run: sudo apt-get install$missing"
echo "rcell: installing packages of Debian:$missing"
export DEBIAN_FRONTEND=noninteractive
log=$(mktemp) || exit 1
trap 'rm -f "$log"' EXIT
install='apt-get install -q -y --no-install-recommends -o DPkg::Lock::Timeout=600'
# shellcheck disable=SC2086
if ! $install $missing > "$log" 2>&1 && ! { apt-get update -q >> "$log" 2>&1 && $install $missing >> "$log" 2>&1; }; then
    tail -5 "$log" >&2
    refuse 'apt-get could not install them, see above'
fi

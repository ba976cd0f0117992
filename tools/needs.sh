#!/bin/sh
# Checks what a build needs: rt of the kit, the kit's clang, Python 3.11 or later, and the programs that are named, such as git for
# the gate and the release. If something is missing, one line on standard error names it, and the status is 1. A kit that has
# checked no version of the proofs gives a warning.
#
#     tools/needs.sh [PROGRAM...]
logic='logic dac8208d650f15bf'
kits="rattle-kit-13b or rattle-kit-13f, $logic"

missing() {
    echo "rcell: $1" >&2
    exit 1
}

command -v rt > /dev/null || missing "rt is missing: put the kit's folder bin/ on the path (kit: $kits)"
for program in "$@"; do
    command -v "$program" > /dev/null || missing "$program is missing: install $program"
done
command -v python3 > /dev/null || missing "python3 is missing: install Python 3.11 or later"
python3 -c 'import sys; sys.exit(sys.version_info < (3, 11))' || missing "$(python3 --version) is too old: install Python 3.11 or later"
clang="$(dirname "$(rt doc)")/toolchain/bin/clang"
[ -x "$clang" ] || missing "clang is missing: the kit has none at $clang, so unpack the kit again"
case $(rt version) in
    "rattle-kit-13b $logic" | "rattle-kit-13f $logic") ;;
    *) echo "rcell: the kit here is '$(rt version)'; versions of the proofs were checked with $kits" >&2 ;;
esac

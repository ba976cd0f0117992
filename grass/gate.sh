#!/bin/sh
# What the gate tries of r.rcell and of the pairs of docs/grass.md: without GRASS how scripts are read and outputs parted,
# and if GRASS is installed a short session. The last line is 'N passed, M failed, K skipped'.
#     gate.sh [PROGRAM]
cd "$(dirname "$0")/.." || exit 1
program=$(realpath "${1:-${RCELL_BIN:-bin}/rcell}")
pipe=$(dirname "$program")/rcell-pipe
room=$(mktemp -d) || exit 1
trap 'rm -rf "$room"' EXIT
. tools/counting.sh
# Debian's Python, which finds Debian's numpy.
python=/usr/bin/python3
[ -x "$python" ] || python=python3

session() {
    mkdir "$room/path" "$room/session" && ln -s "$pipe" "$room/path/rcell-pipe" && ln -s "$PWD/grass/r.rcell/r.rcell.py" "$room/path/r.rcell"
    grass -e -c XY "$room/here" > /dev/null 2>&1
    PATH=$room/path:/usr/bin:/bin timeout 1200 grass "$room/here/PERMANENT" --exec sh "$PWD/grass/tests/session.sh" "$PWD" "$room/session"
}

add 'r.rcell without GRASS' env RCELL="$program" PYTHONDONTWRITEBYTECODE=1 "$python" grass/tests/test_without_grass.py
add 'pairs of scripts' "$python" tools/grass/pairs.py "$program"
if command -v grass > /dev/null; then
    check 'a session of r.rcell' session
else
    skip grass/session 'GRASS is not installed' grass-core
fi
closing

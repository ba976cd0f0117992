#!/bin/sh
# The part of the plugin for QGIS that takes seconds, on bin/rcell and bin/rcell-pipe: what the gate runs of it. Programs and files if GDAL's Python and numpy are
# installed, and if QGIS is, a short session of it without a screen. The last line is 'N passed, M failed, K skipped'.
cd "$(dirname "$0")/.." || exit 1
python=/usr/bin/python3
room=$(mktemp -d) || exit 1
trap 'rm -rf "$room"' EXIT
export RCELL="${RCELL_BIN:-$PWD/bin}/rcell" PYTHONDONTWRITEBYTECODE=1 LC_ALL=C.UTF-8 QT_QPA_PLATFORM=offscreen HOME="$room" XDG_RUNTIME_DIR="$room"
. tools/counting.sh

if "$python" -c 'import numpy, osgeo.gdal' 2> /dev/null; then
    add 'programs and files' "$python" qgis/tests/gate.py test_host.py test_files.py
else
    skip -n 19 qgis 'GDAL for Python or numpy is not installed' python3-gdal python3-numpy
fi
if "$python" -c 'import qgis.core, numpy, osgeo.gdal' 2> /dev/null; then
    add 'a session' "$python" qgis/tests/gate.py test_session.py test_large.py
else
    skip -n 37 qgis/session 'QGIS is not installed' python3-qgis
fi
closing

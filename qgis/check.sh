#!/bin/sh
# Checks the plugin for QGIS that is in dist/: its bytes when it is built again, types, the tests of its programs, files and of a session, and the
# zip in profiles of its own, by qgis_process and in a window without a screen, compared with QGIS's own algorithms and GRASS. The last line
# is 'N passed, M failed, K skipped'.
cd "$(dirname "$0")/.." || exit 1
zip=$PWD/dist/rcell-qgis-$(cat VERSION).zip
python=/usr/bin/python3
room=$(mktemp -d) || exit 1
trap 'rm -rf "$room"' EXIT
unset PYTHONPATH
export PYTHONDONTWRITEBYTECODE=1 LC_ALL=C.UTF-8 QT_QPA_PLATFORM=offscreen HOME="$room" XDG_RUNTIME_DIR="$room"
# In a session of these sources, the static programs are what is tried, as in the zip.
export RCELL="$PWD/bin/rcell-static" RCELL_PIPE="$PWD/bin/rcell-pipe-static" RCELL_QGIS_ZIP="$zip"
. tools/counting.sh

check 'the zip is built' "$python" qgis/build.py "$room/again"
check 'the zip has the same bytes when it is built again' cmp "$zip" "$room/again/$(basename "$zip")"
if command -v mypy > /dev/null; then
    check 'the zip is unpacked' "$python" -m zipfile -e "$zip" "$room/unpacked"
    check types mypy --config-file qgis/mypy.ini --cache-dir "$room/mypy" "$room/unpacked/rcell" qgis/build.py
else
    skip qgis/types 'mypy is not installed' mypy
fi
for tests in test_host.py test_files.py test_session.py test_large.py whole_answers.py whole_process.py whole_window.py whole_document.py; do
    add "$tests" "$python" qgis/tests/gate.py "$tests"
done
closing

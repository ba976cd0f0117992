#!/bin/sh
# Draws the pictures of docs/qgis.md on a screen that is not there: pictures.sh FOLDER, over RCELL. Debian's qgis, xvfb, python3-pil.
set -eu
folder=$(cd "$1" && pwd)
cd "$(dirname "$0")/.."
room=$(mktemp -d)
trap 'rm -rf "$room"' EXIT
cp -r examples/rasters "$room/rasters"
RCELL_QGIS_ROOM=$room PYTHONPATH=$PWD/qgis PYTHONDONTWRITEBYTECODE=1 HOME=$room XDG_RUNTIME_DIR=$room QT_QPA_PLATFORM=xcb LC_ALL=C.UTF-8 \
    xvfb-run -a -s '-screen 0 1280x1024x24' qgis.bin --noversioncheck --nologo --profiles-path "$room/profiles" --code "$PWD/qgis/pictures.py" \
    > "$room/log" 2>&1 || { tail -n 20 "$room/log"; exit 1; }
for name in dialog result model; do
    [ -f "$room/$name.png" ] || { tail -n 20 "$room/log"; cat "$room/error" 2> /dev/null; exit 1; }
    # As few colours as do: a picture of a window has not many.
    /usr/bin/python3 - "$room/$name.png" "$folder/qgis-$name.png" << 'SMALLER'
import sys

from PIL import Image

Image.open(sys.argv[1]).convert("RGB").quantize(128, dither=Image.Dither.NONE).save(sys.argv[2], optimize=True)
SMALLER
    echo "qgis-$name.png: $(wc -c < "$folder/qgis-$name.png") bytes"
done

#!/bin/sh
# What the gate runs of the Python package, on bin/rcell: the tests that need numpy alone, of rasters and files at the edge, of the seven
# calls and rcell-gis next to their peers, and of tiles next to one run.
# The last line is 'N passed, M failed, K skipped'.
cd "$(dirname "$0")/.." || exit 1
room=$(mktemp -d) || exit 1
trap 'rm -rf "$room"' EXIT
. tools/counting.sh
python=/usr/bin/python3
export RCELL="${RCELL_BIN:-$PWD/bin}/rcell" PYTHONPATH="$PWD/python/src" PYTHONDONTWRITEBYTECODE=1
cd python || exit 1

has() {
    "$python" -c "import $1" 2> /dev/null
}
if ! "$python" -c 'import sys; sys.exit(sys.version_info < (3, 11))' 2> /dev/null; then
    skip python 'it needs /usr/bin/python3 of version 3.11 or later' python3
elif ! has 'numpy, pandas'; then
    skip python 'numpy or pandas is not installed' python3-numpy python3-pandas
else
    add 'with numpy alone' "$python" tests/gate.py
    if has 'pytest, hypothesis, rasterio, osgeo, pandas, xarray, rioxarray, zarr, dask.array, distributed, tqdm, pyproj, fiona, geopandas, matplotlib, numpydoc, scipy, sklearn' && command -v grass > /dev/null; then
        add 'at the edge' "$python" tests/gate.py tests/test_gdal.py tests/test_edge.py tests/test_edge_files.py
        add 'the calls' "$python" tests/gate.py tests/test_last_mile.py tests/test_shell.py tests/test_shell_texts.py tests/test_inputs.py tests/test_grass.py tests/test_peers.py
        add 'zones, legends, areas and arguments' "$python" tests/gate.py tests/test_zones.py tests/test_legends.py tests/test_areas.py tests/test_arguments.py tests/test_more_answers.py
        add 'any size' "$python" tests/gate.py tests/test_any_size.py tests/test_xarray.py
        add 'clusters' "$python" tests/gate.py tests/test_clusters.py
        add 'all ways' "$python" tests/any_way.py --count 100
        add 'random rasters by tiles' "$python" ../fronts/random_rasters.py --count 320 tiles
    else
        # shellcheck disable=SC2046
        skip python/edge 'pytest, GRASS or a library of rasters is not installed' $(grep -v '^#' packages.txt)
    fi
fi
closing

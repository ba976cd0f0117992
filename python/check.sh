#!/bin/sh
# Installs the wheel of dist/ into an empty environment, on a path without the kit, and runs there all tests, the types, the
# notebook and docs/python.md. Packages of Debian that are missing are installed by name. The last line is 'N passed, M failed, K skipped'.
cd "$(dirname "$0")/.." || exit 1
sh tools/debian.sh -f python/packages.txt python/packages-all.txt || { echo '0 passed, 1 failed'; exit 1; }

room=$(mktemp -d) || exit 1
trap 'rm -rf "$room"' EXIT
. tools/counting.sh
/usr/bin/python3 -m venv --system-site-packages --without-pip "$room/venv" || exit 1
/usr/bin/python3 -m pip --disable-pip-version-check -q --python "$room/venv/bin/python3" install --no-index --no-deps dist/rcell-*.whl || exit 1
unset RCELL RCELL_PIPE PYTHONPATH PYTHONHOME
export PATH="$room/venv/bin:/usr/bin:/bin" HOME="$room" LC_ALL=C.UTF-8 PYTHONDONTWRITEBYTECODE=1 JUPYTER_PREFER_ENV_PATH=1
mkdir "$room/examples" && cp -r python/tests python/tools python/pyproject.toml "$room" && cp -r examples/rasters examples/study.ipynb "$room/examples"
types="python3 -m mypy --cache-dir $room/mypy --config-file"

echo "python: the programs are $(python3 -c 'import rcell; rcell.show_versions()')"
add tests sh -c 'cd "$1" && python3 tests/gate.py --cov=rcell --cov-report=term --cov-fail-under=90 tests' sh "$room"
check 'the programs of the wheel' test "$(python3 -c 'from rcell.core.programs import find_pipe, find_program; print(find_program(), find_pipe())')" \
    = "$room/venv/bin/rcell $room/venv/bin/rcell-pipe"
check 'types of the package' $types python/pyproject.toml python/src python/tools
check 'types of the benchmarks' env MYPYPATH=python/bench $types python/pyproject.toml python/bench/*.py
check 'types of the tests' sh -c 'cd "$1" && shift && exec "$@"' sh "$room" $types pyproject.toml tests
add documents python3 python/tools/documents.py
add 'random rasters' python3 fronts/random_rasters.py --count 2000 python tiles
closing

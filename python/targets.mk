# make wheel     makes dist/rcell-VERSION-py3-none-..x86_64.whl and dist/rcell-VERSION.tar.gz, the Python package with the static programs in it
# make python    installs the wheel into an empty environment, and runs its tests, types, notebook and document there
# make python-debian12  the same in a root of Debian 12 that has nothing but its base (as root, with debootstrap)
# make python-speed  times the Python package compared with numpy, scikit-image, terra and GRASS, and writes bench/RESULTS.md
# make python-tiles  times calls on a large map with one run and 1, 2 and 4 workers, and writes bench/RESULTS.md; SIDE=16000

.PHONY: wheel python python-debian12 python-speed python-tiles

PYTHON_SOURCES = RCELL=bin/rcell PYTHONPATH=python/src PYTHONDONTWRITEBYTECODE=1 /usr/bin/python3

wheel: static
	@sh python/wheel.sh dist

python: wheel
	@sh python/check.sh

python-debian12: wheel
	@sh python/debian12.sh dist

python-speed: bin/rcell
	@sh tools/debian.sh python3-rasterio python3-pandas python3-skimage g++
	$(PYTHON_SOURCES) python/bench/speed.py

SIDE = 16000
python-tiles: bin/rcell
	@sh tools/debian.sh python3-rasterio python3-pandas
	$(PYTHON_SOURCES) python/bench/any_size.py --side $(SIDE) --write

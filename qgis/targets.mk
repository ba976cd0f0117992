# make qgis-zip  builds dist/rcell-qgis-VERSION.zip, the plugin for QGIS with the static programs in it
# make qgis      the same, and runs its tests without a screen
# make qgis-speed  times the plugin compared with QGIS's own algorithms; SHORT=--short is small, WRITE=--write puts the tables into bench/RESULTS.md
# make qgis-pictures  draws the pictures of docs/qgis.md

.PHONY: qgis qgis-zip qgis-speed qgis-pictures

QGIS_PACKAGES = qgis python3-qgis python3-gdal python3-numpy grass-core xvfb xauth

qgis-zip: static
	@python3 qgis/build.py dist

qgis: qgis-zip
	@sh tools/debian.sh $(QGIS_PACKAGES) python3-mypy
	@sh qgis/check.sh

qgis-speed: bin/rcell
	@sh tools/debian.sh $(QGIS_PACKAGES)
	RCELL=$(CURDIR)/bin/rcell QT_QPA_PLATFORM=offscreen /usr/bin/python3 bench/qgis.py $(SHORT) $(WRITE)

qgis-pictures: bin/rcell
	@sh tools/debian.sh $(QGIS_PACKAGES) python3-pil
	RCELL=$(CURDIR)/bin/rcell sh qgis/pictures.sh docs

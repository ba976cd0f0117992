# make fronts    installs what the packages need of Debian, builds, checks and tests R (and QGIS if it is there); then the table of cases
#                and random calls, CALLS=N of each package
# make fronts-cases  runs the table of cases on the packages that are installed

.PHONY: fronts fronts-cases

fronts: r $(if $(wildcard qgis/targets.mk),qgis)
	@sh tools/debian.sh python3-numpy python3-rasterio
	@sh fronts/gate.sh

fronts-cases: bin/rcell
	@sh fronts/gate.sh

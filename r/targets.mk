# make r-package builds dist/rcell_VERSION.tar.gz, the package for R with the static program in it
# make r         the same, and runs R CMD check, its tests and docs/r.md
# make r-speed   times the package for R compared with terra; SHORT=--short is small

.PHONY: r r-package r-speed

r-package: static
	@sh tools/debian.sh -f r/packages.txt
	@sh r/build.sh dist

r: r-package
	@sh r/check.sh

r-speed: bin/rcell bin/rcell-pipe
	@sh tools/debian.sh -f r/packages.txt
	@room=$$(mktemp -d) && R CMD INSTALL --library=$$room r/rcell > $$room/log 2>&1 && R_LIBS=$$room RCELL=$(CURDIR)/bin/rcell Rscript bench/r.R $(SHORT); status=$$?; rm -rf "$$room"; exit $$status

# make lint      checks sources and documents against the rules, in seconds; WRITE=1 shortens the lists of exceptions
# make reading   prints the definitions to believe, in reading order; COMMAND=r.stats for one command, or PROGRAM=rcell-pipe
# make site      makes dist/site, the documents as pages of HTML with search and references; it works from the file system
# make site-check  opens each page of it in headless Chromium

.PHONY: lint reading site site-check

site:
	@sh tools/debian.sh mkdocs groff r-base-core python3-numpy
	/usr/bin/python3 tools/documents/site

site-check: site
	@sh tools/debian.sh chromium
	/usr/bin/python3 tools/documents/site --check

lint:
	python3 tools/lint $(if $(WRITE),--write)

reading:
	@python3 tools/lint/reading.py $(if $(PROGRAM),--program $(PROGRAM)) $(COMMAND)

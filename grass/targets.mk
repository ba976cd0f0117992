# make grass-check  tests what r.rcell does without GRASS, and where GRASS is installed a short session of it
# make grass-tasks  times five tasks on 20 million cells by GRASS, rcell and r.rcell, and compares (some minutes)

.PHONY: grass-check grass-tasks

grass-check: bin/rcell
	sh grass/gate.sh

grass-tasks: bin/rcell
	python3 tools/grass/exchange.py tasks

#!/bin/sh
# Check the R package in dist/: run R CMD check with its tests and examples, then install the package alone and run each
# block of docs/r.md. The last line is 'N passed, M failed, K skipped'.
cd "$(dirname "$0")/.." || exit 1
package=$PWD/dist/rcell_$(cat VERSION).tar.gz
room=$(mktemp -d) || exit 1
trap 'rm -rf "$room"' EXIT
unset RCELL RCELL_PIPE R_LIBS R_LIBS_USER
# Do not contact any repository.
export R_REPOSITORIES=NULL LC_ALL=C.UTF-8 _R_CHECK_CRAN_INCOMING_=FALSE
. tools/counting.sh

checked() {
    (cd "$room" && R CMD check --no-manual "$package") > "$room/check.log" 2>&1
    grep -E '^\* checking|^Status' "$room/check.log" | grep -v '\.\.\. OK$'
    tail -n 60 "$room"/rcell.Rcheck/tests/*.fail 2> /dev/null
    grep -qx 'Status: OK' "$room/check.log"
}

# Take the number of tests from the check's output.
counted() {
    tests=$(sed -n 's/.*All ok, \([0-9]*\) results.*/\1/p' "$room"/rcell.Rcheck/tests/tinytest.Rout 2> /dev/null | tail -n 1)
    if [ -n "$tests" ]; then echo "$tests passed, 0 failed"; else echo '0 passed, 1 failed'; fi
}

check 'R CMD check' checked
add 'tests within R CMD check' counted
mkdir "$room/library"
check 'the package is installed' R CMD INSTALL --library="$room/library" "$package"
check 'rcell-pipe is in the package' test -x "$room/library/rcell/bin/rcell-pipe"
add 'blocks of docs/r.md' env R_LIBS="$room/library" Rscript r/check_docs.R docs/r.md
closing

#!/bin/sh
# Installs what a user gets below PREFIX, or removes what was installed there: the programs, the helpers, the manual pages, the
# documents, the examples and the add-on for GRASS. `make install`, the tarball and the package all use this one list.
#
#     packaging/install.sh PREFIX [ENDING]         the programs of bin/, or with -static as ENDING the static ones
#     packaging/install.sh --remove PREFIX
set -eu
cd "$(dirname "$0")/.."

documents=share/doc/rcell
shared=share/rcell
installed=$shared/installed
pages=share/man/man1
programs='rcell rcell-pipe'
# The pages that others link to, next to docs/ and examples/.
other_pages='README.md CHANGELOG.md LICENSE.md CITATION.cff VERSION CONTRIBUTING.md SECURITY.md CODE_OF_CONDUCT.md
    bench/RESULTS.md bench/hostile.md fronts/README.md'

# The files of the repository below some paths: those that git tracks, or all if this is no clone.
files() {
    if [ -e .git ] && command -v git > /dev/null; then git ls-files -- "$@"; else find "$@" -name __pycache__ -prune -o -type f -print; fi | LC_ALL=C sort
}

# A line for each file: its mode, its path here, and its path below PREFIX. $1 is what the programs here end in.
list() {
    for name in $programs; do
        echo "755 bin/$name$1 bin/$name"
        if [ -f "docs/$name.1" ]; then echo "644 docs/$name.1 $pages/$name.1"; else echo "644 made:$name $pages/$name.1"; fi
    done
    helpers
    for file in $other_pages; do echo "644 $file $documents/$file"; done
    files docs | grep -E '^docs/[^/]*\.(md|png|svg)$' | while read -r file; do echo "644 $file $documents/$file"; done
    files examples grass/r.rcell | grep -Ev '\.(mk|pyc)$' | while read -r file; do
        mode=644
        [ ! -x "$file" ] || mode=755
        echo "$mode $file $documents/$file"
    done
}

# rcell-gis goes to bin, its page to the others, and the Python package, which it runs, below share/rcell.
helpers() {
    files python/src | grep -v '\.pyc$' | while read -r file; do echo "644 $file $shared/${file#python/src/}"; done
    files helpers | while read -r file; do
        name=${file#helpers/}
        case $name in
            *.1) echo "644 $file $pages/$name" ;;
            *.md | *.mk | tests/*) ;;
            rcell-*) echo "755 $file bin/$name" ;;
            *) echo "644 $file $shared/$name" ;;
        esac
    done
}

# A manual page names the version that it belongs to. The page of rcell is made from docs/commands.md.
put() {
    install -d -m 755 "$(dirname "$3")"
    case $2 in
        made:*)
            python3 tools/documents/manual.py "${2#made:}" > "$3.new"
            chmod "$1" "$3.new"
            mv -f "$3.new" "$3"
            ;;
        *.1)
            sed "s/^\(\.TH [^ ]* 1 [^ ]* \)\(\"[^\"]*\"\|[^ ]*\)/\1\"rcell $(cat VERSION)\"/" "$2" > "$3.new"
            chmod "$1" "$3.new"
            mv -f "$3.new" "$3"
            ;;
        *) install -m "$1" "$2" "$3" ;;
    esac
}

case ${1:-} in
    --remove)
        prefix=${2:?PREFIX}
        [ -f "$prefix/$installed" ] || { echo "rcell: nothing is installed below $prefix: $installed is not there" >&2; exit 1; }
        while read -r target; do rm -f "${prefix:?}/$target"; done < "$prefix/$installed"
        rm "$prefix/$installed"
        # Only folders of our own, and only those that are empty now.
        find "$prefix/$documents" "$prefix/$shared" -depth -type d -exec rmdir {} + 2> /dev/null || true
        ;;
    '')
        echo 'usage: packaging/install.sh PREFIX [ENDING], or packaging/install.sh --remove PREFIX' >&2
        exit 2
        ;;
    *)
        prefix=$1 ending=${2:-}
        for name in $programs; do
            if [ ! -x "bin/$name$ending" ]; then
                echo "rcell: bin/$name$ending is missing: run make first, or unpack a release" >&2
                exit 1
            fi
        done
        umask 022
        list "$ending" | while read -r mode file target; do put "$mode" "$file" "$prefix/$target"; done
        list "$ending" | cut -d ' ' -f 3 > "$prefix/$installed"
        ;;
esac

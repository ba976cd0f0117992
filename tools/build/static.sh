#!/bin/sh
# Links the programs statically: bin/NAME-static, each one file that runs on each Linux on x86-64,
# whatever its C library.
#
#     tools/build/static.sh [FOLDER]         FOLDER is bin if it is not given
#
# Each is linked from its object bin/NAME.o, from which the kit links bin/NAME, by the
# kit's ld.lld with the C library of Debian (libc.a of libc6-dev; libgcc-12-dev), as a position-independent program. First an
# object is shown to be the right one: linked the kit's way it gives the program in bin/, byte for byte. Nothing is compiled
# here, and no code of our own is added.
set -eu
cd "$(dirname "$0")/../.."
output=${1:-bin}
programs='rcell rcell-pipe'

refuse() {
    echo "rcell: $1" >&2
    exit 1
}

for name in $programs; do
    for file in "bin/$name" "bin/$name.o"; do
        [ -f "$file" ] || refuse "$file is missing: run make first"
    done
done
command -v rt > /dev/null || refuse "rt is missing: put the kit's folder bin/ on the path"
kit=$(dirname "$(rt doc)")
libraries="$kit/c/libos_c.a $kit/c/liblibc_c.a"
room=$(mktemp -d)
trap 'rm -rf "$room"' EXIT

# Whether the object of the program $1 is the one that it was linked from.
show() {
    # shellcheck disable=SC2086
    if ! "$kit/bin/rattle-link" --target x86_64-unknown-linux-gnu --toolchain "$kit/toolchain" \
        -o "$room/dynamic" "bin/$1.o" $libraries > "$room/log" 2>&1; then
        cat "$room/log" >&2
        exit 1
    fi
    cmp -s "$room/dynamic" "bin/$1" || refuse "bin/$1.o is not the object that bin/$1 was linked from: run make again"
}

for name in $programs; do
    show "$name"
done

sh tools/debian.sh libc6-dev libgcc-12-dev >&2 || refuse 'no static program without the C library to link'
c=/usr/lib/x86_64-linux-gnu
gcc=/usr/lib/gcc/x86_64-linux-gnu/12
mkdir -p "$output"
for name in $programs; do
    # shellcheck disable=SC2086
    "$kit/toolchain/bin/ld.lld" -static -pie --no-dynamic-linker -z relro -z now -z noexecstack --eh-frame-hdr \
        --build-id=none --strip-all -o "$output/$name-static.new" \
        "$c/rcrt1.o" "$c/crti.o" "$gcc/crtbeginS.o" "bin/$name.o" $libraries \
        --start-group "$c/libc.a" "$gcc/libgcc.a" "$gcc/libgcc_eh.a" --end-group "$gcc/crtendS.o" "$c/crtn.o"
    mv -f "$output/$name-static.new" "$output/$name-static"
done

# What makes two builds of one commit the same bytes, whoever builds, where and when. Sourced at the top of the repository, with the
# folder of the release in $dist; it makes $room, which is removed at the end.
# shellcheck shell=sh
umask 022
export LC_ALL=C TZ=UTC PYTHONDONTWRITEBYTECODE=1
SOURCE_DATE_EPOCH=$(git log -1 --format=%ct)
export SOURCE_DATE_EPOCH
version=$(cat VERSION)
room=$(mktemp -d)
trap 'rm -rf "$room"' EXIT
mkdir -p "$dist"
dist=$(cd "$dist" && pwd)
for program in rcell rcell-pipe; do
    [ -x "bin/$program-static" ] || { echo "rcell: bin/$program-static is missing: run make static first" >&2; exit 1; }
done

# Copies the tracked files below the folder $1 to $2, with the modes that git has.
copy_tracked() {
    git ls-files -s -- "$1" | while read -r mode _ _ file; do
        [ "$mode" = 100755 ] && bits=755 || bits=644
        install -D -m $bits "$file" "$2/${file#"$1"/}"
    done
}

# Makes the tarball $2 of the folder $1 in $room.
pack() {
    tar -C "$room" --sort=name --owner=0 --group=0 --numeric-owner --mtime="@$SOURCE_DATE_EPOCH" --format=ustar -cf - "$1" | gzip -9n > "$room/packed"
    install -m 644 "$room/packed" "$2"
}

#!/bin/sh
# Patches of woodland of half a hectare and more: patch, hectares, largest first.
study=$(dirname "$0")/../study
room=$(mktemp -d) && trap 'rm -rf "$room"' EXIT

cat > "$room/patches" <<'END'
r.reclass input=landcover output=wood
31 thru 39 = 1 woodland
end
r.clump -d input=wood output=patches
r.stats -c -n input=patches
END
rcell "$room/patches" landcover="$study/landcover.txt" |
    awk '$2 * 0.0625 >= 0.5 { printf "%d,%.4f\n", $1, $2 * 0.0625 }' | sort -t, -k2,2nr

#!/bin/sh
# A classification smoothed by the majority of 3 x 3 cells: class, cells before, cells after.
study=$(dirname "$0")/../study
room=$(mktemp -d) && trap 'rm -rf "$room"' EXIT

cat > "$room/majority" <<'END'
r.mapcalc m = nmode(g[-1,-1], g[-1,0], g[-1,1], g[0,-1], g, g[0,1], g[1,-1], g[1,0], g[1,1])
r.mapcalc smooth = if(isnull(g), null(), m)
r.stats -c -n input=g
r.stats -n -c input=smooth
END
rcell "$room/majority" g="$study/landcover.txt" | awk '$1 in before { print $1 "," before[$1] "," $2; next } { before[$1] = $2 }'

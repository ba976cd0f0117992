#!/bin/sh
# Change between two years by zone: zone, class before, class after, hectares.
study=$(dirname "$0")/../study
room=$(mktemp -d) && trap 'rm -rf "$room"' EXIT

# The later map is made: the town grows over arable land, and pasture in the west is planted.
cat > "$room/grow" <<'END'
r.mapcalc later = if(landcover == 21 && row() > 8 && col() > 11, 11, if(landcover == 23 && col() < 8, 32, landcover))
r.out.ascii input=later
END
rcell "$room/grow" landcover="$study/landcover.txt" > "$room/later.txt" || exit

cat > "$room/change" <<'END'
r.mapcalc zone = if(isnull(zones), 0, zones)
r.stats -c -n input=zone,before,later
END
rcell "$room/change" zones="$study/zones.txt" before="$study/landcover.txt" later="$room/later.txt" |
    awk '$2 != $3 { printf "%d,%d,%d,%.4f\n", $1, $2, $3, $4 * 0.0625 }'

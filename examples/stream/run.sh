#!/bin/sh
# Land cover within 25 m of the stream: class, label, hectares.
study=$(dirname "$0")/../study
room=$(mktemp -d) && trap 'rm -rf "$room"' EXIT

cat > "$room/stream" <<'END'
r.mapcalc water = landcover == 51
r.mapcalc near = nmax(water[-1,-1], water[-1,0], water[-1,1], water[0,-1], water[0,1], water[1,-1], water[1,0], water[1,1])
r.mapcalc bank = if(near == 1 && water == 0, landcover, null())
r.reclass input=bank output=classes
11 12 = 1 built
21 thru 29 = 2 farmland
31 thru 39 = 3 woodland
end
r.stats -c -l -n input=classes separator=comma
END
rcell "$room/stream" landcover="$study/landcover.txt" | awk -F, '{ printf "%s,%s,%.4f\n", $1, $2, $3 * 0.0625 }'

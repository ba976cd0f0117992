#!/bin/sh
# Land cover in the protection zones: zone, class, hectares.
study=$(dirname "$0")/../study
room=$(mktemp -d) && trap 'rm -rf "$room"' EXIT

cat > "$room/overlay" <<'END'
r.reclass input=landcover output=classes
11 12 = 1 built
21 thru 29 = 2 farmland
31 thru 39 = 3 woodland
51 = 5 water
end
r.reclass input=zones output=named
1 = 1 core
2 = 2 buffer
end
r.stats -c -l -n input=named,classes separator=comma
END
rcell "$room/overlay" landcover="$study/landcover.txt" zones="$study/zones.txt" |
    awk -F, '{ printf "%s,%s,%.4f\n", $2, $4, $5 * 0.0625 }'

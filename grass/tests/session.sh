# A short session: the study's patches from r.rcell are the same as in GRASS, and a wrong script leaves no file.
#     session.sh REPOSITORY FOLDER
set -e
cd "$2"
r.in.ascii input="$1/examples/study/landcover.txt" output=lc type=CELL --quiet
g.region raster=lc
cat > patches << EOF
r.reclass input=lc output=wood
31 thru 39 = 1 woodland, old
end
r.clump -d input=wood output=patches
r.stats -c -l -n input=wood,patches separator=tab
EOF
r.rcell script=patches maps=lc output=patches,wood=trees table=sizes --quiet
printf '31 thru 39 = 1 woodland, old\n' | r.reclass input=lc output=theirs rules=- --quiet
r.clump -d input=theirs output=areas --quiet 2> /dev/null
r.stats -c -l -n input=theirs,areas separator=tab --quiet | cmp - sizes
[ "$(r.stats -n input=patches,areas --quiet | awk '$1 != $2')" = "" ]
[ "$(r.category map=trees separator=tab)" = "$(printf '1\twoodland, old')" ]
printf 'r.mapcalc x = lc +\n' > wrong
if r.rcell script=wrong maps=lc output=x 2> told; then exit 1; fi
grep -q 'rcell: script:1: unexpected token at column 19' told
grep -q '^    r.mapcalc x = lc +$' told
printf 'r.mapcalc "x = lc * 2"\n' > quoted
if r.rcell script=quoted maps=lc output=x 2> told; then exit 1; fi
grep -q 'rcell: script:1: bad byte at column 11' told
printf 'r.stats -c input=lc\n' > tally
for closed in '<&-' '>&-' '2>&-' '> /dev/full' '<&- >&- 2>&-'; do
    status=0
    timeout 600 sh -c "r.rcell script=tally maps=lc table=counted --overwrite --quiet $closed" 2> told || status=$?
    [ $status = 0 ]
    status=0
    timeout 600 sh -c "r.rcell script=tally maps=lc --quiet $closed" > printed 2> told || status=$?
    if grep -q Traceback told; then exit 1; fi
    case $closed in
        *'>&-'*'2>&-' | '>&-' | '> /dev/full') [ $status = 1 ] ;;
        *) [ $status = 0 ] && cmp printed counted ;;
    esac
done
printf 'r.mapcalc r = row() * 1000 + col()\nr.stats -1 input=r,lc\n' > long
r.rcell script=long maps=lc 2> told | true
if grep -q Traceback told; then exit 1; fi
[ "$(g.list type=raster mapset=. | sort | tr '\n' ' ')" = 'areas lc patches theirs trees ' ]

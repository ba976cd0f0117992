# Does the tasks of ten.py by GRASS, whose maps are there: a name a line in, and out the seconds of the processor of the modules.
#
#     grass --tmp-location XY --exec bash ten.sh FOLDER
export GRASS_OVERWRITE=1 GRASS_VERBOSE=0
for map in lc zones other; do r.in.gdal -o input="$1/$map.tif" output=$map > /dev/null 2>&1 || exit 1; done
g.region raster=lc
TIMEFORMAT='%U %S'
while read -r name; do
    case $name in
        table) task='r.stats -c input=lc' ;;
        'cross table') task='r.stats -c input=lc,zones' ;;
        'masked table') task='r.mask raster=zones maskcats="1 thru 450" && r.stats -c input=lc && r.mask -r' ;;
        expression) task='r.mapcalc "x = if(lc > 40 && lc < 50, zones, 0)"' ;;
        patches) task='r.clump input=lc output=patches' ;;
        'sizes of patches') task='r.clump input=lc output=patches && r.stats -c -n input=patches' ;;
        reclass) task='r.reclass input=lc output=classes rules=$1/rules && r.mapcalc "written = classes"' ;;
        'majority of nine') task='r.neighbors input=lc output=modes method=mode size=3' ;;
        align) task='g.region raster=other && r.resample input=lc output=moved && g.region raster=lc' ;;
        *) echo inf 0 && continue ;;
    esac
    spent=$({ time eval "$task" > "$1/told" 2>&1 < /dev/null; } 2>&1) && echo "$spent" | awk '{ print $1 + $2, 0 }' || exit 1
done

source("helpers.R")

# Reference systems and areas.
map <- function(crs, ...) rast(nrows = 2, ncols = 2, xmin = 0, xmax = 1, ymin = 0, ymax = 1, crs = crs, vals = c(1, 1, 2, 2), ...)

# Without a system there are no areas, unless one is stated.
plain <- matrix(c(1, 1, 2, 2), 2)
expect_identical(names(rcell_composition(plain)), c("class", "cells", "percent"))
expect_identical(names(rcell_composition(plain, crs = "EPSG:25832")), c("class", "cells", "area_ha", "percent"))
expect_identical(refusal(rcell_composition(plain, area = "ha"))$text,
  "area= requires a coordinate reference system, but map has none: state one, for example crs = \"EPSG:25832\", or use area = NULL")
expect_identical(refusal(rcell_table("r.stats -c input=x", x = plain, area = "ha"))$status, 2L)
expect_identical(names(rcell_patches(plain))[4:5], c("perimeter_m", "core_cells"))
expect_identical(rcell_patches(plain)$perimeter_m, c(NA_real_, NA_real_))
expect_identical(names(rcell_change(plain, plain)$summary)[[2]], "before_cells")

# Local, geocentric and vertical systems do not define areas.
site <- map("ENGCRS[\"site\",EDATUM[\"\"],CS[Cartesian,2],AXIS[\"x\",east,LENGTHUNIT[\"foot\",0.3048]],AXIS[\"y\",north,LENGTHUNIT[\"foot\",0.3048]]]")
for (system in list(site, map("EPSG:4978"))) {
  expect_true(grepl("does not define the area of a cell", refusal(rcell_composition(system))$text))
  expect_identical(rcell_composition(system, area = NULL)$cells, c(2L, 2L))
}

# Percentages refer to areas: in degrees, the southern row is larger.
north <- rast(nrows = 2, ncols = 1, xmin = 0, xmax = 10, ymin = 55, ymax = 75, crs = "EPSG:4326", vals = 1:2)
found <- rcell_composition(north)
expect_equal(found$percent, 100 * found$area_ha / sum(found$area_ha))
expect_true(found$percent[[2]] > 55)
expect_identical(rcell_composition(north, area = NULL)$percent, c(50, 50))

# Rows may extend half a cell beyond a pole.
globe <- rast(nrows = 181, ncols = 4, xmin = -180, xmax = 180, ymin = -90.5, ymax = 90.5, crs = "EPSG:4326", vals = 1)
expect_equal(rcell_composition(globe, area = "m2")$area_m2, surface(6378137, 298.257223563), tolerance = 1e-12)
beyond <- rast(nrows = 2, ncols = 2, xmin = 0, xmax = 2, ymin = 88.9, ymax = 90.9, crs = "EPSG:4326", vals = 1)
expect_identical(refusal(rcell_composition(beyond))$text, "the map extends beyond the pole: north is 90.9")

# Different spellings of a system are equal; different systems are not.
own <- asNamespace("rcell")
same <- function(one, other) own$same_crs(crs(one), crs(other))
kilometres <- "+proj=%s +datum=WGS84 +units=km"
expect_true(same(sprintf(kilometres, "utm +zone=32"), sprintf(kilometres, "tmerc +lon_0=9 +k=0.9996 +x_0=500000")))
expect_true(same("EPSG:4326", "OGC:CRS84"))
expect_true(same("+proj=longlat +R=6371000", "+proj=longlat +R=6371000 +type=crs"))
expect_false(same("+proj=longlat +R=6371000", "+proj=longlat +R=6370000"))
expect_false(same("EPSG:25832", "EPSG:32632"))
expect_false(same("EPSG:3035", "+proj=laea +lat_0=52 +lon_0=10 +x_0=4321000 +y_0=3210000 +ellps=GRS80"))
expect_false(same("EPSG:4326", "EPSG:4978"))

# A warning names values that often mean no data if they fill the border.
for (value in c(255, -9999, -32768)) {
  frame <- matrix(value, 5, 5)
  frame[2:4, 2:4] <- 1
  expect_warning(rcell_composition(frame), sprintf("map: %d fills more than half of the map's border", value))
  frame[1, ] <- 2
  frame[2:5, 1] <- 2
  expect_silent(rcell_composition(frame))
}

# If the target grid does not overlap the map, all cells are null.
near <- map("EPSG:25832")
wide <- rast(nrows = 3, ncols = 5, xmin = 10, xmax = 12.5, ymin = 10, ymax = 11.5, crs = "EPSG:25832")
for (far in list(shift(near, 10, 10), wide, aggregate(shift(near, -10), 2))) {
  aligned <- rcell_align(near, to = far, resample = "nearest")
  expect_true(all(is.na(values(aligned))))
  expect_identical(attr(aligned, "aligned")$cells_lost, 4L)
}

# Quantiles are interpolated between distant values.
expect_identical(rcell_zonal(matrix(c(-1500000000, 1500000000), 1), matrix(1, 1, 2))$q50, 0)
expect_identical(leftovers(), character())

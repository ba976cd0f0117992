# SPDX-License-Identifier: Apache-2.0 OR GPL-2.0-or-later
# The bytes of `rcell-pipe`: requests, and the frames of a response. docs/pipe.md defines both.

REQUEST_MAGIC <- charToRaw("RCELLQ1\n")
PLAN_MAGIC <- charToRaw("RCELLP1\n")
RESPONSE_MAGIC <- charToRaw("RCELLA1\n")
TYPE_U8 <- 1L
TYPE_I32 <- 6L
TYPE_TEXT <- 8L
HAS_NODATA <- 1L
PATCHES <- 1L
COMMANDS <- c("r.mapcalc", "r.reclass", "r.clump", "r.stats", "r.out.ascii")
IS_OUTPUT <- 1L
FLAGS <- c("c", "l", "1", "n", "N")
BITS_OF_FLAGS <- c(1L, 2L, 4L, 8L, 16L)
# The number of bytes after the name in a plan's entry for a map that is read, and for a map that is
# needed.
BYTES_OF_MARGINS <- c(32L, 33L)
PATCH_MEASURES <- c("cells", "ends", "flanks", "core", "top", "bottom", "left", "right")
# The class takes one word, each measure two.
WORDS_OF_PATCH <- 1L + 2L * length(PATCH_MEASURES)
# To fill in: columns, rows (and north), type, null, file, first byte, bytes per cell and per row.
RAW_RASTER <- "<VRTDataset rasterXSize=\"%1$.0f\" rasterYSize=\"%2$.0f\">
<GeoTransform>0, 1, 0, %2$.0f, 0, -1</GeoTransform>
<VRTRasterBand dataType=\"%3$s\" band=\"1\" subClass=\"VRTRawRasterBand\">
<NoDataValue>%4$s</NoDataValue><SourceFilename relativeToVRT=\"1\">%5$s</SourceFilename>
<ImageOffset>%6$.0f</ImageOffset><PixelOffset>%7$.0f</PixelOffset>
<LineOffset>%8$.0f</LineOffset><ByteOrder>LSB</ByteOrder></VRTRasterBand></VRTDataset>"

bytes_of <- function(numbers) writeBin(as.integer(numbers), raw(), endian = "little")

short_text <- function(text) {
  bytes <- charToRaw(text)
  c(as.raw(length(bytes)), bytes)
}

region_bytes <- function(region) {
  c(unlist(lapply(region$edges, short_text)), bytes_of(c(region$rows, region$cols)))
}

# Return the bytes that precede a map's cells, which are sent as 32-bit integers.
map_head <- function(name) {
  # R stores NA as -2147483648. A nodata value has 64 bits; the upper half of this one is -1.
  nodata <- bytes_of(c(NA, -1L))
  count_of_labels <- bytes_of(0L) # labels are not sent, because they may contain any text
  c(short_text(name), as.raw(c(TYPE_I32, HAS_NODATA)), nodata, count_of_labels)
}

# Return the bytes that precede the text of a map that is sent as a text grid.
text_head <- function(name, size) {
  flags_nodata_and_labels <- raw(13L)
  digits <- as.integer(size %/% 65536^(0:3) %% 65536) # of a number of 64 bits
  c(
    short_text(name), as.raw(TYPE_TEXT), flags_nodata_and_labels,
    writeBin(digits, raw(), size = 2L, endian = "little")
  )
}

# Return a request: a function that writes its bytes with the function it is given. A source has
# `cells`, a raster that is read in blocks of rows, or a function `text` that writes a text grid.
# All sources have the same region.
run_request <- function(sources, script, questions = list()) function(write) {
  write(c(REQUEST_MAGIC, region_bytes(sources[[1]]$region), bytes_of(length(sources))))
  for (source in sources) {
    if (is.function(source$text)) {
      source$text(write)
    } else {
      write(map_head(source$name))
      each_block(source, write)
    }
  }
  bytes <- unlist(lapply(questions, question_bytes))
  write(c(script_bytes(script), bytes_of(length(questions)), bytes))
}

# Return the bytes of a question about the patches of a map.
question_bytes <- function(question) {
  c(
    as.raw(PATCHES), short_text(question$map), as.raw(question$connectivity),
    bytes_of(question$depth), short_text(question$zones)
  )
}

plan_request <- function(names, script) function(write) {
  count <- bytes_of(length(names))
  names <- unlist(lapply(names, short_text))
  write(c(PLAN_MAGIC, count, names, script_bytes(script)))
}

script_bytes <- function(lines) {
  text <- charToRaw(paste(lines, collapse = "\n"))
  c(bytes_of(length(text)), text)
}

# Return functions that read the fields of a response in order. If the file ends within a field,
# they call `wrong`.
reader_of <- function(from, path, wrong) {
  place <- 0
  end <- file.size(path)
  # Skip bytes and return where they begin.
  pass <- function(bytes) {
    # Evaluating `bytes` may itself read from the file.
    force(bytes)
    place <<- place + bytes
    if (is.na(place) || place > end) wrong()
    place - bytes
  }
  take <- function(kind, count, width) {
    pass(count * width)
    readBin(from, kind, count, width, endian = "little")
  }
  numbers <- function(count = 1) { # 64 bits: the lower half, the upper half
    halves <- matrix(as.numeric(take("integer", 2 * count, 4L)), 2L)
    halves[is.na(halves)] <- -2^31 # R reads this integer as NA
    halves[2L, ] * 2^32 + halves[1L, ] %% 2^32
  }
  bytes <- function(count) take("raw", count, 1L)
  text <- function() {
    text <- rawToChar(bytes(numbers()))
    Encoding(text) <- "UTF-8"
    text
  }
  raster <- function(rows, cols, is_small) { # of one byte per cell, or four
    begin <- pass(rows * cols * (if (is_small) 1 else 4))
    seek(from, place) # continue after the cells
    raster_at(path, begin, rows, cols, is_small)
  }
  texts <- function(count) vapply(seq_len(count), function(place) text(), "")
  list(
    bytes = bytes, integers = function(count) take("integer", count, 4L), numbers = numbers,
    text = text, texts = texts, raster = raster, is_at_end = function() place == end
  )
}

# Return a raster of the cells that begin at a byte of a file, with NA for null. GDAL reads the
# cells directly, because passing them through R would double the cost.
raster_at <- function(path, begin, rows, cols, is_small) {
  header <- paste0(path, ".vrt")
  on.exit(unlink(header))
  type <- if (is_small) "Byte" else "Int32"
  null <- if (is_small) "255" else "-2147483648"
  bytes <- if (is_small) 1 else 4
  lines <- sprintf(RAW_RASTER, cols, rows, type, null, basename(path), begin, bytes, bytes * cols)
  writeLines(lines, header)
  raster <- with_path(header, rast(header))
  varnames(raster) <- ""
  set.values(raster) # read the cells before the file is deleted
  setMinMax(raster)
  raster
}

# Read a table, or a list of cells.
table_frame <- function(reader) {
  line <- as.integer(reader$numbers())
  entries <- reader$numbers()
  width <- reader$numbers()
  has_counts <- reader$bytes(1) == 1L
  has_labels <- reader$bytes(1) == 1L
  reader$bytes(1) # the separator
  reader$text() # the text of null
  maps <- reader$texts(width)
  counts <- if (has_counts) as.integer(reader$numbers(entries))
  cells <- reader$integers(entries * width)
  dim(cells) <- c(width, entries)
  codes <- lapply(seq_len(width), function(map) cells[map, ])
  labels <- if (has_labels) reader$texts(entries * width)
  list(line = line, maps = maps, codes = codes, cells = counts, labels = labels)
}

grid_frame <- function(reader) {
  line <- as.integer(reader$numbers())
  reader$text() # the text of null
  name <- reader$text()
  edges <- reader$texts(length(EDGES))
  rows <- reader$numbers()
  cols <- reader$numbers()
  is_small <- reader$bytes(1) == TYPE_U8
  raster <- reader$raster(rows, cols, is_small)
  list(line = line, maps = name, edges = edges, raster = raster)
}

# Read the measures of patches: the class, then counts, rows and columns (from 0) in 64 bits, and
# the zones if the question names zones.
patches_frame <- function(reader) {
  reader$numbers() # the number of the question
  reader$bytes(5L) # its connectivity and core depth
  has_zones <- reader$bytes(1L) == 1L
  count <- reader$numbers()
  words <- reader$integers(count * (WORDS_OF_PATCH + has_zones)) # a column for each patch
  dim(words) <- c(WORDS_OF_PATCH + has_zones, count)
  halves <- function(place) ifelse(is.na(words[place, ]), -2^31, words[place, ])
  lower <- 2 * seq_along(PATCH_MEASURES) # after the class, in word 1
  measures <- lapply(lower, function(place) halves(place + 1) * 2^32 + halves(place) %% 2^32)
  names(measures) <- PATCH_MEASURES
  c(list(class = words[1L, ]), measures, if (has_zones) list(zone = words[WORDS_OF_PATCH + 1L, ]))
}

# Read a statement: whether it writes a frame, the map that it makes, its flags and maps, the
# combination after which its table begins, and the labels of its rules.
plan_frame <- function(reader) {
  line <- as.integer(reader$numbers())
  command <- COMMANDS[[as.integer(reader$bytes(1))]]
  is_output <- bitwAnd(as.integer(reader$bytes(1)), IS_OUTPUT) > 0L
  made <- reader$text()
  for (bytes in BYTES_OF_MARGINS) for (place in seq_len(reader$numbers())) {
    reader$text()
    reader$bytes(bytes)
  }
  options <- as.integer(reader$bytes(1))
  maps <- reader$texts(reader$numbers())
  after <- reader$integers(reader$numbers())
  list(
    line = line, command = command, is_output = is_output, made = made,
    flags = FLAGS[bitwAnd(options, BITS_OF_FLAGS) > 0L], maps = maps, after = after,
    labels = labels_in(reader)
  )
}

# Read labels. The last label of a category applies.
labels_in <- function(reader) {
  count <- reader$numbers()
  codes <- integer(count)
  labels <- character(count)
  for (rule in seq_len(count)) {
    codes[[rule]] <- reader$integers(1)
    labels[[rule]] <- reader$text()
  }
  kept <- !duplicated(codes, fromLast = TRUE)
  list(codes = codes[kept], labels = labels[kept])
}

end_frame <- function(reader) {
  numbers <- reader$numbers(5)
  list(
    status = numbers[[1]], source = numbers[[2]], maps = numbers[[3]], line = numbers[[4]],
    column = numbers[[5]], text = reader$text()
  )
}

FRAMES <- list(
  TABL = table_frame, CELL = table_frame, GRID = grid_frame, PTCH = patches_frame,
  PLAN = plan_frame, DONE = end_frame
)

# Return the frames of a response, the last of which is DONE. Call `wrong` if the response is
# invalid or incomplete.
read_response <- function(path, wrong) {
  from <- file(path, "rb")
  on.exit(close(from))
  reader <- reader_of(from, path, wrong)
  if (!identical(reader$bytes(length(RESPONSE_MAGIC)), RESPONSE_MAGIC)) wrong()
  frames <- list()
  repeat {
    kind <- rawToChar(reader$bytes(4L))
    if (is.null(FRAMES[[kind]])) wrong()
    frames[[length(frames) + 1L]] <- c(kind = kind, FRAMES[[kind]](reader))
    if (kind == "DONE") break
  }
  if (!reader$is_at_end()) wrong()
  frames
}

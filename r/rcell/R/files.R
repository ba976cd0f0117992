# SPDX-License-Identifier: Apache-2.0 OR GPL-2.0-or-later
# Write files to a private folder, and rename them only when they are complete.

PIECE_BYTES <- 4194304L

# Files that GDAL reads along with a raster. If they belong to an old raster, they would change a
# new one.
SIDECARS <- c(".msk", ".aux.xml", ".ovr")

check_filename <- function(filename, overwrite) {
  is_one <- is.character(filename) && length(filename) == 1L && !is.na(filename)
  check_argument(is_one, filename, "filename= must be a single path")
  check_flag(overwrite, "overwrite")
  if (!nzchar(filename)) return(invisible())
  filename <- native_path(filename)
  target <- linked_path(filename)
  if (dir.exists(target)) write_failed(filename, "Is a directory")
  if (is_stream(target)) return(invisible())
  folder <- dirname(target)
  if (!dir.exists(folder)) write_failed(filename, "No such file or directory")
  if (file.access(folder, 2L) != 0L) write_failed(filename, "Permission denied")
  if (file.exists(target) && !overwrite) write_failed(filename, "it exists: use overwrite = TRUE")
  if (file.exists(target) && file.access(target, 2L) != 0L) {
    write_failed(filename, "Permission denied")
  }
}

# Return the source of a call that may write a file, after checking the file.
map_to_write <- function(x, crs, filename, overwrite) {
  check_filename(filename, overwrite)
  sources <- sources_of(list(map = x), crs)
  check_inputs(filename, inputs_of(sources))
  sources
}

# Return the files from which the sources of a call are read.
inputs_of <- function(sources) files_of(unlist(lapply(sources, `[[`, "files")))

# Reject an output file that is also an input, or that would replace an input next to it.
check_inputs <- function(filename, inputs) {
  if (!nzchar(filename)) return(invisible())
  absolute <- function(paths) {
    normalizePath(vapply(paths, native_path, "", USE.NAMES = FALSE), mustWork = FALSE)
  }
  target <- linked_path(native_path(filename))
  same <- intersect(absolute(paste0(target, c("", SIDECARS))), absolute(inputs))
  if (!length(same)) return(invisible())
  if (!identical(same[[1]], absolute(target))) {
    text <- "the output file would replace %s, which is an input: give another filename="
    bad_argument(text, same[[1]])
  }
  bad_argument("the output file is the input file: give another filename=")
}

# Write a file. `fill` receives a function that writes bytes or 32-bit integers.
write_file <- function(path, fill) {
  failed <- function(e) write_failed(path, conditionMessage(e))
  size <- 0
  to <- tryCatch(file(path, "wb"), error = failed, warning = failed)
  is_open <- TRUE # so that an error below closes the file
  on.exit(if (is_open) close(to))
  fill(function(numbers) {
    # An error while evaluating the argument is not a write failure.
    force(numbers)
    tryCatch(writeBin(numbers, to, endian = "little"), error = failed, warning = failed)
    size <<- size + length(numbers) * (if (is.raw(numbers)) 1 else 4)
  })
  is_open <- FALSE
  tryCatch(close(to), error = failed, warning = failed)
  check_size(path, size)
}

# Check the size of a written file, because R does not report a full disk when it closes a file.
check_size <- function(path, size) {
  size_on_disk <- file.size(path)
  if (!identical(as.numeric(size_on_disk), as.numeric(size))) {
    text <- "only %.0f of its %.0f bytes were written: the disk may be full"
    write_failed(path, text, if (is.na(size_on_disk)) 0 else size_on_disk, size)
  }
}

# Return a path as bytes for the system, because R cannot write non-ASCII letters in the C locale.
native_path <- function(path) {
  if (!validEnc(path)) {
    shown <- iconv(path, "UTF-8", "UTF-8", "byte")
    bad_argument("%s: terra only accepts UTF-8 paths: rename the file", shown)
  }
  if (is_ascii_locale() && Encoding(path) == "UTF-8") Encoding(path) <- "unknown"
  path.expand(path)
}

# Return the target of a path. Links are followed even if their target does not exist yet.
linked_path <- function(path) {
  for (step in seq_len(40L)) { # the limit of Linux
    to <- Sys.readlink(path)
    if (is.na(to) || !nzchar(to) || is_of_system(path)) break
    path <- if (startsWith(to, "/")) to else file.path(dirname(path), to)
  }
  path
}

# Links in /dev and /proc point to open files.
is_of_system <- function(path) grepl("^/(dev|proc)/", path)

# Return whether a path is a device, a pipe or a link in /dev or /proc.
is_stream <- function(path) {
  if (!file.exists(path) || dir.exists(path)) return(FALSE)
  if (is_of_system(path) && nzchar(Sys.readlink(path))) return(TRUE)
  test <- Sys.which("test")[[1]]
  nzchar(test) && run(test, c("-f", path), error_on_status = FALSE)$status != 0L
}

# Run a call in a UTF-8 locale, because terra changes non-ASCII letters of a path in the C locale.
# R evaluates the argument `call` only at the end, in the changed locale.
with_path <- function(path, call) {
  is_ascii <- !any(charToRaw(path) > as.raw(127L))
  if (!is_ascii && validUTF8(path) && !isTRUE(l10n_info()[["UTF-8"]])) {
    before <- Sys.getlocale("LC_CTYPE")
    on.exit(Sys.setlocale("LC_CTYPE", before))
    suppressWarnings(Sys.setlocale("LC_CTYPE", "C.UTF-8"))
  }
  call
}

# Write a raster, unless the filename is empty, and return it as read back from the file.
written <- function(raster, filename, type = "INT4S") {
  force(raster) # its errors are not write failures
  if (!nzchar(filename)) return(raster)
  filename <- native_path(filename)
  target <- linked_path(filename)
  is_stream <- is_stream(target)
  room <- private_folder(if (is_stream) tempdir() else dirname(target), filename)
  on.exit(room$remove())
  # A device name has no extension from which terra could infer the format.
  path <- file.path(room$path, if (is_stream) "map.tif" else basename(target))
  failed <- function(e) write_failed(filename, told(e))
  write <- function() with_path(path, writeRaster(raster, path, datatype = type))
  tryCatch(
    withCallingHandlers(write(), warning = without_colours), error = failed, warning = failed
  )
  check_whole(raster, path, filename)
  if (is_stream) {
    copy_to_stream(path, target, filename)
    return(raster)
  }
  replace_files(room$path, target, filename)
  stored <- with_path(filename, rast(filename))
  # terra assumes degrees for a map without a system if its edges are within 180 by 90.
  if (!nzchar(crs(raster))) crs(stored) <- ""
  stored
}

# Create a folder that only this user can open. A guard process removes it if R is killed.
private_folder <- function(parent, filename) {
  path <- tempfile(".rcell-", tmpdir = parent)
  if (!dir.create(path, showWarnings = FALSE, mode = "0700")) {
    write_failed(filename, "no file can be created in its folder")
  }
  script <- "trap '' HUP INT TERM; cat > /dev/null; rm -rf -- \"$1\"" # `cat` ends when R does
  guard <- process$new("/bin/sh", c("-c", script, "sh", path), stdin = "|", cleanup = FALSE)
  remove <- function() {
    unlink(path, recursive = TRUE)
    guard$kill()
  }
  list(path = path, remove = remove)
}

# Move the files of the folder `room` next to the target, the target itself last. Old sidecar files
# are removed, or restored if the target cannot be replaced.
replace_files <- function(room, target, filename) {
  main <- basename(target)
  sidecars <- setdiff(list.files(room, all.files = TRUE, no.. = TRUE), main)
  if (file.exists(target)) {
    Sys.chmod(file.path(room, main), file.mode(target), use_umask = FALSE)
  }
  old_sidecars <- Filter(file.exists, paste0(target, SIDECARS))
  backups <- file.path(room, sprintf("old%d", seq_along(old_sidecars)))
  is_moved <- suppressWarnings(file.rename(old_sidecars, backups))
  for (name in c(sidecars, main)) {
    place <- file.path(dirname(target), name)
    if (all(is_moved) && suppressWarnings(file.rename(file.path(room, name), place))) next
    unlink(file.path(dirname(target), sidecars))
    suppressWarnings(file.rename(backups[is_moved], old_sidecars[is_moved]))
    write_failed(filename, "the new file cannot be renamed")
  }
}

# Append the bytes of a file to a device or a pipe.
copy_to_stream <- function(path, target, filename) {
  failed <- function(e) write_failed(filename, conditionMessage(e))
  tryCatch({
    from <- file(path, "rb")
    on.exit(close(from))
    to <- file(target, "ab", raw = TRUE)
    on.exit(close(to), add = TRUE)
    while (length(piece <- readBin(from, "raw", PIECE_BYTES))) writeBin(piece, to)
  }, error = failed, warning = failed)
}

# Muffle terra's warning that this cell type has no colours, which it tries to write for a map with
# labels.
without_colours <- function(w) {
  if (grepl("color-table", conditionMessage(w), fixed = TRUE)) invokeRestart("muffleWarning")
}

# Read a written file and compare it with the raster, because a full disk is not reported on
# closing.
check_whole <- function(raster, path, filename) {
  failed <- function(e) write_failed(filename, told(e))
  stored <- tryCatch(with_path(path, rast(path)), error = failed, warning = failed)
  readStart(raster)
  readStart(stored)
  on.exit({
    readStop(raster)
    readStop(stored)
  })
  if (any(is.factor(raster)) && !any(is.factor(stored))) {
    write_failed(filename, "its labels were not written")
  }
  count <- max(1L, BLOCK_CELLS %/% as.integer(ncol(raster)))
  for (row in seq(1L, as.integer(nrow(raster)), by = count)) {
    rows <- min(count, as.integer(nrow(raster)) - row + 1L)
    read <- function(raster) readValues(raster, row = row, nrows = rows)
    cells <- tryCatch(lapply(list(raster, stored), read), error = failed, warning = failed)
    has_same_nulls <- identical(is.na(cells[[1]]), is.na(cells[[2]]))
    if (!has_same_nulls || any(cells[[1]] != cells[[2]], na.rm = TRUE)) {
      write_failed(filename, "the cells in the file differ from the map")
    }
  }
}

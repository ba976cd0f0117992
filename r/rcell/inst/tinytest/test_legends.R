source("helpers.R")

# Legends: accepted files, and the error of each invalid one.
room <- tempfile("legends")
dir.create(room)
land <- matrix(c(1, 2, 3), 1)
written <- function(name, ...) {
  path <- file.path(room, name)
  writeBin(charToRaw(paste0(...)), path)
  path
}
labels_by <- function(legend) suppressWarnings(rcell_composition(land, labels = legend))$label
fault <- function(legend) sub("^.*/[a-z]+[.][a-z]+(, |: | )?", "", refusal(rcell_composition(land, labels = legend))$text)
wanted <- c("wood", "heath, dry", NA)

for (text in c("value,label\n1,wood\n2,\"heath, dry\"\n", "Label,VALUE\r\nwood,1.0\r\n\r\n\"heath, dry\",+2", "\ufeffvalue,label,colour,note\n1,wood,#00ff00,x\n2, \"heath, dry\" ,,\n3,,,\n",
  "\n value , label \n1,wood,,\n2,\"heath, dry\",\n", "value\tlabel\n1\twood\n2\theath, dry\n")) {
  expect_identical(labels_by(written("a.csv", text)), wanted, info = text)
}
expect_identical(labels_by(data.frame(Label = wanted[1:2], Value = 1:2)), wanted)
expect_identical(labels_by(list("1" = "wood", "2" = "heath, dry")), wanted)
expect_identical(labels_by(written("a.csv", "value,label\n1,\"say \"\"x\"\"\nand more\"\n")), c("say \"x\"\nand more", NA, NA))
expect_identical(fault(written("a.csv", "value,label\n1,\"two\nlines\"\nx,y\n")), "line 4: x is not a whole number from -2147483647 to 2147483647")
expect_identical(fault(written("a.csv", "value,label\n1,a\n99999999999,b\n")), "line 3: 99999999999 is not a whole number from -2147483647 to 2147483647")
expect_identical(fault(written("a.csv", "value,label\n1,a\n\n1.0,b\n")), "line 4: value 1.0 occurs twice")
expect_identical(fault(written("a.csv", "value,label\n1,a, b\n")), "line 2: 3 fields, but the header has 2: put labels that contain commas in quotes")
expect_identical(fault(written("a.csv", "value,label,color\n1,a,red\n")), "line 2: red is not a colour in the form #rrggbb")
expect_identical(fault(written("a.csv", "value;label\n1;a\n")), "line 1: the header must contain value and label, separated by commas or tabs; got value;label")
expect_identical(fault(written("a.csv", "value,label\n")), "has no values below its header")
expect_identical(fault(written("a.csv", "value,label\n1,\"a\n")), "line 2: a quotation mark is not closed")
expect_identical(fault(written("a.csv", " \n")), "is empty")
path <- written("a.csv", "value,label\n1,a\n")
writeBin(c(charToRaw("value,label\n1,a"), as.raw(0), charToRaw("b\n")), path)
expect_identical(fault(path), "line 2 contains a null byte, so this is not text: save the file as UTF-8")
writeBin(c(charToRaw("value,label\n1,a"), as.raw(0xe4), charToRaw("b\n")), path)
expect_true(startsWith(fault(path), "line 2 is not UTF-8: save the file as UTF-8"))

# Styles: XML with both kinds of quotes, character references and comments, but no custom entities.
style <- function(...) written("a.qml", "<!DOCTYPE qgis PUBLIC 'http://mrcc.com/qgis.dtd' 'SYSTEM'>\n<qgis><colorPalette>\n", ..., "</colorPalette></qgis>\n")
entry <- "<paletteEntry value=\"%s\" color='#00ff00' label=\"%s\"/>"
expect_identical(labels_by(style(sprintf(entry, "1", "a > b"), "<!-- <paletteEntry value='2' label='x'/> -->", sprintf(entry, "2.0", "w&#246;d &amp; &#x41;"))), c("a > b", "w\u00f6d & A", NA))
expect_identical(fault(style(sprintf(entry, "1.5", "a"))), "line 3: 1.5 is not a whole number from -2147483647 to 2147483647")
expect_identical(fault(style(sprintf(entry, "1", "&own;"))), "line 3: &own; is not one of XML's own entities")
expect_identical(fault(style(sprintf(entry, "1", "&#0;"))), "line 3: &#0; is not a character")
expect_identical(fault(style("<paletteEntry value=\"1\">")), "line 3: found </colorPalette>, expected the end of <paletteEntry>")
expect_identical(fault(style()), "has no classes: it contains neither a palette nor a colour ramp")
expect_identical(fault(written("a.qml", "<!DOCTYPE q [<!ENTITY a \"b\">]><q/>")), "line 1: not XML, or XML with custom entities, which are not supported")
expect_identical(fault(written("a.qml", "<?xml version=\"1.0\" encoding=\"ISO-8859-1\"?><q/>")), "line 1: its encoding is ISO-8859-1: save the file as UTF-8")
items <- "<colorrampshader><item value=\"1\" label=\"a\"/><item value=\"inf\" label=\"b\"/></colorrampshader>"
expect_identical(fault(style(items)), "line 3: inf is not a whole number from -2147483647 to 2147483647")
expect_identical(labels_by(style(sub("inf", "2", items))), c("a", "b", NA))
expect_true(startsWith(refusal(rcell_composition(land, labels = 7))$text, "must be the path of a CSV, TSV or QML file"))
expect_identical(refusal(rcell_composition(land, labels = list("1" = c("a", "b"))))$text, "each class must have one value; got 2 for 1")

# Two classes with the same label have separate rows and columns.
matrix <- rcell_change(land, matrix(c(2, 2, 1), 1), labels = c("1" = "wood", "2" = "wood", "3" = "2"))$matrix
expect_identical(names(matrix), c("from", "wood (1)", "wood (2)"))
expect_identical(matrix$from, c("wood (1)", "wood (2)", "2"))
unlink(room, recursive = TRUE)
expect_identical(leftovers(), character())

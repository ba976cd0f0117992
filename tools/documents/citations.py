"""Check that the edits, functions, clauses, laws, definitions and tests that the documents cite
exist.

- An edit is cited as CRATE/FOLDER/NAME. FOLDER is edits, named or must-fail. Further names after a
  comma are in the same folder.
- In a table with a column of clauses, each name in that column must be a label of a function named
  in its row.
- On the pages about proofs, each name in backticks that looks like a name of the crates must be
  one.
- docs/architecture.md must have one row for each crate of the product, and no other rows.
"""
import functools
import pathlib
import re
import sys
from collections import Counter

ROOT = pathlib.Path(__file__).resolve().parents[2]
sys.path.insert(1, f"{ROOT}/tools/lint")

import crate_graph
import sources

PAGES_ABOUT_PROOFS = ("proofs.md", "theorems.md", "architecture.md")
EDITS = re.compile(r"(\w+/(?:must-fail|named|edits))/([\w-]+(?:, [\w-]+-[\w-]+)*)")
CODE = re.compile(r"`([^`]+)`")
IN_PARENTHESES = re.compile(r"\(`([a-z_]+)`\)")
NAME = re.compile(r"[A-Za-z]\w*(?:::\w+)*")
ROW = re.compile(r"^\|(.*)\|$")
ROW_OF_CRATE = re.compile(r"^\| `(r?cell\w*)` \|", re.MULTILINE)
# Names of Rust, of the kit and of the C functions that it calls, of commands and options, and words
# of the expression language.
OTHERS = set(
    """if and or run new row col nrows ncols isnull null eval abs min max mode nmin nmax nmode x g a b f
Err Ok None Some Drop Copy Clone bstr itoa clap thiserror circular_buffer std lines_of without_terminator rcell
rattle_alloc rattle_realloc rattle_dealloc rattle_arg rattle_errno rattle_set_errno lseek""".split()
)
NO_LABELS = {
    "as",
    "none",
    "next_gives",
    "remaining",
}  # words of the tables, and clauses of the kit's Iterator


def names_in(text):
    """Return the names in a text. A path such as crate::function is split into its parts."""
    return {part for found in NAME.findall(text) for part in found.split("::")}


@functools.cache
def labels_of():
    """Return the labels of each function's clauses, by function name, and of all functions of a
    type, by type name."""
    found = {}
    for it in sources.read_functions(True):
        for name in {it.name, *names_in(it.container)}:
            found.setdefault(name, set()).update(
                clause.label for clause in it.clauses if clause.label
            )
    return found


@functools.cache
def known_names():
    """Return all names that a page about proofs may cite."""
    found = {
        *OTHERS,
        *labels_of(),
        *sources.crate_names(True),
        *(word for used in sources.crate_edges().values() for word in used),
    }
    found.update(label for labels in labels_of().values() for label in labels)
    for kind in ("src", "specs", "proofs"):
        for _, path, text in sources.read_files(kind, True):
            found.update(pathlib.Path(path).parts[:-1], [pathlib.Path(path).stem], names_in(text))
    for folder in ("tools", "tools/*", "cases", "cases/*", "examples"):
        found.update(path.stem.replace("-", "_") for path in ROOT.glob(f"{folder}/*"))
    return found


def lost_edits(text):
    """Return the edits that a text cites and that do not exist."""
    found = []
    for folder, names in EDITS.findall(text):
        found += [
            f"{folder}/{name}"
            for name in names.split(", ")
            if not list((sources.CRATES / folder).glob(f"{name}*"))
        ]
    return found


def rows_with_clauses(text):
    """Yield the rows of tables with a column of clauses: the line number, the row with the names in
    its heading, and the cell in that column."""
    column, at_head, head = None, True, ""
    for number, line in enumerate(text.split("\n"), 1):
        row = ROW.match(line)
        if row is None:
            at_head, column = True, None
            continue
        cells = [cell.strip() for cell in re.split(r"(?<!\\)\|", row[1])]
        if at_head:
            column = next(
                (place for place, cell in enumerate(cells) if "clause" in cell.lower()), None
            )
            at_head, head = False, "".join(CODE.findall(line))
        elif column is not None and len(cells) > column:
            yield number, f"{line} {head}", cells[column]


def labels_cited(cell):
    """Return the labels that a cell in a column of clauses names: words in backticks, and single
    words between commas."""
    alone = [part.strip() for part in re.split(r"[,;:]", CODE.sub("", cell))]
    return [*CODE.findall(cell), *(part for part in alone if re.fullmatch(r"[a-z_]+", part))]


def lost_labels(text):
    """Return the labels that a table cites and that no function of the row has. A row with an empty
    first cell continues the row above."""
    found, above = [], ""
    for number, row, cell in rows_with_clauses(text):
        above = f"{above} {row}" if row.startswith("| |") else row
        known = {
            label for name in names_in(above) for label in labels_of().get(name, ())
        } | NO_LABELS
        cited = [*labels_cited(cell), *IN_PARENTHESES.findall(row)]
        found += [
            f"{number}: no function of the row has a clause {label}"
            for label in dict.fromkeys(cited)
            if re.fullmatch(r"[a-z_]+", label) and label not in known and label not in labels_of()
        ]
    return found


def lost_names(text):
    """Return the names in backticks on a page about proofs that the sources do not contain."""
    prose = re.sub(r"```.*?^```", "", text, flags=re.MULTILINE | re.DOTALL)
    codes = [code for code in CODE.findall(prose) if re.fullmatch(r"[A-Za-z]\w*(?:::\w+)*", code)]
    return sorted(
        {
            f"`{code}` is no name of the sources"
            for code in codes
            if not names_in(code) <= known_names()
        }
    )


def lost_crates(text):
    """Return the product's crates without exactly one row in the tables of crates, and rows that
    are not crates."""
    rows, crates = Counter(ROW_OF_CRATE.findall(text)), set(crate_graph.crates())
    found = [
        f"the crate {name} has {rows[name]} rows, not 1"
        for name in sorted(crates)
        if rows[name] != 1
    ]
    return found + [f"`{name}` is no crate of the product" for name in sorted(set(rows) - crates)]


def check():
    """Return the number of documents that cite only what exists, and the wrong citations in the
    others."""
    passed, faults = 0, []
    for name in [
        "README.md",
        *sorted(f"docs/{path.name}" for path in (ROOT / "docs").glob("*.md")),
    ]:
        text = (ROOT / name).read_text(encoding="utf-8")
        found = [f"there is no edit {edit}" for edit in lost_edits(text)]
        if name.rpartition("/")[2] in PAGES_ABOUT_PROOFS:
            found += lost_labels(text) + lost_names(text)
        if name.endswith("architecture.md"):
            found += lost_crates(text)
        passed += not found
        faults += [f"{name}: {fault}" for fault in found]
    return passed, faults

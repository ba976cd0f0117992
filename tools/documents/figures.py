"""Check the figures in the documents: README.md and docs/speed.md show the figures of
bench/RESULTS.md, marked with their program.

    python3 tools/documents/figures.py PROGRAM SECTION..     mark sections of bench/RESULTS.md as
                                                             measured with a program

- A mark `<!-- figures: VERSION sha256:SUM -->` precedes a table. It contains the version of rcell
  and the first 12 digits of the SHA-256 of the program that was measured. The tools in bench/ write
  it.
- Each mark in README.md, docs/speed.md and bench/RESULTS.md has a table below it, and is of this
  version. Each section of bench/RESULTS.md with a table has a mark, and so has each table of
  docs/speed.md.
- The figures of each row below a mark are together on a line of bench/RESULTS.md.
- A mark in README.md or docs/speed.md is also in bench/RESULTS.md. A mark in the older form, a
  commit, is replaced when its section is measured again.
"""
import hashlib
import pathlib
import re
import sys

ROOT = pathlib.Path(__file__).resolve().parents[2]
README, PAGE, RESULTS = "README.md", "docs/speed.md", "bench/RESULTS.md"
DIGITS = 12
# A mark with a commit is from figures measured before marks named programs. No such marks are
# added.
MARK = re.compile(rf"<!-- figures: (?:(\S+) sha256:[0-9a-f]{{{DIGITS}}}|[0-9a-f]{{8}}) -->")
TABLE = re.compile(r"^\|[ -]*-[-| ]*\|$", re.MULTILINE)
HEADING = re.compile(r"^(?=##+ )", re.MULTILINE)
FIGURE = re.compile(r"\d+(?:\.\d+)?")
NO_FIGURES = {"2", "3", "4", "25"}  # sizes of grids, in millions of cells, and of windows


def text_of(name):
    return (ROOT / name).read_text(encoding="utf-8")


def mark_of(program):
    """Return the mark for what is measured with a program now."""
    found = hashlib.sha256(pathlib.Path(program).read_bytes()).hexdigest()
    return f"<!-- figures: {text_of('VERSION').strip()} sha256:{found[:DIGITS]} -->"


def mark_sections(program, sections):
    """Mark sections as measured with a program. On the other pages, replace marks that no section
    has any more."""
    parts, mark = HEADING.split(text_of(RESULTS)), mark_of(program)
    titles = [part.partition("\n")[0].strip("# ") for part in parts]
    if unknown := set(sections) - set(titles):
        sys.exit(f"{RESULTS} has no section {', '.join(sorted(unknown))}")
    marked = "".join(
        MARK.sub(mark, part) if title in sections else part for title, part in zip(titles, parts)
    )
    (ROOT / RESULTS).write_text(marked, encoding="utf-8")
    for name in (README, PAGE):
        text = MARK.sub(lambda it: it[0] if it[0] in marked else mark, text_of(name))
        (ROOT / name).write_text(text, encoding="utf-8")


def tables_of_results():
    """Return the rows of bench/RESULTS.md by task and map, each as its cells without the map. The
    first row with a name counts."""
    found = {}
    for line in text_of(RESULTS).splitlines():
        first, *cells = [cell.strip() for cell in line.strip("|").split("|")]
        if cells:
            found.setdefault((cells[0], first), cells)
    return found


def marks_of(name):
    """Return the marks of a page, each with the text up to the next mark or heading."""
    parts = re.split(r"(?=<!-- figures: )|^(?=##+ )", text_of(name), flags=re.MULTILINE)
    return [(found, part) for part in parts if (found := MARK.match(part))]


def check_rows():
    """Return the number of rows in README.md and docs/speed.md whose figures are together on a line
    of bench/RESULTS.md."""
    known = [
        set(FIGURE.findall(line)) for line in text_of(RESULTS).splitlines() if line.startswith("|")
    ]
    passed, faults = 0, []
    for name in (README, PAGE):
        rows = [
            line for _, part in marks_of(name) for line in part.splitlines() if line.startswith("|")
        ]
        for row in rows:
            figures = set(FIGURE.findall("|".join(row.split("|")[2:]))) - NO_FIGURES
            if figures and any(figures <= line for line in known):
                passed += 1
            elif figures:
                faults.append(f"{name}: no line of {RESULTS} has {', '.join(sorted(figures))}")
    return passed, faults


def unmarked(name):
    """Return the tables of a page without a mark above them, by section."""
    sections = [part for part in HEADING.split(text_of(name)) if TABLE.search(part)]
    return [
        section.partition("\n")[0]
        for section in sections
        if not MARK.search(section.partition("\n|")[0])
    ]


def check_marks():
    """Return the number of marks that have a table and are of this version."""
    passed, faults, recorded = 0, [], {mark[0] for mark, _ in marks_of(RESULTS)}
    version = text_of("VERSION").strip()
    for name in (README, PAGE, RESULTS):
        marks = marks_of(name)
        found = [] if marks else [f"{name}: no mark of figures"]
        if text_of(name).count("<!-- figures: ") != len(marks):
            found.append(f"{name}: a mark is not of the form VERSION sha256:SUM")
        for mark, part in marks:
            wrong = [
                "" if mark[1] in (None, version) else f"is not of version {version}: make figures",
                "" if TABLE.search(part) else "has no table below it",
                "" if mark[0] in recorded else f"is not in {RESULTS}",
            ]
            found += [f"{name}: {mark[0]} {it}" for it in wrong if it]
        if name != README:
            found += [
                f"{name}: no mark above the table of '{section}'" for section in unmarked(name)
            ]
        passed, faults = passed + len(marks), faults + found
    return passed, faults


def check():
    """Return the number of right figures and marks, and the errors of the others. A release
    contains no bench/RESULTS.md."""
    if not (ROOT / RESULTS).exists():
        return 0, []
    counted = [check_rows(), check_marks()]
    return sum(passed for passed, _ in counted), [
        fault for _, faults in counted for fault in faults
    ]


if __name__ == "__main__":
    mark_sections(sys.argv[1], sys.argv[2:])

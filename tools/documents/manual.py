#!/usr/bin/env python3
"""Make the manual page of a program from its page in docs/, which is the source of both.

    manual.py NAME > NAME.1

Headings become sections, table rows become terms with their meaning, and blocks become examples. A
section with the name of the program is replaced with its subsections. The page ends with the names
of the other programs.
"""
import pathlib
import re
import sys

ROOT = pathlib.Path(__file__).resolve().parents[2]
# The document of a program, what the program does, and the heading for the lines before the first
# section.
PAGES = {
    "rcell": (
        "docs/commands.md",
        "map algebra and category tables for raster maps of whole numbers",
        "Grids of the examples",
    ),
}
FIRST = ["Synopsis", "Description"]
CODE = re.compile(r"(`[^`]+`)")
FENCE = re.compile(r"^```[^\n]*\n.*?^```$", re.MULTILINE | re.DOTALL)
# Precedes a line in a block that begins like a heading.
HIDING = "\0"


def escaped(text):
    """Return text for roff, in which backslashes, dashes and leading points have no special
    meaning."""
    text = text.replace("\\", "\\e").replace("-", "\\-")
    return re.sub(r"^([.'])", r"\\&\1", text, flags=re.MULTILINE)


def inline(text):
    """Return a paragraph, a heading or a table cell for roff, with code in bold and without
    links."""
    text = re.sub(r"!?\[([^\]]*)\]\([^)]*\)", r"\1", " ".join(text.split()).replace("\\|", "|"))
    parts = []
    for part in CODE.split(text):
        is_code = part.startswith("`") and len(part) > 1
        part = escaped(part.strip("`") if is_code else part)
        part = part if is_code else re.sub(r"\*\*?([^*]+)\*\*?", r"\\fI\1\\fP", part)
        parts.append(f"\\fB{part}\\fP" if is_code else part)
    return re.sub(r"^([.'])", r"\\&\1", "".join(parts))


def row(line):
    return [cell.strip() for cell in re.split(r"(?<!\\)\|", line.strip()[1:-1])]


def table(lines):
    """Return a table as terms with their meaning. A third column is named by its heading."""
    heads, *rows = [row(line) for line in lines if not re.fullmatch(r"[|\s:-]+", line)]
    parts = []
    for first, second, *more in rows:
        others = "".join(f" ({head.lower()}: {cell})" for head, cell in zip(heads[2:], more))
        parts += [".TP", inline(first) or "\\&", inline(second + others)]
    return parts


def block(text):
    return [".PP", ".RS 4", ".EX", escaped(text.replace(HIDING, "")).rstrip("\n"), ".EE", ".RE"]


def paragraph(lines):
    """Return a paragraph, or the items of a list, each with the lines that continue it."""
    if not re.match(r"- |\d+\. ", lines[0]):
        return [".PP", inline(" ".join(lines))]
    items = re.split(r"^(?=- |\d+\. )", "\n".join(lines), flags=re.MULTILINE)[1:]
    marked = [re.match(r"(- |\d+\. )(.*)", it, re.DOTALL) for it in items]
    return [
        line
        for it in marked
        for line in (f".IP {'•' if it[1] == '- ' else it[1].strip()} 4", inline(it[2]))
    ]


def roff(text):
    """Return a part of a document without headings for roff."""
    parts = []
    for fence, piece in re.findall(
        r"^```[^\n]*\n(.*?)^```$|((?:^(?!```)[^\n]*\n)+)", text, re.M | re.S
    ):
        if fence:
            parts += block(fence)
        for lines in (it.split("\n") for it in piece.strip("\n").split("\n\n") if it.strip()):
            parts += table(lines) if lines[0].startswith("|") else paragraph(lines)
    return parts


def sections(name, text, lead):
    """Yield the macro, the heading and the text of each section."""
    text = FENCE.sub(lambda it: re.sub(r"^#", f"{HIDING}#", it[0], flags=re.M), text)
    pieces = re.split(r"^(#{1,3}) (.*)\n", text, flags=re.M)
    is_own = False
    for marks, heading, body in zip(pieces[1::3], pieces[2::3], pieces[3::3]):
        if marks == "##":
            is_own = heading == name
        if marks == "#":
            yield "SH", lead, body
        elif heading != name:
            yield "SH" if marks == "##" or is_own else "SS", heading, body


def page(name):
    """Return the manual page of a program."""
    document, does, lead = PAGES[name]
    text = (ROOT / document).read_text(encoding="utf-8")
    found, grouped = list(sections(name, text, lead)), {}
    for macro, heading, body in found:
        if macro == "SH":
            above = grouped.setdefault(heading, [])
        above += [
            f'.{macro} "{inline(heading.upper() if macro == "SH" else heading)}"',
            *roff(body),
        ]
    version = (ROOT / "VERSION").read_text(encoding="utf-8").strip()
    helpers = [it.stem for it in (ROOT / "helpers").glob("*.1")]
    others = sorted(
        {*PAGES, "rcell-pipe", *helpers} - {name}, key=lambda it: (it != "rcell-gis", it)
    )
    ordered = sorted(grouped, key=lambda it: FIRST.index(it) if it in FIRST else len(FIRST))
    return "\n".join(
        [
            f'.\\" Made of {document} by tools/documents/manual.py.',
            f'.TH {name.upper()} 1 "" "rcell {version}" "User Commands"',
            ".SH NAME",
            f"{escaped(name)} \\- {escaped(does)}",
            *(line for heading in ordered for line in grouped[heading]),
            '.SH "SEE ALSO"',
            ", ".join(f"\\fB{escaped(it)}\\fP(1)" for it in others),
            ".PP",
            "The other pages are in share/doc/rcell next to the folder of the programs.",
            "",
        ]
    )


if __name__ == "__main__":
    sys.stdout.write(page(sys.argv[1]))

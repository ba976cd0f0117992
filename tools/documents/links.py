"""Check the links in the documents: each linked file exists, and each anchor is a heading of it.

Anchors are derived from headings as on GitHub. Links to other hosts are not checked.
"""
import functools
import pathlib
import re
import subprocess

ROOT = pathlib.Path(__file__).resolve().parents[2]
LINK = re.compile(r"!?\[[^\]]*\]\(([^)\s]+)\)")
FENCED = re.compile(r"^```.*?^```$", re.MULTILINE | re.DOTALL)
HEADING = re.compile(r"^#+ (.+)$", re.MULTILINE)


def documents():
    """Return the Markdown files of the repository, as relative paths."""
    listed = subprocess.run(
        ["git", "ls-files", "--cached", "--others", "--exclude-standard", "*.md"],
        cwd=ROOT,
        capture_output=True,
        text=True,
        check=False,
    )
    names = listed.stdout.split() or [str(path.relative_to(ROOT)) for path in ROOT.rglob("*.md")]
    return [name for name in names if (ROOT / name).is_file()]


@functools.cache
def anchors_of(path):
    """Return the anchors of a document's headings. A repeated anchor ends in -1."""
    found, seen = set(), {}
    for heading in HEADING.findall(FENCED.sub("", path.read_text(encoding="utf-8"))):
        text = re.sub(r"\[([^\]]*)\]\([^)]*\)", r"\1", heading).replace("`", "").strip().lower()
        anchor = re.sub(r"[^\w\- ]", "", text).replace(" ", "-")
        count = seen.get(anchor, 0)
        seen[anchor] = count + 1
        found.add(f"{anchor}-{count}" if count else anchor)
    return found


def fault_of(document, link):
    """Return the error of a link in a document, or ''."""
    if re.match(r"\w+:", link):
        return ""
    name, _, anchor = link.partition("#")
    path = (document.parent / name).resolve() if name else document
    if not path.exists():
        return f"there is no {link}"
    return (
        f"{name or document.name} has no heading for #{anchor}"
        if anchor and path.suffix == ".md" and anchor not in anchors_of(path)
        else ""
    )


def faults_of(path):
    """Return the error of each link in a document, or ''."""
    prose = re.sub(r"`[^`\n]*`", "", FENCED.sub("", path.read_text(encoding="utf-8")))
    return [fault_of(path, link) for link in LINK.findall(prose)]


def faults_below(folder):
    """Return the errors of the links in the documents below a folder, for example of a release."""
    return [
        f"{path.relative_to(folder)}: {fault}"
        for path in sorted(pathlib.Path(folder).rglob("*.md"))
        for fault in faults_of(path)
        if fault
    ]


def check():
    """Return the number of valid links in the documents, and the errors of the others."""
    found = [(name, fault) for name in documents() for fault in faults_of(ROOT / name)]
    faults = [f"{name}: {fault}" for name, fault in found if fault]
    return len(found) - len(faults), faults

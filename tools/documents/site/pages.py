"""Make the pages of the site: the repository's Markdown with new names, a landing page, and the
search index."""
import html
import json
import os
import pathlib
import re
import shutil
import subprocess

import reference
import spans

HERE = pathlib.Path(__file__).resolve().parent
# The pages in the order of the menu: heading, then title and file in the repository.
MENU = {
    "Start": {
        "Overview": "README.md",
        "Tutorial": "docs/tutorial.md",
        "Examples": "examples/README.md",
        "Change": "examples/change/README.md",
        "Woodland": "examples/woodland/README.md",
        "Stream": "examples/stream/README.md",
        "Majority": "examples/majority/README.md",
        "Protected zones": "examples/protected/README.md",
        "A map in many files": "examples/large-map/README.md",
        "Islands": "examples/islands/README.md",
    },
    "Guides": {
        "How to": "docs/howto.md",
        "Large maps": "docs/large-maps.md",
        "Python": "docs/python.md",
        "R": "docs/r.md",
        "QGIS": "docs/qgis.md",
        "From GRASS": "docs/grass.md",
        "Compared with other tools": "docs/compared.md",
        "Questions": "docs/faq.md",
    },
    "Reference": {
        "Commands": "docs/commands.md",
        "Cheat sheet": "docs/cheatsheet.md",
        "Errors": "docs/errors.md",
        "rcell-pipe": "docs/pipe.md",
    },
    "Trust": {
        "What is proved": "docs/proofs.md",
        "Validation": "docs/validation.md",
        "Theorems": "docs/theorems.md",
        "Speed": "docs/speed.md",
        "Benchmarks": "bench/RESULTS.md",
        "Hostile use": "bench/hostile.md",
    },
    "Project": {
        "Changes": "CHANGELOG.md",
        "Licence": "LICENSE.md",
        "Contributing": "CONTRIBUTING.md",
        "Architecture": "docs/architecture.md",
        "Decisions": "docs/DECISIONS.md",
        "Security": "SECURITY.md",
        "Code of conduct": "CODE_OF_CONDUCT.md",
        "Example rasters": "examples/rasters/README.md",
    },
}
TITLES = {name: title for titles in MENU.values() for title, name in titles.items()}
PICTURES = {
    "islands-islands.png": ("Islands of South-East Asia", "islands.html"),
    "study.png": ("A land-cover study", "tutorial.html"),
    "qgis-result.png": ("Patches in QGIS", "qgis.html"),
    "qgis-dialog.png": ("A cross table in QGIS", "qgis.html"),
    "qgis-model.png": ("A model in QGIS", "qgis.html"),
    "change-picture.png": ("Change between two years", "change.html"),
    "woodland-picture.png": ("Large woods", "woodland.html"),
    "stream-picture.png": ("Along a stream", "stream.html"),
    "majority-picture.png": ("Majority filter", "majority.html"),
    "protected-picture.png": ("Protected zones", "protected.html"),
    "landcover.png": ("A map drawn with GDAL", "howto.html"),
    "speed.png": ("Compared with C++", "speed.html"),
}
SCRIPTS = ("site.css", "search.js", "copy.js")
EXTENSIONS = ["tables", "fenced_code"]
# The weights of pages in the search, if they differ from 1.
WEIGHTS = {"commands.html": 2, "results.html": 0.1, "hostile.html": 0.1, "changelog.html": 0.1}
FILE = re.compile(r"^```\w+ file=(\S+)", re.MULTILINE)
LINK = re.compile(r"(!?\[[^\]]*\])\(([^)\s#]*)(#[^)\s]*)?\)")
HEADING = re.compile(r'<h([1-3]) id="([^"]*)">(.*?)</h\1>', re.DOTALL)


def named(root):
    """Return the existing pages: paths below the root, with their names in the site."""
    found = {"README.md": "overview.md"}
    for titles in MENU.values():
        for name in titles.values():
            if name not in found and (root / name).exists():
                own = pathlib.Path(name)
                found[name] = (
                    f"{own.parent.name}.md" if own.name == "README.md" else own.name.lower()
                )
    return found


def linked(text, name, root, names):
    """Return a page whose links lead to the site's pages, by title. A link to any other file
    becomes the file's name."""

    def target(found):
        words, path, anchor = found.groups()
        if re.match(r"\w+:", path):
            return found[0]
        # mkdocs writes one dash where GitHub writes several.
        anchor = re.sub("-+", "-", anchor or "")
        if not path:
            return f"{words}({anchor})"
        whole = os.path.normpath(os.path.join(os.path.dirname(name), path))
        if whole in names:
            is_file = words == f"[{os.path.basename(whole)}]"
            return f"{f'[{TITLES[whole]}]' if is_file else words}({names[whole]}{anchor})"
        if whole.endswith((".png", ".svg")):
            return f"{words}({picture_name(whole)})"
        return words.strip("[]") if not words.startswith("!") else words

    return LINK.sub(target, text)


def page_text(root, name, names):
    """Return the Markdown of a page for mkdocs. The name of the file is added above a block to be
    saved."""
    text = linked((root / name).read_text(encoding="utf-8"), name, root, names)
    text = re.sub(r"\A# rcell$", "# Overview", text, flags=re.MULTILINE)
    text = FILE.sub(r'<div class="file">\1</div>\n\n\g<0>', text)
    return spans.as_html(re.sub(r"^```(\w+) [^\n]*$", r"```\1", text, flags=re.MULTILINE))


def code_faults(root, shown):
    """Return the code that the site shows differently. `shown` returns the HTML of a page, by its
    name in the site."""
    found = []
    for name, own in named(root).items():
        source = (root / name).read_text(encoding="utf-8")
        found += [f"{name}: {fault}" for fault in spans.faults(source, shown(own))]
    return found


def picture_name(path):
    """Return the name of a picture in the site. Pictures of an example are prefixed with the
    example's name."""
    path = pathlib.Path(path)
    return path.name if path.parent.name == "docs" else f"{path.parent.name}-{path.name}"


def lay_out(root, folder):
    """Put the pages, pictures, references and manual pages into a folder."""
    names = named(root)
    for name, own in names.items():
        (folder / own).write_text(page_text(root, name, names), encoding="utf-8")
    for picture in [
        *(root / "docs").glob("*.png"),
        *(root / "docs").glob("*.svg"),
        *(root / "examples").glob("*/*.png"),
    ]:
        shutil.copy(picture, folder / picture_name(picture.relative_to(root)))
    for name in SCRIPTS:
        shutil.copy(HERE / name, folder)
    (folder / "index.md").write_text(landing(root), encoding="utf-8")
    (folder / "search.md").write_text(SEARCH, encoding="utf-8")
    (folder / "gallery.md").write_text(gallery(), encoding="utf-8")
    (folder / "api").mkdir()
    (folder / "api" / "python.md").write_text(reference.python(root), encoding="utf-8")
    (folder / "api" / "r.md").write_text(reference.r(root), encoding="utf-8")
    (folder / "man").mkdir()
    for page in reference.manual_pages(root):
        (folder / "man" / f"{page.stem}.md").write_text(reference.manual(page), encoding="utf-8")


SEARCH = """# Search

<form action="search.html"><input id="search-words" name="q" type="search" aria-label="Words"> <button>Search</button></form>
<ol id="search-results"></ol>
<script src="search_index.js"></script>
<script src="search.js"></script>
"""


def landing(root):
    """Return the first page: what rcell is, with numbers from the README and the cases, and one
    call in four languages."""
    readme = (root / "README.md").read_text(encoding="utf-8")
    lines = re.search(r"for a table of r\.stats, (\d+) lines", readme)[1]
    row = re.search(r"^\| table .*\|$", readme, re.MULTILINE)[0].split("|")
    cases = (path.read_text(encoding="utf-8") for path in (root / "fronts/cases").glob("*.case"))
    numbers = {
        "LINES": lines,
        "REJECTED": str(sum("\nrefused:" in case for case in cases)),
        "RCELL": row[2].strip(),
        "TERRA": row[4].strip(),
        "GRASS": row[5].strip(),
    }
    text = (HERE / "landing.txt").read_text(encoding="utf-8")
    for key, value in numbers.items():
        text = text.replace(f"@{key}@", value)
    return re.sub(r"^```(\w+) [^\n]*$", r"```\1", text, flags=re.MULTILINE)


def gallery():
    figures = [
        f'<figure><a href="{page}"><img src="{name}" alt="{title}"></a>'
        f'<figcaption><a href="{page}">{title}</a></figcaption></figure>'
        for name, (title, page) in PICTURES.items()
    ]
    return '# Gallery\n\n<div class="gallery">\n' + "\n".join(figures) + "\n</div>\n"


def said_by(root, *words):
    return subprocess.run(
        words, cwd=root, capture_output=True, text=True, check=False
    ).stdout.strip()


def configuration(root, folder):
    """Return the configuration of mkdocs."""
    names = named(root)
    menu = [
        {heading: [{title: names[name]} for title, name in titles.items() if name in names]}
        for heading, titles in MENU.items()
    ]
    by_heading = {heading: pages for entry in menu for heading, pages in entry.items()}
    by_heading["Start"].append({"Gallery": "gallery.md"})
    by_heading["Reference"] += [
        {"Python reference": "api/python.md"},
        {"R reference": "api/r.md"},
        *({f"{it.stem}(1)": f"man/{it.stem}.md"} for it in reference.manual_pages(root)),
    ]
    version = (root / "VERSION").read_text(encoding="utf-8").strip()
    commit = said_by(root, "git", "log", "-1", "--format=%h of %cs")
    return json.dumps(
        {
            "site_name": "rcell",
            "site_description": "Proved tables, patches and map algebra for categorical rasters",
            "copyright": f"rcell {version}, from commit {commit}. Apache-2.0 OR GPL-2.0-or-later.",
            "docs_dir": str(folder),
            "nav": [{"Home": "index.md"}, *menu],
            "plugins": [],
            "use_directory_urls": False,
            "extra_css": ["site.css"],
            "extra_javascript": ["copy.js"],
            "theme": {"name": "mkdocs", "highlightjs": False, "custom_dir": str(HERE / "theme")},
            "markdown_extensions": EXTENSIONS,
        }
    )


def words_of(text):
    """Return the words in HTML, without tags."""
    return html.unescape(re.sub(r"\s+", " ", re.sub(r"<[^>]*>", " ", text))).strip()


def sections_of(name, text):
    """Return the sections of a page for the search: address, page title, section title, text.
    References are split more finely."""
    deepest = 3 if name.startswith("api/") else 2
    headings = [it for it in HEADING.finditer(text) if int(it[1]) <= deepest]
    page = words_of(headings[0][3]) if headings else name
    for heading, following in zip(headings, [*headings[1:], None]):
        end = following.start() if following else len(text)
        yield {
            "url": name if heading is headings[0] else f"{name}#{heading[2]}",
            "page": page,
            "title": words_of(heading[3]),
            "text": words_of(text[heading.end() : end]),
            "weight": WEIGHTS.get(name, 1),
        }


def add_index(out):
    """Write the search index as a script."""
    found = []
    for path in sorted(out.rglob("*.html")):
        name = path.relative_to(out).as_posix()
        main = re.search(r'role="main">(.*?)<footer', path.read_text(encoding="utf-8"), re.DOTALL)
        if main is not None and name not in ("404.html", "search.html", "index.html"):
            found += sections_of(name, main[1])
    script = f"const sections = {json.dumps(found)};\n"
    (out / "search_index.js").write_text(script, encoding="utf-8")

"""Make the site of the documents, or test it in a browser.

    python3 tools/documents/site [--check | --code] [--out FOLDER]

The pages are made from the repository's Markdown with mkdocs, the Python reference from docstrings,
the R reference from the Rd files, and the manual pages with groff. The site works from the file
system and loads nothing from elsewhere. --check opens each page in headless Chromium, and the last
line is then 'N passed, M failed'. --code makes nothing: it prints code that the site would show
differently from its Markdown, and needs only python3-markdown.
"""
import argparse
import pathlib
import shutil
import subprocess
import sys
import tempfile

import checked
import pages

ROOT = pathlib.Path(__file__).resolve().parents[3]


def build(out):
    """Build the site in a folder, which is created anew."""
    with tempfile.TemporaryDirectory(prefix="rcell-site-") as room:
        source = pathlib.Path(room)
        (source / "docs").mkdir()
        pages.lay_out(ROOT, source / "docs")
        (source / "mkdocs.yml").write_text(
            pages.configuration(ROOT, source / "docs"), encoding="utf-8"
        )
        shutil.rmtree(out, ignore_errors=True)
        subprocess.run(
            [
                "mkdocs",
                "build",
                "--quiet",
                "--strict",
                "--config-file",
                str(source / "mkdocs.yml"),
                "--site-dir",
                str(out),
            ],
            check=True,
        )
    pages.add_index(out)


def compare_code():
    """Print the code that the site would show differently from its source."""
    import markdown

    names = pages.named(ROOT)
    sources = {own: name for name, own in names.items()}

    def shown(own):
        return markdown.markdown(
            pages.page_text(ROOT, sources[own], names), extensions=pages.EXTENSIONS
        )

    found = pages.code_faults(ROOT, shown)
    print("".join(f"{fault}\n" for fault in found), end="")
    return 1 if found else 0


def main():
    words = argparse.ArgumentParser(prog="site", description=__doc__.splitlines()[0])
    words.add_argument("--check", action="store_true", help="try the site in headless Chromium")
    words.add_argument("--code", action="store_true", help="compare code with its source")
    words.add_argument("--out", default=str(ROOT / "dist" / "site"))
    settings = words.parse_args()
    out = pathlib.Path(settings.out).resolve()
    if settings.check:
        return checked.check(ROOT, out)
    if settings.code:
        return compare_code()
    build(out)
    print(f"The site is {out}/index.html")
    return 0


if __name__ == "__main__":
    sys.exit(main())

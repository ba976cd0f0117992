"""Builds the plugin for QGIS, with the static program in it: dist/rcell-qgis-VERSION.zip, for Install from ZIP.

    python3 qgis/build.py [FOLDER]

The same sources and the same program give the same bytes, whoever builds it and when.
"""

from __future__ import annotations

import html
import pathlib
import re
import subprocess
import sys
import tempfile
import time
import zipfile

HERE = pathlib.Path(__file__).resolve().parent
REPOSITORY = HERE.parent
# The modules of the Python package that the plugin carries: the core, and what reads with GDAL's own Python.
ENGINE = re.compile(
    r"python/src/rcell/(core/[a-z_]+\.(?:py|json)|readers/(?:__init__|gdal|handles|ogr|osr)\.py)"
)
PROGRAM = REPOSITORY / "bin/rcell-pipe-static"
KINDS = (".json", ".model3", ".py", ".svg", ".txt")


def said_by(*words: str) -> str:
    return subprocess.run(words, cwd=REPOSITORY, capture_output=True, text=True, check=True).stdout


def moment() -> tuple[int, int, int, int, int, int]:
    """The time of the last commit, which all files get."""
    return time.gmtime(int(said_by("git", "log", "-1", "--format=%ct")))[:6]


def licences() -> dict[str, bytes]:
    """The licences and notices, by their names in the zip."""
    with tempfile.TemporaryDirectory() as room:
        folder = pathlib.Path(room) / "licenses"
        said_by(sys.executable, "tools/build/linked.py", str(folder))
        found = {
            f"rcell/licenses/{path.relative_to(folder).as_posix()}": path.read_bytes()
            for path in folder.rglob("*")
            if path.is_file()
        }
    return {**found, "rcell/LICENSE": (REPOSITORY / "LICENSE.md").read_bytes()}


def page() -> bytes:
    """docs/qgis.md as the page of the button Help: its text, which reads well as it is."""
    text = (REPOSITORY / "docs/qgis.md").read_text(encoding="utf-8")
    head = '<!DOCTYPE html><html lang="en"><head><meta charset="utf-8"><title>rcell for QGIS</title></head>'
    return f'{head}<body><pre style="max-width: 60em; white-space: pre-wrap">{html.escape(text)}</pre></body></html>\n'.encode()


def files() -> dict[str, tuple[bytes, int]]:
    """The bytes and the mode of each file, by its name in the zip."""
    version = (REPOSITORY / "VERSION").read_text(encoding="utf-8").strip()
    found = {}
    for name in said_by("git", "ls-files", "qgis/rcell").splitlines():
        path = REPOSITORY / name
        if path.suffix in KINDS:
            content = path.read_bytes()
            if path.name == "metadata.txt":
                content = re.sub(rb"(?m)^version=.*$", b"version=" + version.encode(), content)
            found[path.relative_to(HERE).as_posix()] = content, 0o644
    for name in said_by("git", "ls-files", "python/src/rcell").splitlines():
        shared = ENGINE.fullmatch(name)
        if shared:
            found[f"rcell/engine/{shared[1]}"] = (REPOSITORY / name).read_bytes(), 0o644
    found |= {name: (content, 0o644) for name, content in licences().items()}
    found["rcell/help/qgis.html"] = page(), 0o644
    found["rcell/bin/rcell-pipe"] = PROGRAM.read_bytes(), 0o755
    return found


def main() -> int:
    folder = pathlib.Path(sys.argv[1]) if len(sys.argv) > 1 else REPOSITORY / "dist"
    if not PROGRAM.is_file():
        print(f"rcell: {PROGRAM} is missing: run make static first", file=sys.stderr)
        return 1
    folder.mkdir(parents=True, exist_ok=True)
    target = (
        folder / f"rcell-qgis-{(REPOSITORY / 'VERSION').read_text(encoding='utf-8').strip()}.zip"
    )
    part = target.with_suffix(".part")
    with zipfile.ZipFile(part, "w", zipfile.ZIP_DEFLATED, compresslevel=9) as archive:
        for name, (content, mode) in sorted(files().items()):
            entry = zipfile.ZipInfo(name, moment())
            entry.create_system = 3
            entry.external_attr = (0o100000 | mode) << 16
            archive.writestr(entry, content, zipfile.ZIP_DEFLATED)
    part.chmod(0o644)
    part.replace(target)
    print(f"dist: {target.name}, the plugin for QGIS")
    return 0


if __name__ == "__main__":
    sys.exit(main())

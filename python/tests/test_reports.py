"""Test reports, which are single pages that load nothing from other sites."""

from __future__ import annotations

import base64
import html.parser
import pathlib
import re
from typing import Any

import numpy as np
import pytest

from .map_definitions import random_map

rcell = pytest.importorskip("rcell")
pytest.importorskip("pandas")
rasterio = pytest.importorskip("rasterio")

PLACE = (10, 0, 500000, 0, -10, 5000000)
LABELS = {1: "wood & <b>water</b>", 2: "town"}


@pytest.fixture
def table(tmp_path: pathlib.Path) -> pathlib.Path:
    """Return a recorded table of a map."""
    land = rcell.Raster(random_map(1, 40, 50, 3), PLACE, "EPSG:32633", labels=LABELS)
    land.write(tmp_path / "lc.tif")
    rcell.record(tmp_path / "t.csv", rcell.composition, tmp_path / "lc.tif")
    return tmp_path / "t.csv"


def page_of(*tables: pathlib.Path, title: str = "Report") -> str:
    return pathlib.Path(rcell.report(tables, tables[0].parent / "report.html", title)).read_text(
        encoding="utf-8"
    )


class _Elements(html.parser.HTMLParser):
    """Collects the elements and texts of a page, and checks that elements are closed."""

    def __init__(self, page: str) -> None:
        super().__init__()
        self.open: list[str] = []
        self.attributes: list[tuple[str, dict[str, Any]]] = []
        self.texts: list[str] = []
        self.feed(page)

    def handle_starttag(self, tag: str, attrs: Any) -> None:
        self.attributes.append((tag, dict(attrs)))
        if tag not in ("meta", "img", "br"):
            self.open.append(tag)

    def handle_endtag(self, tag: str) -> None:
        assert self.open.pop() == tag

    def handle_data(self, data: str) -> None:
        self.texts.append(data)


def test_a_page_has_the_table_what_it_means_and_how_to_verify_it(table: pathlib.Path) -> None:
    found = _Elements(page_of(table, title="Land <cover>"))
    assert found.open == []
    text = " ".join(found.texts)
    for part in (
        "Land <cover>",
        "wood & <b>water</b>",
        "The number of cells of each class, in total or by zone.",
        "composition('lc.tif')",
        "script 1: r.stats -c -n input=map",
        "rcell-gis verify t.csv",
        *rcell.composition(table.parent / "lc.tif")["cells"].astype(str),
    ):
        assert part in text
    assert len(re.findall("[0-9a-f]{64}", text)) == 3


def test_a_page_loads_nothing_from_elsewhere(table: pathlib.Path) -> None:
    page = page_of(table)
    found = _Elements(page)
    assert not {tag for tag, _ in found.attributes} & {"script", "link", "iframe", "object"}
    links = [value for _, it in found.attributes for name, value in it.items() if name == "src"]
    assert all(link.startswith("data:image/png;base64,") for link in links) and len(links) == 1
    assert "http:" not in page and "https:" not in page and "url(" not in page


def test_the_same_records_give_the_same_bytes(table: pathlib.Path) -> None:
    first = page_of(table)
    rcell.record(table, rcell.composition, table.parent / "lc.tif")
    assert page_of(table) == first


def test_the_picture_has_the_cells_of_the_map(table: pathlib.Path) -> None:
    cells = rcell.grid("", "x", x=table.parent / "lc.tif").array
    page = page_of(table)
    [encoded] = re.findall('base64,([^"]*)"', page)
    colours = re.findall("background: #([0-9a-f]{6})", page)
    with rasterio.io.MemoryFile(base64.b64decode(encoded)) as memory, memory.open() as file:
        pixels = file.read()
    times = pixels.shape[1] // cells.shape[0]
    assert pixels.shape == (4, 40 * times, 50 * times) and times > 1
    small = pixels[:, ::times, ::times]
    assert (small[3] == np.where(np.ma.getmaskarray(cells), 0, 255)).all()
    for code, colour in enumerate(colours, 1):
        shown = small[:3, cells.filled(0) == code]
        assert (shown == np.frombuffer(bytes.fromhex(colour), np.uint8)[:, None]).all()


def test_large_maps_are_thinned(tmp_path: pathlib.Path) -> None:
    cells = np.arange(1200 * 30).reshape(1200, 30) % 7 + 1
    rcell.Raster(cells).write(tmp_path / "large.tif")
    rcell.record(tmp_path / "t.csv", rcell.composition, tmp_path / "large.tif", area=None)
    page = page_of(tmp_path / "t.csv")
    assert "large.tif, 1 of every 3 rows and columns" in page
    [encoded] = re.findall('base64,([^"]*)"', page)
    with rasterio.io.MemoryFile(base64.b64decode(encoded)) as memory, memory.open() as file:
        assert file.shape == (400, 10)


def test_a_map_that_has_changed_or_is_gone_has_no_picture(table: pathlib.Path) -> None:
    land = table.parent / "lc.tif"
    rcell.Raster(random_map(2, 40, 50, 3), PLACE, "EPSG:32633").write(land)
    page = page_of(table)
    assert "No picture: the cells of lc.tif have changed since the table was written." in page
    land.unlink()
    page = page_of(table)
    assert "No picture: lc.tif cannot be read." in page and "<img" not in page


def test_long_tables_end_with_the_number_of_rows_that_are_left_out(tmp_path: pathlib.Path) -> None:
    rcell.Raster(np.arange(1, 501).reshape(20, 25)).write(tmp_path / "lc.tif")
    rcell.record(tmp_path / "t.csv", rcell.composition, tmp_path / "lc.tif", area=None)
    page = page_of(tmp_path / "t.csv")
    assert page.count("<tr>") == 1 + 200 + 1 + 4
    assert "t.csv contains 300 more rows." in page
    assert "and 460 more" in page


def test_tables_that_are_refused(table: pathlib.Path) -> None:
    out = table.parent / "report.html"
    with pytest.raises(rcell.BadArgument, match="tables must be a list of paths; got"):
        rcell.report(str(table), out)
    with pytest.raises(rcell.BadArgument, match="tables must have at least one path; got none"):
        rcell.report([], out)
    with pytest.raises(rcell.BadArgument, match="out must end in .html; got 'r.pdf'"):
        rcell.report([table], "r.pdf")
    with pytest.raises(rcell.Refused, match="cannot open .*u.csv: No such file"):
        rcell.report([table.parent / "u.csv"], out)
    table.write_text(table.read_text().replace("town", "city"))
    with pytest.raises(
        rcell.Refused, match="the table has changed since it was written: record it again"
    ):
        rcell.report([table], out)
    assert not out.exists()

"""Test legends from CSV, TSV and QML files, and other sources of labels."""

from __future__ import annotations

import pathlib
from typing import Any

import numpy as np
import pytest

pandas = pytest.importorskip("pandas")
rcell = pytest.importorskip("rcell")

MAP = np.array([[1, 1, 2]])
QML = "<!DOCTYPE qgis PUBLIC 'http://mrcc.com/qgis.dtd' 'SYSTEM'>\n<qgis><rasterrenderer>{}</rasterrenderer></qgis>"


def labels(legend: Any) -> list[Any]:
    """Return the labels of the classes 1 and 2."""
    found = rcell.composition(MAP, labels=legend)
    return [None if label is pandas.NA else label for label in found["label"]]


def written(folder: pathlib.Path, name: str, text: str | bytes) -> str:
    """Write a file and return its path."""
    path = folder / name
    path.write_bytes(text if isinstance(text, bytes) else text.encode())
    return str(path)


@pytest.mark.parametrize(
    ("name", "text"),
    [
        ("l.csv", "value,label\n1,wood\n2,water\n"),
        ("l.csv", "Label, VALUE ,note\nwood,1,a\nwater,2,b\n"),
        ("l.csv", "value,label,Color\n1,wood,#00ff00\n2,water,\n"),
        ("l.csv", "value,label\n\n1,wood\n ,\n2,water\n\n"),
        ("l.csv", "value,label\r\n1.0,wood\r\n2.00,water\r\n"),
        ("l.csv", "\ufeffvalue,label,\n1,wood,\n2,water,\n"),
        ("l.csv", 'value,label\n+1," wood"\n2,"water"\n'),
        ("l.tsv", "value\tlabel\n1\twood\n2\twater\n"),
        ("l.txt", "value\tlabel\n1\twood\n2\twater\n"),
        ("l.txt", "value,label\n1,wood\n2,water\n"),
        ("legend", "value,label\n1,wood\n2,water\n"),
        (
            "l.qml",
            QML.format(
                '<paletteEntry value="1" label="wood" color="#00ff00"/><paletteEntry\n value="2.0" label="water"/>'
            ),
        ),
        (
            "l.qml",
            QML.format(
                "<colorrampshader><item label='wood' value='1'/><item label='water' value='2'/></colorrampshader>"
            ),
        ),
    ],
)
def test_legends_that_are_read(tmp_path: pathlib.Path, name: str, text: str) -> None:
    assert labels(written(tmp_path, name, text)) == ["wood", "water"]


def test_characters_of_a_style_are_read_by_a_parser(tmp_path: pathlib.Path) -> None:
    entries = '<!-- <paletteEntry value="9" label="no"/> --><paletteEntry value="1" label="a > b"/>'
    entries += '<paletteEntry value="2" label="w&#246;d &amp; more"/>'
    assert labels(written(tmp_path, "l.qml", QML.format(entries))) == ["a > b", "wöd & more"]


@pytest.mark.parametrize(
    ("name", "text", "told"),
    [
        ("l.csv", "", "is empty"),
        ("l.csv", "1,wood\n2,water\n", "line 1: the header must contain value and label; got '1,wood'"),
        ("l.csv", "value;label\n1;wood\n", "; got 'value;label': separate the columns with commas"),
        ("l.csv", "value,label\n1,wood\n1.0,water\n", "line 3: value 1 occurs twice, first in line 2"),
        ("l.csv", "value,label\n1.5,wood\n", "line 2: 1.5 is not a whole number"),
        ("l.csv", "value,label\n\n,wood\n", "line 3: the label has no value"),
        ("l.csv", "value,label\n99999999999,wood\n", "line 2: 99999999999 is outside -2147483647 to 2147483647"),
        ("l.csv", "value,label\n1,wood, dry\n", "line 2: 3 fields, but the header has 2: put labels that contain commas in quotes"),
        ("l.csv", "value,label,colour\n1,wood,green\n", "line 2: green is not a colour in the form #rrggbb"),
        ("l.csv", "value,label\n1,wo\0od\n", "line 2: the label contains a NUL character"),
        ("l.csv", "value,label\n1,w\u00f6d\n".encode("latin-1"), "line 2 is not UTF-8: save the file as UTF-8"),
        ("l.csv", "value,label\n1,w\u00f6d\n".encode("utf-16"), "is UTF-16: save the file as UTF-8"),
        ("l.qml", QML.format('<paletteEntry value="inf" label="wood"/>'), "inf is not a whole number"),
        ("l.qml", QML.format('<paletteEntry value="0.5" label="wood"/>'), "0.5 is not a whole number"),
        ("l.qml", QML.format(""), "has no classes"),
        ("l.qml", "<qgis>", "line 1"),
        ("l.qml", '<!DOCTYPE q [<!ENTITY a "b">]><q><paletteEntry value="1" label="&a;"/></q>', "entities"),
    ],
)  # fmt: skip
def test_legends_that_are_refused(tmp_path: pathlib.Path, name: str, text: Any, told: str) -> None:
    with pytest.raises(rcell.Refused, match=told) as caught:
        labels(written(tmp_path, name, text))
    assert caught.value.source == "labels"


def test_a_missing_label_is_null_and_not_an_empty_text(tmp_path: pathlib.Path) -> None:
    path = written(tmp_path, "l.csv", "value,label\n1,wood\n2,\n")
    assert labels(path) == ["wood", None]
    with pytest.warns(UserWarning, match="no label for 2") as caught:
        assert labels({1: "wood"}) == ["wood", None]
    assert len(caught) == 1
    assert caught[0].filename == __file__


def test_labels_in_memory() -> None:
    wood = ["wood", "water"]
    assert labels({1: "wood", 2: "water"}) == wood
    assert labels(pandas.Series(wood, index=[1, 2])) == wood
    assert labels(pandas.DataFrame({"value": [1, 2], "label": wood})) == wood
    for given in (3, [1, 2], ("wood",)):
        with pytest.raises(rcell.BadArgument, match="labels must be a path, a dict, a Series"):
            labels(given)


def test_one_warning_of_a_change_names_a_map() -> None:
    with pytest.warns(UserWarning, match="no label for 2 in before and after") as caught:
        rcell.change(MAP, MAP, labels={1: "wood"})
    assert len(caught) == 1
    assert caught[0].filename == __file__


def test_two_classes_with_one_label_stay_two_rows_and_two_columns() -> None:
    before, after = np.array([[1, 2, 3, 4, 4, 1]]), np.array([[2, 2, 3, 1, 3, 1]])
    found = rcell.change(before, after, labels={1: "wood", 2: "wood", 3: "field", 4: "from"})
    assert found.matrix.index.tolist() == ["wood (1)", "wood (2)", "field", "from (4)"]
    assert found.matrix.columns.tolist() == ["wood (1)", "wood (2)", "field"]
    assert int(found.matrix.to_numpy().sum()) == 6
    assert len(found.summary) == 4


def test_a_class_whose_number_is_the_label_of_another() -> None:
    with pytest.warns(UserWarning, match="no label for 2"):
        found = rcell.change(
            np.array([[1, 2, 3, 4]]),
            np.array([[1, 2, 3, 4]]),
            labels={1: "2", 3: "wood", 4: "wood"},
        )
    names = ["2 (1)", "2", "wood (3)", "wood (4)"]
    assert found.matrix.index.tolist() == names
    assert found.matrix.columns.tolist() == names

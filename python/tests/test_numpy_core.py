"""Test that the core needs only numpy and Python 3.9's standard library."""

from __future__ import annotations

import ast
import pathlib
import re
import subprocess
import sys
import unittest

import rcell

CORE = pathlib.Path(rcell.__file__).parent / "core"
OTHERS = (
    "affine, dask, fiona, geopandas, osgeo, pandas, pyproj, rasterio, rioxarray, shapely, xarray"
)
# Names in the standard library that are newer than Python 3.9.
LATER = re.compile(
    r"\b(ParamSpec|TypeAlias|TypeGuard|Concatenate|Self|StrEnum|ExceptionGroup|pairwise|get_default_scheme"
    r"|get_preferred_scheme|aclosing|bit_count|add_note|tomllib|file_digest)\b|\b(strict|slots|kw_only)=True"
)
SEVEN = """
import sys
for name in {others!r}.split(", "):
    sys.modules[name] = None
import inspect
import numpy as np
from rcell.core.align import align
from rcell.core.change import change
from rcell.core.composition import composition, cross
from rcell.core.majority import majority
from rcell.core.patches import patches
from rcell.core.region import Region
from rcell.core.sources import ArrayMap
from rcell.core.zonal import zonal

def a_map(name, cells):
    return ArrayMap(name, np.array(cells), Region.of_cells(2, 3), labels={{1: "wood"}})

a, b = a_map("a", [[1, 1, 2], [3, 2, 2]]), a_map("b", [[1, 2, 2], [2, 2, 2]])
tables = [
    inspect.unwrap(call)(*words, **named)
    for call, words, named in (
        (composition, (a,), {{"zones": b}}),
        (cross, (), {{"a": a, "b": b}}),
        (patches, (a,), {{}}),
        (zonal, (a, b), {{}}),
    )
]
found = change(a, b)
print([len(table) for table in tables])
print(majority(a).array.tolist(), align(a, b)[0].array.tolist())
print(sorted(set(sys.modules) & set({others!r}.split(", ")) - {{k for k, v in sys.modules.items() if v is None}}))
"""


class Core(unittest.TestCase):
    def test_the_seven_answers_need_numpy_alone(self) -> None:
        ran = subprocess.run(
            [sys.executable, "-c", SEVEN.format(others=OTHERS)],
            capture_output=True,
            text=True,
            check=False,
        )
        self.assertEqual(ran.stderr, "")
        expected = "[4, 4, 3, 2]\n[[1, 2, 2], [1, 2, 2]] [[1, 1, 2], [3, 2, 2]]\n[]\n"
        self.assertEqual(ran.stdout, expected)

    def test_each_module_is_of_python_3_9_and_imports_nothing_else(self) -> None:
        for path in CORE.glob("*.py"):
            with self.subTest(module=path.name):
                text = path.read_text(encoding="utf-8")
                tree = ast.parse(text, feature_version=(3, 9))
                found = [
                    line.strip()
                    for line in text.split("\n")
                    if LATER.search(line) and not line.startswith("    ")
                ]
                self.assertEqual(found, [])
                self.assertEqual(list(_of_others(tree)), [])
                self.assertEqual(list(_unions_when_run(tree)), [])


def _of_others(tree: ast.Module) -> list[str]:
    """Return the libraries that a module imports when it is imported."""
    named = [node for node in tree.body if isinstance(node, (ast.Import, ast.ImportFrom))]
    roots: list[str] = []
    for node in named:
        if isinstance(node, ast.Import):
            roots += [alias.name.partition(".")[0] for alias in node.names]
        elif node.level == 0:
            roots.append(str(node.module).partition(".")[0])
    allowed = {*sys.stdlib_module_names, "numpy"}
    return [root for root in roots if root not in allowed]


def _unions_when_run(tree: ast.Module) -> list[str]:
    """Return type unions outside annotations, which Python 3.9 cannot evaluate."""
    annotations: set[int] = set()
    for node in ast.walk(tree):
        for part in (getattr(node, "annotation", None), getattr(node, "returns", None)):
            if part is not None:
                annotations |= {id(each) for each in ast.walk(part)}
    types = re.compile(r"\b(int|float|str|bytes|bool|None)\b( \||$)")
    return [
        ast.unparse(node)
        for node in ast.walk(tree)
        if isinstance(node, ast.BinOp)
        and isinstance(node.op, ast.BitOr)
        and id(node) not in annotations
        and types.search(ast.unparse(node))
    ]


if __name__ == "__main__":
    unittest.main()

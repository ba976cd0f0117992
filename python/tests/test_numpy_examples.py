"""Run the examples in docstrings, except examples whose libraries are not installed."""

from __future__ import annotations

import doctest
import importlib
import inspect
import pkgutil
import unittest
import warnings
from typing import Any

import numpy as np

import rcell
from rcell.core.libraries import has

# Words in an example that show that it needs a library.
NEEDS = {
    "pandas": ("rcell.table(", "rcell.run(", "frame_of("),
    "xarray": (".to_xarray()", "xarray."),
    "matplotlib": (".plot(", ".picture(", "matplotlib"),
    "affine": ("profile_of(",),
    "rasterio": ("rasterio", "EPSG:"),
}

MODULES = {
    "rcell.readers.gdal": ("osgeo",),
    "rcell.readers.osr": ("osgeo",),
    "rcell.readers.pyproj": ("pyproj",),
    "rcell.xarray": ("xarray",),
}


def examples() -> list[doctest.DocTest]:
    found: list[doctest.DocTest] = []
    for module in pkgutil.walk_packages(rcell.__path__, "rcell."):
        is_run = all(has(library) for library in MODULES.get(module.name, ()))
        if is_run and not module.ispkg:
            found += doctest.DocTestFinder(exclude_empty=True).find(
                importlib.import_module(module.name), extraglobs={"np": np}
            )
    for name in rcell.__all__:
        named = getattr(rcell, name, None)
        if inspect.isclass(named) and named.__module__ == "rcell":
            found += doctest.DocTestFinder(exclude_empty=True).find(
                named, f"rcell.{name}", module=False, globs={"np": np}
            )
    return [
        test
        for test in found + doctest.DocTestFinder().find(rcell, "rcell", extraglobs={"np": np})
        if test.examples
    ]


def missing(test: doctest.DocTest) -> str:
    source = "".join(example.source for example in test.examples)
    return next(
        (
            library
            for library, words in NEEDS.items()
            if any(word in source for word in words) and not has(library)
        ),
        "",
    )


class Examples(unittest.TestCase):
    def test_each_prints_what_it_shows(self) -> None:
        runner, left_out, count = doctest.DocTestRunner(verbose=False), 0, 0
        with warnings.catch_warnings():
            warnings.simplefilter("ignore")
            for test in examples():
                if missing(test):
                    left_out += 1
                    continue
                with self.subTest(name=test.name):
                    said: list[str] = []
                    result = runner.run(test, out=said.append)
                    self.assertEqual(result.failed, 0, "".join(said))
                    count += 1
        self.assertGreater(count, 50)
        if left_out:
            print(
                f"python: {left_out} examples need libraries that are not installed, and were "
                "left out"
            )

    def test_each_public_name_has_a_docstring_with_an_example(self) -> None:
        for name in set(rcell.__all__) - {"MapLike", "__version__"}:
            public = getattr(rcell, name)
            members = (
                [
                    (f"{name}.{key}", member)
                    for key, member in vars(public).items()
                    if not key.startswith("_")
                ]
                if inspect.isclass(public)
                else []
            )
            for of, member in [(name, public), *members]:
                inner: Any = (
                    member.__func__
                    if isinstance(member, classmethod)
                    else member.func
                    if hasattr(member, "func")
                    else member
                )
                if callable(inner) or isinstance(inner, property) or hasattr(member, "func"):
                    self.assertIn(">>>", inspect.getdoc(inner) or "", of)


if __name__ == "__main__":
    unittest.main()

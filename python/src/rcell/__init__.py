# SPDX-License-Identifier: Apache-2.0 OR GPL-2.0-or-later
"""Count cells, classes and patches of integer rasters with the proved program `rcell`.

Scripts run over maps of one region. Pass each map by name: as the path of a GeoTIFF, as an array,
or as a DataArray.

>>> import numpy as np, rcell
>>> land = np.array([[1, 1, 2], [3, 2, 2]])
>>> rcell.table("r.stats -c input=land", land=land)
   land  cells
0     1      2
1     2      3
2     3      1
"""

from __future__ import annotations


def _modules() -> dict[str, str]:
    """Return the module of each public name, as listed in the stub for type checkers."""
    import re

    with open(__file__.rpartition(".")[0] + ".pyi", encoding="utf-8") as file:
        stub = file.read()
    modules = {}
    # from MODULE import NAME as NAME, with several names in parentheses
    for module, names in re.findall(r"^from (\S+) import ([^()]+?$|\([^)]*\))", stub, re.MULTILINE):
        modules.update(dict.fromkeys(re.findall(r" as (\w+)", names), module))
    return modules


def __getattr__(name: str) -> object:
    """Import a name on first use, because parts of the command line run without numpy."""
    import importlib

    if name == "__all__":
        return sorted(_modules())
    is_special = name.startswith("__") and name != "__version__"
    module = None if is_special else _modules().get(name)
    if module is None:
        raise AttributeError(f"module {__name__!r} has no attribute {name!r}")
    value = getattr(importlib.import_module(module, __name__), name)
    globals()[name] = value
    return value


def __dir__() -> list[str]:
    return sorted({*globals(), *_modules()})

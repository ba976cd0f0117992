"""Puts the programs into the wheel, where installers put scripts: they are then on the path of its environment."""

from __future__ import annotations

import os
import pathlib
from typing import Any

from hatchling.builders.hooks.plugin.interface import BuildHookInterface

# A static program asks nothing of the C library of a machine; one that is not is for machines like the one that built it.
STATIC_TAG = "py3-none-manylinux2014_x86_64.musllinux_1_1_x86_64"
DYNAMIC_TAG = "py3-none-linux_x86_64"


HERE = pathlib.Path(__file__).resolve().parent
PROGRAMS = {"rcell": "RCELL_PROGRAM", "rcell-pipe": "RCELL_PIPE_PROGRAM"}
"""The scripts, and the environment variables that may name what they are made of."""


def _found(name: str) -> pathlib.Path:
    """A file of the source archive, or of the repository that python/ is a folder of."""
    return next((path for path in (HERE / name, HERE.parent / name) if path.is_file()), HERE / name)


def version() -> str:
    """Return the version of the package."""
    return _found("VERSION").read_text(encoding="ascii").strip()


class ProgramHook(BuildHookInterface):  # type: ignore[misc]
    """Adds bin/NAME-static for each program, or the file that its environment variable names."""

    def initialize(self, version: str, build_data: dict[str, Any]) -> None:
        if version == "editable":
            return
        are_static = True
        for script, variable in PROGRAMS.items():
            path = os.environ.get(variable) or str(_found(f"bin/{script}-static"))
            if not os.path.isfile(path):
                raise FileNotFoundError(f"{path}: the program is not there (make static)")
            name = f"{self.metadata.core.name}-{self.metadata.version}.data/scripts/{script}"
            build_data["force_include"][os.path.abspath(path)] = name
            are_static = are_static and _is_static(path)
        build_data["pure_python"] = False
        build_data["tag"] = STATIC_TAG if are_static else DYNAMIC_TAG


def _is_static(path: str) -> bool:
    """Whether an ELF file of 64 bits names no interpreter."""
    with open(path, "rb") as file:
        header = file.read(64)
        if header[:5] != b"\x7fELF\x02":
            return False
        offset, size, count = (
            int.from_bytes(header[at : at + width], "little")
            for at, width in ((32, 8), (54, 2), (56, 2))
        )
        kinds = []
        for place in range(count):
            file.seek(offset + place * size)
            kinds.append(int.from_bytes(file.read(4), "little"))
    return 3 not in kinds

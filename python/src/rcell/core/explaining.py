# SPDX-License-Identifier: Apache-2.0 OR GPL-2.0-or-later
"""Run rcell on text grids and explain the error message, for `rcell-gis explain`.

This module needs only the standard library.
"""

from __future__ import annotations

import os
import re
import subprocess
import sys
from collections.abc import Iterator, Sequence
from typing import Optional

from .grid_files import header_values, is_text_grid
from .hints import advice, lines_of_error, near, sentence
from .programs import find_pipe, find_program

__all__ = ["explain"]

_MESSAGE = re.compile(r"rcell: ([A-Za-z0-9_.]+):([0-9]+): (.*)")
_COLUMN = re.compile(r" at column ([0-9]+)$")
_WHOLE = re.compile(rb"[+-]?[0-9]{1,10}")
HEAD_BYTES, SCRIPT_BYTES = 1 << 12, 1 << 20
LONGEST_LINE = 1 << 20  # the longest line that is examined, in bytes


def explain(script: str, words: Sequence[str]) -> int:
    """Run rcell on a script, print the error message with advice, and return the exit status.

    The output of rcell is written to standard output unchanged.
    """
    ran = subprocess.run([find_program(), script, *words], stderr=subprocess.PIPE, check=False)
    message = ran.stderr.decode("utf-8", "backslashreplace")
    match = _MESSAGE.match(message)
    lines = [message.rstrip("\n")] if message else []
    if match:
        pairs = (word.partition("=") for word in words)
        paths = {name: path for name, _, path in pairs}
        source, number, text = match.groups()
        lines += ["  " + line for line in _explained(script, paths, source, int(number), text)]
    sys.stdout.flush()
    sys.stderr.write("".join(f"{_printable(line)}\n" for line in lines))
    # A negative code is a signal. Shells add its number to 128.
    return ran.returncode if ran.returncode >= 0 else 128 - ran.returncode


def _explained(
    script: str, paths: dict[str, str], source: str, line: int, text: str
) -> Iterator[str]:
    """Yield the invalid line that a message names, with the error marked, followed by advice."""
    message = _COLUMN.sub("", text)
    if text.startswith(("cannot open", "read failed", "write failed")):
        key = "write failed after N bytes" if text.startswith("write") else text  # in messages.json
        path = script if source == "script" else paths.get(source, "")
        yield f"try: {_near_file(path) or sentence('files', key)}"
    elif source == "script":
        yield from _of_script(script, list(paths), line, text)
    elif source in paths:
        yield from _of_grid(paths, source, line, message)
    else:
        message = "usage: rcell SCRIPT NAME=PATH..." if "usage" in text else text
        yield f"try: {sentence('arguments', message)}"


def _near_file(path: str) -> Optional[str]:
    """Return the existing file whose name is most similar to a missing file's name, or None."""
    folder, name = os.path.split(path)
    listed = folder or "."
    if os.path.exists(path) or not os.path.isdir(listed):
        return None
    close = near(name, os.listdir(listed))
    return os.path.join(folder, close[0]) if close else None


def _of_script(script: str, names: list[str], line: int, text: str) -> Iterator[str]:
    """Yield a script's invalid line, with the error marked, and a correction if one is found."""
    with open(script, "rb") as file:
        content = file.read(SCRIPT_BYTES) if os.path.isfile(script) else b""
    lines = content.decode("utf-8", "surrogateescape").split("\n")
    if not 0 < line <= len(lines):
        yield f"try: {sentence('script', text)}"
        return
    column_of_word, corrected = advice(find_pipe(), content, names, line, text)
    match = _COLUMN.search(text)
    column = int(match[1]) if match else column_of_word
    yield from lines_of_error(lines[line - 1].rstrip("\r"), column)
    if corrected:
        yield "try: " + corrected.replace("\n", "\n       ")


def _of_grid(paths: dict[str, str], name: str, line: int, text: str) -> Iterator[str]:
    """Yield a text grid's invalid line, with the error marked, followed by advice."""
    path = paths[name]
    if not os.path.isfile(path):
        yield f"try: {sentence('grid', text)}"
        return
    with open(path, "rb") as file:
        start = file.read(HEAD_BYTES)
        if not is_text_grid(start):
            yield f"{path} is not an rcell grid"
            yield f"try: rcell-gis convert {path} {os.path.splitext(path)[0]}.grid.txt"
            return
        file.seek(0)
        raw = next((content for number, content in enumerate(file, 1) if number == line), b"")
    if text == "other region":
        yield from _other_region(paths, name, start)
    elif raw and len(raw) <= LONGEST_LINE:
        column = _bad_word(raw, start) if text in ("bad cell", "cell out of range") else None
        yield from lines_of_error(raw.rstrip(b"\r\n").decode("utf-8", "surrogateescape"), column)
    yield f"try: {sentence('grid', text)}"


def _bad_word(raw: bytes, start: bytes) -> Optional[int]:
    """Return the column of the first word that is not a valid cell, or None."""
    match = re.search(rb"(?m)^[ \t]*null:[ \t]*(\S+)", start)  # in the header
    null = match[1] if match else b"*"
    for word in re.finditer(rb"\S+", raw):
        is_cell = _WHOLE.fullmatch(word[0]) and abs(int(word[0])) < 2**31
        if word[0] != null and not is_cell:
            return word.start() + 1
    return None


def _other_region(paths: dict[str, str], name: str, start: bytes) -> Iterator[str]:
    """Yield a description of each header line that differs from the first grid's."""
    first = next(iter(paths))
    with open(paths[first], "rb") as file:
        wanted = header_values(file.read(HEAD_BYTES))
    for key, value in header_values(start).items():
        if wanted.get(key, value) != value:
            difference = f"{key.decode()} is {value.decode()} in {name}"
            yield f"{difference}, but {wanted[key].decode()} in {first}"


def _printable(text: str) -> str:
    shown = ""
    for character in text:
        is_shown = character.isprintable() or character == "\t"
        shown += character if is_shown else f"\\x{ord(character):02x}"
    return shown

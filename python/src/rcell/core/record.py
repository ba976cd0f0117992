# SPDX-License-Identifier: Apache-2.0 OR GPL-2.0-or-later
"""Write tables with a record of their inputs, so that anyone can verify the tables later."""

from __future__ import annotations

import dataclasses
import hashlib
import inspect
import json
import os
import platform
import re
from collections.abc import Callable, Iterator, Mapping, Sequence
from typing import Any, NamedTuple, Optional

import numpy as np

from ..readers import open_raster
from .accuracy import Accuracy, summary_of
from .arguments import check_arguments
from .calls import call_named
from .columns import Table
from .errors import BadArgument, RcellError, Refused
from .files import writing
from .host import host, serving
from .programs import find_pipe
from .protocol import NULL
from .sources import Source, null_cells
from .table_texts import table_text
from .writing import write_beside

__all__ = [
    "BandOf",
    "RecordedCall",
    "csv_of",
    "differences",
    "file_sum",
    "files_in",
    "is_of_r",
    "make",
    "placed",
    "read_record",
    "sum_of_cells",
    "table_of",
]

FORM = 1
# Arguments whose strings are never paths. Other strings are paths if the file exists.
_WORDS = ("area", "crs", "zone_field", "field", "layer", "level", "allocation", "other", "resample")
# Endings of files whose bytes are recorded, because they are not read as cells.
_TEXTS = (".csv", ".tsv", ".qml")
_FILES = 4  # the exit status if a file cannot be read
# How to create a record, in the terms of each host.
_ADVICE = {
    "python": "write it with rcell.record",
    "shell": "add --record to the command that writes the table",
    "qgis": "tick RECORD in the algorithm that writes the table",
}


class BandOf(NamedTuple):
    """A band of a raster, as an argument that can be recorded."""

    path: str
    band: int


@dataclasses.dataclass
class RecordedCall:
    """The result of a recorded call, with the table to write and a record of the inputs.

    Attributes
    ----------
    outcome : any
    table : Table
    call : dict
        The name of the call, its arguments, and the name of the table in its result.
    runs : list of dict
        The scripts that were run, each with a SHA-256 checksum of each map's cells, by map name.
    """

    outcome: Any
    table: Table
    call: Mapping[str, Any]
    runs: list[dict[str, Any]]

    def write(self, path: str, version: str) -> None:
        """Write the table and, next to it, the record.

        The same maps, call and versions always produce the same bytes.
        """
        table = csv_of(self.table)
        versions = {"rcell": version, "python": platform.python_version(), "numpy": np.__version__}
        record = {
            "rcell_record": FORM,
            "call": self.call,
            "runs": self.runs,
            "program": _sum_of_program(),
            "versions": versions,
            "table": {"name": os.path.basename(path), "sha256": _sum(table)},
        }
        text = json.dumps(record, indent=1, sort_keys=True, ensure_ascii=False) + "\n"
        write_beside(path, table)
        write_beside(_beside(path), text.encode("utf-8", "surrogateescape"))


def make(
    path: str,
    call: Callable[..., Any],
    words: Sequence[Any],
    named: Mapping[str, Any],
    part: Optional[str] = None,
) -> RecordedCall:
    """Run a call and record it for a table that will be written to `path`.

    `words` and `named` are the call's positional and keyword arguments. `part` is the name of the
    table in a result that has several.

    Raises
    ------
    BadArgument
        An argument cannot be recorded, the path is not a CSV, or the result lacks the table.
    """
    if not path.lower().endswith(".csv"):
        raise BadArgument("path", f"must end in .csv; got {path!r}")
    check_arguments(call, named)
    folder = os.path.dirname(os.path.abspath(path))
    params = inspect.signature(call).parameters
    given = {name: word for name, word in named.items() if not _is_default(params.get(name), word)}
    recorded_call = {
        "name": call.__name__,
        "words": [_plain(title, word, folder) for title, word in zip(params, words)],
        "named": {name: _plain(name, value, folder) for name, value in given.items()},
        "part": part,
    }
    with writing(path, _beside(path)):
        return _recorded(recorded_call, call, folder)


def csv_of(table: Table) -> bytes:
    """Encode a table as CSV."""
    text = table_text("csv", table.columns, table.rows)
    return text.encode("utf-8", "surrogateescape")


def _is_default(parameter: Optional[inspect.Parameter], argument: Any) -> bool:
    """Return whether an argument has its default value."""
    # Arrays and tables are never defaults, and comparing them does not return a bool.
    is_plain = argument is None or isinstance(argument, (bool, int, float, str))
    return parameter is not None and is_plain and argument == parameter.default


def _recorded(
    recorded_call: Mapping[str, Any], call: Callable[..., Any], folder: str
) -> RecordedCall:
    """Run a call and record its scripts and maps."""
    caller_started, runs = host().started, []

    def started(script: str, maps: Mapping[str, Source]) -> None:
        sums = {name: sum_of_cells(source) for name, source in maps.items()}
        runs.append({"script": script, "maps": sums})
        if caller_started is not None:
            caller_started(script, maps)

    words = [placed(word, folder) for word in recorded_call["words"]]
    named = {name: placed(value, folder) for name, value in recorded_call["named"].items()}
    with serving(dataclasses.replace(host(), started=started)):
        result = call(*words, **named)
    return RecordedCall(result, table_of(result, recorded_call["part"]), recorded_call, runs)


def table_of(result: Any, part: Optional[str] = None) -> Table:
    """Return the table `part` of a call's result, or by default the first table."""
    if isinstance(result, Accuracy) and part == "summary":
        return summary_of(result)
    tables = {"": result} if isinstance(result, Table) else {}
    if hasattr(result, "_asdict"):  # a named tuple of tables
        parts = result._asdict()
        tables = {name: value for name, value in parts.items() if isinstance(value, Table)}
    if not tables:
        raise BadArgument("call", f"must return a table; got a {type(result).__name__}")
    if part not in (None, *tables):
        names = ", ".join(name for name in tables if name)
        rule = f"must be one of {names}" if names else "must be left out if there is only one table"
        raise BadArgument("table", f"{rule}; got {part!r}")
    return tables[part] if part is not None else next(iter(tables.values()))


def read_record(path: str) -> dict[str, Any]:
    """Read the record of a table.

    Raises
    ------
    Refused
        The table has no record, or the record is invalid or from another version.
    """
    beside = _beside(path)
    if os.path.exists(path) and not os.path.exists(beside):
        advice = _ADVICE[host().words]
        raise Refused(f"{path} has no record ({beside}): {advice}", "record", status=_FILES)
    # If the table is missing too, the error names the table.
    try:
        text = _bytes_of(beside if os.path.exists(path) else path)
        record: dict[str, Any] = json.loads(text.decode("utf-8", "surrogateescape"))
    except ValueError as error:
        raise Refused(f"{beside} is not a record: {error}", "record") from None
    if not _is_record(record):
        raise Refused(f"{beside} is not a record of this version of rcell", "record")
    return record


def _bytes_of(path: str) -> bytes:
    try:
        with open(path, "rb") as file:
            return file.read()
    except OSError as error:
        raise Refused(f"cannot open {path}: {error.strerror}", "record", status=_FILES) from None


def is_of_r(record: Mapping[str, Any]) -> bool:
    """Return whether the R package wrote a record.

    The R package runs scripts with different lines.
    """
    return "R" in record["versions"]


def _is_record(record: Any) -> bool:
    """Return whether an object read from JSON contains the keys of a record."""
    try:
        call, runs = record["call"], record["runs"]
        texts = [
            record["program"],
            record["versions"]["rcell"],
            record["table"]["sha256"],
            call["name"],
        ]
        texts += [run["script"] for run in runs]
        tables = [call["named"], *(run["maps"] for run in runs)]
        return (
            record["rcell_record"] == FORM
            and isinstance(call["words"], list)
            and isinstance(call["part"], (str, type(None)))
            and all(isinstance(text, str) for text in texts)
            and all(isinstance(table, dict) for table in tables)
        )
    except (KeyError, TypeError):
        return False


def differences(path: str, version: str) -> Iterator[str]:
    """Repeat a recorded call with rcell `version`, and yield a line for each difference."""
    record, folder = read_record(path), os.path.dirname(os.path.abspath(path))
    if is_of_r(record):
        text = f'{path} was recorded with the R package: verify it in R with rcell_verify("{path}")'
        raise Refused(text, "record")
    call, table = call_named(record["call"]["name"]), _bytes_of(path)
    if _sum(table) != record["table"]["sha256"]:
        yield "the table has changed since it was written"
    yield from _other_texts([record["call"]["words"], record["call"]["named"]], folder)
    if _sum_of_program() != record["program"]:
        yield (
            f"the program has changed: it was rcell {record['versions']['rcell']}, and is now "
            f"rcell {version}"
        )
    try:
        repeated = _recorded(record["call"], call, folder)
    except (RcellError, KeyError, TypeError) as error:
        yield f"the call fails: {str(error).splitlines()[0]}"
        return
    yield from _other_runs(repeated.runs, record["runs"], _paths_of(record["call"], call))
    yield from _other_lines(table, csv_of(repeated.table))


def _other_runs(
    runs: Sequence[Any], recorded_runs: Sequence[Any], paths: Mapping[str, str]
) -> Iterator[str]:
    """Yield a line for each map whose cells differ, and a line if the scripts differ."""
    lines: list[str] = []
    for run, recorded in zip(runs, recorded_runs):
        for name, recorded_sum in recorded["maps"].items():
            if run["maps"].get(name) != recorded_sum:
                title = f"{name} ({paths[name]})" if name in paths else name
                lines.append(f"the cells of {title} differ")
    yield from dict.fromkeys(lines)  # once, although several runs may read the same map
    if [run["script"] for run in runs] != [run["script"] for run in recorded_runs]:
        yield "the scripts differ: the call ran different lines"


def _other_lines(recorded: bytes, returned: bytes) -> Iterator[str]:
    """Yield a line that shows the first difference between two tables and counts the others."""
    lines, new_lines = (
        text.decode("utf-8", "replace").split("\n") for text in (recorded, returned)
    )
    numbered = enumerate(zip(lines, new_lines), 1)
    different = [(number, line, new) for number, (line, new) in numbered if line != new]
    if different:
        (number, line, new), *others = different
        noun = "line" if len(others) == 1 else "lines"
        more = f" and in {len(others)} more {noun}" if others else ""
        yield f"the table differs in line {number}{more}: `{line}`, but the call returns `{new}`"
    elif recorded != returned:
        yield f"the table has {len(lines) - 1} lines, but the call returns {len(new_lines) - 1}"


def _other_texts(arguments: Any, folder: str) -> Iterator[str]:
    """Yield a line for each text file of a call, such as a legend, that has changed."""
    for file in files_in(arguments):
        path = os.path.join(folder, file["path"])
        if "sha256" in file and os.path.exists(path) and file_sum(path) != file["sha256"]:
            yield f"{file['path']} has changed"


def files_in(argument: Any) -> Iterator[Mapping[str, Any]]:
    """Yield the files in recorded arguments, in order."""
    if isinstance(argument, dict) and "path" in argument:
        yield argument
    elif isinstance(argument, (dict, list)):
        for part in argument.values() if isinstance(argument, dict) else argument:
            yield from files_in(part)


def _paths_of(recorded_call: Mapping[str, Any], call: Callable[..., Any]) -> dict[str, str]:
    """Return the paths in a recorded call by argument name."""
    titles = [*inspect.signature(call).parameters]
    arguments = {**dict(zip(titles, recorded_call["words"])), **recorded_call["named"]}
    return {
        name: value["path"]
        for name, value in arguments.items()
        if isinstance(value, dict) and "path" in value
    }


# Arguments


def _plain(title: str, argument: Any, folder: str) -> Any:
    """Convert the argument `title` to JSON types, with file paths relative to a folder."""
    if isinstance(argument, BandOf):
        return {**_plain(title, argument.path, folder), "band": argument.band}
    if isinstance(argument, (list, tuple)):
        return [_plain(title, part, folder) for part in argument]
    if isinstance(argument, Mapping):
        items = [[key, _plain(title, part, folder)] for key, part in argument.items()]
        return {"items": items}
    if isinstance(argument, (str, os.PathLike)):
        text = os.fspath(argument)
        file, _, _ = text.partition("|")  # QGIS appends a layer: zones.gpkg|layername=parks
        if title in _WORDS or not (os.path.isfile(file) or _is_pattern(file)):
            return text
        recorded = {"path": os.path.relpath(os.path.abspath(text), folder)}
        if file.lower().endswith(_TEXTS):
            recorded["sha256"] = file_sum(file)
        return recorded
    if argument is None or isinstance(argument, (bool, int, float)):
        return argument
    rule = "must be a path, a number or a string to be recorded"
    raise BadArgument(title, f"{rule}; got an object of type {type(argument).__name__}")


def _is_pattern(path: str) -> bool:
    """Return whether a path is a file name pattern in an existing folder."""
    folder, name = os.path.split(path)
    return bool(re.search("[*?[]", name)) and os.path.isdir(folder or os.curdir)


def placed(argument: Any, folder: str) -> Any:
    """Convert a recorded argument back to an argument for the call."""
    if isinstance(argument, list):
        return [placed(part, folder) for part in argument]
    if not isinstance(argument, dict):
        return argument
    if "items" in argument:
        return {key: placed(part, folder) for key, part in argument["items"]}
    path = os.path.join(folder, argument["path"])
    return open_raster("map", path, argument["band"]) if "band" in argument else path


# Checksums


def _beside(path: str) -> str:
    return f"{path}.json"


def _sum(data: bytes) -> str:
    return hashlib.sha256(data).hexdigest()


def file_sum(path: str) -> str:
    """Return the SHA-256 checksum of a file."""
    with open(path, "rb") as file:
        return _sum(file.read())


def _sum_of_program() -> str:
    return file_sum(find_pipe())


def sum_of_cells(source: Source) -> str:
    """Return the checksum of a map's region and cells.

    Cells are hashed as 32-bit integers, with -2147483648 for null, in every file format.
    """
    region = source.region
    state = hashlib.sha256(f"{' '.join(region.edges)} {region.rows} {region.cols}\n".encode())
    for block in source.blocks():
        cells = block.cells.astype("<i4")
        cells[null_cells(block.cells, block.null, source.nodata)] = NULL
        state.update(cells.tobytes())
    return state.hexdigest()

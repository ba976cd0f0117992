# SPDX-License-Identifier: Apache-2.0 OR GPL-2.0-or-later
"""Run the command line of rcell-gis.

Each command imports only the modules that it needs. Text grids can therefore be converted, and
scripts explained, without numpy.
"""

from __future__ import annotations

import argparse
import contextlib
import importlib
import os
import re
import shlex
import signal
import sys
import warnings
from typing import Any, Callable, Iterator, NamedTuple, NoReturn, Optional, Sequence

from .core.arguments import known_names
from .core.errors import BadMap, Killed, OtherCrs, OtherRegion, RcellError, Refused, WriteFailed
from .core.files import (
    Output,
    end_on_signals,
    open_standard_streams,
    opened,
    read_all,
    write_all,
    writing,
)
from .core.hints import lines_of_error, near
from .core.host import Host, serving
from .core.private_folders import PrivateFolder
from .core.process import begin_work, end_work, has_work
from .core.table_texts import table_text
from .shell_files import file_errors, write_maps, write_map
from .shell_options import NOTES, OPTIONS

__all__ = ["emit", "main", "script_of"]

NAME = "rcell-gis"
DESCRIPTION = "Count the cells of rasters with rcell, and write tables and maps."
EPILOG = """\
MAP is any raster that GDAL can read, or an rcell grid. ZONES may also be polygons: a cell belongs
to the polygon that contains its centre. LEGEND is a CSV with the columns value and label, or a QGIS
style (.qml). `rcell-gis COMMAND --help` lists the options of a command.
Exit status: 0 success; 1 invalid input; 2 invalid command line or missing library; 3 out of memory;
4 a file could not be read or written."""
CSV_ENDINGS = ("", ".csv", ".txt")
ENDINGS = {**dict.fromkeys(CSV_ENDINGS, "csv"), ".tsv": "tsv", ".md": "markdown", ".json": "json"}
# The options of commands that count, and the commands without these options.
_WORK = ("workers", "resume", "dry_run")
_WITHOUT_WORK = ("convert", "explain", "report")
_SYNOPSIS = 30  # the width of the help's first column
BAD_INPUT, COMMAND_LINE, MEMORY, FILES, INTERRUPTED = 1, 2, 3, 4, 130
LONGEST_NAME = 255  # the longest file name in bytes
# Options for the output file that other tools have.
OUT_OPTIONS = ("--out", "--output", "-o")
OUT_IS_LAST = "name the file to write after MAP, without an option"
RECORD_IS_AN_OPTION = "add --record and --out FILE.csv to the command that writes the table"


class _Parser(argparse.ArgumentParser):
    """An argument parser that reports errors on one line."""

    def __init__(self, **words: Any) -> None:
        formatter = argparse.RawDescriptionHelpFormatter
        super().__init__(allow_abbrev=False, formatter_class=formatter, **words)

    def error(self, message: str) -> NoReturn:
        """Print a one-line message and exit with status 2."""
        sys.stderr.write(f"{self.prog}: {message}; see {self.prog} --help\n")
        sys.exit(COMMAND_LINE)


class Command(NamedTuple):
    """A command: its synopsis, summary, arguments, options, and function.

    Arguments and options are keys of OPTIONS.
    """

    synopsis: str
    does: str
    words: str
    options: str
    run: Callable[[argparse.Namespace], Optional[int]]


# Parsing


def _pairs(words: Sequence[str]) -> dict[str, str]:
    """Parse arguments of the form NAME=PATH and return a dict of paths by name."""
    paths: dict[str, str] = {}
    for word in words:
        name, equals, path = word.partition("=")
        if not (name and equals and path):
            raise Refused(f"{word}: must have the form NAME=PATH", status=COMMAND_LINE)
        if name in paths:
            raise Refused(f"{word}: the name {name} is given twice", status=COMMAND_LINE)
        paths[name] = path
    return paths


def _parsed(words: list[str]) -> argparse.Namespace:
    """Parse a command line, or exit with status 2 if it is invalid."""
    parser, commands = _parser()
    if words and not words[0].startswith("-") and words[0] not in commands:
        hints = [f"did you mean {name}?" for name in near(words[0], commands)]
        if words[0] == "record":
            hints = [RECORD_IS_AN_OPTION]
        parser.error(": ".join([f"there is no command {words[0]}", *hints]))
    settings, rest = parser.parse_known_args(_joined(words))
    if settings.command is None:
        parser.error("a command is missing")
    if rest:
        parser = commands[settings.command]
        known = [option for action in parser._actions for option in action.option_strings]
        unknown, _, _ = rest[0].partition("=")
        hints = [f"did you mean {name}?" for name in near(unknown, known)]
        if unknown in OUT_OPTIONS and any(action.metavar == "OUT" for action in parser._actions):
            hints = [OUT_IS_LAST]
        parser.error(": ".join([f"unexpected argument {rest[0]}", *hints]))
    return settings


def _joined(words: list[str]) -> list[str]:
    """Join options with values such as `-1,2`, which argparse would treat as options."""
    joined: list[str] = []
    for word in words:
        if joined and re.match(r"-\d", word) and re.match(r"--\w[^=]*$", joined[-1]):
            joined[-1] += f"={word}"
        else:
            joined.append(word)
    return joined


def _line(synopsis: str, does: str) -> str:
    """Return the help text of a command, with a long synopsis on a separate line."""
    gap = f"\n  {'':<{_SYNOPSIS}}" if len(synopsis) > _SYNOPSIS else ""
    return f"  {synopsis:<{_SYNOPSIS}}{gap} {does}"


def _sentence(does: str) -> str:
    return f"{does[0].upper()}{does[1:]}."


def _parser() -> tuple[_Parser, dict[str, _Parser]]:
    """Create the command line's parser, and the parser of each command."""
    lines = [
        _line(f"{name} {command.synopsis}", command.does) for name, command in COMMANDS.items()
    ]
    text = "\n".join([DESCRIPTION, "", *lines])
    parser = _Parser(prog=NAME, description=text, epilog=EPILOG, usage=f"{NAME} COMMAND ..")
    parser.add_argument("--version", action="store_true", help="print the name and the version")
    commands = parser.add_subparsers(
        prog=NAME, dest="command", metavar="COMMAND", parser_class=_Parser, help=argparse.SUPPRESS
    )
    parsers = {}
    for name, command in COMMANDS.items():
        parsers[name] = commands.add_parser(
            name, description=_sentence(command.does), epilog=NOTES.get(name)
        )
        parsers[name].set_defaults(run=command.run, options=command.options.split())
        work = () if name in _WITHOUT_WORK else _WORK
        for word in (*command.words.split(), *command.options.split(), *work):
            option, settings = OPTIONS[word]
            parsers[name].add_argument(option, **settings)
    return parser, parsers


# The commands


def _call(words: argparse.Namespace) -> Callable[..., Any]:
    """Return the function that a command calls, with recording if it is requested."""
    rcell = importlib.import_module("rcell")
    call: Callable[..., Any] = getattr(rcell, words.command).__wrapped__
    if not words.__dict__.get("record"):
        return call
    if words.format not in (None, "csv") or not (words.out or "").lower().endswith(".csv"):
        raise Refused("--record requires --out with a name that ends in .csv", status=COMMAND_LINE)
    if words.command in MANY and len(words.maps) > 1:
        raise Refused(f"--record accepts one map; got {len(words.maps)}", status=COMMAND_LINE)
    make = importlib.import_module("rcell.core.record").make

    def recorded(*arguments: Any, **named: Any) -> Any:
        words.run_record = make(words.out, call, arguments, named, words.__dict__.get("table"))
        return words.run_record.outcome

    return recorded


def _options(words: argparse.Namespace) -> dict[str, Any]:
    """Return the given options as arguments for the call."""
    names = [ARGUMENTS.get(name, name) for name in words.options if name not in NO_ARGUMENTS]
    if words.command in ("zonal", "dominant"):  # whose zones are not an option
        names.append("zones")
    options: dict[str, Any] = {}
    for name in names:
        value = getattr(words, name)
        if value is not None and value is not False:
            options[name] = None if (name, value) == ("area", "none") else value
    return options


def _map(words: argparse.Namespace, path: str, name: str = "map") -> Any:
    """Return a map argument for a call: a path, or a band of a raster."""
    if words.__dict__.get("band") is None:
        return path
    if words.__dict__.get("record"):
        return importlib.import_module("rcell.core.record").BandOf(path, words.band)
    return importlib.import_module("rcell.readers").open_raster(name, path, words.band)


def _of_each(words: argparse.Namespace) -> None:
    """Write the tables of one or more maps, one below the other."""
    call, options, tables = _call(words), _options(words), []
    for path in words.maps:
        words.map_paths = {"values" if words.command == "zonal" else "map": path}
        if words.__dict__.get("zones"):
            words.map_paths["zones"] = words.zones
        words.several = path if len(words.maps) > 1 else None
        table = call(_map(words, path), **options)
        tables.append((path, table.columns, table.rows))
    words.map_paths = {}
    if len(tables) == 1:
        _write_table(words, table.columns, table.rows)
        return
    columns = list(dict.fromkeys(name for _, names, _ in tables for name in names))  # of any table
    rows: list[list[Any]] = []
    for path, names, values in tables:
        for row in values:
            value_of = dict(zip(names, row))
            rows.append([path, *map(value_of.get, columns)])
    _write_table(words, ("file", *columns), rows)


def _cross(words: argparse.Namespace) -> None:
    words.map_paths = _pairs(words.maps)
    maps = {name: _map(words, path, name) for name, path in words.map_paths.items()}
    options = _options(words)
    if words.labels:
        options["labels"] = _pairs(words.labels)
    table = _call(words)(maps, **options)
    _write_table(words, table.columns, table.rows)


def _change(words: argparse.Namespace) -> None:
    """Write a table of change between maps."""
    if len(words.maps) < 2:
        raise Refused(
            "two or more maps are required, in the order of their years", status=COMMAND_LINE
        )
    names = ["before", "after"]
    if len(words.maps) > 2:
        names = [f"map_{number}" for number in range(1, len(words.maps) + 1)]
    words.map_paths = dict(zip(names, words.maps))
    maps = [_map(words, path) for path in words.maps]
    table = getattr(_call(words)(maps, **_options(words)), words.table)
    _write_table(words, table.columns, table.rows)


def _accuracy(words: argparse.Namespace) -> None:
    words.map_paths = {"map": words.map, "reference": words.reference}
    map = None if words.map == "-" else _map(words, words.map)
    result = _call(words)(map, words.reference, **_options(words))
    is_summary = words.table == "summary"
    summary_of = importlib.import_module("rcell.core.accuracy").summary_of
    table = summary_of(result) if is_summary else getattr(result, words.table)
    _write_table(words, table.columns, table.rows)


def _sample(words: argparse.Namespace) -> None:
    words.maps = [words.map]
    _of_each(words)


def _to_map(words: argparse.Namespace) -> None:
    """Write the map that a call returns, and print its counts of cells or patches, if any."""
    words.map_paths = {"map": words.map}
    if words.command == "align":
        words.map_paths["to"] = words.to

    def make_maps() -> list[Any]:
        call = getattr(importlib.import_module("rcell"), words.command)
        result = call(_map(words, words.map), **_options(words))
        words.account = result.aligned or result.sieved
        return [result]

    write_maps([words.target], make_maps)
    if words.account is not None:
        _write_table(words, words.account._fields, [tuple(words.account)])


def _aggregate(words: argparse.Namespace) -> None:
    """Write a coarser map and, if requested, the shares of its classes."""
    words.map_paths = {"map": words.map}
    if words.shares and not words.shares.lower().endswith((".tif", ".tiff")):
        rule = f"{words.shares}: the name of the shares must end in .tif or .tiff"
        raise Refused(rule, status=COMMAND_LINE)

    def make_maps() -> list[Any]:
        call = importlib.import_module("rcell").aggregate
        result = call(_map(words, words.map), **_options(words))
        return [result.majority, result.shares]

    targets = [words.target, words.shares] if words.shares else [words.target]
    write_maps(targets, make_maps)


def _trajectories(words: argparse.Namespace) -> None:
    """Write a table of trajectories and the requested maps."""
    words.map_paths = {f"map_{number}": path for number, path in enumerate(words.maps, 1)}
    paths = _pairs(words.outs)
    known = importlib.import_module("rcell.core.trajectories").MAPS
    for name in paths:
        if name not in known:
            raise Refused(f"no map {name}: {known_names('map', known)}", status=COMMAND_LINE)

    def make_maps() -> list[Any]:
        maps = [_map(words, path) for path in words.maps]
        words.result = _call(words)(maps, include_maps=bool(paths), **_options(words))
        raster = importlib.import_module("rcell").Raster
        return [raster._of(words.result.maps[name]) for name in paths]

    write_maps(list(paths.values()), make_maps)
    table = getattr(words.result, words.table)
    _write_table(words, table.columns, table.rows)


def _run(words: argparse.Namespace) -> None:
    """Run a script, write the requested maps, and print the tables."""
    words.map_paths, paths = _pairs(words.maps), _pairs(words.outs)
    if words.each is not None:
        _run_each(words)
        return

    def make_maps() -> list[Any]:
        words.outputs = _outputs(words, list(paths))
        return words.outputs[len(words.outputs) - len(paths) :]  # the requested maps are last

    write_maps(list(paths.values()), make_maps)
    tables = [output.table() for output in words.outputs if hasattr(output, "table")]
    if tables:
        texts = (table_text(words.format or "csv", table.columns, table.rows) for table in tables)
        emit("\n".join(texts))


def _outputs(words: argparse.Namespace, wanted: Sequence[str] = ()) -> list[Any]:
    """Run a script and return the outputs, followed by the requested maps."""
    maps = {name: _map(words, path, name) for name, path in words.map_paths.items()}
    scripts = importlib.import_module("rcell.core.scripts")
    run = scripts.Run(script_of(words.script), maps, named={}, crs=words.crs)
    for name in wanted:
        if name not in run.sources and name not in run.made:
            problem = f"no map {name}: {known_names('map', [*run.sources, *run.made])}"
            raise Refused(problem, status=COMMAND_LINE)
    raster = importlib.import_module("rcell").Raster
    outputs = run.outputs(wanted)
    return [output if hasattr(output, "table") else raster._of(output) for output in outputs]


def _run_each(words: argparse.Namespace) -> None:
    """Write each table and map of a script to a file in a new folder.

    The folder is given its name when all files are complete.
    """
    folder = os.path.abspath(words.each)
    if os.path.lexists(folder):
        raise Refused(f"{words.each} already exists: choose another name", status=COMMAND_LINE)
    if words.outs:
        raise Refused("--each and --out cannot be used together", status=COMMAND_LINE)
    outputs = _outputs(words)
    errors_of = importlib.import_module("rcell.core.writing").write_errors
    with errors_of(words.each), contextlib.ExitStack() as cleanup:
        begin_work()
        cleanup.callback(end_work)
        private = PrivateFolder(os.path.dirname(folder), os.path.basename(folder))
        cleanup.callback(private.remove)
        digits = max(2, len(str(len(outputs))))
        for number, output in enumerate(outputs, 1):
            is_table, form = hasattr(output, "table"), words.format or "csv"
            if is_table:
                name = f"r.stats-{','.join(output.maps)}"
                ending = ".md" if form == "markdown" else f".{form}"
            else:
                name, ending = f"r.out.ascii-{output.name}", _ending_of_maps(words)
            name = f"{number:0{digits}}-{name}"
            path = os.path.join(private.path, name[: LONGEST_NAME - len(ending)] + ending)
            if is_table:
                table = output.table()
                with open(path, "w", encoding="utf-8", errors="surrogateescape") as file:
                    file.write(table_text(form, table.columns, table.rows))
            else:
                write_map(output, path, ending)
        os.mkdir(folder)  # fails if another process has created it in the meantime
        private.rename(folder)
        os.chmod(folder, 0o777 & ~_mask())


def _mask() -> int:
    mask = os.umask(0)  # which can only be read by setting it
    os.umask(mask)
    return mask


def _ending_of_maps(words: argparse.Namespace) -> str:
    """Return `.txt` if all input maps are rcell grids, otherwise `.tif`."""
    is_text = all(path.lower().endswith(".txt") for path in words.map_paths.values())
    return ".txt" if is_text else ".tif"


def _convert(words: argparse.Namespace) -> None:
    """Write a map in another format."""
    words.map_paths = {"map": words.map}
    converting = importlib.import_module("rcell.core.converting")
    ending = os.path.splitext(words.target)[1].lower()
    is_esri = ending == ".asc"
    is_plain = words.band is None and words.like is None and words.crs is None
    if words.target == "-" or ending in (".txt", ".asc"):
        with writing(words.target):
            # Text grids are converted while they are read, without GDAL.
            text = converting.converted(words.map, is_esri) if is_plain else None
            if text is None:
                text = converting.printed_map(_raster(words), is_esri)
            with file_errors(words.target), Output(words.target) as output:
                for piece in text:
                    write_all(output.stream(), piece)
        return
    write_maps([words.target], lambda: [_raster(words)])


def _raster(words: argparse.Namespace) -> Any:
    """Return the map to convert, with the reference system and extent of `--like`, if given."""
    grid = importlib.import_module("rcell").grid
    grid_of_map = grid("", "map", {"map": _map(words, words.map)}, crs=words.crs)
    if words.like is None:
        return grid_of_map
    return importlib.import_module("rcell.core.converting").like(grid_of_map, words.like)


def _verify(words: argparse.Namespace) -> int:
    verify = importlib.import_module("rcell").verify
    differences = [(path, verify(path)) for path in words.tables]
    for path, lines in differences:
        emit("".join(f"{path}: {line}\n" for line in lines or ["verified"]))
    return BAD_INPUT if any(lines for _, lines in differences) else 0


def _report(words: argparse.Namespace) -> None:
    if words.page is not None:
        importlib.import_module("rcell").report(words.tables, words.page, words.title)
        return
    emit(importlib.import_module("rcell.core.report").page_of(words.tables, words.title))


def _explain(words: argparse.Namespace) -> int:
    explaining = importlib.import_module("rcell.core.explaining")
    status: int = explaining.explain(words.script, words.maps)
    return status


# Output


def _write_table(
    words: argparse.Namespace, columns: Sequence[str], rows: Sequence[Sequence[Any]]
) -> None:
    """Write a table to the file given by `--out`, or to standard output."""
    out = words.__dict__.get("out")
    ending = os.path.splitext(out or "")[1].lower()
    text = table_text(words.format or ENDINGS[ending], columns, rows)
    if not rows:
        _tell("note: the table is empty: all cells are null or excluded")
    if out is None:
        emit(text)
        return
    if words.__dict__.get("run_record"):
        words.run_record.write(out, importlib.import_module("rcell").__version__)
        return
    with file_errors(out), Output(out) as output:
        write_all(output.stream(), text.encode("utf-8", "surrogateescape"))


@contextlib.contextmanager
def _writing_a_table(path: Optional[str]) -> Iterator[None]:
    """Raise Refused if the block reads the table's file, or if its extension is unknown."""
    if path is None:
        yield
        return
    if os.path.splitext(path)[1].lower() not in ENDINGS:
        rule = f"{path}: the name of a table must end in .csv, .tsv, .txt, .md or .json"
        raise Refused(rule, status=COMMAND_LINE)
    with writing(path):
        yield


def emit(text: str) -> None:
    """Write to standard output without a buffer, which Python would flush again at exit."""
    sys.stdout.flush()
    printable = _printable(text) if os.isatty(1) else text  # on a terminal
    with file_errors("-"), Output("-") as output:
        write_all(output.stream(), printable.encode("utf-8", "surrogateescape"))


def script_of(word: str) -> str:
    """Return the text of a script, which is a file, standard input or the argument itself."""
    if word != "-" and not os.path.exists(word) and word.startswith("r."):
        return word
    try:
        if word == "-":
            raw = read_all(sys.stdin.fileno())
        else:
            opened(word)
            with open(word, "rb") as file:
                raw = file.read()
    except (OSError, ValueError) as error:
        reason = getattr(error, "strerror", None) or error
        path = "standard input" if word == "-" else word
        raise Refused(f"cannot open {path}: {reason}", "script", status=FILES) from None
    return raw.decode("utf-8", "surrogateescape")


# The arguments of calls whose names differ from the names of options.
ARGUMENTS = {"each_zone": "each", "of_classes": "classes", "smallest": "min_cells"}
NO_ARGUMENTS = {
    *("band", "format", "legends", "out", "part", "record", "shares", "table"),
    *("maps_of_years", "of_trajectories"),
}
# Commands that process several maps one after another.
MANY = ("composition", "patches", "zonal", "adjacency", "dominant", "metrics")
_ZONES = "zones zone_field zone_labels layer"
_TABLE = "band crs format out record"
COMMANDS = {
    "composition": Command(
        "MAP...",
        "list the cells, area and percentage of each class, in total or by zone",
        "maps",
        f"{_ZONES} each_zone labels area include_null {_TABLE}",
        _of_each,
    ),
    "cross": Command(
        "NAME=MAP...",
        "count how often the classes of several maps occur together",
        "named",
        f"legends area include_null {_TABLE}",
        _cross,
    ),
    "change": Command(
        "MAP MAP...",
        "report the change of each class between two or more years",
        "maps",
        f"years table labels area {_TABLE}",
        _change,
    ),
    "dominant": Command(
        "MAP... ZONES",
        "find the most frequent and the rarest class of each zone",
        "maps zone_map",
        f"zone_field zone_labels layer each_zone labels area {_TABLE}",
        _of_each,
    ),
    "accuracy": Command(
        "MAP REFERENCE",
        "estimate the accuracy of a map, and correct its class areas with a sample",
        "map reference",
        f"areas part field layer labels area {_TABLE}",
        _accuracy,
    ),
    "sample": Command(
        "MAP --n N --seed SEED",
        "draw random cells of each class; the same seed draws the same cells",
        "map",
        f"n seed allocation labels {_TABLE}",
        _sample,
    ),
    "metrics": Command(
        "MAP...",
        "compute landscape metrics of classes, patches or landscapes",
        "maps",
        f"level connectivity {_ZONES} each_zone labels area {_TABLE}",
        _of_each,
    ),
    "trajectories": Command(
        "MAP MAP... --years ..",
        "count sequences of classes over years, and map when classes changed",
        "maps",
        f"years of_trajectories maps_of_years labels area {_TABLE}",
        _trajectories,
    ),
    "patches": Command(
        "MAP...",
        "list the patches of a map: groups of connected cells of one class",
        "maps",
        f"connectivity classes min_cells core_depth summary {_ZONES} each_zone labels area "
        f"{_TABLE}",
        _of_each,
    ),
    "zonal": Command(
        "VALUES... ZONES",
        "compute sums, means and quantiles by zone",
        "maps zone_map",
        f"quantiles scale zone_field zone_labels layer each_zone {_TABLE}",
        _of_each,
    ),
    "adjacency": Command(
        "MAP...",
        "count how often cells of two classes share an edge",
        "maps",
        f"labels {_TABLE}",
        _of_each,
    ),
    "majority": Command(
        "MAP OUT",
        "write a map with the most frequent class in the square around each cell",
        "map target",
        "size fill band crs",
        _to_map,
    ),
    "reclass": Command(
        "MAP OUT --rules FILE",
        "write a map with new classes, from a CSV with the columns value, new and label",
        "map target",
        "rules other band crs",
        _to_map,
    ),
    "clump": Command(
        "MAP OUT",
        "write a map with each cell's patch number",
        "map target",
        "connectivity classes min_cells band crs",
        _to_map,
    ),
    "sieve": Command(
        "MAP OUT --min-cells N",
        "write a map in which small patches are merged into their neighbours, and count the "
        "changes",
        "map target",
        "smallest min_ha connectivity drop band crs format",
        _to_map,
    ),
    "within": Command(
        "MAP OUT --classes .. --distances ..",
        "write a map of the cells within given distances of classes (buffers)",
        "map target",
        "of_classes distances band crs",
        _to_map,
    ),
    "aggregate": Command(
        "MAP OUT --factor N",
        "write a coarser map with the most frequent class in each block, and the share of each "
        "class",
        "map target",
        "factor min_percent shares band crs",
        _aggregate,
    ),
    "align": Command(
        "MAP OUT --to OTHER",
        "write a map on the grid of another map, and count the cells used and lost",
        "map target",
        "to resample band crs format",
        _to_map,
    ),
    "run": Command(
        "SCRIPT NAME=MAP...",
        "run a script, print its tables, and write its maps to files",
        "script named",
        "outs each band crs format",
        _run,
    ),
    "convert": Command(
        "IN OUT",
        "convert any raster that GDAL can read to .tif, .asc, .txt (an rcell grid) or a picture",
        "map target",
        "band like crs",
        _convert,
    ),
    "report": Command(
        "FILE.csv... --out FILE.html",
        "write an HTML page of recorded tables, with pictures of maps and commands to verify them",
        "tables",
        "page title",
        _report,
    ),
    "verify": Command(
        "FILE.csv...",
        "repeat the calls of recorded tables, and print the differences",
        "tables",
        "",
        _verify,
    ),
    "explain": Command(
        "SCRIPT NAME=GRID...",
        "run rcell; if it fails, mark the error in its line and suggest a correction",
        "script named",
        "",
        _explain,
    ),
}


# Running


def main(words: Optional[Sequence[str]] = None) -> int:
    """Run a command line and return the exit status.

    Examples
    --------
    >>> main(["composition", "/nowhere.tif"])
    4
    """
    arguments = list(sys.argv[1:] if words is None else words)
    try:
        if words is None:
            open_standard_streams()
            end_on_signals()
            if signal.getsignal(signal.SIGINT) != signal.SIG_IGN:
                signal.signal(signal.SIGINT, _end_on_interrupt)
        with warnings.catch_warnings(), serving(Host("shell", warn=_warn)):
            warnings.simplefilter("default", UserWarning)
            warnings.showwarning = lambda message, *_, **__: _warn(str(message))
            return _status_of(arguments)
    except KeyboardInterrupt:
        return INTERRUPTED


def _end_on_interrupt(*_: Any) -> None:
    """Exit immediately if there is nothing to clean up, otherwise raise KeyboardInterrupt.

    Some libraries turn an interrupt during their import into another error.
    """
    if not has_work():
        os._exit(INTERRUPTED)
    sys.unraisablehook = lambda _: None  # Python would print an interrupt that it ignores
    raise KeyboardInterrupt


def _status_of(arguments: list[str]) -> int:
    """Run a command line, print errors on one line, and return the exit status."""
    if arguments == ["--version"]:
        emit(f"{NAME} {importlib.import_module('rcell').__version__}\n")
        return 0
    settings = _parsed(arguments)
    settings.map_paths = {}
    try:
        with _writing_a_table(settings.__dict__.get("out")), _working(settings):
            return _run_command(settings)
    except RcellError as error:
        if isinstance(error, (OtherRegion, OtherCrs)):
            error.advice = _align_words(error, settings.map_paths)
        elif isinstance(error, BadMap) and error.advice and error.source in settings.map_paths:
            # The advice names the files after the argument: `map.tif` and `map_rounded.tif`.
            stem, ending = os.path.splitext(settings.map_paths[error.source])
            for mark in ("", "_rounded"):
                new = shlex.quote(f"{stem}{mark}{ending}")
                error.advice = error.advice.replace(f"{error.source}{mark}.tif", new)
        _tell(_in_one_line(error, settings.__dict__.get("several")))
        return _status(error)
    except ImportError as error:
        is_missing = isinstance(error, ModuleNotFoundError)
        problem = f"the Python library {error.name} is missing" if is_missing else str(error)
        _tell(f"{problem}; on Debian: apt-get install python3-rasterio python3-pyproj")
        return COMMAND_LINE
    except MemoryError:
        _tell("out of memory")
        return MEMORY
    except OSError as error:
        _tell(": ".join(str(part) for part in (error.filename, error.strerror or error) if part))
        return FILES


def _working(settings: argparse.Namespace) -> contextlib.AbstractContextManager[None]:
    """Apply the options for processing large maps."""
    options = {name: settings.__dict__.get(name) for name in _WORK}
    if not any(value is not None and value is not False for value in options.values()):
        return contextlib.nullcontext()
    working: Any = importlib.import_module("rcell.core.tiling").working
    context: contextlib.AbstractContextManager[None] = working(
        options["workers"], options["resume"], is_dry=bool(options["dry_run"])
    )
    return context


def _run_command(settings: argparse.Namespace) -> int:
    """Run a command or, with `--dry-run`, print its plan."""
    if not settings.__dict__.get("dry_run"):
        return settings.run(settings) or 0
    dry_run = importlib.import_module("rcell.core.tiling").DryRun
    try:
        return settings.run(settings) or 0
    except dry_run as plan:
        emit(str(plan))
        return 0


def _warn(text: str) -> None:
    _tell(f"warning: {text}")


def _tell(text: str) -> None:
    with contextlib.suppress(OSError):
        sys.stderr.write(f"{NAME}: {_printable(text)}\n")
        sys.stderr.flush()


def _printable(text: str) -> str:
    """Escape the control characters that a terminal would interpret."""
    return re.sub(r"[\0-\x08\x0b-\x1f\x7f-\x9f]", lambda match: f"\\x{ord(match[0]):02x}", text)


def _in_one_line(error: RcellError, path: Optional[str]) -> str:
    """Format an error on one line, with the script's line and a correction.

    If a command has several maps, `path` is the path of the map that the error may be about.
    """
    if not isinstance(error, Refused):
        return "; ".join(line.strip() for line in str(error).split("\n"))
    source = error.source
    if path and source in ("map", "values"):
        source = path
    place = "" if source == "arguments" else f"{source}: "
    if error.line:
        place = f"{source}, line {error.line}: "
    lines = (place + error.text).split("\n")
    if error.content:
        line, *_ = lines_of_error(error.content, error.column)
        lines.append(f"`{line.strip()}`")
    if error.advice:
        lines += f"try: {error.advice}".split("\n")
    return "; ".join(line.strip() for line in lines)


def _align_words(error: Refused, paths: dict[str, str]) -> Optional[str]:
    """Return the command that aligns a map with the first map.

    If the path of either map is unknown, only the option `--resample nearest` is returned.
    """
    if not error.advice:
        return None
    first = next(iter(paths), "")
    if error.source not in paths or error.source == first:
        return "--resample nearest"
    path = paths[error.source]
    stem, ending = os.path.splitext(path)
    words = [NAME, "align", path, f"{stem}-aligned{ending}", "--to", paths[first]]
    if "resample=" in error.advice:
        words += ["--resample", "nearest"]
    return shlex.join(words)


def _status(error: RcellError) -> int:
    if isinstance(error, (WriteFailed, Killed)):
        return FILES if isinstance(error, WriteFailed) else MEMORY
    return error.status if isinstance(error, Refused) else COMMAND_LINE


if __name__ == "__main__":
    sys.exit(main())

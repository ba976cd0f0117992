#!/usr/bin/env python3
# SPDX-License-Identifier: Apache-2.0 OR GPL-2.0-or-later

############################################################################
#
# MODULE:    r.rcell
# AUTHOR(S): Nibzoqel authors
# PURPOSE:   Runs an rcell script on raster maps in the current region
#            and imports the maps that it creates
# COPYRIGHT: (C) 2026 by the Nibzoqel authors
#
#            This program is free software under the GNU General Public
#            License (>=v2) or the Apache License 2.0, at your choice.
#
############################################################################

# %module
# % description: Runs a script of map algebra, reclassification, patches and tables on raster maps.
# % keyword: raster
# % keyword: algebra
# % keyword: reclassification
# % keyword: clumps
# % keyword: statistics
# % overwrite: yes
# %end
# %flag
# % key: l
# % label: Add category labels to all tables
# % description: Every r.stats in the script prints labels, as with its own flag -l
# %end
# %option G_OPT_F_INPUT
# % key: script
# % label: Name of the rcell script
# % description: Use "-" to read the script from standard input
# %end
# %option
# % key: maps
# % type: string
# % key_desc: name[=map]
# % multiple: yes
# % required: yes
# % label: Raster maps that the script reads
# % description: Use NAME=MAP if the script uses another name, for example ws=basins@PERMANENT
# %end
# %option
# % key: output
# % type: string
# % key_desc: name[=map]
# % multiple: yes
# % required: no
# % label: Maps of the script to import as raster maps
# % description: Use NAME=MAP to give the raster map another name
# %end
# %option G_OPT_F_OUTPUT
# % key: table
# % required: no
# % label: Name of the output file for the script's tables
# % description: If omitted or "-", the tables are written to standard output
# %end

import atexit
import os
import re
import shutil
import signal
import subprocess
import sys
import tempfile
import time
from collections import namedtuple
from contextlib import contextmanager

import grass.script as gs
from grass.exceptions import CalledModuleError

NULL = -2147483648  # null for r.out.bin and r.in.bin; not a category
MOST_SIDE = 65535  # the largest number of rows or columns that rcell accepts
MOST_CELLS = 2147483647
BLOCK_CELLS = 1 << 20  # the number of cells to send at a time
SECONDS_OF_A_STEP = 0.5  # between updates of the progress line
BLANKS = b" \t\r"
NAME = re.compile(r"[A-Za-z_][A-Za-z0-9_.]{0,63}")
BYTES = {"u8": 1, "i32": 4}  # bytes per cell of returned maps, by type

Input = namedtuple("Input", "name map")  # the name in the script, the raster map
Output = namedtuple("Output", "name map")


class Stopped(Exception):
    """Raised if the run cannot continue.

    `beneath` contains script lines to print unchanged after the message.
    """

    def __init__(self, text, beneath=""):
        super().__init__(text)
        self.beneath = beneath


# Scripts


def with_labels(script, statements):
    """Add the flag -l to the r.stats statements of a script that lack it."""
    lines = script.split("\n")
    for statement in statements:
        if statement.command == "r.stats" and "l" not in statement.options:
            lines[statement.line - 1] += " -l"
    return "\n".join(lines)


def without_tables(script, statements):
    """Remove the statements that write outputs, each on one line, from a script."""
    lines = script.split("\n")
    for statement in statements:
        if not statement.made:
            lines[statement.line - 1] = ""
    return "\n".join(lines)


def labelled_maps(statements):
    """Return the names of the maps whose tables are printed with labels."""
    names = set()
    for statement in statements:
        if "l" in statement.options:
            names.update(statement.inputs)
    return names


def made_by(statements):
    """Return the command that creates each map of a script, by map name."""
    return {statement.made: statement.command for statement in statements if statement.made}


def stopped(end, script, names):
    """Return a Stopped with rcell's message and the line of the user's script."""
    from rcell.core.protocol import Fault

    fault = Fault(**end.parts(program(), script, names))
    message = "rcell: %s:%d: %s" % (fault.source, fault.line, fault.text)
    if fault.content is None:
        return Stopped(message)
    line = fault.content.encode("utf-8", "surrogateescape")
    beneath = "    %s\n" % printable(line)
    if fault.column:
        head, tail = line[: fault.column - 1], line[fault.column - 1 :]
        beneath += "    %s^\n" % (" " * len(printable(head)))
        if fault.text == "bad option":
            message += ": " + tail.split()[0].decode(errors="replace")  # the first word
    if fault.advice:
        beneath += "    try: %s\n" % fault.advice
    return Stopped(message, beneath)


def printable(line):
    """Decode a line for messages, with tabs as spaces."""
    return line.decode(errors="replace").replace("\t", " ")


# Input maps


def edge_texts(region):
    """Return a region's north, south, east and west edges as decimal strings."""
    texts = (("%.8f" % region[edge]).rstrip("0").rstrip(".") for edge in "nsew")
    return tuple("0" if text == "-0" else text for text in texts)


def sources_of(rasters, labels, region, progress):
    """Return raster maps for rcell-pipe, whose rows r.out.bin exports as they are read."""
    from rcell.core.protocol import Map, Maps

    rows, cols = region["rows"], region["cols"]
    maps = [
        Map(
            name=raster.name,
            type="i32",
            blocks=blocks_of(raster.map, rows, cols, progress),
            nodata=NULL,
            labels=labels.get(raster.name, {}),
        )
        for raster in rasters
    ]
    return Maps(edge_texts(region), rows, cols, maps)


def blocks_of(raster, rows, cols, progress):
    """Yield the rows of a raster map in blocks."""
    from rcell.core.protocol import Block

    module = gs.pipe_command(
        "r.out.bin", flags="i", input=raster, output="-", bytes=4, null=NULL, quiet=True
    )
    rows_of_block = max(1, BLOCK_CELLS // cols)
    for first in range(0, rows, rows_of_block):
        count = min(rows_of_block, rows - first)
        cells = module.stdout.read(4 * cols * count)
        if len(cells) < 4 * cols * count:  # the module failed, which end_of reports
            break
        yield Block(cells)
        progress.add(count)
    end_of(module, raster)


def end_of(module, raster):
    """Raise Stopped unless a module succeeded."""
    module.stdout.close()
    if module.wait():
        raise Stopped(_("Raster map <{}> could not be read").format(raster))


# Outputs of rcell


def label_lines(frame):
    """Return the input lines of r.category for a table of categories with labels."""
    labelled = [
        (category, label) for category, label in zip(frame.cells.tolist(), frame.labels) if label
    ]
    for category, label in labelled:
        if b"\t" in label:
            raise Stopped(
                _(
                    "The label of category {} contains a tab, which r.category does not accept"
                ).format(category)
            )
    return [b"%d\t%s\n" % pair for pair in labelled]


class Imports:
    """Imports raster maps under temporary names, which are kept until all maps are complete."""

    def __init__(self, region):
        self.region = region
        self.outputs = {}  # by temporary name
        self.folder = tempfile.mkdtemp(dir=os.path.dirname(gs.tempfile(create=False)))
        atexit.register(self.remove)

    def remove(self):
        """Remove the maps that still have temporary names."""
        shutil.rmtree(self.folder, ignore_errors=True)
        if self.outputs:
            names = list(self.outputs)
            silence = dict(quiet=True, stderr=subprocess.DEVNULL, errors="ignore")
            gs.run_command("g.remove", flags="f", type="raster", name=names, **silence)

    def edges(self):
        """Return the edges of the region, whose keys are n, s, e and w, as options of r.in.bin."""
        return {key: "%.15g" % self.region[key[0]] for key in ("north", "south", "east", "west")}

    def add(self, output, frame, progress):
        """Import a map with r.in.bin from a file, because r.in.bin cannot read from a pipe."""
        name = "rcell_%d_%d" % (os.getpid(), len(self.outputs))
        self.outputs[name] = output
        path = os.path.join(self.folder, "cells")
        with open(path, "wb") as file:
            file.write(frame.cells)
        gs.run_command(
            "r.in.bin",
            flags="s" if frame.null == NULL else "",  # signed
            input=path,
            output=name,
            bytes=BYTES[frame.type],
            anull=frame.null,
            quiet=True,
            rows=frame.rows,
            cols=frame.cols,
            **self.edges(),
        )
        os.remove(path)
        # Set the exact edges of the current region.
        gs.run_command("r.region", flags="c", map=name, quiet=True)
        progress.add(frame.rows)
        return name

    def label(self, name, lines):
        """Add labels to a map."""
        module = gs.feed_command("r.category", map=name, rules="-", separator="tab", quiet=True)
        module.stdin.write(b"".join(lines))
        module.stdin.close()
        if module.wait():
            raster = self.outputs[name].map
            raise Stopped(_("The labels of <{}> could not be written").format(raster))

    def finish(self, patch_maps):
        """Rename all maps at once, and give patches random colours, as r.clump does."""
        renamed = []  # the old and the new name of each map in turn
        for name, output in self.outputs.items():
            if output.name in patch_maps:
                gs.run_command("r.colors", map=name, color="random", quiet=True)
            renamed += [name, output.map]
        if renamed:
            gs.run_command("g.rename", raster=renamed, overwrite=gs.overwrite(), quiet=True)
        outputs, self.outputs = self.outputs, {}  # no temporary names are left
        for output in outputs.values():
            gs.raster_history(output.map, overwrite=True)


class Progress:
    """Shows the progress over all rows in a few steps, because each step runs g.message."""

    def __init__(self, rows):
        self.done, self.rows, self.time_shown, self.is_shown = 0, rows, time.monotonic(), False

    def add(self, rows):
        """Count rows as done, and show the progress if the last step was long enough ago."""
        self.done += rows
        if time.monotonic() - self.time_shown > SECONDS_OF_A_STEP and self.done < self.rows:
            gs.percent(self.done, self.rows, 1)
            self.time_shown, self.is_shown = time.monotonic(), True

    def end(self):
        if self.is_shown:
            gs.percent(1, 1, 1)  # 100 %


# Running rcell


def program():
    """Return the path of rcell-pipe, ignoring relative folders on PATH."""
    folders = [folder for folder in os.get_exec_path() if os.path.isabs(folder)]
    return shutil.which("rcell-pipe", path=os.pathsep.join(folders)) if folders else None


def find_front(path):
    """Make rcell.core importable: from the release, the sources, or an installed package."""
    folder = os.path.dirname(os.path.dirname(os.path.realpath(path)))
    for modules in ("share/rcell", "python/src"):
        if os.path.isdir(os.path.join(folder, modules, "rcell", "core")):
            sys.path.insert(0, os.path.join(folder, modules))
            break
    try:
        import rcell.core.protocol  # noqa: F401
    except ImportError:
        raise Stopped(
            _("The Python modules of {} were not found in its ../share/rcell").format(path)
        ) from None


def judged(script, names):
    """Return the plan of a script, or raise Stopped if rcell rejects it."""
    from rcell.core import protocol

    with stopping_on_faults(script, names):
        return protocol.plan(program(), names, script.encode("utf-8", "surrogateescape"))


@contextmanager
def stopping_on_faults(script, names):
    """Convert rcell-pipe's errors to Stopped."""
    from rcell.core.protocol import Killed, NoAnswer, Rejected

    try:
        yield
    except Rejected as end:
        raise stopped(end, script, names) from None
    except (Killed, NoAnswer) as fault:
        raise Stopped(_("{} failed: {}").format(program(), fault)) from None


def tables_of(script, statements, sources):
    """Run a script over the maps from `sources()`, and yield its text output piece by piece."""
    from rcell.core import protocol

    if all(statement.made for statement in statements):  # each makes a map, and none writes text
        return
    maps = sources()
    with stopping_on_faults(script, [source.name for source in maps.maps]):
        yield from protocol.text(program(), maps, script.encode("utf-8", "surrogateescape"))


def maps_of(script, statements, sources, outputs, labels):
    """Run a script and return the cells of its outputs, in order, and labels by map name.

    `labels` are the labels of input maps. Other labels are from r.reclass.
    """
    from rcell.core import protocol

    if not outputs:
        return [], {}
    commands, maps = made_by(statements), sources()
    labelled = []
    for output in outputs:
        if commands.get(output.name) == "r.reclass" or labels.get(output.name):
            labelled.append(output.name)
    lines = [without_tables(script, statements)]
    lines += ["r.out.ascii input=%s" % output.name for output in outputs]
    lines += ["r.stats -l -n input=%s" % name for name in labelled]
    new_script = "\n".join(lines).encode("utf-8", "surrogateescape")
    with stopping_on_faults(script, [source.name for source in maps.maps]):
        frames = protocol.run(program(), maps, new_script)
    cells, tables = frames[: len(outputs)], frames[len(outputs) :]
    return cells, dict(zip(labelled, tables))


def labels_of(raster):
    """Return the labels of a raster map by category."""
    module = gs.pipe_command("r.category", map=raster, separator="tab", quiet=True)
    lines = list(module.stdout)
    end_of(module, raster)
    labels = {}
    for line in lines:
        category, _tab, label = line.rstrip(b"\n").partition(b"\t")
        labels[int(category)] = label.strip(BLANKS).decode("utf-8", "surrogateescape")
    return {category: label for category, label in labels.items() if label}


# Checks before the run


def pairs_of(text, kind):
    """Parse the items of an option, each of which is NAME or NAME=MAP, as Inputs or Outputs."""
    pairs = []
    for item in text.split(",") if text else []:
        name, sign, raster = item.partition("=")
        if not sign:  # MAP or MAP@MAPSET
            name, raster = item.partition("@")[0], item
        if not NAME.fullmatch(name):
            raise Stopped(
                _(
                    "<{}>: rcell does not accept this name; write NAME={}, with a NAME of letters, "
                    "digits, _ and ., beginning with a letter or _"
                ).format(item, raster or "MAP")
            )
        if name in [pair.name for pair in pairs] and kind is Input:
            raise Stopped(_("The name <{}> is used for two maps").format(name))
        pairs.append(kind(name, raster))
    return pairs


def look_up_inputs(inputs):
    """Raise Stopped unless all inputs are raster maps of whole numbers."""
    for raster in inputs:
        if not raster.map or not gs.find_file(raster.map, element="cell")["file"]:
            raise Stopped(_("Raster map <{}> not found").format(raster.map))
        if gs.raster_info(raster.map)["datatype"] != "CELL":
            raise Stopped(
                _(
                    "Raster map <{0}> has decimals, but rcell requires whole numbers: round it, "
                    'for example with r.mapcalc "cells = round({0})"'
                ).format(raster.map)
            )


def look_up_outputs(outputs, commands, inputs):
    """Check that the script contains the map of each output, and that the output's name is free.

    Returns the outputs with their names in this mapset. `commands` contains the script's maps.
    """
    known = [*commands, *(source.name for source in inputs)]
    current, checked = gs.gisenv()["MAPSET"], []
    for output in outputs:
        raster, _at, mapset = output.map.partition("@")
        if output.name not in known:
            others = ", ".join(commands) or _("none")
            raise Stopped(
                _("The script does not make a map <{}>; it makes {}").format(output.name, others)
            )
        if mapset not in ("", current) or not raster or not gs.legal_name(raster):
            raise Stopped(
                _("<{}> is not a valid name for a raster map in this mapset").format(output.map)
            )
        if raster in [other.map for other in checked]:
            raise Stopped(_("Raster map <{}> would be written twice").format(raster))
        if gs.find_file(raster, element="cell", mapset=current)["file"] and not gs.overwrite():
            raise Stopped(_("Raster map <{}> exists; use --overwrite to replace it").format(raster))
        checked.append(Output(output.name, raster))
    return checked


def look_up_region():
    region = gs.region()
    rows, cols = region["rows"], region["cols"]
    if max(rows, cols) > MOST_SIDE or rows * cols > MOST_CELLS:
        raise Stopped(
            _(
                "The current region has {} rows and {} columns; rcell accepts at most {} of each "
                "and {} cells in total. Cut it into tiles (r.tile, or g.region for each tile)"
            ).format(rows, cols, MOST_SIDE, MOST_CELLS)
        )
    return region


def read_script(path):
    from rcell.core.files import read_all

    try:
        if path == "-":
            return read_all(0).decode("utf-8", "surrogateescape")
        with open(path, encoding="utf-8", errors="surrogateescape", newline="") as file:
            return file.read()
    except OSError as fault:
        raise Stopped(
            _("The script <{}> cannot be read: {}").format(path, fault.strerror)
        ) from None


@contextmanager
def table_file(path, script):
    """Yield the file for the tables, which is given its name if the block succeeds.

    Standard output and devices are also written only then.
    """
    from rcell.core.errors import Refused
    from rcell.core.files import Output, check_output

    try:
        if path and script != "-":
            check_output(path, [script])
        with Output(path or "-") as output:
            yield output
    except Refused:
        raise Stopped(
            _("The table <{}> would replace the script; use another name").format(path)
        ) from None
    except BrokenPipeError:  # the reader has closed the pipe
        if path not in ("", "-"):
            raise
        os.dup2(os.open(os.devnull, os.O_WRONLY), sys.stdout.fileno())
    except OSError as fault:
        raise Stopped(
            _("The table <{}> cannot be written: {}").format(path or "-", fault.strerror)
        ) from None


def open_standard_streams():
    """Open /dev/null on each closed descriptor from 0 to 2, so that no pipe gets its number.

    Writing to a closed output still fails.
    """
    descriptor = os.open(os.devnull, os.O_RDWR)  # gets the smallest closed descriptor
    while descriptor <= 2:
        if descriptor == 1:
            os.close(1)
            os.open(os.devnull, os.O_RDONLY)  # rejects writing
        os.set_inheritable(descriptor, True)
        descriptor = os.open(os.devnull, os.O_RDWR)
    os.close(descriptor)
    sys.stdout = sys.stdout or open(1, "w", closefd=False)
    sys.stderr = sys.stderr or open(2, "w", closefd=False)


def imported(script, statements, sources, outputs, labels, region, progress):
    """Run a script and import its maps and labels under temporary names."""
    cells, texts = maps_of(script, statements, sources, outputs, labels)
    imports = Imports(region)
    for output, frame in zip(outputs, cells):
        name = imports.add(output, frame, progress)
        lines = label_lines(texts[output.name]) if output.name in texts else []
        if lines:
            imports.label(name, lines)
    return imports


def done(options, flags):
    """Run the module: check all options before rcell starts, and give the maps their names at the end."""
    if not program():
        raise Stopped(
            _(
                "The program rcell-pipe was not found on PATH: install rcell, or add its bin "
                "folder to PATH"
            )
        )
    find_front(program())
    inputs, requested = pairs_of(options["maps"], Input), pairs_of(options["output"], Output)
    look_up_inputs(inputs)
    script, names = read_script(options["script"]), [raster.name for raster in inputs]
    statements = judged(script, names)  # the plan
    if flags["l"]:
        script = with_labels(script, statements)
        statements = judged(script, names)
    commands = made_by(statements)
    outputs = look_up_outputs(requested, commands, inputs)
    region = look_up_region()
    runs = any(not statement.made for statement in statements) + bool(outputs)  # tables, maps
    if not runs:
        gs.warning(_("The script writes no table, and output= requests no map"))
    wanted = labelled_maps(statements) | {output.name for output in outputs}
    labels = {raster.name: labels_of(raster.map) for raster in inputs if raster.name in wanted}
    progress = Progress(region["rows"] * (runs * len(inputs) + len(outputs)))

    def sources():
        return sources_of(inputs, labels, region, progress)

    with table_file(options["table"], options["script"]) as table:
        with open(table.path(), "wb") as file:
            file.writelines(tables_of(script, statements, sources))
        imports = imported(script, statements, sources, outputs, labels, region, progress)
        progress.end()
        if table.is_special:  # writing may fail, and then no map is renamed
            table.keep()
        imports.finish({name for name, command in commands.items() if command == "r.clump"})


def main():
    open_standard_streams()
    options, flags = gs.parser()
    for interruption in (signal.SIGTERM, signal.SIGINT, signal.SIGHUP, signal.SIGQUIT):
        signal.signal(interruption, lambda *_: sys.exit(1))
    try:
        done(options, flags)
    except Stopped as fault:
        gs.error(str(fault))
        sys.stderr.write(fault.beneath)
        return 1
    except CalledModuleError as fault:
        gs.fatal(_("A GRASS module failed: {}").format(fault))
    return 0


if __name__ == "__main__":
    sys.exit(main())

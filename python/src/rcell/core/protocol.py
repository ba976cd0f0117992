# SPDX-License-Identifier: Apache-2.0 OR GPL-2.0-or-later
"""Send requests to rcell-pipe and return its responses, as defined in docs/pipe.md.

A request contains maps and a script, or parts of tiles to join. A response contains frames. The
program writes nothing until it has read the complete request, unless it rejects the request. The
request can therefore be written first and the response read afterwards, without a thread.
"""

from __future__ import annotations

import contextlib
import os
import re
import select
import struct
from collections.abc import Callable, Iterator, Sequence
from dataclasses import replace
from typing import Any, Optional, TypeVar

from .hints import advice, lines_of_error
from .process import WATCH_SECONDS, Started, close, pipe
from .requests import (
    BORDER,
    NUMBERS,
    PATCHES,
    Block,
    Buffer,
    GridText,
    Map,
    Maps,
    Margin,
    Question,
    join_request,
    patch_tables_request,
    patches_request,
    plan_request,
    request,
)
from .responses import (
    NULL,
    NULL_BYTE,
    AnyFrame,
    BorderFrame,
    Done,
    Frame,
    GridFrame,
    JoinedPatchesFrame,
    JoinFrame,
    NumbersFrame,
    PatchesFrame,
    PatchSumsFrame,
    Statement,
    TableFrame,
    response_of,
)

__all__ = [
    "BORDER",
    "NO_MEMORY",
    "NULL",
    "NULL_BYTE",
    "NUMBERS",
    "PATCHES",
    "Block",
    "BorderFrame",
    "Buffer",
    "Fault",
    "Frame",
    "GridFrame",
    "GridText",
    "JoinFrame",
    "JoinedPatchesFrame",
    "Killed",
    "Map",
    "Maps",
    "Margin",
    "NoAnswer",
    "NotStarted",
    "NumbersFrame",
    "PatchSumsFrame",
    "PatchesFrame",
    "Question",
    "Rejected",
    "Statement",
    "TableFrame",
    "asked",
    "failure_of",
    "is_known",
    "join",
    "join_patches",
    "plan",
    "request",
    "run",
    "script_bytes",
    "sum_patch_tables",
    "text",
]

Joined = TypeVar("Joined", JoinFrame, JoinedPatchesFrame, PatchSumsFrame)

NO_MEMORY = 3
"""The status if the program runs out of memory."""

_AT_COLUMN = re.compile(r" at column (\d+)$")


def script_bytes(script: str) -> bytes:
    """Encode a script as UTF-8. Surrogates in the script escape bytes that are not UTF-8.

    Raises
    ------
    Rejected
        The script contains a surrogate that does not escape a byte.
    """
    try:
        return script.encode("utf-8", "surrogateescape")
    except UnicodeEncodeError as error:
        before = script[: error.start].rpartition("\n")[2].encode("utf-8", "surrogateescape")
        line, column = script.count("\n", 0, error.start) + 1, len(before) + 1
        raise Rejected(
            1,
            "script",
            0,
            line,
            column,
            f"lone surrogate U+{ord(script[error.start]):04X} at column {column}",
        ) from None


class Fault(Exception):
    """Raised if a map, a script or a request is invalid.

    The attributes are documented in the class `Refused` of each package.
    """

    def __init__(
        self,
        text: str,
        source: str = "arguments",
        line: int = 0,
        status: int = 1,
        content: Optional[str] = None,
        advice: Optional[str] = None,
        column: Optional[int] = None,
    ) -> None:
        super().__init__(text, source, line, status, content, advice, column)
        self.text = text
        self.source = source
        self.line = line
        self.status = status
        self.content = content
        self.advice = advice
        match = _AT_COLUMN.search(text)
        self.column = int(match[1]) if match else column

    def __str__(self) -> str:
        place = f"{self.source}, line {self.line}" if self.line else self.source
        lines = [f"{place}: {self.text}"]
        if self.content is not None:
            lines += [f"  {line}" for line in lines_of_error(self.content, self.column)]
        if self.advice:
            lines.append("  try: " + self.advice.replace("\n", "\n       "))
        return "\n".join(lines)


class Rejected(Exception):
    """Raised if the program rejects the request or the script, or runs out of memory.

    Attributes
    ----------
    status : int
        1 if the request or the script is invalid, 3 if memory ran out, and 4 if the program could
        not read the request.
    source : {"request", "script", "question", ""}
    map : int
        The index of the invalid map or tile, if the source is the request.
    line : int
        The line of the script or of a text grid, or the row of another map, counted from 1. 0 if the
        error is not in a line or a row.
    column : int
        The position in the line, counted in bytes from 1. 0 if the position is unknown.
    text : str
        The message, which is the same as rcell's.
    """

    def __init__(
        self, status: int, source: str, map: int, line: int, column: int, text: str
    ) -> None:
        super().__init__(status, source, map, line, column, text)
        self.status, self.source, self.map, self.line, self.column, self.text = (
            status,
            source,
            map,
            line,
            column,
            text,
        )

    def parts(self, program: str, script: str, names: Sequence[str]) -> dict[str, Any]:
        """Return the arguments for a `Fault` that describes this error, with advice if possible."""
        parts = {"text": self.text, "source": "script", "line": self.line, "status": self.status}
        is_of_map = self.source == "request" or not (self.source or script)
        if is_of_map and self.map < len(names):
            return {**parts, "source": names[self.map]}
        if self.source == "question":
            return {**parts, "source": "question"}
        lines = script.split("\n")
        if not 0 < self.line <= len(lines):
            return parts
        column, tried = self.column or None, None
        with contextlib.suppress(Exception):  # an error in the advice must not hide the message
            raw = script.encode("utf-8", "surrogateescape")
            place, tried = advice(program, raw, list(names), self.line, self.text)
            column = column or place
        return {
            **parts,
            "content": lines[self.line - 1].rstrip("\r"),
            "advice": tried,
            "column": column if self.column or self.text == "bad option" else None,
        }


class NotStarted(OSError):
    """Raised if the program cannot be started."""


class Killed(Exception):
    """Raised if a signal ended the program. The argument is the number of the signal."""


class NoAnswer(Exception):
    """Raised if the program is not this version's rcell-pipe.

    The argument describes the program's output.
    """


def run(
    program: str,
    maps: Maps,
    script: bytes,
    questions: Sequence[Question] = (),
    tile: Sequence[int] = (),
    *,
    seconds: Optional[float] = None,
    watch: Optional[Callable[[], None]] = None,
) -> list[Frame]:
    """Run a script over maps and return the frames of its outputs and questions.

    The outputs' frames come first, in the order of the script, followed by the questions' frames.

    Parameters
    ----------
    program : str
        The path of rcell-pipe.
    maps : Maps
    script : bytes
    questions : sequence of Question
    tile : sequence of int
        For a request for a tile, the eight numbers that `request` describes.
    seconds : float, optional
        The time limit for the run, in seconds.
    watch : callable, optional
        A function that is called at least ten times a second. If it raises an exception, the run
        ends.

    Raises
    ------
    Rejected
        The program rejected the request or ran out of memory.
    Killed
        A signal ended the program.
    NoAnswer
        The program is not rcell-pipe.
    NotStarted
        The program is missing or cannot be executed, or too many files are open.
    TimeoutError
        The run exceeds the time limit.
    """
    return [
        frame
        for frame in _answered(program, request(maps, script, questions, tile), seconds, watch)
        if not isinstance(frame, (Statement, JoinFrame, JoinedPatchesFrame, PatchSumsFrame))
    ]


_REJECTION = b"RCELLA1\nDONE"


def text(
    program: str,
    maps: Maps,
    script: bytes,
    *,
    seconds: Optional[float] = None,
    watch: Optional[Callable[[], None]] = None,
) -> Iterator[bytes]:
    """Run a script over maps and yield, piece by piece, the text that rcell would print.

    The text is complete only if no error is raised. The parameters and errors are the same as for
    `run`.
    """
    with asked([program], request(maps, script, magic=b"RCELLT1\n"), seconds, watch) as process:
        pieces, held = process.pieces(), b""
        for piece in pieces:
            held += piece
            if held[: len(_REJECTION)] != _REJECTION[: len(held)]:
                yield held
                held = b""
                yield from pieces
        status, message = process.end()
    if status == 0:
        yield held
    elif status == NO_MEMORY:
        raise Rejected(status, "", 0, 0, 0, "no memory")
    else:
        _check(response_of(iter([held])), status, message)


_PROBE_SCRIPT = (
    b"r.clump -d input=probe output=k\nr.stats -c input=probe,k after=7,1\nr.stats -1 "
    b"input=k\nr.out.ascii input=grid\n"
)
_PROBE_GRID = b"north: 1\nsouth: 0\neast: 4\nwest: 0\nrows: 1\ncols: 4\nnull: -\n01 1 - 2"
_PROBE_QUESTION = Question("probe", 8, kind=PATCHES + NUMBERS + BORDER)
_PROBE_TILE = (1, 4, 0, 0, 0, 1, 1, 3)  # after the first of four cells
_PROBE_ROWS = [7, NULL, 12, 1, NULL, 2] * 2  # the first and the last row, with their numbers
_PROBE_RESPONSE = [
    struct.pack("<4i", 12, 2, NULL, NULL),
    struct.pack("<3i", 1, NULL, 2),
    b"\1\xff\2",
    b"\1\xff\2",
    struct.pack("<B2Q19i", 8, 0, 1, 1, 3, *_PROBE_ROWS, 7, 1, 12, 2, 2),
    struct.pack("<i8Qi8Q", 7, 1, 2, 1, 0, 0, 0, 1, 1, 12, 1, 2, 2, 0, 0, 0, 3, 3),
]


def is_known(program: str, seconds: float) -> bool:
    """Test a program on two maps of four cells and return whether it is this version's rcell-pipe.

    Raises
    ------
    NotStarted, TimeoutError
        As in `run`.
    """
    probe = Map("probe", "u8", [Block(b"\7\7\xff\14")], nodata=255)
    grid = GridText("grid", len(_PROBE_GRID), [_PROBE_GRID])
    maps = Maps(("1", "0", "4", "0"), 1, 4, [probe, grid])
    words = _PROBE_SCRIPT, [_PROBE_QUESTION], _PROBE_TILE
    try:
        frames = run(program, maps, *words, seconds=seconds)
    except (Rejected, Killed, NoAnswer):
        return False
    return [bytes(_content(frame)) for frame in frames] == _PROBE_RESPONSE


def _content(frame: Frame) -> memoryview:
    """Return the cells, border or patches of a frame."""
    if isinstance(frame, BorderFrame):
        return frame.border
    return frame.rows if isinstance(frame, PatchesFrame) else frame.cells


def plan(
    program: str,
    names: Sequence[str],
    script: bytes,
    *,
    seconds: Optional[float] = None,
    watch: Optional[Callable[[], None]] = None,
) -> list[Statement]:
    """Return the program's plan for a script: its statements, and the maps that each one needs.

    No map is read. The errors are the same as for `run`.
    """
    statements = [
        frame
        for frame in _answered(program, plan_request(names, script), seconds, watch)
        if isinstance(frame, Statement)
    ]
    lines = script.decode("utf-8", "surrogateescape").split("\n")
    ends = [statement.line - 1 for statement in statements[1:]]
    ends.append(len(lines))
    planned = []
    for statement, end in zip(statements, ends):
        # Only r.reclass is followed by lines with rules.
        last = end if statement.command == "r.reclass" else statement.line
        text = "\n".join(lines[statement.line - 1 : last])
        planned.append(replace(statement, text=text))
    return planned


def join(
    program: str,
    borders: Sequence[Buffer],
    shape: tuple[int, int],
    connectivity: int,
    *,
    seconds: Optional[float] = None,
    watch: Optional[Callable[[], None]] = None,
) -> JoinFrame:
    """Join the patches of tiles, using only the borders of the tiles.

    Parameters
    ----------
    program : str
        The path of rcell-pipe.
    borders : sequence of buffers
        The borders of the tiles, row by row from the top left, in the format of `join_request`.
    shape : tuple of two ints
        The number of rows and of columns of tiles.
    connectivity : {4, 8}
    seconds, watch
        As in `run`, which also lists the errors.
    """
    sent = join_request(borders, shape, connectivity)
    return _joined(_answered(program, sent, seconds, watch), JoinFrame)


def join_patches(
    program: str,
    runs: Buffer,
    patches: int,
    rows: Buffer,
    *,
    seconds: Optional[float] = None,
    watch: Optional[Callable[[], None]] = None,
) -> JoinedPatchesFrame:
    """Join the measures of the patches of tiles.

    The parameters are described in `patches_request` and `run`, and the errors in `run`.
    """
    sent = patches_request(runs, patches, rows)
    return _joined(_answered(program, sent, seconds, watch), JoinedPatchesFrame)


def sum_patch_tables(
    program: str,
    runs: Buffer,
    maps: int,
    tables: Sequence[tuple[int, Buffer, Buffer]],
    *,
    seconds: Optional[float] = None,
    watch: Optional[Callable[[], None]] = None,
) -> PatchSumsFrame:
    """Add up tables by the numbers of patches in the full map.

    The parameters are described in `patch_tables_request` and `run`, and the errors in `run`.
    """
    sent = patch_tables_request(runs, maps, tables)
    return _joined(_answered(program, sent, seconds, watch), PatchSumsFrame)


def _joined(frames: Sequence[AnyFrame], kind: type[Joined]) -> Joined:
    """Return the only frame of the response to a join request."""
    if len(frames) != 1 or not isinstance(frames[0], kind):
        raise NoAnswer("the program did not join the tiles")
    return frames[0]


def _answered(
    program: str,
    sent: Iterator[Buffer],
    seconds: Optional[float],
    watch: Optional[Callable[[], None]],
) -> list[AnyFrame]:
    """Send a request to the program and return the frames of the response."""
    with asked([program], sent, seconds, watch) as process:
        return _check(response_of(process.pieces(), process.fill), *process.end())


def failure_of(status: int, message: bytes) -> Exception:
    """Return the exception for a program that failed without a readable response."""
    if status < 0:
        return Killed(-status)
    text = message.decode("utf-8", "replace").strip() or "nothing"
    return NoAnswer(f"the program ended with status {status} and printed: {text}")


def _check(
    response: Optional[tuple[list[AnyFrame], Done]], status: int, message: bytes
) -> list[AnyFrame]:
    """Return the frames of a response, or raise the error that the response reports."""
    if response is None or status != response[1].status:
        raise failure_of(status, message)
    frames, done = response
    if status:
        raise Rejected(*done)
    return frames


@contextlib.contextmanager
def asked(
    words: Sequence[str],
    sent: Iterator[Buffer],
    seconds: Optional[float],
    watch: Optional[Callable[[], None]],
) -> Iterator[Started]:
    """Start a program and write a request to its standard input.

    The program is stopped at the end of the block.
    """
    try:
        reader, writer = pipe()
        try:
            process = Started(words, seconds, reader, watch)
        except BaseException:
            close(writer)
            raise
        finally:
            close(reader)
    except OSError as error:
        raise NotStarted(error.errno, error.strerror, words[0]) from None
    with process:
        try:
            _send(writer, sent, watch)
        finally:
            close(writer)
        yield process


def _send(writer: int, pieces: Iterator[Buffer], watch: Optional[Callable[[], None]]) -> None:
    """Write a request to the program.

    Writing stops if the program stops reading, because the response then contains the error.
    """
    os.set_blocking(writer, watch is None)
    room = select.poll()
    room.register(writer, select.POLLOUT)
    for piece in pieces:
        rest = memoryview(piece)
        while rest:
            if watch is not None:
                watch()
            try:
                rest = rest[os.write(writer, rest) :]
            except BlockingIOError:
                room.poll(WATCH_SECONDS * 1000)
            except BrokenPipeError:
                return

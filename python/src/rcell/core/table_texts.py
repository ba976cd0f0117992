# SPDX-License-Identifier: Apache-2.0 OR GPL-2.0-or-later
"""Format tables as CSV, TSV, JSON or Markdown."""

from __future__ import annotations

import csv
import io
import json
from collections.abc import Sequence
from typing import Any

__all__ = ["table_text"]


def table_text(form: str, columns: Sequence[str], rows: Sequence[Sequence[Any]]) -> str:
    """Format a table as text.

    Numbers are written in the shortest form that reads back unchanged. Missing values are empty, or
    null in JSON.
    """
    if form == "json":
        objects = (json.dumps(dict(zip(columns, row)), ensure_ascii=False) for row in rows)
        return "[" + ",\n ".join(objects) + "]\n"
    if form == "markdown":
        return _markdown(columns, rows)
    text = io.StringIO()
    writer = csv.writer(text, delimiter="\t" if form == "tsv" else ",", lineterminator="\n")
    writer.writerow(columns)
    writer.writerows([_shortest(value) for value in row] for row in rows)
    return text.getvalue()


def _shortest(value: Any) -> Any:
    return repr(value).removesuffix(".0") if isinstance(value, float) else value


def _markdown(columns: Sequence[str], rows: Sequence[Sequence[Any]]) -> str:
    """Format a table in Markdown, with right-aligned numeric columns."""
    alignments = []
    for index in range(len(columns)):
        has_texts = any(isinstance(row[index], str) for row in rows)
        alignments.append("---" if has_texts else "---:")
    lines = []
    for row in (columns, *rows):
        cells = " | ".join(map(_markdown_cell, row))
        lines.append(f"| {cells} |")
    lines.insert(1, f"|{'|'.join(alignments)}|")
    return "\n".join(lines) + "\n"


def _markdown_cell(value: Any) -> str:
    if value is None:
        return ""
    text = f"{value:.10g}" if isinstance(value, float) else str(value)
    return text.replace("\\", "\\\\").replace("|", "\\|").replace("\n", " ")

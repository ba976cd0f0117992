# SPDX-License-Identifier: Apache-2.0 OR GPL-2.0-or-later
"""Select the statements that tiles run, from the program's plan of the full script."""

from __future__ import annotations

from collections.abc import Container, Iterable

from .protocol import NULL, Margin, Question, Statement
from .rectangles import NO_MARGIN

__all__ = ["makers", "maps_read_by", "question_about", "reach_of", "text_of"]


def makers(
    plan: Iterable[Statement], names: Iterable[str], known: Container[str]
) -> list[Statement]:
    """Return the statements of a plan that make the named maps from the maps in `known`."""
    used: list[Statement] = []
    wanted = set(names)
    for statement in reversed(list(plan)):
        if statement.made in wanted and statement.made not in known:
            used.insert(0, statement)
            wanted.update(statement.reads)
    return used


def maps_read_by(statements: Iterable[Statement]) -> set[str]:
    """Return the names of all maps that the statements read, whether given or made."""
    return {name for statement in statements for name in statement.reads}


def reach_of(statements: Iterable[Statement], questions: Iterable[Question] = ()) -> Margin:
    """Return the halo that a tile needs for statements, and for questions about given maps.

    Even maps that depend on no file need a halo, because a tile has no cells beyond its halo.
    """
    reaches: dict[str, Margin] = {}
    widest = NO_MARGIN
    for question in questions:
        widest = widest.widened(question.reach)
    for statement in statements:
        reach = NO_MARGIN
        for name, margin in statement.reads.items():
            map_reach = reaches.get(name, NO_MARGIN)
            total = Margin(*(inner + outer for inner, outer in zip(map_reach, margin)))
            reach = reach.widened(total)
        reaches[statement.made] = reach
        widest = widest.widened(reach)
    return widest


def text_of(statements: Iterable[Statement]) -> str:
    """Return the script that tiles run, without `-l`, because the caller adds the labels."""
    return "\n".join(map(_without_labels, statements))


def _without_labels(statement: Statement) -> str:
    if "l" not in statement.options:
        return statement.text
    flags = (f"-{flag}" for flag in statement.options if flag != "l")
    words = ["r.stats", *flags, f"input={','.join(statement.inputs)}"]
    if statement.after:
        after = ("*" if category == NULL else str(category) for category in statement.after)
        words.append(f"after={','.join(after)}")
    return " ".join(words)


def question_about(clump: Statement, kind: int) -> Question:
    """Return a question about the patches that an `r.clump` statement numbers."""
    [name] = clump.inputs
    command, _, _comment = clump.text.partition("#")
    return Question(name, 8 if "-d" in command.split() else 4, kind=kind)

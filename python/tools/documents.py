#!/usr/bin/python3
"""Runs the examples of docs/python.md, and compares what they show with what they print.

    documents.py [--write] [DOCUMENT..]

A document is run in a folder of its own that holds what examples/rasters holds, its blocks from the top:
    pycon            a session of Python: lines after `>>> ` and `... ` are executed, one session a document
    console          lines after `$ ` are given to sh, those after `> ` continue the line above
    text file=PATH   a file (also python file=PATH)
    text, python, sh shown and not run
What is run finds `python3` and `rcell` on the path of the caller. With --write what is printed takes the place of what is
shown. The last line is 'N passed, M failed'.
"""

from __future__ import annotations

import argparse
import contextlib
import difflib
import doctest
import io
import os
import pathlib
import re
import shutil
import subprocess
import sys
import tempfile
import traceback
import warnings
from typing import Any

ROOT = pathlib.Path(__file__).resolve().parent.parent.parent
DOCUMENTS = [str(ROOT / "docs" / "python.md")]
FENCE = re.compile(r"```(\S*)(?: file=(\S+))?\n(.*?)^```$", re.MULTILINE | re.DOTALL)
SHOWN = {"text", "python", "sh"}
SECONDS = 120
FLAGS = doctest.ELLIPSIS


def by_session(text: str, names: dict[str, Any]) -> str:
    """A session with what it prints."""
    session = []
    for example in doctest.DocTestParser().get_examples(text):
        first, *more = example.source.splitlines()
        session += [f">>> {first}\n", *(f"... {line}".rstrip() + "\n" for line in more)]
        printed = printed_by(example.source, names)
        checker = doctest.OutputChecker()
        session.append(
            example.want if checker.check_output(example.want, printed, FLAGS) else printed
        )
    return "".join(session)


def printed_by(source: str, names: dict[str, Any]) -> str:
    """Run a statement and return its output; an error is shown as in a session, without its stack."""
    out = io.StringIO()
    with contextlib.redirect_stdout(out), warnings.catch_warnings():
        warnings.simplefilter("ignore")
        try:
            exec(compile(source, "<document>", "single"), names)
        except Exception as error:
            lines = "".join(traceback.format_exception_only(type(error), error))
            return f"{out.getvalue()}Traceback (most recent call last):\n  ...\n{lines}"
    return out.getvalue()


def by_shell(text: str, folder: str) -> str:
    """Commands with what they print, standard error too."""
    commands: list[str] = []
    for line in text.splitlines():
        if line.startswith("$ "):
            commands.append(line[2:])
        elif line.startswith("> ") and commands:
            commands[-1] += "\n" + line[2:]
    shown = []
    for command in commands:
        ran = subprocess.run(
            ["sh", "-c", f"exec 2>&1\n{command}"],
            cwd=folder,
            stdout=subprocess.PIPE,
            stdin=subprocess.DEVNULL,
            timeout=SECONDS,
            text=True,
        )
        shown.append("$ " + command.replace("\n", "\n> ") + "\n" + ran.stdout)
    return "".join(shown)


def run_document(path: str, write: bool) -> tuple[int, list[str]]:
    """How many blocks print what they show, and what is wrong with the others."""
    document = pathlib.Path(path).read_text(encoding="utf-8")
    passed, faults, right, at = 0, [], "", 0
    names: dict[str, Any] = {"__name__": "document"}
    before = os.getcwd()
    with tempfile.TemporaryDirectory(prefix="rcell-python-documents-") as folder:
        shutil.copytree(ROOT / "examples" / "rasters", folder, dirs_exist_ok=True)
        os.chdir(folder)
        for found in FENCE.finditer(document):
            language, file, text = found[1], found[2], found[3]
            if file:
                pathlib.Path(folder, file).write_text(text, encoding="utf-8")
                answer = text
            elif language in ("pycon", "console"):
                answer = by_session(text, names) if language == "pycon" else by_shell(text, folder)
                line = document.count("\n", 0, found.start()) + 1
                passed += answer == text
                if answer != text:
                    differs = difflib.unified_diff(
                        text.splitlines(), answer.splitlines(), "shown", "printed", lineterm="", n=1
                    )
                    faults.append(f"{os.path.basename(path)}:{line}: " + "\n    ".join(differs))
            else:
                answer = text
                if language not in SHOWN:
                    faults.append(
                        f"{os.path.basename(path)}: a block of an unknown kind: {language!r}"
                    )
            right, at = right + document[at : found.start(3)] + answer, found.end(3)
        os.chdir(before)
    if write:
        pathlib.Path(path).write_text(right + document[at:], encoding="utf-8")
    return passed, faults


def main() -> int:
    words = argparse.ArgumentParser(
        description=__doc__, formatter_class=argparse.RawDescriptionHelpFormatter
    )
    words.add_argument("--write", action="store_true")
    words.add_argument("documents", nargs="*", default=DOCUMENTS)
    settings = words.parse_args()
    passed = failed = 0
    for path in settings.documents:
        good, faults = run_document(path, settings.write)
        print("".join(f"{fault}\n" for fault in faults), end="")
        passed, failed = passed + good, failed + len(faults)
    print(f"{passed} passed, {failed} failed")
    return 1 if failed else 0


if __name__ == "__main__":
    sys.exit(main())

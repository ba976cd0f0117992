"""Check the program's messages: each has a row in docs/errors.md and a sentence in
python/src/rcell/core/messages.json, which contain no others."""
import glob
import json
import os
import re
import sys

ROOT = os.path.abspath(f"{__file__}/../../..")
sys.path.insert(1, f"{ROOT}/tools/build")

import build

FILE, DOCUMENT = "python/src/rcell/core/messages.json", "docs/errors.md"
ROW = re.compile(r"^\| `([^`]+)` \|", re.MULTILINE)
# Kinds of errors that no run of the program reports.
UNREPORTED = {"reader failed"}


def sentences():
    """Return the messages with a sentence. An entry that is not a message is about a word of a
    line, and has its key."""
    with open(f"{ROOT}/{FILE}", encoding="utf-8") as file:
        parts = json.load(file)
    return {text for part in parts.values() for text in part} - {
        "null_value",
        "options that exclude each other",
        "quotient",
        "separator",
    }


def rows():
    """Return the messages at the start of the rows in the document's tables."""
    with open(f"{ROOT}/{DOCUMENT}", encoding="utf-8") as file:
        return set(ROW.findall(file.read().partition("## Of the command line")[2]))


def messages_of_the_code():
    """Return the texts of errors in the program's sources, with N for a number. Errors that only
    pass on another text are left out."""
    found = set()
    for path in [
        it
        for crate in build.crates_of(["rcell_program"])
        for it in glob.glob(f"{crate.folder}/src/**/*.rt", recursive=True)
    ]:
        with open(path, encoding="utf-8") as file:
            texts = re.findall(r'(?:#\[error\(|(?:Fault|Kind)::\w+ => )"([^"]*)"', file.read())
        found |= {
            re.sub(r"\{written\}", "N", text)
            for text in texts
            if not re.search(r"\{(0|text|kind|line)\}", text)
        }
    return found - UNREPORTED


def check():
    """Return the number of messages in the document and the file, and the messages that are missing
    or do not exist."""
    code = messages_of_the_code()
    faults = [
        f"{name}: {told} '{text}'"
        for name, found in ((DOCUMENT, rows()), (FILE, sentences()))
        for told, texts in (("nothing of", code - found), ("there is no message", found - code))
        for text in sorted(texts)
    ]
    return len(code), faults

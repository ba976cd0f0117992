"""Check that each definition in a document is one of the sources.

A block ```antt or ```rust must contain lines of one file in crates/*/specs or crates/*/src, which
may differ only in blanks and line breaks.
"""
import re

import links

BLOCK = re.compile(r"^```(antt|rust)\n(.*?)^```$", re.MULTILINE | re.DOTALL)
SOURCES = {"antt": "crates/*/specs/**/*.antt", "rust": "crates/*/src/**/*.rt"}


def collapsed(text):
    return " ".join(text.split())


def check():
    """Return the number of definitions that agree with the sources, and the others."""
    passed, faults = 0, []
    for name in links.documents():
        text = (links.ROOT / name).read_text(encoding="utf-8")
        for block in BLOCK.finditer(text):
            shown = collapsed(block[2])
            files = links.ROOT.glob(SOURCES[block[1]])
            is_ours = any(shown in collapsed(it.read_text(encoding="utf-8")) for it in files)
            passed += is_ours
            if not is_ours:
                line = text.count("\n", 0, block.start()) + 1
                faults.append(f"{name}:{line}: no file of {SOURCES[block[1]]} has this definition")
    return passed, faults

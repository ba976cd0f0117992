"""Check that the text before a block to be saved names its file, because pages do not show the
words after the fence."""
import re

import links

BLOCK = re.compile(r"^```\w+ file=(\S+)[^\n]*\n.*?^```$", re.MULTILINE | re.DOTALL)


def check():
    """Return the number of blocks to be saved whose name is visible to readers, and the others."""
    passed, faults = 0, []
    for name in links.documents():
        text = (links.ROOT / name).read_text(encoding="utf-8")
        for block in BLOCK.finditer(text):
            paragraph = text[: block.start()].rstrip().rpartition("\n\n")[2]
            is_named = f"`{block[1]}`" in paragraph
            passed += is_named
            if not is_named:
                line = text.count("\n", 0, block.start()) + 1
                faults.append(
                    f"{name}:{line}: the text before the block does not name `{block[1]}`"
                )
    return passed, faults

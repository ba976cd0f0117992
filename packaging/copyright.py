"""Prints the file copyright of the package of Debian: packaging/copyright.in with the version and what is linked in."""
import pathlib
import sys

ROOT = pathlib.Path(__file__).resolve().parent.parent
sys.path.insert(0, str(ROOT / "tools/build"))

import linked  # noqa: E402  (the path above has to be set first)

text = (ROOT / "packaging/copyright.in").read_text(encoding="utf-8")
print(
    text.replace("@VERSION@", (ROOT / "VERSION").read_text(encoding="utf-8").strip()).replace(
        "@LINKED@", linked.summary()
    ),
    end="",
)

"""Read and write the allowed findings in exceptions.txt: `[RULE]`, then one per line. A rule that
is not listed has none."""
import pathlib
import re

PATH = pathlib.Path(__file__).resolve().parent / "exceptions.txt"


def read():
    """Return the comment at the head of the file, and the lines of each rule."""
    text = PATH.read_text(encoding="utf-8") if PATH.exists() else ""
    head, *sections = re.split(r"^\[(\w+)\]\n", text, flags=re.MULTILINE)
    return head, {
        rule: [line for line in lines.splitlines() if line]
        for rule, lines in zip(sections[::2], sections[1::2])
    }


def of(rule):
    """Return the lines of a rule."""
    return read()[1].get(rule, [])


def write(rule, lines):
    """Write the lines of a rule."""
    head, sections = read()
    sections[rule] = lines
    texts = [f"[{name}]\n" + "".join(f"{it}\n" for it in sections[name]) for name in sections]
    PATH.write_text(
        head + "\n".join(text for name, text in zip(sections, texts) if sections[name]),
        encoding="utf-8",
    )

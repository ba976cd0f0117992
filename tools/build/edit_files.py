"""Edits: wrong bodies and altered definitions, read from the folders edits, named and must-fail of
each crate.

An edit file has lines `file: PATH` (below the crate, or `../OTHER/specs/..` for a definition of
another crate), followed by pairs of lines `old: TEXT`, which occurs once in that file, and `new:
TEXT`. Each pair applies to the result of the previous pairs. An edit with a line `falls: LAW..`
alters a definition: the proofs of these functions of the crate must fail.
"""
import pathlib
import re
from dataclasses import dataclass, field

import build

HEAD = re.compile(r"^( *)(?:pub(?:\([\w:]+\))? )?(?:const )?fn (\w+)", re.MULTILINE)
IMPL = re.compile(
    r"^impl(?:<.*?>)? (?:(?:\w+::)*(\w+)(?:<.*>)? for )?&?(?:'\w+ )?(\w+)", re.MULTILINE
)
SPREAD = re.compile(r"\{\n((?:  [^\n]*,\n)+)\}")  # an import's names, one per line
CITED = re.compile(r"(\w+/(?:must-fail|named|edits))/([\w-]+(?:, [\w-]+-[\w-]+)*)")
NAMED = "named"  # the folder of the most important wrong bodies
FOLDERS = ("edits", NAMED, "must-fail")  # `rt ci` also tries the edits in must-fail


@dataclass
class Edit:
    """An edit: its file, its pairs as (file, old, new), the functions that it changes as (file,
    name), and the laws that must fail."""

    path: pathlib.Path
    pairs: list = field(default_factory=list)
    functions: set = field(default_factory=set)
    falls: tuple = ()

    @property
    def name(self):
        return f"{self.path.parents[1].name}/{self.path.parent.name}/{self.path.stem}"

    @property
    def is_named(self):
        return self.path.parent.name == NAMED

    @property
    def is_outside(self):
        """Return whether the edit changes something outside functions."""
        return any(name == "" for _, name in self.functions)


def text_of(path):
    """Return a file of a crate. In definitions and lemmas, each import is put on one line."""
    text = path.read_text(encoding="utf-8")
    if path.suffix != ".antt":
        return text
    return SPREAD.sub(
        lambda it: "{" + ", ".join(line.strip(" ,") for line in it[1].splitlines()) + "}", text
    )


def function_at(text, at, length=0):
    """Return the function that contains a position of a file, or whose head is in it: TYPE::NAME or
    TYPETRAIT::NAME for methods, '' for none."""
    heads = list(HEAD.finditer(text, 0, at + length))
    end = (
        re.compile(rf"^{heads[-1][1]}}}", re.MULTILINE).search(text, heads[-1].end())
        if heads
        else None
    )
    if not end or end.start() < at:
        return ""
    owners = list(IMPL.finditer(text, 0, heads[-1].start())) if heads[-1][1] else []
    return f"{owners[-1][2]}{owners[-1][1] or ''}::{heads[-1][2]}" if owners else heads[-1][2]


def is_import(old):
    """Return whether a text is a `use` item, which does not change any function."""
    return re.match(r"(ghost )?use ", old) is not None


def edit_of(path):
    """Read an edit file. A pair that applies to the result of an earlier pair changes that pair's
    function."""
    edit, name, old = Edit(path), "", ""
    for line in path.read_text(encoding="utf-8").splitlines():
        key, _, value = line.partition(":")
        value = value.removeprefix(" ")
        if key == "file":
            name = value.strip()
        elif key == "falls":
            edit.falls = tuple(value.split())
        elif key == "old":
            old = value
        elif key == "new":
            if not is_import(old) and not any(old in made for _, _, made in edit.pairs):
                edit.functions.add((name, changed_function(path, name, old)))
            edit.pairs.append((name, old, value))
    return edit


def changed_function(path, name, old):
    """Return the function of a crate's file that contains a text, or '' if it is outside all
    functions."""
    if not name.endswith(".rt"):
        return ""
    text = (path.parents[1] / name).read_text(encoding="utf-8")
    return function_at(text, text.find(old), len(old)) if text.count(old) == 1 else ""


def paths_in(crate="*"):
    """Return the edit files of a crate, or of all crates."""
    crates = pathlib.Path(build.ROOT, "crates")
    return sorted(path for folder in FOLDERS for path in crates.glob(f"{crate}/{folder}/*"))


def edits_in(crate):
    return [edit_of(it) for it in paths_in(crate)]


def faults_of(path):
    """Return the errors of an edit file, as a list of lines. Each old text must occur once in its
    file."""
    name = f"{path.parents[1].name}/{path.parent.name}/{path.name}"
    if path.suffix != ".edit":
        return [f"{name}: only files that end in .edit are tried"]
    texts, faults = {}, []
    for file, old, new in edit_of(path).pairs:
        place = path.parents[1] / file
        text = texts.get(file) or text_of(place)
        if text.count(old) != 1:
            faults.append(f"{name}: {text.count(old)} times in {file}, and not once: {old}")
        texts[file] = text.replace(old, new, 1)
    return faults or ([] if texts else [f"{name}: it changes nothing"])


def cited():
    """Return the edits that pages cite as evidence, as CRATE/FOLDER/NAME, each with its page."""
    found = {}
    for page in sorted(pathlib.Path(build.ROOT, "docs").glob("*.md")):
        for folder, names in CITED.findall(page.read_text(encoding="utf-8")):
            found.update({f"{folder}/{name}": page.name for name in names.split(", ")})
    return found

"""Lay out a crate of laws with an altered definition, so that the proofs of its laws can be tried.

If the definition belongs to another crate, its module is copied into the crate of laws, with all
modules of its crate between it and the lemmas of the laws, or, if the copy is wide, of all crates.
The other crates do not change, so only the laws are proved again. Here a module is a pair of a
crate and a path below it.
"""
import functools
import pathlib
import re
import shutil

import build
from edit_files import text_of

ROOT = pathlib.Path(build.ROOT)
IMPORTED = re.compile(r"^(?:pub )?use Rattle\.(\w+)\.((?:specs|proofs)[\w.]*)\.\{", re.MULTILINE)


def module_path(crate, module):
    return ROOT / "crates" / crate / (module.replace(".", "/") + ".antt")


@functools.cache
def imports_of(path):
    """Return the modules from which a file imports."""
    return {it for it in IMPORTED.findall(text_of(path)) if module_path(*it).exists()}


@functools.cache
def stands_on(module, other):
    """Return whether a module is another module, or imports from it, directly or through others."""
    return module == other or any(stands_on(it, other) for it in imports_of(module_path(*module)))


def antt_files(folder):
    """Return a crate's files of definitions and proofs."""
    return [path for part in ("specs", "proofs") for path in (folder / part).rglob("*.antt")]


def home_of(law, edit):
    """Return the crate and the module of the definition that an edit alters."""
    parts = pathlib.PurePath(edit.pairs[0][0]).with_suffix("").parts
    crate, parts = (parts[1], parts[2:]) if parts[0] == ".." else (law, parts)
    return crate, ".".join(parts)


def between(law, home, is_wide):
    """Return the modules of the definition's crate, or of all other crates, that the laws reach and
    that use the definition's module."""
    found, waiting = set(), set()
    for path in antt_files(ROOT / "crates" / law):
        waiting |= imports_of(path)
    while waiting:
        it = waiting.pop()
        is_near = it[0] == home[0] or is_wide and it[0] != law
        if is_near and it not in found and stands_on(it, home):
            found.add(it)
            waiting |= imports_of(module_path(*it))
    return sorted(found)


def copied(crate, module):
    """Return the path of a copied module in the crate of laws."""
    part, _, rest = module.partition(".")
    return f"{part}.turned_{crate}_{rest.replace('.', '_')}"


def lay_out(law, home, is_wide, pairs, room):
    """Copy the crate of laws to `room`, with the definition's module, in which the pairs are
    replaced."""
    for part in build.PROVED:
        if (ROOT / "crates" / law / part).is_dir():
            shutil.copytree(ROOT / "crates" / law / part, room / part)
    places = {it: copied(*it) for it in between(law, home, is_wide)}
    if home[0] == law:
        places = {home: home[1]}

    def own(text):
        for (crate, module), place in places.items():
            text = text.replace(f"Rattle.{crate}.{module}.{{", f"Rattle.{law}.{place}.{{")
        return text

    for path in antt_files(room):
        path.write_text(own(text_of(path)), encoding="utf-8")
    for it, place in places.items():
        text = own(text_of(module_path(*it)))
        for _, old, new in pairs if it == home else ():
            text = text.replace(old, new, 1)
        path = room / (place.replace(".", "/") + ".antt")
        path.write_text(text, encoding="utf-8")
        if it[0] != law:
            with open(path.parent / "Lib.antt", "a", encoding="utf-8") as file:
                file.write(f"pub mod {path.stem}\n")


def crate_with(law, home, is_wide, root):
    """Return the crate of laws with the libraries that it and the copied modules name."""
    names = list(
        dict.fromkeys([law, home[0], *(crate for crate, _ in between(law, home, is_wide))])
    )
    crates = {it.name: it for it in build.crates_of(names, root)}
    used = dict.fromkeys(it for name in names for it in build.uses()[name] if it != law)
    return build.Crate(law, list(used), crates, root)

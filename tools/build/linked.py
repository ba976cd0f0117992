#!/usr/bin/env python3
"""Copy the licences of everything that is linked into the programs.

    linked.py FOLDER [--without-own] [--with-islands]

Copies into FOLDER rcell's own two licences (left out with --without-own, because Debian has them),
with --with-islands the licence of the data in examples/islands, and, below linked/, the notices of
the linked libraries and the licences that they name. The libraries are the kit's libraries that
crates.txt lists for the programs, with all that they use, and Debian's GNU C Library and GCC
startup code.
"""
import argparse
import functools
import pathlib
import re
import shutil
import subprocess
import sys

import build

COMMON = pathlib.Path("/usr/share/common-licenses")
OWN = "Apache-2.0 OR GPL-2.0-or-later"
OWN_TEXTS = {"Apache-2.0.txt": "Apache-2.0", "GPL-2.txt": "GPL-2"}
LINKED_TEXTS = {"LGPL-2.1.txt": "LGPL-2.1", "GPL-3.txt": "GPL-3"}
ISLANDS_TEXTS = {"LGPL-3.txt": "LGPL-3", "GPL-3.txt": "GPL-3"}
# The kit's libraries with licence texts. If there is a choice, the first is used: MIT, not
# Apache-2.0.
OF_KIT = {
    "bstr": "MIT AND Unicode-3.0",
    "circular_buffer": "BSD-3-Clause",
    "clap": "MIT",
    "itoa": "MIT",
    "memchr": "MIT",
    "thiserror": "MIT",
    "ucd_breaks": "Unicode-3.0",
    "ucd_table": "Unicode-3.0",
    "unicode_segmentation": "MIT AND Unicode-3.0",
}
# Debian packages: the licence, the file of notices, and a description.
OF_DEBIAN = {
    "libc6-dev": ("LGPL-2.1-or-later", "the GNU C Library"),
    "libgcc-12-dev": (
        "GPL-3.0-or-later WITH GCC-exception-3.1",
        "libgcc and the startup code of GCC",
    ),
}
NO_LICENCE = "NOASSERTION"


@functools.cache
def libraries():
    """Return the kit's libraries in the programs, by name, each with its licence."""
    left, found = {name for crate in build.crates_of(build.PROGRAMS) for name in crate.of_kit}, {}
    while left:
        name = left.pop()
        texts = notices(name)
        if bool(texts) != (name in OF_KIT):
            sys.exit(
                f"rcell: tools/build/linked.py has no licence of {name}, or the kit has no text of it: {texts}"
            )
        found[name] = OF_KIT.get(name, NO_LICENCE)
        below = pathlib.Path(build.kit(), "rlibs", f"{name}.rlib", "below")
        left |= ({it.name for it in below.iterdir()} if below.is_dir() else set()) - {*found}
    return dict(sorted(found.items()))


def notices(name):
    """Return the licence texts of a library of the kit, without Apache-2.0, which no library
    needs."""
    found = sorted(pathlib.Path(build.kit(), "rattle", name).glob("LICENSE*"))
    return [it for it in found if not it.name.endswith("-APACHE")]


def version_of(package):
    return subprocess.run(
        ["dpkg-query", "-W", "-f", "${Version}", package],
        check=True,
        capture_output=True,
        text=True,
    ).stdout


def port_of(name):
    """Return the version of the Rust crate from which a library of the kit was ported, if its
    README names it."""
    readme = pathlib.Path(build.kit(), "rattle", name, "README.md")
    found = (
        re.search(r"crate `[\w-]+` (\d+(?:\.\d+)+)", readme.read_text(encoding="utf-8"))
        if readme.exists()
        else None
    )
    return found[1] if found else None


def copy(texts, folder):
    for name, text in texts.items():
        shutil.copyfile(COMMON / text, folder / name)


def copy_all(folder, own=True, islands=False):
    """Copy all licences and notices into a folder."""
    folder.mkdir(parents=True)
    linked = folder / "linked"
    linked.mkdir()
    copy(OWN_TEXTS if own else {}, folder)
    copy(ISLANDS_TEXTS if islands else {}, folder)
    copy(LINKED_TEXTS if own else {}, linked)
    for name in libraries():
        for text in notices(name):
            shutil.copyfile(text, linked / f"{name}{text.name.removeprefix('LICENSE')}.txt")
    for package in OF_DEBIAN:
        shutil.copyfile(f"/usr/share/doc/{package}/copyright", linked / f"{package}.txt")
    for path in [folder, *folder.rglob("*")]:
        path.chmod(0o755 if path.is_dir() else 0o644)


def summary():
    """Return the libraries with their licences, as lines of debian/copyright."""
    lines = [
        f" {name} (of the Rattle kit): {licence}"
        if licence != NO_LICENCE
        else f" {name} (of the Rattle kit): no licence text in the kit"
        for name, licence in libraries().items()
    ]
    return "\n".join(
        [
            *lines,
            *(f" {what} ({package}): {licence}" for package, (licence, what) in OF_DEBIAN.items()),
        ]
    )


def main():
    words = argparse.ArgumentParser(
        description=__doc__, formatter_class=argparse.RawDescriptionHelpFormatter
    )
    words.add_argument("--without-own", action="store_true")
    words.add_argument("--with-islands", action="store_true")
    words.add_argument("folder", type=pathlib.Path)
    given = words.parse_args()
    copy_all(given.folder, not given.without_own, given.with_islands)


if __name__ == "__main__":
    main()

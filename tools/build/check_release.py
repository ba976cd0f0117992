#!/usr/bin/env python3
"""Make the release from what is built, and check it.

    check_release.py [--keep FOLDER]

Checks the static programs against the documents and the models, the files of the release
(tools/build/check_artefacts.py), the quick start, rcell-pipe and rcell-gis from the unpacked files, and
`make install`. Needs the programs in bin/ and the objects that they were linked from,
bin/NAME.o. --keep leaves the files of the release in the folder. The last line is 'N passed, M
failed'.
"""
import argparse
import glob
import os
import pathlib
import re
import shutil
import struct
import subprocess
import sys
import tempfile

ROOT = os.path.abspath(f"{__file__}/../../..")
sys.path[1:1] = [f"{ROOT}/tools", f"{ROOT}/tools/documents", f"{ROOT}/tools/lint"]

import check
import check_artefacts
import documents
import links

PATH_WITHOUT_KIT = "/usr/bin:/bin"
RUNS = "300"
KIND_OF_INTERPRETER = 3  # PT_INTERP of an ELF file
PROGRAMS = ("rcell", "rcell-pipe")
PAGES = "share/man/man1"
DOCUMENTS = "share/doc/rcell"
# The Debian packages needed for a release, each identified by one of its files.
PACKAGES = {
    "libc6-dev": "/usr/lib/x86_64-linux-gnu/libc.a",
    "libgcc-12-dev": "/usr/lib/gcc/x86_64-linux-gnu/12/libgcc.a",
    "python3-hatchling": "/usr/lib/python3/dist-packages/hatchling",
    "r-base-core": "/usr/bin/R",
}
GRID = "north: 3\nsouth: 1\neast: 3\nwest: 0\nrows: 2\ncols: 3\n5 5 *\n-1 5 7\n"


class Count:
    """Counts the checks that passed, failed and were skipped. Each is printed as soon as its result
    is known."""

    def __init__(self):
        self.passed = self.failed = self.skipped = 0

    def add(self, what, fault):
        self.passed, self.failed = self.passed + (not fault), self.failed + bool(fault)
        print(f"{what}: {'FAILED: ' + fault if fault else 'ok'}", flush=True)

    def skip(self, needs, packages):
        self.skipped += 1
        print(f"{check.SKIPPED}release: {needs}; install: apt-get install {packages}", flush=True)

    def add_run(self, what, words):
        """Run a check that prints its own counts at the end."""
        ran = subprocess.run(
            words,
            cwd=ROOT,
            stdout=subprocess.PIPE,
            stderr=subprocess.PIPE,
            text=True,
            errors="replace",
        )
        lines = ran.stdout.splitlines(keepends=True)
        passed, failed, skipped = check.counts_of(lines, ran.returncode, has_counts=True)
        self.passed, self.failed, self.skipped = (
            self.passed + passed,
            self.failed + failed,
            self.skipped + skipped,
        )
        print(
            "".join(
                lines if failed else [line for line in lines if line.startswith(check.SKIPPED)]
            ),
            end="",
        )
        print(
            (ran.stderr if failed else "")
            + f"{what}: {passed} passed, {failed} failed, {skipped} skipped",
            flush=True,
        )


def check_static(count):
    """Check that the static programs print what the documents show, and what the plain models
    compute for random runs."""
    static, pipe = (f"{ROOT}/bin/{name}-static" for name in PROGRAMS)
    for what, words in (
        (
            "the documents by the static programs",
            [
                "tools/documents/documents.py",
                "--program",
                static,
                "--pipe",
                pipe,
                *documents.DOCUMENTS,
            ],
        ),
        (
            "the static program beside the model",
            ["tools/model/compare.py", "--runs", RUNS, "--seed", "2", "--program", static],
        ),
        (
            "tiles joined by the static rcell-pipe",
            ["tools/join", "--runs", RUNS, "--program", pipe],
        ),
        (
            "the static rcell-pipe beside rcell",
            ["tools/model/test_pipe.py", "--runs", RUNS, "--program", pipe, "--rcell", static],
        ),
    ):
        ran = subprocess.run(
            [sys.executable, *words],
            cwd=ROOT,
            stdout=subprocess.PIPE,
            stderr=subprocess.STDOUT,
            text=True,
        )
        count.add(what, ran.stdout if ran.returncode else "")


def interpreters(path):
    """Return the number of dynamic loaders that a 64-bit program requests, which is 0 for a static
    program."""
    with open(path, "rb") as file:
        program = file.read()
    begin, size, count = struct.unpack_from("<Q", program, 32)[0], *struct.unpack_from(
        "<HH", program, 54
    )
    kinds = [struct.unpack_from("<I", program, begin + size * number)[0] for number in range(count)]
    return kinds.count(KIND_OF_INTERPRETER)


def check_needs(count, folder, names):
    """Check that the programs need no libraries, and the package needs no other package."""
    for name in PROGRAMS:
        found = interpreters(f"{ROOT}/bin/{name}-static")
        count.add(
            f"the static {name} needs no library", f"it names {found} loaders" if found else ""
        )
    package = next(name for name in names if name.endswith(".deb"))
    depends = subprocess.run(
        ["dpkg-deb", "-f", f"{folder}/{package}", "Depends"], capture_output=True, text=True
    )
    said = (depends.stdout + depends.stderr).strip()
    count.add(
        "the package depends on python3 alone, for rcell-gis", "" if said == "python3" else said
    )


def said_of(*words):
    """Run a command, and return its error, or ''."""
    ran = subprocess.run(
        words, cwd=ROOT, stdout=subprocess.PIPE, stderr=subprocess.STDOUT, text=True
    )
    return ran.stdout.strip() or f"status {ran.returncode}" if ran.returncode else ""


def fault_of_pipe(programs):
    """Run rcell-pipe from this folder on the request of its crate. Return the error, or ''."""
    crate = pathlib.Path(ROOT, "crates/rcell_pipe")
    ran = subprocess.run(
        [f"{programs}/rcell-pipe"], input=(crate / "stdin").read_bytes(), capture_output=True
    )
    is_right = (ran.returncode, ran.stdout, ran.stderr) == (0, (crate / "stdout").read_bytes(), b"")
    return "" if is_right else f"status {ran.returncode}, {ran.stdout!r}, {ran.stderr!r}"


def fault_of_gis(programs, room):
    """Convert a grid to an ESRI ASCII grid and back with rcell-gis from this folder. Return the
    error, or ''."""
    with tempfile.TemporaryDirectory(prefix="gis-", dir=room) as here:
        with open(f"{here}/land.txt", "w", encoding="ascii") as file:
            file.write(GRID)
        for words in (("land.txt", "land.asc"), ("land.asc", "again.txt")):
            ran = subprocess.run(
                [f"{programs}/rcell-gis", "convert", *words],
                cwd=here,
                capture_output=True,
                text=True,
            )
            if ran.returncode:
                return f"status {ran.returncode}, {ran.stderr!r}"
        with open(f"{here}/again.txt", encoding="ascii") as file:
            text = file.read()
    return "" if text == GRID else f"it came back as {text!r}"


def fault_of_page(prefix, name):
    """Return the error of a program's manual page below a prefix, or ''."""
    found = next(iter(glob.glob(f"{prefix}/{PAGES}/{name}.1*")), None)
    if found is None:
        return f"{name}.1 is missing"
    with open(f"{ROOT}/VERSION", encoding="utf-8") as file:
        wanted = [
            f"{name.upper()}(1)",
            f"rcell {file.read().strip()}",
            "SYNOPSIS",
            "EXIT STATUS",
            "SEE ALSO",
        ]
    environment = {**os.environ, "LC_ALL": "C.UTF-8", "MANWIDTH": "80"}
    shown = subprocess.run(
        ["man", "-l", found], capture_output=True, text=True, env=environment
    ).stdout
    return "; ".join(
        [
            *documents.warnings_of_man(found),
            *(f"{name}.1 shows no {word}" for word in wanted if word not in shown),
        ]
    )


def check_pages(count, what, prefix):
    if documents.has_man():
        count.add(what, "; ".join(filter(None, (fault_of_page(prefix, name) for name in PROGRAMS))))
    else:
        count.skip(f"man or groff is not installed, for {what}", "man-db groff")


def check_links(count, what, prefix):
    count.add(f"the links of {what}", "; ".join(links.faults_below(f"{prefix}/{DOCUMENTS}")))


def check_unpacked(count, room, folder, names):
    """Check the quick start, the pages, rcell-pipe and rcell-gis, from the tarball and from the
    package."""
    for kind, ending, programs in (
        ("tarball", "linux-x86_64.tar.gz", "rcell-*/bin"),
        ("package", ".deb", "unpacked/usr/bin"),
    ):
        file = next((f"{folder}/{name}" for name in names if name.endswith(ending)), None)
        if file is None:
            count.add(f"the {kind}", "there is none")
            continue
        here = f"{room}/{kind}"
        count.add_run(
            f"quick start of the {kind}",
            [sys.executable, "tools/documents/quick_start.py", file, "--room", here],
        )
        found = next(iter(glob.glob(f"{here}/{programs}")), f"{here}/{programs}")
        check_pages(count, f"the manual pages of the {kind}", os.path.dirname(found))
        check_links(count, f"the {kind}", os.path.dirname(found))
        count.add(f"rcell-pipe of the {kind}", fault_of_pipe(found))
        count.add(f"rcell-gis of the {kind}", fault_of_gis(found, room))


def check_install(count, room):
    """Check that `make install` installs what is built, without the kit and even if a source is
    newer, and that `make uninstall` removes all of it."""
    copy, prefix = f"{room}/copy", f"{room}/prefix"
    shutil.copytree(
        ROOT,
        copy,
        symlinks=True,
        ignore=shutil.ignore_patterns(".git", "out", "dist", "cases", "__pycache__"),
    )
    os.utime(f"{copy}/crates.txt")
    environment = {"PATH": PATH_WITHOUT_KIT, "HOME": room}

    def run(*words):
        return subprocess.run(words, cwd=copy, env=environment, capture_output=True, text=True)

    if shutil.which("make", path=PATH_WITHOUT_KIT) is None:
        count.skip("make is not installed, for make install", "make")
        return
    ran = run("make", "-s", "install", f"PREFIX={prefix}")
    count.add(
        "make install without rt, with a source that is newer",
        ran.stderr.strip() if ran.returncode else "",
    )
    wanted = [
        *(f"bin/{name}" for name in PROGRAMS),
        *(f"{PAGES}/{name}.1" for name in PROGRAMS),
        f"{DOCUMENTS}/examples/islands/archipelago.txt",
        f"{DOCUMENTS}/docs/tutorial.md",
    ]
    count.add(
        "what make install puts",
        " ".join(name for name in wanted if not os.path.exists(f"{prefix}/{name}")),
    )
    check_pages(count, "the installed manual pages", prefix)
    check_links(count, "the installed pages", prefix)
    count.add("the installed rcell-pipe", fault_of_pipe(f"{prefix}/bin"))
    land = f"{prefix}/{DOCUMENTS}/examples/land-cover"
    ran = run(f"{prefix}/bin/rcell", f"{land}/script", f"landuse={land}/landuse.txt")
    with open(f"{ROOT}/examples/land-cover/stdout", encoding="ascii") as file:
        count.add(
            "the installed program",
            "" if ran.stdout == file.read() else f"it printed {ran.stdout!r}, {ran.stderr!r}",
        )
    others = {
        f"{prefix}/share/rcell/theirs",
        f"{prefix}/{DOCUMENTS}/examples/theirs",
        f"{prefix}/bin/theirs",
    }
    for name in others:
        open(name, "w", encoding="ascii").close()
    run("make", "-s", "uninstall", f"PREFIX={prefix}")
    left = {f"{at}/{name}" for at, _, names in os.walk(prefix) for name in names}
    count.add(
        "make uninstall removes what was installed, and nothing else", " ".join(left ^ others)
    )


def check_version(count):
    """Check that VERSION is the newest version in CHANGELOG.md, and the version in the README's
    quick start."""
    texts = {}
    for name in ("VERSION", "CHANGELOG.md", "README.md"):
        with open(f"{ROOT}/{name}", encoding="utf-8") as file:
            texts[name] = file.read()
    version = texts["VERSION"].strip()
    newest = re.search(r"^## (\S+)", texts["CHANGELOG.md"], re.MULTILINE)
    count.add(
        "CHANGELOG.md begins with VERSION",
        "" if newest and newest[1] == version else f"{newest and newest[1]}, and not {version}",
    )
    others = set(re.findall(r"rcell[-_](\d+\.\d+\.\d+)", texts["README.md"])) - {version}
    count.add("README.md names VERSION and no other", " ".join(others))


def check_made(count, room, keep):
    """Make and check the static programs and the release."""
    fault = said_of("sh", "tools/build/static.sh")
    count.add("the static programs", fault)
    if fault:
        return
    check_static(count)
    folder = f"{room}/made"
    fault = said_of("sh", "tools/build/dist.sh", folder)
    count.add("the release", fault)
    if fault:
        return
    names = sorted(os.listdir(folder))
    check_artefacts.check_all(count, pathlib.Path(folder), room)
    check_needs(count, folder, names)
    check_unpacked(count, room, folder, names)
    if keep:
        shutil.copytree(folder, keep, dirs_exist_ok=True)


def main():
    words = argparse.ArgumentParser(description="Makes the release of what is built, and tries it.")
    words.add_argument("--keep")
    wanted = words.parse_args()
    count = Count()
    check_version(count)
    with tempfile.TemporaryDirectory(prefix="rcell-release-") as room:
        missing = [name for name, file in PACKAGES.items() if not os.path.exists(file)]
        if missing:
            count.skip("what a release is made with is not installed", " ".join(missing))
        else:
            check_made(count, room, wanted.keep)
        check_install(count, room)
    print(f"{count.passed} passed, {count.failed} failed, {count.skipped} skipped")
    return 1 if count.failed else 0


if __name__ == "__main__":
    sys.exit(main())

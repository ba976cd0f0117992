#!/usr/bin/env python3
"""Write a release's PROVED.txt to standard output: what the programs were made from, and what is
known of them, on one page.

    proved.py

The programs, dynamic and static, and their objects must be in bin/. The commit, the kit and
Debian's libraries are those on this machine now. The gate's closing line is read from bin/gate,
which `make check` leaves; if there is none for this commit and these programs, the page states
this. The section of the README states what is proved, only tested, and trusted.
"""
import hashlib
import re
import subprocess
import sys

import build
import edit_files

ROOT = build.ROOT
# The key of each program in the gate's record.
KEYS = {"rcell": "program", "rcell-pipe": "pipe"}
PACKAGES = ("libc6-dev", "libgcc-12-dev")
SECTION = "What is proved, tested and trusted"


def read(path, otherwise=""):
    try:
        with open(path, encoding="utf-8") as file:
            return file.read()
    except FileNotFoundError:
        return otherwise


def said_by(*words):
    return subprocess.run(
        words, cwd=ROOT, check=True, capture_output=True, text=True
    ).stdout.strip()


def sum_of(name):
    """Return the hash of a file in bin/."""
    with open(f"{ROOT}/bin/{name}", "rb") as file:
        return hashlib.file_digest(file, "sha256").hexdigest()


def sources():
    commit, day = said_by("git", "log", "-1", "--format=%H %cd", "--date=format:%Y-%m-%d").split()
    changed = said_by("git", "status", "--porcelain", "--untracked-files=no")
    return commit, f"commit {commit}\n            of {day}" + (
        ", WITH CHANGES that are not committed" if changed else ""
    )


def gate_record(commit):
    """Return the gate's record for this commit and these programs, by key, or None if there is
    none."""
    record = dict(
        line.split(": ", 1) for line in read(f"{ROOT}/bin/gate").splitlines() if ": " in line
    )
    return (
        record
        if record.get("commit") == commit
        and all(record.get(key) == sum_of(name) for name, key in KEYS.items())
        else None
    )


def counted():
    crates = build.crates_of(build.PROGRAMS)
    lines = read(f"{ROOT}/crates.txt").splitlines()
    every = sum(":" in line.split("#")[0] for line in lines)
    return f"""{every} crates, {len(crates)} of which make up the programs;
            {len(edit_files.paths_in())} edits that each change a meaning, and that the proof must refuse"""


def gate_text(record):
    if record is None:
        return """left no closing line for this commit and these programs where this page was made;
            `make check` in the sources makes it"""
    return f"{record['closing']}\n            (proofs: {record.get('proofs', 'not told')})"


def origins():
    """Return where the programs were proved, as recorded by the build."""
    said = {
        read(f"{ROOT}/bin/{name}.origin", "it is not known where they were proved").strip()
        for name in KEYS
    }
    return "; ".join(sorted(said))


def sums(ending=""):
    """Return the hashes of the programs, or of the files with this ending, one per line."""
    return "\n            ".join(f"sha256 {sum_of(name + ending)} ({name})" for name in KEYS)


def page():
    commit, commit_text = sources()
    versions = ", ".join(
        f"{name} {said_by('dpkg-query', '-W', '-f', '${Version}', name)}" for name in PACKAGES
    )
    section = re.search(
        rf"^## {SECTION}\n(.*?)^## ", read(f"{ROOT}/README.md"), re.MULTILINE | re.DOTALL
    )[1].strip()
    section = re.sub(
        r"\[([^\]]*)\]\(([^)]*)\)",
        lambda found: found[2] if found[1] == found[2] else f"{found[1]} ({found[2]})",
        section,
    )
    return f"""rcell {read(f'{ROOT}/VERSION').strip()}: what it was made from, and what is known of it

Sources     {commit_text}
Kit         {build.kit_version().strip()}
Proofs      {counted()}
Gate        {gate_text(gate_record(commit))}

Programs    {sums("-static")}
            linked statically (static-pie) from the objects
            {sums(".o")}
            by the kit's ld.lld with the C library of Debian ({versions}); {origins()}.
Tested ones {sums()}
            linked dynamically from the same objects by the kit: rcell is the one that the gate runs on all cases, good ones also
            with each growth of memory refused in turn (which LD_PRELOAD does, and a static program does not heed), and rcell-pipe
            the one that it runs on random requests beside rcell, and on the tiles of random maps. The gate tries the static ones on
            the documents and on random runs beside the same models, and rcell on the quick start and with the helpers.
            So what the static programs add to what is trusted is Debian's libc.a and startup files, and this link.

What is proved, tested and trusted
----------------------------------

{section}
"""


def main():
    sys.stdout.write(page())


if __name__ == "__main__":
    main()

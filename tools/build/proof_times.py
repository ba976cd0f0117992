#!/usr/bin/env python3
"""Report where the time of a crate's proof goes, function by function.

    proof_times.py CRATE [--most N]

Proves the crate from scratch in one process, over the libraries that `rt check` or `rt lib` left.
Prints the seconds of each function and each file of lemmas, slowest first: the time for its states
(what the prover knows of each local where the paths of a function meet, so it grows with both), for
goals left to a search, for written proofs, and for everything else. The times are measured from one
kept module to the next, so the machine must be idle. The first function that needs a set of lemmas
also includes the time of reading the set.
"""
import argparse
import collections
import os
import subprocess
import sys
import tempfile

import build

MOST_ROWS = 30
# The columns, and the modules of a function that count in each. All other modules count as the
# rest.
COLUMNS = {
    "states": {"Lts", "View"},
    "search": {"Proof", "Goals"},
    "answers": {"Answers", "Invariants"},
    "rest": set(),
}


def modules(kept):
    """Return the kept modules in the order in which they were written, each with the seconds since
    the previous one."""
    found = []
    for folder, _, names in os.walk(kept):
        if os.path.basename(folder) != "records":
            found += [
                (os.stat(f"{folder}/{it}").st_mtime, it.removesuffix(".oantt"))
                for it in names
                if it.endswith(".oantt")
            ]
    found.sort()
    return [(now - before, name) for (before, _), (now, name) in zip(found, found[1:])]


def column(part):
    """Return the column for a part of a module's name, if there is one."""
    return next((name for name, parts in COLUMNS.items() if part in parts), None)


def times(crate, kept):
    """Return the seconds of each function or file of lemmas, by column."""
    rows = collections.defaultdict(lambda: dict.fromkeys(COLUMNS, 0.0))
    for seconds, name in modules(kept):
        library, _, path = name.partition(".")
        parts = [it for it in path.split(".") if it != "contracts"]
        kinds = [at for at, it in enumerate(parts) if column(it)]
        own = parts[: kinds[0]] if kinds else parts
        if library != f"Rattle-{crate.name}-proofs":
            own = (
                [library.removeprefix(f"Rattle-{crate.name}-"), *own[:1]]
                if path
                else ["what other crates see"]
            )
        rows[".".join(own)][column(parts[kinds[0]]) if kinds else "rest"] += seconds
    return rows


def main():
    parser = argparse.ArgumentParser(description="Says where the time of a crate's proof goes.")
    parser.add_argument("crate", help="the name of the crate")
    parser.add_argument("--most", type=int, default=MOST_ROWS, help="how many rows to print")
    given = parser.parse_args()
    crate = build.crates_of([given.crate])[-1]
    if not all(os.path.isdir(it.rlib) for it in crate.all_below.values()):
        sys.exit("rcell: run rt check in the crate's folder first: it builds the libraries below")
    with tempfile.TemporaryDirectory() as kept:
        how = {
            "cwd": crate.folder,
            "stdin": subprocess.DEVNULL,
            "stdout": subprocess.PIPE,
            "stderr": subprocess.STDOUT,
        }
        run = subprocess.run([*crate.command("check"), "--incremental", kept], text=True, **how)
        if run.returncode:
            sys.exit(run.stdout[-2000:])
        rows = times(crate, kept)
    print(" ".join(f"{it:>7}" for it in COLUMNS))
    for name, seconds in sorted(rows.items(), key=lambda it: -sum(it[1].values()))[: given.most]:
        print(" ".join(f"{it:7.2f}" for it in seconds.values()), name)
    print(" ".join(f"{sum(it):7.2f}" for it in zip(*(it.values() for it in rows.values()))), "all")


if __name__ == "__main__":
    main()

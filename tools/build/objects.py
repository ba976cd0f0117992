#!/usr/bin/env python3
"""Provide the objects from which the programs in bin/ were linked, bin/NAME.o.

    objects.py                          put missing or outdated objects into bin/
    objects.py --from FILE PROGRAM..    put programs into bin/, linked from a release's objects
    objects.py --stamps FOLDER          write PROGRAM.stamp for each program

The static programs of a release are linked from these objects. An object is right if the kit links
it to the exact bytes of its program. Proving a program leaves an object. If the kit took the proofs
from an earlier run, the program's own crate is proved and compiled again over the libraries that it
uses. With --from, an object's stamp must fit these sources: it is a hash of the kit's version and
all that the proof reads.
"""
import argparse
import filecmp
import os
import pathlib
import subprocess
import sys
import tarfile
import tempfile

import build

TARGET = "x86_64-unknown-linux-gnu"
ELSEWHERE = "NOT proved on this machine"


def linked(made, output):
    """Link a program's object as the kit does, and return the result of the command."""
    words = [
        f"{build.kit()}/bin/rattle-link",
        "--target",
        TARGET,
        "--toolchain",
        f"{build.kit()}/toolchain",
        "-o",
        output,
    ]
    words += [made, f"{build.kit()}/c/libos_c.a", f"{build.kit()}/c/liblibc_c.a"]
    return subprocess.run(
        words,
        cwd=build.ROOT,
        stdout=subprocess.PIPE,
        stderr=subprocess.STDOUT,
        text=True,
        errors="replace",
    )


def is_right(made, program, room):
    if not os.path.exists(made) or linked(made, f"{room}/linked").returncode:
        return False
    return filecmp.cmp(f"{room}/linked", program, shallow=False)


def compiled(crate, room):
    """Compile a program's object from the sources of its crate, over the libraries that it uses."""
    crates, made = build.crates_of([crate]), f"{room}/{crate}.o"
    print(
        f"bin/{build.PROGRAMS[crate]}.o is missing: compiling {crate} over the libraries below it",
        flush=True,
    )
    with build.cut(crates) as folder:
        if build.prove(folder, crates, 0, build.LOG):
            return made
        program = build.crates_of([crate], folder)[-1]
        words = program.command("build", len(os.sched_getaffinity(0)))
        subprocess.run(
            [*words, "--toolchain", f"{build.kit()}/toolchain", "-o", made],
            cwd=program.folder,
            stdin=subprocess.DEVNULL,
            stdout=subprocess.PIPE,
            stderr=subprocess.STDOUT,
        )
    return made


def put(crate, name, room):
    """Put a program's object into bin/, and return whether there was a right one."""
    program = f"{build.ROOT}/bin/{name}"
    left = f"{build.ROOT}/crates/{crate}/out/{crate}.o"
    for candidate in (lambda: f"{program}.o", lambda: left, lambda: compiled(crate, room)):
        made = candidate()
        if is_right(made, program, room):
            if made != f"{program}.o":
                build.put(made, f"{name}.o")
            return True
    print(f"rcell: no object links to the bytes of bin/{name}: run make again", file=sys.stderr)
    return False


def take(crate, archive, room):
    """Put a program into bin/ that is linked from an archive of objects. Return whether the archive
    is of exactly these sources."""
    name, at = build.PROGRAMS[crate.name], pathlib.Path(room, "crates", crate.name, "out")
    with tarfile.open(archive) as files:
        members = {os.path.basename(it.name): it for it in files if it.isfile()}
        made, stamp = (
            files.extractfile(members[it]).read() if it in members else b""
            for it in (f"{name}.o", f"{name}.stamp")
        )
    if stamp.decode().strip() != crate.stamp:
        print(f"{archive}: {name}.o is of other sources or another kit, so {name} is proved here")
        return False
    at.mkdir(parents=True)
    (at / f"{crate.name}.o").write_bytes(made)
    ran = linked(f"{at}/{crate.name}.o", f"{at}/{crate.name}")
    if ran.returncode:
        print(ran.stdout, end="")
        return False
    build.take_built(crate.name, room, f"{ELSEWHERE}: linked from {os.path.basename(archive)}")
    print(
        f"bin/{name} is {ELSEWHERE}: it is linked from an object of {archive}, which was proved elsewhere, of exactly these sources"
        f" (stamp {stamp.decode()[:12]}).\nTo prove it here: rm -r bin; make"
    )
    return True


def main():
    words = argparse.ArgumentParser(
        description=__doc__, formatter_class=argparse.RawDescriptionHelpFormatter
    )
    words.add_argument("--from", dest="archive", metavar="FILE")
    words.add_argument("--stamps", type=pathlib.Path, metavar="FOLDER")
    words.add_argument("programs", nargs="*", metavar="PROGRAM")
    given = words.parse_args()
    if given.stamps:
        for crate, name in build.PROGRAMS.items():
            (given.stamps / f"{name}.stamp").write_text(
                f"{build.crates_of([crate])[-1].stamp}\n", encoding="ascii"
            )
        return 0
    with tempfile.TemporaryDirectory(prefix="rcell-objects-") as room:
        if given.archive:
            wanted = [crate for crate, name in build.PROGRAMS.items() if name in given.programs]
            done = [take(build.crates_of([crate])[-1], given.archive, room) for crate in wanted]
        else:
            done = [put(crate, name, room) for crate, name in build.PROGRAMS.items()]
    return 0 if all(done) else 1


if __name__ == "__main__":
    sys.exit(main())

#!/usr/bin/env python3
"""Compile programs without proving them, and put them into test-bin/, for tests that need no proofs
(`make test`).

    unproved.py [--example] [PROGRAM..]      without names, all programs

`rt try` compiles a program with clang for a run that looks for bugs. Here, a substitute for clang
takes the code at that point, and the kit's clang compiles it. The result is several times slower
than the proved program and uses more stack, so it is not for benchmarks. Programs that are up to
date are not compiled again. bin/, which is for proved programs, is not changed. With --example,
test-bin/rcell counts the land cover of examples/land-cover.
"""
import argparse
import os
import pathlib
import re
import shutil
import subprocess
import sys
import tempfile
import time
from concurrent.futures import ThreadPoolExecutor

import build

FOLDER = pathlib.Path(build.ROOT, "test-bin")
ORIGIN = "NOT proved: compiled for tests from the sources"
BYTES_OF_A_PROGRAM = 3 << 30
TARGET = "x86_64-unknown-linux-gnu"
# The options with which `rattle build` compiles the code of a proved program.
OPTIONS = """-march=x86-64 -ffunction-sections -fdata-sections --no-default-config -no-canonical-prefixes -fintegrated-cc1
-fno-crash-diagnostics -fPIE -O3 -c -x ir""".split()
# Takes the code that would be compiled with a sanitizer, and exits.
SUBSTITUTE = """#!/bin/sh
case $* in *sanitize*) ;; *) exec {clang} "$@" ;; esac
for word in "$@"; do case $word in *.bc) cp "$word" {code} ;; esac; done
exit 1
"""


def link_all(source, target, *left_out):
    """Make a folder with links to everything in another folder, except for some names."""
    target.mkdir()
    for name in set(os.listdir(source)) - set(left_out):
        (target / name).symlink_to(f"{source}/{name}")


def kit_with_substitute(room, code):
    """Make a kit of links to the real kit, whose clang only copies a program's code. Return its
    rt."""
    kit = pathlib.Path(build.kit())
    link_all(kit, room / "kit", "bin", "toolchain")
    link_all(kit / "bin", room / "kit/bin", "rt", "rtlib.py")
    link_all(kit / "toolchain", room / "kit/toolchain", "bin")
    link_all(kit / "toolchain/bin", room / "kit/toolchain/bin", "clang")
    # rt resolves links to find the kit that contains it, so its own files are copied.
    for name in ("rt", "rtlib.py"):
        shutil.copy(kit / "bin" / name, room / "kit/bin")
    clang = room / "kit/toolchain/bin/clang"
    real = f"{kit}/toolchain/bin/clang"
    clang.write_text(SUBSTITUTE.format(clang=real, code=code), encoding="utf-8")
    clang.chmod(0o755)
    return room / "kit/bin/rt"


def run(words, **how):
    """Run a command and return its output. If it fails, print the output and exit."""
    ran = subprocess.run(
        [str(it) for it in words],
        stdin=subprocess.DEVNULL,
        stdout=subprocess.PIPE,
        stderr=subprocess.STDOUT,
        text=True,
        errors="replace",
        check=False,
        **how,
    )
    return ran.returncode, ran.stdout


def code_of(crate, room):
    """Return the code of a program's crate, as the kit passes it to clang."""
    code = room / "program.bc"
    rt = kit_with_substitute(room, code)
    with build.cut(build.crates_of([crate])) as folder:
        _, said = run([rt, "try", "--", "--version"], cwd=f"{folder}/crates/{crate}")
    if not code.exists():
        sys.exit(f"rcell: {crate} does not compile\n{said[-4000:]}")
    return code


def compile_program(crate):
    """Compile a program into test-bin/, unless it is up to date."""
    name = build.PROGRAMS[crate]
    origin = f"{ORIGIN} {build.crates_of([crate])[-1].stamp}\n"
    record, begun = FOLDER / f"{name}.origin", time.monotonic()
    if record.exists() and record.read_text(encoding="utf-8") == origin:
        print(f"test-bin/{name} is up to date", flush=True)
        return
    kit = build.kit()
    toolchain = f"{kit}/toolchain"
    record.unlink(missing_ok=True)
    with tempfile.TemporaryDirectory(prefix="rcell-unproved-") as folder:
        room = pathlib.Path(folder)
        code, made, linked = code_of(crate, room), room / f"{name}.o", room / name
        clang = [f"{toolchain}/bin/clang", f"--target={TARGET}", f"--sysroot={toolchain}"]
        link = [f"{kit}/bin/rattle-link", "--target", TARGET, "--toolchain", toolchain]
        libraries = [f"{kit}/c/libos_c.a", f"{kit}/c/liblibc_c.a"]
        for words in (
            [*clang, *OPTIONS, code, "-o", made],
            [*link, "-o", linked, made, *libraries],
        ):
            status, said = run(words)
            if status:
                sys.exit(f"rcell: {name} does not compile\n{said[-4000:]}")
        os.replace(shutil.copy(linked, FOLDER / f"{name}.new"), FOLDER / name)
    record.write_text(origin, encoding="utf-8")
    print(f"test-bin/{name}: compiled in {time.monotonic() - begun:.0f} s", flush=True)


def programs_at_a_time():
    """Return the number of programs to compile at a time: all if memory allows, otherwise one."""
    memory = pathlib.Path("/proc/meminfo").read_text(encoding="ascii")
    available = int(re.search(r"^MemAvailable: *(\d+) kB", memory, re.MULTILINE)[1]) * 1024
    return max(1, min(len(build.PROGRAMS), available // BYTES_OF_A_PROGRAM))


def main():
    words = argparse.ArgumentParser(
        description=__doc__, formatter_class=argparse.RawDescriptionHelpFormatter
    )
    words.add_argument("--example", action="store_true")
    words.add_argument("programs", nargs="*", choices=[*build.PROGRAMS.values(), []])
    given = words.parse_args()
    crates = [crate for crate, name in build.PROGRAMS.items() if name in (given.programs or {name})]
    FOLDER.mkdir(exist_ok=True)
    print("rcell: compiling without proofs (about two minutes)", flush=True)
    with ThreadPoolExecutor(programs_at_a_time()) as pool:
        list(pool.map(compile_program, crates))
    if not given.example:
        return 0
    here = f"{build.ROOT}/examples/land-cover"
    status, said = run([FOLDER / "rcell", "script", "landuse=landuse.txt"], cwd=here)
    print(said, end="")
    print("rcell: this program is not proved; `make example` proves it and runs it")
    return status


if __name__ == "__main__":
    sys.exit(main())

#!/usr/bin/env python3
"""Run the quick start in README.md as a user with one file of the release would, and compare the
output.

    quick_start.py FILE [--room FOLDER] [--root FOLDER]

FILE is the tarball (.tar.gz) or the package (.deb). It is put into an empty folder, where the
commands in the README's section "Install" are given to sh, in one session: the way to unpack this
kind of file, and then each block that shows output. Neither the kit nor Python is on the path. The
package is unpacked with dpkg-deb instead of being installed, so that the system does not change.

--room keeps what was unpacked in that folder, which must not exist. With --root, everything happens
in that root of another system, with chroot, and the package is really installed. The last line is
'N passed, M failed'.
"""
import argparse
import os
import re
import shlex
import shutil
import subprocess
import sys
import tempfile

import documents

SECTION = re.compile(r"^## Install\n.*?^## ", re.MULTILINE | re.DOTALL)
HIDDEN = re.compile(r"python|pypy|pydoc|rt$|rt-|rattle|rcell")
FOLDERS = ("/usr/bin", "/bin")
SECONDS = 600  # only hanging commands take longer, even on a busy machine
UNPACKED = "unpacked"


def section():
    with open(f"{documents.ROOT}/README.md", encoding="utf-8") as file:
        return list(documents.blocks_of(SECTION.search(file.read())[0]))


def unpacking(blocks, name):
    """Return the README's commands to unpack or install a file of this kind."""
    found = [block.text for block in blocks if block.language == "sh" and name in block.text]
    if len(found) != 1:
        sys.exit(
            f"README.md: the quick start has {len(found)} blocks of sh that name {name}, and not 1"
        )
    return found[0]


def of_package(commands, root):
    """Return the commands for a user without root: the package is unpacked, and its programs are
    put on the path."""
    if root:
        return commands.replace("sudo ", "")
    unpacked = rf"dpkg-deb -x \1 {UNPACKED} && PATH=$PWD/{UNPACKED}/usr/bin:$PATH"
    commands = re.sub(
        r"^sudo (?:dpkg -i|apt install) (\S+)$", unpacked, commands, flags=re.MULTILINE
    )
    return commands.replace(" /usr/share", f" {UNPACKED}/usr/share")


def path_without_python(room):
    """Return a folder with all programs of this system, except for Python, the kit and installed
    programs of rcell."""
    at = f"{room}/programs"
    os.mkdir(at)
    for folder in FOLDERS:
        for name in os.listdir(folder):
            if not HIDDEN.match(name) and not os.path.lexists(f"{at}/{name}"):
                os.symlink(f"{folder}/{name}", f"{at}/{name}")
    return at


def session(script, here, path, root):
    """Run an sh session in the folder and return its output."""
    words = ["sh", "-c", script]
    if root:
        words = [
            "chroot",
            root,
            "/bin/sh",
            "-c",
            f"cd {shlex.quote('/' + os.path.relpath(here, root))} && {script}",
        ]
    environment = {"PATH": path, "HOME": here, "LC_ALL": "C.UTF-8"}
    ran = subprocess.run(
        words,
        cwd=here,
        env=environment,
        timeout=SECONDS,
        stdin=subprocess.DEVNULL,
        stdout=subprocess.PIPE,
        executable=None if root else "/bin/sh",
    )
    return ran.stdout.decode(errors="replace")


def run(file, here, path, root):
    """Run all commands, and return the number of correct blocks and the errors of the others."""
    name, blocks = os.path.basename(file), section()
    shutil.copy(file, here)
    commands = unpacking(blocks, name)
    if name.endswith(".deb"):
        commands = of_package(commands, root)
    shown = [
        (block, documents.commands_of(block)) for block in blocks if block.language == "console"
    ]
    for block in blocks:
        if block.file:
            with open(f"{here}/{block.file}", "w", encoding="utf-8") as written:
                written.write(block.text)
    begin = (
        "exec 2>&1\ncommand -v rt python3 rcell\n"
        + f"{commands}\necho '{documents.END_OF_COMMAND}'\n"
    )
    script = begin + "".join(documents.script_of(commands) for _, commands in shown)
    first, *texts = session(script, here, path, root).split(f"{documents.END_OF_COMMAND}\n")
    faults = [f"the unpacking printed: {first}"] if first and not root else []
    passed, texts = 0, iter(texts)
    for block, commands in shown:
        printed = documents.shown_text(commands, [next(texts, "(did not end)\n") for _ in commands])
        passed += printed == block.text
        if printed != block.text:
            faults.append(f"README.md, quick start, shown:\n{block.text}printed:\n{printed}")
    return passed, faults


def main():
    words = argparse.ArgumentParser(
        description="Runs the quick start of README.md with a file of the release."
    )
    words.add_argument("file")
    words.add_argument("--room")
    words.add_argument("--root")
    wanted = words.parse_args()
    with tempfile.TemporaryDirectory(prefix="rcell-quick-start-") as room:
        here = wanted.room or (
            f"{os.path.abspath(wanted.root)}/srv/quick-start" if wanted.root else f"{room}/here"
        )
        os.makedirs(here)
        path = "/usr/sbin:/usr/bin:/sbin:/bin" if wanted.root else path_without_python(room)
        passed, faults = run(os.path.abspath(wanted.file), os.path.abspath(here), path, wanted.root)
    name = os.path.basename(wanted.file)
    print(f"quick start of {name}: {passed} as shown" + "".join(f"\n  {fault}" for fault in faults))
    print(f"{passed} passed, {len(faults)} failed")
    return 1 if faults else 0


if __name__ == "__main__":
    sys.exit(main())

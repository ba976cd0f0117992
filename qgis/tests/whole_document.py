"""Run the commands of docs/qgis.md in a separate profile, and compare their output.

RCELL_QGIS_ZIP names the zip with the plugin.
"""

from __future__ import annotations

import os
import pathlib
import re
import shutil
import subprocess
import tempfile
import unittest
import zipfile

REPOSITORY = pathlib.Path(__file__).resolve().parent.parent.parent


def sessions() -> list[tuple[str, str]]:
    """Return the commands in all `console` blocks, each with its expected output."""
    text = (REPOSITORY / "docs/qgis.md").read_text(encoding="utf-8")
    found = []
    for block in re.findall(r"(?ms)^```console\n(.*?)^```", text):
        for part in re.split(r"(?m)^\$ ", block)[1:]:
            command, _, shown = part.partition("\n")
            found.append((command, shown))
    return found


@unittest.skipUnless(
    shutil.which("qgis_process.bin"), "there is no qgis_process.bin (Debian's qgis)"
)
class DocumentTest(unittest.TestCase):
    def test_commands(self) -> None:
        with tempfile.TemporaryDirectory() as room:
            plugins = f"{room}/.local/share/QGIS/QGIS3/profiles/default/python/plugins"
            os.makedirs(plugins)
            with zipfile.ZipFile(os.environ["RCELL_QGIS_ZIP"]) as archive:
                archive.extractall(plugins)
            shutil.copytree(REPOSITORY / "examples/rasters", f"{room}/rasters")
            kept = {
                name: value
                for name, value in os.environ.items()
                if name not in ("RCELL", "RCELL_PIPE", "PYTHONPATH")
            }
            environment = {**kept, "HOME": room, "XDG_RUNTIME_DIR": room, "LC_ALL": "C.UTF-8"}
            for command, shown in sessions():
                ran = subprocess.run(
                    ["sh", "-c", command],
                    cwd=f"{room}/rasters",
                    env=environment,
                    capture_output=True,
                    encoding="utf-8",
                    check=False,
                )
                self.assertEqual(ran.returncode, 0, f"{command}\n{ran.stdout}{ran.stderr}")
                if shown or not command.startswith("qgis_process"):
                    self.assertEqual(ran.stdout, shown, command)
                if command.startswith("export "):
                    name, _, value = command.removeprefix("export ").partition("=")
                    environment[name] = value

    def test_pictures_are_there(self) -> None:
        text = (REPOSITORY / "docs/qgis.md").read_text(encoding="utf-8")
        for name in re.findall(r"!\[[^]]*\]\(([^)]*)\)", text):
            self.assertLess((REPOSITORY / "docs" / name).stat().st_size, 150_000)


if __name__ == "__main__":
    unittest.main()

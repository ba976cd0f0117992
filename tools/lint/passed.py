"""Remember which files passed a check, in the user's cache folder, by a hash of the file, its name
and the check."""
import hashlib
import os
import pathlib
import subprocess

FOLDER = pathlib.Path(
    os.environ.get("XDG_CACHE_HOME") or pathlib.Path.home() / ".cache", "rcell-lint"
)


def tool(words, *configurations):
    """Return a hash of a tool and its configuration files, for Passed."""
    version = subprocess.run([words, "--version"], capture_output=True, check=False).stdout
    return version + b"".join(path.read_bytes() for path in configurations)


class Passed:
    """The files that passed a check. If nothing can be stored, every file is checked."""

    def __init__(self, check, root):
        self.check, self.root = hashlib.sha256(check).digest(), root

    def place(self, name):
        content = (self.root / name).read_bytes()
        return FOLDER / hashlib.sha256(self.check + name.encode() + b"\0" + content).hexdigest()

    def has(self, name):
        return self.place(name).exists()

    def keep(self, names):
        try:
            FOLDER.mkdir(parents=True, exist_ok=True)
            for name in names:
                self.place(name).touch()
        except OSError:
            pass

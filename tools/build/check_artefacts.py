"""Check the files of a release, for tools/build/check_release.py: reproducible bytes, licences,
paths, the bill."""
import gzip
import json
import os
import pathlib
import shutil
import subprocess
import tarfile
import tempfile
import zipfile

import build
import licences as licences_of_files
import linked

ROOT = pathlib.Path(build.ROOT)
# The folder of licences in each kind of artefact, and our own texts in it.
LICENCES = {
    "-linux-x86_64.tar.gz": ("share/doc/rcell/licenses", True),
    "-objects.tar.gz": ("licenses", True),
    ".whl": ("dist-info/licenses", True),
    "rcell_{version}.tar.gz": ("rcell/inst/licenses", True),
    "rcell-{version}.tar.gz": ("", True),
    ".zip": ("rcell/licenses", True),
    ".deb": ("usr/share/doc/rcell/licenses", False),
}
NOBODY = 65534
ELSEWHERE = {"TZ": "Asia/Kolkata", "LC_ALL": "C.UTF-8", "LANG": "de_DE.UTF-8"}
STRAY = (
    "helpers/rcell-gis~",
    "examples/secret.key",
    "docs/notes.md",
    "r/rcell/R/x.R",
    "python/src/rcell/x.py",
    "qgis/rcell/x.py",
)
OLD = 1_000_000_000  # a date of files, in seconds
LINES_OF_A_PAGE = 66


def version():
    return (ROOT / "VERSION").read_text(encoding="ascii").strip()


def run(*words, **how):
    """Run a command, and return its error, or ''."""
    ran = subprocess.run(
        words,
        stdout=subprocess.PIPE,
        stderr=subprocess.STDOUT,
        text=True,
        errors="replace",
        check=False,
        **how,
    )
    return ran.stdout.strip() or f"status {ran.returncode}" if ran.returncode else ""


def clone_elsewhere(room):
    """Clone the repository with uncommitted changes and the same bin/, but with stray files, other
    dates and, for root, another owner."""
    clone = pathlib.Path(room, "elsewhere", "clone of another name")
    clone.parent.mkdir(mode=0o755)
    subprocess.run(["git", "clone", "-q", ROOT, clone], check=True)
    changes = subprocess.run(
        ["git", "diff", "--binary", "HEAD"], cwd=ROOT, check=True, capture_output=True
    ).stdout
    if changes:
        subprocess.run(["git", "apply", "--index"], cwd=clone, input=changes, check=True)
    shutil.copytree(ROOT / "bin", clone / "bin")
    for stray in STRAY:
        (clone / stray).write_text("not tracked\n", encoding="ascii")
    for path in [clone.parent, *clone.parent.rglob("*")]:
        if not path.is_symlink() and ".git" not in path.parts:
            os.utime(path, (OLD, OLD))
        if os.geteuid() == 0:
            os.chown(path, NOBODY, NOBODY, follow_symlinks=False)
    return clone


def made_elsewhere(room):
    """Make the release in another clone, as another user with another umask, and return its folder
    and the error."""
    os.chmod(room, 0o755)
    clone = clone_elsewhere(room)
    words = ["sh", "-c", "umask 077; exec sh tools/build/dist.sh out"]
    if os.geteuid() == 0:
        words = ["setpriv", f"--reuid={NOBODY}", f"--regid={NOBODY}", "--clear-groups", *words]
    fault = run(*words, cwd=clone, env={**os.environ, **ELSEWHERE, "HOME": str(clone.parent)})
    return clone / "out", fault


def members(path):
    """Return the files of an artefact, by their names in it."""
    if path.suffix in (".whl", ".zip"):
        with zipfile.ZipFile(path) as archive:
            return {it: archive.read(it) for it in archive.namelist() if not it.endswith("/")}
    if path.suffix == ".deb":
        with tempfile.TemporaryDirectory() as room:
            subprocess.run(["dpkg-deb", "-R", path, room], check=True)
            return {
                it.relative_to(room).as_posix(): it.read_bytes()
                for it in pathlib.Path(room).rglob("*")
                if it.is_file()
            }
    if path.name.endswith(".tar.gz"):
        with tarfile.open(path) as archive:
            return {it.name: archive.extractfile(it).read() for it in archive if it.isfile()}
    return {path.name: path.read_bytes()}


def check_licences(count, path, found):
    """Check that an artefact contains the licences of rcell and the notices of all linked
    libraries, byte for byte."""
    kind = next((it for it in LICENCES if path.name.endswith(it.format(version=version()))), None)
    if kind is None:
        return
    folder, has_own = LICENCES[kind]
    with tempfile.TemporaryDirectory() as room:
        linked.copy_all(pathlib.Path(room, "all"), has_own)
        wanted = {
            it.relative_to(f"{room}/all").as_posix(): it.read_bytes()
            for it in pathlib.Path(room, "all").rglob("*")
            if it.is_file()
        }
    lost = [
        name
        for name, text in wanted.items()
        if not any(it.endswith(f"{folder}/{name}") and found[it] == text for it in found)
    ]
    count.add(f"licences in {path.name}", " ".join(lost))


def check_paths(count, path, found, places):
    """Check that no file of an artefact contains a path of the folders in which it was made, or of
    the kit."""
    held = [
        f"{name}: {place}"
        for name, text in found.items()
        for place in places
        if place.encode() in (gzip.decompress(text) if name.endswith(".gz") else text)
    ]
    count.add(f"no path of this machine in {path.name}", "; ".join(held))


def check_page(count, path, found):
    """Check that PROVED.txt, in the artefacts that contain it, is one page."""
    for lines in (
        text.count(b"\n") for name, text in found.items() if name.endswith("/PROVED.txt")
    ):
        count.add(
            f"the page of PROVED.txt in {path.name}",
            "" if lines <= LINES_OF_A_PAGE else f"{lines} lines",
        )


def faults_of_bill(bill, folder):
    """Return the errors in a bill of materials in SPDX 2.3."""
    needed = {
        "spdxVersion",
        "dataLicense",
        "SPDXID",
        "name",
        "documentNamespace",
        "creationInfo",
        "packages",
        "files",
        "relationships",
    }
    faults = [f"no {key}" for key in needed - {*bill}]
    parts = bill["packages"] + bill["files"]
    names = [it["SPDXID"] for it in parts]
    faults += [f"{it} twice" for it in names if names.count(it) > 1]
    faults += [
        f"{it['SPDXID']}: no {key}"
        for it in parts
        for key in ("licenseConcluded", "copyrightText")
        if not it.get(key)
    ]
    faults += [
        f"{it['name']}: no {key}"
        for it in bill["packages"]
        for key in ("versionInfo", "downloadLocation", "licenseDeclared")
        if not it.get(key)
    ]
    faults += [
        f"{it} of no part"
        for one in bill["relationships"]
        for it in (one["spdxElementId"], one["relatedSpdxElement"])
        if it not in (*names, "SPDXRef-DOCUMENT")
    ]
    wanted = {
        *(it.name for it in build.crates_of(build.PROGRAMS)),
        *linked.libraries(),
        *linked.OF_DEBIAN,
    }
    faults += [f"{it} is missing" for it in wanted - {it["name"] for it in bill["packages"]}]
    own = {
        it["name"]: it["licenseConcluded"]
        for it in bill["packages"]
        if it["SPDXID"].startswith(("SPDXRef-crate", "SPDXRef-product"))
    }
    faults += [
        f"{name}: {licence}"
        for name, licence in own.items()
        if licence != licences_of_files.LICENCE
    ]
    for it in bill["files"]:
        sums = {one["algorithm"]: one["checksumValue"] for one in it["checksums"]}
        said = subprocess.run(
            ["sha256sum", folder / it["fileName"]], capture_output=True, text=True, check=False
        ).stdout.split(" ")[0]
        faults += [f"{it['fileName']}: another sum"] * (sums.get("SHA256") != said)
    listed = {it["fileName"][2:] for it in bill["files"]}
    return faults + [
        f"{it} is not listed"
        for it in os.listdir(folder)
        if it not in listed | {"SHA256SUMS"} and not it.endswith(".spdx.json")
    ]


def check_wheel(count, folder, room):
    """Check that the wheel states its processor, and that building it from the source archive gives
    the same wheel."""
    wheel, archive = next(folder.glob("*.whl")), folder / f"rcell-{version()}.tar.gz"
    text = next(
        text for name, text in members(wheel).items() if name.endswith("/METADATA")
    ).decode()
    count.add(
        "the wheel says that it needs x86-64-v2", "" if "x86-64-v2" in text else "METADATA does not"
    )
    with tarfile.open(archive) as files:
        files.extractall(f"{room}/sdist")
    epoch = subprocess.run(
        ["git", "log", "-1", "--format=%ct"], cwd=ROOT, check=True, capture_output=True, text=True
    ).stdout.strip()
    fault = run(
        "/usr/bin/python3",
        "-m",
        "hatchling",
        "build",
        "-t",
        "wheel",
        "-d",
        f"{room}/again",
        cwd=f"{room}/sdist/rcell-{version()}",
        env={**os.environ, "SOURCE_DATE_EPOCH": epoch},
    )
    again = next(pathlib.Path(room, "again").glob("*.whl"), None)
    is_same = not fault and again.read_bytes() == wheel.read_bytes()
    count.add("the wheel from the source archive", "" if is_same else fault or "other bytes")


def check_objects(count, clone, archive):
    """Check that in a clone of the same sources, the proved objects give the programs, with a
    warning, and that one changed line prevents this."""
    shutil.rmtree(clone / "bin", ignore_errors=True)
    subprocess.run(
        ["git", "config", "--global", "--add", "safe.directory", clone],
        env={**os.environ, "HOME": str(clone.parent)},
        check=True,
    )

    def take():
        words = ["python3", "tools/build/objects.py", "--from", archive, *build.PROGRAMS.values()]
        return subprocess.run(
            words,
            cwd=clone,
            stdout=subprocess.PIPE,
            stderr=subprocess.STDOUT,
            text=True,
            check=False,
        )

    ran = take()
    same = all(
        (clone / "bin" / name).exists()
        and (clone / "bin" / name).read_bytes() == (ROOT / "bin" / name).read_bytes()
        for name in build.PROGRAMS.values()
    )
    count.add(
        "the programs from the proved objects",
        ""
        if same and ran.stdout.count("NOT proved on this machine") == len(build.PROGRAMS)
        else ran.stdout,
    )
    with open(clone / "crates/cell_core_values/src/lib.rt", "a", encoding="utf-8") as source:
        source.write("// another line\n")
    ran = take()
    count.add(
        "the proved objects of other sources",
        "" if ran.returncode == 1 and "other sources" in ran.stdout else ran.stdout,
    )


def check_lintian(count, folder):
    if not shutil.which("lintian"):
        count.skip("lintian is not installed", "lintian")
        return
    count.add(
        "lintian",
        run("lintian", "--allow-root", "--fail-on", "error,warning", next(folder.glob("*.deb"))),
    )


def check_all(count, folder, room):
    """Run all of these checks on the release in a folder."""
    again, fault = made_elsewhere(room)
    count.add("the release, made elsewhere", fault)
    names = sorted(os.listdir(folder))
    if not fault:
        differing = [
            name
            for name in names
            if not (again / name).exists()
            or (again / name).read_bytes() != (folder / name).read_bytes()
        ]
        count.add(f"the same bytes of {len(names)} files", " ".join(differing))
    count.add(
        "the sums of SHA256SUMS",
        run("sha256sum", "--check", "--quiet", "--strict", "SHA256SUMS", cwd=folder),
    )
    for path in sorted(folder.iterdir()):
        found = members(path)
        check_licences(count, path, found)
        check_page(count, path, found)
        check_paths(count, path, found, [str(room), build.kit()])
    bill = json.loads(next(folder.glob("*.spdx.json")).read_text(encoding="utf-8"))
    count.add("the bill of materials", "; ".join(faults_of_bill(bill, folder)))
    check_wheel(count, folder, room)
    check_lintian(count, folder)
    check_objects(count, again.parent, next(folder.glob("*-objects.tar.gz")))

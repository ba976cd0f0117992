#!/usr/bin/env python3
"""Write a release's bill of materials, rcell-VERSION.spdx.json (SPDX 2.3).

    bill.py FOLDER        FOLDER contains the other files of the release

The bill lists what the programs are made from and linked with, with licences and SHA-256, and the
files of the release.
"""
import hashlib
import json
import os
import pathlib
import re
import subprocess
import sys
import time

import build
import linked

ROOT = pathlib.Path(build.ROOT)
ISLANDS = "examples/islands, examples/rasters and docs/qgis-result.png"
ISLANDS_LICENCE = "LGPL-3.0-or-later"
HOLDER = "2026 the Nibzoqel authors"
KIT = "Rattle kit"
LIBRARIES = {
    "libc6-dev": "/usr/lib/x86_64-linux-gnu/libc.a",
    "libgcc-12-dev": "/usr/lib/gcc/x86_64-linux-gnu/12/libgcc.a",
}


def identifier(*words):
    return "SPDXRef-" + "-".join(re.sub(r"[^A-Za-z0-9.-]", ".", word) for word in words)


def sum_of(path, kind="sha256"):
    with open(path, "rb") as file:
        return hashlib.file_digest(file, kind).hexdigest()


def sum_of_crate(crate):
    """Return a SHA-256 over the lines 'SHA-256  PATH' of a crate's sources."""
    lines = [f"{hashlib.sha256(text).hexdigest()}  {path}\n" for path, text in crate.files.items()]
    return hashlib.sha256("".join(lines).encode()).hexdigest()


def package(name, version, licence, sha256, says="", holder="NOASSERTION", group="library"):
    found = {
        "SPDXID": identifier(group, name),
        "name": name,
        "versionInfo": version,
        "downloadLocation": "NOASSERTION",
        "filesAnalyzed": False,
        "licenseConcluded": licence,
        "licenseDeclared": licence,
        "copyrightText": holder,
        "comment": says,
    }
    return (
        {**found, "checksums": [{"algorithm": "SHA256", "checksumValue": sha256}]}
        if sha256
        else found
    )


def packages(version):
    """Yield the parts of the programs, starting with rcell itself."""
    crates = build.crates_of(build.PROGRAMS)
    yield package(
        "rcell",
        version,
        linked.OWN,
        "",
        "rcell, rcell-pipe, their helpers, documents and examples",
        HOLDER,
        "product",
    )
    for it in crates:
        yield package(
            it.name,
            version,
            linked.OWN,
            sum_of_crate(it),
            "A crate; the sum is of the lines 'SHA-256  PATH' of its sources.",
            HOLDER,
            "crate",
        )
    for name, licence in linked.libraries().items():
        ported = linked.port_of(name)
        says = (
            f"Library of the {KIT}"
            + (f", after the Rust crate of version {ported}" if ported else "")
            + "; the sum is of its file format."
        )
        yield package(
            name,
            build.kit_version(),
            licence,
            sum_of(f"{build.kit()}/rlibs/{name}.rlib/format"),
            says,
        )
    for name in ("libos_c.a", "liblibc_c.a"):
        yield package(
            name,
            build.kit_version(),
            linked.NO_LICENCE,
            sum_of(f"{build.kit()}/c/{name}"),
            f"Archive of the {KIT}.",
        )
    for name, (licence, what) in linked.OF_DEBIAN.items():
        yield package(
            name,
            linked.version_of(name),
            licence,
            sum_of(LIBRARIES[name]),
            f"{what}, of Debian; the sum is of {os.path.basename(LIBRARIES[name])}.",
        )
    yield package(
        "islands",
        version,
        ISLANDS_LICENCE,
        "",
        f"The maps in {ISLANDS}, made from GSHHG 2.3.7 and DCW 2.1.1.",
        "Paul Wessel and Walter H. F. Smith",
        "data",
    )


def files(folder):
    for path in sorted(
        it
        for it in folder.iterdir()
        if it.is_file() and it.name != "SHA256SUMS" and not it.name.endswith(".spdx.json")
    ):
        sums = [
            {"algorithm": kind.upper(), "checksumValue": sum_of(path, kind)}
            for kind in ("sha1", "sha256")
        ]
        yield {
            "SPDXID": identifier("file", path.name),
            "fileName": f"./{path.name}",
            "checksums": sums,
            "licenseConcluded": linked.OWN,
            "licenseInfoInFiles": [linked.NO_LICENCE],
            "copyrightText": HOLDER,
        }


def relation(one, kind, other):
    return {"spdxElementId": one, "relationshipType": kind, "relatedSpdxElement": other}


def bill(folder):
    version = (ROOT / "VERSION").read_text(encoding="utf-8").strip()
    commit = subprocess.run(
        ["git", "log", "-1", "--format=%H %ct"],
        cwd=ROOT,
        check=True,
        capture_output=True,
        text=True,
    ).stdout.split()
    parts, made = list(packages(version)), list(files(folder))
    rcell = parts[0]["SPDXID"]
    kinds = {"crate": "GENERATED_FROM", "library": "STATIC_LINK", "data": "CONTAINS"}
    return {
        "spdxVersion": "SPDX-2.3",
        "dataLicense": "CC0-1.0",
        "SPDXID": "SPDXRef-DOCUMENT",
        "name": f"rcell-{version}",
        "documentNamespace": f"https://spdx.org/spdxdocs/rcell-{version}-{commit[0]}",
        "creationInfo": {
            "created": time.strftime("%Y-%m-%dT%H:%M:%SZ", time.gmtime(int(commit[1]))),
            "creators": ["Organization: the Nibzoqel authors", "Tool: tools/build/bill.py"],
        },
        "packages": parts,
        "files": made,
        "relationships": [relation("SPDXRef-DOCUMENT", "DESCRIBES", rcell)]
        + [relation(rcell, kinds[it["SPDXID"].split("-")[1]], it["SPDXID"]) for it in parts[1:]]
        + [relation(it["SPDXID"], "GENERATED_FROM", rcell) for it in made],
    }


def main():
    folder = pathlib.Path(sys.argv[1])
    made = bill(folder)
    target = folder / f"{made['name']}.spdx.json"
    target.write_text(json.dumps(made, indent=1) + "\n", encoding="utf-8")
    target.chmod(0o644)


if __name__ == "__main__":
    main()

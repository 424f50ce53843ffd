"""The software bill of materials (SBOM) of a release, in SPDX 2.3 as JSON.

It lists the release's packages and its source archive, the Rattle kit with the crates that the programs contain, and the
Debian packages that a package depends on. The kit's crates have no versions of their own: theirs is the kit's. What is
unknown is NOASSERTION, as SPDX demands.
"""
import dataclasses
import datetime
import hashlib
import pathlib
import re
from collections.abc import Sequence
from typing import Any

import repository
import sources
from program import TOP

# The programs that a package contains, and the package.
PROGRAMS = ("tap_server", "gate_send")
STATION = "bovtrila"
UNKNOWN = "NOASSERTION"
LICENCE = "Apache-2.0"


@dataclasses.dataclass
class Release:
    """What is released: the version, the commit with its moment in seconds, and the line by which the kit names itself."""
    version: str
    commit: str
    moment: int
    kit: str


def crates_of_kit(top: pathlib.Path = TOP) -> list[str]:
    """The kit's crates that the programs contain, by crates.txt: its lines name own crates and the kit's."""
    named = {name: line.partition(":")[2].split() for name, line in sources.workspace(top).items()}
    found, new = set(), set(PROGRAMS)
    while new:
        found |= new
        new = {other for name in new for other in named.get(name, ())} - found
    return sorted(found - set(named))


def field(package: pathlib.Path, name: str) -> str:
    """A field of a Debian package, empty where it has none."""
    return repository.said_by("dpkg-deb", "--field", package, name)


def dependencies(package: pathlib.Path) -> dict[str, str]:
    """The Debian packages that a package depends on, each with what the package says of it, as `python3 (>= 3.11)`."""
    said = ", ".join(filter(None, (field(package, name) for name in ("Pre-Depends", "Depends"))))
    return {re.split(r"[^a-z0-9.+-]", one)[0]: one for one in re.split(r"\s*[,|]\s*", said) if one}


def identifier(kind: str, name: str) -> str:
    """A name within the document: letters, digits, dots and dashes."""
    return f"SPDXRef-{kind}-" + re.sub(r"[^A-Za-z0-9.-]", "-", name)


def described(kind: str, name: str, version: str, **more: object) -> dict[str, Any]:
    """A package as SPDX has it, without a version where that is empty."""
    return {"SPDXID": identifier(kind, name), "name": name, **({"versionInfo": version} if version else {}),
            "downloadLocation": UNKNOWN, "filesAnalyzed": False, "licenseConcluded": UNKNOWN,
            "licenseDeclared": UNKNOWN, "copyrightText": UNKNOWN, **more}


def of_file(purpose: str, file: pathlib.Path, name: str, version: str) -> dict[str, Any]:
    """A file of the release as SPDX has it: with its digest, its licence and who made it."""
    owner = re.search(r"^Copyright \d+ (.*)$", (TOP / "NOTICE").read_text(), re.M)
    assert owner, "NOTICE says whose it is"
    digest = hashlib.sha256(file.read_bytes()).hexdigest()
    return described(purpose.title(), name, version, packageFileName=file.name, supplier=f"Organization: {owner[1]}",
                     primaryPackagePurpose=purpose, licenseDeclared=LICENCE, copyrightText=owner[0],
                     checksums=[{"algorithm": "SHA256", "checksumValue": digest}])


def document(release: Release, archive: pathlib.Path, packages: Sequence[pathlib.Path]) -> dict[str, Any]:
    """The document about a source archive and the Debian packages that were made of it."""
    source = of_file("SOURCE", archive, "bovtrila", release.version)
    kit = described("Kit", release.kit.split()[0], release.kit)
    crates = [described("Crate", name, release.kit, primaryPackagePurpose="LIBRARY") for name in crates_of_kit()]
    made = [of_file("INSTALL", file, field(file, "Package"), field(file, "Version")) for file in packages]
    own = {one["name"]: one["SPDXID"] for one in made}
    needed = [dependencies(file) for file in packages]
    debian = [described("Debian", name, "") for name in sorted(set().union(*needed) - set(own))]
    related = []
    for one, names in zip(made, needed):
        related += [("SPDXRef-DOCUMENT", "DESCRIBES", one["SPDXID"], None),
                    (one["SPDXID"], "GENERATED_FROM", source["SPDXID"], None),
                    (kit["SPDXID"], "BUILD_TOOL_OF", one["SPDXID"], None),
                    *((one["SPDXID"], "STATIC_LINK", crate["SPDXID"], None)
                      for crate in crates if one["name"] == STATION),
                    *((one["SPDXID"], "DEPENDS_ON", own.get(name) or identifier("Debian", name), said)
                      for name, said in names.items())]
    name, at = f"bovtrila-{release.version}", datetime.datetime.fromtimestamp(release.moment, datetime.UTC)
    created = {"created": at.strftime("%Y-%m-%dT%H:%M:%SZ"), "creators": [f"Tool: bovtrila-release-{release.version}"]}
    return {"spdxVersion": "SPDX-2.3", "dataLicense": "CC0-1.0", "SPDXID": "SPDXRef-DOCUMENT", "name": name,
            "documentNamespace": f"https://bovtrila.example/spdx/{name}-{release.commit}",
            "creationInfo": created, "packages": [*made, source, kit, *crates, *debian],
            "relationships": [{"spdxElementId": one, "relationshipType": kind, "relatedSpdxElement": other,
                               **({"comment": comment} if comment else {})} for one, kind, other, comment in related]}

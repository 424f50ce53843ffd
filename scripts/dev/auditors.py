"""The archive of a release for auditors: the program of the station's package, which needs no installation, with the pages that
an auditor reads.

Everything in it is taken from the Debian package, so its program is the one whose digest PROVED has.
"""
import gzip
import io
import pathlib
import tarfile
from collections.abc import Iterator

import sbom

# The pages, and other files: where the package has each of them, and its place in the archive.
PAGES = ("AUDIT", "COMMANDS", "FARES", "FAULTS", "GLOSSARY", "JOURNAL", "TABLE")
DOCUMENTS = "usr/share/doc/bovtrila/"
FILES = {"usr/bin/bovtrila": "bovtrila", f"{DOCUMENTS}PROVED": "PROVED", f"{DOCUMENTS}copyright": "copyright",
         "usr/share/bovtrila/docs/example.toml": "example.toml",
         **{f"{DOCUMENTS}{name}.md": f"doc/{name}.md" for name in PAGES}}
README = """Bovtrila {version} for auditors
{line}

The program of the package bovtrila, to be run without installing it. It reads a
station's journal and fare tables, and changes neither:

  ./bovtrila verify --journal copy.journal
  ./bovtrila balances --table fares.toml --journal copy.journal
  ./bovtrila --help

doc/AUDIT.md describes an audit step by step. In it `bovtrila` is ./bovtrila.

The program runs on Linux on an x86-64 processor with {needed}, the
system's C library. It needs nothing else.

To check that it is the program that was proved, compare its digest with the
line of /usr/bin/bovtrila in PROVED, and PROVED with the release's SHA256SUMS:

  sha256sum bovtrila
  grep /usr/bin/bovtrila PROVED
"""


def content(tree: pathlib.Path, place: str) -> bytes:
    """A file of the package's tree, which may be compressed there as Debian's documents are."""
    file = tree / place
    return file.read_bytes() if file.is_file() else gzip.decompress(file.with_name(f"{file.name}.gz").read_bytes())


def entries(tree: pathlib.Path, version: str, needed: str) -> Iterator[tuple[str, bytes]]:
    """The archive's files in the order of their names."""
    line = "=" * len(f"Bovtrila {version} for auditors")
    found = {to: content(tree, place) for place, to in FILES.items()}
    found["README"] = README.format(version=version, line=line, needed=needed).encode()
    yield from sorted(found.items())


def write(file: pathlib.Path, tree: pathlib.Path, package: pathlib.Path, release: sbom.Release) -> None:
    """Writes the archive from the extracted package, with no moment but the commit's and no user."""
    needed = sbom.dependencies(package)["libc6"]
    written = io.BytesIO()
    with tarfile.open(fileobj=written, mode="w", format=tarfile.USTAR_FORMAT) as tar:
        for name, text in entries(tree, release.version, needed):
            entry = tarfile.TarInfo(f"{name_of(release)}/{name}")
            entry.size, entry.mtime = len(text), release.moment
            entry.mode = 0o755 if name == "bovtrila" else 0o644
            tar.addfile(entry, io.BytesIO(text))
    file.write_bytes(gzip.compress(written.getvalue(), mtime=0))


def name_of(release: sbom.Release) -> str:
    """The name of the archive's folder, and of the archive without its ending."""
    return f"bovtrila-verify-{release.version}-x86_64"

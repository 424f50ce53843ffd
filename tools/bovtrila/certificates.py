# SPDX-License-Identifier: Apache-2.0
"""When certificates end: for bovtrila-exporter on the server's machine, and bovtrila-authority on its own."""
import csv
import datetime
import pathlib
import subprocess

# The authority's list of what it has signed, which is given to the server's machine beside its certificates: this
# heading, and a row for each certificate, with the moment of its end in UTC.
LIST, HEADING = "certificates", ("name", "state", "ends", "serial")
MOMENT = "%Y-%m-%dT%H:%M:%SZ"
# What each file is, and how openssl is asked for its end.
FILES = {"server": ("server.pem", "x509", "-enddate"), "authority": ("authority.pem", "x509", "-enddate"),
         "revocation list": ("revoked.pem", "crl", "-nextupdate")}


def end_of(path: pathlib.Path, kind: str, option: str) -> float:
    """When the certificate or the list in a file ends, in seconds since 1970. Raises OSError where it can't be read."""
    with open(path, "rb") as file:
        done = subprocess.run(["openssl", kind, "-noout", option], stdin=file, capture_output=True, text=True)
    if done.returncode:
        raise OSError(0, "openssl reads no certificate in it", str(path))
    text = done.stdout.strip().partition("=")[2]
    return datetime.datetime.strptime(text, "%b %d %H:%M:%S %Y GMT").replace(tzinfo=datetime.UTC).timestamp()


def listed(path: pathlib.Path) -> dict[str, float]:
    """When each gate's certificate ends, by the authority's list: the last one of those that aren't revoked."""
    found: dict[str, float] = {}
    with open(path, newline="") as file:
        for row in csv.DictReader(file):
            if row["state"] != "revoked" and row["name"] != "server":
                moment = datetime.datetime.strptime(row["ends"], MOMENT).replace(tzinfo=datetime.UTC).timestamp()
                found[f"gate {row['name']}"] = max(moment, found.get(f"gate {row['name']}", 0))
    return found


def ends(folder: str | pathlib.Path) -> tuple[dict[str, float], list[str]]:
    """When each certificate in a folder of the server's machine ends, by its name, and what is wrong with the others.
    Nothing is wrong where there is no such folder: then there is no TLS."""
    folder, found, wrongs = pathlib.Path(folder), dict[str, float](), list[str]()
    try:
        if not folder.is_dir():
            return found, wrongs
        for name, (file, kind, option) in FILES.items():
            try:
                found[name] = end_of(folder / file, kind, option)
            except OSError as error:
                wrongs.append(f"{folder / file}: {error.strerror}")
        if (folder / LIST).exists():
            found.update(listed(folder / LIST))
    except OSError as error:
        wrongs.append(f"{error.filename or folder}: {error.strerror}")
    except (KeyError, ValueError):
        wrongs.append(f"{folder / LIST}: this is no list of bovtrila-authority")
    return found, wrongs

# SPDX-License-Identifier: Apache-2.0
"""Manages the station's own certificate authority: who may connect to a server through TLS (OPERATING.md, "Who
may connect"). It runs openssl, and asks no questions.

    begin FOLDER --name HOST ..  makes the authority, the server's certificate
                                 for these names or addresses, and an empty
                                 revocation list. If run again, it makes what
                                 is missing
    gate FOLDER NAME ..          makes a certificate for each gate that has
                                 none. NAME is the gate's number, from 0 to
                                 65535, or a name with a letter, such as a role
                                 and a number: barrier-7, machine-3. A server's
                                 door has rules by these names
    revoke FOLDER NAME ..        adds the gates' certificates to the revocation
                                 list. `gate` then makes new ones
    renew FOLDER [NAME ..]       makes the server's certificate and the
                                 revocation list anew, or these gates'
                                 certificates. The old certificates stay valid
                                 until they end
    list FOLDER [--ending DAYS]  prints each certificate, whether it is valid,
                                 and when it ends. With --ending it prints only
                                 what ends within DAYS days, including the
                                 authority's own certificate and the
                                 revocation list

The files that it makes, and who needs them:

    FOLDER/authority.pem            the server and every gate
    FOLDER/server.pem, server.key   the server
    FOLDER/revoked.pem              the server, again after each revocation
    FOLDER/certificates             the server's bovtrila-exporter: when each
                                    certificate ends
    FOLDER/gates/7.pem, 7.key       gate 7 alone
    FOLDER/private/                 nobody: the authority's own key, and what
                                    it has signed

Anyone who has FOLDER/private can issue certificates. Store FOLDER where no gate can reach it, with a copy elsewhere.

The status is 0 if everything was done, 1 if something is wrong, 2 for a wrong command line, and 3 if `list --ending`
printed something.

    bovtrila-authority begin tls --name gates.station --name 192.168.7.2
    bovtrila-authority gate tls 7 8 9
    bovtrila-authority gate tls barrier-7 machine-3 back-office
    bovtrila-authority revoke tls 8
    bovtrila-authority renew tls 7 9
    bovtrila-authority list tls
    bovtrila-authority list tls --ending 60
"""
import argparse
import contextlib
import datetime
import fcntl
import ipaddress
import os
import pathlib
import re
import subprocess
import sys
import tempfile
from collections.abc import Iterable, Iterator, Sequence

from bovtrila import certificates
from bovtrila.wire import Wrong

# How many days the authority, a server's and a gate's certificate count. The list counts as long as the authority:
# where it ends, nobody is let in.
AUTHORITY, SERVER, GATE = 7300, 1095, 1095
CURVE = ["-algorithm", "EC", "-pkeyopt", "ec_paramgen_curve:P-256"]
CONFIG = """\
[ca]
default_ca = station
[station]
database = {folder}/private/index
serial = {folder}/private/serial
crlnumber = {folder}/private/crlnumber
new_certs_dir = {folder}/private/signed
certificate = {folder}/authority.pem
private_key = {folder}/private/authority.key
default_md = sha256
policy = name
unique_subject = no
[name]
commonName = supplied
[req]
distinguished_name = nothing
prompt = no
[nothing]
[authority]
basicConstraints = critical, CA:TRUE, pathlen:0
keyUsage = critical, keyCertSign, cRLSign
subjectKeyIdentifier = hash
[server]
basicConstraints = critical, CA:FALSE
keyUsage = critical, digitalSignature
extendedKeyUsage = serverAuth
authorityKeyIdentifier = keyid
subjectAltName = {names}
[gate]
basicConstraints = critical, CA:FALSE
keyUsage = critical, digitalSignature
extendedKeyUsage = clientAuth
authorityKeyIdentifier = keyid
"""


# Certificates that were signed, or the authority's own files: serial, name, state and last moment in UTC.
Signed = list[tuple[str, str, str, datetime.datetime]]
# The highest number of a gate: a frame has two bytes for it.
LAST_GATE = 65_535


def gate_name(text: str) -> str:
    if text.isdecimal() and str(int(text)) != text:
        raise argparse.ArgumentTypeError(f"'{text}' is no number of a gate: write {int(text)}")
    if text.isdecimal() and int(text) > LAST_GATE:
        raise argparse.ArgumentTypeError(f"'{text}' is no number of a gate: they go from 0 to {LAST_GATE}")
    if not re.fullmatch(r"[A-Za-z0-9][A-Za-z0-9_.-]{0,62}", text, re.ASCII):
        raise argparse.ArgumentTypeError(f"'{text}' is no name of a gate: letters, digits, '.', '-' and '_'")
    return text


def host_name(text: str) -> str:
    """A name or an address of the server, as a certificate has it."""
    try:
        return f"IP:{ipaddress.ip_address(text)}"
    except ValueError:
        if re.fullmatch(r"[A-Za-z0-9]([A-Za-z0-9.-]{0,251}[A-Za-z0-9])?", text, re.ASCII):
            return f"DNS:{text}"
    raise argparse.ArgumentTypeError(f"'{text}' is no name of a machine and no address")


def days(text: str) -> int:
    if not re.fullmatch("[0-9]{1,5}", text, re.ASCII) or not 1 <= int(text) <= 36_500:
        raise argparse.ArgumentTypeError(f"'{text}' is no number of days from 1 to 36500")
    return int(text)


def options() -> argparse.Namespace:
    parser = argparse.ArgumentParser(description=__doc__, formatter_class=argparse.RawTextHelpFormatter)
    acts = parser.add_subparsers(dest="act", required=True, metavar="begin|gate|revoke|renew|list")
    for act, many in (("begin", None), ("gate", "+"), ("revoke", "+"), ("renew", "*"), ("list", None)):
        one = acts.add_parser(act)
        one.add_argument("folder", metavar="FOLDER", type=pathlib.Path)
        if many:
            one.add_argument("names", metavar="NAME", type=gate_name, nargs=many)
        if act == "begin":
            one.add_argument("--name", metavar="HOST", type=host_name, action="append", required=True,
                             help="a name or an address by which gates connect to the server")
        if act in ("begin", "gate", "renew"):
            one.add_argument("--days", metavar="N", type=days, default=GATE if act == "gate" else SERVER,
                             help="how many days the certificate is valid (%(default)s)")
        if act == "list":
            one.add_argument("--ending", metavar="DAYS", type=days, help="print only what ends within this number of days")
    return parser.parse_args()


class Authority:
    """The authority in a folder."""

    def __init__(self, folder: pathlib.Path) -> None:
        self.folder = folder.absolute()
        self.private, self.gates = self.folder / "private", self.folder / "gates"
        if re.search(r"[\s$#\\'\"]", str(self.folder)):
            raise Wrong(f"{folder}: a path with blanks or with one of $ # \\ ' \" isn't taken")

    @contextlib.contextmanager
    def held(self) -> Iterator[None]:
        """Holds off another run in this folder."""
        lock = os.open(self.folder, os.O_RDONLY)
        try:
            fcntl.flock(lock, fcntl.LOCK_EX)
            yield
        finally:
            os.close(lock)

    def openssl(self, *words: object) -> str:
        """Runs openssl by the authority's configuration: what it writes."""
        names = (self.private / "names").read_text().strip() if (self.private / "names").exists() else "DNS:none"
        with tempfile.NamedTemporaryFile("w", suffix=".conf") as config:
            config.write(CONFIG.format(folder=self.folder, names=names))
            config.flush()
            line = ["openssl", *(config.name if word is CONFIG else str(word) for word in words)]
            done = subprocess.run(line, stdin=subprocess.DEVNULL, capture_output=True, text=True)
        if done.returncode:
            raise Wrong(f"openssl {line[1]}: {done.stderr.strip() or done.returncode}")
        return done.stdout

    def key(self, path: pathlib.Path) -> None:
        """Makes a key that its owner alone reads."""
        beside = path.with_name(path.name + ".new")
        beside.unlink(missing_ok=True)
        os.close(os.open(beside, os.O_WRONLY | os.O_CREAT, 0o600))
        self.openssl("genpkey", *CURVE, "-out", beside)
        os.chmod(beside, 0o600)
        os.replace(beside, path)

    def sign(self, path: pathlib.Path, name: str, kind: str, count: int) -> None:
        """Makes a certificate and its key, the certificate last."""
        self.key(path.with_suffix(".key"))
        with tempfile.TemporaryDirectory() as room:
            asked, made = f"{room}/asked", pathlib.Path(room) / "made"
            self.openssl("req", "-new", "-config", CONFIG, "-key", path.with_suffix(".key"), "-subj", f"/CN={name}",
                         "-out", asked)
            self.openssl("ca", "-batch", "-notext", "-config", CONFIG, "-extensions", kind, "-days", count,
                         "-in", asked, "-out", made)
            write(path, made.read_text())
        print(f"made {path}, for {count} days")

    def begin(self, names: Sequence[str], count: int) -> None:
        self.folder.mkdir(parents=True, exist_ok=True)
        self.private.mkdir(mode=0o700, exist_ok=True)
        self.gates.mkdir(mode=0o700, exist_ok=True)
        with self.held():
            (self.private / "signed").mkdir(exist_ok=True)
            for name, content in (("index", ""), ("crlnumber", "01\n"), ("names", ", ".join(names) + "\n")):
                if not (self.private / name).exists():
                    write(self.private / name, content)
            if (self.private / "names").read_text().strip() != ", ".join(names):
                raise Wrong(f"{self.folder} was begun for {(self.private / 'names').read_text().strip()}: give these "
                            "names, or begin in another folder")
            is_new = not (self.folder / "authority.pem").exists()
            if is_new:
                self.key(self.private / "authority.key")
                made = self.openssl("req", "-x509", "-new", "-config", CONFIG, "-key", self.private / "authority.key",
                                    "-subj", "/CN=Bovtrila authority", "-days", AUTHORITY, "-extensions", "authority")
                if not (self.private / "serial").exists():
                    write(self.private / "serial", os.urandom(8).hex() + "\n")
                write(self.folder / "authority.pem", made)
                print(f"made {self.folder / 'authority.pem'}, for {AUTHORITY} days")
            if not (self.folder / "server.pem").exists():
                self.sign(self.folder / "server.pem", "server", "server", count)
            if not (self.folder / "revoked.pem").exists():
                self.tell_revoked()
            self.tell_signed()

    def tell_signed(self) -> None:
        """Writes whose certificates end when, where that isn't written yet."""
        rows = [(name, state, f"{ends:{certificates.MOMENT}}", serial) for serial, name, state, ends in self.signed()]
        text = "".join(",".join(row) + "\n" for row in (certificates.HEADING, *rows))
        path = self.folder / certificates.LIST
        if not path.exists() or path.read_text() != text:
            write(path, text)

    def tell_revoked(self) -> None:
        """Makes the list of what is revoked, which counts as long as the authority."""
        write(self.folder / "revoked.pem", self.openssl("ca", "-gencrl", "-config", CONFIG, "-crldays", AUTHORITY))
        print(f"made {self.folder / 'revoked.pem'}: give it to the server, and reload HAProxy or stunnel")

    def gate(self, names: Iterable[str], count: int) -> None:
        for name in names:
            path = self.gates / f"{name}.pem"
            if path.exists():
                print(f"{path} is there already")
            else:
                self.sign(path, name, "gate", count)

    def renew(self, names: Sequence[str], count: int) -> None:
        """Makes certificates of gates anew. The one before goes out of the way, and counts until it ends."""
        self.find(names)
        for name in names:
            path = self.gates / f"{name}.pem"
            kept = self.private / f"{name}-{self.serial(path)}.pem"
            write(kept, path.read_text())
            self.sign(path, name, "gate", count)

    def find(self, names: Iterable[str]) -> None:
        """Sees to it that each of these gates has a certificate."""
        for name in names:
            if not (self.gates / f"{name}.pem").exists():
                raise Wrong(f"gate {name} has no certificate in {self.gates}")

    def serial(self, path: pathlib.Path) -> str:
        return self.openssl("x509", "-noout", "-serial", "-in", path).strip().partition("=")[2]

    def revoke(self, names: Sequence[str]) -> None:
        self.find(names)
        for name in names:
            path = self.gates / f"{name}.pem"
            serial = self.serial(path)
            # Those that it had before are refused too: they count until they end.
            for other, whose, state, _ in self.signed():
                if whose == name and state != "revoked":
                    self.openssl("ca", "-config", CONFIG, "-revoke", self.private / "signed" / f"{other}.pem")
            # The list comes before the certificate is out of the way: a run that was cut off is given again.
            self.tell_revoked()
            path.with_suffix(".key").unlink(missing_ok=True)
            os.replace(path, self.private / f"{name}-{serial}.pem")
            print(f"revoked {name}")

    def signed(self) -> Signed:
        """Each certificate that was signed: serial, name, state and its last moment."""
        found, now = Signed(), f"{datetime.datetime.now(datetime.timezone.utc):%y%m%d%H%M%SZ}"
        for line in (self.private / "index").read_text().splitlines():
            state, ends, _, serial, _, name = line.split("\t")
            # The database has two digits of a year up to 2049.
            is_over = ends < now if len(ends) == 13 else False
            said = "revoked" if state == "R" else "expired" if is_over else "valid"
            found.append((serial, name.removeprefix("/CN="), said,
                          datetime.datetime.strptime(ends, "%y%m%d%H%M%SZ" if len(ends) == 13 else "%Y%m%d%H%M%SZ")))
        return found

    def list(self, ending: int | None) -> int:
        """Tells each certificate, or what ends within so many days: how many were told."""
        rows = self.signed()
        if ending is not None:
            last = datetime.datetime.now(datetime.timezone.utc).replace(tzinfo=None) + datetime.timedelta(ending)
            rows = [*self.own(), *self.counting()]
            rows = [row for row in rows if row[3] < last]
        for serial, name, state, ends in rows:
            print(f"{name:<16} {state:<8} until {ends:%Y-%m-%d}  {serial}".rstrip())
        return len(rows)

    def own(self) -> Signed:
        """The authority's certificate and its list of what is revoked, as rows of those that it has signed."""
        found, now = Signed(), datetime.datetime.now(datetime.timezone.utc).timestamp()
        for name in ("authority", "revocation list"):
            file, kind, option = certificates.FILES[name]
            end = certificates.end_of(self.folder / file, kind, option)
            ends = datetime.datetime.fromtimestamp(end, datetime.timezone.utc).replace(tzinfo=None)
            found.append(("", name, "valid" if end > now else "expired", ends))
        return found

    def counting(self) -> Signed:
        """Of each name the certificate that ends last, but for the names whose certificates are all revoked."""
        found: dict[str, tuple[str, str, str, datetime.datetime]] = {}
        for row in self.signed():
            if row[2] != "revoked" and (row[1] not in found or found[row[1]][3] <= row[3]):
                found[row[1]] = row
        return list(found.values())


def write(path: pathlib.Path, content: str) -> None:
    """Writes a file whole."""
    beside = path.with_name(path.name + ".new")
    beside.write_text(content)
    os.replace(beside, path)


def main() -> int | None:
    asked = options()
    try:
        authority = Authority(asked.folder)
        if asked.act == "begin":
            authority.begin(asked.name, asked.days)
            return None
        if not (authority.folder / "revoked.pem").exists():
            raise Wrong(f"{asked.folder}: no authority is there; begin one")
        with authority.held():
            if asked.act == "gate":
                authority.gate(asked.names, asked.days)
            elif asked.act == "revoke":
                authority.revoke(asked.names)
            elif asked.act == "renew" and asked.names:
                authority.renew(asked.names, asked.days)
            elif asked.act == "renew":
                authority.sign(authority.folder / "server.pem", "server", "server", asked.days)
                authority.tell_revoked()
            authority.tell_signed()
            if asked.act == "list" and authority.list(asked.ending) and asked.ending is not None:
                return 3
    except Wrong as wrong:
        sys.exit(f"authority: {wrong}")
    except FileNotFoundError as error:
        sys.exit(f"authority: {error.filename} isn't there"
                 + ("; apt-get install openssl" if error.filename == "openssl" else ""))
    except OSError as error:
        sys.exit(f"authority: {error.filename or asked.folder}: {error.strerror}")
    return None
